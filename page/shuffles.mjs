// Two patches and their shuffles. Where a pointer lies in a region is asked of the proved
// library: a move of the region to the pointer is refused with 14 exactly where the
// region's tokens are a proper prefix of the pointer's.
import { outline, stringMember } from './json.mjs';

const encoder = new TextEncoder();
const inspected = (calls, operation) => calls.inspect(encoder.encode(JSON.stringify([operation]))).number;

// What is wrong with a region, in words, or nothing.
export const regionTrouble = (calls, region) =>
    ({ 0: '', 2: 'is too long to be judged' })[inspected(calls, { op: 'remove', path: region })] ?? 'is no pointer';
// Whether a pointer is strictly inside a region; undefined where both together are too
// long for one patch.
export const isInside = (calls, region, pointer) =>
    ({ 0: false, 14: true })[inspected(calls, { op: 'move', from: region, path: pointer })];
// Whether neither region's tokens are a prefix of the other's, nor the same; or undefined.
export function areApart(calls, left, right) {
    const inside = [isInside(calls, left, right + '/x'), isInside(calls, right, left + '/x')];
    return inside.includes(true) ? false : inside.includes(undefined) ? undefined : true;
}

// The operations of a well-formed patch: their own text, and the pointers that they use.
export function operationsOf(text) {
    return outline(text).children.map(({ value }) => {
        const op = stringMember(value, 'op'), from = stringMember(value, 'from');
        const pointers = [stringMember(value, 'path'), ...(op === 'move' || op === 'copy' ? [from] : [])];
        return { source: value.source, op, pointers };
    });
}

// The operations, from 1, with a pointer for which isInside gives this.
export const withPointers = (calls, region, operations, inside) => operations.flatMap(({ pointers }, i) =>
    pointers.some(pointer => isInside(calls, region, pointer) === inside) ? [i + 1] : []);

// How many shuffles two lists of so many operations have.
export function countShuffles(left, right) {
    let count = 1n;
    for (let i = 1n; i <= right; i++) count = count * (BigInt(left) + i) / i;
    return count;
}

// All of them, as lists of 0 (an operation of the left patch) and 1 (of the right one).
export function* allShuffles(left, right) {
    if (left === 0 || right === 0) {
        yield [...Array(left).fill(0), ...Array(right).fill(1)];
        return;
    }
    for (const rest of allShuffles(left - 1, right)) yield [0, ...rest];
    for (const rest of allShuffles(left, right - 1)) yield [1, ...rest];
}

// A generator of numbers from 0 up to 1, the same for the same seed.
function* numbers(seed) {
    for (let state = seed >>> 0; ;) {
        state = (state + 0x6d2b79f5) >>> 0;
        let mixed = Math.imul(state ^ state >>> 15, state | 1);
        mixed ^= mixed + Math.imul(mixed ^ mixed >>> 7, mixed | 61);
        yield ((mixed ^ mixed >>> 14) >>> 0) / 4294967296;
    }
}

// So many different ones, chosen by the seed; both joins come first.
export function* someShuffles(left, right, count, seed) {
    const random = numbers(seed), seen = new Set();
    const fresh = order => !seen.has(order.join('')) && seen.add(order.join(''));
    for (const first of [0, 1]) {
        const order = Array.from({ length: left + right }, (_, i) => i < (first ? right : left) ? first : 1 - first);
        if (seen.size < count && fresh(order)) yield order;
    }
    while (seen.size < count) {
        const rest = [left, right], order = [];
        while (rest[0] + rest[1] > 0) {
            const one = random.next().value * (rest[0] + rest[1]) < rest[0] ? 0 : 1;
            order.push(one);
            rest[one]--;
        }
        if (fresh(order)) yield order;
    }
}

// An order as the bench says it: A1 B1 A2.
export function nameOrder(order) {
    const next = [1, 1];
    return order.map(one => 'AB'[one] + next[one]++).join(' ');
}

// The shuffle's patch text; each operation has its own bytes.
export function shuffled(order, patches) {
    const next = [0, 0];
    return encoder.encode(`[${order.map(one => patches[one][next[one]++].source).join(',')}]`);
}

// Where the shuffle ends by the theorem: the first operation in it at which its own patch
// ends alone, with the same number. alone: the answers of the two patches.
export function foretold(order, alone) {
    const next = [0, 0];
    for (const [i, one] of order.entries()) {
        if (++next[one] === alone[one].op) return { number: alone[one].number, op: i + 1 };
    }
    return { number: 0, op: 0 };
}
