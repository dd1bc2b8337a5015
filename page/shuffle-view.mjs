// The shuffle checker: two patches, their regions, and what every order gives.
import { byId, make } from './dom.mjs';
import { regionTrouble, areApart, operationsOf, withPointers, countShuffles, allShuffles, someShuffles, nameOrder,
    shuffled, foretold } from './shuffles.mjs';
import { describe, toolLine, many } from './words.mjs';

const NAMES = ['A', 'B'], SEED = 1, AT_ONCE = 100, ROWS = 8, decoder = new TextDecoder();
// Numbers that a shuffle may have although neither patch has them: the joined text, its
// values and its result are longer.
const LIMITS = [2, 6, 9, 16];
const pause = () => new Promise(resolve => setTimeout(resolve));
const listed = (word, ops) => `${word}${ops.length === 1 ? '' : 's'} ${ops.join(', ')}`;

// A condition of the theorem: whether it holds, and in words.
function insideCondition(calls, name, operations, region) {
    const trouble = regionTrouble(calls, region);
    if (trouble) return [false, `Region ${name} ${trouble}`];
    const [out, unknown] = [false, undefined].map(inside => withPointers(calls, region, operations, inside));
    if (out.length) return [false, `Patch ${name} is not strictly inside region ${name}: ${listed('operation', out)}`];
    if (unknown.length) {
        return [false, `Patch ${name} has pointers too long to be judged: ${listed('operation', unknown)}`];
    }
    return [true, `Patch ${name} is strictly inside region ${name}`];
}

function patchConditions(calls, name, bytes, text, region) {
    const found = calls.inspect(bytes);
    if (found.number !== 0) {
        return { conditions: [[false, `Patch ${name} is not well formed: ${describe({ ...found, pointer: 0 })}`]] };
    }
    const operations = operationsOf(text), count = many(operations.length, 'operation');
    return { operations, conditions: [[true, `Patch ${name} is well formed: ${count}`],
        insideCondition(calls, name, operations, region)] };
}

// Runs each order, and gathers what comes out. told: called now and then with the
// number of orders so far; it gives false to stop.
async function runOrders(calls, documentBytes, patches, orders, told) {
    const alone = patches.map(patch => calls.apply(documentBytes, shuffled(patch.map(() => 0), [patch])));
    const outcomes = new Map(), found = { alone, tried: 0, agreed: 0, limits: 0, text: undefined };
    for (const order of orders) {
        const answer = calls.apply(documentBytes, shuffled(order, patches)), line = toolLine(answer);
        const expected = foretold(order, alone), done = answer.number === 0;
        const outcome = outcomes.get(line) ?? { line, count: 0, example: nameOrder(order) };
        outcomes.set(line, outcome);
        outcome.count++;
        found.tried++;
        if (done) found.text ??= answer.written;
        if (done && expected.number === 0 && line === decoder.decode(found.text) ||
            !done && expected.number === answer.number && expected.op === answer.op) found.agreed++;
        else if (LIMITS.includes(answer.number)) found.limits++;
        if (found.tried % AT_ONCE === 0 && !await told(found.tried)) return undefined;
    }
    return { ...found, outcomes: [...outcomes.values()].sort((a, b) => b.count - a.count) };
}

// The verdict in a sentence, and whether it is good. held: all conditions hold.
function verdict(held, total, { tried, agreed, limits, text, outcomes }) {
    const count = tried.toLocaleString('en'), one = total === 1n;
    const orders = one ? 'The one order' : BigInt(tried) === total ? `All ${count} orders` :
        `${count} of ${total.toLocaleString('en')} orders, chosen by seed ${SEED},`;
    if (agreed === tried && text) {
        return [true, `${orders} ${one ? 'gives' : 'give the same'} ${many(text.length, 'byte')}.`];
    }
    if (agreed === tried) {
        return [held, `${orders} ${one ? 'is refused' : 'are refused, each'} at the first operation at which ` +
            'its own patch ends alone, with its number.'];
    }
    if (agreed + limits === tried) {
        return [held, `${orders} ${one ? 'does' : 'do'} as the theorem says; ${limits.toLocaleString('en')} of them ` +
            `met a limit (${LIMITS.join(', ')}).`];
    }
    return [false, `The order matters: ${many(outcomes.length, 'outcome')} in ${many(tried, 'order')}.`];
}

export function shuffleView(calls, documentEditor, editors) {
    const regions = ['region-a', 'region-b'].map(byId), most = byId('most-orders'), say = byId('verdict');
    let run = 0;
    const show = (good, words) => {
        say.className = `status ${good === undefined ? '' : good ? 'done' : 'refused'}`;
        byId('verdict-words').textContent = words;
    };
    const showConditions = conditions => byId('conditions').replaceChildren(...conditions.map(([good, words]) =>
        make('li', { className: good ? 'yes' : 'no' },
            make('span', { className: 'sign' }, good ? 'yes' : 'no'), words)));
    const showOutcomes = ({ outcomes, alone }) => {
        byId('alone').textContent = alone.map((answer, one) => `${NAMES[one]} alone: ${describe(answer)}.`).join(' ');
        byId('outcomes').hidden = false;
        byId('outcome-rows').replaceChildren(...outcomes.slice(0, ROWS).map(({ count, line, example }) => make('tr', {},
            make('td', { className: 'number' }, count.toLocaleString('en')),
            make('td', { className: 'line' }, line), make('td', { className: 'order' }, example))));
        byId('more').textContent = outcomes.length > ROWS ? `and ${many(outcomes.length - ROWS, 'outcome')} more` : '';
    };
    const check = async () => {
        const mine = ++run;
        const [left, right] = editors.map((editor, one) =>
            patchConditions(calls, NAMES[one], editor.bytes, editor.text, regions[one].value));
        const conditions = [...left.conditions, ...right.conditions];
        if (regions.every(region => !regionTrouble(calls, region.value))) {
            const apart = areApart(calls, ...regions.map(region => region.value));
            conditions.push([apart === true, apart ? 'The regions are apart' :
                apart === undefined ? 'The regions are too long to be compared' :
                    'The regions are not apart: one holds the other, or they are the same']);
        }
        showConditions(conditions);
        byId('outcomes').hidden = true;
        byId('alone').textContent = '';
        if (!left.operations || !right.operations) return show(false, 'No order can be tried.');
        const held = conditions.every(([good]) => good), patches = [left.operations, right.operations];
        const counts = patches.map(list => list.length), total = countShuffles(...counts);
        const limit = Math.min(100000, Math.max(2, Number(most.value) || 2));
        const orders = total <= BigInt(limit) ? allShuffles(...counts) : someShuffles(...counts, limit, SEED);
        const found = await runOrders(calls, documentEditor.bytes, patches, orders, async tried => {
            show(undefined, `${tried.toLocaleString('en')} orders so far`);
            await pause();
            return run === mine;
        });
        if (!found || run !== mine) return undefined;
        show(...verdict(held, total, found));
        return showOutcomes(found);
    };
    for (const control of [...regions, most]) control.addEventListener('input', check);
    return { run: check };
}
