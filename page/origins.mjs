// Which operation put each value there (T-11): in words, in colours, and a legend.
import { make } from './dom.mjs';
import { outline, stringMember } from './json.mjs';
import { many } from './words.mjs';

const HUES = 12, LONGEST = 120;
const short = words => words.length > LONGEST ? words.slice(0, LONGEST) + ' …' : words;

// The class of an origin: the document's ground, or one of the colours.
export const paint = origin => `origin-${origin === 0 ? 0 : (origin - 1) % HUES + 1}`;

// Gives for an origin its name, what it did, and where its text stands in the patch. A
// merge patch counts as operation 1, all of it.
export function authors(patchText, merge) {
    const root = outline(patchText);
    return origin => {
        if (origin === 0) return { name: 'the document', did: '' };
        if (merge) return { name: 'the merge patch', did: '', start: root.start, end: root.end };
        const { value } = root.children[origin - 1];
        const did = short(`${stringMember(value, 'op')} ${stringMember(value, 'path') || 'the root'}`);
        return { name: `operation ${origin}`, did, start: value.start, end: value.end };
    };
}

// What is said of a value.
export const putBy = ({ name, did }, origin) =>
    origin === 0 ? 'from the document' : `put here by ${name}${did ? ', ' + did : ''}`;

// The text of a value, each value in a part of its own. A value that is not by whoever put
// in the one around it is coloured and has a number; page.css shows the number, so that
// it is not in the text.
export function coloured(text, value, around = 0) {
    const { origin, number, start, end, children } = value, parts = [];
    let at = start;
    for (const { value: child } of children) {
        parts.push(text.slice(at, child.start), coloured(text, child, origin));
        at = child.end;
    }
    parts.push(text.slice(at, end));
    const other = origin !== undefined && origin !== around;
    const sign = other ? { className: paint(origin), 'data-badge': origin } : {};
    const by = other || number === 0 && origin !== undefined ? { 'data-origin': origin } : {};
    return make('span', { 'data-value': number, ...by, ...sign }, ...parts);
}

// The small number of an origin.
export const badge = origin =>
    make('span', { className: `badge ${paint(origin)}`, 'aria-hidden': 'true' }, String(origin));

// A button for each origin that is in the list, with how many values bear it.
export function showLegend(place, origins, author) {
    const counts = new Map();
    for (const origin of origins) counts.set(origin, (counts.get(origin) ?? 0) + 1);
    place.replaceChildren(...[...counts.keys()].sort((a, b) => a - b).map(origin => {
        const { name, did } = author(origin), count = many(counts.get(origin), 'value');
        return make('li', {}, make('button', { type: 'button', id: `by-${origin}`, className: 'by',
            'data-origin': origin, 'aria-pressed': 'false', 'aria-label': `${name}${did ? ', ' + did : ''}: ${count}` },
        badge(origin), make('span', { className: 'did' }, did || name), make('span', { className: 'count' }, count)));
    }));
}
