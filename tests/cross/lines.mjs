// What the stored output of a crate of cases has, said by the calls of an engine
// (examples/wasm/engine.mjs). It imports nothing, so that its text can be sent to a browser
// (tests/page/loading.mjs).

// A call, and the one that also lists origins.
const CALLS = { plain: ['apply', 'applyOrigins'], region: ['within', 'withinOrigins'],
    merge: ['merge', 'mergeOrigins'], undo: ['withUndo', 'withUndoOrigins'] };
const KINDS = { apply: 'plain', within: 'region', merge: 'merge', undo: 'undo' };
const encoder = new TextEncoder(), decoder = new TextDecoder(), nothing = new Uint8Array();

// The cases of a file: the first word, the name, how much is lent, the texts.
function* casesOf(file, kind) {
    const lent = ['room', 'undoRoom', 'listRoom'].slice(0, { origins: 3, undo: 2 }[kind] ?? 1);
    for (let at = 0; at < file.length;) {
        const line = file.indexOf(10, at), texts = [];
        const [word, name, ...numbers] = String.fromCharCode(...file.subarray(at, line)).split(' ');
        at = line + 1;
        for (const length of numbers.slice(lent.length).map(Number)) {
            texts.push(file.subarray(at, at + length));
            at += length + 1;
        }
        const how = Object.fromEntries(lent.map((field, i) => [field, Number(numbers[i])]));
        yield { word, name, texts, how: { ...how, rubbish: at % 256 } };
    }
}

const size = value => value === null || typeof value !== 'object' ? 1 :
    Object.values(value).reduce((sum, child) => sum + size(child), 1);
const facts = a => [a.kept, a.number, a.text, a.op, a.place, a.pointer, a.written, a.undo].join(' ');

// What is wrong with the call that lists origins, or nothing: it must answer as the other,
// list as many as there are values, and refuse a list that is one shorter.
function trouble(call, a, texts, how) {
    const listed = call(...texts, how), count = a.number === 0 ? size(JSON.parse(decoder.decode(a.written))) : 0;
    if (facts(listed) !== facts(a)) return 'with origins it answers otherwise: ';
    if (listed.origins.length !== count) return 'there are not as many origins as values: ';
    if (count === 0) return '';
    const [enough, short] = [count, count - 1].map(listRoom => call(...texts, { ...how, listRoom }));
    return facts(enough) === facts(a) && short.number === 16 && short.kept ? '' :
        'with a list that is just long enough it answers otherwise: ';
}

const told = a => a.number === 0 ? a.written :
    `refused ${a.number} text ${a.text} op ${a.op} place ${a.place} pointer ${a.pointer}`;
const memory = a => a.kept ? '' : 'the memory is not as it must be: ';

// The lines of a case with a list.
function* originLines(calls, { word, name, texts, how }) {
    const kind = KINDS[word], a = calls[CALLS[kind][1]](...texts.slice(0, kind === 'region' ? 3 : 2), how);
    yield [name, ': ', memory(a), told(a)];
    if (a.number !== 0) return;
    if (kind === 'undo') yield [name, ' undo: ', a.undo];
    yield [name, ' origins: ', a.origins.join(' ')];
}

// The lines of any other case. Where the engine has the call that also lists origins, it is
// made too.
function* plainLines(calls, kind, { name, texts, how }) {
    const [call, listing] = CALLS[kind].map(which => calls[which]), a = call(...texts, how);
    yield [name, ': ', memory(a), listing ? trouble(listing, a, texts, how) : '', told(a)];
    if (kind !== 'undo' || a.number !== 0) return;
    yield [name, ' undo: ', a.undo];
    const back = calls.apply(a.written, a.undo, { rubbish: how.rubbish });
    yield [name, ' back: ', memory(back), told(back)];
}

// The calls with a work area that is too short.
const RECORD = { room: 0, nodesCount: 6143, rubbish: 0xa5 }, BUFFER = { room: 0, workLength: 32767, rubbish: 0xa5 };
function shortCases(kind) {
    const one = (word, name, how) => ({ word, name, how, texts: Array(kind === 'region' ? 3 : 2).fill(nothing) });
    if (kind === 'undo') return [one('', 'buffer-a-byte-short', BUFFER)];
    if (kind !== 'origins') return [one('', 'work-a-record-short', RECORD)];
    return [...Object.keys(KINDS).map(word => ({ ...one(word, `${word}-work-a-record-short`, RECORD),
        texts: [nothing, nothing, nothing] })), one('undo', 'undo-buffer-a-byte-short', BUFFER)];
}

// kind: `plain`, `region`, `merge`, `undo` or `origins`, as the crates vectors,
// region_vectors, merge_vectors, undo_vectors and origin_vectors.
export function linesOf(calls, kind, file) {
    const parts = [];
    for (const cases of [casesOf(file, kind), shortCases(kind)]) {
        for (const one of cases) {
            for (const line of kind === 'origins' ? originLines(calls, one) : plainLines(calls, kind, one)) {
                for (const part of [...line, '\n']) parts.push(typeof part === 'string' ? encoder.encode(part) : part);
            }
        }
    }
    const text = new Uint8Array(parts.reduce((sum, part) => sum + part.length, 0));
    parts.reduce((at, part) => (text.set(part, at), at + part.length), 0);
    return text;
}
