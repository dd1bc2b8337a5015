// The proved calls from JavaScript: bytes in, the answer out. Needs WebAssembly with
// 64-bit memories; in node 20, --experimental-wasm-memory64.
const MOST = 32768, VALUES = 2048, NODES = 6144, ENTRIES = 8192, UNDO_WORK = 32768;
const PLAIN = ['number', 'text', 'op', 'place', 'pointer', 'length'], WITH_UNDO = [...PLAIN, 'undoLength'];
const COUNTS = ['number', 'text', 'op', 'place', 'add', 'remove', 'replace', 'move', 'copy', 'test'];
// What the list of origins holds before a call. No origin is as large.
const UNLISTED = 0xffff;

// Where what is lent lies in the module's memory. Each input has a byte more than the
// limit, so that the call itself refuses what is too long.
function layout({ memory, __heap_base }, most) {
    let end = Number(__heap_base.value);
    const area = length => {
        const at = (end + 7) & ~7;
        end = at + length;
        return at;
    };
    const inputs = [area(MOST + 1), area(MOST + 1), area(MOST + 1)];
    const output = area(most), undo = area(most), origins = area(2 * VALUES), answer = area(8 * COUNTS.length);
    const nodes = area(16 * NODES), index = area(2 * ENTRIES), work = area(UNDO_WORK);
    if (end > memory.buffer.byteLength) throw new RangeError('the module has less memory than the call is lent');
    return { inputs, output, undo, origins, answer, nodes, index, work, end, all: new Uint8Array(memory.buffer),
        list: new Uint16Array(memory.buffer, origins, VALUES),
        words: new BigUint64Array(memory.buffer, answer, COUNTS.length) };
}

// The calls of the module by their short names: which texts each reads, what it writes
// beside the answer, and whether it has a buffer behind the work area.
const CALLS = {
    // RFC 6902
    json_patch_apply: { short: 'apply', texts: 2, outputs: ['output'] },
    // a maker's patch in a region (T-05)
    json_patch_apply_within: { short: 'within', texts: 3, outputs: ['output'] },
    // JSON Merge Patch, RFC 7396 (T-02)
    json_patch_merge: { short: 'merge', texts: 2, outputs: ['output'] },
    // and the patch that takes the result back (T-09)
    json_patch_apply_with_undo: { short: 'withUndo', texts: 2, outputs: ['output', 'undo'], buffer: true },
    // a patch without a document (T-12)
    json_patch_inspect: { short: 'inspect', texts: 1, outputs: [], names: COUNTS },
    // the first four with the origin of each value (T-11)
    json_patch_apply_origins: { short: 'applyOrigins', texts: 2, outputs: ['output', 'origins'] },
    json_patch_apply_within_origins: { short: 'withinOrigins', texts: 3, outputs: ['output', 'origins'] },
    json_patch_merge_origins: { short: 'mergeOrigins', texts: 2, outputs: ['output', 'origins'] },
    json_patch_apply_with_undo_origins:
        { short: 'withUndoOrigins', texts: 2, outputs: ['output', 'undo', 'origins'], buffer: true },
};

// bytes: json_patch.wasm. most: the bytes of output that are lent at most. Gives a
// function for each call that the module has, and for no other. It takes the texts and, if
// you like, how much is lent: `room`, `undoRoom` and `listRoom` of the outputs,
// `nodesCount` and `workLength` of the work area. With `rubbish`, a byte, the work area
// holds it before the call, and the answer's `kept` says whether the call has left the
// lent memory as it must. `origins` is one number for each value of the result, in written
// order: 0 for the document, k for operation k.
export function engine(bytes, most = 65536) {
    const { exports } = new WebAssembly.Instance(new WebAssembly.Module(bytes));
    const { inputs, output, undo, origins, answer, nodes, index, work, end, all, list, words } = layout(exports, most);
    const same = (from, to, byte) => {
        while (from < to && all[from] === byte) from++;
        return from === to;
    };
    const put = (text, i) => {
        const cut = text.subarray(0, MOST + 1);
        all.set(cut, inputs[i]);
        return [inputs[i], cut.length];
    };
    const lent = { output: how => [output, Math.min(how.room ?? most, most)],
        undo: how => [undo, Math.min(how.undoRoom ?? most, most)],
        origins: how => [origins, Math.min(how.listRoom ?? VALUES, VALUES)] };
    // The list as far as it was written.
    const listed = () => {
        const count = list.indexOf(UNLISTED);
        return list.slice(0, count < 0 ? VALUES : count);
    };

    const call = (name, { texts, outputs, buffer, names = buffer ? WITH_UNDO : PLAIN }, given) => {
        const how = given[texts] ?? {}, { nodesCount = NODES, workLength = UNDO_WORK, rubbish } = how;
        const watched = rubbish !== undefined, last = buffer ? end : work;
        if (watched) all.fill(0xff, output, origins).fill(rubbish, nodes, end);
        list.fill(UNLISTED);
        words.fill(0n);
        const returned = exports[name](...[...given.slice(0, texts).flatMap(put),
            ...outputs.flatMap(which => lent[which](how)), nodes, nodesCount, index, ENTRIES,
            ...buffer ? [work, workLength] : [], answer].map(BigInt));
        const { length = 0, undoLength = 0, ...fields } =
            Object.fromEntries(names.map((field, i) => [field, Number(words[i])]));
        const found = listed();
        const kept = returned === fields.number && (fields.number === 0 || found.length === 0) &&
            same(origins + 2 * found.length, answer, 0xff) && (!watched ||
            same(output + length, undo, 0xff) && same(undo + undoLength, origins, 0xff) &&
            same(nodes, last, fields.number === 1 ? rubbish : 0) && same(last, end, rubbish));
        return { ...fields, kept, written: all.slice(output, output + length), undo: all.slice(undo, undo + undoLength),
            ...outputs.includes('origins') ? { origins: found } : {} };
    };

    return Object.fromEntries(Object.entries(CALLS).filter(([name]) => exports[name])
        .map(([name, what]) => [what.short, (...given) => call(name, what, given)]));
}
