// One patch on the document: the result, the undo, the line of the patch tool, or the
// refusal.
import { byId, make, copyAndSave } from './dom.mjs';
import { outline } from './json.mjs';
import { refusalFacts } from './refusal.mjs';
import { resultView } from './result-view.mjs';
import { describe, advice, message, toolLine, many } from './words.mjs';

const encoder = new TextEncoder(), decoder = new TextDecoder();
const OPERATIONS = ['add', 'remove', 'replace', 'move', 'copy', 'test'];

// The answer to what the page holds now; with origins, where the module lists them. A call
// that lists them answers as the one that does not.
function answerOf(calls, document, patch, { merge, region }) {
    if (merge) return (calls.mergeOrigins ?? calls.merge)(document, patch);
    if (region === undefined) return (calls.applyOrigins ?? calls.apply)(document, patch);
    return (calls.withinOrigins ?? calls.within)(document, patch, encoder.encode(region));
}

// Who prints that line: the patch tool has neither regions nor merge patches.
const lineTitle = ({ merge, region }) => merge ? 'Line of json-patch merge --porcelain' :
    region === undefined ? 'Line of the patch tool' : 'Line of json-patch apply --porcelain --region';

// The patch's operations, counted.
function inspectedNote(calls, patch) {
    const found = calls.inspect(patch);
    if (found.number !== 0) return '';
    const counts = OPERATIONS.filter(name => found[name]), all = counts.reduce((sum, name) => sum + found[name], 0);
    return `${many(all, 'operation')}${all ? ': ' : ''}${counts.map(name => `${name} ${found[name]}`).join(', ')}.`;
}

// What a merge patch does, if the call has read both texts.
const mergeNote = (answer, text) => answer.text ? '' :
    outline(text).kind === 'object' ? 'An object: its members are merged, and null removes.' :
        'No object: it takes the place of the whole document.';

// Where a patch is no array, it may be of the other kind.
const kindAdvice = ({ number, op }, calls) => number === 8 && op === 0 && calls.merge ?
    ' If it is a merge patch, say so below it.' : '';

// The undo of a patch that was applied.
function undoView(calls, documentEditor, patchEditor) {
    let undo;
    copyAndSave(byId('undo'), 'Undo', 'undo.json', () => undo.undo);
    return {
        get bytes() { return undo.undo; },
        show(answer) {
            undo = calls.withUndo(documentEditor.bytes, patchEditor.bytes);
            const made = undo.number === 0, tooLong = answer.written.length > 32768;
            byId('undo-text').textContent = made ? decoder.decode(undo.undo) : '';
            byId('undo-text').hidden = !made;
            for (const button of byId('undo').querySelectorAll('button')) button.disabled = !made;
            byId('take-back').disabled = !made || tooLong;
            byId('undo-words').textContent = !made ? `No undo: refused ${undo.number}: ${message(undo.number)}.` :
                tooLong ? 'The result is longer than a document may be, so the undo cannot be applied to it.' :
                    `${many(undo.undo.length, 'byte')}. Applied to the result it gives the document back; ` +
                        'only the order of members may differ.';
        },
    };
}

function showStatus(answer, more) {
    const done = answer.number === 0;
    byId('status').className = done ? 'status done' : 'status refused';
    byId('status-words').textContent = describe(answer);
    byId('advice').textContent = advice(answer.number) + more;
    byId('show-it').hidden = done || !document.querySelector('#apply mark, #document-place mark');
}

function showFacts(facts) {
    byId('facts').hidden = !facts.length;
    byId('facts').replaceChildren(...facts.flatMap(([name, words]) => [make('dt', {}, name), make('dd', {}, words)]));
}

// examples: a patch of each kind, to stand in each other's place while nobody has edited it.
export function applyView(calls, documentEditor, patchEditor, examples) {
    let answer;
    const region = byId('region'), inRegion = byId('in-region'), merge = byId('merge'), plain = byId('plain');
    const how = () => ({ merge: merge.checked,
        region: inRegion.checked && !merge.checked ? region.value : undefined });
    const result = resultView(patchEditor), undo = undoView(calls, documentEditor, patchEditor);

    const run = () => {
        answer = answerOf(calls, documentEditor.bytes, patchEditor.bytes, how());
        const done = answer.number === 0;
        byId('within').hidden = merge.checked;
        region.disabled = !inRegion.checked;
        documentEditor.mark([], '');
        patchEditor.mark(done ? result.show(answer, merge.checked) : [],
            merge.checked ? mergeNote(answer, patchEditor.text) : inspectedNote(calls, patchEditor.bytes));
        showFacts(done ? [] : refusalFacts(calls, documentEditor, patchEditor, answer));
        showStatus(answer, kindAdvice(answer, calls));
        byId('result').hidden = !done;
        byId('undo').hidden = !done || merge.checked;
        if (done && !merge.checked) undo.show(answer);
        byId('line').textContent = toolLine(answer);
        byId('tool-title').textContent = lineTitle(how());
        byId('line').setAttribute('aria-label', lineTitle(how()));
    };
    const switched = () => {
        const [from, to] = merge.checked ? examples : [...examples].reverse();
        if (patchEditor.text === from) patchEditor.write(to);
        else run();
    };

    byId('kind').hidden = !calls.merge;
    for (const control of [region, inRegion]) control.addEventListener('input', run);
    for (const control of [merge, plain]) control.addEventListener('input', switched);
    byId('show-it').addEventListener('click', () => [documentEditor, patchEditor].forEach(editor => editor.show()));
    byId('take-back').addEventListener('click', () => {
        const [made, back] = [answer.written, undo.bytes];
        inRegion.checked = false;
        patchEditor.set(back, 'the undo');
        documentEditor.set(made, 'the result');
        byId('status').focus();
    });
    copyAndSave(byId('tool'), 'Line', '', () => encoder.encode(toolLine(answer)));
    return { run };
}
