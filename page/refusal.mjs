// A refusal shown where it happened: the operation in the patch, how far its pointer was
// walked and what stands there, or the byte of a broken text.
import { make } from './dom.mjs';
import { outline, member, stringMember, tokensOf, escaped, pointerOf, walk } from './json.mjs';
import { message, hasByte, pointerName } from './words.mjs';

const encoder = new TextEncoder(), decoder = new TextDecoder();
const LONGEST = 240;
const short = source => source.length > LONGEST ? source.slice(0, LONGEST) + ' …' : source;

// Line and column of an offset, from 1.
function position(text, offset) {
    const lines = text.slice(0, offset).split(/\r\n?|\n/);
    return { line: lines.length, column: [...lines.at(-1)].length + 1 };
}

function byteWords(bytes, place) {
    if (place >= bytes.length) return 'the end of the text';
    return `0x${bytes[place].toString(16).toUpperCase().padStart(2, '0')}`;
}

// Marks the byte in its text, and says where it is.
function showByte(editor, answer) {
    const start = editor.offset(answer.place), { line, column } = position(editor.text, start);
    const end = start + (editor.text.codePointAt(start) > 0xffff ? 2 : 1);
    editor.mark([{ start, end, kind: 'byte' }], `Line ${line}, column ${column}: ${message(answer.number)}.`);
    return [['Where', `line ${line}, column ${column}`],
        ['Byte', `${answer.place}: ${byteWords(editor.bytes, answer.place)}`]];
}

// The document before an operation: the proved call on those in front of it.
function before(calls, documentBytes, elements, op) {
    const patch = `[${elements.slice(0, op - 1).map(({ value }) => value.source).join(',')}]`;
    const answer = calls.apply(documentBytes, encoder.encode(patch));
    return answer.number === 0 ? outline(decoder.decode(answer.written)) : undefined;
}

// A pointer in three parts: walked, failed, not looked at.
function walkedPointer(pointer, place) {
    const tokens = tokensOf(pointer), written = token => '/' + escaped(token);
    const part = (kind, words, from, to) => from >= to ? '' :
        make('span', { className: kind, title: words }, tokens.slice(from, to).map(written).join(''));
    return make('span', { className: 'pointer' }, part('walked', 'walked', 0, place),
        part('failed', 'failed here', place, place + 1), part('rest', 'not looked at', place + 1, tokens.length));
}

function foundAt(root, tokens) {
    const value = root && walk(root, tokens);
    return value ? [[tokens.length ? `Found at ${pointerOf(tokens)}` : 'Found at the root', short(value.source)]] : [];
}

// What there is to say of one operation beside its number.
function operationFacts(calls, documentBytes, elements, answer) {
    const { value } = elements[answer.op - 1];
    const facts = [['Operation', `${answer.op} of ${elements.length}`], ['Its text', short(value.source)]];
    const pointer = stringMember(value, answer.pointer ? pointerName(answer) : 'path');
    if (answer.pointer) {
        const tokens = tokensOf(pointer), walked = tokens.slice(0, answer.place), failed = tokens[answer.place];
        const root = before(calls, documentBytes, elements, answer.op);
        facts.push([`Its ${pointerName(answer)}`, walkedPointer(pointer, answer.place)],
            ['Walked', `${walked.length ? pointerOf(walked) + '; then' : 'nothing:'} "${failed}" failed`]);
        // a move walks `path` in what it has left, which is not shown
        const moved = stringMember(value, 'op') === 'move' && answer.pointer === 1;
        if (!moved) facts.push(...foundAt(root, walked));
    } else if (answer.number === 15) {
        facts.push(...foundAt(before(calls, documentBytes, elements, answer.op), tokensOf(pointer)),
            ['Expected', short(member(value, 'value').source)]);
    }
    return facts;
}

// Marks what is to blame, and gives the facts as pairs of a name and words.
export function refusalFacts(calls, documentEditor, patchEditor, answer) {
    if (hasByte(answer)) return showByte(answer.text === 1 ? documentEditor : patchEditor, answer);
    if (answer.text) {
        (answer.text === 1 ? documentEditor : patchEditor).note(`Refused: ${message(answer.number)}.`);
        return [];
    }
    if (!answer.op) return [];
    const elements = outline(patchEditor.text).children, { start, end } = elements[answer.op - 1].value;
    patchEditor.mark([{ start, end, kind: 'operation' }], `Operation ${answer.op}: ${message(answer.number)}.`);
    return operationFacts(calls, documentEditor.bytes, elements, answer);
}
