// An answer in words, for the bench: the words of include/json_patch.h and the advice
// of docs/REFUSALS.md.
const MESSAGES = [
    'done',
    'the work area is shorter than stated',
    'the text is longer than 32,768 bytes',
    'not JSON text',
    'a member name is repeated in one object',
    'more than 32 nested containers',
    'more than 2,048 values',
    'a number is over its limit',
    'the patch is malformed',
    'more than 256 operations',
    'a pointer is malformed',
    'the location does not exist',
    'a token is not an array index',
    'the root cannot be removed',
    'a value cannot be moved into its own child',
    'the test found a difference',
    'the result is longer than the lent output',
    'not permitted in the region',
];

const ADVICE = [
    '',
    'Lend the whole work area.',
    'Write the text without blanks, or split it.',
    'Fetch the file again. If it is the same, the maker must mend it.',
    'Ask the maker which of the two is meant, and remove the other.',
    'Such depth is mostly a mistake of the program that wrote the file. Send it back.',
    'Split the document, or let the patch remove before it adds.',
    'No measured value needs this. Send the file back.',
    'Each operation needs op and path; add, replace and test need value; move and copy need from.',
    'Split the patch, and apply the parts one after another.',
    'A pointer is empty or begins with /. A / inside a name is written ~1, a ~ is written ~0.',
    'The document is another one, or an operation before this one has moved what the pointer names.',
    'If the token is a name, the document has an array where the maker had an object.',
    'Replace the root instead.',
    'Move it to a place beside it first, or copy it.',
    'Stop: the patch was made for another document.',
    'Make the document smaller.',
    'Makers send only test, replace and add, a test first, and every path is inside the region.',
];

const READING = 3, READ = 7, TEXTS = ['', 'document', 'patch'], POINTERS = ['', 'path', 'from'];
export const many = (count, word) => `${count.toLocaleString('en')} ${word}${count === 1 ? '' : 's'}`;

export const message = number => MESSAGES[number] ?? 'unknown answer';
export const advice = number => ADVICE[number] ?? '';
export const pointerName = answer => POINTERS[answer.pointer];
// The answer has a byte offset in one of the texts.
export const hasByte = answer => answer.text > 0 && answer.number >= READING && answer.number <= READ;

// As json_patch_describe of the header.
export function describe(answer) {
    if (answer.number === 0) return `done: ${many(answer.written.length, 'byte')} written`;
    const parts = [`refused ${answer.number}`];
    if (answer.text) parts.push(TEXTS[answer.text] + (hasByte(answer) ? `, byte ${answer.place}` : ''));
    if (answer.op) parts.push(`operation ${answer.op}`);
    if (answer.pointer) parts.push(`${pointerName(answer)}, after ${many(answer.place, 'token')}`);
    return [...parts, message(answer.number)].join(': ');
}

// The line that the patch tool prints, without its line feed.
export const toolLine = answer => answer.number === 0 ? new TextDecoder().decode(answer.written) :
    `refused ${answer.number} text ${answer.text} op ${answer.op} place ${answer.place} pointer ${answer.pointer}`;
