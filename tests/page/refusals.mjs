// Every example of the documents, typed into the page, and every refusal number: the line,
// what is marked, and what is said.
import { deepStrictEqual, ok, strictEqual } from 'node:assert';
import { join } from 'node:path';
import { PROFILE, root } from './bench.mjs';
import { documented } from './documented.mjs';

// What must be marked and said for a refused line. The texts are ASCII, in one line.
export function marked(now, { document, patch }) {
    const [number, text, op, place, pointer] = now.line.match(/\d+/g).map(Number);
    ok(now.kind === 'status refused' && now.status.startsWith(`refused ${number}: `), now.status);
    ok(now.advice && now.result === null && now.undo === null);
    if (text && number !== 2) {
        const name = text === 1 ? 'document' : 'patch', mark = now.marks[name], whole = text === 1 ? document : patch;
        deepStrictEqual([mark.kind, mark.at, mark.text.trim()], ['byte', place, whole.slice(place, place + 1).trim()]);
        ok(now.notes[name].startsWith('Line 1, column ') && now.button);
    }
    if (op) {
        strictEqual(now.marks.patch.kind, 'operation');
        deepStrictEqual(JSON.parse(now.marks.patch.text), JSON.parse(patch)[op - 1]);
        ok(now.notes.patch.startsWith(`Operation ${op}: `) && now.facts.Operation.startsWith(`${op} of `));
    }
    if (pointer) {
        const tokens = JSON.parse(patch)[op - 1][pointer === 1 ? 'path' : 'from'].split('/').slice(1);
        strictEqual(now.walked, tokens.slice(0, place).map(token => '/' + token).join(''));
        strictEqual(now.failed, '/' + tokens[place]);
    }
}

export async function examples({ at, check, enter }) {
    for (const name of ['REFUSALS', 'SPECIFICATION']) {
        for (const example of documented(join(root, 'docs', name + '.md'))) {
            await check(`docs/${name}.md: ${example.patch.slice(0, 60)}`, async () => {
                const now = await enter(example.document, example.patch);
                strictEqual(now.line, example.prints);
                if (/^refused /.test(now.line)) marked(now, example);
                else ok(now.result === now.line && now.marks.document === null && now.marks.patch === null);
            });
        }
    }
    await check('what a test found and what it expected', async () => {
        const { facts } = await enter(PROFILE,
            '[{"op":"replace","path":"/mAh","value":7},{"op":"test","path":"/mAh","value":3001}]');
        deepStrictEqual([facts['Found at /mAh'], facts.Expected], ['7', '3001']);
    });
    await check('what stands where the walk ended', async () => {
        const { facts } = await enter(PROFILE, '[{"op":"remove","path":"/cut/5/x"}]');
        deepStrictEqual([facts['Found at /cut'], facts.Walked], ['[4.2,3.0]', '/cut; then "5" failed']);
    });
    await check('the button selects what is marked', async () => {
        await enter(PROFILE, '[{"op":"test","path":"/mAh","value":1}]');
        await at.click('#show-it');
        deepStrictEqual(await at.run(() => {
            const { id, selectionStart, selectionEnd } = document.activeElement;
            return [id, selectionStart, selectionEnd];
        }), ['patch', 1, 38]);
    });
}

export async function regions({ at, check, enter, numbers }) {
    const inside = '[{"op":"test","path":"/cut/0","value":4.2},{"op":"add","path":"/cut/-","value":2.8}]';
    await check('a maker\'s patch in its region', async () => {
        const now = await enter(PROFILE, inside, { 'in-region': true, region: '/cut' });
        strictEqual(now.line, '{"mAh":3000,"cut":[4.2,3.0,2.8]}');
        strictEqual(now.undo, '[{"op":"remove","path":"/cut/2"}]');
    });
    for (const [region, patch, line] of [
        ['/mAh', inside, 'refused 17 text 0 op 1 place 0 pointer 0'],
        ['/cut', inside.replace('"add"', '"remove"'), 'refused 17 text 0 op 2 place 0 pointer 0'],
        ['/cut', '[]', 'refused 17 text 0 op 0 place 0 pointer 0'],
        ['cut', inside, 'refused 10 text 0 op 0 place 0 pointer 0'],
        ['/' + 'x'.repeat(32768), inside, 'refused 2 text 0 op 0 place 0 pointer 0'],
    ]) {
        await check(`region ${region.slice(0, 9)}: ${line}`, async () => {
            const now = await enter(PROFILE, patch, { 'in-region': true, region });
            strictEqual(now.line, line);
            marked(now, { document: PROFILE, patch });
        });
    }
    await check('without the region', async () => {
        strictEqual((await enter(PROFILE, inside, { region: '/cut' })).kind, 'status done');
    });
    await check('number 1, and every other number up to 17', async () => {
        const nothing = await at.run(() =>
            jsonPatch.calls.apply(new Uint8Array(), new Uint8Array(), { nodesCount: 6143 }).number);
        deepStrictEqual([...numbers, nothing].sort((a, b) => a - b), Array.from({ length: 17 }, (_, i) => i + 1));
    });
}
