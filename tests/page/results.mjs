// What the page makes of a result: the undo, the tree; and the files that go in.
import { deepStrictEqual, ok, strictEqual } from 'node:assert';
import { existsSync, readFileSync, writeFileSync } from 'node:fs';
import { join } from 'node:path';
import { KEYS, PROFILE, wait } from './bench.mjs';
import { drop, fill } from './looks.mjs';

export async function undos({ at, check, enter, look }) {
    const patch = '[{"op":"move","from":"/mAh","path":"/cut/-"},{"op":"replace","path":"/cut/0","value":[]}]';
    const undo = '[{"op":"replace","path":"/cut/0","value":4.2},{"op":"remove","path":"/cut/2"},' +
        '{"op":"add","path":"/mAh","value":3000}]';
    await check('the undo, copied', async () => {
        strictEqual((await enter(PROFILE, patch)).undo, undo);
        await at.cdp('Browser.grantPermissions', { permissions: ['clipboardReadWrite', 'clipboardSanitizedWrite'] });
        await at.click('#undo .copy');
        await wait(100);
        strictEqual(await at.run(() => navigator.clipboard.readText()), undo);
    });
    await check('the undo, saved', async () => {
        await at.click('#undo .save');
        const file = join(at.downloads, 'undo.json');
        for (let i = 0; i < 100 && !existsSync(file); i++) await wait(50);
        strictEqual(readFileSync(file, 'utf8'), undo);
        strictEqual(await at.run(() => document.getElementById('announcement').textContent), 'Undo saved as undo.json');
    });
    await check('the undo takes the patch back', async () => {
        await at.click('#take-back');
        strictEqual((await look()).result, '{"cut":[4.2,3.0],"mAh":3000}');
        strictEqual(await at.run(() => document.getElementById('patch').value), undo);
    });
    await check('an undo that cannot be read back', async () => {
        const now = await enter('['.repeat(31) + ']'.repeat(31), '[{"op":"replace","path":"","value":1}]');
        deepStrictEqual([now.line, now.undoWords], ['1', 'No undo: refused 5: more than 32 nested containers.']);
        ok(await at.run(() => [...document.querySelectorAll('#undo button')].every(button => button.disabled)));
    });
    await check('a result that is longer than a document', async () => {
        const now = await enter(`["${'x'.repeat(30000)}"]`, '[{"op":"copy","from":"/0","path":"/-"}]');
        ok(now.result.length > 60000 && await at.run(() => document.getElementById('take-back').disabled));
    });
}

// The row that has the focus: its words, whether it is open, its pointer as shown.
const focused = () => [document.activeElement.querySelector('.row').textContent,
    document.activeElement.getAttribute('aria-expanded'), document.getElementById('pointer').textContent];

export async function trees({ at, check, enter }) {
    const now = () => at.run(focused);
    await check('the tree, by keys', async () => {
        await enter('{"a/b":{"~":[9007199254740993,"\\u0041"]},"c":-0}', '[]');
        await at.click('#tab-text');
        await at.keys(KEYS.right);
        strictEqual(await at.run(() => document.getElementById('as-tree').hidden), false);
        await at.run(() => document.querySelector('#tree [tabindex="0"]').focus());
        deepStrictEqual(await now(), ['{ 2 members }', 'true', 'the root']);
        await at.keys(KEYS.down + KEYS.down);
        deepStrictEqual(await now(), ['~[ 2 elements ]', 'true', '/a~1b/~0']);
        await at.keys(KEYS.right);
        deepStrictEqual(await now(), ['09007199254740993', null, '/a~1b/~0/0']);
        await at.keys(KEYS.left + KEYS.left);
        deepStrictEqual(await now(), ['~[ 2 elements ]', 'false', '/a~1b/~0']);
        await at.keys(KEYS.down);
        deepStrictEqual(await now(), ['c-0', null, '/c']);
        await at.keys(KEYS.home + KEYS.enter);
        strictEqual((await now())[1], 'false');
        await at.keys(KEYS.enter + KEYS.end);
        strictEqual((await now())[2], '/c');
        strictEqual(await at.run(() => document.querySelectorAll('#tree [tabindex="0"]').length), 1);
    });
    await check('the tree, said', async () => {
        await enter('{"cut":[4.2,true]}', '[]');
        deepStrictEqual(await at.named('treeitem'),
            ['the root, 1 member', 'cut, 2 elements', '0, 4.2', '1, true'].map(name => name + ', from the document'));
    });
    await check('2,048 values in the tree', async () => {
        await enter(`[${Array(2047).fill(0)}]`, '[]');
        strictEqual(await at.run(() => document.querySelectorAll('#tree [role=treeitem]').length), 2048);
    });
    await check('words are never markup', async () => {
        await enter('{"<b>x</b>":"<img src=x>"}', '[]');
        strictEqual(await at.run(() => document.querySelectorAll('#tree b, #tree img').length), 0);
    });
}

export async function files({ at, check, enter, look, shots }) {
    const bytes = text => [...Buffer.from(text, 'latin1')];
    await check('a file dropped on the document keeps its bytes', async () => {
        await enter('{}', '[]');
        await at.run(drop, 'document', 'pack.json', bytes('{"a":\r\n "\xff"}'));
        const now = await look();
        strictEqual(now.line, 'refused 3 text 1 op 0 place 9 pointer 0');
        deepStrictEqual([now.marks.document.kind, now.marks.document.text, now.notes.document],
            ['byte', '\ufffd', 'Line 2, column 3: not JSON text.']);
        strictEqual(now.facts.Byte, '9: 0xFF');
        strictEqual(await at.run(() => document.querySelector('#document-place .file').textContent), 'pack.json');
    });
    await check('a file with a byte order mark', async () => {
        await at.run(drop, 'document', 'mark.json', bytes('\xef\xbb\xbf{}'));
        strictEqual((await look()).line, 'refused 3 text 1 op 0 place 0 pointer 0');
    });
    await check('a file dropped on the patch', async () => {
        await at.run(fill, { document: PROFILE });
        await at.run(drop, 'patch', 'fix.json', bytes('[{"op":"remove",\r\n"path":"/mAh"}]'));
        strictEqual((await look()).line, '{"cut":[4.2,3.0]}');
    });
    await check('a file chosen', async () => {
        const file = join(shots, 'chosen.json');
        writeFileSync(file, '[' + '0,'.repeat(20000) + '0]');
        await at.type('#document-place .chooser', file);
        await wait(200);
        strictEqual((await look()).line, 'refused 2 text 1 op 0 place 0 pointer 0');
    });
    await check('words that are dropped are the text area\'s own', async () => {
        ok(await at.run(() => {
            const dataTransfer = new DataTransfer();
            dataTransfer.setData('text/plain', '[]');
            return document.getElementById('patch')
                .dispatchEvent(new DragEvent('drop', { dataTransfer, bubbles: true, cancelable: true }));
        }));
    });
    await check('letters beyond ASCII', async () => {
        const now = await enter('{"é𝄞":[1,]}', '[]');
        deepStrictEqual([now.line, now.marks.document.text], ['refused 3 text 1 op 0 place 13 pointer 0', ']']);
        strictEqual(now.notes.document, 'Line 1, column 10: not JSON text.');
    });
}
