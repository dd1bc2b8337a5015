// Each value in the colour of the operation that put it there (T-11): in the text, in the
// tree, in the patch, and in the legend.
import { deepStrictEqual, ok, strictEqual } from 'node:assert';
import { existsSync, readFileSync } from 'node:fs';
import { join } from 'node:path';
import { KEYS, root } from './bench.mjs';
import { coloursShown } from './looks.mjs';

const DOCUMENT = '{"cut":[4.2,3.0],"pack":"a"}';
const PATCH = '[{"op":"test","path":"/pack","value":"a"},{"op":"replace","path":"/cut/0","value":4.15},' +
    '{"op":"add","path":"/limits","value":{"mA":[1,2]}},{"op":"move","from":"/pack","path":"/limits/pack"}]';
const RESULT = '{"cut":[4.15,3.0],"limits":{"mA":[1,2],"pack":"a"}}';
const ORIGINS = [0, 0, 2, 0, 3, 3, 3, 3, 0];

// The examples of crate origin, which its proofs compute: document, patch, result, origins.
function provedExamples() {
    const text = readFileSync(join(root, 'crates/origin/specs/Examples.antt'), 'utf8');
    const quoted = '"((?:[^"\\\\]|\\\\.)*)"\\s+';
    const form = new RegExp(`gives ${quoted}${quoted}${quoted}\\(([^)]*)\\)`, 'g');
    const parts = Object.fromEntries(text.split(/^abbrev pub /m).map(part => [/^\w*/.exec(part)[0], part]));
    return ['patches', 'transfers', 'merges'].flatMap(name => [...parts[name].matchAll(form)].map(([, ...found]) =>
        ({ merge: name === 'merges', origins: found[3].match(/\d+/g).map(Number),
            ...Object.fromEntries(['document', 'patch', 'result'].map((key, i) =>
                [key, JSON.parse(`"${found[i]}"`)])) })));
}

async function proved({ at, check, enter }) {
    const examples = provedExamples(), listsMerges = existsSync(join(root, 'crates/merge_listing'));
    await check('the proved examples are found', () => {
        deepStrictEqual([false, true].map(kind => examples.filter(({ merge }) => merge === kind).length), [18, 6]);
    });
    for (const { merge, document, patch, result, origins } of examples) {
        await check(`origins of ${document} with ${patch}`, async () => {
            const now = await enter(document, patch, { merge }), colours = await at.run(coloursShown);
            strictEqual(now.result, result);
            if (merge && !listsMerges) return deepStrictEqual(colours, { text: [], tree: [], patch: [], legend: [] });
            deepStrictEqual([colours.text.map(({ origin }) => origin), colours.tree.map(({ origin }) => origin)],
                [origins, origins]);
            return strictEqual(colours.patch.length, new Set(origins.filter(Boolean)).size);
        });
    }
    await check('origins of a maker\'s patch in its region', async () => {
        await enter(DOCUMENT, '[{"op":"test","path":"/cut/1","value":3},{"op":"add","path":"/cut/0","value":[1]}]',
            { 'in-region': true, region: '/cut' });
        deepStrictEqual((await at.run(coloursShown)).tree.map(({ origin }) => origin), [0, 0, 2, 2, 0, 0, 0]);
    });
}

async function colours({ at, check, enter }) {
    await check('the same colour in the text, the tree, the patch and the legend', async () => {
        strictEqual((await enter(DOCUMENT, PATCH)).result, RESULT);
        const now = await at.run(coloursShown);
        deepStrictEqual(now.text.map(({ origin }) => origin), ORIGINS);
        for (const origin of [2, 3]) {
            const grounds = Object.values(now).map(list =>
                list.filter(one => one.origin === origin).map(one => one.ground));
            ok(grounds.every(list => list.length));
            strictEqual(new Set(grounds.flat()).size, 1);
        }
        strictEqual(new Set(now.tree.map(({ ground }) => ground)).size, 3);
    });
    await check('a number beside each colour, and not in the text', async () => {
        const now = await at.run(coloursShown);
        // the document's value that was moved into operation 3's has a number too
        deepStrictEqual(now.text.filter(({ number }) => number).map(({ words, number }) => [words, number]),
            [['4.15', '2'], ['{"mA":[1,2],"pack":"a"}', '3'], ['"a"', '0']]);
        deepStrictEqual(now.tree.map(({ number }) => number), ['', '', '2', '', '3', '3', '3', '3', '']);
        deepStrictEqual(now.legend.map(({ words }) => words), ['0the document4 values', '2replace /cut/01 value',
            '3add /limits4 values']);
    });
    await check('the operations in the patch', async () => {
        const { patch } = await at.run(coloursShown);
        deepStrictEqual(patch.map(({ origin, words }) => [origin, JSON.parse(words)]),
            [[2, JSON.parse(PATCH)[1]], [3, JSON.parse(PATCH)[2]]]);
        strictEqual(await at.run(() => document.getElementById('patch').ariaInvalid), 'false');
    });
    await check('the root, and a long path, in the legend', async () => {
        const legend = async patch => {
            await enter('{}', patch);
            return (await at.run(coloursShown)).legend.at(-1).words;
        };
        strictEqual(await legend('[{"op":"replace","path":"","value":1}]'), '1replace the root1 value');
        strictEqual(await legend(`[{"op":"add","path":"/${'x'.repeat(3000)}","value":1}]`),
            `1add /${'x'.repeat(115)} …1 value`);
    });
    await check('a refusal has no colours', async () => {
        const now = await enter(DOCUMENT, PATCH.replace('"value":"a"', '"value":"b"'));
        deepStrictEqual([now.marks.patch.kind, (await at.run(coloursShown)).patch], ['operation', []]);
    });
    await check('without the call that lists them there are no colours', async () => {
        await at.run(() => { [jsonPatch.kept, jsonPatch.calls.applyOrigins] = [jsonPatch.calls.applyOrigins]; });
        strictEqual((await enter(DOCUMENT, PATCH)).result, RESULT);
        deepStrictEqual(await at.run(coloursShown), { text: [], tree: [], patch: [], legend: [] });
        ok(await at.run(() => !document.getElementById('origins').checkVisibility()));
        await at.run(() => { jsonPatch.calls.applyOrigins = jsonPatch.kept; });
    });
}

// What is marked: words in the text, in the tree and in the patch, and what is said.
const chosen = () => {
    const words = css => [...document.querySelectorAll(css)].map(part => part.textContent);
    return { text: words('#result-text .chosen'), tree: words('#tree .chosen'),
        patch: words('#patch-place mark.chosen'),
        pressed: [...document.querySelectorAll('#legend [aria-pressed=true]')].map(button => button.id) };
};
const NOTHING = { text: [], tree: [], patch: [], pressed: [] };
const REPLACED = { text: ['4.15'], tree: ['4.15'], pressed: [],
    patch: ['{"op":"replace","path":"/cut/0","value":4.15}'] };
const said = () => [document.getElementById('pointer').textContent, document.getElementById('put-by').textContent];

async function legend({ at, check, enter }) {
    const announced = () => at.run(() => document.getElementById('announcement').textContent);
    await check('an operation chosen in the legend', async () => {
        await enter(DOCUMENT, PATCH);
        await at.click('#by-3');
        await at.hover('h1');
        const now = await at.run(chosen);
        deepStrictEqual([now.text, now.tree, now.pressed], [['{"mA":[1,2],"pack":"a"}'],
            ['{ 2 members }', '[ 2 elements ]', '1', '2'], ['by-3']]);
        deepStrictEqual(now.patch.map(JSON.parse), [JSON.parse(PATCH)[2]]);
        strictEqual(await announced(), '4 values marked, put here by operation 3, add /limits');
    });
    await check('and chosen again', async () => {
        await at.click('#by-3');
        deepStrictEqual([await at.run(chosen), await announced()], [NOTHING, 'Nothing is marked']);
    });
    await check('the legend, by keys', async () => {
        await at.run(() => document.getElementById('by-0').focus());
        await at.keys(KEYS.tab);
        deepStrictEqual(await at.run(chosen), REPLACED);
        await at.keys(KEYS.enter + KEYS.tab + KEYS.tab);
        deepStrictEqual(await at.run(chosen), { ...REPLACED, pressed: ['by-2'] });
        await at.run(() => document.getElementById('by-2').click());
    });
    await check('the legend, said', async () => {
        ok((await at.named('group')).includes('Who put the values there'));
        const buttons = await at.named('button');
        for (const name of ['the document: 4 values', 'operation 2, replace /cut/0: 1 value',
            'operation 3, add /limits: 4 values']) ok(buttons.includes(name), name);
    });
    await check('what is marked far below is brought into view', async () => {
        const many = Array.from({ length: 200 }, (_, i) => i);
        await enter(JSON.stringify(many), `[\n${' \n'.repeat(60)}{"op":"replace","path":"/190","value":true}]`);
        await at.click('#tab-tree');
        await at.click('#by-1');
        ok(await at.run(() => ['#tree', '#patch'].every(css => document.querySelector(css).scrollTop > 0)));
        await at.click('#tab-text');
    });
}

async function values({ at, check, enter }) {
    await check('a value that is pointed at, in the text', async () => {
        await enter(DOCUMENT, PATCH);
        await at.click('#tab-text');
        await at.hover('#result-text [data-badge="2"]');
        deepStrictEqual(await at.run(said), ['/cut/0', 'put here by operation 2, replace /cut/0']);
        deepStrictEqual(await at.run(chosen), REPLACED);
        await at.hover('#result-text [data-badge="0"]');
        deepStrictEqual(await at.run(said), ['/limits/pack', 'from the document']);
        await at.hover('h1');
        deepStrictEqual(await at.run(chosen), NOTHING);
    });
    await check('a value that is pointed at, in the tree', async () => {
        await at.click('#tab-tree');
        await at.hover('#tree .value.origin-2');
        deepStrictEqual([await at.run(said), await at.run(chosen)],
            [['/cut/0', 'put here by operation 2, replace /cut/0'], REPLACED]);
    });
    await check('a value that has the focus', async () => {
        await at.run(() => document.querySelector('#tree [tabindex="0"]').focus());
        deepStrictEqual(await at.run(said), ['the root', 'from the document']);
        await at.keys(KEYS.down + KEYS.down);
        deepStrictEqual([await at.run(said), await at.run(chosen)],
            [['/cut/0', 'put here by operation 2, replace /cut/0'], REPLACED]);
    });
    await check('a value and who put it there, said', async () => {
        const names = await at.named('treeitem');
        for (const name of ['the root, 2 members, from the document', 'cut, 2 elements, from the document',
            '0, 4.15, put here by operation 2, replace /cut/0', 'mA, 2 elements, put here by operation 3, add /limits',
            'pack, "a", from the document']) ok(names.includes(name), name);
        await at.click('#tab-text');
    });
    await check('256 operations', async () => {
        const adds = Array.from({ length: 256 }, (_, i) => `{"op":"add","path":"/${i}","value":${i}}`);
        await enter('[]', `[${adds}]`);
        const now = await at.run(coloursShown);
        deepStrictEqual(now.tree.map(({ origin }) => origin), Array.from({ length: 257 }, (_, i) => i));
        strictEqual(now.legend.length, 257);
        strictEqual(new Set(now.tree.map(({ ground }) => ground)).size, 13);
    });
}

export async function origins(bench) {
    await proved(bench);
    await colours(bench);
    await legend(bench);
    await values(bench);
    await bench.enter('{}', '[]');
}
