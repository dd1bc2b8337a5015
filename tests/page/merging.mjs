// Merge patches (T-02) by the switch: results, every refusal number that the call has, what
// the page leaves out with them, and the switch by keys.
import { deepStrictEqual, ok, strictEqual } from 'node:assert';
import { readFileSync } from 'node:fs';
import { join } from 'node:path';
import { KEYS, PROFILE, root } from './bench.mjs';
import { marked } from './refusals.mjs';

// The examples of docs/SPECIFICATION.md, 18: `document  with  patch  gives  result`.
function documentedMerges() {
    const text = readFileSync(join(root, 'docs/SPECIFICATION.md'), 'utf8');
    return [...text.matchAll(/^ {4}(\S+) +with +(\S+) +gives +(\S+)$/gm)].map(([, ...parts]) => parts);
}

// The committed cases with all the room of the page: name, line, document and patch.
function committedMerges() {
    const folder = join(root, 'crates/merge_vectors'), read = name => readFileSync(join(folder, name), 'latin1');
    const file = read('data/cases'), lines = new Map(read('stdout').split('\n').map(line => line.split(/: (.*)/s)));
    const cases = [];
    for (let at = 0; at < file.length;) {
        const end = file.indexOf('\n', at), [, name, room, ...lengths] = file.slice(at, end).split(' ');
        const [document, patch] = [[end + 1, +lengths[0]], [end + 2 + +lengths[0], +lengths[1]]]
            .map(([from, length]) => file.slice(from, from + length));
        at = end + 3 + +lengths[0] + +lengths[1];
        if (+room >= 65536) cases.push({ name, line: lines.get(name), document, patch });
    }
    return cases;
}

async function refusals({ at, check, enter }) {
    const met = new Set();
    for (const { name, line, document, patch } of committedMerges()) {
        if (!line.startsWith('refused ')) continue;
        await check(`merging, ${name}`, async () => {
            const now = await enter(document, patch, { merge: true });
            strictEqual(now.line, line);
            marked(now, { document, patch });
            met.add(Number(line.split(' ')[1]));
        });
    }
    await check('merging, every number that the call has', async () => {
        const numbers = await at.run(() => {
            const texts = ['{"a":1}', '{"b":2}'].map(text => new TextEncoder().encode(text));
            return [{ nodesCount: 6143 }, { room: 12 }, { room: 13 }]
                .map(how => jsonPatch.calls.merge(...texts, how).number);
        });
        deepStrictEqual(numbers, [1, 16, 0]);
        deepStrictEqual([...met].sort((a, b) => a - b), [2, 3, 4, 5, 6, 7]);
    });
}

const seen = () => Object.fromEntries(['undo', 'within', 'kind', 'result', 'tool']
    .map(id => [id, document.getElementById(id).checkVisibility()]));
const titles = () => [document.getElementById('tool-title').textContent, document.getElementById('line').ariaLabel];

async function whatIsLeftOut({ at, check, enter }) {
    const within = { 'in-region': true, region: '/cut' };
    await check('with a merge patch there is no undo and no region', async () => {
        const now = await enter(PROFILE, '{"cut":null}', { ...within, merge: true });
        deepStrictEqual([now.line, now.undo], ['{"mAh":3000}', null]);
        deepStrictEqual(await at.run(seen), { undo: false, within: false, kind: true, result: true, tool: true });
        deepStrictEqual(await at.run(titles), Array(2).fill('Line of json-patch merge --porcelain'));
        strictEqual(now.notes.patch, 'An object: its members are merged, and null removes.');
    });
    await check('with a JSON Patch both are there again', async () => {
        await at.click('#plain');
        await enter(PROFILE, '[]', within);
        strictEqual((await at.run(titles))[0], 'Line of json-patch apply --porcelain --region');
        const now = await enter(PROFILE, '[]');
        deepStrictEqual([now.line, now.undo], [PROFILE, '[]']);
        deepStrictEqual(await at.run(seen), { undo: true, within: true, kind: true, result: true, tool: true });
        deepStrictEqual(await at.run(titles), Array(2).fill('Line of the patch tool'));
    });
    await check('a merge patch that is no object', async () => {
        const now = await enter(PROFILE, '[{"op":"remove","path":"/mAh"}]', { merge: true });
        deepStrictEqual([now.line, now.notes.patch],
            ['[{"op":"remove","path":"/mAh"}]', 'No object: it takes the place of the whole document.']);
    });
    await check('a merge patch that is taken for a JSON Patch', async () => {
        const now = await enter(PROFILE, '{"mAh":1}');
        strictEqual(now.line, 'refused 8 text 0 op 0 place 0 pointer 0');
        ok(now.advice.endsWith('If it is a merge patch, say so below it.'));
        const other = await enter(PROFILE, '[{"op":"add"}]');
        ok(other.line.startsWith('refused 8 ') && !other.advice.includes('merge'));
    });
}

async function bySwitch({ at, check, load, look }) {
    const patch = () => at.run(() => document.getElementById('patch').value);
    const chosen = () => at.run(() => document.activeElement.id);
    await check('the switch, by keys', async () => {
        await load();
        const plain = await patch();
        await at.run(() => document.getElementById('plain').focus());
        await at.keys(KEYS.down);
        strictEqual(await chosen(), 'merge');
        strictEqual((await look()).result, '{"pack":"NCR-3S3P","cut":[4.15,3.0],"stages":[{"mA":1500,"mV":4200},' +
            '{"mA":150,"mV":4200}],"limits":{"mAh":3000,"mA":1500},"revised":"24W18"}');
        await at.keys(KEYS.up);
        deepStrictEqual([await chosen(), await patch()], ['plain', plain]);
        strictEqual((await look()).status, 'done: 134 bytes written');
    });
    await check('the switch leaves a text that was typed', async () => {
        await at.type('#patch', ' ');
        const typed = await patch();
        await at.click('#merge');
        strictEqual(await patch(), typed);
        await at.click('#plain');
        strictEqual(await patch(), typed);
    });
    await check('the switch, said', async () => {
        deepStrictEqual(await at.named('radio'), ['a JSON Patch', 'a Merge Patch']);
        ok((await at.named('group')).includes('The patch is'));
    });
}

export async function merging(bench) {
    const { at, check, enter } = bench, examples = documentedMerges();
    await check('merge patches are offered', async () => {
        ok(examples.length >= 6, 'the examples of docs/SPECIFICATION.md, 18, are not found');
        ok(await at.run(() => document.getElementById('kind').checkVisibility()));
    });
    for (const [document, patch, result] of examples) {
        await check(`${document} merged with ${patch}`, async () => {
            const now = await enter(document, patch, { merge: true });
            deepStrictEqual([now.line, now.result, now.kind], [result, result, 'status done']);
        });
    }
    await refusals(bench);
    await whatIsLeftOut(bench);
    await bySwitch(bench);
    await enter('{}', '[]');
}
