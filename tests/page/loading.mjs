// The page by itself: it loads, it fetches nothing, and its engine answers the committed
// cases.
import { deepStrictEqual, ok, strictEqual } from 'node:assert';
import { existsSync, readFileSync, writeFileSync } from 'node:fs';
import { join } from 'node:path';
import { pathToFileURL } from 'node:url';
import { root } from './bench.mjs';

// The calls of the page by the crates that export them.
const CALLS = { json_patch: 'apply', region_call: 'within', merge: 'merge', undo: 'withUndo', inspect: 'inspect',
    listing: 'applyOrigins', region_listing: 'withinOrigins', merge_listing: 'mergeOrigins',
    undo_listing: 'withUndoOrigins' };

// A module that no engine can use, in place of the page's: what a browser without 64-bit
// memories comes to.
async function withoutModule(at, page, shots) {
    const broken = join(shots, 'broken.html');
    const whole = readFileSync(page, 'utf8');
    writeFileSync(broken, whole.replace(/(id="module">)[^<]*/, '$1AGFzbQEAAAA='));
    await at.go(pathToFileURL(broken).href);
}

export async function loading({ at, check, load, look, page, shots }) {
    await check('a browser that cannot run it is told so', async () => {
        await withoutModule(at, page, shots);
        ok(await at.run(() => document.getElementById('trouble').checkVisibility()));
    });
    await check('the page loads without trouble', async () => {
        await load();
        ok(await at.run(() => document.getElementById('trouble').hidden));
    });
    await check('the page has the call of each crate that is there', async () => {
        const there = Object.keys(CALLS).filter(crate => existsSync(join(root, 'crates', crate)));
        ok(there.length >= 7);
        deepStrictEqual(await at.run(() => Object.keys(jsonPatch.calls).sort()),
            there.map(crate => CALLS[crate]).sort());
    });
    await check('nothing is fetched', async () => {
        strictEqual(await at.run(() => performance.getEntriesByType('resource').length), 0);
        const tried = await at.run(() => fetch('https://example.com/').then(() => 'fetched', () => 'refused'));
        strictEqual(tried, 'refused');
        deepStrictEqual((await at.log()).filter(({ message }) => !/example\.com/.test(message)), []);
    });
    await check('the first example', async () => {
        const { kind, status, result, undo, line, notes } = await look();
        strictEqual(kind, 'status done');
        strictEqual(status, 'done: 134 bytes written');
        strictEqual(result, '{"pack":"NCR-3S3P","mAh":3000,"cut":[4.15,3.0],"stages":[{"mA":1500,"mV":4200},' +
            '{"rest_s":600},{"mA":150,"mV":4200}],"revised":"24W18"}');
        strictEqual(line, result);
        strictEqual(undo, '[{"op":"remove","path":"/revised"},{"op":"remove","path":"/stages/1"},' +
            '{"op":"replace","path":"/cut/0","value":4.2}]');
        strictEqual(notes.patch, '4 operations: add 2, replace 1, test 1.');
    });
}

// In the page: the lines of a file of cases, in base64.
const linesInPage = `(kind, file) => {
    ${readFileSync(join(root, 'tests/cross/lines.mjs'), 'utf8').replace(/^export /gm, '')}
    const bytes = Uint8Array.from(atob(file), letter => letter.charCodeAt(0)), parts = [];
    const text = linesOf(jsonPatch.engine(131072), kind, bytes);
    for (let i = 0; i < text.length; i += 32768) parts.push(String.fromCharCode(...text.subarray(i, i + 32768)));
    return btoa(parts.join(''));
}`;

export async function committed({ at, check }) {
    for (const [kind, crate] of [['plain', 'vectors'], ['region', 'region_vectors'], ['merge', 'merge_vectors'],
        ['undo', 'undo_vectors'], ['origins', 'origin_vectors']]) {
        if (kind === 'origins' && !existsSync(join(root, 'crates', crate))) continue;
        await check(`the cases of ${crate}`, async () => {
            const file = readFileSync(join(root, 'crates', crate, 'data/cases'));
            const said = Buffer.from(await at.run(linesInPage, kind, file.toString('base64')), 'base64');
            ok(said.equals(readFileSync(join(root, 'crates', crate, 'stdout'))), 'the lines differ');
            const count = file.toString('latin1').split(/^(?:case|apply|within|merge|undo) \S+ \d/m).length - 1;
            console.log(`page: ${count} cases of ${crate} as expected`);
        });
    }
}
