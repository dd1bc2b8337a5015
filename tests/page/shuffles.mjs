// The shuffle checker.
import { ok, strictEqual, deepStrictEqual } from 'node:assert';
import { KEYS } from './bench.mjs';
import { fill, shuffleShown } from './looks.mjs';

const add = (path, value) => `{"op":"add","path":"${path}","value":${value}}`;
const patch = (...operations) => `[${operations.join(',')}]`;
const DOCUMENT = '{"cut":[4.2],"stages":[]}';

// left, right, whether they are apart
const REGIONS = [['/a', '/ab', true], ['/a', '/a/b', false], ['/a/b', '/a', false], ['/a~1b', '/a/b', true],
    ['', '/a', false], ['/a', '', false], ['/a', '/a', false], ['/~01', '/~1', true], ['/', '/a', true],
    ['/', '//', false]];

export async function shuffles({ at, check, enter }) {
    const given = async values => {
        await at.run(fill, values);
        return at.run(shuffleShown);
    };
    await check('the shuffle checker opens by keys', async () => {
        await enter(DOCUMENT, '[]');
        await at.run(() => document.getElementById('tab-apply').focus());
        await at.keys(KEYS.right);
        ok(await at.run(() => !document.getElementById('shuffles').hidden && document.getElementById('apply').hidden));
    });
    await check('apart: every order gives the same bytes', async () => {
        const now = await given({ document: DOCUMENT, 'region-a': '/cut', 'region-b': '/stages',
            'patch-a': patch(add('/cut/0', 1), add('/cut/-', 2), add('/cut/1', 3)),
            'patch-b': patch(add('/stages/-', 4), add('/stages/0', 5)) });
        strictEqual(now.verdict, 'All 10 orders give the same 34 bytes.');
        deepStrictEqual(now.rows.map(row => row.slice(0, 2)), [['10', '{"cut":[1,3,4.2,2],"stages":[5,4]}']]);
        ok(now.kind.includes('done') && now.conditions.every(words => words.startsWith('yes')));
    });
    await check('one of them is refused alone', async () => {
        const now = await given({ 'patch-b': patch(add('/stages/-', 4), add('/stages/7', 5)) });
        strictEqual(now.verdict, 'All 10 orders are refused, each at the first operation at which its own patch ends ' +
            'alone, with its number.');
        strictEqual(now.alone, 'A alone: done: 31 bytes written. B alone: refused 11: operation 2: path, ' +
            'after 1 token: the location does not exist.');
        // B's second operation stands second to fifth
        deepStrictEqual(now.rows.map(row => row[1].match(/op (\d)/)[1]).sort(), ['2', '3', '4', '5']);
    });
    await check('not apart: the order matters', async () => {
        const now = await given({ 'region-b': '/cut', 'patch-a': patch(add('/cut/-', 1)),
            'patch-b': patch(add('/cut/-', 2)) });
        strictEqual(now.verdict, 'The order matters: 2 outcomes in 2 orders.');
        deepStrictEqual(now.rows, [['1', '{"cut":[4.2,1,2],"stages":[]}', 'A1 B1'],
            ['1', '{"cut":[4.2,2,1],"stages":[]}', 'B1 A1']]);
        strictEqual(now.conditions.at(-1), 'noThe regions are not apart: one holds the other, or they are the same');
    });
    for (const [left, right, apart] of REGIONS) {
        await check(`regions "${left}" and "${right}"`, async () => {
            const now = await given({ 'region-a': left, 'region-b': right, 'patch-a': '[]', 'patch-b': '[]' });
            strictEqual(now.conditions.at(-1).startsWith(apart ? 'yes' : 'no'), true);
        });
    }
    await check('regions that are too long', async () => {
        const long = '/' + 'x'.repeat(20000);
        const condition = async (which, values) => (await given(values)).conditions.at(which);
        strictEqual(await condition(-1, { 'region-a': long, 'region-b': long }),
            'noThe regions are too long to be compared');
        strictEqual(await condition(1, { 'patch-a': patch(add(long + '/0', 1)) }),
            'noPatch A has pointers too long to be judged: operation 1');
        strictEqual(await condition(1, { 'region-a': long + long }), 'noRegion A is too long to be judged');
    });
    await check('not strictly inside', async () => {
        const copy = '{"op":"copy","from":"/mAh","path":"/cut/-"}';
        const now = await given({ 'region-a': '/cut', 'region-b': '/stages',
            'patch-a': patch(add('/cut', 1), add('/cut/0', 1), copy), 'patch-b': patch(add('/stage', 1)) });
        ok(now.conditions.includes('noPatch A is not strictly inside region A: operations 1, 3'));
        ok(now.conditions.includes('noPatch B is not strictly inside region B: operation 1'));
    });
    await check('a patch that is not well formed, a region that is no pointer', async () => {
        const now = await given({ 'patch-a': '[{"op":"add"}]', 'region-b': 'stages' });
        strictEqual(now.verdict, 'No order can be tried.');
        ok(now.conditions[0].startsWith('noPatch A is not well formed: refused 8: operation 1'));
        ok(now.conditions.includes('noRegion B is no pointer'));
    });
    await check('too many orders for all of them', async () => {
        const now = await given({ 'region-b': '/stages', 'most-orders': '300',
            'patch-a': patch(...Array(20).fill(add('/cut/0', 1))),
            'patch-b': patch(...Array(20).fill(add('/stages/0', 2))) });
        strictEqual(now.verdict, '300 of 137,846,528,820 orders, chosen by seed 1, give the same 104 bytes.');
        strictEqual(now.rows[0][0], '300');
    });
    await check('a limit in the way', async () => {
        const now = await given({ document: `{"cut":[${Array(2043).fill(0)}],"stages":[]}`, 'most-orders': '1000',
            'patch-a': patch(add('/cut/-', 1)), 'patch-b': patch(add('/stages/-', 1), add('/stages/-', 1)) });
        strictEqual(now.verdict, 'All 3 orders do as the theorem says; 3 of them met a limit (2, 6, 9, 16).');
        ok(now.kind.includes('done') && now.rows.every(row => /^refused 6 text 0 op 3 /.test(row[1])));
    });
}
