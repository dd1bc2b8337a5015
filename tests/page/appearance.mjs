// How the page looks and how it is said: wide and narrow, light and dark, by keys and for
// a screen reader.
import { deepStrictEqual, ok } from 'node:assert';
import { KEYS } from './bench.mjs';
import { fill, lowContrast, shuffleShown, tooWide } from './looks.mjs';

const BROKEN = '[\n  {"op": "test" "path": "/mAh"}\n]';
const MISSING = '[\n  {"op": "test", "path": "/mAh", "value": 3e3},\n' +
    '  {"op": "replace", "path": "/stages/3/mA", "value": 1200},\n  {"op": "remove", "path": "/cut"}\n]';
// more operations than there are colours, each with a word and a number, and one in another's
const COLOURS = `[\n${Array.from({ length: 14 }, (_, i) =>
    `{"op": "add", "path": "/a${i}", "value": ["x", ${i}, null]}`).join(',\n')},\n` +
    '{"op": "move", "from": "/cut", "path": "/a13/0"}\n]';
// a picture's name, what is clicked, what is typed
const STATES = [['shuffles', '#tab-shuffles', {}], ['done', '#tab-apply', {}], ['tree', '#tab-tree', {}],
    ['chosen', '#by-3', {}], ['colours', '#tab-text', { patch: COLOURS }], ['colours-tree', '#tab-tree', {}],
    ['byte', '#tab-text', { patch: BROKEN }], ['operation', '#tab-apply', { patch: MISSING }],
    ['merge', '#merge', { patch: '{"mAh": null, "cut": {"low": 3.0}}' }]];
const NAMED = ['button', 'textbox', 'tab', 'checkbox', 'radio', 'spinbutton', 'tree', 'treeitem', 'tabpanel'];

async function media(at, scheme, width) {
    await at.cdp('Emulation.setEmulatedMedia', { features: [{ name: 'prefers-color-scheme', value: scheme }] });
    await at.cdp('Emulation.setDeviceMetricsOverride',
        { width, height: width < 500 ? 800 : 1000, deviceScaleFactor: 1, mobile: width < 500 });
}

// The roles of controls that have no name.
async function unnamed(at) {
    const { nodes } = await at.cdp('Accessibility.getFullAXTree');
    return nodes.filter(({ ignored, role, name }) => !ignored && NAMED.includes(role?.value) && !name?.value)
        .map(({ role }) => role.value);
}

export async function appearance({ at, check, load, picture }) {
    for (const [scheme, width] of [['light', 1280], ['dark', 1280], ['light', 360], ['dark', 360]]) {
        await media(at, scheme, width);
        await load();
        for (const [name, tab, values] of STATES) {
            await check(`${name}, ${scheme}, ${width} wide`, async () => {
                await at.run(css => document.querySelector(css).click(), tab);
                await at.run(fill, values);
                if (name === 'shuffles') await at.run(shuffleShown);
                await picture(`${name}-${scheme}-${width}`);
                deepStrictEqual(await at.run(tooWide), []);
                deepStrictEqual(await at.run(lowContrast), []);
                deepStrictEqual(await unnamed(at), []);
            });
        }
    }
    await media(at, 'light', 1280);
    await load();
}

// What is marked behind the letters, in the page: what differs between the two layers.
function layersDiffer() {
    const [area, backdrop] = ['textarea', '.backdrop'].map(css => document.querySelector('#patch-place ' + css));
    const styles = ['fontFamily', 'fontSize', 'lineHeight', 'letterSpacing', 'paddingLeft', 'paddingTop', 'tabSize',
        'whiteSpace', 'overflowWrap', 'borderTopWidth'];
    return [...styles.filter(name => getComputedStyle(area)[name] !== getComputedStyle(backdrop)[name]),
        ...['clientWidth', 'clientHeight', 'scrollHeight'].filter(name => area[name] !== backdrop[name])];
}

function markInView() {
    const [area, backdrop] = ['textarea', '.backdrop'].map(css => document.querySelector('#document-place ' + css));
    const [mark, view] = [backdrop.querySelector('mark'), area].map(part => part.getBoundingClientRect());
    const together = area.scrollTop > 0 && area.scrollTop === backdrop.scrollTop;
    return together && mark.top >= view.top && mark.bottom <= view.bottom;
}

export async function keyboard({ at, check, load }) {
    await check('what is marked lies behind its letters', async () => {
        deepStrictEqual(await at.run(layersDiffer), []);
    });
    await check('what is marked far below is brought into view', async () => {
        await at.run(fill, { document: `[\n${'0,\n'.repeat(300)}]` });
        await at.click('#show-it');
        ok(await at.run(markInView));
    });
    await check('every control is reached by the tab key, in the order of the page', async () => {
        await load();
        const met = [];
        for (let i = 0; i < 24; i++) {
            await at.keys(KEYS.tab);
            met.push(await at.run(() => document.activeElement.id || document.activeElement.ariaLabel));
        }
        const expected = ['tab-apply', 'Open a file as document', 'document', 'Open a file as patch', 'patch',
            'plain', 'in-region', 'tab-text', 'Copy the result', 'Save the result', 'result-text',
            'by-0', 'by-2', 'by-3', 'by-4', 'take-back', 'Copy the undo', 'Save the undo', 'undo-text',
            'Copy the line', 'line'];
        deepStrictEqual(met.slice(0, expected.length), expected);
    });
}
