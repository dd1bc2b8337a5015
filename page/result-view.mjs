// The result, as text and as a tree: each value in the colour of the operation that put it
// there, a legend, and what is said of the value that is pointed at or has the focus.
import { byId, announce, copyAndSave, reveal, tabs } from './dom.mjs';
import { numbered, outline, pointerOf } from './json.mjs';
import { authors, coloured, paint, putBy, showLegend } from './origins.mjs';
import { showTree, treeKeys } from './tree.mjs';
import { many } from './words.mjs';

const decoder = new TextDecoder();

// Marks the values of an origin, its operation in the patch, and its entry in the legend;
// for undefined, nothing.
function marker() {
    let marked;
    return origin => {
        if (origin === marked) return;
        for (const element of document.querySelectorAll('#apply .chosen')) element.classList.remove('chosen');
        for (const element of document.querySelectorAll(`#apply [data-origin="${origin}"]`)) {
            element.classList.add('chosen');
        }
        marked = origin;
    };
}

// Calls `over` with an event as often as the pointer or the focus comes to another part of
// a place, and `left` when it has left the place.
function watch(place, over, left) {
    for (const kind of ['pointerover', 'focusin']) place.addEventListener(kind, over);
    for (const kind of ['pointerleave', 'focusout']) place.addEventListener(kind, left);
}

// The legend: an origin stays marked once it is chosen, until it is chosen again. told:
// called with the origin that is chosen now.
function choosing(legend, mark, told) {
    let chosen;
    const of = event => event.target.closest('button')?.dataset.origin;
    const set = origin => {
        chosen = origin;
        for (const button of legend.querySelectorAll('button')) {
            button.setAttribute('aria-pressed', String(Number(button.dataset.origin) === chosen));
        }
        mark(chosen);
    };
    watch(legend, event => { if (of(event)) mark(Number(of(event))); }, () => mark(chosen));
    legend.addEventListener('click', event => {
        if (!of(event)) return;
        set(Number(of(event)) === chosen ? undefined : Number(of(event)));
        told(chosen);
    });
    return { get chosen() { return chosen; }, clear: () => set(undefined) };
}

// The number of the value that an event is about.
function valueOf(event) {
    const part = event.target.closest('[role=treeitem], [data-value]');
    return part && Number((part.dataset.value ? part : part.querySelector('[data-value]')).dataset.value);
}

export function resultView(patchEditor) {
    const text = byId('result-text'), tree = byId('tree'), legend = byId('legend'), mark = marker();
    let written = new Uint8Array(), values = [], author;
    const words = ({ origin }) => origin === undefined ? '' : putBy(author(origin), origin);
    const say = value => {
        byId('pointer').textContent = value.tokens.length ? pointerOf(value.tokens) : 'the root';
        byId('put-by').textContent = words(value);
    };
    const choice = choosing(legend, mark, origin => {
        if (origin === undefined) return announce('Nothing is marked');
        for (const place of [text, tree]) {
            const first = place.querySelector('.chosen');
            if (first?.getClientRects().length) reveal(place, first);
        }
        patchEditor.scroll();
        const count = values.filter(value => value.origin === origin).length;
        return announce(`${many(count, 'value')} marked, ${words({ origin })}`);
    });
    // The values of the document mark nothing.
    const point = event => {
        const value = values[valueOf(event)];
        if (!value) return;
        say(value);
        mark(value.origin || choice.chosen);
    };
    for (const place of [text, tree]) watch(place, point, () => mark(choice.chosen));
    copyAndSave(byId('result'), 'Result', 'patched.json', () => written);
    tabs(byId('result-tabs'));
    treeKeys(tree);

    return {
        // Shows a result, with origins where the answer has them, and gives the operations
        // that have left a value as parts of the patch.
        show(answer, merge) {
            const origins = answer.origins, whole = decoder.decode(answer.written), root = outline(whole);
            written = answer.written;
            author = origins && authors(patchEditor.text, merge);
            values = numbered(root, origins);
            text.replaceChildren(coloured(whole, root));
            showTree(tree, root, words);
            byId('origins').hidden = !origins;
            showLegend(legend, origins ?? [], author);
            choice.clear();
            say(root);
            return [...new Set(origins)].filter(Boolean).sort((a, b) => a - b).map(origin => {
                const { start, end } = author(origin);
                return { start, end, origin, kind: paint(origin) };
            });
        },
    };
}
