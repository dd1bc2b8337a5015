// Functions that run in the page: what a person would see or hear of it. Each uses
// nothing from outside.

// Texts that stand out too little from their ground (WCAG 2.1, 1.4.3 and 1.4.11).
export function lowContrast() {
    const parse = colour => {
        const numbers = colour.match(/[\d.]+/g).map(Number);
        return { rgb: numbers.slice(0, 3), alpha: numbers[3] ?? 1 };
    };
    const bright = rgb => rgb.map(part => part / 255)
        .map(part => part <= 0.03928 ? part / 12.92 : ((part + 0.055) / 1.055) ** 2.4)
        .reduce((sum, part, i) => sum + part * [0.2126, 0.7152, 0.0722][i], 0);
    const ratio = (a, b) => {
        const [high, low] = [bright(a), bright(b)].sort((x, y) => y - x);
        return (high + 0.05) / (low + 0.05);
    };
    const ground = element => {
        for (let now = element; now; now = now.parentElement) {
            const { rgb, alpha } = parse(getComputedStyle(now).backgroundColor);
            if (alpha === 1) return rgb;
        }
        return [255, 255, 255];
    };
    const found = [], ink = parse(getComputedStyle(document.body).color).rgb;
    for (const element of document.querySelectorAll('body *')) {
        const style = getComputedStyle(element);
        if (element.closest('[hidden], .unseen, script, template') || !element.getClientRects().length) continue;
        const words = element.matches('textarea, input[type=text], input[type=number]') ? element.value :
            [...element.childNodes].filter(node => node.nodeType === 3).map(node => node.data).join('').trim();
        if (!words || element.closest('.backdrop') && !element.matches('mark')) continue;
        const size = parseFloat(style.fontSize), large = size >= 24 || size >= 18.66 && style.fontWeight >= 700;
        // the letters over a mark are those of the text area in front of it
        const colour = element.matches('mark') ? ink : parse(style.color).rgb;
        const now = ratio(colour, ground(element));
        if (now >= (large ? 3 : 4.5)) continue;
        found.push(`${element.tagName}.${element.className} "${words.slice(0, 20)}" ${now.toFixed(2)}`);
    }
    // the numbers that the style puts in front of a value
    for (const element of document.querySelectorAll('[data-badge]')) {
        const { color, backgroundColor } = getComputedStyle(element, '::before'), own = parse(backgroundColor);
        const now = ratio(parse(color).rgb, own.alpha === 1 ? own.rgb : ground(element));
        if (!element.getClientRects().length || now >= 4.5) continue;
        found.push(`the number ${element.dataset.badge} ${now.toFixed(2)}`);
    }
    for (const element of document.querySelectorAll('textarea, input:enabled, button:enabled:not([role=tab])')) {
        if (!element.getClientRects().length || element.matches('[type=checkbox], [type=radio]')) continue;
        const now = ratio(parse(getComputedStyle(element).borderTopColor).rgb, ground(element.parentElement));
        if (now < 3) found.push(`the edge of ${element.tagName}#${element.id} ${now.toFixed(2)}`);
    }
    return found;
}

// Elements that stick out of the window to the right, if the page can be scrolled there.
export function tooWide() {
    const width = document.documentElement.clientWidth;
    if (document.documentElement.scrollWidth <= width) return [];
    return [...document.querySelectorAll('body *')].filter(element => element.getBoundingClientRect().right > width + 1)
        .map(element => `${element.tagName}#${element.id}.${element.className}`);
}

// What the page shows of an answer.
export function shown() {
    const text = id => document.getElementById(id).textContent, seen = id => !document.getElementById(id).hidden;
    const marks = name => {
        const backdrop = document.getElementById(name).parentElement.querySelector('.backdrop');
        const mark = backdrop.querySelector('mark:not([data-origin])');
        if (!mark) return null;
        const before = document.createRange();
        before.setStart(backdrop, 0);
        before.setEndBefore(mark);
        return { kind: mark.className, at: before.toString().length, text: mark.textContent };
    };
    const pointer = document.querySelector('#facts .pointer');
    return {
        line: text('line'), status: text('status-words'), advice: text('advice'),
        kind: document.getElementById('status').className,
        result: seen('result') ? text('result-text') : null,
        undo: seen('undo') ? text('undo-text') : null, undoWords: text('undo-words'),
        facts: seen('facts') ? Object.fromEntries([...document.querySelectorAll('#facts dt')]
            .map(name => [name.textContent, name.nextElementSibling.textContent])) : {},
        walked: pointer?.querySelector('.walked')?.textContent ?? '',
        failed: pointer?.querySelector('.failed')?.textContent ?? '',
        marks: { document: marks('document'), patch: marks('patch') },
        notes: { document: text('document-note'), patch: text('patch-note') },
        button: seen('show-it'),
    };
}

// Who put the values there, as it is shown: for each value of the text and of the tree in
// written order, each operation that is marked in the patch, and each entry of the legend,
// its origin, its ground, its words and the number beside it.
export function coloursShown() {
    const ground = element => {
        for (let now = element; now; now = now.parentElement) {
            const colour = getComputedStyle(now).backgroundColor;
            if (!/, 0\)$/.test(colour)) return colour;
        }
        return '';
    };
    const numberOf = element => {
        const { content } = getComputedStyle(element, '::before');
        return element.dataset.badge === undefined ? '' : /"(\d+)"/.exec(content)[1];
    };
    const list = (css, by, number) => [...document.querySelectorAll(css)].filter(element => by(element))
        .map(element => ({ origin: Number(by(element).dataset.origin), ground: ground(element),
            words: element.textContent, number: number(element) }));
    const own = element => element.dataset.origin && element;
    return {
        text: list('#result-text [data-value]', element => element.closest('[data-origin]'), numberOf),
        tree: list('#tree .value, #tree .count', own,
            value => value.parentElement.querySelector('.badge')?.textContent ?? ''),
        patch: list('#patch-place mark', own, () => ''),
        legend: list('#legend button', own, () => '').map((entry, i) =>
            ({ ...entry, ground: ground(document.querySelectorAll('#legend .badge')[i]) })),
    };
}

// Types texts as a person would, but at once.
export function fill(values) {
    for (const [id, value] of Object.entries(values)) {
        const field = document.getElementById(id);
        if (typeof value === 'boolean') field.checked = value;
        else field.value = value;
        field.dispatchEvent(new Event('input', { bubbles: true }));
    }
}

// Drops a file of these bytes on an editor.
export async function drop(id, name, bytes) {
    const files = new DataTransfer(), root = document.getElementById(id).closest('.editor');
    files.items.add(new File([Uint8Array.from(bytes)], name));
    for (const kind of ['dragover', 'drop']) {
        root.dispatchEvent(new DragEvent(kind, { dataTransfer: files, bubbles: true, cancelable: true }));
    }
    await new Promise(resolve => setTimeout(resolve, 50));
}

// What the shuffle checker shows, once it has come to an end.
export async function shuffleShown() {
    const text = id => document.getElementById(id).textContent;
    for (let i = 0; i < 600 && (/so far/.test(text('verdict-words')) || !text('verdict-words')); i++) {
        await new Promise(resolve => setTimeout(resolve, 50));
    }
    return {
        verdict: text('verdict-words'), kind: document.getElementById('verdict').className, alone: text('alone'),
        conditions: [...document.querySelectorAll('#conditions li')].map(item => item.textContent),
        rows: document.getElementById('outcomes').hidden ? [] : [...document.querySelectorAll('#outcome-rows tr')]
            .map(row => [...row.children].map(cell => cell.textContent)),
    };
}
