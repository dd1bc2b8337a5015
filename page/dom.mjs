// Small things of the page: elements, the clipboard, files to save.
export const byId = id => document.getElementById(id);

// An element with properties and children; words become text and never markup.
export function make(name, properties = {}, ...children) {
    const element = document.createElement(name);
    for (const [key, value] of Object.entries(properties)) {
        if (key.includes('-') || key === 'role') element.setAttribute(key, value);
        else element[key] = value;
    }
    element.append(...children.filter(child => child !== undefined && child !== ''));
    return element;
}

// Whether a file is dragged; words are the text area's own.
export const hasFile = event => event.dataTransfer.types.includes('Files');

// What is to be said to someone who does not see the page.
export function announce(words) {
    byId('announcement').textContent = words;
}

async function copy(text) {
    try {
        await navigator.clipboard.writeText(text);
    } catch {
        const area = make('textarea', { value: text, readOnly: true, className: 'unseen' });
        document.body.append(area);
        area.select();
        document.execCommand('copy');
        area.remove();
    }
}

function save(bytes, name) {
    const url = URL.createObjectURL(new Blob([bytes], { type: 'application/json' }));
    make('a', { href: url, download: name }).click();
    setTimeout(() => URL.revokeObjectURL(url), 10000);
}

const decoder = new TextDecoder();

// The two buttons of a panel. bytes: what it holds now.
export function copyAndSave(panel, what, name, bytes) {
    const [copier, saver] = ['.copy', '.save'].map(kind => panel.querySelector(kind));
    copier?.addEventListener('click', async () => {
        await copy(decoder.decode(bytes()));
        announce(`${what} copied`);
    });
    saver?.addEventListener('click', () => {
        save(bytes(), name);
        announce(`${what} saved as ${name}`);
    });
}

// Scrolls a place, and nothing around it, so that a part of it is in view.
export function reveal(place, part) {
    const [around, inside] = [place, part].map(element => element.getBoundingClientRect());
    if (inside.top >= around.top && inside.bottom <= around.bottom) return;
    place.scrollTop += inside.top - around.top - place.clientHeight / 3;
}

// The tabs of a list, by the keys that people expect: arrows, Home and End.
export function tabs(list, chosen) {
    const all = [...list.querySelectorAll('[role=tab]')];
    const choose = (tab, focus) => {
        for (const other of all) {
            const on = other === tab;
            other.setAttribute('aria-selected', String(on));
            other.tabIndex = on ? 0 : -1;
            byId(other.getAttribute('aria-controls')).hidden = !on;
        }
        if (focus) tab.focus();
        chosen?.(tab);
    };
    list.addEventListener('keydown', event => {
        const now = all.indexOf(event.target), last = all.length - 1;
        const [next, previous] = [now === last ? 0 : now + 1, now === 0 ? last : now - 1];
        const to = { ArrowRight: next, ArrowLeft: previous, Home: 0, End: last };
        if (!(event.key in to)) return;
        event.preventDefault();
        choose(all[to[event.key]], true);
    });
    for (const tab of all) tab.addEventListener('click', () => choose(tab, false));
    choose(all.find(tab => tab.getAttribute('aria-selected') === 'true'), false);
}
