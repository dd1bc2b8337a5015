// A text to type, to open or to drop a file on. It keeps the bytes: those of the file
// until the text is edited, whatever a text area would make of them.
import { byId, make, announce, hasFile } from './dom.mjs';
import { many } from './words.mjs';

const MOST = 32768;
const encoder = new TextEncoder(), decoder = new TextDecoder('utf-8', { ignoreBOM: true });
// A text area shows every line end as a line feed.
const shown = text => text.replace(/\r\n?/g, '\n');

// changed: called after each change.
export function editor(place, { name, label, text, changed }) {
    const root = byId('editor-template').content.firstElementChild.cloneNode(true);
    const part = kind => root.querySelector('.' + kind);
    const area = part('area'), backdrop = part('backdrop'), chooser = part('chooser');
    area.id = name;
    part('label').htmlFor = name;
    part('label').textContent = label;
    part('note').id = name + '-note';
    area.setAttribute('aria-describedby', name + '-note');
    part('open').setAttribute('aria-label', `Open a file as ${label.toLowerCase()}`);
    place.prepend(root);
    let bytes, exact, marks = [];

    const measure = () => {
        const size = part('size');
        size.textContent = `${bytes.length.toLocaleString('en')} of ${many(MOST, 'byte')}`;
        size.classList.toggle('over', bytes.length > MOST);
    };
    const draw = () => {
        const value = area.value, pieces = [];
        let at = 0;
        for (const { start, end, kind, origin } of marks) {
            const piece = value.slice(start, end), by = origin === undefined ? {} : { 'data-origin': origin };
            // a line end, or the end of the text, is marked as a blank
            pieces.push(value.slice(at, start),
                make('mark', { className: kind, ...by }, piece.trim() ? piece : ' ' + piece));
            at = end;
        }
        backdrop.replaceChildren(...pieces, value.slice(at) + '\n');
        backdrop.scrollTop = area.scrollTop;
    };
    const hold = (now, from) => {
        bytes = now;
        exact = decoder.decode(bytes);
        part('file').textContent = from ?? '';
        measure();
    };
    const set = (now, from) => {
        hold(now, from);
        marks = [];
        area.value = exact;
        draw();
        changed();
    };
    // At most a byte more than the limit, as the patch tool reads.
    const take = async file => {
        set(new Uint8Array(await file.slice(0, MOST + 1).arrayBuffer()), file.name);
        announce(`${file.name} opened as ${label.toLowerCase()}`);
    };

    area.addEventListener('input', () => {
        hold(encoder.encode(area.value));
        marks = [];
        draw();
        changed();
    });
    area.addEventListener('scroll', () => { backdrop.scrollTop = area.scrollTop; });
    part('open').addEventListener('click', () => chooser.click());
    chooser.addEventListener('change', () => {
        if (chooser.files.length) take(chooser.files[0]);
        chooser.value = '';
    });
    for (const [kind, over] of [['dragover', true], ['dragleave', false], ['drop', false]]) {
        root.addEventListener(kind, event => root.classList.toggle('dropping', over && hasFile(event)));
    }
    root.addEventListener('drop', event => {
        if (!hasFile(event)) return;
        event.preventDefault();
        take(event.dataTransfer.files[0]);
    });

    const self = {
        root, area, set,
        get bytes() { return bytes; },
        get text() { return exact; },
        write: words => set(encoder.encode(words)),
        // Offset in the text of a byte.
        offset: byte => decoder.decode(bytes.subarray(0, byte)).length,
        // Marks parts of the text, from start to end, and says why below it. A part that has
        // an origin is no fault.
        mark(parts, note) {
            marks = parts.map(({ start, end, ...rest }) =>
                ({ ...rest, start: shown(exact.slice(0, start)).length, end: shown(exact.slice(0, end)).length }));
            area.setAttribute('aria-invalid', String(parts.some(({ origin }) => origin === undefined)));
            self.note(note);
            draw();
        },
        note(words) { part('note').textContent = words ?? ''; },
        // Brings what is marked into view, and selects it.
        show() {
            if (!marks.length) return;
            area.focus();
            area.setSelectionRange(marks.at(-1).start, marks.at(-1).end);
            self.scroll();
        },
        scroll() {
            const mark = backdrop.querySelector('mark.chosen') ?? backdrop.querySelector('mark');
            if (!mark) return;
            const top = mark.offsetTop, bottom = top + mark.offsetHeight, view = area.clientHeight;
            if (top < area.scrollTop || bottom > area.scrollTop + view) area.scrollTop = Math.max(0, top - view / 3);
        },
    };
    hold(encoder.encode(text));
    area.value = text;
    draw();
    return self;
}
