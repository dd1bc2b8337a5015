// The page: one document, and what is done with it.
import { engine } from '../examples/wasm/engine.mjs';
import { byId, hasFile, tabs } from './dom.mjs';
import { editor } from './editor.mjs';
import { applyView } from './apply-view.mjs';
import { shuffleView } from './shuffle-view.mjs';

const PROFILE = `{
  "pack": "NCR-3S3P",
  "mAh": 3000,
  "cut": [4.2, 3.0],
  "stages": [
    {"mA": 1500, "mV": 4200},
    {"mA": 150, "mV": 4200}
  ]
}`;
const CORRECTION = `[
  {"op": "test", "path": "/mAh", "value": 3e3},
  {"op": "replace", "path": "/cut/0", "value": 4.15},
  {"op": "add", "path": "/stages/1", "value": {"rest_s": 600}},
  {"op": "add", "path": "/revised", "value": "24W18"}
]`;
const MERGE = `{
  "mAh": null,
  "cut": [4.15, 3.0],
  "limits": {"mAh": 3000, "mA": 1500},
  "revised": "24W18"
}`;
const CUTS = `[
  {"op": "test", "path": "/cut/0", "value": 4.2},
  {"op": "replace", "path": "/cut/0", "value": 4.15},
  {"op": "add", "path": "/cut/-", "value": 2.8}
]`;
const STAGES = `[
  {"op": "add", "path": "/stages/1", "value": {"rest_s": 600}},
  {"op": "replace", "path": "/stages/0/mA", "value": 1200}
]`;

function embedded() {
    return Uint8Array.from(atob(byId('module').textContent.trim()), letter => letter.charCodeAt(0));
}

function start() {
    const calls = engine(embedded());
    let view;
    const changed = () => view?.run();
    const make = (place, name, label, text) => editor(byId(place), { name, label, text, changed });
    const documentEditor = make('document-place', 'document', 'Document', PROFILE);
    const views = {
        apply: applyView(calls, documentEditor, make('patch-place', 'patch', 'Patch', CORRECTION), [CORRECTION, MERGE]),
        shuffles: shuffleView(calls, documentEditor, [make('patch-a-place', 'patch-a', 'Patch A', CUTS),
            make('patch-b-place', 'patch-b', 'Patch B', STAGES)]),
    };
    // The document stands in whichever view is open.
    tabs(byId('views'), tab => {
        const name = tab.getAttribute('aria-controls');
        byId(name).querySelector('.inputs').prepend(byId('document-place'));
        documentEditor.mark([], '');
        view = views[name];
        view.run();
    });
    window.jsonPatch = { engine: (most = 65536) => engine(embedded(), most), calls };
}

// A file that misses its place must not replace the page.
for (const kind of ['dragover', 'drop']) {
    window.addEventListener(kind, event => { if (hasFile(event)) event.preventDefault(); });
}

try {
    start();
} catch (trouble) {
    document.querySelector('main').hidden = true;
    byId('trouble').hidden = false;
    byId('trouble-words').textContent = trouble.message;
}
