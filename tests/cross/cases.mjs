// node --experimental-wasm-memory64 cases.mjs json_patch.wasm KIND FILE-OF-CASES
// Says for each case what the stored output of its crate has.
import { readFileSync, writeSync } from 'node:fs';
import { engine } from '../../examples/wasm/engine.mjs';
import { linesOf } from './lines.mjs';

const [wasm, kind, file] = process.argv.slice(2);
const text = linesOf(engine(readFileSync(wasm), 131072), kind, readFileSync(file));
for (let at = 0; at < text.length;) at += writeSync(1, text, at);
