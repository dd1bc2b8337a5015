// node run.mjs PAGE.html FOLDER-FOR-SCREENSHOTS
// Every feature of the page, in a real browser. The last line says how many checks were
// made and how many failed.
import { openBench } from './bench.mjs';
import { committed, loading } from './loading.mjs';
import { examples, regions } from './refusals.mjs';
import { merging } from './merging.mjs';
import { origins } from './origins.mjs';
import { files, trees, undos } from './results.mjs';
import { shuffles } from './shuffles.mjs';
import { appearance, keyboard } from './appearance.mjs';

const bench = await openBench(process.argv[2], process.argv[3]);
try {
    const parts = [loading, committed, examples, regions, undos, merging, trees, origins, files, shuffles, appearance,
        keyboard];
    for (const part of parts) await part(bench);
} finally {
    await bench.at.end();
}
const { checks, failed } = bench.sums;
console.log(`page: ${checks} checks, ${failed} failed`);
process.exitCode = failed ? 1 : 0;
