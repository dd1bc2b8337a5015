// What every part of the test uses: the browser with the page, and checks that are counted.
import { mkdirSync } from 'node:fs';
import { dirname, join, resolve } from 'node:path';
import { fileURLToPath, pathToFileURL } from 'node:url';
import { browser } from './browser.mjs';
import { fill, shown } from './looks.mjs';

export const PROFILE = '{"mAh":3000,"cut":[4.2,3.0]}';
export const KEYS = { tab: '\uE004', enter: '\uE007', end: '\uE010', home: '\uE011', left: '\uE012', up: '\uE013',
    right: '\uE014', down: '\uE015' };
export const root = resolve(dirname(fileURLToPath(import.meta.url)), '../..');
export const wait = milliseconds => new Promise(done => setTimeout(done, milliseconds));

// page: the HTML file. shots: the folder for screenshots.
export async function openBench(page, shots) {
    shots = resolve(shots);
    mkdirSync(shots, { recursive: true });
    const at = await browser(), sums = { checks: 0, failed: 0 };
    // the numbers of all refusals that were shown
    const numbers = new Set();
    const look = () => at.run(shown);
    return {
        at, numbers, look, page, shots, sums,
        load: () => at.go(pathToFileURL(resolve(page)).href),
        picture: name => at.shot(join(shots, name + '.png')),
        async check(name, body) {
            sums.checks++;
            try {
                await body();
            } catch (trouble) {
                sums.failed++;
                console.log(`${name}: ${trouble.message}`);
            }
        },
        // Types both texts, and what else is given, and gives what is shown then.
        async enter(document, patch, { merge = false, ...more } = {}) {
            await at.run(fill, { [merge ? 'merge' : 'plain']: true, 'in-region': false, document, patch, ...more });
            const now = await look(), refused = /^refused (\d+)/.exec(now.line);
            if (refused) numbers.add(Number(refused[1]));
            return now;
        },
    };
}
