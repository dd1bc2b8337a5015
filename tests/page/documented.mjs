// The examples of a document: three lines, `document`, `patch` and `prints`, as
// tools/examples.sh reads them. <<N*TEXT>> stands for TEXT written N times.
import { readFileSync } from 'node:fs';

const expanded = text => text.replace(/<<(\d+)\*(.*?)>>/g, (_, count, part) => part.repeat(Number(count)));

export function documented(file) {
    const examples = [];
    for (const line of readFileSync(file, 'utf8').split('\n')) {
        const found = /^ {4}(document|patch|prints)(?: (.*))?$/.exec(line);
        if (!found) continue;
        if (found[1] === 'document') examples.push({});
        if (examples.length) examples.at(-1)[found[1]] = expanded(found[2] ?? '');
    }
    return examples.filter(({ prints }) => prints !== undefined);
}
