// Where the values of a JSON text stand, for showing them. It takes only texts that the
// proved call has read without a refusal, so it judges nothing. Numbers stay as they are
// written.
const KINDS = { '{': 'object', '[': 'array', '"': 'string', t: 'true', f: 'false', n: 'null' };

// A value: kind, start and end in the text, and its children. A child of an object has a
// name, a child of an array has its index.
export function outline(text) {
    let at = 0;
    const blanks = () => { while (' \t\n\r'.includes(text[at]) && at < text.length) at++; };
    const past = pattern => { pattern.lastIndex = at; pattern.test(text); at = pattern.lastIndex; };
    const string = () => { past(/"(?:[^"\\]+|\\.)*"/y); };
    const value = () => {
        const start = at, kind = KINDS[text[at]] ?? 'number', children = [];
        if (kind === 'string') string();
        else if (kind === 'object' || kind === 'array') {
            const close = kind === 'object' ? '}' : ']';
            for (at++, blanks(); text[at] !== close; blanks()) {
                if (text[at] === ',') { at++; blanks(); }
                children.push(child(kind, children.length));
            }
            at++;
        } else past(/[-+.0-9A-Za-z]+/y);
        return { kind, start, end: at, children, source: text.slice(start, at) };
    };
    const child = (kind, index) => {
        if (kind === 'array') return { token: String(index), value: value() };
        const start = at;
        string();
        const token = JSON.parse(text.slice(start, at));
        blanks(), at++, blanks();
        return { token, value: value() };
    };
    blanks();
    return value();
}

// Numbers the values of an outline in written order, gives each its tokens and, if there
// is a list of them, its origin; and gives all values in that order.
export function numbered(root, origins) {
    const values = [];
    const visit = (value, tokens) => {
        Object.assign(value, { number: values.length, tokens, origin: origins?.[values.length] });
        values.push(value);
        for (const child of value.children) visit(child.value, [...tokens, child.token]);
    };
    visit(root, []);
    return values;
}

export const member = (value, name) => value.children.find(({ token }) => token === name)?.value;
// A member's string, unescaped.
export const stringMember = (value, name) => {
    const found = value.kind === 'object' ? member(value, name) : undefined;
    return found?.kind === 'string' ? JSON.parse(found.source) : undefined;
};

const unescaped = token => token.replace(/~1/g, '/').replace(/~0/g, '~');
export const escaped = token => token.replace(/~/g, '~0').replace(/\//g, '~1');
export const tokensOf = pointer => pointer === '' ? [] : pointer.slice(1).split('/').map(unescaped);
export const pointerOf = tokens => tokens.map(token => '/' + escaped(token)).join('');

// The value that the tokens lead to, if there is one.
export function walk(root, tokens) {
    let value = root;
    for (const token of tokens) {
        value = value && ['object', 'array'].includes(value.kind) ? member(value, token) : undefined;
    }
    return value;
}
