// A document as a tree, for eyes, keys and screen readers. Where there are origins (T-11),
// each value has the colour and the number of the operation that put it there.
import { make } from './dom.mjs';
import { badge, paint } from './origins.mjs';
import { many } from './words.mjs';

const size = ({ kind, children }) => many(children.length, kind === 'array' ? 'element' : 'member');
const isInner = ({ kind }) => kind === 'object' || kind === 'array';

function rowOf(value, token) {
    const { kind, origin, number, source } = value, inner = isInner(value);
    const words = kind === 'array' ? `[ ${size(value)} ]` : inner ? `{ ${size(value)} }` : source;
    const sign = origin === undefined ? {} : { 'data-origin': origin };
    const className = `${inner ? 'count' : `value ${kind}`} ${origin ? paint(origin) : ''}`;
    return make('span', { className: 'row', 'data-value': number },
        make('span', { className: 'twist', 'aria-hidden': 'true' }),
        token === undefined ? '' : make('span', { className: 'token' }, token),
        make('span', { className, ...sign }, words),
        origin ? badge(origin) : '');
}

// root: an outline whose values are numbered (page/json.mjs). said: what is said of a
// value beside its words, or ''.
export function showTree(place, root, said) {
    const itemOf = (value, token, level) => {
        const name = [token ?? 'the root', isInner(value) ? size(value) : value.source, said(value)];
        const item = make('li', { role: 'treeitem', tabIndex: -1, 'aria-level': level,
            'aria-label': name.filter(Boolean).join(', ') }, rowOf(value, token));
        if (value.children.length) {
            item.setAttribute('aria-expanded', 'true');
            item.append(make('ul', { role: 'group' },
                ...value.children.map(child => itemOf(child.value, child.token, level + 1))));
        }
        return item;
    };
    place.replaceChildren(itemOf(root, undefined, 1));
    place.firstElementChild.tabIndex = 0;
}

const open = item => item.getAttribute('aria-expanded') === 'true';
const visible = place => [...place.querySelectorAll('[role=treeitem]')].filter(item => item.offsetParent !== null);
const above = item => item.parentElement.closest('[role=treeitem]');

function choose(place, item) {
    if (!item) return;
    place.querySelector('[tabindex="0"]').tabIndex = -1;
    item.tabIndex = 0;
    item.focus();
}

function fold(item, on) {
    if (item.hasAttribute('aria-expanded')) item.setAttribute('aria-expanded', String(on));
}

// The keys of a tree: arrows, Home, End, Enter or the space bar.
export function treeKeys(place) {
    const of = event => event.target.closest('[role=treeitem]');
    place.addEventListener('click', event => {
        const item = of(event);
        if (!item) return;
        if (event.target.closest('.twist')) fold(item, !open(item));
        choose(place, item);
    });
    place.addEventListener('keydown', event => {
        const item = of(event), all = visible(place), now = all.indexOf(item);
        const act = {
            ArrowDown: () => choose(place, all[now + 1]),
            ArrowUp: () => choose(place, all[now - 1]),
            Home: () => choose(place, all[0]),
            End: () => choose(place, all.at(-1)),
            ArrowRight: () => open(item) ? choose(place, all[now + 1]) : fold(item, true),
            ArrowLeft: () => open(item) ? fold(item, false) : choose(place, above(item)),
            Enter: () => fold(item, !open(item)),
            ' ': () => fold(item, !open(item)),
        }[event.key];
        if (!act || !item) return;
        event.preventDefault();
        act();
    });
}
