// What all panes use.
import { inWords } from './words.js';

/** @template {keyof Ids} K @param {K} id @returns {Ids[K]} */
export const $ = id => /** @type {any} */ (document.getElementById(id));

/** @param {K} tag @param {Record<string, any>} [attributes] @param {...(string | Node)} children @template {keyof HTMLElementTagNameMap} K @returns {HTMLElementTagNameMap[K]} */
export function made(tag, attributes = {}, ...children) {
    const it = document.createElement(tag);
    for (const [name, value] of Object.entries(attributes))
        if (name.startsWith('on')) it.addEventListener(name.slice(2), value);
        else if (value !== false && value !== null) it.setAttribute(name, value === true ? '' : value);
    it.append(...children);
    return it;
}

/** @param {number} number @param {number} digits */
export const octal = (number, digits) => number.toString(8).padStart(digits, '0');

// The element that is the target of an event.
/** @param {Event} event */
export const elementOf = event => /** @type {HTMLElement} */ (event.target);

// Ids of elements, each as what it is.
/** @template {keyof Ids} K @param {...K} all @returns {K[]} */
export const ids = (...all) => all;

// Shows what the program said, or the page, in a pane's line of status.
/** @param {keyof Ids} id @param {string} text @param {boolean} [isBad] */
export function tell(id, text, isBad = false) {
    const it = $(id);
    it.textContent = inWords(text);
    it.classList.toggle('bad', isBad);
}

// Whether a text is an octal number of so many digits at most.
/** @param {string} text @param {number} digits */
export const isOctal = (text, digits) => /^[0-7]+$/.test(text) && text.length <= digits;

// Gives bytes to the browser as a file to be kept.
/** @param {string} name @param {Uint8Array} [bytes] */
export function takeHome(name, bytes = new Uint8Array(0)) {
    const url = URL.createObjectURL(new Blob([bytes], { type: 'application/octet-stream' }));
    made('a', { href: url, download: name }).click();
    setTimeout(() => URL.revokeObjectURL(url), 10000);
}

// The bytes of a file of the host. The program reads 16,777,216 bytes at most, and refuses what has more: it is given one more, no matter
// how long the file is.
/** @param {Blob} file */
export async function bytesOfFile(file) {
    return new Uint8Array(await file.slice(0, 16777217).arrayBuffer());
}

// Puts a text in the place of another one, with the cursor after what differs.
/** @param {HTMLInputElement | HTMLTextAreaElement} it @param {string} text */
export function replace(it, text) {
    const old = it.value, most = Math.min(old.length, text.length), { scrollTop } = it;
    let end = 0;
    while (end < most && old[old.length - 1 - end] === text[text.length - 1 - end]) end++;
    it.value = text;
    it.setSelectionRange(text.length - end, text.length - end);
    it.scrollTop = scrollTop;
}

// What is typed into an input is kept over a reload, and follows the tab that has it.
/** @param {import('./store.js').Store} store @param {keyof Ids} id */
export function keepInput(store, id) {
    const it = /** @type {HTMLInputElement} */ ($(id)), isBox = it.type === 'checkbox', old = store.notes.get(id);
    /** @param {any} value */
    const show = value => { if (value !== undefined) isBox ? it.checked = value : it.tagName === 'TEXTAREA' ? replace(it, value) : it.value = value; };
    show(old);
    store.addEventListener('note', ({ detail }) => detail === id && show(store.notes.get(id)));
    it.addEventListener(it.tagName === 'SELECT' || isBox ? 'change' : 'input', () => store.note(id, isBox ? it.checked : it.value));
}

// Adds to a text that is followed, and keeps its end in view unless the reader has gone back in it.
/** @param {Element} it @param {string} text */
export function follow(it, text) {
    const isAtEnd = it.scrollTop + it.clientHeight >= it.scrollHeight - 30;
    it.append(text);
    if (isAtEnd) it.scrollTop = it.scrollHeight;
}

// Scrolls a box, and no more than it, until it shows an element of it.
/** @param {Element} box @param {Element | undefined} it */
export function bringIntoView(box, it) {
    if (!it) return;
    const own = box.getBoundingClientRect(), there = it.getBoundingClientRect(), bottom = own.top + box.clientTop + box.clientHeight;
    if (there.top < own.top) box.scrollTop -= own.top - there.top;
    else if (there.bottom > bottom) box.scrollTop += there.bottom - bottom;
}

// Buttons of which one is a stop of Tab, and arrows go among them. Left and right go to the next. Up and down go to the next row of a table, or to
// the next where there is none.
const ROVED = 'button:not(:disabled), input[type="file"]:not(:disabled), #directory input[type="checkbox"], a.button';

/** @param {Element} box */
export function rove(box) {
    const all = () => /** @type {HTMLElement[]} */ ([...box.querySelectorAll(ROVED)]);
    /** @param {Element} it */
    const stop = it => all().forEach(one => { one.tabIndex = one === it ? 0 : -1; });
    const settle = () => { if (all().filter(it => it.tabIndex === 0).length !== 1) stop(all()[0]); };
    box.addEventListener('focusin', event => elementOf(event).matches(ROVED) && stop(elementOf(event)));
    /** @type {HTMLElement} */ (box).addEventListener('keydown', event => {
        const own = elementOf(event).closest(ROVED);
        if (!own) return;
        /** @type {Record<string, () => Element | null | undefined>} */
        const keys = { ArrowRight: () => next(all(), own, 1), ArrowLeft: () => next(all(), own, -1), ArrowDown: () => below(all(), own, 'nextElementSibling'),
            ArrowUp: () => below(all(), own, 'previousElementSibling'), Home: () => all()[0], End: () => all().at(-1) }, to = keys[event.key]?.();
        if (!(to instanceof HTMLElement)) return;
        event.preventDefault();
        to.focus();
    });
    new MutationObserver(settle).observe(box, { childList: true, subtree: true, attributes: true, attributeFilter: ['disabled'] });
    settle();
}

/** @param {Element[]} all @param {Element} own @param {number} by */
function next(all, own, by) { return all[all.indexOf(own) + by]; }

/** @param {Element[]} all @param {Element} own @param {'nextElementSibling' | 'previousElementSibling'} way */
function below(all, own, way) {
    const row = own.closest('tr'), by = way === 'nextElementSibling' ? 1 : -1;
    if (!row) return next(all, own, by);
    const rows = [...row.closest('table')?.rows ?? []].filter(it => !it.hidden), column = [...row.querySelectorAll(ROVED)].indexOf(own);
    const there = [...rows[rows.indexOf(row) + by]?.querySelectorAll(ROVED) ?? []];
    return there[Math.min(column, there.length - 1)];
}
