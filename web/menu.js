// A menu of a button. It lies over the page, and moves nothing. Arrows, Home and End go among its items, Enter takes one, and Escape or a press elsewhere
// closes it.
import { $, made } from './dom.js';

/** @typedef {{ text: string, label: string, what: () => void }} Item */

/** @type {HTMLElement | null} */
let owner = null;

// Closes the menu. The focus goes back to its button, where that is wanted.
/** @param {boolean} isBack */
function close(isBack) {
    $('menu').hidden = true;
    owner?.setAttribute('aria-expanded', 'false');
    if (isBack) owner?.focus();
    owner = null;
}

// Opens the menu of a button, or closes it where it is open.
/** @param {HTMLElement} button @param {string} label @param {Item[]} items */
export function toggleMenu(button, label, items) {
    if (owner === button) return close(true);
    close(false);
    owner = button;
    button.setAttribute('aria-expanded', 'true');
    const menu = $('menu');
    menu.setAttribute('aria-label', label);
    menu.replaceChildren(...items.map(it => made('button', { role: 'menuitem', tabindex: '-1', 'aria-label': it.label, onclick: () => { close(true); it.what(); } }, it.text)));
    menu.hidden = false;
    place(menu, button.getBoundingClientRect());
    menu.querySelector('button')?.focus({ preventScroll: true });
}

// Lays the menu below its button, or above it where there is no room below.
/** @param {HTMLElement} menu @param {DOMRect} at */
function place(menu, at) {
    const { offsetWidth: width, offsetHeight: height } = menu, { clientWidth, clientHeight } = document.documentElement;
    const top = at.bottom + height <= clientHeight ? at.bottom : Math.max(0, at.top - height);
    menu.style.left = `${scrollX + Math.max(0, Math.min(at.left, clientWidth - width))}px`;
    menu.style.top = `${scrollY + top}px`;
}

/** @param {KeyboardEvent} event */
function key(event) {
    const all = [...$('menu').querySelectorAll('button')], at = all.findIndex(it => it === document.activeElement);
    const to = { ArrowDown: at + 1, ArrowUp: at + all.length - 1, Home: 0, End: all.length - 1 }[event.key];
    if (event.key === 'Escape' || event.key === 'Tab') close(true);
    if (event.key !== 'Tab' && (to !== undefined || event.key === 'Escape')) event.preventDefault();
    if (to !== undefined) all[to % all.length]?.focus();
}

// Has the menu answer to keys, and close where one presses or scrolls elsewhere.
export function beginMenu() {
    $('menu').addEventListener('keydown', key);
    for (const it of ['pointerdown', 'wheel'])
        document.addEventListener(it, ({ target }) => { if (owner && target instanceof Node && !$('menu').contains(target) && !owner.contains(target)) close(false); });
}
