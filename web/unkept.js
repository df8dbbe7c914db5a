// What the browser's store doesn't take, since it is full or refuses. It is reported at once, marked, offered to be taken home, and asked about
// before the page is left.
import { $, takeHome } from './dom.js';
import { homeOf } from './encoding.js';
import { bytesOf } from './program.js';

/** @type {Record<string, string>} */
const WORDS = { text: 'the text of Source', lines: 'the text of Script' };
const wordsOf = (/** @type {string} */ key) => WORDS[key] ?? `the text ${key.slice(5)}`;

export class Unkept {
    /** @param {Page} page */
    constructor(page) {
        this.page = page;
        page.store.addEventListener('kept', () => this.#tell());
        $('unkept-home').addEventListener('click', () => this.#home());
        addEventListener('beforeunload', event => { if (page.store.unkept.some(it => !it.isHome)) event.preventDefault(); });
        this.#tell();
    }

    #tell() {
        const { unkept } = this.page.store, names = unkept.map(({ slot, key }) => slot === 'files' ? key : wordsOf(key)).join(', ');
        const words = names && `This browser can't keep what you changed: its store is full, or refuses. Not kept: ${names}. `
            + 'Save it before you leave the page.';
        $('unkept').hidden = words === '';
        if ($('unkept-words').textContent !== words) $('unkept-words').textContent = words;
    }

    #home() {
        const { store } = this.page;
        for (const { slot, key, value } of store.unkept) {
            const own = { text: `${$('source-name').value.trim() || 'PROGRAM'}.PA`, lines: 'SCRIPT.TX' }[key] ?? `${key.slice(5)}.PA`;
            const form = slot === 'files' ? null : store.notes.get(`form ${key === 'text' ? $('source-name').value.trim() : key.slice(5)}`);
            takeHome(slot === 'files' ? key : own, slot === 'files' ? bytesOf(value) : homeOf(value, form));
            store.tookHome(slot, key);
        }
    }
}
