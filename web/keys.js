// The keys of the machine's Teletype: they are struck at its paper, or a line at once. They wait until the machine reads them.
import { $ } from './dom.js';
import { keyOf } from './paper.js';

export class Keys {
    /** @param {import('./store.js').Store} store */
    constructor(store) {
        this.store = store;
        $('console').addEventListener('keydown', event => {
            const key = keyOf(event);
            if (key === null) return;
            event.preventDefault();
            this.#strike(key);
        });
        $('console-keys').addEventListener('submit', event => {
            event.preventDefault();
            this.#strike(`${$('console-line').value}\r`);
            $('console-line').value = '';
        });
    }

    // The keys that wait, as the Teletype has them: capitals, with the eighth bit.
    /** @returns {number[]} */
    get #waiting() { return this.store.notes.get('keys') ?? []; }

    /** @param {string} text */
    #strike(text) { this.store.note('keys', [...this.#waiting, ...Array.from(text.toUpperCase(), it => (it.charCodeAt(0) & 0o177) | 0o200)]); }

    // The key that waits longest, which is read now; undefined for none.
    read() {
        const [first, ...rest] = this.#waiting;
        if (first !== undefined) this.store.note('keys', rest);
        return first;
    }

    drop() { this.store.note('keys', []); }
}
