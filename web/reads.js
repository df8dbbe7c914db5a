// What a program at the Teletype was given: its words and files, each of its reads, and the keys that it hasn't read. A new run that gets the same reads
// is where the old one was, since it takes nothing else from its host. Of reads that found no key it is counted how many there were before each that did.
import { joined } from './program.js';

/** @typedef {{ words: string[], files: [string, Uint8Array][] }} Given */
/** @typedef {{ reads: [number, Uint8Array][], quiet: number, unread: Uint8Array, printed: number }} Past */

export class Reads {
    /** @type {Past} */
    past = nothing();
    // Whether a run goes on by them: a boot doesn't.
    isKept = false;

    /** @param {import('./store.js').Store} store */
    constructor(store) { this.store = store; }

    // Begins anew, with a run of these words.
    /** @param {string[]} words */
    begin(words) {
        const { files } = this.store;
        this.past = nothing();
        this.isKept = true;
        this.store.note('tty-run', { words, files: words.flatMap(it => { const bytes = files.get(it); return bytes ? [[it, bytes]] : []; }) });
        this.keep();
    }

    // The words by which a run goes on that was left, and its past; null where there is none.
    goOn() {
        const { notes } = this.store, given = /** @type {Given | undefined} */ (notes.get('tty-run'));
        if (!given) return null;
        this.past = notes.get('tty-reads') ?? nothing();
        this.isKept = true;
        const files = new Map(given.files.map(([name, bytes], k) => [name, { path: `.again-${k}`, bytes }]));
        for (const { path, bytes } of files.values()) this.store.put(path, bytes);
        return given.words.map(it => files.get(it)?.path ?? it);
    }

    // The reads that a run is given again: those with a key, and so many without one after them.
    get again() { return [...this.past.reads, /** @type {[number, Uint8Array]} */ ([this.past.quiet, new Uint8Array(0)])]; }

    end() {
        this.past = nothing();
        this.isKept = false;
        for (const it of ['tty-run', 'tty-reads']) this.store.forget(it);
    }

    // Takes keys that were struck.
    /** @param {Uint8Array} keys */
    strike(keys) { if (this.isKept) this.past.unread = joined([this.past.unread, keys]); }

    // Takes a read that found keys, after so many that found none.
    /** @param {number} quiet @param {Uint8Array} keys */
    read(quiet, keys) {
        const { past } = this;
        if (!this.isKept) return;
        past.reads.push([quiet, keys]);
        [past.quiet, past.unread] = [0, past.unread.slice(keys.length)];
    }

    // Takes how many reads had found keys, and how many none since, as the program printed.
    /** @param {number} reads @param {number} quiet */
    see(reads, quiet) { if (reads === this.past.reads.length) this.past.quiet = Math.max(this.past.quiet, quiet); }

    keep() { if (this.isKept) this.store.note('tty-reads', this.past); }
}

/** @returns {Past} */
function nothing() { return { reads: [], quiet: 0, unread: new Uint8Array(0), printed: 0 }; }
