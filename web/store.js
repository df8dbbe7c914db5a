// The page's files and notes: in memory, and in the browser's own store (IndexedDB), so that a reload finds them. Nothing leaves the page.
// Files, and the notes that tabs share, are sent to the other tabs of the page, which have them then as well. A note that a claim stands for is written
// by the tab that has the claim alone. Any other note is of the tab. The text that is open is the note `text`; others are notes `text NAME`.
const SLOTS = /** @type {const} */ (['files', 'notes']), OWN = 'geivottu ';
// What this tab keeps of what it was writing as it was left.
const LATE = 'geivottu-late';
/** @type {[RegExp, string][]} */
const OWNERS = [[/^(text|source-name|tape)$|^(text|further|dialect|form|options|from) /, 'text'], [/^(lines|script-saving|strict)$/, 'script'], [/^(paper|reader|tty-(going|run|reads|tape|own|boot))$/, 'teletype'],
    [/^(machine|printed|access|steps|going|loaded|address|switches|fields|breaks|listing|names|console|keys)$/, 'machine']];

// The claim that stands for a note, null for none.
/** @param {string} key */
export function ownerOf(key) {
    const list = /^undo( t\w+)?(?= \d+$|$)/.exec(key)?.[0];
    if (list !== undefined) return list;
    const volume = /^as ([^ /]+)/.exec(key)?.[1];
    return volume === undefined ? OWNERS.find(([pattern]) => pattern.test(key))?.[1] ?? null : `volume ${volume}`;
}

const isShared = (/** @type {string} */ key) => /^(kind|lenient) /.test(key) || !/^undo\b|^$/.test(ownerOf(key) ?? '');
// Whether a note is a user's own work.
const isWork = (/** @type {string} */ key) => ['text', 'lines'].includes(key) || key.startsWith('text ');

export class Store extends EventTarget {
    /** @type {Map<string, Uint8Array>} */
    files = new Map();
    /** @type {Map<string, any>} */
    notes = new Map();
    /** @type {IDBDatabase | null} */
    #base = null;
    /** @type {Map<string, [Slot, string]>} */
    #due = new Map();
    // What is being written.
    /** @type {Map<string, [Slot, string]>} */
    #writing = new Map();
    /** @type {Map<string, [Slot, string]>} */
    #failed = new Map();
    // What the other tabs don't have yet.
    /** @type {Map<string, [Slot, string]>} */
    #news = new Map();
    /** @type {Map<string, Kept>} */
    #home = new Map();
    /** @type {Set<Kept>} */
    #own = new Set();
    #isAsked = false;
    #tabs = new BroadcastChannel('geivottu');

    /** @param {import('./claims.js').Claims} claims */
    constructor(claims) {
        super();
        this.claims = claims;
    }

    /** @param {import('./claims.js').Claims} claims */
    static async open(claims) {
        const it = new Store(claims);
        it.#tabs.onmessage = ({ data }) => it.#heard(data);
        try {
            const base = it.#base = await promised(opening());
            for (const slot of SLOTS) {
                const all = base.transaction(slot).objectStore(slot);
                const [keys, values] = await Promise.all([promised(all.getAllKeys()), promised(all.getAll())]);
                keys.forEach((key, k) => it.#slot(slot).set(String(key), values[k]));
            }
            for (const key of Object.keys(sessionStorage).filter(it => it.startsWith(OWN))) it.notes.set(key.slice(OWN.length), JSON.parse(sessionStorage[key]));
        } catch {
            it.#base = null; // a browser that keeps nothing, as in a private window
        }
        it.#takeLate();
        for (const name of ['pagehide', 'visibilitychange']) addEventListener(name, () => it.leave());
        it.#tabs.postMessage({ asks: true });
        return it;
    }

    // Writes all that is due, before the page is left. Panes hear of it, and note what they haven't yet.
    leave() {
        this.dispatchEvent(new Event('leave'));
        this.#sendNews();
        this.#keepLate();
        this.#write();
    }

    // Keeps the notes that aren't written yet in this tab, too: a busy browser breaks off what is written as a page is left.
    #keepLate() {
        const late = [...new Map([...this.#writing, ...this.#due]).values()].filter(([slot]) => slot === 'notes').map(([, key]) => this.notes.has(key) ? [key, this.notes.get(key)] : [key]);
        try {
            if (this.#base) sessionStorage.setItem(LATE, JSON.stringify(late, (_, it) => it instanceof Uint8Array ? { base64: btoa(String.fromCharCode(...it)) } : it));
        } catch {
            sessionStorage.removeItem(LATE); // what is too large is in the browser's store at most
        }
    }

    // Takes the notes that the page before has kept so, unless another tab has what they are of.
    #takeLate() {
        const text = this.#base && sessionStorage.getItem(LATE);
        if (!text) return;
        sessionStorage.removeItem(LATE);
        /** @type {[string, ...any][]} */
        const late = JSON.parse(text, (_, it) => typeof it?.base64 === 'string' ? Uint8Array.from(atob(it.base64), it => it.charCodeAt(0)) : it);
        if (!late.every(([key]) => ownerOf(key)?.startsWith('undo') || this.#mayWrite(key))) return;
        for (const [key, ...value] of late) {
            value.length ? this.notes.set(key, value[0]) : this.notes.delete(key);
            this.#keep('notes', key, value[0]);
        }
    }

    // What another tab sends: files and notes as they are now, or that it asks for those that this tab has.
    /** @param {{ asks?: boolean, news?: [Slot, string, any][] }} it */
    #heard({ asks, news = [] }) {
        if (asks) for (const it of this.claims.names.filter(name => this.claims.has(name))) this.#sendAll(it);
        for (const [slot, key, value] of news) value === undefined ? this[slot].delete(key) : this.#slot(slot).set(key, value);
        for (const [slot, key] of news) this.dispatchEvent(new CustomEvent(slot.slice(0, -1), { detail: key }));
    }

    // Sends all that a claim stands for.
    /** @param {string} claim */
    #sendAll(claim) {
        for (const key of this.notes.keys()) if (ownerOf(key) === claim) this.#send('notes', key);
        if (claim.startsWith('volume ')) this.#send('files', claim.slice(7));
    }

    // Sends a value once the handler has ended that changed it, with all else that it changed, so that no tab ever has some of it alone.
    /** @param {Slot} slot @param {string} key */
    #send(slot, key) {
        const isNews = !key.startsWith('.') && (slot === 'files' || isShared(key));
        if (isNews && !this.#news.size) queueMicrotask(() => this.#sendNews());
        if (isNews) this.#news.set(`${slot} ${key}`, [slot, key]);
    }

    #sendNews() {
        if (this.#news.size) this.#tabs.postMessage({ news: [...this.#news.values()].map(([slot, key]) => [slot, key, this[slot].get(key)]) });
        this.#news.clear();
    }

    /** @param {Slot} slot @returns {Map<string, any>} */
    #slot(slot) { return this[slot]; }

    get isKept() { return this.#base !== null; }

    // A file, in place of any of its name. One whose name begins with a dot is the page's own, and gone with it.
    /** @param {string} name @param {Uint8Array} bytes */
    put(name, bytes) {
        this.#tellChange('files', name, bytes);
        this.files.set(name, bytes);
        this.#keep('files', name, bytes);
        this.dispatchEvent(new CustomEvent('file', { detail: name }));
    }

    /** @param {string} name */
    remove(name) {
        this.#tellChange('files', name, undefined);
        this.files.delete(name);
        this.#keep('files', name, undefined);
        this.dispatchEvent(new CustomEvent('file', { detail: name }));
    }

    // Notes a value, unless another tab alone may.
    /** @param {string} key @param {any} value */
    note(key, value) {
        if (!this.#mayWrite(key)) return;
        this.notes.set(key, value);
        if (!isShared(key) && ownerOf(key) === null) this.#keepOwn(key, value);
        this.#keep('notes', key, value);
    }

    // Whether no other tab writes a note.
    /** @param {string} key */
    #mayWrite(key) {
        const owner = ownerOf(key);
        return owner === null || this.claims.has(owner);
    }

    // Keeps a note of this tab, so that a reload finds it whatever other tabs note meanwhile.
    /** @param {string} key @param {any} value */
    #keepOwn(key, value) {
        try {
            if (this.#base) sessionStorage.setItem(OWN + key, JSON.stringify(value ?? null));
        } catch {
            // a full one keeps what it has: it is of no one's work
        }
    }

    // Takes a note away.
    /** @param {string} key */
    forget(key) {
        if (!this.#mayWrite(key)) return;
        this.notes.delete(key);
        this.#keep('notes', key, undefined);
    }

    // A text that isn't open, by its name, or none in its place.
    /** @param {string} name @param {string | undefined} text */
    setText(name, text) {
        this.#tellChange('notes', `text ${name}`, text);
        text === undefined ? this.forget(`text ${name}`) : this.note(`text ${name}`, text);
        this.dispatchEvent(new CustomEvent('note', { detail: `text ${name}` }));
    }

    // The note that a key of a change stands for: a text's is another while it is open.
    /** @param {string} key */
    #noteOf(key) { return key === `text ${this.notes.get('source-name') ?? ''}` ? 'text' : key; }

    // A file, a text or another note, by the slot and key of a change.
    /** @param {Slot} slot @param {string} key @returns {Kept} */
    valueOf(slot, key) { return slot === 'files' ? this.files.get(key) : this.notes.get(this.#noteOf(key)); }

    /** @param {Slot} slot @param {string} key @param {any} value */
    set(slot, key, value) {
        const note = this.#noteOf(key);
        if (slot === 'files') return value === undefined ? this.remove(key) : this.put(key, value);
        if (note.startsWith('text ')) return this.setText(key.slice(5), value);
        this.note(note, value);
        this.dispatchEvent(new CustomEvent('note', { detail: note }));
    }

    // Reports a change that a user may want back: of a file that is kept, and of a text.
    /** @param {Slot} slot @param {string} key @param {Kept} after */
    #tellChange(slot, key, after) {
        const before = this[slot].get(key);
        if (!key.startsWith('.')) this.dispatchEvent(new CustomEvent('change', { detail: { slot, key, before, after } }));
    }

    /** @param {Slot} slot @param {string} key @param {any} value */
    #keep(slot, key, value) {
        this.#send(slot, key);
        if (key.startsWith('.')) return;
        if (isOwn(slot, key, value)) this.#persist();
        if (!this.#base) {
            this.#failed.set(`${slot} ${key}`, [slot, key]);
            this.dispatchEvent(new Event('kept'));
            return;
        }
        if (!this.#due.size && !this.#isWriting) this.#written = this.#writeAll();
        this.#due.set(`${slot} ${key}`, [slot, key]);
    }

    // Writes what is due once the handler has ended that changed it, and then what became due meanwhile.
    async #writeAll() {
        this.#isWriting = true;
        await null;
        while (this.#due.size) await this.#write();
        this.#isWriting = false;
    }

    // Asks the browser once not to remove what it keeps, when there is something.
    #persist() {
        if (!this.#isAsked && this.#base) navigator.storage?.persist?.().catch(() => {});
        this.#isAsked = true;
    }

    // A user's own that the browser's store didn't take, and whether it was taken home as it is.
    get unkept() {
        return [...this.#failed].map(([id, [slot, key]]) => ({ id, slot, key, value: this[slot].get(key) }))
            .map(it => ({ ...it, isHome: this.#home.get(it.id) === it.value }))
            .filter(({ slot, key, value }) => isOwn(slot, key, value) && !this.#own.has(value));
    }

    // Takes a value as the page's own, such as an example: no one loses it.
    /** @param {Kept} value */
    gave(value) { this.#own.add(value); }

    /** @param {string} name */
    isUnkept(name) { return this.#failed.has(`files ${name}`) && this.files.has(name); }

    /** @param {Slot} slot @param {string} key */
    tookHome(slot, key) { this.#home.set(`${slot} ${key}`, this[slot].get(key)); }

    #isWriting = false;
    #written = Promise.resolve();

    // Once what was put is in the browser's store.
    settled() { return this.#written; }

    // Writes what is due as one, so that the store never has some of it alone. What it doesn't take as one, and what failed before, is written apart:
    // removals first, which may make room.
    async #write() {
        if (!this.#base || !this.#due.size) return;
        const due = [...this.#due].filter(([id]) => !this.#failed.has(id)), again = [...new Map([...this.#failed, ...this.#due])].filter(([id]) => this.#failed.has(id));
        this.#due.clear();
        const writing = this.#writing = new Map([...this.#writing, ...due]);
        const isWhole = this.#hasFailed(due.map(([, it]) => it)), apart = again.map(it => this.#writeApart(it));
        if (await isWhole) for (const it of due.sort(([, a], [, b]) => Number(this.#isThere(a)) - Number(this.#isThere(b)))) await this.#writeApart(it);
        await Promise.all(apart);
        if (this.#writing === writing && !this.#failed.size) this.#hasWritten();
        this.dispatchEvent(new Event('kept'));
    }

    // All that was being written is in the browser's store.
    #hasWritten() {
        this.#writing = new Map();
        try {
            sessionStorage.removeItem(LATE);
        } catch {
            // a browser that keeps nothing
        }
    }

    /** @param {[Slot, string]} entry */
    #isThere([slot, key]) { return this[slot].has(key); }

    // Writes one value apart from others, and notes whether that failed.
    /** @param {[string, [Slot, string]]} entry */
    async #writeApart([id, entry]) { await this.#hasFailed([entry]) ? this.#failed.set(id, entry) : this.#failed.delete(id); }

    // Writes values as one, or removes those that are none. Whether that failed.
    /** @param {[Slot, string][]} entries @returns {Promise<boolean>} */
    #hasFailed(entries) {
        return new Promise(go => {
            if (!entries.length) return go(false);
            try {
                const writing = /** @type {IDBDatabase} */ (this.#base).transaction(SLOTS, 'readwrite');
                writing.oncomplete = () => go(false);
                writing.onerror = writing.onabort = () => go(true);
                for (const [slot, key] of entries) {
                    const value = this[slot].get(key), all = writing.objectStore(slot);
                    value === undefined ? all.delete(key) : all.put(value, key);
                }
                writing.commit?.();
            } catch {
                go(true);
            }
        });
    }
}

// Whether a value is a user's own work.
/** @param {Slot} slot @param {string} key @param {any} value */
function isOwn(slot, key, value) { return value !== undefined && value !== '' && (slot === 'files' || isWork(key)); }

function opening() {
    const request = indexedDB.open('geivottu', 1);
    request.onupgradeneeded = () => SLOTS.forEach(it => request.result.createObjectStore(it));
    return request;
}

/** @param {IDBRequest<T>} request @template T @returns {Promise<T>} */
function promised(request) {
    return new Promise((go, fail) => {
        request.onsuccess = () => go(request.result);
        request.onerror = () => fail(request.error);
    });
}
