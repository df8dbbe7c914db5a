// What one tab of the page has alone: a volume, or the text. It alone changes that; other tabs look, and follow. Tabs know of each other by
// the browser's locks. Where a browser has none, each tab has all.
const PATIENCE = 500, LONGEST = 3000;

export class Claims extends EventTarget {
    /** @type {Map<string, Claim>} */
    #all = new Map();
    #tabs = new BroadcastChannel('geivottu claims');

    constructor() {
        super();
        this.#tabs.onmessage = ({ data }) => this.dispatchEvent(new CustomEvent('wanted', { detail: data }));
    }

    // Asks the tab that has a thing to leave it. Whether this tab has it then.
    /** @param {string} name */
    async take(name) {
        await this.claim(name);
        if (this.has(name)) return true;
        this.#tabs.postMessage(name);
        await new Promise(go => {
            this.addEventListener('claim', ({ detail }) => detail === name && go(true));
            setTimeout(go, LONGEST);
        });
        return this.has(name);
    }

    // Whether this tab has a thing.
    /** @param {string} name */
    has(name) { return !navigator.locks || this.#all.get(name)?.has === true; }

    get names() { return [...this.#all.keys()]; }

    // Asks for a thing, once. The answer comes when it is known whether this tab has it, or another one. It comes to this tab once that one leaves
    // it, and an event says so.
    /** @param {string} name */
    claim(name) {
        if (!navigator.locks) return Promise.resolve();
        if (!this.#all.has(name)) this.#all.set(name, this.#ask(name));
        return this.#all.get(name)?.known;
    }

    // Once each claim is known.
    known() { return Promise.all([...this.#all.values()].map(it => it.known)); }

    /** @param {string} name */
    leave(name) {
        this.#all.get(name)?.leave();
        this.#all.delete(name);
    }

    /** @param {string} name @returns {Claim} */
    #ask(name) {
        const it = /** @type {Claim} */ ({ has: false }), lock = `geivottu ${name}`, stop = new AbortController();
        const left = /** @type {Promise<void>} */ (new Promise(go => { it.leave = () => { go(); stop.abort(); }; }));
        const granted = /** @type {Promise<void>} */ (new Promise(go => {
            navigator.locks.request(lock, { signal: stop.signal }, () => {
                it.has = true;
                go();
                this.dispatchEvent(new CustomEvent('claim', { detail: name }));
                return left;
            }).catch(() => go());
        }));
        it.known = Promise.race([granted, this.#other(lock)]);
        return it;
    }

    // Once another tab has a lock, and keeps it: a page that is just left may have it for a moment still.
    /** @param {string} lock */
    async #other(lock) {
        const { pending = [] } = await navigator.locks.query();
        if (!pending.some(it => it.name === lock)) return new Promise(() => {});
        await new Promise(go => setTimeout(go, PATIENCE));
    }
}
