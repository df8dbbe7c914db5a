// The state of a pane that one tab has alone, and that the others follow: the pane says so, and closes what would change it.
import { made } from './dom.js';
import { ownerOf } from './store.js';

/** @typedef {'text' | 'script' | 'machine' | 'teletype'} Kind */
/** @type {Record<Kind, { what: string, worked: string }>} */
const WORDS = { text: { what: 'the text', worked: 'changed' }, script: { what: 'the script', worked: 'changed' }, machine: { what: 'the machine', worked: 'worked' },
    teletype: { what: 'the Teletype', worked: 'worked' } };
export const KINDS = /** @type {Kind[]} */ (Object.keys(WORDS));

export class Owner {
    // Whether another tab has it, or may have it.
    follows = true;
    isKnown = false;

    // `close` gets whether another tab has it, at first and when that changes.
    /** @param {Page} page @param {Kind} kind @param {HTMLElement} shown @param {(follows: boolean) => void} close */
    constructor({ claims, store, say }, kind, shown, close) {
        this.claims = claims;
        this.store = store;
        this.say = say;
        this.kind = kind;
        this.shown = shown;
        this.close = close;
        claims.addEventListener('claim', ({ detail }) => detail === kind && this.#claimed());
        claims.addEventListener('wanted', ({ detail }) => detail === kind && claims.has(kind) && this.#leave());
        close(true);
    }

    // Once it is known whether this tab has it, or another one.
    async begin() {
        await this.claims.claim(this.kind);
        this.#tell();
    }

    // Has it in this tab, if need be from another one. Whether it is here then.
    async take() {
        const isHere = await this.claims.take(this.kind);
        if (!isHere) this.say(`The tab that has ${WORDS[this.kind].what} doesn't answer: close that tab.`, true);
        return isHere;
    }

    // Leaves it to the tab that wants it, which has heard of all of it then, and waits for it in turn.
    async #leave() {
        this.store.leave();
        await this.store.settled();
        this.store.leave();
        this.claims.leave(this.kind);
        this.claims.claim(this.kind);
        this.#tell();
    }

    // Another tab has left it to this one: it is kept, as this tab has it.
    #claimed() {
        const { notes } = this.store;
        if (!this.shown.hidden) for (const it of [...notes.keys()].filter(it => ownerOf(it) === this.kind)) this.store.note(it, notes.get(it));
        this.#tell();
    }

    #tell() {
        const { what, worked } = WORDS[this.kind];
        const follows = !this.claims.has(this.kind);
        if (this.isKnown && follows === this.follows) return;
        [this.isKnown, this.follows] = [true, follows];
        const words = `Another tab has ${what}. It can be ${worked} here once that tab is closed, or here and now: `;
        this.shown.replaceChildren(...(this.follows ? [words, made('button', { onclick: () => this.take() }, 'Take it here')] : []));
        this.shown.hidden = !this.follows;
        this.close(this.follows);
    }
}
