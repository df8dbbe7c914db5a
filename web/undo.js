// What brings back what a change of a volume, of a text, of the script, of the paper or of the machine has taken away. Of a change of the machine it
// keeps the whole of it before and after, of any other the bytes that differ. What is typed is one change until no key is struck for a while. The page
// keeps all of it, and of what was typed and of all else as many changes. Each tab has a list of its own, of what was done in it. That of a tab which
// is closed goes to the next one that begins.
import { bytesOf } from './program.js';
import { laid, stepOf } from './steps.js';
import { ownerOf } from './store.js';

// How many changes there are of each, how many bytes they may have, how long no key is struck, and how long what is only added may be as one change.
const MOST = 50, ROOM = 96 << 20, QUIET = 1000, LONGEST = 2000;
// The name of this tab's list over a reload.
const NAME = 'geivottu-undo';

export class Undo extends EventTarget {
    /** @type {Step[]} */
    #past = [];
    /** @type {Step[]} */
    #future = [];
    /** @type {Map<string, { words: string } & Partial<Change>>} */
    #open = new Map();
    #isOwn = false;
    // The newest change when Undo was asked for last, by its number. No later one is joined to it.
    #asked = 0;
    // What is typed, and the machine as it was before what is done to it now.
    /** @type {{ key: string, words: string, before: string, after: string, timer: number } | null} */
    #typed = null;
    /** @type {{ words: string, before: string, step: Step | null } | null} */
    #worked = null;
    // What gives the machine as it is, and brings back another.
    /** @type {{ get: () => string, set: (state: string) => Promise<void> }} */
    machine = { get: () => '', set: async () => {} };

    /** @param {import('./store.js').Store} store */
    constructor(store) {
        super();
        this.store = store;
        store.addEventListener('change', ({ detail }) => this.#changed(detail));
        store.addEventListener('leave', () => this.#endOpen());
        /** @type {string} */
        this.list = session()?.getItem(NAME) ?? freshList();
    }

    // Begins with this tab's list, and with those of tabs that are closed. No other tab writes a list then.
    async restore() {
        const { store } = this, { claims, notes } = store, lists = [...notes.keys()].filter(it => /^undo( t\w+)?$/.test(it));
        await Promise.all([this.list, ...lists].map(it => claims.claim(it)));
        if (!claims.has(this.list)) await claims.claim(this.list = freshList()); // a tab that was made of another one has its name
        session()?.setItem(NAME, this.list);
        const mine = lists.filter(it => claims.has(it));
        mine.forEach(it => this.#take(it));
        this.#trim();
        if (mine.some(it => it !== this.list)) this.#keepList();
        await store.settled();
        for (const it of lists) if (it !== this.list) claims.leave(it);
    }

    // Takes a list, this tab's or one of a tab that is closed, among what this tab has, by the time of its changes.
    /** @param {string} list */
    #take(list) {
        const { store } = this, { notes } = store, { past, future } = notes.get(list);
        /** @param {number[]} ids @returns {Step[]} */
        const steps = ids => ids.map(it => notes.get(`${list} ${it}`)).filter(it => it !== undefined), [done, undone] = [steps(past), steps(future)];
        [this.#past, this.#future] = [merged(this.#past, done), merged(this.#future, undone)];
        if (list === this.list) return;
        for (const it of [...done, ...undone]) store.note(this.#noteOf(it), it);
        for (const it of [...notes.keys()].filter(it => ownerOf(it) === list)) store.forget(it);
    }

    // The note that keeps a change.
    /** @param {Step} step */
    #noteOf({ id }) { return `${this.list} ${id}`; }

    // What was typed, and what a session or a load has changed so far, is a change, as the page is left.
    #endOpen() {
        this.endTyping();
        this.#noteMachine();
        for (const [id, { slot, words }] of [...this.#open]) {
            if (!slot) continue;
            this.end(id);
            this.begin(id, words);
        }
    }

    // Has the page keep which steps there are, and no others.
    #keepList() {
        const { notes } = this.store, ids = [this.#past, this.#future].map(all => all.map(it => it.id));
        for (const it of notes.get(this.list)?.past.concat(notes.get(this.list).future) ?? []) if (!ids.flat().includes(it)) this.store.forget(`${this.list} ${it}`);
        this.store.note(this.list, { past: ids[0], future: ids[1] });
        this.dispatchEvent(new Event('change'));
    }

    // What the work does to the machine is one change, or goes to the change before where that is `isFurther`.
    /** @param {string} words @param {() => Promise<T>} work @param {boolean} [isFurther] @template T @returns {Promise<T>} */
    async ofMachine(words, work, isFurther = false) {
        if (this.#worked) return work();
        this.endTyping();
        const last = this.#further, step = isFurther && last?.key === 'machine' ? last : null;
        const own = this.#worked = { words: step?.words ?? words, before: step?.was ? worded(step.was) : this.machine.get(), step };
        try {
            return await work();
        } finally {
            this.#noteMachine();
            if (this.#worked === own) this.#worked = null;
        }
    }

    // Notes what was done to the machine so far.
    #noteMachine() {
        if (!this.#worked) return;
        const { words, before, step } = this.#worked, after = this.machine.get();
        if (before === after && !step) return;
        const whole = { slot: /** @type {Slot} */ ('notes'), key: 'machine', words, isText: true, was: bytesOf(before), is: bytesOf(after), size: before.length + after.length };
        if (!step) this.#worked.step = this.#add(whole);
        else this.store.note(this.#noteOf(step), Object.assign(step, whole));
    }

    // Takes what is typed into a text, by its key. It was this before, and is this after.
    /** @param {string} key @param {string} words @param {string} before @param {string} after */
    type(key, words, before, after) {
        if (this.#typed?.key !== key) this.endTyping();
        clearTimeout(this.#typed?.timer);
        this.#typed = { key, words, before: this.#typed?.before ?? before, after, timer: window.setTimeout(() => this.endTyping(), QUIET) };
    }

    // What was typed so far is a change. What only adds goes to the change before, where that does so too.
    endTyping() {
        const it = this.#typed;
        this.#typed = null;
        clearTimeout(it?.timer);
        const step = it && stepOf('notes', it.key, it.before, it.after, it.words);
        if (!step) return;
        const last = this.#further, isFurther = last?.isTyped && last.key === step.key && last.size < LONGEST && isAddition(last) && isAddition(step);
        const before = isFurther ? laid(it.before, last, false) : null;
        if (!last || typeof before !== 'string') return void this.#add({ ...step, isTyped: true });
        this.store.note(this.#noteOf(last), Object.assign(last, stepOf('notes', it.key, before, it.after, it.words)));
    }

    // Has the changes of a text go by its new key.
    /** @param {string} old @param {string} key */
    rename(old, key) {
        this.endTyping();
        for (const it of [...this.#past, ...this.#future].filter(it => it.key === old)) this.store.note(this.#noteOf(it), Object.assign(it, { key }));
    }

    // The change that a further one may be joined to: the newest, if neither it nor another was undone since.
    get #further() {
        const last = this.#past.at(-1);
        return !this.#future.length && last && last.id > this.#asked ? last : undefined;
    }

    // Undo, or Do again, is asked for. Gives the number of the newest change, since what is changed from now on stays.
    ask() {
        this.endTyping();
        return this.#asked = Math.max(this.#asked, ...[...this.#past, ...this.#future].map(it => it.id));
    }

    // How many changes can be undone.
    get count() { return this.#past.length; }

    // What would be undone next, and what would be done again, in words; null for none.
    get next() { return this.step(false)?.words ?? null; }

    get again() { return this.step(true)?.words ?? null; }

    // The step that would be undone, or done again, next: the newest of all, or the newest of a text that has any. A change that is newer than
    // `newest` is none of them.
    /** @param {boolean} isAgain @param {string} [key] @param {number} [newest] */
    step(isAgain, key, newest = Infinity) {
        this.endTyping();
        const all = (isAgain ? this.#future : this.#past).filter(it => it.id <= newest);
        return all.filter(it => it.key === key).at(-1) ?? all.at(-1);
    }

    // From now on until `end` all changes of a thing are one, which is called by these words. Whether it wasn't so already.
    /** @param {string} id @param {string} words */
    begin(id, words) {
        this.endTyping();
        if (this.#open.has(id)) return false;
        this.#open.set(id, { words });
        return true;
    }

    /** @param {string} id */
    end(id) {
        const it = this.#open.get(id);
        this.#open.delete(id);
        if (it?.slot) this.#keep(/** @type {Change & { words: string }} */ (it));
    }

    // All changes of a thing that the work makes are one.
    /** @param {string} id @param {string} words @param {() => T | Promise<T>} work @template T @returns {Promise<T>} */
    async group(id, words, work) {
        const isOwn = this.begin(id, words);
        try {
            return await work();
        } finally {
            if (isOwn) this.end(id);
        }
    }

    /** @param {Change} it */
    #changed({ slot, key, before, after }) {
        if (this.#isOwn) return;
        const it = this.#open.get(key);
        if (!it) return this.#keep({ slot, key, before, after, words: `the change of ${key}` });
        if (!it.slot) Object.assign(it, { slot, key, before });
        it.after = after;
    }

    /** @param {Change & { words: string }} it */
    #keep({ slot, key, before, after, words }) {
        const step = stepOf(slot, key, before, after, words);
        if (step) this.#add(step);
    }

    /** @param {Omit<Step, 'id'>} it */
    #add(it) {
        this.endTyping();
        const ids = [...this.#past, ...this.#future].map(it => it.id), step = { ...it, id: Math.max(Date.now(), ...ids.map(it => it + 1)) };
        this.store.note(this.#noteOf(step), step);
        this.#past.push(step);
        this.#future = [];
        this.#trim();
        this.#keepList();
        return step;
    }

    // Forgets the oldest changes where there are too many: of what was typed, and of all else.
    #trim() {
        const size = () => this.#past.reduce((sum, it) => sum + it.size, 0);
        for (const isTyped of [true, false]) {
            const all = this.#past.filter(it => !it.isTyped !== isTyped), old = all.slice(0, Math.max(0, all.length - MOST));
            this.#past = this.#past.filter(it => !old.includes(it));
        }
        while (this.#past.length > 1 && size() > ROOM) this.#past.shift();
    }

    // Undoes a change, the newest where none is given, or does again what was undone. Gives the step, or null where the thing was changed by another tab
    // since; `mayChange` says whether it may be changed now.
    /** @param {boolean} isAgain @param {(step: Step) => Promise<boolean>} mayChange @param {Step | undefined} [step] */
    async go(isAgain, mayChange, step = this.step(isAgain)) {
        const [from, to] = isAgain ? [this.#future, this.#past] : [this.#past, this.#future];
        if (!step || !from.includes(step) || !await mayChange(step)) return null;
        if (!from.includes(step)) return null;
        from.splice(from.indexOf(step), 1);
        if (step.key === 'machine') {
            await this.#bringMachine(step, isAgain);
            to.push(step);
            this.#keepList();
            return { ...step, isDone: true };
        }
        const value = laid(this.store.valueOf(step.slot, step.key), step, isAgain);
        const isDone = value !== null;
        if (isDone) {
            this.#isOwn = true;
            this.store.set(step.slot, step.key, value);
            this.#isOwn = false;
            to.push(step);
        }
        this.#keepList();
        return { ...step, isDone };
    }

    // Brings back the machine of a step. The one in whose place it comes is what comes back next.
    /** @param {Step} step @param {boolean} isAgain */
    async #bringMachine(step, isAgain) {
        const now = bytesOf(this.machine.get()), text = worded((isAgain ? step.is : step.was) ?? new Uint8Array(0));
        step[isAgain ? 'was' : 'is'] = now;
        this.store.note(this.#noteOf(step), step);
        await this.machine.set(text);
    }
}

// Whether a step of a text takes nothing away.
/** @param {{ parts?: Part[] }} step */
function isAddition({ parts }) { return parts?.every(it => !it.old.length) ?? false; }

/** @param {Uint8Array} bytes */
function worded(bytes) { return new TextDecoder().decode(bytes); }

// The changes of two lists in the order of their times, each list's own as they are.
/** @param {Step[]} a @param {Step[]} b */
function merged(a, b) {
    const all = [], [ours, theirs] = [[...a], [...b]];
    while (ours.length && theirs.length) all.push(...(ours[0].id <= theirs[0].id ? ours : theirs).splice(0, 1));
    return [...all, ...ours, ...theirs];
}

// What the browser keeps for a tab alone, null where it keeps nothing.
function session() {
    try {
        return sessionStorage;
    } catch {
        return null;
    }
}

// A name for a list that no other tab has.
function freshList() { return `undo t${Date.now().toString(36)}${Math.random().toString(36).slice(2, 8)}`; }
