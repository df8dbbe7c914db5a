// The plain model that sequences.mjs holds the page to: what its screen shows, and what Undo and Do again would bring back.

// How many changes Undo takes back: of what was typed, and of all else.
const MOST = 50;

export class Model {
    /** @type {any[]} */
    past = [];
    /** @type {any[]} */
    future = [];
    // The changes that were made in tabs which are closed. They come to this tab at its next reload.
    /** @type {any[]} */
    elsewhere = [];
    isDepositing = false;
    // The volume that a session holds, and its image before what the session stored.
    /** @type {{ volume: string, before: string } | null} */
    held = null;
    #time = 0;

    constructor(shown) { this.shown = shown; }

    // All that the screen must show.
    get wanted() {
        const [past, future] = [this.past, this.future].map(all => all.map(it => it.words)), key = (text, all) => all.length ? `${text}: ${all.at(-1)}` : text;
        return { ...this.shown, past, future, keys: [key('Undo', past), key('Do again', future)] };
    }

    get volumes() { return Object.keys(this.shown.images).sort(); }

    // The texts that aren't open.
    get others() { return Object.keys(this.shown.texts).filter(it => it !== this.shown.open).sort(); }

    // Whether a session holds the volume that is open.
    get isHeld() { return this.held !== null && this.held.volume === this.shown.volume; }

    // The value by the key of a change: a text, an image, the script, the machine or the paper.
    valueOf(key) {
        const [kind, name] = key.split(' ');
        return name === undefined ? this.shown[kind] : this.shown[kind][name];
    }

    set(key, value) {
        const [kind, name] = key.split(' ');
        if (name === undefined) this.shown[kind] = value;
        else if (value === undefined) delete this.shown[kind][name];
        else this.shown[kind][name] = value;
    }

    // A change that Undo takes back, once the screen shows it.
    changes(key, before, words, isTyped = false) {
        const after = this.valueOf(key);
        if (before === after) return;
        this.past.push({ key, before, after, words, isTyped, time: ++this.#time });
        this.future = [];
        this.#trim();
    }

    // The same of a further tab, whose changes this one can't undo before that is closed.
    changesThere(key, before, words, isTyped = false) { this.elsewhere.push({ key, before, after: this.valueOf(key), words, isTyped, time: ++this.#time }); }

    // A deposit: those with no step between them are one change.
    deposits(before) {
        const isFurther = this.isDepositing && this.past.at(-1)?.key === 'machine' && !this.future.length;
        if (!isFurther) this.changes('machine', before, 'the deposits');
        this.isDepositing = true;
    }

    #trim() {
        for (const isTyped of [true, false]) {
            const old = this.past.filter(it => it.isTyped === isTyped).slice(0, -MOST);
            this.past = this.past.filter(it => !old.includes(it));
        }
    }

    // The changes of a text go by its new name.
    rename(old, name) { for (const it of [...this.past, ...this.future, ...this.elsewhere]) if (it.key === `texts ${old}`) it.key = `texts ${name}`; }

    // Undoes the newest change, or that of a text that has any, or does it again.
    back(isAgain, own) {
        const [from, to] = isAgain ? [this.future, this.past] : [this.past, this.future], step = from.filter(it => it.key === own).at(-1) ?? from.at(-1);
        if (!step || this.held && step.key === `images ${this.held.volume}`) return;
        from.splice(from.indexOf(step), 1);
        if (isAgain && step.after === undefined && step.key === `texts ${this.shown.open}`) [this.shown.open] = this.others;
        if (this.#lay(step, isAgain)) to.push(step);
        const [kind, name] = step.key.split(' ');
        if (kind === 'images') this.shown.volume = name in this.shown.images ? name : this.volumes[0] ?? '';
    }

    // Lays what was before a step, or after it, in the place of what the step left. Whether that is still there. A machine comes as a whole, and goes so.
    #lay(step, isAgain) {
        const { key } = step, now = this.valueOf(key), [left, wanted] = isAgain ? ['before', 'after'] : ['after', 'before'];
        if (key === 'machine') {
            step[left] = now;
            this.isDepositing = false;
        }
        if (key === 'paper' ? !now.startsWith(step[left]) : now !== step[left]) return false;
        this.set(key, key === 'paper' ? step[wanted] + now.slice(step[left].length) : step[wanted]);
        return true;
    }

    // What a session has stored so far is a change.
    splits() {
        if (!this.held) return;
        this.changes(`images ${this.held.volume}`, this.held.before, 'the session');
        this.held.before = this.valueOf(`images ${this.held.volume}`);
    }

    // A session has ended.
    ends(told) {
        this.splits();
        this.held = null;
        this.shown.isSession = false;
        this.shown.told = told;
    }

    // The page is left, and begins anew.
    reload() {
        this.isDepositing = false;
        if (this.held) this.ends('It ended as the page was left. The volume has what was stored.');
        const [ours, theirs] = [this.past, this.elsewhere];
        this.past = [];
        while (ours.length && theirs.length) this.past.push((ours[0].time <= theirs[0].time ? ours : theirs).shift());
        this.past.push(...ours, ...theirs);
        this.elsewhere = [];
        this.#trim();
    }
}
