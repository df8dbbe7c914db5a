// The run that is the page's machine: each line gets a reply. Its journal is kept, and brings it back after a reload.
import { octal } from './dom.js';
import { CORE, Journal, isPlain, linesOf } from './journal.js';
import { Lines } from './program.js';

export class Living {
    /** @type {Promise<Lines> | null} */
    lines = null;
    journal = new Journal();
    // How many characters of the machine's were taken, and how many less its journal prints.
    #taken = 0;
    #unlisted = 0;

    // `breaks` gives those that a new run gets, `changed` hears of lines that change the machine, and `ended` of the run's end.
    /** @param {Page} page @param {{ switches: () => number, breaks: () => Iterable<string>, changed: () => void, ended: (why: string) => void }} how */
    constructor(page, how) {
        this.page = page;
        this.how = how;
    }

    // Begins anew, with the machine that the page keeps, or with a new one.
    /** @param {boolean} [isNew] */
    async restart(isNew = false) {
        const { notes } = this.page.store, old = this.lines;
        this.lines = null;
        this.journal = new Journal(isNew ? '' : notes.get('machine') ?? linesOf(notes.get('core') ?? [], notes.get('registers')).join('\n'));
        [this.#taken, this.#unlisted] = [isNew ? 0 : notes.get('printed') ?? 0, 0];
        (await old)?.stop();
    }

    async stop() {
        (await this.lines)?.stop();
        this.lines = null;
    }

    // Has the page keep the machine as it is.
    keep() {
        this.page.store.note('machine', this.journal.text);
        this.page.store.note('printed', this.#taken - this.#unlisted);
    }

    // The name of a small volume, over which a machine's run looks.
    async image() {
        const { programs, store } = this.page;
        if (!store.files.has('.machine')) await programs.ask(['create', '.machine', '8']);
        return '.machine';
    }

    async #begin() {
        const { journal } = this, given = [...journal.lines], { programs } = this.page;
        const lines = await Lines.begin(programs, ['run', '--look', await this.image()], { ended: (status, said, failed) => this.#ended(status, said, failed) });
        [this.#taken, this.#unlisted] = [this.#taken - this.#unlisted, 0];
        for (const cell of this.how.breaks()) given.push(`BREAK ${cell} ON`);
        given.push(`SWITCHES ${octal(this.how.switches(), 4)}`, ...journal.left);
        journal.begin(given, await lines.ask(...given));
        return lines;
    }

    // A run that was stopped has neither a status nor a failure.
    /** @param {number | null} status @param {string} said @param {string | null} failed */
    #ended(status, said, failed) {
        if (status === null && failed === null) return;
        this.lines = null;
        this.how.ended(said);
    }

    // The replies to lines, null where the run ends before. The run begins at its first use.
    /** @param {...string} lines */
    async ask(...lines) {
        const { journal } = this, isChange = journal.ask(lines);
        if (isChange) this.how.changed();
        const replies = await (await (this.lines ??= this.#begin())).ask(...lines);
        journal.answer(lines, replies);
        if (isChange) this.how.changed();
        return replies;
    }

    // The characters that were printed since they were last taken.
    async print() {
        const { journal } = this, [reply] = await this.ask('PRINTED') ?? ['PRINTED'], all = reply.split(' ').slice(1), fresh = all.slice(this.#taken);
        if (journal !== this.journal) return new Uint8Array(0);
        this.#taken = Math.max(this.#taken, all.length);
        return Uint8Array.from(fresh, it => Number.parseInt(it, 8) & 0o177);
    }

    // The words of core, null where the run ends before.
    async core() {
        const replies = await this.ask(...Array.from({ length: CORE }, (_, cell) => `EXAMINE ${octal(cell, 5)}`));
        return replies?.map(it => Number.parseInt(it.slice(6), 8)) ?? null;
    }

    // Has the journal begin with what core and registers hold now, so it stays short.
    async shorten() {
        const { journal } = this, lines = await this.lines, asked = ['REGISTERS', ...Array.from({ length: CORE }, (_, cell) => `EXAMINE ${octal(cell, 5)}`)];
        if (!lines) return;
        journal.ask(asked);
        const replies = await lines.ask(...asked);
        journal.answer(asked, replies);
        const registers = /** @type {Registers} */ (JSON.parse(replies?.shift() ?? 'null'));
        if (!replies || journal !== this.journal || !isPlain(registers)) return;
        journal.shorten(linesOf(replies.map(it => Number.parseInt(it.slice(6), 8)), registers));
        this.#unlisted = this.#taken - Number(registers.busy || registers.printer);
        this.keep();
    }
}
