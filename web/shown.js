// The file that is shown beside the directory: as a text, as the listing of its tape, or as source, and what its program does. A source is from where
// the program starts and has the names of its cells, which are kept with the volume.
import { $, ids, keepInput, made, takeHome, tell } from './dom.js';
import { bytesOf, textOf } from './program.js';
import { got, isNamedCore, placeOf, tapeIn } from './tapes.js';
import { doingOf } from './replay.js';
import { wordsOf } from './volumes.js';

/** @typedef {import('./files.js').Entry} Entry */
/** @typedef {'text' | 'tape' | 'source' | 'words' | 'trace' | 'profile'} Form */
/** @typedef {'text' | 'tape' | 'frames'} Saved */
/** @type {Record<Form, string>} */
const WORDS = { text: 'text', tape: 'listing of its tape', source: 'source of its tape', words: 'words of its blocks', trace: 'trace of its first steps', profile: 'count of what runs' };
// The kinds of files that are no program.
const OTHERS = ['text', 'zeros', 'unknown'];
// How many blocks of a file are shown as words.
const MOST = 40;

export class Shown {
    /** @type {Entry | null} */
    entry = null;
    /** @type {Form} */
    form = 'text';

    /** @param {Page} page */
    constructor(page) {
        this.page = page;
        for (const id of ids('shown-keys', 'shown-switches', 'shown-steps')) keepInput(page.store, id);
        for (const it of [$('starts'), $('cell-names')]) it.addEventListener('change', () => this.#changed());
        for (const form of /** @type {const} */ (['trace', 'profile'])) $(`shown-${form}`).addEventListener('click', () => this.entry && this.show(this.entry, form));
    }

    get #volume() { return this.page.files.name; }

    // The note that keeps starts and names of a file's cells.
    /** @param {Entry} entry */
    #note({ name, first }) { return `as ${this.#volume}/${placeOf({ name, first, length: 0, isByBlocks: false }).join(' ')}`; }

    // Where the program of a file starts, and its cells' names, as they were given: texts, as `source` takes them.
    /** @param {Entry} entry @returns {{ starts: string, names: string }} */
    hintsOf(entry) { return this.page.store.notes.get(this.#note(entry)) ?? { starts: '', names: '' }; }

    // Forgets what was given for the files of an image, in whose place another comes.
    /** @param {string} image */
    forget(image) {
        for (const it of [...this.page.store.notes.keys()]) if (it.startsWith(`as ${image}/`) || it.startsWith(`as ${image} `)) this.page.store.forget(it);
    }

    #changed() {
        if (!this.entry) return;
        if (this.page.files.follows) return this.page.say($('follows').textContent, true);
        this.page.store.note(this.#note(this.entry), { starts: $('starts').value, names: $('cell-names').value });
        this.show(this.entry, this.form === 'text' || this.form === 'tape' || this.form === 'words' ? 'source' : this.form);
    }

    // The source of a file's tape, from its starts and with its names, in PAL III or, with `--pal8`, in PAL8.
    /** @param {Entry} entry @param {import('./tapes.js').Tape} tape @param {...string} how */
    async source(entry, tape, ...how) {
        const { programs, store } = this.page, { starts, names } = this.hintsOf(entry);
        const words = ['source', ...how, ...(starts.match(/\S+/g) ?? []).map(it => `--start=${it}`)];
        if (names.trim() !== '') {
            store.put('.names', bytesOf(names.endsWith('\n') ? names : `${names}\n`));
            words.push('--names', '.names');
        }
        const start = tape.start !== undefined && !starts.trim() ? ['--start', tape.start] : [];
        const given = await (isNamedCore(entry) ? programs.ask([...words, ...wordsOf(this.#volume), entry.name]) : programs.ask([...words, ...start], tape.out));
        store.remove('.names');
        return given;
    }

    // The names of a file's cells as a listing has its symbols: NAME FAAAA.
    /** @param {Entry} entry */
    symbolsOf(entry) { return this.hintsOf(entry).names.replace(/^\s*([0-7]{5})[ \t]+([A-Z][A-Z0-9]*).*$/gm, '$2 $1'); }

    // The form that shows a file best, by what it holds: a program as source, a text as that, and any other as words.
    /** @param {Entry} entry @returns {Promise<Form>} */
    async #bestForm(entry) {
        const { kind } = entry, isProgram = kind ? !OTHERS.includes(kind) : (await tapeIn(this.page, this.#volume, entry)).status === 0;
        return isProgram ? 'source' : kind && kind !== 'text' ? 'words' : 'text';
    }

    // Shows a file in its best form.
    /** @param {Entry} entry */
    async best(entry) { await this.show(entry, await this.#bestForm(entry)); }

    // The form in which a file is saved: a text as one, a BIN tape up to its end, and any other as its frames.
    /** @param {Entry} entry @returns {Promise<Saved>} */
    async ownForm(entry) {
        if (await this.#bestForm(entry) === 'text') return 'text';
        const isTape = entry.kind ? entry.kind === 'BIN' : (await got(this.page, this.#volume, entry, '--tape')).status === 0;
        return isTape ? 'tape' : 'frames';
    }

    // What a file is in a form in which it is saved.
    /** @param {Entry} entry @param {Saved} form */
    formOf(entry, form) { return form === 'tape' ? tapeIn(this.page, this.#volume, entry) : got(this.page, this.#volume, entry, ...(form === 'text' ? ['--text'] : [])); }

    // Opens a file in Source: a text, which can be saved back from there, or the source of a program.
    /** @param {Entry} entry */
    async edit(entry) {
        const form = await this.#bestForm(entry), volume = this.#volume;
        if (form === 'source') return this.editProgram(entry, 'PAL III');
        if (form === 'words') return tell('files-status', `${entry.name} is neither a text nor a program: Show its words shows what it has.`, true);
        const { status, out, said } = await got(this.page, volume, entry, '--text');
        if (status !== 0) return tell('files-status', `${entry.name}: ${said}`, true);
        await this.page.source.takeFile(entry.name, out, 'PAL III', entry.isByBlocks ? null : volume);
    }

    // Opens the source of a file's program in Source, in this dialect.
    /** @param {Entry} entry @param {string} dialect */
    async editProgram(entry, dialect) {
        const tape = await tapeIn(this.page, this.#volume, entry), given = tape.status === 0 ? await this.source(entry, tape, ...(dialect === 'PAL8' ? ['--pal8'] : [])) : tape;
        if (given.status !== 0) return tell('files-status', `${entry.name}: ${given.said}`, true);
        await this.page.source.takeFile(entry.name, given.out, dialect, null);
    }

    // What a form of a file is, as the program gives it.
    /** @param {Entry} entry @param {Form} form @returns {Promise<Answer>} */
    async #given(entry, form) {
        const { programs, store } = this.page, volume = this.#volume;
        if (form === 'text') return got(this.page, volume, entry, '--text');
        const last = entry.first + Math.min(entry.length, MOST) - 1;
        if (form === 'words') return programs.ask(['dump', ...wordsOf(volume), `${entry.first}-${last}`]);
        const tape = await tapeIn(this.page, volume, entry);
        if (tape.status !== 0) return tape;
        if (form === 'source') return this.source(entry, tape);
        if (form === 'tape') return programs.ask(['tape'], tape.out);
        const [start] = this.hintsOf(entry).starts.match(/\S+/g) ?? (tape.start ? [tape.start] : []);
        store.put('.shown.bin', tape.out);
        const answer = await programs.ask([form, '.shown.bin', ...(start ? [`--start=${start}`] : []), ...doingOf('shown')]);
        store.remove('.shown.bin');
        return answer;
    }

    /** @param {Entry} entry @param {Form} form */
    async show(entry, form) {
        const given = await this.#given(entry, form);
        if (given.status !== 0) return tell('files-status', `${entry.name}: ${textOf(given.out)}${given.said}`, true);
        tell('files-status', '');
        this.lay(entry, textOf(given.out), form);
    }

    // Shows the file anew, after a change of its volume, or none where it is gone.
    async again() {
        const { entry, form } = this, now = this.page.files.entries.find(it => it.name === entry?.name && it.isByBlocks === entry.isByBlocks);
        if (!entry || !now) return this.lay(null);
        const { status, out } = await this.#given(now, form);
        if (this.entry !== entry) return;
        if (status !== 0) return this.lay(null);
        if (textOf(out).replaceAll('\r', '') !== $('shown').textContent || now.first !== entry.first) this.lay(now, textOf(out), form);
    }

    // Lays out a text of a file, or nothing.
    /** @param {Entry | null} entry @param {string} [text] @param {Form} [form] */
    lay(entry, text = '', form = 'text') {
        this.entry = entry;
        this.form = form;
        $('shown-name').textContent = entry ? `${entry.name}, ${WORDS[form]}` : 'No file is shown';
        const plain = text.replaceAll('\r', '');
        $('shown').replaceChildren(...(entry && (form === 'trace' || form === 'profile') ? this.#named(entry, plain) : [plain]));
        $('shown-how').hidden = !entry || form === 'text' || form === 'tape' || form === 'words';
        if (entry) [$('starts').value, $('cell-names').value] = [this.hintsOf(entry).starts, this.hintsOf(entry).names];
        for (const row of $('directory').tBodies[0].rows) row.classList.toggle('chosen', row.dataset.name === entry?.name);
    }

    // The lines of a trace or a profile, each with the name of its cell.
    /** @param {Entry} entry @param {string} text */
    #named(entry, text) {
        const names = new Map([...this.symbolsOf(entry).matchAll(/^(\w+) ([0-7]{5})$/gm)].map(([, name, cell]) => [cell, name]));
        return (text.match(/[^\n]*\n|[^\n]+$/g) ?? []).map(it => made('span', { class: 'l', 'data-own': names.get(it.slice(0, 5)) ?? null }, it));
    }

    // The words that give a file of the host its date, where it went home with one, and comes back as it went.
    /** @param {string} name @param {Uint8Array} bytes */
    async datedWords(name, bytes) {
        const kept = this.page.store.notes.get(`home ${name}`);
        return kept?.sum && kept.sum === await sumOf(bytes) ? ['--date', kept.date] : [];
    }

    // Takes a file home under its own name, under which it then comes back.
    /** @param {Entry} entry @param {Saved} form */
    async home(entry, form) {
        const { status, out, said } = await this.formOf(entry, form);
        if (status !== 0) return tell('files-status', `${entry.name}: ${said}`, true);
        const { name } = entry;
        takeHome(name, out);
        if (/^\d/.test(entry.date ?? '') && entry.date?.length === 10) this.page.store.note(`home ${name}`, { date: entry.date, sum: await sumOf(out) });
        tell('files-status', `${entry.name}: ${out.length} bytes`);
    }
}

// A digest of bytes.
/** @param {Uint8Array} bytes */
async function sumOf(bytes) {
    const sum = await globalThis.crypto?.subtle?.digest('SHA-256', new Uint8Array(bytes));
    return sum ? [...new Uint8Array(sum)].join() : '';
}
