// The files that are chosen in the directory: they are saved as one zip, copied to another volume, or deleted, all of them at once.
import { $, elementOf, made, takeHome, tell } from './dom.js';
import { ask } from './ask.js';
import { textOf } from './program.js';
import { placeOf } from './tapes.js';
import { fileOf, targetOf, titleOf, wordsOf } from './volumes.js';
import { zipOf } from './zip.js';

/** @typedef {import('./files.js').Entry} Entry */

// Files in words.
/** @param {Entry[]} all */
const named = all => all.length === 1 ? all[0].name : `${all.length} files`;

export class Chosen {
    /** @type {Set<string>} */
    #keys = new Set();
    #volume = '';

    // `found` gives the files that the directory shows.
    /** @param {Page} page @param {() => Entry[]} found */
    constructor(page, found) {
        this.page = page;
        this.found = found;
        $('directory').addEventListener('change', event => this.#changed(/** @type {HTMLInputElement} */ (elementOf(event))));
        page.store.addEventListener('volume', () => this.tell());
        $('chosen-zip').addEventListener('click', () => this.#zip());
        $('chosen-copy').addEventListener('click', () => this.copy(this.all));
        $('chosen-delete').addEventListener('click', () => this.delete(this.all));
    }

    // The files that are chosen, as the directory has them.
    get all() {
        const { name, entries } = this.page.files;
        if (this.#volume !== name) this.#keys.clear();
        this.#volume = name;
        return entries.filter(it => this.#keys.has(keyOf(it)));
    }

    // The box by which a file is chosen.
    /** @param {Entry} it */
    box(it) {
        const box = made('input', { type: 'checkbox', 'aria-label': `${it.name} chosen`, 'data-key': keyOf(it) });
        box.checked = this.#keys.has(keyOf(it));
        return box;
    }

    /** @param {HTMLInputElement} box */
    #changed(box) {
        const keys = box.id === 'choose-all' ? this.found().map(keyOf) : [box.dataset.key ?? ''];
        for (const it of keys) box.checked ? this.#keys.add(it) : this.#keys.delete(it);
        for (const it of /** @type {NodeListOf<HTMLInputElement>} */ ($('directory').querySelectorAll('[data-key]'))) it.checked = this.#keys.has(it.dataset.key ?? '');
        this.tell();
    }

    // Says how many are chosen. Those that are no more are forgotten.
    tell() {
        const { all, page: { files } } = this, isNone = all.length === 0, shown = this.found();
        this.#keys = new Set(all.map(keyOf));
        $('chosen-told').textContent = isNone ? 'No file is chosen' : all.length === 1 ? '1 file is chosen' : `${all.length} files are chosen`;
        $('choose-all').checked = shown.length > 0 && shown.every(it => this.#keys.has(keyOf(it)));
        $('chosen-zip').disabled = isNone;
        $('chosen-copy').disabled = $('chosen-delete').disabled = isNone || files.refusal !== null;
    }

    // Saves the files as one zip, each as it is saved by itself.
    async #zip() {
        const { all, page: { files } } = this, members = [];
        for (const it of all) {
            const { status, out, said } = await files.shown.formOf(it, await files.shown.ownForm(it));
            if (status !== 0) return tell('files-status', `${it.name}: ${said}`, true);
            members.push({ name: it.name, bytes: out, date: it.date });
        }
        const zip = zipOf(members);
        takeHome(`${files.name.replace(/[ .].*$/, '')}.zip`, zip);
        tell('files-status', `${named(all)}: a zip of ${zip.length} bytes`);
    }

    // Deletes files: all of them is one change.
    /** @param {Entry[]} all */
    async delete(all) {
        const { files, programs, undo } = this.page, [image, ...how] = wordsOf(files.name);
        const { status, out, said } = await undo.group(files.file, `the deletion of ${named(all)}`, () => programs.ask(['delete', image, ...how, ...all.flatMap(placeOf)]));
        tell('files-status', textOf(out) + said, status !== 0);
    }

    // Copies files to another volume of the page, with their information words, and so their dates.
    /** @param {Entry[]} all */
    async copy(all) {
        const { files } = this.page, others = files.volumes.filter(it => it !== files.name);
        if (!others.length) return tell('files-status', 'There is no other volume: open one, or make a new one.', true);
        const to = await ask(`Copy ${named(all)} to which volume?`, ...others.map(it => [it, titleOf(it)]), ['', 'Leave it']);
        if (to === '') return;
        await files.use(fileOf(to), async () => {
            if (!await files.mayWrite(to, ...all.map(it => it.name))) return tell('files-status', `${titleOf(to)} was left as it was`);
            await this.#copyTo(to, all);
        });
    }

    // Copies files that may be written over.
    /** @param {string} to @param {Entry[]} all */
    async #copyTo(to, all) {
        const { files, programs, undo } = this.page, [from, ...how] = wordsOf(files.name), [there, ...where] = targetOf(to);
        const runs = all.length > 1 && all.every(it => placeOf(it).length === 1) ? [['copy', from, ...all.flatMap(placeOf), '--to', there, '--force', ...how, ...where]]
            : all.map(it => ['copy', from, ...placeOf(it), there, ...how, ...where]);
        await undo.group(there, `the copy of ${named(all)} to ${titleOf(to)}`, async () => {
            const answers = [];
            for (const words of runs) answers.push(await programs.ask(words));
            const isBad = answers.some(it => it.status !== 0);
            tell('files-status', `${titleOf(to)}: ${answers.map(it => textOf(it.out) + (isBad ? it.said : '')).join('')}`, isBad);
        });
    }
}

// By what a file of a volume is known while it is chosen.
/** @param {Entry} it */
function keyOf({ name, first }) { return `${first} ${name}`; }
