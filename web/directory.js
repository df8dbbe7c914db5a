// The directory of the volume that is open: a row for each file, with its name, what shows it, saves it, opens it in Source, and a menu of all else.
// It is sorted by a column, and searched.
import { $, elementOf, made, rove, tell } from './dom.js';
import { askFor } from './ask.js';
import { Chosen } from './chosen.js';
import { toggleMenu } from './menu.js';
import { textOf } from './program.js';
import { placeOf } from './tapes.js';
import { wordsOf } from './volumes.js';

/** @typedef {import('./files.js').Entry} Entry */

export class Directory {
    /** @type {{ by: 'name' | 'first' | 'length' | 'date' | 'kind', way: number }} */
    order = { by: 'name', way: 1 };

    /** @param {Page} page */
    constructor(page) {
        this.page = page;
        this.chosen = new Chosen(page, () => this.found);
        rove($('directory'));
        $('find').addEventListener('input', () => this.lay());
        $('find').addEventListener('keydown', event => event.key === 'Enter' && this.#showFound());
        for (const it of $('directory').querySelectorAll('button')) it.addEventListener('click', () => this.#sort(it.dataset.sort ?? ''));
        $('directory').tBodies[0].addEventListener('click', event => this.#clicked(elementOf(event)));
    }

    get #entries() { return this.page.files.entries; }

    // The files whose names have what is looked for, in the order that was chosen.
    get found() {
        const { by, way } = this.order, part = $('find').value.trim().toUpperCase();
        /** @param {Entry} it */
        const key = it => by === 'date' || by === 'kind' ? it[by] ?? '' : it[by];
        return this.#entries.filter(it => it.name.includes(part)).sort((a, b) => way * (key(a) < key(b) ? -1 : key(a) > key(b) ? 1 : a.first - b.first));
    }

    // Sorts by a column, or by it the other way round. Blocks begin with the most.
    /** @param {string} column */
    #sort(column) {
        const by = /** @type {typeof this.order.by} */ (column), own = this.order;
        this.order = { by, way: own.by === by ? -own.way : by === 'length' ? -1 : 1 };
        this.lay();
    }

    // Shows the first of the files that are found.
    async #showFound() {
        const [first] = this.found;
        if (first) await this.page.files.shown.best(first);
    }

    // Lays out the rows of the files that are found.
    lay() {
        const { by, way } = this.order, { found } = this;
        this.chosen.tell();
        const rows = found.map(it => this.#row(it));
        $('directory').tBodies[0].replaceChildren(...rows);
        $('found').textContent = $('find').value.trim() === '' ? '' : `${found.length} of ${this.#entries.length} files`;
        for (const it of $('directory').querySelectorAll('button[data-sort]'))
            it.parentElement?.setAttribute('aria-sort', it.getAttribute('data-sort') !== by ? 'none' : way > 0 ? 'ascending' : 'descending');
        $('directory').hidden = this.page.files.refusal !== null && !rows.length;
    }

    // Shows dates and kinds of the files, once they are known.
    tellKinds() {
        if (this.order.by === 'date' || this.order.by === 'kind') return this.lay();
        const entries = new Map(this.#entries.map(it => [it.first, it]));
        for (const row of $('directory').tBodies[0].rows) {
            const entry = entries.get(Number(row.dataset.first));
            [row.cells[4].textContent, row.cells[5].textContent] = [entry?.date ?? '', entry?.kind ?? ''];
        }
    }

    /** @param {Entry} it */
    #row(it) {
        const { name, first, length } = it, { shown } = this.page.files;
        /** @param {string} text @param {string} does @param {string} label */
        const button = (text, does, label) => made('button', { 'data-does': does, 'aria-label': `${name} ${label}` }, text);
        const more = made('button', { 'data-does': 'more', 'aria-label': `${name} more`, 'aria-haspopup': 'menu', 'aria-expanded': 'false' }, 'More');
        const row = made('tr', { 'data-name': name, 'data-first': first }, made('td', {}, this.chosen.box(it)), made('td', {}, button(name, 'show', 'in its best form')),
            made('td', { class: 'n' }, String(length)), made('td', { class: 'n' }, String(first)), made('td', { class: 'date' }, it.date ?? ''), made('td', { class: 'kind' }, it.kind ?? ''),
            made('td', {}, button('Save', 'save', 'save'), ' ', button('Edit', 'edit', 'edit in Source'), ' ', more));
        row.classList.toggle('chosen', shown.entry?.name === name);
        return row;
    }

    // Does what the button of a row is for.
    /** @param {HTMLElement} target */
    async #clicked(target) {
        const button = target.closest('button'), row = target.closest('tr'), it = this.#entries.find(one => one.first === Number(row?.dataset.first) && one.name === row?.dataset.name);
        if (!button || !it) return;
        const { shown } = this.page.files, does = button.dataset.does;
        if (does === 'show') await shown.best(it);
        if (does === 'save') await shown.home(it, await shown.ownForm(it));
        if (does === 'edit') await shown.edit(it);
        if (does === 'more') toggleMenu(button, `${it.name}: more`, this.#items(it));
    }

    // What the menu of a file has. A file that is found by its blocks alone can't be changed.
    /** @param {Entry} it */
    #items(it) {
        const { shown } = this.page.files;
        /** @param {string} text @param {() => void} what */
        const item = (text, what) => ({ text, label: `${it.name} ${text[0].toLowerCase()}${text.slice(1)}`, what });
        const shows = [item('Show as a text', () => shown.show(it, 'text')), item('Show the listing of its tape', () => shown.show(it, 'tape')), item('Show as source', () => shown.show(it, 'source')),
            item('Show its words', () => shown.show(it, 'words')), item('Open in Source as PAL8', () => shown.editProgram(it, 'PAL8'))];
        const saves = [item('Save as a text', () => shown.home(it, 'text')), item('Save as a tape', () => shown.home(it, 'tape')), item('Save as frames', () => shown.home(it, 'frames'))];
        const changes = [item('Rename', () => this.#rename(it)), item('Copy to another volume', () => this.chosen.copy([it])), item('Delete', () => this.chosen.delete([it]))];
        return [...shows, ...saves, ...(it.isByBlocks ? [] : changes)];
    }

    // Gives a file another name.
    /** @param {Entry} it */
    async #rename(it) {
        const { files, programs, undo } = this.page, name = (await askFor(`The new name of ${it.name}`, it.name, 'Rename it')).trim().toUpperCase();
        if (name === '' || name === it.name) return;
        const [image, ...how] = wordsOf(files.name), place = placeOf(it);
        const words = ['rename', image, ...how, ...(place.length === 1 ? [...place, name] : [name, ...place])];
        const { status, out, said } = await undo.group(files.file, `the new name of ${it.name}`, () => programs.ask(words));
        tell('files-status', textOf(out) + said, status !== 0);
    }
}
