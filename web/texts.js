// The texts of Source, by their names. One is open; the others wait in the store, and lose nothing while they do.
import { $, made, tell } from './dom.js';
import { ask } from './ask.js';

// What is kept with a text, by its name.
const OWN = ['further', 'dialect', 'form', 'options', 'from'];

export class Texts extends EventTarget {
    /** @param {Page} page */
    constructor(page) {
        super();
        this.page = page;
        $('texts').addEventListener('change', () => this.open($('texts').value));
        $('text-new').addEventListener('click', () => this.add('', ''));
        $('text-drop').addEventListener('click', () => this.#remove());
        $('source-name').addEventListener('change', () => this.#rename());
        page.store.addEventListener('note', () => this.list());
        this.name = this.#stored;
        this.list();
    }

    get #stored() { return this.page.store.notes.get('source-name') ?? ''; }

    // The names of those that aren't open.
    get others() {
        return [...this.page.store.notes.keys()].filter(it => it.startsWith('text ')).map(it => it.slice(5)).filter(it => it !== this.name).sort();
    }

    list() {
        const rows = [made('option', { value: '' }, this.name || 'no name yet'), ...this.others.map(it => made('option', { value: it }, it))];
        $('texts').replaceChildren(...rows);
        $('texts').selectedIndex = 0;
    }

    // Another tab's text, by its name as that tab has it.
    follow() {
        this.name = this.#stored;
        $('source-name').value = this.name;
        this.list();
    }

    // Lays the open text beside the others. One without a name gets one.
    #close() {
        const { store } = this.page, text = store.notes.get('text') ?? '';
        if (text.trim() === '' && this.name === '') return;
        const name = this.name || this.#free('TEXT');
        store.note(`text ${name}`, text);
        if (this.name === '') this.#moveOwn('', name);
        if (this.name === '') this.page.undo.rename('text ', `text ${name}`);
    }

    // Keeps under a text's new name what is kept with it.
    /** @param {string} old @param {string} name */
    #moveOwn(old, name) {
        const { store } = this.page;
        for (const it of OWN) {
            const value = store.notes.get(`${it} ${old}`);
            store.forget(`${it} ${old}`);
            value === undefined ? store.forget(`${it} ${name}`) : store.note(`${it} ${name}`, value);
        }
    }

    /** @param {string} name @param {string} text */
    #show(name, text) {
        const { store } = this.page;
        this.name = name;
        $('source-name').value = name;
        store.note('source-name', name);
        store.note('text', text);
        this.list();
        this.dispatchEvent(new CustomEvent('open', { detail: text }));
    }

    // Opens a text that waits.
    /** @param {string} name */
    open(name) {
        const text = this.page.store.notes.get(`text ${name}`);
        if (text === undefined || name === this.name) return this.list();
        this.#close();
        this.#show(name, text);
    }

    // A further text, which is open from then on. Where there is one of that name with other words the user is asked. Whether it is open.
    /** @param {string} name @param {string} text */
    async add(name, text) {
        if (!await this.page.source.owner.take()) return false;
        const { store } = this.page, old = name === this.name ? store.notes.get('text') : store.notes.get(`text ${name}`);
        const isOver = name !== '' && old !== undefined && old !== text && old.trim() !== '';
        const free = this.#free(name), answer = isOver ? await ask(`There is a text ${name}.`, ['free', `Call the new one ${free}`], ['over', 'Write over it'], ['', 'Leave it']) : 'over';
        if (answer === '') return false;
        if (answer === 'over' && isOver && name === this.name) {
            store.note(`text ${name}`, store.notes.get('text'));
            store.setText(name, text);
        } else {
            this.#close();
            if (answer === 'over' && isOver) store.setText(name, text);
        }
        for (const it of OWN) store.forget(`${it} ${answer === 'free' ? free : name}`);
        this.#show(answer === 'free' ? free : name, text);
        return true;
    }

    // A name that no text has, like the one that is wanted, of six characters at most.
    /** @param {string} wanted */
    #free(wanted) {
        const all = [this.name, ...this.others];
        for (let k = 2; ; k++) {
            const name = `${wanted.slice(0, 6 - String(k).length)}${k}`;
            if (!all.includes(name)) return name;
        }
    }

    // The open text gets the name that was typed, unless another has it.
    #rename() {
        const { store } = this.page, old = this.name, name = $('source-name').value.trim().toUpperCase();
        if (!/^[A-Z0-9]{0,6}$/.test(name)) {
            $('source-name').value = old;
            return tell('source-status', 'A text\'s name has at most six letters or digits.', true);
        }
        if (name !== '' && name !== old && this.others.includes(name)) {
            $('source-name').value = old;
            return tell('source-status', `There is another text ${name}: open that one, or remove it first.`, true);
        }
        $('source-name').value = name;
        this.name = name;
        store.note('source-name', name);
        if (old !== name) this.#moveOwn(old, name);
        if (old !== name) this.page.undo.rename(`text ${old}`, `text ${name}`);
        if (old !== name && store.notes.has(`text ${old}`)) store.forget(`text ${old}`);
        this.list();
    }

    // Lays the open text aside, so that it may be taken away.
    leave() {
        const [next] = this.others;
        this.#close();
        next === undefined ? this.#show('', '') : this.#show(next, this.page.store.notes.get(`text ${next}`));
    }

    // Takes the open text away; Undo brings it back.
    #remove() {
        const { store } = this.page, text = store.notes.get('text') ?? '', name = this.name || this.#free('TEXT');
        if (text.trim() !== '') {
            store.note(`text ${name}`, text);
            if (this.name === '') this.page.undo.rename('text ', `text ${name}`);
            this.page.undo.begin(`text ${name}`, `the removal of the text ${name}`);
            store.setText(name, undefined);
            this.page.undo.end(`text ${name}`);
        }
        const [next] = this.others;
        next === undefined ? this.#show('', '') : this.#show(next, store.notes.get(`text ${next}`));
        if (text.trim() !== '') tell('source-status', `The text ${name} is removed. Undo brings it back.`);
    }
}
