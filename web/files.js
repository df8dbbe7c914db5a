// The Files pane: each thing that it shows is a reply of `check`, `get`, `tape` or `source`, and each change `create`, `put` or a script.
import { $, made, tell, takeHome, bytesOfFile, elementOf, ids, keepInput, rove } from './dom.js';
import { ask, askFor } from './ask.js';
import { Blocks } from './blocks.js';
import { Directory } from './directory.js';
import { Drops } from './drops.js';
import { textOf } from './program.js';
import { Shown } from './shown.js';
import { Dump } from './dump.js';
import { beginMenu } from './menu.js';
import { Salvage } from './salvage.js';
import { Mending } from './mending.js';
import { TEXTS, incoming } from './incoming.js';
import { Search, indexed } from './search.js';
import { placeOf } from './tapes.js';
import { blocksOf, fileOf, isVolume, kindOf, plainName, targetOf, titleOf, volumesOf, wordsOf } from './volumes.js';

// A file of a volume: where the directory is refused it is found by its blocks. Date and kind are as `index` prints them.
/** @typedef {{ name: string, first: number, length: number, isByBlocks: boolean, date?: string, kind?: string }} Entry */

// What stands in place of a date where each file gets the day on which it was last changed.
const OWN_DATE = /^their own$/i, DATES = /^(\d{4}-\d\d-\d\d|their own|none)$/i;
// How long a volume is left alone before its files' dates and kinds are asked for, in milliseconds.
const QUIET = 60;

export class Files {
    /** @param {Page} page */
    constructor(page) {
        this.page = page;
        this.shown = new Shown(page);
        /** @type {Set<string>} */
        this.used = new Set();
        /** @type {Entry[]} */
        this.entries = [];
        this.blocks = new Blocks(block => this.dump.show(block));
        this.dump = new Dump(page);
        this.salvage = new Salvage(page);
        this.mending = new Mending(page);
        /** @type {string | null} */
        this.refusal = null;
        /** @type {string | null} */
        this.follows = null;
        this.created = '';
        this.directory = new Directory(page);
        this.turn = this.telling = 0;
        /** @type {Promise<unknown>} */
        this.undone = Promise.resolve();
        keepInput(page.store, 'new-name');
        keepInput(page.store, 'new-blocks');
        $('create-dectape').addEventListener('click', () => this.create('DECtape'));
        $('create-disk').addEventListener('click', () => this.create('disk'));
        $('put-date').addEventListener('click', () => this.#askDate());
        this.#tellDate();
        $('image').addEventListener('change', () => this.drops.chosen($('image'), 'files'));
        $('create').addEventListener('click', () => this.create());
        $('volume').addEventListener('change', () => this.open($('volume').value));
        $('take-image').addEventListener('click', () => takeHome(this.file, page.store.files.get(this.file)));
        $('drop-image').addEventListener('click', () => this.#remove());
        $('squeeze').addEventListener('click', () => this.#squeeze());
        this.#undoable();
        $('undo').addEventListener('click', () => this.#undo(false));
        $('redo').addEventListener('click', () => this.#undo(true));
        page.undo.addEventListener('change', () => this.#undoable());
        new Search(page);
        for (const id of ids('changes', 'volume-keys', 'create-keys', 'begin')) rove($(id));
        beginMenu();
        document.addEventListener('keydown', event => this.#key(event));
        $('put').addEventListener('change', () => this.#put($('put')));
        this.drops = new Drops(page);
        page.store.addEventListener('file', ({ detail }) => detail === this.file ? this.#again() : detail.startsWith('.') || this.#list());
        page.store.addEventListener('kept', () => this.#list());
        page.programs.addEventListener('idle', () => this.#leave());
        page.claims.addEventListener('claim', ({ detail }) => this.#claimed(detail));
    }

    // Says what Undo and Do again would do.
    #undoable() {
        const { undo } = this.page;
        for (const { key, words, text } of [{ key: $('undo'), words: undo.next, text: 'Undo' }, { key: $('redo'), words: undo.again, text: 'Do again' }]) {
            key.disabled = words === null;
            key.title = words ?? '';
            key.textContent = words === null ? text : `${text}: ${words}`;
        }
    }

    // Ctrl-Z and Ctrl-Y on each pane: in a text they undo what was typed into it, where there is any.
    /** @param {KeyboardEvent} event */
    #key(event) {
        const key = event.key.toLowerCase(), isAgain = key === 'y' || (key === 'z' && event.shiftKey);
        const it = elementOf(event), text = it.id === 'text' ? `text ${this.page.texts.name}` : it.id === 'lines' ? 'lines' : undefined;
        if (!(event.ctrlKey || event.metaKey) || !(key === 'z' || key === 'y') || (!text && it.closest('input, textarea, select, .paper, dialog'))) return;
        event.preventDefault();
        this.#undo(isAgain, text);
    }

    // Undoes one change after another, however quickly that is asked for. What is changed while one waits stays.
    /** @param {boolean} isAgain @param {string} [text] */
    #undo(isAgain, text) {
        const newest = this.page.undo.ask();
        return this.undone = this.undone.then(() => this.#undoNow(isAgain, newest, text)).catch(error => this.page.say(String(error), true));
    }

    // Undoes the newest change up to `newest`, or that of a text, or does it again, and shows the volume of it.
    /** @param {boolean} isAgain @param {number} newest @param {string} [text] @returns {Promise<unknown>} */
    async #undoNow(isAgain, newest, text) {
        const { undo, claims, source, script, teletype, machine, texts, say } = this.page;
        teletype.paper.keep();
        const next = undo.step(isAgain, text, newest);
        if (!next) return;
        let busy = null;
        /** @param {Step} step */
        const mayChange = async ({ slot, key, is }) => {
            if (isAgain && is === null && key === `text ${texts.name}`) texts.leave();
            if (slot === 'notes') return !({ machine, paper: teletype, lines: script }[key] ?? source).owner.follows;
            busy = claims.has(`volume ${key}`) ? await this.#busy(key) : '? HOST BUSY';
            return busy === null;
        };
        const go = () => undo.go(isAgain, mayChange, next), step = next.slot === 'files' ? await this.use(next.key, go) : await go();
        if (!step) return busy && say(busy, true);
        if (step.slot === 'files') await this.#openAnyOf(step);
        const words = `${isAgain ? 'Done again' : 'Undone'}: ${step.words}.`;
        say(step.isDone ? words : `${step.words} can't be undone: something else was changed since.`, !step.isDone);
    }

    // Leaves to other tabs the volumes that this one doesn't use.
    #leave() {
        const { claims, programs } = this.page;
        /** @param {string} it */
        const isUsed = it => it === this.file || this.used.has(it) || programs.isBusy(it);
        for (const it of claims.names.filter(it => it.startsWith('volume '))) if (!isUsed(it.slice(7))) claims.leave(it);
    }

    // Works with a volume that isn't open, which no other tab gets meanwhile.
    /** @param {string} name @param {() => Promise<T>} work @template T */
    async use(name, work) {
        this.used.add(name);
        await this.page.claims.claim(`volume ${name}`);
        try {
            return await work();
        } finally {
            this.used.delete(name);
            this.#leave();
        }
    }

    // Another tab has left a volume to this one: its image, as this tab has it, is kept.
    /** @param {string} claim */
    #claimed(claim) {
        const { store } = this.page, name = claim.slice(7);
        const image = store.files.get(name);
        if (claim.startsWith('volume ') && this.follows === name && image) store.put(name, image);
        this.#tellClaim();
    }

    // Says whether another tab has the volume that is open.
    #tellClaim() {
        const { file } = this;
        this.follows = file !== '' && !this.page.claims.has(`volume ${file}`) ? file : null;
        $('follows').textContent = this.follows ? `Another tab has ${file}. Here it is only looked at, and follows that tab. It can be changed here `
            + 'once that tab is closed, or opens another.' : '';
        $('follows').hidden = !this.follows;
    }

    // The volume that is open, and the file that it is on.
    get name() { return $('volume').value; }

    get file() { return fileOf(this.name); }

    // The image files of the page, and their volumes.
    get images() { return [...this.page.store.files.keys()].filter(it => !it.startsWith('.') && !it.includes('/')).sort(); }

    get volumes() { return this.images.flatMap(it => volumesOf(it, this.page.store.notes.get(`kind ${it}`))); }

    // Opens a volume of the file of a step that was undone, or another one where that isn't there. A file of another length is of another kind maybe.
    /** @param {Step} step */
    async #openAnyOf({ key: file, lengths }) {
        const image = this.page.store.files.get(file);
        if (image && lengths?.[0] !== lengths?.[1]) this.page.store.note(`kind ${file}`, (await kindOf(this.page, image)).kind);
        const all = this.volumes, own = all.filter(it => fileOf(it) === file);
        await this.open(own.includes(this.name) ? this.name : own[0] ?? all[0] ?? '');
    }

    // A file has another length now, and is of another kind maybe. Where it is open it stays so.
    /** @param {string} file */
    async resized(file) {
        const { store } = this.page, image = store.files.get(file), isOpen = this.file === file;
        if (!image) return;
        store.note(`kind ${file}`, (await kindOf(this.page, image)).kind);
        this.#list();
        if (isOpen && this.file !== file) await this.open(this.volumes.find(it => fileOf(it) === file) ?? '');
    }

    async begin() {
        this.#list();
        const last = this.page.store.notes.get('volume');
        await this.open(last === '' || this.volumes.includes(last) ? last : this.volumes[0] ?? '');
    }

    #list() {
        const own = this.name;
        $('volume').replaceChildren(made('option', { value: '' }, 'none is open'), ...this.volumes.map(it => made('option', { value: it }, this.#mark(it))));
        $('volume').value = this.volumes.includes(own) ? own : '';
        $('volume-name').textContent = this.#mark(this.name);
    }

    // A volume's name, with a mark where the browser's store didn't take it.
    /** @param {string} name */
    #mark(name) { return this.page.store.isUnkept(fileOf(name)) ? `${titleOf(name)}, not kept` : titleOf(name); }

    // Takes a file of the host as an image into the page, of whatever kind. What it is may be `known` already. One that can't be an image of a
    // volume is not kept.
    /** @param {File} file @param {Awaited<ReturnType<typeof kindOf>>} [known] */
    async take(file, known) {
        const bytes = await bytesOfFile(file), asked = known ?? await kindOf(this.page, bytes);
        if (!isVolume(asked)) return this.page.say(`${file.name}: ${asked.refusal}\n${asked.said}`, true);
        const name = await this.#name(file.name);
        if (name === null || !await this.#keep(name, bytes, asked.kind)) return;
        await this.open(volumesOf(name, asked.kind)[0]);
        if (asked.isMended) this.page.say(`${file.name} has faults, and is only looked at, as it is mended:\n${asked.said.replaceAll('the file', name)}`);
        else if (name !== file.name) this.page.say(`${file.name} is called ${name} here, and is open.`);
        else if ($('files').hidden) this.page.say(`${name} is open: the pane Files shows it.`);
    }

    // The name for a new volume: where there is one of that name the user is asked. Null where none is to be made.
    /** @param {string} wanted */
    async #name(wanted) {
        const { files } = this.page.store, plain = plainName(wanted);
        if (!files.has(plain)) return plain;
        let free = plain;
        for (let k = 2; files.has(free); k++) free = `${plain}-${k}`;
        const answer = await ask(`There is a volume ${plain} in the page. Writing over it loses what it has.`,
            ['free', `Name the new one ${free}`], ['over', `Write over ${plain}`], ['', 'Make none']);
        return { free, over: plain }[answer] ?? null;
    }

    // Keeps an image as a volume, if no run and no other tab has one of that name.
    /** @param {string} name @param {Uint8Array} bytes @param {import('./volumes.js').Kind} [kind] */
    async #keep(name, bytes, kind = '') {
        if (this.page.store.files.has(name)) {
            await this.page.claims.claim(`volume ${name}`);
            const busy = await this.#busy(name);
            if (busy) return this.page.say(`${name}: ${busy}`, true);
        }
        this.shown.forget(name);
        if (kind !== '' || this.page.store.notes.has(`kind ${name}`)) this.page.store.note(`kind ${name}`, kind);
        this.page.undo.begin(name, `the new volume ${name}`);
        this.page.store.put(name, bytes);
        this.page.undo.end(name);
        return true;
    }

    // The program's line where a run or another tab holds a file, else null.
    /** @param {string} name */
    async #busy(name) {
        if (!this.page.store.files.has(name)) return null;
        const { out, said } = await this.page.programs.ask(['run', name], '');
        return /[?] HOST BUSY.*/.exec(textOf(out) + said)?.[0] ?? null;
    }

    // Makes a new volume, DECtape or disk.
    /** @param {import('./volumes.js').Kind} [kind] */
    async create(kind = '') {
        const name = $('new-name').value.trim();
        if (name !== plainName(name)) return tell('files-status', 'A volume has a name without blanks and slashes, that begins with none of . and -.', true);
        const image = await this.blank($('new-blocks').value.trim(), kind);
        if (image) await this.add(name, image, this.created, kind);
    }

    // The image of an empty volume of so many blocks, or of an empty DECtape or disk of two volumes. Null where the program refuses.
    /** @param {string} blocks @param {import('./volumes.js').Kind} [kind] */
    async blank(blocks, kind = '') {
        const { programs, store } = this.page;
        store.remove('.new');
        const { status, out, said } = await programs.ask(['create', '.new', ...(kind === 'DECtape' ? ['--dectape'] : kind === 'disk' ? ['--rk05'] : ['--', blocks])]), image = store.files.get('.new');
        store.remove('.new');
        this.created = textOf(out);
        if (status === 0) return image;
        tell('files-status', textOf(out) + said, true);
        return null;
    }

    // A further volume, which is open from then on, and what the program said of it.
    /** @param {string} wanted @param {Uint8Array} image @param {string} told @param {import('./volumes.js').Kind} [kind] */
    async add(wanted, image, told, kind = '') {
        const name = await this.#name(wanted);
        if (name === null || !await this.#keep(name, image, kind)) return;
        await this.open(volumesOf(name, kind)[0]);
        tell('files-status', told);
    }

    /** @param {string} name */
    async open(name) {
        this.#list();
        $('volume').value = name;
        this.page.store.note('volume', name);
        tell('files-status', '');
        this.shown.lay(null);
        $('find').value = '';
        this.#leave();
        if (name !== '') await this.page.claims.claim(`volume ${fileOf(name)}`);
        this.#tellClaim();
        await this.#again();
    }

    async #remove() {
        const name = this.file, busy = await this.#busy(name);
        if (busy) return tell('files-status', busy, true);
        if (await ask(`Remove ${name} from the page? Undo brings it back.`, ['', 'Leave it'], ['remove', 'Remove it']) !== 'remove') return;
        this.page.undo.begin(name, `the removal of ${name}`);
        this.page.store.remove(name);
        this.page.undo.end(name);
        await this.open(this.volumes[0] ?? '');
        tell('files-status', `${name} is removed. Undo brings it back.`);
    }

    // Reads the volume anew and shows it.
    /** @returns {Promise<unknown>} */
    async #again() {
        this.#list();
        const name = this.name, turn = ++this.turn;
        $('volume-view').hidden = name === '';
        if (name === '') {
            this.entries = [];
            this.#tellClaim();
            return this.page.store.dispatchEvent(new Event('volume'));
        }
        const { status, out, said } = await this.page.programs.ask(['check', ...wordsOf(name)]);
        if (turn !== this.turn) return;
        this.entries = [];
        this.refusal = status === 0 ? null : textOf(out).trim();
        if (this.refusal?.startsWith('? IMAGE') && await this.mending.looks(name)) return this.#again();
        this.mending.show(name, said);
        const all = this.refusal ? textOf((await this.page.programs.ask(['check', ...wordsOf(name), '--all'])).out) : textOf(out);
        if (turn !== this.turn) return;
        if (this.refusal) tell('files-status', `${this.refusal}\n${said}${all.split('\n').filter(it => /^([?] |UNSOUND|TWICE)/.test(it) && it !== this.refusal).join('\n')}`, true);
        this.entries = this.blocks.lay(all.trim().split('\n').map(it => it.split(' ')), blocksOf(name, this.page.store.files.get(this.file)?.length ?? 0), this.refusal);
        this.directory.lay();
        for (const id of ids('squeeze', 'put')) $(id).disabled = this.refusal !== null;
        $('put-row').hidden = this.refusal !== null;
        this.page.store.dispatchEvent(new Event('volume'));
        this.dump.again();
        this.shown.again();
        if (this.refusal) return this.salvage.show();
        this.salvage.hide();
        clearTimeout(this.telling);
        this.telling = window.setTimeout(() => this.#tellKinds(turn), QUIET);
    }

    // Has the directory show dates and kinds of the files, as `index` prints them.
    /** @param {number} turn */
    async #tellKinds(turn) {
        const told = await indexed(this.page, this.name);
        if (turn !== this.turn) return;
        for (const it of this.entries) [it.date, it.kind] = told.get(it.first) ?? [];
        this.directory.tellKinds();
    }

    /** @param {HTMLInputElement} input */
    async #put(input) {
        const files = [...input.files ?? []];
        input.value = '';
        await this.putFiles(files);
    }

    // Puts files of the host in, one after the other; all of it is one change.
    /** @param {File[]} files */
    async putFiles(files) {
        /** @type {string[]} */
        const told = [];
        /** @type {{ file: File, it: import('./incoming.js').Incoming | null }[]} */
        const all = [];
        for (const file of files) all.push({ file, it: await incoming(file, $('put-as').value) });
        let isBad = false;
        await this.page.undo.group(this.file, `putting ${all.flatMap(({ it }) => it?.name ?? []).join(', ')}`, async () => {
            for (const { file, it } of all) {
                if (!it) told.push(`${file.name} was left\n`);
                if (!it) continue;
                const { status, out, said } = await this.put(it.name, it.bytes, it.form, this.#date.replace(OWN_DATE, dayOf(file)));
                told.push(status === 0 ? textOf(out) + said : `${file.name}: ${textOf(out)}${said}`);
                isBad ||= status !== 0;
            }
        });
        this.page.say(told.join(''), isBad);
    }

    // The date that files get which are put in, '' for none.
    get #date() { return this.page.store.notes.get('put-date') ?? ''; }

    #tellDate() { $('put-date').textContent = `Date: ${this.#date || 'none'}`; }

    // Asks for the date of files that are put in.
    async #askDate() {
        const date = (await askFor('The date of files that are put in: as 1974-03-12, or their own, or none', this.#date || 'none', 'Date them so')).trim();
        if (date === '') return;
        if (!DATES.test(date)) return tell('files-status', `A date is given as 1974-03-12, or as their own, or none: ${date} is none of these.`, true);
        this.page.store.note('put-date', date.toLowerCase() === 'none' ? '' : date);
        this.#tellDate();
    }

    // Makes bytes a file of the volume, as `text` or `frames`, or as the program says by its `name`. Where the volume has one of that name the
    // user is asked. It gets a date, if one is given.
    /** @param {string} name @param {Uint8Array} bytes @param {string} form @param {string} [date] */
    async put(name, bytes, form, date = '') {
        const { programs, store, undo } = this.page, volume = this.name, path = `.put/${name}`;
        if (!await this.mayWrite(volume, name)) return { status: 0, out: new Uint8Array(0), said: `${name} was left as it was\n` };
        if (form === 'name') store.put(path, bytes);
        const how = form === 'text' || form === 'name' && TEXTS.test(name) ? ['--text'] : [];
        const [words, input] = form === 'name' ? [[path, ...how], ''] : [['-', '--as', name, ...how], bytes];
        const isOld = this.entries.some(it => it.name === name), empty = isOld && bytes.length === 0 ? ['--empty'] : [];
        const dated = date ? ['--date', date] : isOld ? [] : await this.shown.datedWords(name, bytes);
        const answer = await undo.group(fileOf(volume), `putting ${name}`, () => programs.ask(['put', ...wordsOf(volume), ...words, ...dated, ...empty], input));
        store.remove(path);
        return { ...answer, said: answer.said.replaceAll(path, name) };
    }

    // Saves a text to the file of a volume from which it was opened as `was`. Where that is another by now the user is asked.
    /** @param {import('./source.js').From} from @param {Uint8Array} bytes @returns {Promise<Answer>} */
    async putBack({ volume, name, was }, bytes) {
        const { programs, undo } = this.page, none = { status: 0, out: new Uint8Array(0) }, title = `${name} of ${titleOf(volume)}`;
        if (!this.volumes.includes(volume)) return { ...none, status: 1, said: `The page has no volume ${titleOf(volume)} any more: Save the text saves it on your computer.` };
        const now = await programs.ask(['get', ...wordsOf(volume), name, '--text']), isSame = now.status === 0 && textOf(now.out) === textOf(was);
        if (!isSame && await ask(`${title} was changed since it was opened.`, ['', 'Leave it'], ['over', 'Write over it']) !== 'over') return { ...none, status: 1, said: `${title} was left as it is` };
        return this.use(fileOf(volume), () => undo.group(fileOf(volume), `saving ${name}`, () => programs.ask(['put', ...wordsOf(volume), '-', '--as', name, '--text'], bytes)));
    }

    // Whether files of these names may be written to a volume: where there are some the user is asked.
    /** @param {string} volume @param {...string} names */
    async mayWrite(volume, ...names) {
        const { out } = await this.page.programs.ask(['list', ...wordsOf(volume)]), all = textOf(out).split('\n').map(it => it.split(' ')[0]);
        const old = names.filter(it => all.includes(it));
        if (!old.length || await this.#busy(fileOf(volume))) return true;
        const words = old.length === 1 ? `a file ${old[0]}. Writing over it loses what it has.` : `files ${old.join(', ')}. Writing over them loses what they have.`;
        return await ask(`${titleOf(volume)} has ${words}`, ['', 'Leave it'], ['over', old.length === 1 ? 'Write over it' : 'Write over them']) === 'over';
    }

    // Moves the files of the volume together.
    async #squeeze() {
        const { status, out, said } = await this.page.undo.group(this.file, 'the squeeze', () => this.page.programs.ask(['squeeze', ...wordsOf(this.name)]));
        tell('files-status', textOf(out) + said, status !== 0);
    }
}

// The day on which a file of the host was last changed, in UTC.
/** @param {File} file */
function dayOf(file) { return new Date(file.lastModified).toISOString().slice(0, 10); }
