// The Source pane: `assemble` over the text, its faults at their lines, its listing and symbols, and where the tape goes.
import { $, ids, made, replace, rove, takeHome, tell } from './dom.js';
import { ask } from './ask.js';
import { encoded, homeOf, isText, shownOf } from './encoding.js';
import { bytesOf, textOf } from './program.js';
import { Texts } from './texts.js';
import { Listing, lineAt } from './listing.js';
import { Owner } from './owner.js';
import { ownerOf } from './store.js';
import { titleOf } from './volumes.js';

// The file of a volume from which a text was opened, and what that had then.
/** @typedef {{ volume: string, name: string, was: Uint8Array }} From */

const TAPE = '.source.bin', LISTING = '.source.lst';
// The options of PAL8, by their boxes.
const OPTIONS = ids('no-links', 'text-without-zero', 'no-origin', 'stay', 'notes');
// The examples that are written in PAL8.
const PAL8 = ['guess8.pa'];
// How long no key is struck before the text is looked at for faults, in milliseconds.
const QUIET = 400;
// How many numbers of lines are ready above and below those in sight.
const MARGIN = 30;

export class Source {
    /** @param {Page} page */
    constructor(page) {
        this.page = page;
        /** @type {Map<number, string>} */
        this.faulty = new Map();
        this.numbered = '';
        this.counted = { text: '', lines: 1 };
        this.here = 0;
        this.looking = 0;
        this.assembled = '';
        this.wasOld = false;
        this.mayLeave = false;
        this.texts = page.texts = new Texts(page);
        this.listing = new Listing(page, this);
        this.texts.addEventListener('open', ({ detail }) => this.#opens(detail));
        $('source-name').value = this.texts.name;
        this.#showOwn();
        $('text').value = page.store.notes.get('text') ?? '';
        this.#restore();
        for (const id of ids('source-keys', 'text-keys')) rove($(id));
        for (const id of [...ids('further', 'dialect', 'source-name'), ...OPTIONS]) $(id).addEventListener('change', () => this.#keepOwn());
        $('text').addEventListener('input', () => this.#edited());
        $('text').addEventListener('scroll', () => this.#number());
        $('source').addEventListener('shown', () => this.#number());
        $('text').addEventListener('keydown', event => this.#key(event));
        $('assemble').addEventListener('click', () => this.assemble());
        $('tape-home').addEventListener('click', () => this.#tapeHome());
        $('text-home').addEventListener('click', () => takeHome(`${this.#name}.PA`, homeOf($('text').value, this.#formOf(this.texts.name))));
        $('text-back').addEventListener('click', () => this.#back());
        $('listing-home').addEventListener('click', () => takeHome(`${this.#name}.LS`, this.listed ?? undefined));
        $('to-core').addEventListener('click', () => this.#toCore());
        $('to-teletype').addEventListener('click', () => this.#toTeletype());
        $('to-volume').addEventListener('click', () => this.#toVolume());
        $('source-file').addEventListener('change', () => page.files.drops.chosen($('source-file'), 'source'));
        $('example').addEventListener('change', () => this.#example($('example')));
        page.store.addEventListener('volume', () => this.#buttons());
        page.store.addEventListener('note', ({ detail }) => this.#followed(detail));
        this.owner = new Owner(page, 'text', $('text-follows'), follows => this.#close(follows));
        this.#number();
        this.#buttons();
    }

    get follows() { return this.owner.follows; }

    // Closes what changes the text where another tab has it.
    /** @param {boolean} follows */
    #close(follows) {
        $('text').readOnly = $('source-name').readOnly = $('further').readOnly = follows;
        for (const id of ids('source-file', 'example', 'texts', 'text-new', 'text-drop', 'dialect')) $(id).disabled = follows;
        this.#closeOptions();
    }

    // Shows the text as the tab that has it sends it.
    /** @param {string} note */
    #followed(note) {
        if (ownerOf(note) !== 'text') return;
        const value = this.page.store.notes.get(note) ?? '';
        if (note === 'source-name') this.texts.follow();
        this.#showOwn();
        if (note !== 'text' || value === $('text').value) return;
        replace($('text'), value);
        this.#changed();
        this.#lookSoon();
    }

    // The name of the text, or what stands for it where it has none.
    get #name() { return $('source-name').value.trim() || 'PROGRAM'; }

    get tape() { return this.page.store.files.get(TAPE) ?? null; }

    // The texts that are assembled as one: the open one, and those in which it goes on.
    get parts() {
        const { notes } = this.page.store, names = $('further').value.toUpperCase().split(/[\s,]+/).filter(it => it !== '');
        return [{ name: this.#name, text: $('text').value }, ...names.map(name => ({ name, text: /** @type {string | undefined} */ (notes.get(`text ${name}`)) }))];
    }

    get dialect() { return $('dialect').value; }

    get #isPal8() { return $('dialect').value === 'PAL8'; }

    // The word that chooses the dialect of the text, if it isn't PAL III.
    get #dialect() { return this.#isPal8 ? ['--pal8', ...this.#options] : []; }

    // The options of PAL8 that are chosen.
    get #options() { return OPTIONS.filter(id => $(id).checked).map(id => $(id).value); }

    // The listing of the tape, as the program wrote it.
    get listed() { return this.page.store.files.get(LISTING) ?? null; }

    // All that the tape is assembled of.
    get #whole() { return [...this.#dialect, ...this.parts.map(it => it.text)].join('\f'); }

    // Whether the text has changed since the tape was assembled of it.
    get isOld() { return this.tape !== null && this.assembled !== this.#whole; }

    // Shows what is kept with the open text: those that it goes on in, and its dialect.
    #showOwn() {
        const { notes } = this.page.store;
        $('further').value = notes.get(`further ${this.texts.name}`) ?? '';
        $('dialect').value = notes.get(`dialect ${this.texts.name}`) ?? 'PAL III';
        const options = notes.get(`options ${this.texts.name}`) ?? '';
        for (const id of OPTIONS) $(id).checked = options.split(' ').includes($(id).value);
        this.#closeOptions();
    }

    // The options are of PAL8 alone.
    #closeOptions() { for (const id of OPTIONS) $(id).disabled = this.owner?.follows === true || !this.#isPal8; }

    // Gives the open text a dialect, and the names of those that it goes on in.
    /** @param {string} dialect @param {string} further */
    setOwn(dialect, further) {
        [$('dialect').value, $('further').value] = [dialect, further];
        this.#keepOwn();
    }

    // Keeps with the open text the names of those that it goes on in, and its dialect.
    #keepOwn() {
        const { store } = this.page;
        for (const [what, value, usual] of [['further', $('further').value, ''], ['dialect', $('dialect').value, 'PAL III'], ['options', this.#options.join(' '), '']]) {
            const key = `${what} ${this.texts.name}`;
            if (value !== usual || store.notes.has(key)) store.note(key, value);
        }
        this.#closeOptions();
        this.#changed();
        this.#lookSoon();
    }

    // Lays the texts as files for the program. Their names, null where one of the texts isn't there.
    /** @param {string} name */
    #laid(name) {
        const { parts } = this, missing = parts.find(it => it.text === undefined);
        if (missing) return tell('source-status', `There is no text ${missing.name} that waits: the open one goes on in texts of the list.`, true);
        return parts.map(({ text }, k) => {
            const path = k ? `.${name}-${k + 1}.pa` : `.${name}.pa`;
            this.page.store.put(path, encoded(text ?? '', this.#formOf(k ? parts[k].name : this.texts.name)));
            return path;
        });
    }

    // The text, and the line of it, that a line of the whole listing shows.
    /** @param {number} number */
    placeOf(number) {
        let line = number;
        for (const { name, text = '' } of this.parts) {
            const count = text.split('\n').length - Number(text.endsWith('\n'));
            if (line <= count) return { name, line, isOpen: line === number };
            line -= count;
        }
        return { name: this.#name, line: number, isOpen: true };
    }

    // Assembles an old tape anew. Whether there is a tape of the text as it stands.
    async renew() { return this.isOld ? await this.assemble() : this.tape !== null; }

    // Shows a text that was opened.
    /** @param {string} text */
    #opens(text) {
        $('text').value = text;
        this.#showOwn();
        this.#buttons();
        $('text').scrollTop = 0;
        tell('source-status', '');
        this.#changed();
    }

    // The tape and its listing, as they were before a reload.
    #restore() {
        const { store } = this.page, kept = store.notes.get('tape');
        if (!kept || store.files.has(TAPE)) return;
        store.files.set(TAPE, kept.tape);
        if (kept.listing) store.files.set(LISTING, kept.listing);
        this.assembled = kept.text;
        this.#show(kept.listing);
        this.#age();
    }

    #edited() {
        const { store, undo } = this.page, { name } = this.texts;
        undo.type(`text ${name}`, `typing in ${name || 'the text'}`, store.notes.get('text') ?? '', $('text').value);
        store.note('text', $('text').value);
        this.#changed();
        this.#lookSoon();
    }

    #lookSoon() {
        clearTimeout(this.looking);
        this.looking = window.setTimeout(() => this.#look(), QUIET);
    }

    // Marks the faults of a text at which no one types for a while. The tape stays as it is.
    async #look() {
        const { store, programs } = this.page, whole = this.#whole;
        if (this.follows || $('text').value.trim() === '' || whole === this.assembled || programs.isAsked) return;
        const paths = this.#laid('look');
        if (!paths) return;
        const { status, said } = await programs.ask(['assemble', ...this.#dialect, ...paths, '--output', '.look.bin']);
        for (const it of [...paths, '.look.bin']) store.remove(it);
        if (whole === this.#whole && whole !== this.assembled) this.#tellFaults(status === 0 ? '' : said, false);
    }

    #changed() {
        this.here = 0;
        if (this.faulty.size) {
            this.faulty.clear();
            $('faults').replaceChildren();
        }
        this.#number();
        this.#age();
    }

    // Says of what is shown of the tape that it is old, where it is.
    #age() {
        const { isOld } = this;
        if (isOld === this.wasOld) return;
        this.wasOld = isOld;
        for (const [id, what] of /** @type {const} */ ([['listing', 'Listing'], ['symbols', 'Symbols']])) {
            $(`${id}-name`).textContent = isOld ? `${what}, old: the text was changed` : what;
            $(id).classList.toggle('old', isOld);
        }
        if (isOld) tell('source-status', 'The tape is old: the text was changed. It is assembled again before it goes anywhere.');
        this.page.store.dispatchEvent(new Event('tape'));
    }

    // Tab types a tab. After Escape it goes on to the next control, as Shift-Tab goes back always.
    /** @param {KeyboardEvent} event */
    #key(event) {
        const isTab = event.key === 'Tab' && !event.shiftKey && !event.ctrlKey && !event.altKey, mayLeave = this.mayLeave;
        this.mayLeave = event.key === 'Escape';
        if (isTab && !mayLeave && !this.follows) {
            event.preventDefault();
            this.#type('\t');
        }
        if (event.ctrlKey && event.key === 'Enter') this.assemble();
    }

    // Types characters in such a way that the browser can take them back as it does keys.
    /** @param {string} characters */
    #type(characters) {
        if (document.execCommand?.('insertText', false, characters)) return;
        $('text').setRangeText(characters, $('text').selectionStart, $('text').selectionEnd, 'end');
        this.#edited();
    }

    // How many lines the text has. It is counted once for each change.
    get #lines() {
        const text = $('text').value;
        if (text !== this.counted.text) this.counted = { text, lines: lineAt(text, text.length) };
        return this.counted.lines;
    }

    // The numbers of the lines that are in sight, with a mark at those that have a fault. So a key costs the same in a text of any length.
    #number() {
        const text = $('text'), height = parseFloat(getComputedStyle(text).lineHeight), lines = this.#lines;
        const first = Math.max(1, Math.floor(text.scrollTop / height) - MARGIN), last = Math.min(lines, first + Math.ceil(text.clientHeight / height) + 2 * MARGIN);
        const marks = [...new Set([...this.faulty.keys(), this.here])].filter(it => it >= first && it <= last).sort((a, b) => a - b);
        const shown = `${first} ${last} ${marks.map(it => `${it} ${this.faulty.get(it)}`)}`;
        if (this.numbered !== shown) {
            this.numbered = shown;
            const parts = marks.flatMap((it, k) => {
                const code = this.faulty.get(it);
                return [numbersOf(k ? marks[k - 1] + 1 : first, it), made('span', { class: code === undefined ? 'at' : 'bad' }, `${code === undefined ? '' : `${code} `}${it}\n`)];
            });
            $('gutter').replaceChildren(...parts, numbersOf((marks.at(-1) ?? first - 1) + 1, last + 1), '\n\n\n');
        }
        $('gutter').scrollTop = text.scrollTop - (first - 1) * height;
    }

    #buttons() {
        for (const id of ids('tape-home', 'to-core', 'to-teletype')) $(id).disabled = this.tape === null;
        $('listing-home').disabled = this.listed === null;
        const from = this.#from;
        $('text-back').disabled = from === null;
        $('text-back').title = from ? `writes ${from.name} of ${titleOf(from.volume)}` : 'for a text that was opened from a volume';
        $('to-volume').disabled = this.tape === null || this.page.files.name === '';
    }

    async assemble() {
        const { store, programs } = this.page, text = this.#whole;
        for (const it of [TAPE, LISTING]) store.files.delete(it);
        tell('source-status', '');
        this.#buttons();
        const paths = this.#laid('source');
        if (!paths) return false;
        const { status, said } = await programs.ask(['assemble', ...this.#dialect, ...paths, '--output', TAPE, '--list', LISTING, '--cross']);
        this.assembled = text;
        this.#show(store.files.get(LISTING));
        store.note('tape', status === 0 ? { text, tape: this.tape, listing: store.files.get(LISTING) } : null);
        this.#tellFaults(status === 0 ? '' : said);
        tell('source-status', status === 0 ? `assembled: a tape of ${this.tape?.length} frames\n${said}` : this.#refusal(said), status !== 0);
        this.#buttons();
        this.#age();
        store.dispatchEvent(new Event('tape'));
        return status === 0;
    }

    // The refusal's line of what the program says, and a hint where that names the other dialect.
    /** @param {string} said */
    #refusal(said) {
        const hint = said.includes('assemble --pal8') ? '. It reads like PAL8: choose that dialect.' : '';
        return (said.split('\n').find(it => it.startsWith('? ')) ?? said) + hint;
    }

    // Shows what `--list` writes.
    /** @param {Uint8Array | null | undefined} listing */
    #show(listing) {
        const { text, symbols } = splitListing(listing);
        this.listing.show(text);
        $('symbols').textContent = symbols;
    }

    // Faults as the program prints them: NAME:LINE:COLUMN: CODE: WORDS.
    /** @param {string} said @param {boolean} [takesCursor] */
    #tellFaults(said, takesCursor = true) {
        this.faulty.clear();
        const found = [...said.matchAll(/^\S+?(-\d)?\.pa:(\d+):(\d+): ([A-Z]{2}): (.*)$/gm)].map(([, part, line, column, code, words]) =>
            ({ name: part ? this.parts[Number(part.slice(1)) - 1]?.name ?? null : null, line: Number(line), column: Number(column), code, words }));
        for (const { line, code } of found.filter(it => it.name === null)) this.faulty.set(line, code);
        $('faults').replaceChildren(...found.map(({ name, line, column, code, words }) =>
            made('li', {}, made('button', { onclick: () => this.#open(name, line, column) }, `${name ? `${name}, ` : ''}line ${line}, column ${column}: ${code}: ${words}`))));
        this.#number();
        if (takesCursor && found.length && found[0].name === null) this.#go(found[0].line, found[0].column, false);
    }

    // Goes to a place of the open text, or of another one, which is opened.
    /** @param {string | null} name @param {number} line @param {number} column */
    #open(name, line, column) {
        if (name !== null) this.texts.open(name);
        this.#go(line, column);
    }

    // Chooses what stands at a place of the text: so many characters, or the rest of the line.
    /** @param {number} line @param {boolean} [takesFocus] @param {number} [column] @param {number} [length] */
    goTo(line, takesFocus = true, column = 1, length = 0) {
        this.here = line;
        this.#number();
        this.#go(line, column, takesFocus, length);
    }

    // Puts the cursor at a place of the text.
    /** @param {number} line @param {number} column @param {boolean} [takesFocus] @param {number} [length] */
    #go(line, column, takesFocus = true, length = 0) {
        const lines = $('text').value.split('\n');
        const at = lines.slice(0, line - 1).reduce((sum, it) => sum + it.length + 1, 0) + column - 1;
        if (takesFocus) $('text').focus();
        $('text').setSelectionRange(at, at + (length || Math.max(1, (lines[line - 1] ?? '').length - column + 1)));
        $('text').scrollTop = Math.max(0, (line - 5) * parseFloat(getComputedStyle($('text')).lineHeight));
    }

    async #tapeHome() {
        if (await this.renew() && this.tape) takeHome(`${this.#name}.BN`, this.tape);
    }

    async #toCore() {
        if (!await this.renew() || !this.tape) return;
        if (!await this.page.machine.load(this.tape, `the tape of ${this.#name}`)) return;
        this.page.machine.list($('listing').textContent, $('symbols').textContent);
        this.page.tabs.show('machine');
    }

    async #toTeletype() {
        if (!await this.renew()) return;
        this.page.teletype.choose('source');
        this.page.tabs.show('teletype');
        $('tty-run').focus();
    }

    // The text and the tape become files of the volume that is open.
    async #toVolume() {
        if (!await this.renew() || !this.tape) return;
        const { files } = this.page, told = [];
        let isBad = false;
        if ($('source-name').value.trim() === '') {
            $('source-name').focus();
            return tell('source-status', 'The text has no name yet: give it one, and its files will have that.', true);
        }
        const texts = this.parts.map(({ name, text = '' }) => ({ name: `${name}.PA`, bytes: bytesOf(text), form: 'text' }));
        for (const { name, bytes, form } of [...texts, { name: `${this.#name}.BN`, bytes: this.tape, form: 'frames' }]) {
            const { status, out, said } = await files.put(name, bytes, form);
            told.push(textOf(out) + said);
            isBad ||= status !== 0;
        }
        tell('source-status', told.join(''), isBad);
    }

    // The file of a volume from which the open text came, null for none.
    /** @returns {From | null} */
    get #from() { return this.page.store.notes.get(`from ${this.texts.name}`) ?? null; }

    // Saves the text to the file of a volume from which it came.
    async #back() {
        const { store, files } = this.page, from = this.#from, { name } = this.texts, bytes = homeOf($('text').value, this.#formOf(name));
        if (!from || this.follows) return;
        const { status, out, said } = await files.putBack(from, bytes);
        if (status === 0) store.note(`from ${name}`, { ...from, was: bytes });
        tell('source-status', textOf(out) + said, status !== 0);
    }

    // Opens a text of a file of a volume, in this dialect. With the volume it can be saved back.
    /** @param {string} name @param {Uint8Array} bytes @param {string} dialect @param {string | null} volume */
    async takeFile(name, bytes, dialect, volume) {
        if (!await this.take(name, bytes)) return;
        this.setOwn(dialect, '');
        if (volume !== null) this.page.store.note(`from ${this.texts.name}`, { volume, name, was: bytes });
        this.#buttons();
        this.page.tabs.show('source');
    }

    // Opens a text of the host as a further one. What is plainly no text is asked for. Whether it is open.
    /** @param {string} path @param {Uint8Array} bytes @param {boolean} [isSure] */
    async take(path, bytes, isSure = false) {
        if (!isSure && !isText(bytes) && await ask(`${path} is no image and no tape, and has bytes that a text hasn't.`, ['', 'Leave it'], ['text', 'Open it as a text']) !== 'text') {
            this.page.say(`${path} was not opened: it is no image, no tape, and plainly no text.`, true);
            return false;
        }
        const { text, form } = shownOf(bytes);
        if (!await this.texts.add(path.toUpperCase().split('.')[0].replace(/[^A-Z0-9]/g, '').slice(0, 6), text)) return false;
        if (form) this.page.store.note(`form ${this.texts.name}`, form);
        return true;
    }

    // The form of a text of the host, by its name here.
    /** @param {string} name @returns {import('./encoding.js').Form | undefined} */
    #formOf(name) { return this.page.store.notes.get(`form ${name}`); }

    /** @param {HTMLSelectElement} select */
    async #example(select) {
        const name = select.value;
        select.value = '';
        if (name) await this.takeExample(name);
    }

    // Opens an example. Whether it is open.
    /** @param {string} name */
    async takeExample(name) {
        const answer = await fetch(`examples/${name}`);
        if (!answer.ok) return false;
        const bytes = new Uint8Array(await answer.arrayBuffer());
        this.page.store.gave(textOf(bytes));
        if (!await this.take(name, bytes)) return false;
        this.setOwn(PAL8.includes(name) ? 'PAL8' : 'PAL III', '');
        return true;
    }
}

// What `--list` writes, as its lines, and after the last empty line the symbols.
/** @param {Uint8Array | null | undefined} listing */
export function splitListing(listing) {
    const text = listing ? textOf(listing).replaceAll('\r', '') : '', split = /\n\n((?:[A-Z][A-Z0-9]* +[0-7]{4}[ \d:#]*\n)+)$/.exec(text);
    return split ? { text: text.slice(0, split.index), symbols: split[1] } : { text, symbols: '' };
}

// The numbers of lines up to another one, a line each.
/** @param {number} from @param {number} to */
function numbersOf(from, to) { return Array.from({ length: Math.max(0, to - from) }, (_, k) => `${from + k}\n`).join(''); }
