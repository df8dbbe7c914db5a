// The Teletype pane: `teletype --live`, whose keys are struck at the paper, in a line, or by the tape reader. It is the console of a disk that boots, too.
import { $, ids, keepInput, made, tell } from './dom.js';
import { ask } from './ask.js';
import { Owner } from './owner.js';
import { canLive, textOf } from './program.js';
import { Paper, keyOf } from './paper.js';
import { Reads } from './reads.js';
import { got, isNamedCore, placeOf, tapeIn, tapeOf } from './tapes.js';
import { titleOf, wordsOf } from './volumes.js';
import { endOf } from './words.js';

// The file by which the program is asked for its end.
const ENDS = '.ends';

export class Teletype {
    /** @param {Page} page */
    constructor(page) {
        this.page = page;
        /** @type {import('./program.js').Run | null} */
        this.run = null;
        this.isBegun = false;
        // the disk that boots, and whether it was asked for its end
        /** @type {Booted | null} */
        this.booted = null;
        this.isEnding = false;
        this.over = Promise.resolve();
        this.ends = () => {};
        /** @type {string | null} */
        this.own = page.store.notes.get('tty-own')?.name ?? null;
        if (this.own) page.store.put('.tape.bin', page.store.notes.get('tty-own').tape);
        this.reads = new Reads(page.store);
        // the program is kept with what it has printed
        this.paper = new Paper($('paper'), { shown: count => this.#shown(count), kept: text => { page.store.note('paper', text); if (this.isBegun) this.reads.keep(); }, sound: page.sound });
        this.paper.restore(page.store.notes.get('paper') ?? '');
        for (const id of ids('tty-start', 'tty-switches', 'pace', 'capitals', 'reader')) keepInput(page.store, id);
        this.owner = new Owner(page, 'teletype', $('tty-follows'), follows => this.#close(follows));
        page.store.addEventListener('note', ({ detail }) => detail === 'paper' && this.paper.replace(page.store.notes.get('paper') ?? ''));
        page.store.addEventListener('leave', () => this.#keep());
        this.#paces();
        $('pace').addEventListener('change', () => this.#paces());
        $('tty-run').addEventListener('click', () => this.begin());
        $('tty-stop').addEventListener('click', () => this.stop());
        $('tear').addEventListener('click', () => this.#tear());
        $('copy').addEventListener('click', () => this.#copy());
        $('paper').addEventListener('keydown', event => this.#key(event));
        $('paper').addEventListener('paste', event => this.strike(event.clipboardData?.getData('text') ?? ''));
        $('keys').addEventListener('submit', event => this.#line(event));
        $('read').addEventListener('click', () => this.strike($('reader').value));
        $('tape').addEventListener('change', () => page.store.note('tty-tape', $('tape').value));
        $('tape-file').addEventListener('change', () => page.files.drops.chosen($('tape-file'), 'teletype'));
        page.store.addEventListener('volume', () => this.#list());
        page.store.addEventListener('tape', () => this.#list());
        this.#list();
    }

    // Closes what works it where another tab has it. A program that ran when the page was left goes on, and one that another tab takes does so there.
    // A disk that booted is at its end then.
    /** @param {boolean} follows */
    #close(follows) {
        $('reader').readOnly = follows;
        if (follows) this.stop();
        else if (canLive && this.page.store.notes.get('tty-going')) this.#goOn();
        else this.#tellLast();
        this.#buttons();
    }

    // Says of a disk that booted here, or in the tab before, that it has ended, as no one has stopped it.
    #tellLast() {
        const { store } = this.page, title = store.notes.get('tty-boot');
        if (!title || this.isBegun) return;
        store.forget('tty-boot');
        tell('tty-status', `${title} booted here, which ended as its page was left. It has what was saved by then.`, true);
    }

    // So many further characters are on the paper.
    /** @param {number} count */
    #shown(count) {
        this.reads.past.printed += count;
        this.run?.show(count);
    }

    // Has the page keep the paper, and the program as it is.
    #keep() {
        this.paper.keep();
        if (this.isBegun) this.reads.keep();
    }

    // Has the program go on that ran when the page was left: a new run gets what that one has read, and what it printed is left out.
    async #goOn() {
        const words = this.reads.goOn();
        if (!words || this.isBegun) return;
        this.isBegun = true;
        const { printed, unread } = this.reads.past;
        await this.#begin(words, printed);
        this.run?.say(unread);
    }

    // Begins a run whose first characters, so many, are on the paper.
    /** @param {string[]} words @param {number} [printed] */
    async #begin(words, printed = 0) {
        let said = '', left = printed;
        const { booted } = this;
        this.over = new Promise(go => { this.ends = () => go(undefined); });
        /** @type {How} */
        const how = {
            heard: (bytes, reads, quiet) => {
                const known = Math.min(left, bytes.length);
                left -= known;
                this.reads.see(reads, quiet);
                if (known) this.run?.show(known);
                if (known < bytes.length) this.paper.print(bytes.subarray(known));
            },
            said: bytes => { said += textOf(bytes); },
            ended: status => this.#ended(status, said),
            read: (quiet, keys) => this.reads.read(quiet, keys),
            room: 4096, patience: 16, again: this.reads.again, ...(booted ? { holds: booted.holds, ends: ENDS, takes: booted.takes } : {}),
        };
        tell('tty-status', booted ? `${booted.title} is booted. ${booted.told}` : 'running');
        this.run = await this.page.programs.begin(words, how);
        if (booted) this.page.store.note('tty-boot', booted.title);
        else this.page.store.note('tty-going', true);
        this.#buttons();
    }

    // Takes the paper away; Undo brings it back.
    #tear() {
        const { store, undo } = this.page;
        this.paper.keep();
        undo.type('paper', 'tearing the paper off', store.notes.get('paper') ?? '', '');
        undo.endTyping();
        this.paper.tear();
    }

    #paces() { this.paper.pace = $('pace').value === 'real' ? 10 : null; }

    // The tapes that there are: that of the source, one of the host, and files of the volume.
    #list() {
        const { files, source, store } = this.page, chosen = $('tape').value || store.notes.get('tty-tape') || '';
        /** @type {HTMLElement[]} */
        const rows = [made('option', { value: '' }, 'choose a tape')];
        if (source?.tape) rows.push(made('option', { value: 'source' }, source.isOld ? 'the source\'s, old' : 'the source\'s'));
        if (this.own) rows.push(made('option', { value: 'own' }, this.own));
        const own = (files?.entries ?? []).map(it => it.name).sort();
        if (own.length) rows.push(made('optgroup', { label: titleOf(files.name) }, ...own.map(it => made('option', { value: `file ${it}` }, it))));
        $('tape').replaceChildren(...rows);
        $('tape').value = chosen;
        if ($('tape').selectedIndex < 0) $('tape').value = '';
    }

    /** @param {string} tape */
    choose(tape) {
        this.page.store.note('tty-tape', tape);
        this.#list();
        $('tape').value = tape;
    }

    // Takes a tape of the host.
    /** @param {string} name @param {Uint8Array} tape */
    async take(name, tape) {
        const { status, out } = await tapeOf(this.page, tape);
        this.page.store.put('.tape.bin', status === 0 ? out : tape);
        this.page.store.note('tty-own', { name, tape: status === 0 ? out : tape });
        this.own = name;
        this.choose('own');
        this.page.tabs.show('teletype');
    }

    /** @param {string[] | null} [instead] */
    #words(instead = null) {
        const tape = $('tape').value, words = ['teletype', '--live'];
        if (instead) words.push(...instead);
        else if (tape === 'source') words.push('.source.bin');
        else if (tape === 'own') words.push('.tape.bin');
        else words.push(...wordsOf(this.page.files.name), tape.slice(5));
        if ($('tty-start').value.trim()) words.push(`--start=${$('tty-start').value.trim()}`);
        if ($('tty-switches').value.trim()) words.push(`--switches=${$('tty-switches').value.trim()}`);
        return words;
    }

    // The words of a tape that is made of a file of the volume, where the Teletype's program doesn't take that by itself. The file is a RIM tape, a
    // core image with another name, or one that is found by its place.
    async #madeTape() {
        const { files, store } = this.page, entry = files.entries.find(it => `file ${it.name}` === $('tape').value);
        if (!entry || isNamedCore(entry)) return null;
        if (placeOf(entry).length === 1 && (await got(this.page, files.name, entry, '--tape')).status === 0) return null;
        const { status, out, start } = await tapeIn(this.page, files.name, entry);
        if (status !== 0) return null;
        store.put('.rim.bin', out);
        return ['.rim.bin', ...(start && !$('tty-start').value.trim() ? ['--start', start] : [])];
    }

    // Whether another program may run: where one does the user is asked, and it is stopped.
    async mayBegin() {
        if (!this.isBegun) return true;
        if (await ask('A program runs at the Teletype.', ['', 'Leave it'], ['stop', 'Stop it']) !== 'stop') return false;
        this.stop();
        if (this.run) await this.over;
        return !this.isBegun;
    }

    async begin() {
        if (!$('tape').value) return tell('tty-status', 'Which tape?', true);
        if (this.isBegun || this.owner?.follows) return;
        this.isBegun = true;
        this.#buttons();
        if ($('tape').value === 'source' && !await this.page.source.renew())
            return this.#ended(1, `The source has no tape: ${$('source-status').textContent}`);
        const words = this.#words(await this.#madeTape());
        if (!canLive) return this.#whole(words.filter(it => it !== '--live'));
        this.reads.begin(words);
        await this.#begin(words);
        $('paper').focus();
    }

    // Boots a disk, whose console is here. `words` are the program's, which gets capitals where they alone are wanted.
    /** @param {string[]} words @param {Booted} booted */
    async boot(words, booted) {
        this.isBegun = true;
        this.booted = booted;
        this.#buttons();
        await this.#begin([...words, ...($('capitals').checked ? ['--capitals'] : []), '--live', '--ends-with', ENDS]);
        $('paper').focus();
    }

    // Where nothing can wait, the keys are what the tape reader holds.
    /** @param {string[]} words */
    async #whole(words) {
        tell('tty-status', 'running');
        const { status, out, said } = await this.page.programs.ask(words, $('reader').value);
        this.paper.print(out);
        this.#ended(status, said);
    }

    /** @param {number | null} status @param {string} said */
    #ended(status, said) {
        const { booted, isEnding } = this;
        this.run = this.booted = null;
        this.isBegun = this.isEnding = false;
        this.page.store.note('tty-going', false);
        this.page.store.forget('tty-boot');
        this.reads.end();
        const isAsked = isEnding && /^LIMIT /m.test(said), words = booted ? `${isAsked ? 'It was stopped. ' : ''}${booted.ended()}\n` : '';
        tell('tty-status', words + (said || endOf(status)), status !== 0 && status !== null && !isAsked);
        this.#buttons();
        this.ends();
    }

    // Stops what runs. A disk that boots is saved by its program before, which it is not asked for a second time.
    stop() {
        if (!this.run) return;
        this.paper.drop();
        if (!this.booted || this.isEnding) return this.run.stop();
        this.isEnding = true;
        tell('tty-status', 'It is asked for its end.');
        this.run.finish();
    }

    #buttons() {
        $('tty-run').disabled = this.isBegun || this.owner?.follows !== false;
        $('tear').disabled = this.owner?.follows !== false;
        $('tty-stop').disabled = this.run === null;
        $('capitals').disabled = this.booted !== null;
    }

    // Strikes the keys of a text, in the order in which they were typed.
    /** @param {string} text */
    strike(text) {
        const keys = $('capitals').checked ? text.toUpperCase() : text;
        if (!this.run) tell('tty-status', 'Nothing runs here that takes keys. Run starts the tape.', true);
        const bytes = Uint8Array.from(keys.replaceAll('\r\n', '\n'), it => it.charCodeAt(0) & 0o377);
        if (!this.run) return;
        this.reads.strike(bytes);
        this.#keep();
        this.run.say(bytes);
    }

    /** @param {KeyboardEvent} event */
    #key(event) {
        const key = keyOf(event);
        if (key === null) return;
        event.preventDefault();
        this.strike(key);
    }

    /** @param {Event} event */
    #line(event) {
        event.preventDefault();
        this.strike(`${$('line').value}\r`);
        $('line').value = '';
    }

    async #copy() {
        const text = this.paper.text;
        try {
            await navigator.clipboard.writeText(text);
            tell('tty-status', `copied ${text.length} characters`);
        } catch {
            getSelection()?.selectAllChildren($('paper'));
            tell('tty-status', 'The paper is chosen: copy it.');
        }
    }
}
