// The Script pane: `run` over the volume that is open, a whole script at once, or a session whose lines are given one by one.
import { ask } from './ask.js';
import { $, follow, ids, keepInput, tell } from './dom.js';
import { bytesOf, canLive, textOf } from './program.js';
import { Owner } from './owner.js';
import { titleOf, wordsOf } from './volumes.js';
import { endOf } from './words.js';

const FIRST = 'STORE HELLO.PA 4\n*200\n\tCLA IAC\n\tHLT\n$\nASSEMBLE HELLO.BN<HELLO.PA\nFINISH\nLOAD HELLO.BN\nFINISH\nRUN 00200 10\nREGISTERS\nDIRECT\n';
// How many characters of the replies are kept over a reload.
const MOST = 500000;

export class Script {
    /** @param {Page} page */
    constructor(page) {
        this.page = page;
        /** @type {import('./program.js').Run | null} */
        this.run = null;
        this.isBegun = false;
        this.volume = '';
        // the words of what runs, and what was last said of how it ended
        /** @type {string[] | null} */
        this.ran = null;
        /** @type {{ words: string, isBad: boolean } | null} */
        this.told = null;
        /** @type {Uint8Array[] | null} */
        this.shown = null;
        this.#restore();
        page.store.addEventListener('leave', () => this.#keep());
        $('lines').value = FIRST;
        if (!page.store.notes.has('lines')) page.store.notes.set('lines', FIRST);
        $('lines').addEventListener('input', () => page.undo.type('lines', 'typing in the script', page.store.notes.get('lines'), $('lines').value));
        for (const id of ids('lines', 'script-saving', 'strict')) keepInput(page.store, id);
        this.owner = new Owner(page, 'script', $('script-follows'), follows => {
            $('lines').readOnly = follows;
            for (const id of ids('script-saving', 'strict')) $(id).disabled = follows;
        });
        $('script-run').addEventListener('click', () => this.whole());
        $('script-stop').addEventListener('click', () => this.run?.stop());
        $('session').addEventListener('click', () => this.#session());
        $('entry').addEventListener('submit', event => this.#enter(event));
    }

    // Shows the replies as they were when the page was left, which ended what ran then.
    #restore() {
        const { replies = '', ran = null, told = null } = this.page.store.notes.get('replies') ?? {};
        $('replies').textContent = replies;
        if (ran) this.#tell(`It ended as the page was left. ${ran.includes('--keep') ? 'The volume has what was stored.' : 'The volume is as it was before.'}`, true);
        else if (told) this.#tell(told.words, told.isBad);
    }

    // Has the page keep the replies, and what runs.
    #keep() {
        const text = $('replies').textContent, replies = text.length > MOST ? text.slice(text.indexOf('\n', text.length - MOST) + 1) : text;
        if (text || this.ran || this.page.store.notes.has('replies')) this.page.store.note('replies', { replies, ran: this.ran, told: this.told });
    }

    // Says how it ended, which is kept with the replies.
    /** @param {string} words @param {boolean} isBad */
    #tell(words, isBad) {
        this.told = { words, isBad };
        tell('script-status', words, isBad);
    }

    #words() {
        const { files } = this.page, words = ['run', ...wordsOf(files.name)];
        if ($('script-saving').value) words.push($('script-saving').value);
        if ($('strict').checked) words.push('--strict');
        return files.name === '' ? tell('script-status', 'No volume is open: open one, or make a new one, in the pane Files.', true) : words;
    }

    // What the page's own example would write over on the volume, in words; null for nothing.
    get #doubt() {
        const { files } = this.page, there = ['HELLO.PA', 'HELLO.BN'].filter(name => files.entries.some(it => it.name === name));
        if ($('lines').value !== FIRST || $('script-saving').value === '--look' || !there.length) return null;
        return `The example writes over ${there.join(' and ')} of ${titleOf(files.name)}.`;
    }

    // Runs the whole script; its replies are shown as they come.
    async whole() {
        const words = this.#words(), doubt = this.#doubt;
        if (!words || this.isBegun) return;
        if (doubt && (await ask(doubt, ['', 'Leave it'], ['run', 'Run it']) !== 'run' || this.isBegun)) return;
        if (canLive) {
            await this.#begin(words);
            this.run?.say(bytesOf($('lines').value));
            this.run?.end();
            return;
        }
        this.isBegun = true;
        this.#buttons(false);
        $('replies').textContent = '';
        const { status, out, said } = await this.page.undo.group(words[1], 'the script', () => this.page.programs.ask(words, $('lines').value));
        follow($('replies'), textOf(out));
        this.#ended(status, said);
    }

    /** @param {string[]} words @param {boolean} [terminal] */
    async #begin(words, terminal = false) {
        this.isBegun = true;
        this.ran = words;
        this.#buttons(false);
        $('replies').textContent = '';
        tell('script-status', 'running');
        this.#keep();
        let said = '';
        this.page.undo.begin(words[1], terminal ? 'the session' : 'the script');
        this.volume = words[1];
        this.run = await this.page.programs.begin(words, {
            terminal, room: 1 << 16,
            heard: bytes => this.#show(bytes),
            said: bytes => terminal ? follow($('replies'), textOf(bytes)) : said += textOf(bytes),
            ended: status => this.#ended(status, said),
        });
        this.#buttons(terminal);
    }

    // Replies are shown a picture at a time, and the run waits where it is far ahead.
    /** @param {Uint8Array} bytes */
    #show(bytes) {
        if (!this.shown) requestAnimationFrame(() => this.#flush());
        this.shown ??= [];
        this.shown.push(bytes);
    }

    #flush() {
        const parts = this.shown ?? [], it = $('replies');
        this.shown = null;
        follow(it, parts.map(textOf).join(''));
        while (it.childNodes.length > 300) it.childNodes[0].remove();
        this.run?.show(parts.reduce((sum, part) => sum + part.length, 0));
    }

    /** @param {number | null} status @param {string} said */
    #ended(status, said) {
        this.#flush();
        this.run = this.ran = null;
        this.isBegun = false;
        this.page.undo.end(this.volume);
        this.#tell(said + endOf(status), status !== 0);
        this.#keep();
        this.#buttons(false);
    }

    /** @param {boolean} isSession */
    #buttons(isSession) {
        $('script-run').disabled = this.isBegun;
        $('script-stop').disabled = this.run === null;
        $('session').textContent = isSession ? 'End the session' : 'Begin a session';
        for (const id of ids('entry-line', 'entry-say')) $(id).disabled = !isSession;
        if (isSession) $('entry-line').focus();
    }

    async #session() {
        if (this.run) return this.run.end();
        const words = this.#words();
        if (!words || this.isBegun) return;
        if (!$('script-saving').value) words.push('--keep');
        await this.#begin(words, true);
    }

    /** @param {Event} event */
    #enter(event) {
        event.preventDefault();
        const line = $('entry-line').value;
        follow($('replies'), `> ${line}\n`);
        this.run?.say(bytesOf(`${line}\n`));
        $('entry-line').value = '';
    }
}
