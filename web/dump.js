// The words of a block, as `dump` shows them, and one word in place of another, by `patch`.
import { $, made, rove, tell } from './dom.js';
import { textOf } from './program.js';
import { wordsOf } from './volumes.js';

export class Dump {
    /** @type {number | null} */
    block = null;
    volume = '';
    word = 0;
    old = '';

    /** @param {Page} page */
    constructor(page) {
        this.page = page;
        $('dump-form').addEventListener('submit', event => { event.preventDefault(); this.#asked($('block-number').value.trim()); });
        $('sixbit').addEventListener('change', () => this.again());
        $('patch').addEventListener('submit', event => { event.preventDefault(); this.#patch(); });
        rove($('dump'));
    }

    // Shows the block of a number that was typed.
    /** @param {string} text */
    async #asked(text) {
        if (!/^\d+$/.test(text)) return tell('dump-status', `A block has a number: ${text || 'nothing'} is none.`, true);
        await this.show(Number(text));
    }

    // Shows a block.
    /** @param {number} block */
    async show(block) {
        const { files, programs } = this.page;
        const words = ['dump', ...wordsOf(files.name), String(block), ...($('sixbit').checked ? ['--sixbit'] : [])];
        const { status, out, said } = await programs.ask(words);
        tell('dump-status', status === 0 ? '' : textOf(out) + said, status !== 0);
        if (status !== 0) return;
        if (this.block !== block) $('patch').hidden = true;
        [this.block, this.volume] = [block, files.name];
        $('block-number').value = String(block);
        $('dump-box').open = true;
        this.#lay(textOf(out));
    }

    // Shows the block anew that is shown, if one is; of another volume none is.
    async again() {
        if (this.volume === this.page.files.name && this.block !== null) return this.show(this.block);
        this.block = null;
        $('dump').replaceChildren();
        $('patch').hidden = true;
        tell('dump-status', '');
    }

    // Lays out the lines, of which each word is a button. A word with more than twelve bits is reported before them.
    /** @param {string} text */
    #lay(text) {
        const bad = new Map([...text.matchAll(/^BAD WORD (\d+) ([0-7]+)$/gm)].map(it => [Number(it[1]), it[2]]));
        const at = document.activeElement?.closest('#dump button')?.getAttribute('data-word');
        $('dump').replaceChildren(...text.trimEnd().split('\n').flatMap(line => {
            const [, head, first, words, rest] = /^(\s*(\d+): )((?:[0-7]{4} ?){8})(.*)$/.exec(line) ?? [];
            if (head === undefined) return [`${line}\n`];
            return [head, ...words.trim().split(' ').flatMap((word, k) => [this.#button(Number(first) + k, word, bad.get(Number(first) + k)), ' ']), ` ${rest.trimStart()}\n`];
        }));
        if (at) /** @type {HTMLElement | null} */ ($('dump').querySelector(`[data-word="${at}"]`))?.focus();
    }

    /** @param {number} word @param {string} value @param {string} [bad] */
    #button(word, value, bad) {
        return made('button', { 'data-word': word, class: bad ? 'bad' : null, 'aria-label': `word ${word}: ${bad ?? value}`, onclick: () => this.#choose(word, bad ?? value) }, value);
    }

    // Asks for what is to stand in place of a word.
    /** @param {number} word @param {string} old */
    #choose(word, old) {
        [this.word, this.old] = [word, old];
        $('patch').hidden = this.page.files.follows !== null;
        $('patch-words').textContent = `Word ${word} of block ${this.block} is ${old}; in its place`;
        $('patch-new').value = '';
        $('patch-new').focus();
    }

    async #patch() {
        const { files, undo, programs } = this.page, { block, word, old } = this;
        const words = ['patch', ...wordsOf(files.name), String(block), String(word), old, $('patch-new').value.trim()];
        const { status, out, said } = await undo.group(files.file, `the patch of block ${block}`, () => programs.ask(words));
        if (status === 0) $('patch').hidden = true;
        tell('dump-status', textOf(out) + said, status !== 0);
    }
}
