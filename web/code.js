// The listing of the Machine: each cell is a button for a break, and the line of the next instruction is marked.
import { $, bringIntoView, made, tell } from './dom.js';

const LISTED = 6000;

export class Code {
    /** @type {Set<string>} */
    breaks = new Set();
    /** @type {Map<string, Element>} */
    cells = new Map();
    /** @type {Element | undefined} */
    marked = undefined;

    /** @param {Page} page @param {(...lines: string[]) => Promise<string[] | null>} ask */
    constructor(page, ask) {
        this.page = page;
        this.ask = ask;
    }

    // Shows a listing.
    /** @param {string} text */
    list(text) {
        this.cells.clear();
        const lines = text.split('\n'), shown = lines.slice(0, LISTED).map(it => this.#line(it));
        if (lines.length > LISTED) shown.push(made('span', { class: 'l none' }, `and ${lines.length - LISTED} further lines`));
        $('code').replaceChildren(...shown);
        this.page.store.note('listing', text);
    }

    // A line begins with its cell, or ends with it and its word in a comment, as `assemble --list` and `source` write them.
    /** @param {string} text */
    #line(text) {
        const cell = /^([0-7]{5})  [0-7]{4}/.exec(text)?.[1] ?? /\/([0-7]{5}) [0-7]{4}$/.exec(text)?.[1];
        if (!cell) return made('span', { class: 'l none' }, `${text}\n`);
        const button = made('button', { 'aria-describedby': 'code-help', 'aria-pressed': String(this.breaks.has(cell)), 'aria-label': `break at ${cell}: ${text.replace(/\s+/g, ' ')}`,
            onclick: () => this.#toggle(cell, button) }, text);
        const line = made('span', { class: 'l', 'data-cell': cell }, button, '\n');
        this.cells.set(cell, line);
        return line;
    }

    /** @param {string} cell @param {Element} button */
    async #toggle(cell, button) {
        const how = this.breaks.has(cell) ? 'OFF' : 'ON';
        const reply = (await this.ask(`BREAK ${cell} ${how}`))?.[0] ?? '';
        tell('machine-status', reply, reply.startsWith('?'));
        if (reply.startsWith('?')) return;
        how === 'ON' ? this.breaks.add(cell) : this.breaks.delete(cell);
        this.keep();
        button.setAttribute('aria-pressed', String(how === 'ON'));
    }

    keep() { this.page.store.note('breaks', [...this.breaks]); }

    // Marks the line of the next instruction, and brings it into view within the listing where it may move.
    /** @param {Registers | null} registers @param {boolean} isGoing */
    mark(registers, isGoing) {
        this.marked?.classList.remove('at');
        this.marked = registers ? this.cells.get(registers.if + registers.pc) : undefined;
        this.marked?.classList.add('at');
        if (!isGoing && this.marked) bringIntoView($('code'), this.marked);
    }
}
