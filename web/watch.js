// The words of the cells that are watched, each given by its name or its address.
import { $, made } from './dom.js';

// How long what is watched stays as it is shown while the machine goes, in milliseconds.
const LONG = 100;

export class Watch {
    at = 0;
    /** @type {Map<string, string>} */
    names = new Map();

    /** @param {(...lines: string[]) => Promise<string[] | null>} ask */
    constructor(ask) {
        this.ask = ask;
        $('watch').addEventListener('change', () => this.show());
    }

    // Takes the names of cells, with their values, as a listing has its symbols.
    /** @param {string} symbols */
    name(symbols) {
        this.names = new Map([...symbols.matchAll(/^([A-Z][A-Z0-9]*) +([0-7]{4,5})\b/gm)].map(it => [it[1], it[2].padStart(5, '0')]));
    }

    // Shows the words anew, if that is due.
    /** @param {number} now */
    async showAt(now) { if (now - this.at > LONG) await this.show(); }

    async show() {
        const asked = $('watch').value.toUpperCase().match(/[A-Z0-9]+/g) ?? [];
        this.at = performance.now();
        if (!asked.length) return $('watched').replaceChildren();
        const cells = asked.map(it => ({ it, cell: this.names.get(it) ?? (/^[0-7]{1,5}$/.test(it) ? it.padStart(5, '0') : null) }));
        const replies = await this.ask(...cells.map(({ cell }) => cell ? `EXAMINE ${cell}` : 'REGISTERS'), 'REGISTERS');
        if (!replies) return;
        $('watched').replaceChildren(...cells.map(({ it, cell }, k) => made('div', {}, made('dt', {}, it), made('dd', {}, cell ? replies[k].slice(6) : 'no such name'))));
    }
}
