// The lines that bring a new machine to where the page's machine is: those that it was given, and lines for the steps that it made. The page keeps
// them. So no key of the panel and no step is lost at a reload, whatever the machine was at.
import { octal } from './dom.js';
import { settingOf } from './replay.js';

const LOOKS = /^(EXAMINE|REGISTERS|PRINTED|BREAK)/, ROW = 1000000;
// The cells of the largest core.
export const CORE = 0o100000;

export class Journal {
    /** @type {string[]} */
    #lines;
    // Those of the lines that lay out the machine as it was at first, how many steps were made since, and how many of these end the lines.
    #first = 0;
    #steps = 0;
    #due = 0;
    // Lines that have no reply yet: now, and when the page was left.
    /** @type {string[][]} */
    #asked = [];
    /** @type {string[]} */
    left;

    // A journal as the page kept it.
    /** @param {string} [text] */
    constructor(text = '') {
        const [lines, left] = text.split('\n\n').map(it => it.split('\n').filter(line => line !== ''));
        this.#lines = lines;
        this.left = left ?? [];
    }

    // What the page keeps: the lines, and after an empty line those without a reply.
    get text() { return `${this.lines.join('\n')}\n\n${[...this.left, ...this.#asked.flat()].join('\n')}`; }

    get lines() { return [...this.#lines, ...goes(this.#due)]; }

    // The lines without the last step, null where they don't end with one.
    get beforeLast() { return this.#due ? [...this.#lines, ...goes(this.#due - 1)] : null; }

    // Begins anew: a machine got these lines, which are its whole past. Where its run ended before it replied all stays as it was.
    /** @param {string[]} given @param {string[] | null} replies */
    begin(given, replies) {
        if (!replies) return;
        [this.#lines, this.left, this.#due] = [[], [], 0];
        this.#see(given, replies);
        [this.#steps, this.#first] = [0, this.#lines.length];
    }

    // Takes in place of its past the lines that lay out the machine as it is.
    /** @param {string[]} lines */
    shorten(lines) { [this.#lines, this.#first, this.#steps, this.#due] = [lines, lines.length, 0, 0]; }

    // Takes lines that the machine is about to get. Whether one of them changes it.
    /** @param {string[]} lines */
    ask(lines) {
        const own = lines.filter(it => !LOOKS.test(it));
        this.#asked.push(own);
        return own.length > 0;
    }

    // Takes the replies to the lines that wait for one longest.
    /** @param {string[]} lines @param {string[] | null} replies */
    answer(lines, replies) {
        this.#asked.shift();
        this.#see(lines, replies);
    }

    /** @param {string[]} lines @param {string[] | null} replies */
    #see(lines, replies) {
        for (const [k, line] of (replies ? lines : []).entries()) {
            if (LOOKS.test(line)) continue;
            const isStep = /^(GO|STEP) /.test(line), made = isStep ? Number(/^STEPS (\d+)/.exec(replies?.[k] ?? '')?.[1] ?? 0) : 0;
            this.#steps += made;
            if (!isStep) this.#lines.push(...goes(this.#due), line);
            this.#due = isStep ? this.#due + made : 0;
        }
    }

    // Whether more steps were made, or more lines given, than so many.
    /** @param {number} steps @param {number} lines */
    isLonger(steps, lines) { return this.#steps > steps || this.#lines.length - this.#first > lines; }
}

// The lines that lay out a machine that has these registers, and these words in core.
/** @param {ArrayLike<number>} core @param {Registers | null | undefined} registers */
export function linesOf(core, registers) {
    const laid = Array.from(core, (word, cell) => word ? `DEPOSIT ${octal(cell, 5)} ${octal(word, 4)}` : '').filter(it => it !== '');
    return [...laid, ...settingOf(registers, cell => core[cell] ?? 0)];
}

// Whether `linesOf` brings back all that the registers say: a machine that was halted, or is between two fields, it doesn't.
/** @param {Registers} it */
export function isPlain(it) { return it.run && !it.held && !it.wait && it.ib === it.if && /^0+$/.test(it.sf); }

// The lines that make so many steps.
/** @param {number} steps */
function goes(steps) {
    const all = Array(Math.floor(steps / ROW)).fill(`GO ${ROW}`);
    return steps % ROW ? [...all, `GO ${steps % ROW}`] : all;
}
