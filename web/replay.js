// A step of a trace, run again, and registers that are set: lines of a script by which a machine does that. As `trace` has it, the printer ends its
// character before the next step. A key is struck where the program asks for one: before a KSF, where none is unread.
import { $, octal } from './dom.js';
import { textOf } from './program.js';

const STEP = /^([0-7]{5}) ([0-7]{4})\t[^\t]*\tAC ([0-7]{4}) L ([01])((?:\t[^\t]*)*)$/;
const PATTERN = /^[0-7]{5} [0-7]{4}$/;

/** @typedef {{ cell: string, word: string, ac: string, l: string, cells: string[], prints: boolean }} Traced */

// What a line of a trace says of its step, null for an interrupt.
/** @param {string} line @returns {Traced | null} */
export function stepOf(line) {
    const [, cell, word, ac, l, rest] = STEP.exec(line) ?? [];
    if (cell === undefined) return null;
    const parts = rest.split('\t').slice(1), cells = parts.filter(it => PATTERN.test(it)).map(it => it.slice(0, 5));
    return { cell, word, ac, l, cells, prints: parts.length > cells.length };
}

// The lines GO, DONE and KEY that make these steps.
/** @param {string[]} lines @param {string} keys */
export function linesOf(lines, keys) {
    const given = [], waiting = [...keys.replaceAll(/\r\n?/g, '\n')];
    let due = 0, isStruck = false;
    const go = () => { if (due) given.push(`GO ${due}`); due = 0; };
    for (const line of lines) {
        const step = stepOf(line), word = step?.word ?? '';
        if (/^603[1357]$/.test(word) && !isStruck && waiting.length) {
            go();
            const key = waiting.shift() ?? '';
            given.push(`KEY ${((key === '\n' ? 0o15 : key.charCodeAt(0) & 0o177) | 0o200).toString(8)}`);
            isStruck = true;
        }
        if (/^603[2367]$/.test(word)) isStruck = false;
        due++;
        if (!step?.prints) continue;
        go();
        given.push('DONE');
    }
    go();
    return given;
}

// A source of the words of core, for a tape of them: those that are not zero.
/** @param {ArrayLike<number>} core */
export function sourceOf(core) {
    let text = '', last = -2;
    for (let cell = 0; cell < core.length; cell++) {
        if (core[cell] === 0) continue;
        if (cell >> 12 !== last >> 12) text += `FIELD ${cell >> 12}\n`;
        if (cell !== last + 1 || (cell & 0o7777) === 0) text += `*${octal(cell & 0o7777, 4)}\n`;
        text += `${octal(core[cell], 4)}\n`;
        last = cell;
    }
    return `${text}$\n`;
}

// The lines that lay the words of a tape over core.
/** @param {Page} page @param {Uint8Array} tape */
export async function depositsOf(page, tape) {
    const { out } = await page.programs.ask(['tape'], tape);
    return textOf(out).trim().split('\n').filter(it => it).map(it => it.split(' ')).map(([field, address, word]) => `DEPOSIT ${field}${address} ${word}`);
}

// The lines that give a new machine these registers: its own instructions do, in nine cells at the end of the field, whose words it gets back. A flag of
// the printer is set by a character 000.
/** @param {Registers | null | undefined} registers @param {(cell: number) => number} wordAt */
export function settingOf(registers, wordAt) {
    if (!registers?.pc) return [];
    const field = Number(registers.if), at = (/** @type {number} */ address) => octal(field * 0o10000 + address, 5), free = 0o7767, { busy, printer, kbd } = registers;
    const words = [busy || printer ? '6046' : '7000', registers.l === '1' ? '7020' : '7000', '1375', `62${registers.df}1`, registers.ion ? '6001' : '7000', '5776', registers.ac, registers.pc];
    const laid = words.map((word, k) => `DEPOSIT ${at(free + k)} ${word}`);
    const back = words.map((_, k) => `DEPOSIT ${at(free + k)} ${octal(wordAt(field * 0o10000 + free + k), 4)}`);
    return [...laid, `START ${at(free)}`, 'STEP 6', ...back, ...(printer ? ['DONE'] : []), ...(kbd ? [`KEY ${registers.key}`] : [])];
}

// The words that give a trace or a profile the switches, steps and keys that were typed for it. Switches may stand for those that weren't typed.
/** @param {'shown' | 'doing' | 'core'} where @param {string} [switches] */
export function doingOf(where, switches = '') {
    const set = where === 'core' ? switches : $(`${where}-switches`).value.trim() || switches, steps = $(`${where}-steps`).value.trim(), keys = $(`${where}-keys`).value.replaceAll('\\r', '\r');
    return [...(set ? [`--switches=${set}`] : []), ...(steps ? [`--steps=${steps}`] : []), ...(keys ? [`--keys=${keys}`] : [])];
}
