// What MA and MB hold after a stop, by the program's answers: the cell that the last step read or wrote last, and the word there (Small Computer
// Handbook). A step is looked at from the registers and words before it; after a break it is made once more, in a run of its own.
import { octal } from './dom.js';
import { Lines } from './program.js';

/** @typedef {{ address: number, word: number | null }} Access */
/** @typedef {{ registers: Registers, cell: number, word: number, pointer: number | null }} Before */
/** @typedef {(...lines: string[]) => Promise<string[] | null>} Ask */

/** @param {string} reply */
const registersOf = reply => /** @type {Registers} */ (JSON.parse(reply));
/** @param {string} reply */
const wordIn = reply => Number.parseInt(reply.slice(6), 8);
/** @param {number} cell */
const examine = cell => `EXAMINE ${octal(cell, 5)}`;
/** @param {number} field @param {number} address */
const at = (field, address) => field * 0o10000 + (address & 0o7777);

// The cell that a memory reference names.
/** @param {number} cell @param {number} word */
const named = (cell, word) => at(cell >> 12, (word & 0o200 ? cell & 0o7600 : 0) + (word & 0o177));

// The state before a step, as far as the step is about to use it.
/** @param {Ask} ask @returns {Promise<Before | null>} */
export async function before(ask) {
    const [told] = await ask('REGISTERS') ?? [];
    if (!told) return null;
    const registers = registersOf(told), cell = Number.parseInt(registers.if + registers.pc, 8);
    const [reply] = await ask(examine(cell)) ?? [''], word = wordIn(reply), isIndirect = word < 0o6000 && (word & 0o400) !== 0;
    const [pointer] = isIndirect ? await ask(examine(named(cell, word))) ?? [''] : [null];
    return { registers, cell, word, pointer: pointer === null ? null : wordIn(pointer) };
}

// What a step used last, by the state before it, and by what the machine holds after it.
/** @param {Ask} ask @param {Before | null} state @returns {Promise<Access | null>} */
export async function after(ask, state) {
    const [told, zero] = state ? await ask('REGISTERS', examine(0)) ?? [] : [];
    if (!state || !told) return null;
    const now = registersOf(told), was = state.registers, isInterrupt = was.ion && !now.ion && now.if === '0' && now.pc === '0001' && zero.slice(6) === was.pc;
    const address = isInterrupt ? 0 : lastOf(state, Number(now.if)), [reply] = await ask(examine(address)) ?? [''];
    return { address, word: wordIn(reply) };
}

// The cell that an instruction uses last. JMS goes to the field in which the machine is then.
/** @param {Before} state @param {number} field */
function lastOf({ registers, cell, word, pointer }, field) {
    const code = word >> 9, own = named(cell, word), isOn = pointer !== null && (own & 0o7770) === 0o10;
    if (code > 5 || (code === 5 && pointer === null)) return cell;
    if (code === 5) return own;
    if (pointer === null) return code === 4 ? at(field, own) : own;
    return at(code === 4 ? field : Number(registers.df), pointer + Number(isOn));
}

// What a HLT left there, null where it isn't known which of two cells had it: the one before the next instruction, or one more before, where it
// skipped.
/** @param {Ask} ask @param {number} next @returns {Promise<Access | null>} */
async function halted(ask, next) {
    const cells = [1, 2].map(by => at(next >> 12, next - by)), [told, ...replies] = await ask('REGISTERS', ...cells.map(examine)) ?? [];
    if (!told) return null;
    const { ac, l } = registersOf(told), found = cells.map((address, k) => ({ address, word: wordIn(replies[k]), skips: k === 1 }))
        .filter(({ word, skips }) => (word & 0o7403) === 0o7402 && (word & 0o204 || skipsAt(word, Number.parseInt(ac, 8), l === '1') === skips));
    return found.length === 1 ? { address: found[0].address, word: found[0].word } : null;
}

// Whether an operate instruction of group 2 that leaves AC as it is skips.
/** @param {number} word @param {number} ac @param {boolean} link */
function skipsAt(word, ac, link) {
    const isMet = ((word & 0o100) !== 0 && ac >= 0o4000) || ((word & 0o40) !== 0 && ac === 0) || ((word & 0o20) !== 0 && link);
    return isMet !== ((word & 0o10) !== 0);
}

// What a machine's lamps MA and MB show. After a break it is found out by another machine, which the journal's lines bring there.
export class Accesses {
    /** @type {Access | null} */
    last = null;
    #turn = 0;

    // Takes what is shown, null where it isn't known.
    /** @param {Access | null} access */
    set(access) {
        this.#turn++;
        this.last = access;
    }

    // Finds out what the last step used, by the reply to the line that ended with it. After a break the machine is run once more, up to there.
    /** @param {Page['programs']} programs @param {string} image @param {Ask} ask @param {string} reply @param {import('./journal.js').Journal} journal */
    async find(programs, image, ask, reply, journal) {
        const [, steps, why, cell] = reply.split(' '), next = Number.parseInt(cell, 8);
        if (steps === '0') return;
        this.set(null);
        const turn = this.#turn, [told] = why === 'UNASSIGNED' ? await ask(examine(next)) ?? [] : [], again = () => lastStep(programs, image, journal.beforeLast);
        const found = told ? { address: next, word: wordIn(told) } : why === 'HALT' ? await halted(ask, next) ?? await again()
            : why === 'BREAK' ? await again() : null;
        if (turn === this.#turn) this.last = found;
    }
}

// What the last step used, by another machine that makes it once more after these lines.
/** @param {Page['programs']} programs @param {string} image @param {string[] | null} given @returns {Promise<Access | null>} */
async function lastStep(programs, image, given) {
    if (!given) return null;
    const lines = await Lines.begin(programs, ['run', '--look', image]);
    /** @type {Ask} */
    const ask = (...them) => lines.ask(...them);
    if (given.length) await ask(...given);
    const state = await before(ask);
    await ask('STEP 1');
    const found = await after(ask, state);
    lines.stop();
    return found;
}
