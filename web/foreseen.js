// What START would do with the machine's core, switches and keys that are given: `trace` and `profile` over a tape of the words of core. The machine stays
// as it is.
import { $, ids, keepInput, made, octal, tell } from './dom.js';
import { textOf } from './program.js';
import { doingOf, sourceOf } from './replay.js';

const PATHS = ['.core.pa', '.core.bin'];

export class Foreseen {
    /** @param {Page} page @param {import('./machine.js').Machine} machine */
    constructor(page, machine) {
        this.page = page;
        this.machine = machine;
        for (const id of ids('core-keys', 'core-steps')) keepInput(page.store, id);
        for (const word of /** @type {const} */ (['trace', 'profile'])) $(`core-${word}`).addEventListener('click', () => this.show(word));
    }

    // Shows what the program prints of a run from the address that START takes.
    /** @param {'trace' | 'profile'} word */
    async show(word) {
        const { programs, store } = this.page, { panel, living, watch, owner } = this.machine, core = owner.follows ? null : await living.core(), [text, tape] = PATHS;
        if (!core) return;
        if (core.every(it => it === 0)) return tell('machine-status', 'Nothing is in core: load a tape, or deposit a program.', true);
        store.put(text, new TextEncoder().encode(sourceOf(core)));
        const made = await programs.ask(['assemble', text, '--output', tape]);
        const { status, out, said } = made.status !== 0 ? made : await programs.ask([word, tape, '--start', octal(panel.address, 5), ...doingOf('core', octal(panel.switches, 4))]);
        for (const it of PATHS) store.remove(it);
        if (status !== 0) return tell('machine-status', textOf(out) + said, true);
        const names = new Map([...watch.names].map(([name, cell]) => [cell, name]));
        $('core-does').replaceChildren(...rowsOf(textOf(out), names));
    }
}

// The lines of a trace or a profile, each with the name of its cell.
/** @param {string} text @param {Map<string, string>} names */
function rowsOf(text, names) {
    return (text.match(/[^\n]*\n|[^\n]+$/g) ?? []).map(it => made('span', { class: 'l', 'data-own': names.get(it.slice(0, 5)) ?? null }, it));
}
