// What can be laid over the core of the Machine pane: the tape of the source, and the programs of the open volume.
import { $, made, tell } from './dom.js';
import { textOf } from './program.js';
import { tapeIn } from './tapes.js';

// Lists what there is.
/** @param {Page} page */
export function listTapes({ files, source }) {
    const own = (files?.entries ?? []).map(it => it.name).sort();
    $('core-tape').replaceChildren(made('option', { value: '' }, 'choose a tape'), ...(source?.tape ? [made('option', { value: 'source' }, source.isOld ? 'the source\'s, old' : 'the source\'s')] : []),
        ...own.map(it => made('option', { value: `file ${it}` }, it)));
}

// Lays what was chosen in the list over core.
/** @param {Page} page @param {HTMLSelectElement} select */
export async function loadChosen(page, select) {
    const { files, machine, source } = page, name = select.value;
    select.value = '';
    if (name === '') return;
    if (name === 'source') {
        if (!await source.renew()) return tell('machine-status', `The source has no tape: ${$('source-status').textContent}`, true);
        if (source.tape && await machine.load(source.tape, 'the source\'s tape')) machine.list($('listing').textContent, $('symbols').textContent);
        return;
    }
    const entry = files.entries.find(it => it.name === name.slice(5));
    if (entry) await loadFile(page, entry);
}

// Lays a file's program over core, and shows its source.
/** @param {Page} page @param {import('./files.js').Entry} entry */
export async function loadFile(page, entry) {
    const { files, machine } = page, tape = await tapeIn(page, files.name, entry);
    if (tape.status !== 0) return tell('machine-status', `${entry.name}: ${tape.said}`, true);
    if (!await machine.load(tape.out, entry.name, tape.start)) return;
    const text = await files.shown.source(entry, tape);
    machine.list(textOf(text.out).replaceAll('\r', ''), files.shown.symbolsOf(entry));
}
