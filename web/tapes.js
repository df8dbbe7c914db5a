// Tapes as the program takes them wherever one is wanted: a BIN tape, a RIM tape, or the core image of a file of a volume.
import { wordsOf } from './volumes.js';

/** @typedef {import('./files.js').Entry} Entry */
/** @typedef {Answer & { start?: string }} Tape */

// The BIN tape that frames are, or that `rim` makes of them; else the program's refusal.
/** @param {Page} page @param {Uint8Array} frames @returns {Promise<Answer>} */
export async function tapeOf({ programs }, frames) {
    const asked = await programs.ask(['tape'], frames);
    if (asked.status === 0) return { ...asked, out: frames };
    const rim = await programs.ask(['rim', '--bin'], frames);
    return rim.status === 0 ? rim : asked;
}

// Whether a file is a core image, by its name or by its words.
/** @param {Entry} it */
export const isCore = ({ name, isByBlocks, kind }) => !isByBlocks && (name.endsWith('.SV') || !!kind?.startsWith('core'));

// Whether the program takes a file as a core image by its name.
/** @param {Entry} it */
export const isNamedCore = it => it.name.endsWith('.SV') && !it.isByBlocks && placeOf(it).length === 1;

// The words by which the program finds a file of a volume. They are its name, its first block where the name has other characters, or its blocks where the
// directory is refused.
/** @param {Entry} it */
export function placeOf({ name, first, length, isByBlocks }) {
    if (isByBlocks) return ['--blocks', String(first), String(length)];
    return /^[A-Z0-9]{1,6}(\.[A-Z0-9]{1,2})?$/.test(name) ? [name] : ['--at', String(first)];
}

// What `get` gives of a file of a volume.
/** @param {Page} page @param {string} volume @param {Entry} entry @param {...string} form */
export function got({ programs }, volume, entry, ...form) { return programs.ask(['get', ...wordsOf(volume), ...placeOf(entry), ...form]); }

// The BIN tape of a file of a volume, as itself, of a RIM tape, or of a core image, and where that starts.
/** @param {Page} page @param {string} volume @param {Entry} entry @returns {Promise<Tape>} */
export async function tapeIn(page, volume, entry) {
    if (isCore(entry)) {
        const image = await got(page, volume, entry, '--bin');
        return { ...image, start: startOf(image) };
    }
    const asked = entry.isByBlocks ? null : await got(page, volume, entry, '--tape');
    if (asked?.status === 0) return asked;
    const frames = await got(page, volume, entry), tape = frames.status !== 0 ? frames : entry.kind?.startsWith('core') ? await coreOf(page, frames.out) : await tapeOf(page, frames.out);
    return tape.status === 0 || !asked ? tape : asked;
}

// The BIN tape of a core image that is frames: of a file of them, on a volume that is made for it alone.
/** @param {Page} page @param {Uint8Array} frames @returns {Promise<Tape>} */
async function coreOf({ programs, store }, frames) {
    const at = '.core-image';
    await programs.ask(['create', at, '4095']);
    await programs.ask(['put', at, '-', '--as', 'IMAGE.SV'], frames);
    const image = await programs.ask(['get', at, 'IMAGE.SV', '--bin']);
    store.remove(at);
    return { ...image, start: startOf(image) };
}

// Where a core image starts, as the program says.
/** @param {Answer} image */
function startOf({ said }) { return /^START ([0-7]{5})$/m.exec(said)?.[1]; }
