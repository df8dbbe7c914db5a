// The volumes of the page's image files. A file is one volume, an RK05 disk of two, or a DECtape, as the program says. A volume that is all
// of its file has the file's name. Others have a word after it: `1` or `2` of a disk, `DECtape`.
import { textOf } from './program.js';

// `begun` is a disk whose end was never written; it has its first volume alone.
/** @typedef {'' | 'disk' | 'begun' | 'DECtape'} Kind */

const DISK_BLOCKS = 3248, TAPE_BLOCKS = 737, BLOCK = 512, TAPE = 380292;

// How many images were asked for; by it each has a name of its own for the program.
let last = 0;

/** @param {string} volume */
const partOf = volume => volume.split(' ')[1];

// The file that a volume is on.
/** @param {string} volume */
export const fileOf = volume => volume.split(' ')[0];

// The words by which the program takes a volume.
/** @param {string} volume */
export function wordsOf(volume) {
    const part = partOf(volume);
    return [fileOf(volume), ...(part === undefined ? [] : part === 'DECtape' ? ['--dectape'] : ['--volume', part])];
}

// The words by which `copy` takes the volume to which it copies.
/** @param {string} volume */
export function targetOf(volume) {
    const part = partOf(volume);
    return [fileOf(volume), ...(part === undefined ? [] : part === 'DECtape' ? ['--to-dectape'] : ['--to-volume', part])];
}

// The name that an image may have in the page, like the one that is wanted.
/** @param {string} wanted */
export const plainName = wanted => wanted.replace(/[/\\\s]/g, '_').replace(/^[.-]+/, '') || 'IMAGE';

// What a volume is called.
/** @param {string} volume */
export function titleOf(volume) {
    const part = partOf(volume);
    return part === undefined ? volume : part === 'DECtape' ? `${fileOf(volume)}, a DECtape` : `${fileOf(volume)}, volume ${part}`;
}

// How many blocks a volume has whose directory is refused, on a file of so many bytes.
/** @param {string} volume @param {number} bytes */
export function blocksOf(volume, bytes) {
    const part = partOf(volume);
    return part === 'DECtape' ? TAPE_BLOCKS : part === undefined ? Math.max(7, Math.floor(bytes / BLOCK)) : DISK_BLOCKS;
}

// The volumes of a file of this kind.
/** @param {string} file @param {Kind | undefined} kind */
export function volumesOf(file, kind) {
    return kind === 'disk' ? [`${file} 1`, `${file} 2`] : kind === 'begun' ? [`${file} 1`] : kind === 'DECtape' ? [`${file} DECtape`] : [file];
}

// Whether the program takes an image as a volume, if only as one with a damaged directory.
/** @param {Asked} it */
export const isVolume = ({ refusal }) => refusal === null || refusal.startsWith('? DIRECTORY');

/** @typedef {{ refusal: string | null, said: string }} Asked */

// What an image is, by what the program says of it, and the line by which that refuses it, if it does. One that is refused as it is may be an image with
// faults, which `--lenient` mends: then that is what it is.
/** @param {Page} page @param {Uint8Array} bytes @returns {Promise<Asked & { kind: Kind, isMended: boolean }>} */
export async function kindOf(page, bytes) {
    const plain = await judged(page, bytes, []);
    if (!plain.refusal?.startsWith('? IMAGE')) return { ...plain, isMended: false };
    const lenient = await judged(page, bytes, ['--lenient']);
    if (lenient.refusal === null) return { ...lenient, isMended: true };
    const tape = await judged(page, bytes, ['--lenient', '--dectape']);
    return tape.refusal === null ? { ...tape, kind: 'DECtape', isMended: true } : { ...plain, isMended: false };
}

// What an image is, asked for with these words. `index` reports a disk by its volumes, and `check` takes a DECtape by itself. An image of which they say
// nothing is asked for in each way that its length leaves.
/** @param {Page} page @param {Uint8Array} bytes @param {string[]} how @returns {Promise<Asked & { kind: Kind }>} */
async function judged({ programs, store }, bytes, how) {
    const name = `.kind-${++last}`, tape = [['check', name, ...how, '--dectape']];
    const disk = [['index', name, ...how.slice(0, 1)], ...['1', '2'].map(it => ['check', name, ...how, '--volume', it])];
    const kind = how.length > 1 ? '' : bytes.length === TAPE ? 'DECtape' : bytes.length > DISK_BLOCKS * BLOCK && bytes.length <= 2 * DISK_BLOCKS * BLOCK ? 'disk' : '';
    /** @param {Answer} answer @returns {Asked} */
    const asked = ({ status, out, said }) => ({ refusal: status === 0 ? null : textOf(out).trim(), said: said.replaceAll(name, 'the file') });
    store.put(name, bytes);
    try {
        const [whole, ...others] = await programs.looks(['check', name, ...how], ...(kind === 'disk' ? disk : kind === 'DECtape' ? tape : [])), plain = asked(whole);
        if (kind === '') {
            const begun = plain.refusal?.startsWith('? DIRECTORY 4') ? asked(await programs.ask(['check', name, ...how, '--volume', '1'])) : plain;
            return begun !== plain && begun.refusal === null ? { kind: 'begun', ...begun } : { kind, ...plain };
        }
        const index = kind === 'disk' ? others.shift() : undefined, isTold = index !== undefined && /^\.kind-\d+(?: |\t)[12](?:: |\t)/m.test(textOf(index.out) + index.said);
        const parts = others.map(asked), part = parts.find(it => it.refusal === null) ?? parts.find(isVolume);
        const isTape = kind === 'DECtape' && part?.refusal === null;
        return part && (isTold || isTape || !isVolume(plain)) ? { kind, ...part } : { kind: '', ...plain };
    } finally {
        store.remove(name);
    }
}
