// What `index` prints: date and kind of a volume's files, and the files of all volumes that have a name or hold a text.
import { $, made, tell } from './dom.js';
import { textOf } from './program.js';
import { fileOf, titleOf, wordsOf } from './volumes.js';

/** @typedef {{ volume: string, first: number, length: number, name: string, date: string, kind: string }} Row */

// The image of a line of `index`, in which a byte that is no graphic character is a backslash and three octal digits.
/** @param {string} text */
function imageOf(text) {
    const bytes = [...text.matchAll(/\\([0-7]{3})|[^]/g)].map(([all, digits]) => digits === undefined ? all.charCodeAt(0) : Number.parseInt(digits, 8));
    return new TextDecoder().decode(Uint8Array.from(bytes));
}

// The lines of `index`; of each file of the page it is given what volume of it is meant.
/** @param {Page} page @param {string} text @returns {Row[]} */
function rowsOf({ files }, text) {
    return text.split('\n').filter(it => it !== '').map(it => it.split('\t')).map(([image, part, first, length, name, date, kind]) => {
        const file = imageOf(image), volume = files.volumes.find(it => it === (part === '-' ? file : `${file} ${part}`)) ?? files.volumes.find(it => fileOf(it) === file);
        return { volume: volume ?? file, first: Number(first), length: Number(length), name, date: date === '-' ? '' : date, kind };
    });
}

// Date and kind of each file of a volume, by its first block.
/** @param {Page} page @param {string} volume @returns {Promise<Map<number, [string, string]>>} */
export async function indexed(page, volume) {
    const { out } = await page.programs.ask(['index', ...wordsOf(volume)]);
    return new Map(rowsOf(page, textOf(out)).map(({ first, date, kind }) => [first, [date, kind]]));
}

export class Search {
    /** @param {Page} page */
    constructor(page) {
        this.page = page;
        $('search-form').addEventListener('submit', event => { event.preventDefault(); this.go(); });
    }

    // Shows the files of all volumes whose names are like the pattern, and that hold the text.
    async go() {
        const { page, page: { files, programs } } = this, name = $('search-name').value.trim(), text = $('search-text').value;
        if (!files.images.length) return tell('search-status', 'There is no volume in the page.', true);
        const words = [...(name ? [`--find=${name}`] : []), ...(text ? [`--grep=${text}`] : []), ...($('search-same').checked ? ['--same'] : [])];
        const { status, out, said } = await programs.ask(['index', ...words, '--', ...files.images]), rows = rowsOf(page, textOf(out));
        $('search-found').tBodies[0].replaceChildren(...rows.map(it => this.#row(it)));
        $('search-found').hidden = !rows.length;
        tell('search-status', `${status === 2 ? '' : `${rows.length} ${rows.length === 1 ? 'file' : 'files'} in ${files.volumes.length} volumes\n`}${said}`, status !== 0);
    }

    /** @param {Row} it */
    #row({ volume, first, length, name, date, kind }) {
        const open = made('button', { onclick: () => this.#open(volume, first), 'aria-label': `${name} of ${titleOf(volume)}` }, name);
        return made('tr', {}, made('td', {}, open), made('td', {}, titleOf(volume)), made('td', { class: 'n' }, String(length)), made('td', {}, date), made('td', {}, kind));
    }

    // Opens the volume, and shows the file.
    /** @param {string} volume @param {number} first */
    async #open(volume, first) {
        const { files } = this.page;
        if (files.name !== volume) await files.open(volume);
        const entry = files.entries.find(it => it.first === first);
        if (!entry) return;
        await files.shown.best(entry);
        $('shown-name').scrollIntoView({ block: 'nearest' });
    }
}
