// What a damaged volume still holds: what `rescue` would bring to a new volume, and all that `scan` finds in its blocks.
import { $, made, takeHome, tell } from './dom.js';
import { loadFile } from './loads.js';
import { textOf } from './program.js';
import { fileOf, wordsOf } from './volumes.js';

/** @typedef {{ kind: string, first: number, length: number, words: string }} Found */

// What the lines of `scan` are of, and how the names end under which their pieces are saved.
/** @type {Record<string, string>} */
const WHAT = { TEXT: 'a text', BIN: 'a program, as a BIN tape', RIM: 'a program, as a RIM tape', CORE: 'a program, as a core image', DIR: 'a part of another directory' };
/** @type {Record<string, string>} */
const ENDS = { text: 'TX', BIN: 'BN', RIM: 'RM', core: 'SV' };

export class Salvage {
    /** @type {Uint8Array | null} */
    image = null;
    turn = 0;

    /** @param {Page} page */
    constructor(page) {
        this.page = page;
        $('rescue').addEventListener('click', () => this.#open());
        $('scan').addEventListener('click', () => this.#scan());
    }

    // A sound volume has nothing to be rescued.
    hide() {
        this.turn++;
        this.image = null;
        $('damage').hidden = true;
        $('texts-found').hidden = true;
    }

    // Shows what the volume that is open still holds: the lines of `rescue`, and what stands in its blocks.
    async show() {
        const { files, programs, store } = this.page, turn = ++this.turn, to = `.rescued-${turn}`;
        $('damage').hidden = false;
        const [file, ...how] = wordsOf(files.name), { out, said } = await programs.ask(['rescue', file, to, ...how]);
        const image = store.files.get(to) ?? null, told = textOf(out);
        store.remove(to);
        if (turn !== this.turn) return;
        this.image = image;
        $('rescued').textContent = told + said;
        $('rescue').disabled = this.image === null;
        for (const [, left, first, length] of told.matchAll(/^LEFT FILE (.*) (\d+) (\d+)$/gm))
            files.blocks.mark(Number(first), Number(length), 'fault', `${left}, which a rescue leaves out`);
        files.blocks.draw();
        await this.#scan();
    }

    // Lists all that `scan` finds in the volume's blocks, and marks it in the picture where no file has it.
    async #scan() {
        const { turn, page: { files, programs } } = this, { status, out, said } = await programs.ask(['scan', ...wordsOf(files.name)]);
        if (turn !== this.turn) return;
        if (status !== 0) return tell('files-status', textOf(out) + said, true);
        /** @type {Found[]} */
        const found = [...textOf(out).matchAll(/^([A-Z]+) (\d+) (\d+) ?(.*)$/gm)].map(it => ({ kind: it[1], first: Number(it[2]), length: Number(it[3]), words: it[4] }));
        $('texts-found').hidden = false;
        $('texts-told').textContent = toldOf(found);
        $('texts-list').replaceChildren(...found.map(it => this.#row(it)));
        for (const { kind, first, length, words } of found) files.blocks.mark(first, length, 'found', kind === 'TEXT' ? `a text: ${words}` : WHAT[kind] ?? kind);
        files.blocks.draw();
    }

    // A piece that was found: a text and a program can be shown and saved, and a program opened in the machine. A directory is shown as its block.
    /** @param {Found} it */
    #row({ kind, first, length, words }) {
        const { files, tabs } = this.page, blocks = length === 1 ? `block ${first}` : `blocks ${first} to ${first + length - 1}`;
        const entry = { name: `at-${first}`, first, length, isByBlocks: true, kind: kind === 'CORE' ? 'core' : kind === 'TEXT' ? 'text' : kind };
        /** @param {string} text @param {string} label @param {() => void} what */
        const button = (text, label, what) => made('button', { onclick: what, 'aria-label': label }, text);
        if (kind === 'TEXT')
            return made('li', {}, `${blocks}: `, button(words || 'a text', `the text of ${blocks}`, () => files.shown.show(entry, 'text')), ' ', button('Save', `save the text of ${blocks}`, () => this.#home(entry, '--text')));
        if (kind === 'DIR') return made('li', {}, `${blocks}: `, button(WHAT.DIR, `the directory of ${blocks}`, () => { $('dump-box').open = $('sixbit').checked = true; files.dump.show(first); }));
        return made('li', {}, `${blocks}: `, button(WHAT[kind] ?? kind, `the program of ${blocks}`, () => files.shown.show(entry, 'source')), ' ', button('Save', `save the program of ${blocks}`, () => this.#home(entry)),
            ' ', button('To the machine', `the program of ${blocks} to the machine`, () => { tabs.show('machine'); loadFile(this.page, entry); }));
    }

    // Saves the blocks of a piece, as frames or, with `--text`, as a text.
    /** @param {import('./files.js').Entry} entry @param {...string} form */
    async #home({ name, first, length, kind }, ...form) {
        const { files, programs } = this.page, words = ['get', ...wordsOf(files.name), '--blocks', String(first), String(length), ...form];
        const { status, out, said } = await programs.ask(words);
        if (status !== 0) return tell('files-status', said, true);
        takeHome(`${name}.${ENDS[kind ?? ''] ?? 'DA'}`, out);
    }

    // Opens what was rescued as a new volume.
    async #open() {
        const { files } = this.page;
        if (this.image) await files.add(`${fileOf(files.name)}-rescued`, this.image, $('rescued').textContent);
    }
}

// How many pieces of each kind were found.
/** @param {Found[]} found */
function toldOf(found) {
    /** @param {number} count @param {string} one @param {string} many */
    const some = (count, one, many) => count === 0 ? [] : [count === 1 ? `1 ${one}` : `${count} ${many}`];
    /** @param {(kind: string) => boolean} is */
    const count = is => found.filter(it => is(it.kind)).length;
    const all = [...some(count(it => it === 'TEXT'), 'text', 'texts'), ...some(count(it => !['TEXT', 'DIR'].includes(it)), 'program', 'programs'), ...some(count(it => it === 'DIR'), 'part of a directory', 'parts of directories')];
    return all.length ? `In its blocks: ${all.join(', ')}` : 'Nothing was found in its blocks';
}
