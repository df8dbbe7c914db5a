// The picture of a volume: a square for each block, by the lines of `check`. The sectors of a drive are drawn so, too.
import { $, made } from './dom.js';

const COLOURS = ['directory', 'file', 'file-2', 'found', 'read', 'empty', 'outside', 'fault', 'paper'];

/** @typedef {import('./files.js').Entry} Entry */

export class Blocks {
    /** @type {{ kind: string, of: string }[]} */
    all = [];
    /** @type {string | null} */
    refusal = null;
    files = 0;
    across = 0;
    side = 0;

    // `chosen` takes the block that is clicked at.
    /** @param {(block: number) => void} chosen */
    constructor(chosen) {
        $('blocks').addEventListener('click', event => { const block = this.#at(event); if (this.all[block]) chosen(block); });
        $('blocks').addEventListener('mousemove', event => this.#point(event));
        $('blocks').addEventListener('mouseleave', () => { $('block-told').textContent = ''; });
        new ResizeObserver(() => this.draw()).observe($('blocks'));
        matchMedia('(prefers-color-scheme: dark)').addEventListener('change', () => this.draw());
    }

    // Shows what each block is, and gives the files. Blocks 0 to 6 are the boot block and those of the directory. Where that is refused the lines
    // are of `check --all`, and its files are found by their blocks.
    /** @param {string[][]} lines @param {number} blocks @param {string | null} refusal @returns {Entry[]} */
    lay(lines, blocks, refusal) {
        const isByBlocks = refusal !== null, others = isByBlocks ? 'of no file that was found' : 'directory';
        const count = isByBlocks ? blocks : Number(lines.find(it => it[0] === 'BLOCKS')?.[1] ?? 0);
        /** @type {Entry[]} */
        const entries = [];
        this.all = Array.from({ length: count }, (_, block) => ({ kind: block && block < 7 ? 'directory' : 'outside', of: block ? block < 7 ? 'directory' : others : 'boot block' }));
        this.refusal = refusal;
        for (const line of lines) {
            const entry = this.#line(line, entries.length);
            if (entry) entries.push({ ...entry, isByBlocks });
        }
        const told = refusal?.match(/^\? DIRECTORY [12] .* (\d+)$/);
        if (refusal !== null) for (let block = 1; block < 7; block++) if (!told || Number(told[1]) === block) this.all[block] = { kind: 'fault', of: refusal };
        this.files = entries.length;
        this.draw();
        return entries;
    }

    // What a line says of some blocks, and the file that it is of, if it is of one.
    /** @param {string[]} line @param {number} turn */
    #line([word, ...rest], turn) {
        const [first, length] = rest.slice(-2).map(Number), isSound = word !== 'UNSOUND';
        /** @param {string} kind @param {string} of */
        const lay = (kind, of) => { for (let k = first; k < Math.min(first + length, this.all.length); k++) this.all[k] = { kind, of }; };
        if (word === 'OUTSIDE') lay('outside', 'not covered by the directory');
        if (word === 'TWICE') lay('fault', 'claimed twice');
        if (word === 'EMPTY') lay('empty', 'empty');
        if (word !== 'FILE' && rest[0] !== 'FILE') return null;
        const name = rest.slice(isSound ? 0 : 1, -2).join(' ');
        lay(isSound ? turn % 2 ? 'file-2' : 'file' : 'fault', isSound ? name : `${name}, unsound`);
        return { name, first, length };
    }

    // Draws the picture.
    draw() {
        if (!this.all.length) return;
        const canvas = $('blocks'), count = this.all.length;
        ({ across: this.across, side: this.side } = squares(canvas, this.all.map(it => it.kind)));
        const free = this.all.filter(it => it.kind === 'empty').length;
        canvas.setAttribute('aria-label', this.refusal ? `Volume of ${count} blocks, refused: ${this.refusal}`
            : `Volume of ${count} blocks: ${this.files} files, ${free} blocks empty`);
    }

    // Marks blocks of no file that was found, as what is found there.
    /** @param {number} first @param {number} length @param {string} kind @param {string} of */
    mark(first, length, kind, of) {
        for (let k = first; k < Math.min(first + length, this.all.length); k++)
            if (kind === 'fault' || ['outside', 'empty'].includes(this.all[k].kind)) this.all[k] = { kind, of };
    }

    // The block that the pointer is at.
    /** @param {MouseEvent} event */
    #at({ offsetX, offsetY }) {
        const column = Math.floor(offsetX / this.across), row = Math.floor(offsetY / this.side);
        return row * Math.round($('blocks').clientWidth / this.across) + column;
    }

    /** @param {MouseEvent} event */
    #point(event) {
        const block = this.#at(event), it = this.all[block];
        $('block-told').textContent = it ? `block ${block}: ${it.of}` : '';
    }
}

// Draws a square for each of these kinds, row by row, and gives how far one is from the next, and how high it is. No square is smaller than `least`.
/** @param {HTMLCanvasElement} canvas @param {string[]} kinds @param {number} [least] */
export function squares(canvas, kinds, least = 6) {
    const width = Math.max(200, canvas.clientWidth), most = Math.floor(width / least), columns = Math.max(32, least < 6 ? most : Math.min(most, Math.ceil(Math.sqrt(kinds.length * 6))));
    const side = Math.floor(width / columns), down = Math.ceil(kinds.length / columns), scale = devicePixelRatio || 1, across = width / columns;
    canvas.width = width * scale;
    canvas.height = down * side * scale;
    canvas.style.height = `${down * side}px`;
    const colours = coloursNow(canvas);
    const brush = /** @type {CanvasRenderingContext2D} */ (canvas.getContext('2d'));
    brush.scale(scale, scale);
    kinds.forEach((kind, block) => {
        const x = block % columns * across, y = Math.floor(block / columns) * side;
        brush.fillStyle = colours[kind];
        brush.fillRect(x, y, across - (side > 4 ? 1 : 0), side - (side > 4 ? 1 : 0));
        brush.fillStyle = brush.strokeStyle = colours.paper;
        if (side > 4) mark(brush, kind, x, y, across - 1, side - 1);
    });
    return { across, side };
}

// A mark in a square, so no kind is known by its colour alone: a bar, a bar that stands, one along its upper side, a hole, or a cross.
/** @param {CanvasRenderingContext2D} brush @param {string} kind @param {number} x @param {number} y @param {number} width @param {number} height */
function mark(brush, kind, x, y, width, height) {
    if (kind === 'directory') brush.fillRect(x, y + height * 0.4, width, height * 0.2);
    if (kind === 'found') brush.fillRect(x + width * 0.4, y, width * 0.2, height);
    if (kind === 'read') brush.fillRect(x, y, width, height * 0.3);
    if (kind === 'outside') brush.fillRect(x + width * 0.3, y + height * 0.3, width * 0.4, height * 0.4);
    if (kind !== 'fault') return;
    brush.lineWidth = Math.max(1, width / 6);
    brush.beginPath();
    brush.moveTo(x, y);
    brush.lineTo(x + width, y + height);
    brush.moveTo(x + width, y);
    brush.lineTo(x, y + height);
    brush.stroke();
}

// The colours of the style, light or dark, as a canvas takes them. The style is worked out once for all of them.
/** @param {HTMLCanvasElement} canvas */
function coloursNow(canvas) {
    const probes = COLOURS.map(it => { const probe = made('span'); probe.style.color = `var(--${it})`; return probe; }), box = made('span', {}, ...probes);
    canvas.after(box);
    const colours = Object.fromEntries(COLOURS.map((it, k) => [it, getComputedStyle(probes[k]).color]));
    box.remove();
    return colours;
}
