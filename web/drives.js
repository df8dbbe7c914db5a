// The drives of a machine that boots, beside its console: their lamps, and a picture of their sectors. Of what moves the page sees the sectors that were
// changed, each time that the program saves them, and those that were read, by the lines that it writes of its transfers.
import { $, made } from './dom.js';
import { squares } from './blocks.js';
import { textOf } from './program.js';

/** @typedef {{ number: number, name: string, isLocked: boolean, isLook: boolean }} Disk */

export const SECTOR = 512;
// How long the lamp of a write stays lit, in milliseconds, how many sectors are named, and how high a picture may be that is alone, and one of several.
const LIT = 1000, NAMED = 8, HIGH = 210, LOW = 100;

const counted = (/** @type {number} */ count) => `${count} ${count === 1 ? 'sector' : 'sectors'}`;
const named = (/** @type {Set<number>} */ last) => `last ${[...last].slice(0, NAMED).join(', ')}${last.size > NAMED ? ' and more' : ''}`;

class Drive {
    /** @type {Set<number>} */
    written = new Set();
    /** @type {Set<number>} */
    last = new Set();
    /** @type {Set<number>} */
    read = new Set();
    /** @type {Set<number>} */
    lastRead = new Set();
    canvas = made('canvas', { role: 'img', width: 800, height: 10 });
    words = made('span', { class: 'quiet' });
    lamps = { run: lamp('Run'), read: lamp('Read'), write: lamp('Write'), locked: lamp('Wt prot') };

    /** @param {Disk} disk @param {Uint8Array} image @param {number} high */
    constructor(disk, image, high) {
        this.disk = disk;
        this.high = high;
        this.image = image;
        this.empty = Array.from({ length: image.length / SECTOR }, (_, sector) => isEmpty(image, sector));
        this.element = made('div', { class: 'drive' }, made('div', { class: 'row' }, made('h3', {}, `Drive ${disk.number}: ${disk.name}`), ...Object.values(this.lamps), this.words), this.canvas);
        light(this.lamps.run, true);
        light(this.lamps.locked, disk.isLocked);
        new ResizeObserver(() => this.draw()).observe(this.canvas);
        this.#tell();
    }

    // Shows which sectors a save has changed.
    /** @param {Uint8Array} image */
    see(image) {
        const last = changed(this.image, image);
        this.image = image;
        if (!last.size) return;
        this.last = last;
        for (const it of last) this.written.add(it);
        this.empty = Array.from({ length: image.length / SECTOR }, (_, sector) => last.has(sector) ? isEmpty(image, sector) : this.empty[sector] ?? true);
        flash(this.lamps.write);
        this.#tell();
        this.draw();
    }

    // Shows which sectors were read.
    /** @param {number[]} sectors */
    hear(sectors) {
        if (!sectors.length) return;
        this.lastRead = new Set(sectors);
        for (const it of sectors) this.read.add(it);
        flash(this.lamps.read);
        this.#tell();
        this.draw();
    }

    end() { light(this.lamps.run, false); }

    // What was written, in words.
    get told() {
        const { name, isLocked, isLook } = this.disk, { size } = this.written;
        if (isLook) return `${name} was only looked at: nothing is kept.`;
        return isLocked ? `${name} was locked.` : size ? `${name}: ${counted(size)} ${size === 1 ? 'was' : 'were'} changed, and ${size === 1 ? 'is' : 'are'} saved.` : `${name}: nothing was changed.`;
    }

    #tell() {
        const { isLocked, isLook } = this.disk, { last, written, read, lastRead } = this;
        const changes = isLook ? 'only looked at' : isLocked ? 'locked: nothing is changed' : last.size ? `${counted(written.size)} changed and saved, ${named(last)}` : 'nothing changed yet';
        this.words.textContent = read.size ? `${changes}; ${counted(read.size)} read, ${named(lastRead)}` : changes;
        this.canvas.setAttribute('aria-label', `Drive ${this.disk.number}, ${counted(this.empty.length)}: ${this.words.textContent}`);
    }

    // Draws the sectors, as large as the picture may be high.
    draw() {
        const { last, lastRead, written, canvas } = this, width = canvas.clientWidth, count = this.empty.length;
        const least = [6, 5, 4].find(it => Math.ceil(count / Math.floor(width / it)) * it <= this.high) ?? 3;
        if (width) squares(canvas, this.empty.map((isEmpty, sector) => last.has(sector) ? 'directory' : lastRead.has(sector) ? 'read' : written.has(sector) ? 'found' : isEmpty ? 'empty' : 'file'), least);
    }
}

export class Drives {
    /** @type {Drive[]} */
    #all = [];
    #isOn = false;
    // How much of the lines of transfers is known.
    #heard = 0;

    /** @param {import('./store.js').Store} store */
    constructor(store) {
        this.store = store;
        store.addEventListener('file', ({ detail }) => this.#see(detail));
        matchMedia('(prefers-color-scheme: dark)').addEventListener('change', () => this.#all.forEach(it => it.draw()));
    }

    // Shows disks, at work.
    /** @param {Disk[]} disks */
    begin(disks) {
        this.#all = disks.map(it => new Drive(it, this.store.files.get(it.name) ?? new Uint8Array(0), disks.length > 1 ? LOW : HIGH));
        this.#isOn = true;
        this.#heard = 0;
        $('drive-list').replaceChildren(...this.#all.map(it => it.element));
        $('drives').hidden = false;
    }

    /** @param {string} name */
    #see(name) {
        const drive = this.#all.find(it => it.disk.name === name), image = this.store.files.get(name);
        if (this.#isOn && image) drive?.see(image);
    }

    // Shows what was read, by the lines of all transfers so far: `RK 0 read 00012 00400 256`, of drive and sector.
    /** @param {Uint8Array} lines */
    hear(lines) {
        const reads = [...textOf(lines.subarray(this.#heard)).matchAll(/^RK (\d) read (\d+)/gm)];
        this.#heard = lines.length;
        for (const it of this.#all) it.hear(reads.filter(([, drive]) => Number(drive) === it.disk.number).map(([, , sector]) => parseInt(sector, 8)));
    }

    // They stand. Gives what was written, in words.
    end() {
        this.#isOn = false;
        this.#all.forEach(it => it.end());
        return this.#all.map(it => it.told).join(' ');
    }
}

/** @param {string} text */
function lamp(text) { return made('span', { class: 'drive-lamp', role: 'img', 'aria-label': `${text} off` }, made('span', { class: 'lamp' }), text); }

/** @param {Element} it @param {boolean} isLit */
function light(it, isLit) {
    it.querySelector('.lamp')?.classList.toggle('on', isLit);
    it.setAttribute('aria-label', `${it.textContent} ${isLit ? 'on' : 'off'}`);
}

// Lights a lamp for a while, anew where it is lit.
/** @type {Map<Element, number>} */
const timers = new Map();
/** @param {Element} it */
function flash(it) {
    light(it, true);
    clearTimeout(timers.get(it));
    timers.set(it, window.setTimeout(() => { light(it, false); timers.delete(it); }, LIT));
}

// Whether a sector of an image has no word but 0.
/** @param {Uint8Array} image @param {number} sector */
export function isEmpty(image, sector) {
    const end = Math.min(image.length, (sector + 1) * SECTOR);
    for (let k = sector * SECTOR; k < end; k++) if (image[k]) return false;
    return true;
}

// The sectors in which two images differ; the shorter one has zeros after its end.
/** @param {Uint8Array} was @param {Uint8Array} is */
function changed(was, is) {
    /** @type {Set<number>} */
    const all = new Set(), end = Math.max(was.length, is.length);
    for (let k = 0; k < end; k++) {
        if ((was[k] | 0) === (is[k] | 0)) continue;
        const sector = Math.floor(k / SECTOR);
        all.add(sector);
        k = (sector + 1) * SECTOR - 1;
    }
    return all;
}
