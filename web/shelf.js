// The shelf: programs, a disk with them, and one that boots, of the project's own. Each is one click from running, or one link: `#run=guess`. A link
// `#source=..` has a text.
import { $, tell } from './dom.js';
import { ask } from './ask.js';
import { canLive, joined } from './program.js';

// What is on the disk, with the tape of each.
const TEXTS = ['hello', 'guess', 'sort', 'lights'];
// What else runs at one click, or by a link.
const MORE = ['guess8'];
// The disk that boots: its name, its texts in examples/, and the texts of each of its tapes, as examples/disk/make.sh makes it.
const SYSTEM = 'SHED', PARTS = ['disk/read.me', 'disk/boot.pa', 'disk/disk.pa', 'disk/shed.pa', 'disk/back.pa', 'guess8.pa', 'hello.pa'];
const TAPES = [['BOOT.BN', 'boot.pa', 'disk.pa', '--pal8'], ['SHED.BN', 'shed.pa', 'disk.pa', '--pal8'], ['GUESS8.BN', 'back.pa', 'guess8.pa', '--pal8'], ['HELLO.BN', 'hello.pa']];
// What is worked at the front panel; the others run at the Teletype.
const AT_PANEL = ['guess', 'sort', 'lights'];
// Of how many texts a link may be, and of how many bytes these, before it is asked for, and how many bytes the program reads.
const USUAL = 20, LARGE = 200000, MOST = 16777216;

export class Shelf {
    /** @param {Page} page */
    constructor(page) {
        this.page = page;
        this.isBusy = false;
        for (const it of $('shelf').querySelectorAll('button')) {
            it.addEventListener('click', () => this.run(it.dataset.run ?? ''));
        }
        $('link').addEventListener('click', () => this.#copyLink());
        addEventListener('hashchange', () => this.follow());
    }

    // Does what the address asks for.
    async follow() {
        const address = location.hash.slice(1), asked = new URLSearchParams(address), { tabs } = this.page;
        const name = asked.get('run'), source = asked.get('source');
        if (tabs.isPlace(address)) return;
        if (name !== null) await this.run(name);
        else if (source === null) this.page.say(`There is no pane ${plainly(address)}.`, true);
        if (source === null) return;
        const parts = [{ name: asked.get('name') ?? '', packed: source }, ...asked.getAll('next').map(it => ({ name: it.split(':')[0], packed: it.split(':')[1] ?? '' }))];
        const all = await this.#unpacked(parts);
        if (all && await this.#open(all, asked.get('dialect') === 'PAL8' ? 'PAL8' : 'PAL III')) tabs.show('source');
    }

    // The texts of a link, null where one can't be read, or where there is more of them than the user wants.
    /** @param {{ name: string, packed: string }[]} parts */
    async #unpacked(parts) {
        const all = [];
        let size = 0, mayBeLarge = false;
        for (const { name, packed } of parts) {
            const text = await unpacked(packed, MOST - size).catch(() => null);
            if (text === null) return this.page.say('The link has no text that can be read, or more than 16777216 bytes of it.', true);
            size += text.length;
            all.push({ name: name.replace(/[^A-Z0-9]/g, '').slice(0, 6), text });
            if (mayBeLarge || (size <= LARGE && parts.length <= USUAL)) continue;
            const words = `The link has ${parts.length === 1 ? 'a text' : `${parts.length} texts`} of ${size} characters${all.length < parts.length ? ' and more' : ''}. That may take long to be shown.`;
            if (await ask(words, ['', 'Leave it'], ['open', 'Open it']) !== 'open') return this.page.say('The text of the link was not opened.');
            mayBeLarge = true;
        }
        return all;
    }

    // Opens the texts of a link, the first after those that it goes on in. Whether it is open.
    /** @param {{ name: string, text: string }[]} all @param {string} dialect */
    async #open([first, ...further], dialect) {
        const { texts, source } = this.page, names = [];
        for (const { name, text } of further) {
            if (!await texts.add(name, text)) return false;
            names.push(texts.name);
        }
        if (!await texts.add(first.name, first.text)) return false;
        source.setOwn(dialect, names.join(' '));
        return true;
    }

    // Takes what was chosen from the shelf: one thing at a time, whatever is clicked meanwhile.
    /** @param {string} name */
    async run(name) {
        if (this.isBusy) return;
        this.#wait(true);
        try {
            await this.#take(name);
        } finally {
            this.#wait(false);
        }
    }

    /** @param {boolean} isBusy */
    #wait(isBusy) {
        this.isBusy = isBusy;
        for (const it of $('shelf').querySelectorAll('button')) it.disabled = isBusy;
    }

    /** @param {string} name */
    async #take(name) {
        if (name === 'disk') return this.#disk();
        if (name === 'shed' && canLive) return this.#boot();
        const all = [...TEXTS, ...MORE, 'shed', 'disk'];
        if (!all.includes(name)) return this.page.say(`There is no program ${plainly(name)} here. A link may run ${all.slice(0, -1).join(', ')} or ${all.at(-1)}.`, true);
        if (!canLive && ['sort', 'lights', 'shed'].includes(name)) return this.page.say(`This browser can't run ${name}: it needs a Machine that waits for its keys.`, true);
        const { source, machine, teletype, tabs } = this.page;
        const isAtPanel = canLive && AT_PANEL.includes(name), { owner } = isAtPanel ? machine : teletype;
        if (!await owner.take() || (!isAtPanel && !await teletype.mayBegin()) || !await source.takeExample(`${name}.pa`) || !await source.assemble()) return;
        if (isAtPanel) return this.#atPanel(name);
        teletype.choose('source');
        tabs.show('teletype');
        await teletype.begin();
    }

    /** @param {string} name */
    async #atPanel(name) {
        const { source, machine, tabs } = this.page;
        tabs.show('machine');
        if (!source.tape || !await machine.load(source.tape, name)) return;
        machine.list($('listing').textContent, $('symbols').textContent);
        if (name === 'sort') return tell('machine-status', 'The words to be sorted are at 00240. SING STEP makes one step, and CONT runs it to its end.');
        $('speed').value = 'real';
        machine.start(name === 'guess'); // which ends when the machine stops
    }

    // A volume with the texts and their tapes.
    async #disk() {
        const { files, programs, store } = this.page, image = await files.blank('737');
        if (!image) return;
        store.put('.shelf', image);
        for (const it of TEXTS) {
            const text = await (await fetch(`examples/${it}.pa`)).text();
            store.put('.shelf.pa', new TextEncoder().encode(text));
            await programs.ask(['assemble', '.shelf.pa', '--output', '.shelf.bn']);
            await programs.ask(['put', '.shelf', '-', '--as', `${it.toUpperCase()}.PA`, '--text'], text);
            await programs.ask(['put', '.shelf', '-', '--as', `${it.toUpperCase()}.BN`], store.files.get('.shelf.bn') ?? '');
        }
        const made = store.files.get('.shelf');
        for (const it of ['.shelf', '.shelf.pa', '.shelf.bn']) store.remove(it);
        store.gave(made);
        if (made) await files.add('SHELF', made, files.created);
        this.page.tabs.show('files');
    }

    // Boots the disk that has a system, as the page has it.
    async #boot() {
        const { boot, files } = this.page;
        if (files.images.includes(SYSTEM) || await this.#makeSystem()) await boot.begin([{ number: 0, name: SYSTEM, isLocked: false, isLook: false }]);
    }

    // Makes that disk of its texts. Whether it is there.
    async #makeSystem() {
        const { files, store, say } = this.page, image = await files.blank('', 'disk'), answers = await Promise.all(PARTS.map(it => fetch(`examples/${it}`)));
        if (!image || answers.some(it => !it.ok)) return void say('A part of the disk is missing.', true);
        const texts = PARTS.map(it => `.shed/${it.replace('disk/', '')}`);
        store.put('.shed', image);
        for (const [k, it] of texts.entries()) store.put(it, new Uint8Array(await answers[k].arrayBuffer()));
        await this.#fillSystem(texts);
        const made = store.files.get('.shed');
        for (const it of [...store.files.keys()].filter(it => it.startsWith('.shed'))) store.remove(it);
        store.gave(made);
        if (made) await files.add(SYSTEM, made, files.created, 'disk');
        return files.images.includes(SYSTEM);
    }

    // Puts the texts on it, and their tapes. The first of these, run on an 8/E, writes the sector that boots.
    /** @param {string[]} texts */
    async #fillSystem(texts) {
        const { programs, store } = this.page, disk = ['.shed', '--volume', '1'];
        await programs.ask(['put', ...disk, ...texts, '--text']);
        for (const [name, ...words] of TAPES) {
            await programs.ask(['assemble', ...words.map(it => it.startsWith('-') ? it : `.shed/${it}`), '--output', '.shed.bn']);
            await programs.ask(['put', ...disk, '-', '--as', name], store.files.get('.shed.bn') ?? '');
        }
        await programs.ask(['profile', ...disk, TAPES[0][0], '--start', '200', '--cpu', '8e', '--rk0', '.shed']);
    }

    // Copies an address that opens the text anywhere.
    async #copyLink() {
        const name = $('source-name').value.trim(), { origin, pathname } = location, { parts, dialect } = this.page.source, missing = parts.find(it => it.text === undefined);
        if (missing) return tell('source-status', `There is no text ${missing.name}, in which this one goes on.`, true);
        const [first, ...further] = await Promise.all(parts.map(async it => ({ name: it.name, packed: await packed(it.text ?? '') })));
        const link = `${origin}${pathname}#source=${first.packed}${name ? `&name=${name}` : ''}${dialect === 'PAL8' ? '&dialect=PAL8' : ''}${further.map(it => `&next=${it.name}:${it.packed}`).join('')}`;
        try {
            await navigator.clipboard.writeText(link);
            tell('source-status', `A link to this text is copied: ${link.length} characters.`);
        } catch {
            tell('source-status', link);
        }
    }
}

/** @param {Uint8Array} bytes @param {ReadableWritablePair<Uint8Array, BufferSource>} way */
const through = (bytes, way) => new Response(new Blob([bytes]).stream().pipeThrough(way)).arrayBuffer();

// A text as what may stand in an address.
/** @param {string} text */
export async function packed(text) {
    const bytes = new Uint8Array(await through(new TextEncoder().encode(text), new CompressionStream('deflate-raw')));
    return btoa(Array.from(bytes, it => String.fromCharCode(it)).join('')).replaceAll('+', '-').replaceAll('/', '_').replaceAll('=', '');
}

// The text that is in an address. It fails where that has more than so many bytes.
/** @param {string} it @param {number} most */
async function unpacked(it, most) {
    const bytes = Uint8Array.from(atob(it.replaceAll('-', '+').replaceAll('_', '/')), one => one.charCodeAt(0)), parts = [];
    const reader = new Blob([bytes]).stream().pipeThrough(new DecompressionStream('deflate-raw')).getReader();
    let left = most;
    for (let { done, value } = await reader.read(); !done && value; { done, value } = await reader.read()) {
        left -= value.length;
        if (left < 0) throw new RangeError('too long');
        parts.push(value);
    }
    return new TextDecoder().decode(joined(parts));
}

// A name out of an address, as much of it as a line may have.
/** @param {string} name */
function plainly(name) { return name.replace(/[^ -~]/g, '?').slice(0, 20) || 'without a name'; }
