// What is dropped on the page, or chosen by a button of a pane, goes where it belongs, by what it holds. An image opens. A tape goes to the Teletype, to
// core or to the volume that is open, as the user says. Any other is a file of the volume, or a text for Source. What is none of these is asked for, on
// the pane in sight.
import { $, bytesOfFile } from './dom.js';
import { ask } from './ask.js';
import { isText } from './encoding.js';
import { canLive } from './program.js';
import { tapeOf } from './tapes.js';
import { isVolume, kindOf, titleOf } from './volumes.js';

// How many bytes the program reads of a file.
const MOST = 16777216;

export class Drops {
    /** @param {Page} page */
    constructor(page) {
        this.page = page;
        const zone = $('drop');
        document.addEventListener('dragover', event => { event.preventDefault(); zone.classList.add('over'); });
        document.addEventListener('dragleave', event => event.relatedTarget === null && zone.classList.remove('over'));
        document.addEventListener('drop', event => {
            event.preventDefault();
            zone.classList.remove('over');
            this.take([...event.dataTransfer?.files ?? []]);
        });
    }

    // Takes files of the host.
    /** @param {File[]} all */
    async take(all) { for (const file of all) await this.#takeOne(file, all.length === 1); }

    // Takes the file that was chosen by a pane's own button. What that is for opens at once, and any other as what it is.
    /** @param {HTMLInputElement} input @param {'files' | 'source' | 'teletype'} pane */
    async chosen(input, pane) {
        const [file] = input.files ?? [], { source, teletype } = this.page;
        input.value = '';
        const bytes = file && await this.#bytesOf(file), isShort = bytes && bytes.length <= MOST;
        if (!bytes) return;
        if (pane === 'files') return this.#opened(file, bytes);
        if (pane === 'source' && isShort && isText(bytes)) return source.take(file.name, bytes);
        const tape = pane === 'teletype' && isShort && bytes.length ? await tapeOf(this.page, bytes) : null;
        return tape?.status === 0 ? teletype.take(file.name, bytes) : this.#takeOne(file, true);
    }

    // Takes the file that was chosen as an image.
    /** @param {File} file @param {Uint8Array} bytes */
    async #opened(file, bytes) {
        const { files } = this.page, asked = bytes.length > MOST ? undefined : await kindOf(this.page, bytes);
        if (!asked || !bytes.length || isVolume(asked)) return files.take(file, asked);
        const tape = await tapeOf(this.page, bytes);
        if (tape.status === 0) return this.#tape(file, bytes, tape.out);
        return isText(bytes) ? this.#text(file, bytes) : files.take(file, asked);
    }

    // The bytes of a file, null for a folder and for what can't be read.
    /** @param {File} file */
    async #bytesOf(file) {
        try {
            return await bytesOfFile(file);
        } catch {
            this.page.say(`${file.name} can't be read: it is a folder, or another program has it.`, true);
            return null;
        }
    }

    // Takes one, which was dropped alone or with others.
    /** @param {File} file @param {boolean} isAlone */
    async #takeOne(file, isAlone) {
        const { files, source, tabs } = this.page, isHere = files.name !== '' && !$('files').hidden, bytes = await this.#bytesOf(file);
        if (!bytes) return;
        const asked = await kindOf(this.page, bytes.length > MOST ? new Uint8Array(0) : bytes);
        if (bytes.length > MOST || isVolume(asked)) return files.take(file, bytes.length > MOST ? undefined : asked);
        if (isHere && !isAlone) return files.putFiles([file]);
        const tape = bytes.length ? await tapeOf(this.page, bytes) : null;
        if (tape?.status === 0) return this.#tape(file, bytes, tape.out);
        if (isHere) return files.putFiles([file]);
        if (isText(bytes) ? await source.take(file.name, bytes) : await this.#odd(file, bytes)) tabs.show('source');
    }

    // Asks where a tape is to go: first to what the pane in sight has.
    /** @param {File} file @param {Uint8Array} bytes @param {Uint8Array} tape */
    async #tape(file, bytes, tape) {
        const { files, machine, teletype, tabs } = this.page, all = [['teletype', 'Run it at the Teletype']];
        if (canLive) all.push(['machine', 'Lay it over core']);
        if (files.name !== '') all.push(['files', `Put it into ${titleOf(files.name)}`]);
        const isHere = (/** @type {string[]} */ [pane]) => pane === tabs.shown, answer = await ask(`${file.name} is a tape.`, ...all.filter(isHere), ...all.filter(it => !isHere(it)), ['', 'Leave it']);
        if (answer === 'files') await files.putFiles([file]);
        if (answer === 'teletype') await teletype.take(file.name, bytes);
        if (answer === 'machine' && await machine.load(tape, file.name)) tabs.show('machine');
    }

    // Asks what to do with a text that was chosen as an image.
    /** @param {File} file @param {Uint8Array} bytes */
    async #text(file, bytes) {
        const { files, source, tabs, say } = this.page, further = files.name === '' ? [] : [['files', `Put it into ${titleOf(files.name)}`]];
        const answer = await ask(`${file.name} is a text, and no image.`, ['text', 'Open it in Source'], ...further, ['', 'Leave it']);
        if (answer === 'files') await files.putFiles([file]);
        if (answer === '') say(`${file.name} was not opened: it is a text, and no image.`, true);
        if (answer === 'text' && await source.take(file.name, bytes)) tabs.show('source');
    }

    // Asks what to do with what is no image, no tape, and plainly no text. Whether it is open as a text then.
    /** @param {File} file @param {Uint8Array} bytes */
    async #odd(file, bytes) {
        const { files, source, say } = this.page, further = files.name === '' ? [] : [['files', `Put it into ${titleOf(files.name)}`]];
        const answer = await ask(`${file.name} is no image and no tape, and has bytes that a text hasn't.`, ['', 'Leave it'], ['text', 'Open it as a text'], ...further);
        if (answer === 'files') await files.putFiles([file]);
        if (answer === '') say(`${file.name} was not opened: it is no image, no tape, and plainly no text.`, true);
        return answer === 'text' && source.take(file.name, bytes, true);
    }
}
