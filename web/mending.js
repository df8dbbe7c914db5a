// An image with faults that `--lenient` reads: it is only looked at, with what that says, until one has the mended image written.
import { $ } from './dom.js';
import { fileOf, kindOf } from './volumes.js';

export class Mending {
    said = '';

    /** @param {Page} page */
    constructor(page) {
        this.page = page;
        $('mend').addEventListener('click', () => this.#write());
    }

    // Whether an image is opened as `--lenient` reads it.
    /** @param {string} volume */
    isMended(volume) { return this.page.store.notes.get(`lenient ${fileOf(volume)}`) === true; }

    // Looks at an image that the program refuses: whether it can be read leniently, as it is from then on.
    /** @param {string} volume */
    async looks(volume) {
        const { store } = this.page, file = fileOf(volume), image = store.files.get(file);
        if (!image || this.isMended(volume) || !(await kindOf(this.page, image)).isMended) return false;
        store.note(`lenient ${file}`, true);
        return true;
    }

    // Shows what `--lenient` says of the volume that is open, if it says anything.
    /** @param {string} volume @param {string} said */
    show(volume, said) {
        this.said = this.isMended(volume) ? said.trim() : '';
        $('mending').hidden = this.said === '';
        $('mended').textContent = this.said;
        if (this.isMended(volume) && this.said === '') this.page.store.forget(`lenient ${fileOf(volume)}`);
    }

    // Writes the image as it is read.
    async #write() {
        const { store, undo, files, say } = this.page, name = files.file, image = store.files.get(name);
        if (files.follows || !image) return say($('follows').textContent, true);
        const count = (/** @type {string} */ what) => Number(new RegExp(`: ${what}: (\\d+)$`, 'm').exec(this.said)?.[1] ?? 0);
        const whole = new Uint8Array(image.length + count('bytes of zeros added at the end') - count('bytes cut from the end'));
        whole.set(image.subarray(0, whole.length));
        for (let at = 1; at < whole.length; at += 2) whole[at] &= 0o17;
        store.forget(`lenient ${name}`);
        await undo.group(name, `writing the mended image of ${name}`, () => store.put(name, whole));
        say(`The mended image of ${name} is written. Undo brings back the other one.`);
    }
}
