// Boot on the Machine pane: `boot` of images of the page, in the drives of an 8/E. Its console is the Teletype, where its drives are shown too.
import { $, ids, keepInput, made, octal, tell } from './dom.js';
import { Drives, SECTOR, isEmpty } from './drives.js';

const MOST = 6496 * SECTOR;
const DISKS = ids('drive-0', 'drive-1', 'drive-2', 'drive-3'), LOCKS = ids('lock-0', 'lock-1', 'lock-2', 'lock-3');
// The file that gets the lines of transfers. It is none of the page's.
const TRANSFERS = '.transfers';
// What is said of the disk in each; that in drive 0 is what boots.
const WORDS = ['boot', '--rk1', '--rk2', '--rk3'];

// Whether an image can be in a drive: whole sectors, of a pack at most.
/** @param {Uint8Array} image */
const isPack = image => image.length > 0 && image.length <= MOST && image.length % SECTOR === 0;

export class Boot {
    /** @param {Page} page */
    constructor(page) {
        this.page = page;
        this.drives = new Drives(page.store);
        // how long the images are that a program holds
        /** @type {Map<string, number | undefined>} */
        this.lengths = new Map();
        for (const id of [...LOCKS, ...ids('boot-look')]) keepInput(page.store, id);
        for (const id of DISKS) $(id).addEventListener('change', () => page.store.note(id, $(id).value));
        $('boot').addEventListener('click', () => this.begin(this.#disks));
        page.store.addEventListener('volume', () => this.#list());
        page.store.addEventListener('file', ({ detail }) => detail.startsWith('.') || this.#changed(detail));
        this.#list();
    }

    // Lists what may be in each drive. What boots is in drive 0: its first sector has a program. The volume that is open comes before others.
    #list() {
        const { store, files } = this.page, packs = files.images.filter(it => isPack(store.files.get(it) ?? new Uint8Array(0)));
        for (const [k, id] of DISKS.entries()) {
            const all = k ? packs : packs.filter(it => !isEmpty(/** @type {Uint8Array} */ (store.files.get(it)), 0)), chosen = store.notes.get(id) ?? '';
            $(id).replaceChildren(...(k || !all.length ? [made('option', { value: '' }, k ? 'no disk' : 'none can boot')] : []), ...all.map(it => made('option', { value: it }, it)));
            $(id).value = all.includes(chosen) ? chosen : k ? '' : all.includes(files.file) ? files.file : all[0] ?? '';
        }
        $('boot').disabled = $('drive-0').value === '';
    }

    // An image is another one. A disk that has grown is of another kind maybe.
    /** @param {string} name */
    #changed(name) {
        const { store, files } = this.page, length = store.files.get(name)?.length, hasGrown = this.lengths.has(name) && this.lengths.get(name) !== length;
        this.#list();
        if (!hasGrown) return;
        this.lengths.set(name, length);
        files.resized(name);
    }

    // What is in the drives.
    get #disks() {
        const isLook = $('boot-look').checked;
        return DISKS.map((id, number) => ({ number, name: $(id).value, isLocked: $(LOCKS[number]).checked, isLook })).filter(it => it.name !== '');
    }

    // Boots these disks.
    /** @param {import('./drives.js').Disk[]} disks */
    async begin(disks) {
        const { teletype, tabs } = this.page;
        const twice = disks.find(({ name }, k) => disks.findIndex(it => it.name === name) < k);
        if (twice) return tell('machine-status', `${twice.name} is in two drives: a disk is in one drive alone.`, true);
        if (!await teletype.owner.take() || !await teletype.mayBegin() || teletype.isBegun) return;
        tabs.show('teletype');
        await this.#run(disks);
    }

    // Runs the program. Its disks but those that are locked are its own until it ends, and all that it writes is one change of each.
    /** @param {import('./drives.js').Disk[]} disks */
    async #run(disks) {
        const { teletype, claims, machine, undo, store } = this.page, [{ name: title, isLook }] = disks;
        const holds = isLook ? [] : disks.filter(it => !it.isLocked).map(it => it.name);
        const words = [...disks.flatMap(it => [WORDS[it.number], it.name]), ...disks.filter(it => it.isLocked).map(it => `--lock=${it.number}`),
            isLook ? '--look' : '--every=1', `--switches=${octal(machine.panel.switches, 4)}`, '--transfers', TRANSFERS];
        for (const it of holds) claims.claim(`volume ${it}`);
        const begun = holds.filter(it => undo.begin(it, `the boot of ${title}`));
        this.lengths = new Map(holds.map(it => [it, store.files.get(it)?.length]));
        this.drives.begin(disks);
        await teletype.boot(words, {
            title, holds, told: isLook ? 'It is only looked at: nothing that it writes is kept. Stop ends it.' : 'Stop saves it, and ends it.',
            takes: (name, bytes) => {
                if (name === TRANSFERS && bytes) this.drives.hear(bytes);
                return name === TRANSFERS;
            },
            ended: () => {
                for (const it of begun) undo.end(it);
                this.lengths.clear();
                return this.drives.end();
            },
        });
    }
}
