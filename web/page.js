// The page: loads the program, and lets the panes begin.
import { $, made, tell } from './dom.js';
import { Store } from './store.js';
import { Claims } from './claims.js';
import { Programs, load, canLive, hasWideMemory } from './program.js';
import { Files } from './files.js';
import { Source } from './source.js';
import { Machine } from './machine.js';
import { Teletype } from './teletype.js';
import { Boot } from './boot.js';
import { Script } from './script.js';
import { KINDS } from './owner.js';
import { Unkept } from './unkept.js';
import { Undo } from './undo.js';
import { Shelf } from './shelf.js';
import { Sound } from './sound.js';
import { isFirst, layFirst } from './first.js';

const ALL = /** @type {const} */ (['machine', 'files', 'source', 'teletype', 'script']);
/** @typedef {typeof ALL[number]} Pane */
// The panes that this browser can have: the Machine lives, and waits for its keys.
const PANES = ALL.filter(it => canLive || it !== 'machine');

// The line of status of each pane.
const STATUS = /** @type {const} */ ({ files: 'files-status', source: 'source-status', machine: 'machine-status', teletype: 'tty-status', script: 'script-status' });

// Where the help for each pane begins.
const HELP = /** @type {const} */ ({ files: 'archives', source: 'assembler', machine: 'page', teletype: 'teletype', script: 'scripts' });

const isPane = (/** @type {string} */ it) => PANES.some(name => name === it);

/** @param {string} text */
function trouble(text) {
    $('trouble').textContent = text;
    $('trouble').hidden = false;
}

// Tabs as a keyboard works them: arrows go from one to the next, and Tab into the pane.
export class Tabs {
    /** @type {Pane | undefined} */
    shown = undefined;

    /** @param {import('./store.js').Store} store */
    constructor(store) {
        this.store = store;
        for (const name of PANES) {
            const tab = $(`tab-${name}`);
            tab.addEventListener('click', () => this.show(name));
            tab.addEventListener('keydown', event => this.#key(event, PANES.indexOf(name)));
        }
        const asked = /** @type {Pane} */ (location.hash.slice(1));
        const last = store.notes.get('pane') ?? '';
        this.show(isPane(asked) ? asked : isPane(last) ? last : PANES[0]);
        const first = this.shown ?? PANES[0];
        addEventListener('hashchange', () => {
            const name = /** @type {Pane} */ (location.hash.slice(1) || first);
            if (isPane(name)) this.show(name, false);
        });
    }

    // Whether what an address names is a pane or another element of the page, or nothing.
    /** @param {string} name */
    isPlace(name) { return name === '' || document.getElementById(name) !== null; }

    /** @param {KeyboardEvent} event @param {number} at */
    #key(event, at) {
        const to = { ArrowRight: at + 1, ArrowLeft: at + PANES.length - 1, Home: 0, End: PANES.length - 1 }[event.key];
        if (to === undefined) return;
        event.preventDefault();
        const name = PANES[to % PANES.length];
        this.show(name);
        $(`tab-${name}`).focus();
    }

    // Shows a pane. The address gets its name, so Back and a link lead to it.
    /** @param {Pane} name @param {boolean} [isNew] */
    show(name, isNew = true) {
        // a caret in a long text that is hidden has the browser look for its place at each picture, which takes it a second
        if (this.shown !== name) getSelection()?.empty();
        if (isNew && this.shown !== undefined && this.shown !== name) history.pushState(null, '', `#${name}`);
        this.shown = name;
        for (const it of ALL) {
            $(it).hidden = it !== name;
            $(it).ariaHidden = String(it !== name);
            $(`tab-${it}`).setAttribute('aria-selected', String(it === name));
            $(`tab-${it}`).tabIndex = it === name ? 0 : -1;
        }
        this.store.note('pane', name);
        $('help').href = `help.html#${HELP[name]}`;
        $(name).dispatchEvent(new Event('shown'));
    }
}

// What this browser can't do isn't shown: what waits for a key, where no call of the program can. The keys are then in the tape reader.
function hideUnable() {
    for (const it of /** @type {NodeListOf<HTMLElement>} */ (document.querySelectorAll('[data-live]'))) it.hidden = true;
    $('reading').open = true;
    $('files').prepend($('shelf'));
}

async function begin() {
    if (!hasWideMemory) {
        document.body.classList.add('bare');
        trouble('This browser has no WebAssembly memory of 64 bits, which the program needs. Chromium, Chrome and Edge from version 133 '
            + 'and Firefox from version 134 have it.');
        return;
    }
    if (!canLive) hideUnable();
    const claims = new Claims();
    for (const it of KINDS) claims.claim(it);
    // a page that is just left writes until it is gone
    const [store, module] = await Promise.all([claims.known().then(() => Store.open(claims)), load('pdp8.wasm')]);
    const programs = new Programs(module, store);
    const page = /** @type {Page} */ ({ store, claims, programs, undo: new Undo(store), sound: new Sound(store), tell: trouble });
    await page.undo.restore();
    page.tabs = new Tabs(store);
    const isNew = isFirst(page);
    page.say = (text, isBad = false) => tell(STATUS[page.tabs.shown ?? PANES[0]], text, isBad);
    page.files = new Files(page);
    page.machine = new Machine(page);
    page.teletype = new Teletype(page);
    page.boot = new Boot(page);
    page.source = new Source(page);
    page.script = new Script(page);
    page.unkept = new Unkept(page);
    page.shelf = new Shelf(page);
    await Promise.all([page.files.begin(), ...[page.source, page.script, page.machine, page.teletype].map(it => it.owner.begin())]);
    page.tabs.show(page.tabs.shown ?? PANES[0]);
    if (isNew) await layFirst(page);
    $('kept').textContent = store.isKept ? 'What you open and write stays in this browser until you remove it.'
        : 'This browser keeps nothing: save on your computer what you want to keep.';
    if (!canLive)
        $('kept').append(' Without promises in WebAssembly calls (JSPI) or an isolated page, the Machine, and programs that wait for a key, '
            + 'can\'t run here; whole scripts can.');
    document.body.append(made('span', { id: 'ready', hidden: true }));
    performance.mark('ready');
    globalThis.geivottu = page;
    await page.shelf.follow();
}

// A page from a server that browsers trust works without a network once it was seen, and may be kept as a program of its own.
navigator.serviceWorker?.register('sw.js').catch(() => {});

begin().catch(error => trouble(`The page can't begin: ${error.message ?? error}`));
