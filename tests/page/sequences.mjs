// sequences.mjs PROGRAM FOLDER [--sequences N] [--seed S] [NUMBER..]: random sequences of clicks, keys, reloads and second tabs, each with a profile of
// its own. After each step the screen must show what a plain model of the state has, and after a reload, too. NUMBER takes one of the sequences alone.
// The last line is 'N passed, M failed'.
import { resolve } from 'node:path';
import { Browser, serve } from './browser.mjs';
import { Model } from './model.mjs';

const [folder] = process.argv.slice(3, 4).map(it => resolve(it)), LONG = 12;
const option = (word, usual) => process.argv.includes(word) ? Number(process.argv[process.argv.indexOf(word) + 1]) : usual;
const seed = option('--seed', 1), count = option('--sequences', 50);
// The steps, those that come more often as often as they do.
const STEPS = `text text script many further other rename removal switches address deposit deposit stop step step going machine volume file file deletion gone
    session session session program program key key halt tear undo undo undo undos again reload reload`.split(/\s+/);
// What a second tab does.
const THERE = ['text', 'script', 'machine', 'teletype', 'volume', 'file'];
// How long the screen may take to show the model, in milliseconds.
const PATIENCE = Number(process.env.PATIENCE ?? 300000);

// What the screen shows. An image is there by its digest, and a change by the words that the buttons for it have.
const SCREEN = `async () => {
    const { store, texts, files, machine, undo } = geivottu, { notes } = store, at = id => document.getElementById(id), images = {}, digests = window.digests ??= new WeakMap();
    const all = query => [...document.querySelectorAll(query)], inWords = ids => (ids ?? []).map(it => notes.get(undo.list + ' ' + it)?.words);
    for (const name of files.images) {
        const bytes = store.files.get(name);
        if (!digests.has(bytes)) digests.set(bytes, [...new Uint8Array(await crypto.subtle.digest('SHA-1', bytes))].join());
        images[name] = digests.get(bytes);
    }
    const others = Object.fromEntries(texts.others.map(name => [name, notes.get('text ' + name)])), { past, future } = notes.get(undo.list) ?? {};
    return {
        open: at('source-name').value, texts: { ...others, [at('source-name').value]: at('text').value }, lines: at('lines').value, images, volume: at('volume').value,
        machine: { core: at('core').textContent, switches: at('switches-shown').value, fields: machine.panel.fieldSwitches, address: at('address').textContent,
            registers: all('#registers > div').map(it => it.textContent).join(' '), lamps: all('#panel .lamps').map(it => it.ariaLabel).join(', '),
            steps: at('steps').textContent, breaks: all('#code [aria-pressed=true]').map(it => it.parentNode.dataset.cell).join(' '), code: at('code').textContent.length, console: at('console').textContent },
        paper: at('paper').textContent, runs: !at('tty-stop').disabled,
        replies: at('replies').textContent, told: at('script-status').textContent, isSession: !at('entry-line').disabled,
        past: inWords(past), future: inWords(future), keys: [at('undo').textContent, at('redo').textContent],
    };
}`;
const SORTED = `it => JSON.stringify(it, (_, value) => value && typeof value === 'object' && !Array.isArray(value) ? Object.fromEntries(Object.entries(value).sort()) : value)`;
const sorted = new Function(`return ${SORTED}`)();
const SHOWN = `geivottu.tabs.shown === 'machine' && document.getElementById('core').textContent !== ''`;

// A BIN tape of a program that prints each key that is struck.
const ECHO = tapeOf([0o6031, 0o5200, 0o6036, 0o6046, 0o6041, 0o5204, 0o5200]);

// A BIN tape of words from 0200 on.
function tapeOf(words) {
    const frames = [0o102, 0, ...words.flatMap(it => [it >> 6, it & 0o77])], sum = frames.reduce((sum, it) => sum + it, 0) & 0o7777;
    return [0o200, ...frames, sum >> 6, sum & 0o77, 0o200];
}

// Numbers by a seed (mulberry32).
function numbers(from) {
    let state = from;
    return most => {
        state = (state + 0x6d2b79f5) | 0;
        let it = Math.imul(state ^ (state >>> 15), 1 | state);
        it = (it + Math.imul(it ^ (it >>> 7), 61 | it)) ^ it;
        return ((it ^ (it >>> 14)) >>> 0) % most;
    };
}

// Where two screens differ, in words.
function differences(wanted, got) {
    const isDeep = it => it && typeof it === 'object' && !Array.isArray(it);
    return Object.keys({ ...wanted, ...got }).filter(key => sorted(wanted[key]) !== sorted(got[key])).map(key => isDeep(wanted[key]) && isDeep(got[key])
        ? `${key}: ${differences(wanted[key], got[key])}` : `${key}: wanted ${JSON.stringify(wanted[key])}, got ${JSON.stringify(got[key])}`).join('; ');
}

class Sequence {
    done = [];
    visits = 0;
    /** @type {Model} */
    model = new Model({});

    constructor(page, url, number) {
        this.page = page;
        this.url = url;
        this.any = numbers(seed * 100003 + number);
    }

    get shown() { return this.model.shown; }

    // Waits until the screen shows the model, or these parts of it.
    async sees(page = this.page, ...parts) {
        const part = parts.length ? it => Object.fromEntries(parts.map(key => [key, it[key]])) : it => it, wanted = part(this.model.wanted);
        const got = await page.look(`(async () => { const end = performance.now() + ${PATIENCE}, look = ${SCREEN}, sorted = ${SORTED}, parts = ${JSON.stringify(parts)};
            for (;;) {
                const all = await look(), got = parts.length ? Object.fromEntries(parts.map(key => [key, all[key]])) : all;
                if (sorted(got) === ${JSON.stringify(sorted(wanted))} || performance.now() > end) return got;
                await new Promise(go => setTimeout(go, 10));
            } })()`);
        if (sorted(got) !== sorted(wanted)) throw new Error(differences(wanted, got));
    }

    // The screen, once the machine has replied to all that it was asked, and it stays as it is.
    still(page = this.page) {
        return page.look(`(async () => { const { machine } = geivottu, look = ${SCREEN}, sorted = ${SORTED};
            for (let last = '';;) {
                for (let k = 0; k < 4; k++) {
                    await Promise.all([machine.living.ask('REGISTERS'), machine.stepped]);
                    await new Promise(go => setTimeout(go));
                }
                const now = await look();
                if (sorted(now) === last) return now;
                last = sorted(now);
            } })()`);
    }

    // Takes what is on the screen for parts of the model that something has changed: of the machine, or of the rest.
    async takes(...parts) {
        const now = await this.still(), machine = { ...this.shown.machine };
        for (const it of parts) if (it in machine) machine[it] = now.machine[it]; else this.shown[it] = now[it];
        if (parts.some(it => it in machine)) this.shown.machine = machine;
        return now;
    }

    // Takes the image of a volume, which something has changed.
    async takesImage(name, page = this.page) { this.shown.images[name] = (await this.still(page)).images[name]; }

    click(id, page = this.page) { return page.look(`document.getElementById('${id}').click()`); }

    // Types a text in place of what an element has. Then no key is struck for a while.
    type(id, text, page = this.page) {
        return page.look(`{ const it = document.getElementById('${id}'); it.value = ${JSON.stringify(text)}; it.dispatchEvent(new Event('input', { bubbles: true })); geivottu.undo.endTyping(); }`);
    }

    // Strikes a key at a paper.
    strike(id, key, page = this.page) { return page.look(`document.getElementById('${id}').dispatchEvent(new KeyboardEvent('keydown', { key: '${key}', bubbles: true, cancelable: true }))`); }

    // Words that no text has, each as long as any other.
    get fresh() { return `${100000 + this.any(900000)}\n`; }

    get letter() { return String.fromCharCode(65 + this.any(26)); }

    // The text of Source and the script.

    async typing(id, key, after, words, page = this.page) {
        const before = this.model.valueOf(key);
        await this.type(id, after, page);
        this.model.set(key, after);
        page === this.page ? this.model.changes(key, before, words, true) : this.model.changesThere(key, before, words, true);
    }

    text(page) { return this.typing('text', `texts ${this.shown.open}`, `/${this.fresh}`, `typing in ${this.shown.open}`, page); }

    script(page) { return this.typing('lines', 'lines', `DIRECT ${this.fresh}`, 'typing in the script', page); }

    // More changes than Undo takes back.
    async many() { for (let k = 0; k < 60; k++) await this.text(); }

    async further() {
        const name = `N${this.done.length}`;
        await this.page.look(`(async () => { document.getElementById('text-new').click(); await geivottu.source.owner.take(); await new Promise(go => setTimeout(go, 50));
            const it = document.getElementById('source-name'); it.value = '${name}'; it.dispatchEvent(new Event('change', { bubbles: true })); })()`);
        this.shown.open = name;
        this.shown.texts[name] = '';
    }

    async other() {
        const { others } = this.model;
        if (!others.length) return this.further();
        const name = others[this.any(others.length)];
        await this.page.choose('#texts', name);
        this.shown.open = name;
    }

    async rename() {
        const { open, texts } = this.shown, name = `M${this.done.length}`;
        await this.page.choose('#source-name', name);
        texts[name] = texts[open];
        delete texts[open];
        this.shown.open = name;
        this.model.rename(open, name);
    }

    async removal() {
        const { open, texts } = this.shown, [next] = this.model.others, before = texts[open];
        if (next === undefined || before.trim() === '') return this.text();
        await this.click('text-drop');
        this.model.set(`texts ${open}`, undefined);
        this.model.changes(`texts ${open}`, before, `the removal of the text ${open}`);
        this.shown.open = next;
    }

    // The machine.

    async switches() {
        await this.page.look(`document.querySelector('[aria-label="${this.any(4) ? `switch ${this.any(12)}` : `field switch ${this.any(3)}`}"]').click()`);
        await this.takes('switches', 'fields', 'registers');
    }

    async address() {
        await this.page.look(`{ const it = document.getElementById('switches-shown'); it.value = '020${this.any(8)}'; it.dispatchEvent(new Event('change', { bubbles: true })); }`);
        await this.page.look(`for (const it of document.querySelectorAll('#field-switches .switch[aria-checked="true"]')) it.click()`);
        await this.click('key-load');
        await this.takes('switches', 'fields', 'address', 'registers', 'lamps');
    }

    async deposit() {
        const before = this.shown.machine;
        await this.click('key-deposit');
        await this.takes('core', 'address', 'registers', 'lamps');
        this.model.deposits(before);
    }

    // Sets a break in the listing, or clears it.
    async stop() {
        const { machine } = this.shown, cell = await this.page.look(`(all => all.length ? all[${this.any(40)} % all.length].dataset.cell : '')([...document.querySelectorAll('#code [data-cell]')])`);
        if (cell === '') return this.switches();
        await this.page.look(`document.querySelector('[data-cell="${cell}"] button').click()`);
        const all = machine.breaks.split(' ').filter(it => it !== ''), breaks = (all.includes(cell) ? all.filter(it => it !== cell) : [...all, cell].sort()).join(' ');
        this.shown.machine = { ...machine, breaks };
    }

    async step() {
        await this.click('key-step');
        await this.takes('core', 'registers', 'lamps', 'steps', 'console');
        this.model.isDepositing = false;
    }

    async machine() {
        const before = this.shown.machine;
        if (!/^0\d{4} .*[1-7]\d{0,3}( |$)/m.test(before.core.replace(/^\d{5}/gm, '0'))) return this.deposit();
        await this.click('power');
        await this.page.until(`document.getElementById('machine-status').textContent === 'a new machine'`);
        await this.takes(...Object.keys(before));
        this.model.changes('machine', before, 'the new machine');
        this.model.isDepositing = false;
    }

    // A program in core prints the keys that it gets, also after a reload.
    async going() {
        const before = this.shown.machine;
        if (before.breaks !== '') return this.step();
        await this.page.look(`geivottu.machine.load(new Uint8Array(${JSON.stringify(ECHO)}), 'ECHO')`);
        await this.takes('core', 'address', 'registers', 'lamps');
        this.model.changes('machine', before, 'the load of ECHO');
        this.model.isDepositing = false;
        await this.click('key-start');
        let printed = before.console;
        for (const isLeft of this.any(2) ? [false, true] : [false]) {
            if (isLeft) await this.reload();
            await this.page.until('geivottu.machine.isGoing');
            const letter = this.letter;
            await this.strike('console', letter);
            printed += letter;
            await this.page.until(`document.getElementById('console').textContent.length >= ${printed.length}`);
        }
        await this.page.look(`(async () => { document.getElementById('key-stop').click(); await geivottu.machine.going; })()`);
        await this.takes('core', 'registers', 'lamps', 'steps');
        this.shown.machine.console = printed;
    }

    // Volumes, and their files.

    async volume(page = this.page) {
        const name = `V${this.done.length}`;
        await page.look(`{ document.getElementById('new-name').value = '${name}'; document.getElementById('new-blocks').value = '20'; document.getElementById('create').click(); }`);
        await page.until(`document.getElementById('volume').value === '${name}' && geivottu.store.files.has('${name}')`);
        await this.takesImage(name, page);
        if (page === this.page) this.shown.volume = name;
        page === this.page ? this.model.changes(`images ${name}`, undefined, `the new volume ${name}`) : this.model.changesThere(`images ${name}`, undefined, `the new volume ${name}`);
    }

    async file() {
        const { volume, images } = this.shown, name = `F${this.done.length}.TX`, before = images[volume];
        if (volume === '') return this.volume();
        if (this.model.isHeld) return this.session();
        await this.puts(name);
        await this.takesImage(volume);
        this.model.changes(`images ${volume}`, before, `putting ${name}`);
    }

    async puts(name, page = this.page) {
        await page.look(`geivottu.files.putFiles([new File(['${this.fresh.trim()}\\n'], '${name}')])`);
        await page.until(`!!document.querySelector('tr[data-name="${name}"]')`);
    }

    async deletion() {
        const { volume, images } = this.shown, name = await this.page.look(`document.querySelector('#directory tbody tr')?.dataset.name ?? ''`), before = images[volume];
        if (volume === '' || name === '' || this.model.isHeld) return this.file();
        await this.page.look(`if (geivottu.files.entries.some(it => it.name === '${name}'))
            for (const it of ['more', 'delete']) document.querySelector('button[aria-label="${name} ' + it + '"]').click()`);
        await this.page.until(`!document.querySelector('tr[data-name="${name}"]')`);
        await this.takesImage(volume);
        this.model.changes(`images ${volume}`, before, `the deletion of ${name}`);
    }

    async gone() {
        const { volume, images } = this.shown, before = images[volume];
        if (volume === '') return this.volume();
        if (this.model.isHeld) return this.session();
        await this.click('drop-image');
        await this.page.until(`(it => it && (it.click(), true))(document.querySelector('#question[open] button[value="remove"]'))`);
        await this.page.until(`!geivottu.store.files.has('${volume}')`);
        this.model.set(`images ${volume}`, undefined);
        this.shown.volume = this.model.volumes[0] ?? '';
        this.model.changes(`images ${volume}`, before, `the removal of ${volume}`);
    }

    // A session of the Script pane: it is begun, stores files, and is ended.
    async session() {
        const { volume, isSession, images } = this.shown;
        if (isSession) return this.any(3) ? this.line() : this.end();
        if (volume === '') return this.volume();
        await this.click('session');
        await this.page.until(`!document.getElementById('entry-line').disabled`);
        this.model.held = { volume, before: images[volume] };
        await this.takes('replies', 'told', 'isSession');
    }

    async line() {
        const { replies } = this.shown, name = `S${this.done.length}`;
        await this.page.look(`for (const it of ['STORE ${name} 1', '${this.fresh.trim()}']) {
            document.getElementById('entry-line').value = it; document.getElementById('entry').dispatchEvent(new Event('submit', { cancelable: true })); }`);
        await this.page.until(`document.getElementById('replies').textContent.includes('STORED ${name}')`);
        await this.takes('replies');
        if (!this.shown.replies.startsWith(replies)) throw new Error(`replies are lost: ${replies}`);
        await this.takesImage(this.model.held?.volume);
    }

    async end() {
        await this.click('session');
        await this.page.until(`document.getElementById('entry-line').disabled && document.getElementById('script-status').textContent !== 'running'`);
        const { told } = await this.takes('replies');
        this.model.ends(told);
    }

    // A program at the Teletype, which prints the keys that it gets.
    async program() {
        if (this.shown.runs) return this.key();
        await this.page.look(`(async () => { const { teletype, tabs } = geivottu;
            if (!teletype.own) await teletype.take('ECHO', new Uint8Array(${JSON.stringify(ECHO)}));
            tabs.show('machine'); document.getElementById('tty-run').click(); })()`);
        await this.page.until('geivottu.teletype.run !== null');
        this.shown.runs = true;
    }

    async key(page = this.page) {
        if (!this.shown.runs) return this.program();
        const letter = this.letter;
        await page.until('geivottu.teletype.run !== null');
        await this.strike('paper', letter, page);
        this.shown.paper += letter;
    }

    async halt() {
        if (!this.shown.runs) return this.program();
        await this.click('tty-stop');
        this.shown.runs = false;
    }

    async tear() {
        const { paper } = this.shown;
        if (paper === '') return this.key();
        await this.click('tear');
        this.shown.paper = '';
        this.model.changes('paper', paper, 'tearing the paper off', true);
    }

    undo() { return this.back(false); }

    again() { return this.back(true); }

    // Undo is pressed once more before what it does is seen.
    async undos() { for (let k = 0; k < 5 && (k === 0 || this.model.past.length); k++) await this.undo(); }

    async back(isAgain) {
        const key = `texts ${this.shown.open}`, isKey = this.any(2) === 1, id = isAgain ? 'redo' : 'undo';
        if (!this.model[isAgain ? 'future' : 'past'].length) return this.text();
        if (isKey) await this.page.look(`document.getElementById('text').dispatchEvent(new KeyboardEvent('keydown', { key: '${isAgain ? 'y' : 'z'}', ctrlKey: true, bubbles: true }))`);
        else await this.click(id);
        this.model.back(isAgain, isKey ? key : undefined);
    }

    async reload() {
        await this.page.go(`${this.url}?visit=${++this.visits}#machine`);
        await this.page.until(SHOWN);
        this.model.reload();
    }

    // A second tab shows what the first has, does some of what can be done, which the first shows then, and is closed.
    async tab() {
        const it = await this.page.tab();
        await it.go(`${this.url}?second#machine`);
        await this.sees(it, 'open', 'texts', 'lines', 'images', 'paper');
        for (const what of THERE) {
            if (this.any(3) === 0) continue;
            this.done.push(`${what} there`);
            await this[`${what}There`](it);
        }
        await this.sees(it, 'open', 'texts', 'lines', 'images', 'paper');
        await this.sees(this.page, 'open', 'texts', 'lines', 'images', 'paper');
        await it.end();
        await this.page.until(`['text', 'script', 'machine', 'tty'].every(it => document.getElementById(it + '-follows').hidden)`);
    }

    // Has a second tab take what the first has.
    async take(it, kind) {
        await it.until(`!document.getElementById('${kind}-follows').hidden`);
        await it.look(`document.querySelector('#${kind}-follows button').click()`);
        await it.until(`document.getElementById('${kind}-follows').hidden`);
        this.model.splits();
    }

    async textThere(it) {
        await this.take(it, 'text');
        await this.text(it);
    }

    async scriptThere(it) {
        await this.take(it, 'script');
        await this.script(it);
    }

    async machineThere(it) {
        await this.take(it, 'machine');
        await this.sees(it, 'machine');
        const before = this.shown.machine;
        await this.click('key-deposit', it);
        this.shown.machine = (await this.still(it)).machine;
        this.model.changesThere('machine', before, 'the deposits');
        this.model.isDepositing = false;
    }

    async teletypeThere(it) {
        await this.take(it, 'tty');
        if (this.shown.runs) await this.key(it);
    }

    volumeThere(it) { return this.volume(it); }

    // Puts a file into a volume that isn't open in the first tab.
    async fileThere(it) {
        const { volume, images } = this.shown, free = this.model.volumes.filter(name => name !== volume && name !== this.model.held?.volume), name = `G${this.done.length}.TX`;
        if (!free.length) return;
        await it.choose('#volume', free[0]);
        await it.until(`document.getElementById('volume').value === '${free[0]}' && document.getElementById('follows').hidden`);
        const before = images[free[0]];
        await this.puts(name, it);
        await this.takesImage(free[0], it);
        this.model.changesThere(`images ${free[0]}`, before, `putting ${name}`);
    }

    async run() {
        const { page } = this;
        await page.call('Page.addScriptToEvaluateOnNewDocument', { source: 'delete Navigator.prototype.serviceWorker;' });
        await page.go(`${this.url}#machine`);
        await page.until(SHOWN);
        await page.choose('#source-name', 'A');
        const { past, future, keys, ...shown } = await this.still();
        this.model = new Model(shown);
        const tab = this.any(4 * LONG);
        for (let k = 0; k < LONG; k++) await this.does(k === tab ? 'tab' : STEPS[this.any(STEPS.length)]);
        await this.does('reload');
    }

    async does(what) {
        this.done.push(what);
        await this[what]();
        await this.sees();
        if (this.page.errors.length) throw new Error(this.page.errors.join('; '));
    }
}

const browser = await Browser.open(), server = await serve(folder);
let passed = 0, failed = 0;
const chosen = process.argv.slice(4).filter((it, k, all) => /^\d+$/.test(it) && !all[k - 1]?.startsWith('--')).map(Number);
for (const number of chosen.length ? chosen : Array.from({ length: count }, (_, k) => k)) {
    const page = await browser.user(), it = new Sequence(page, server.url, number);
    try {
        await page.size(1200, 900);
        await it.run();
        passed++;
    } catch (error) {
        failed++;
        console.log(`sequences: NOT ${number} of seed ${seed}: ${it.done.join(', ')}: ${error instanceof Error ? error.message : error}`);
    } finally {
        await page.end();
    }
}
await browser.end();
server.end();
console.log(`${passed} passed, ${failed} failed`);
process.exitCode = failed ? 1 : 0;
