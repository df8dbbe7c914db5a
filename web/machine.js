// The Machine pane: a `run` that lives, to whose console each key of the panel gives a line, and whose replies the lamps show.
import { $, ids, isOctal, made, octal, rove, tell, keepInput } from './dom.js';
import { Living } from './living.js';
import { listTapes, loadChosen } from './loads.js';
import { canLive, textOf } from './program.js';
import { STATES, helpAt, helpOf } from './help.js';
import { Accesses, after, before } from './access.js';
import { Code } from './code.js';
import { Foreseen } from './foreseen.js';
import { rateOf, uneven } from './pace.js';
import { Owner } from './owner.js';
import { Panel } from './panel.js';
import { Paper } from './paper.js';
import { Keys } from './keys.js';
import { Watch } from './watch.js';
import { stepsIn } from './words.js';

// What a PDP-8/I does in a millisecond, about; and how long its printer takes for a character, in milliseconds.
const STEPS = 300, CHARACTER = 100;
const LEAST = 20000, MOST = 1000000, LOOKS = 8, PICTURE = 10;
// How many steps and lines the journal may have while the machine goes, and when it has stopped.
const GOING = /** @type {const} */ ([300000000, 20000]), STOPPED = /** @type {const} */ ([5000000, 2000]);
// The notes that are the machine as the page keeps it.
const STATE = ['machine', 'printed', 'access', 'steps', 'loaded', 'address', 'switches', 'fields', 'breaks', 'listing', 'names', 'console', 'keys'];

export class Machine {
    /** @type {Registers | null} */
    registers = null;
    /** @type {number | null} */
    since = null;
    isPrinting = false;
    keptAt = 0;
    listedAt = 0;
    total = 0;
    accesses = new Accesses();
    reply = '';
    stepped = Promise.resolve(); going = Promise.resolve(false);
    /** @type {number | null} */
    steps = null;
    isGoing = false;
    many = LEAST;

    /** @param {Page} page */
    constructor(page) {
        this.page = page;
        this.isDepositing = false;
        this.panel = new Panel($('panel'), {
            switches: word => this.#switch(word),
            fields: word => page.store.note('fields', word),
            load: () => this.#loadAddress(), examine: () => this.#examine(), deposit: () => this.#deposit(),
            start: isByPointer => this.start(isByPointer), stop: () => this.stop(), go: () => this.goOn(), step: () => this.step(),
        });
        // the machine that has printed a paper is kept with it: neither may be there without the other
        this.paper = new Paper($('console'), { sound: page.sound, kept: text => { page.store.note('console', text); this.living.keep(); } });
        this.living = new Living(page, { switches: () => this.panel.switches, breaks: () => this.breaks, changed: () => this.#keep(), ended: why => this.#ended(why) });
        this.code = new Code(page, (...lines) => this.#ask(...lines));
        for (const id of ids('speed', 'printer', 'core-from', 'watch')) keepInput(page.store, id);
        $('power').addEventListener('click', () => this.renew());
        $('step-over').addEventListener('click', () => this.stepOver());
        this.watch = new Watch((...lines) => this.#ask(...lines));
        this.foreseen = new Foreseen(page, this);
        rove($('code'));
        helpAt($('code'), $('code-help'), it => helpOf(it.closest('.l')?.textContent ?? ''));
        $('core-tape').addEventListener('change', () => loadChosen(page, $('core-tape')));
        $('core-from').addEventListener('change', () => isOctal($('core-from').value, 5) ? (tell('machine-status', ''), this.#core()) : tell('machine-status', 'Core is shown from an address of at most five octal digits.', true));
        this.keys = new Keys(page.store);
        for (const it of ['volume', 'tape']) page.store.addEventListener(it, () => listTapes(page));
        $('machine').addEventListener('shown', () => this.#refresh());
        page.store.addEventListener('leave', () => this.#keep(true));
        page.undo.machine = { get: () => this.state, set: state => this.bring(state) };
        this.owner = new Owner(page, 'machine', $('machine-follows'), follows => this.#close(follows));
    }

    // Shows the machine as the page keeps it, once no other tab has it. One that another tab takes is stopped here.
    /** @param {boolean} follows */
    async #close(follows) {
        $('machine').classList.toggle('followed', follows && this.owner !== undefined);
        if (!follows) return this.#restore();
        this.isGoing = this.isDepositing = false;
        await this.living.stop();
    }

    // The machine as text: what the page keeps of it.
    get state() {
        this.#keep(true);
        return JSON.stringify(STATE.map(it => [it, this.page.store.notes.get(it)]));
    }

    // Brings back a machine in place of this one.
    /** @param {string} state */
    async bring(state) {
        await this.#halt();
        for (const [key, value] of JSON.parse(state)) this.page.store.note(key, value ?? null);
        this.page.store.note('going', false);
        await this.#restore();
    }

    async #restore() {
        const { notes } = this.page.store;
        await this.living.restart();
        this.isPrinting = true;
        this.paper.replace(notes.get('console') ?? '');
        this.panel.address = notes.get('address') ?? 0o200;
        this.panel.switches = notes.get('switches') ?? 0;
        this.panel.fieldSwitches = notes.get('fields') ?? 0;
        this.accesses.set(notes.get('access') ?? null);
        this.#count(notes.get('steps') ?? null);
        this.code.breaks = new Set(notes.get('breaks'));
        this.list(notes.get('listing') ?? '', notes.get('names') ?? '');
        await this.#refresh();
        if (canLive && notes.get('going')) this.go();
    }

    get breaks() { return this.code.breaks; }

    // Whether START's address was loaded since the machine last went.
    get isLoaded() { return this.page.store.notes.get('loaded') === true; }

    set isLoaded(isLoaded) { if (isLoaded !== this.isLoaded) this.page.store.note('loaded', isLoaded); }

    // The name of a small volume, over which a machine's run looks.
    image() { return this.living.image(); }

    /** @param {...string} lines @returns {Promise<string[] | null>} */
    async #ask(...lines) {
        return this.owner.follows ? null : this.living.ask(...lines);
    }

    // Has the page keep where the machine is. While it goes that is from time to time, and when the page is left.
    #keep(isDue = !this.isGoing) {
        const { store } = this.page;
        if (!isDue || this.owner.follows) return;
        this.keptAt = performance.now();
        this.paper.keep();
        this.living.keep();
        store.note('access', this.accesses.last);
        store.note('steps', this.steps);
    }

    /** @param {string} why */
    #ended(why) {
        this.isGoing = false;
        tell('machine-status', `the machine's run ended: ${why}`, true);
    }

    // A machine whose core is empty.
    async renew() {
        if (!this.owner.follows) await this.page.undo.ofMachine('the new machine', () => this.#renew());
    }

    async #renew() {
        await this.#halt();
        await this.living.restart(true);
        this.accesses.set(null);
        this.#count(null);
        this.breaks.clear();
        this.code.keep();
        this.#keep();
        this.isLoaded = false;
        this.keys.drop();
        this.list('');
        this.paper.tear();
        tell('machine-status', 'a new machine');
        await this.#refresh();
    }

    // Lays the words of a tape over core, one by one as `tape` lists them. A core image says where its program starts.
    /** @param {Uint8Array} tape @param {string} name @param {string | null} [start] */
    async load(tape, name, start = null) {
        if (this.owner.follows) return this.page.say(`${$('machine-follows').textContent}`, true);
        const { status, out, said } = await this.page.programs.ask(['tape'], tape);
        if (status !== 0) {
            tell('machine-status', `${name}: ${textOf(out)}${said}`, true);
            return false;
        }
        await this.page.undo.ofMachine(`the load of ${name}`, () => this.lay(textOf(out), name, start));
        return true;
    }

    // Lays words over core, as `tape` lists them.
    /** @param {string} listed @param {string} name @param {string | null} [start] */
    async lay(listed, name, start = null) {
        await this.#halt();
        const words = listed.trim().split('\n').filter(it => it).map(it => it.split(' '));
        await this.#ask(...words.map(([field, address, word]) => `DEPOSIT ${field}${address} ${word}`));
        const first = words[0] ? Number.parseInt(words[0][0] + words[0][1], 8) : 0o200, isStart = start !== null && /^[0-7]{5}$/.test(start);
        this.#point(isStart ? Number.parseInt(start, 8) : words.some(([field, address]) => field + address === '00200') ? 0o200 : first);
        this.isLoaded = true;
        tell('machine-status', `${name}: ${words.length === 1 ? '1 word is' : `${words.length} words are`} in core; START begins at ${octal(this.panel.address, 5)}`);
        await this.#refresh();
    }

    /** @param {number} cell */
    #point(cell) {
        this.panel.address = cell;
        this.page.store.note('address', cell);
    }

    // Shows a listing, whose cells are buttons for breaks; `symbols` has its names with their values.
    /** @param {string} text @param {string} [symbols] */
    list(text, symbols = '') {
        this.watch.name(symbols);
        this.page.store.note('names', symbols);
        this.code.list(text);
        this.code.mark(this.#lit, this.isGoing);
        if (this.living.lines) this.watch.show();
    }

    /** @param {number} word */
    #switch(word) {
        this.page.store.note('switches', word);
        this.#ask(`SWITCHES ${octal(word, 4)}`);
        this.#show();
    }

    #loadAddress() {
        this.isLoaded = true;
        this.#point(this.panel.fieldSwitches * 0o10000 + this.panel.switches);
        tell('machine-status', `address ${octal(this.panel.address, 5)}`);
        this.accesses.set({ address: this.panel.address, word: null });
        this.#show();
    }

    // What the lamps show: the registers and the switches, and in PC the address that was loaded, until the machine goes from there.
    get #lit() {
        const { panel: { address, switches } } = this, registers = this.registers && { ...this.registers, switches: octal(switches, 4) };
        return this.isLoaded && registers ? { ...registers, if: String(address >> 12), df: String(address >> 12), pc: octal(address & 0o7777, 4) } : registers;
    }

    // The cell after one, in its field.
    /** @param {number} cell */
    #next(cell) { return (cell & 0o70000) + ((cell + 1) & 0o7777); }

    async #examine() { await this.#cell(`EXAMINE ${octal(this.panel.address, 5)}`); }

    // Deposits the switches. Deposits with no step between them are one change.
    async #deposit() {
        const line = `DEPOSIT ${octal(this.panel.address, 5)} ${octal(this.panel.switches, 4)}`, isFurther = this.isDepositing;
        await this.page.undo.ofMachine('the deposits', () => this.#cell(line), isFurther);
        this.isDepositing = true;
        await this.#core();
    }

    /** @param {string} line */
    async #cell(line) {
        const [reply] = await this.#ask(line) ?? [''], [cell, word] = reply.split(' ');
        tell('machine-status', reply);
        this.#point(this.#next(this.panel.address));
        this.accesses.set({ address: Number.parseInt(cell, 8), word: Number.parseInt(word, 8) });
        this.#show();
    }

    // Starts at the address that was loaded. Who pressed the key by a pointer types at the Teletype then.
    /** @param {boolean} [isByPointer] */
    async start(isByPointer = false) {
        if (isByPointer) $('console').focus({ preventScroll: true });
        this.panel.runs(true);
        await this.#halt();
        this.isLoaded = false;
        const [reply] = await this.#begun(this.panel.address) ?? [''];
        tell('machine-status', stepsIn(reply));
        await this.go();
    }

    // Has the machine start at a cell. Its steps are counted from here.
    /** @param {number} cell */
    #begun(cell) {
        this.#count(0);
        return this.#ask(`START ${octal(cell, 5)}`);
    }

    // Shows how many steps were made since START, null where that is not known.
    /** @param {number | null} steps */
    #count(steps) {
        this.steps = steps;
        $('steps').textContent = steps === null ? '' : `${steps} ${steps === 1 ? 'step' : 'steps'} since START`;
    }

    // Starts at a cell with these switches, and makes so many steps by these lines.
    /** @param {number} cell @param {number} switches @param {string[]} lines @param {number} steps */
    async runTo(cell, switches, lines, steps) {
        if (this.owner.follows) return;
        this.#point(cell);
        this.isLoaded = false;
        this.panel.switches = switches;
        this.page.store.note('switches', switches);
        await this.#ask(`SWITCHES ${octal(switches, 4)}`);
        await this.#begun(cell);
        this.reply = (await this.#ask(...lines))?.filter(it => it.startsWith('STEPS')).at(-1) ?? '';
        this.#count(steps);
        tell('machine-status', `after step ${steps}: ${stepsIn(this.reply)}`);
        await this.#stopped();
    }

    stop() { this.isGoing = false; }

    // One step: from the address that was loaded, if one was since the machine last went, else from where it is.
    step() { return this.stepped = this.stepped.then(() => this.#step()); }

    async #step() {
        this.isGoing = false;
        await this.#startLoaded();
        await this.#lookedAt('STEP');
        tell('machine-status', stepsIn(this.reply));
        this.#keep();
        this.#show();
        await this.#stopped();
    }

    // One step, of which MA and MB show what it used.
    /** @param {string} word */
    async #lookedAt(word) {
        /** @param {...string} lines */
        const ask = (...lines) => this.#ask(...lines), state = await before(ask), why = await this.#slice(word, 1);
        if (!this.reply.startsWith('STEPS 0')) this.accesses.set(await after(ask, state));
        this.panel.use(this.accesses.last);
        return why;
    }

    // Starts at the address that was loaded, if one was since the machine last went.
    async #startLoaded() {
        if (this.isLoaded) await this.#begun(this.panel.address);
        this.isLoaded = false;
    }

    // Goes on: from the address that was loaded, if one was since the machine last went, else from where it is.
    async goOn() {
        if (this.isGoing) return;
        await this.#startLoaded();
        await this.go();
    }

    // One step, but a subroutine that a JMS calls is done as a whole. It ends at the instruction after the call, or at the one after that.
    async stepOver() {
        if (this.isGoing) return;
        await this.#startLoaded();
        const [told] = await this.#ask('REGISTERS') ?? [];
        if (!told) return;
        const { if: field, pc } = this.registers = /** @type {Registers} */ (JSON.parse(told)), next = Number.parseInt(field + pc, 8);
        const [word] = await this.#ask(`EXAMINE ${octal(next, 5)}`) ?? [''];
        if (!/ 4\d{3}$/.test(word)) return this.step();
        const after = [this.#next(next), this.#next(this.#next(next))].map(it => octal(it, 5)).filter(it => !this.breaks.has(it));
        await this.#ask(...after.map(it => `BREAK ${it} ON`), 'REGISTERS');
        await this.go(false);
        await this.#ask(...after.map(it => `BREAK ${it} OFF`), 'REGISTERS');
    }

    // Goes on until something stops the machine; what it does is shown at each picture. `isToGoOn` says whether it does so after a reload.
    async go(isToGoOn = true) {
        if (this.isGoing) return;
        const isToFind = this.going = this.#go(isToGoOn);
        if (!await isToFind) return;
        await this.accesses.find(this.page.programs, await this.image(), (...lines) => this.#ask(...lines), this.reply, this.living.journal);
        this.#keep();
        this.#show();
    }

    // Has the machine stop, once it has.
    async #halt() {
        this.isGoing = this.isDepositing = false;
        await this.going;
    }

    // Whether it is to be found out what the last step used.
    /** @param {boolean} isToGoOn */
    async #go(isToGoOn) {
        this.isGoing = true;
        this.page.store.note('going', isToGoOn);
        this.isLoaded = false;
        this.accesses.set(null);
        this.panel.runs(true);
        let why = 'LIMIT', last = performance.now(), made = 0, told = last;
        while (this.isGoing && why === 'LIMIT') {
            await new Promise(requestAnimationFrame);
            const now = performance.now();
            const due = $('speed').value === 'real' ? Math.max(1, Math.round(Math.min(now - last, 100) * STEPS)) : Infinity;
            last = now;
            const before = this.total;
            why = await this.#picture(due, now + PICTURE);
            made += this.total - before;
            await this.watch.showAt(now);
            if (this.living.journal.isLonger(...GOING)) await this.living.shorten();
            this.#keep(now - this.keptAt > 1000);
            if (now - told > 500) {
                $('rate').textContent = `${rateOf(made / (now - told))} steps a second`;
                told = now;
                made = 0;
            }
        }
        const isStopped = !this.isGoing;
        if (why === 'LIMIT') why = await this.#lookedAt('GO');
        this.isGoing = false;
        this.page.store.note('going', false);
        this.panel.runs(false);
        tell('machine-status', isStopped ? `stopped by the key: ${stepsIn(this.reply).replace(/^1 step: (.*) \(.*\)$/, '$1')}` : stepsIn(this.reply), why === 'UNASSIGNED');
        $('rate').textContent = '';
        await this.#stopped();
        return !isStopped && why !== 'ENDED';
    }

    // Steps until so many are made, or the time for a picture is over.
    /** @param {number} due @param {number} until @returns {Promise<string>} */
    async #picture(due, until) {
        let why = 'LIMIT', left = due;
        do {
            const begun = performance.now();
            const about = Math.min(this.registers?.busy ? 400 : this.many, due / LOOKS), count = Math.max(1, Math.min(left, MOST, uneven(about)));
            const before = this.total;
            why = await this.#slice('GO', count);
            left -= this.total - before;
            const took = performance.now() - begun;
            if (took > 4) this.many = Math.max(LEAST, this.many / 2 | 0);
            else if (took < 2 && about === this.many) this.many = Math.min(MOST, this.many * 2);
        } while (this.isGoing && why === 'LIMIT' && left > 0 && performance.now() < until);
        if (this.isGoing && why === 'LIMIT') why = await this.#lookedAt('GO');
        this.#show();
        if (this.isPrinting) await this.#print();
        return why;
    }

    // A line STEP or GO, after what the printer and the keyboard are due.
    /** @param {string} word @param {number} count @returns {Promise<string>} */
    async #slice(word, count) {
        const lines = [];
        this.isDepositing = false;
        if (this.registers?.busy) {
            this.isPrinting = true;
            const now = performance.now();
            this.since ??= now;
            if ($('printer').value !== 'real' || now - this.since >= CHARACTER || word === 'STEP') {
                lines.push('DONE');
                this.since = null;
            }
        }
        const key = this.registers?.kbd ? undefined : this.keys.read();
        if (key !== undefined) lines.push(`KEY ${octal(key, 3)}`);
        lines.push(`${word} ${count}`, 'REGISTERS');
        const replies = await this.#ask(...lines);
        if (!replies) return 'ENDED';
        this.reply = replies[replies.length - 2];
        const registers = this.registers = /** @type {Registers} */ (JSON.parse(replies[replies.length - 1]));
        if (registers.busy) this.isPrinting = true;
        const [, steps, why] = this.reply.split(' ');
        this.total += Number(steps);
        if (this.steps !== null) this.steps += Number(steps);
        this.panel.see(registers, Number(steps));
        return why;
    }

    // What was printed since it was last shown.
    async #print() {
        this.isPrinting = this.registers?.busy ?? false;
        if (!this.owner.follows) this.paper.print(await this.living.print());
    }

    async #stopped() {
        await this.#print();
        this.#keep();
        await this.#refresh();
        if (this.living.journal.isLonger(...STOPPED)) await this.living.shorten();
    }

    // Shows the registers and some of core.
    async #refresh() {
        if (!canLive || $('machine').hidden) return;
        const [reply] = await this.#ask('REGISTERS') ?? [];
        if (!reply) return;
        this.registers = JSON.parse(reply);
        this.#show();
        await this.#core();
    }

    #show() {
        const { address = null, word = null } = this.accesses.last ?? {};
        this.panel.show(this.#lit, address, word, this.isGoing);
        this.#count(this.steps);
        if (this.isGoing && performance.now() - this.listedAt < 100) return;
        this.listedAt = performance.now();
        $('registers').replaceChildren(...Object.entries(this.#lit ?? {}).filter(([name]) => name !== 'run').map(([name, value]) => made('div', {}, made('dt', { title: STATES[name] ?? null }, name), made('dd', {}, String(value)))));
        this.code.mark(this.#lit, this.isGoing);
    }

    async #core() {
        if (!canLive) return;
        const from = Number.parseInt($('core-from').value, 8) & 0o77770;
        const cells = Array.from({ length: 64 }, (_, k) => (from & 0o70000) + ((from + k) & 0o7777));
        const replies = await this.#ask(...cells.map(it => `EXAMINE ${octal(it, 5)}`));
        if (!replies) return;
        await this.watch.show();
        const rows = Array.from({ length: 8 }, (_, k) => replies.slice(8 * k, 8 * k + 8));
        $('core').textContent = rows.map(it => `${it[0].slice(0, 5)}  ${it.map(one => one.slice(6)).join(' ')}`).join('\n');
    }
}
