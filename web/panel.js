// The front panel as a picture that works: lamps that show what `REGISTERS` said, switches, and keys that give lines. While the machine goes a lamp
// glows by the share of the time that it is lit. The lamps stand alone too, where a step of a trace is shown.
import { isOctal, made, rove, tell } from './dom.js';
import { helpAt } from './help.js';

/** @type {[string, string, number][]} */
const ROWS = [
    ['pc', 'Program counter', 12], ['ma', 'Memory address', 12], ['mb', 'Memory buffer', 12], ['ac', 'Accumulator', 12],
];
/** @type {[string, string, number][]} */
const SMALL = [['l', 'Link', 1], ['if', 'Inst field', 3], ['df', 'Data field', 3], ['run', 'Run', 1], ['ion', 'Ion', 1]];
/** @type {[Exclude<keyof Doings, 'switches' | 'fields'>, string, string][]} */
const KEYS = [
    ['start', 'Start', 'starts at the address, with AC and L clear'], ['load', 'Load add', 'takes the address from the switches, into PC'],
    ['deposit', 'Dep', 'deposits the switches at the address'], ['examine', 'Exam', 'shows the word at the address'],
    ['go', 'Cont', 'goes on, or from the address that was loaded'], ['stop', 'Stop', 'stops'], ['step', 'Sing step', 'makes one step, from the address where one was loaded'],
];

// How many of the steps that were looked at last MA and MB show while the machine goes.
const USES = 16;

// Rows of lamps, by their names, each with its word in octal beside it.
export class Lamps {
    /** @type {Record<string, Element[]>} */
    #lamps = {};
    /** @type {Record<string, number | null>} */
    #shown = {};
    // For how many of the steps that were seen since the last picture each lamp was lit.
    /** @type {Record<string, number[]>} */
    #lit = {};
    #seen = 0;
    /** @type {Record<'ma' | 'mb', number>[]} */
    #uses = [];
    /** @type {Record<string, Element>} */
    #words = {};

    // `mark` is the attribute that has each row's name.
    /** @param {Element} element @param {[string, string, number][]} rows @param {string} [mark] */
    constructor(element, rows, mark = 'data-row') {
        for (const row of rows) element.append(this.#row(row, mark));
        const small = made('div', { class: 'small' });
        for (const row of SMALL) small.append(this.#row(row, mark));
        element.append(small);
    }

    /** @param {[string, string, number]} it @param {string} mark */
    #row([name, text, bits], mark) {
        const lamps = Array.from({ length: bits }, () => made('span', { class: 'lamp' }));
        this.#lamps[name] = lamps;
        this.#lit[name] = lamps.map(() => 0);
        const word = this.#words[name] = made('span', { class: 'word' });
        const row = made('div', { class: 'bits' }, ...threes(lamps));
        return made('div', { class: 'lamps', role: 'img', [mark]: name, 'aria-label': text }, made('span', { class: 'name' }, text), row, word);
    }

    // Sees registers that the machine had for so many steps, of which the next picture shows how long each lamp was lit.
    /** @param {Registers} registers @param {number} steps */
    see(registers, steps) {
        this.#seen += steps;
        for (const [name, word] of Object.entries(wordsOf(registers))) {
            const lit = this.#lit[name];
            for (let bit = lit.length - 1, rest = word; rest; bit--, rest >>= 1) if (rest & 1) lit[bit] += steps;
        }
    }

    // Sees what a step used that was looked at.
    /** @param {{ address: number, word: number | null } | null} access */
    use(access) {
        if (access && access.word !== null) this.#uses = [...this.#uses, { ma: access.address & 0o7777, mb: access.word }].slice(-USES);
    }

    // Lets each lamp glow by its share of the time, while the machine goes; those of MA and MB by their share of the steps that were looked at.
    #glow() {
        for (const name of /** @type {const} */ (['ma', 'mb']))
            this.#lamps[name].forEach((lamp, bit) => { const lit = this.#uses.filter(it => it[name] >> (11 - bit) & 1).length;
                /** @type {HTMLElement} */ (lamp).style.setProperty('--glow', (lit / Math.max(1, this.#uses.length)).toFixed(2)); });
        for (const [name, lit] of Object.entries(this.#lit)) {
            if (name === 'run' || name === 'ma' || name === 'mb') continue;
            this.#lamps[name].forEach((lamp, bit) => /** @type {HTMLElement} */ (lamp).style.setProperty('--glow', (lit[bit] / this.#seen).toFixed(2)));
            lit.fill(0);
        }
        this.#seen = 0;
    }

    // All lamps are lit as they are, or dark.
    #settle() {
        for (const lamps of Object.values(this.#lamps)) for (const lamp of lamps) /** @type {HTMLElement} */ (lamp).style.removeProperty('--glow');
        for (const lit of Object.values(this.#lit)) lit.fill(0);
        this.#seen = 0;
        this.#uses = [];
    }

    // Shows the registers, and the address and the word that were used last; where these are not known, their lamps are dark.
    /** @param {Registers | null} registers @param {number | null} address @param {number | null} word @param {boolean} [isGoing] */
    show(registers, address, word, isGoing = false) {
        if (!registers) return;
        for (const [name, word] of Object.entries(wordsOf(registers))) this.#light(name, word, name === 'ion' ? '' : undefined);
        this.#light('run', Number(isGoing), '');
        if (isGoing && this.#seen) this.#glow();
        else if (!isGoing) this.#settle();
        this.#light('ma', address === null ? null : address & 0o7777);
        this.#light('mb', word);
    }

    /** @param {string} name @param {number | null} word @param {string} [shown] */
    #light(name, word, shown) {
        const lamps = this.#lamps[name], bits = lamps?.length;
        if (!lamps) return;
        const text = shown ?? (word === null ? '' : word.toString(8).padStart(Math.ceil(bits / 3), '0'));
        if (this.#shown[name] === word) return;
        this.#shown[name] = word;
        lamps.forEach((it, bit) => it.classList.toggle('on', word !== null && (word >> (bits - 1 - bit) & 1) === 1));
        this.#words[name].textContent = text;
        const row = /** @type {Element} */ (this.#words[name].parentNode);
        row.querySelector('.bits')?.classList.toggle('dark', word === null);
        row.setAttribute('aria-label', `${row.querySelector('.name')?.textContent} ${word === null ? 'not known' : bits === 1 ? (word ? 'on' : 'off') : text}`);
    }
}

export class Panel extends Lamps {
    /** @type {Record<string, HTMLButtonElement>} */
    #keys = {};
    /** @type {Element[]} */
    field = [];
    /** @type {Element[]} */
    register = [];
    /** @type {Element | null} */
    dragged = null;
    side = '';
    switchesShown = made('input');
    #address = 0;

    // `does` has what each key does, and `switches` what a change of the switches does.
    /** @param {Element} element @param {Doings} does */
    constructor(element, does) {
        const board = made('div', { class: 'board' }, made('div', { class: 'brand' }, made('span', {}, 'programmed data processor'), made('span', {}, '8/I')));
        super(board, ROWS);
        this.does = does;
        board.append(this.#switches());
        const keys = made('div', { class: 'keys' });
        for (const [what, text, title] of KEYS) {
            this.#keys[what] = made('button', { title: `${text} ${title}`, id: `key-${what}`, onclick: (/** @type {MouseEvent} */ { detail }) => does[what](detail > 0) }, text);
            keys.append(this.#keys[what]);
        }
        this.addressShown = made('span', { class: 'name', id: 'address' });
        keys.append(this.addressShown);
        const help = made('p', { class: 'help', id: 'panel-help' });
        element.append(board, keys, help);
        for (const it of [keys, .../** @type {NodeListOf<HTMLElement>} */ (element.querySelectorAll('.switches .bits'))]) rove(it);
        helpAt(keys, help, it => it.closest('button')?.title ?? '');
    }

    #switches() {
        const field = this.field = [2, 1, 0].map(bit => this.#switch(`field switch ${bit}`, () => this.does.fields(this.fieldSwitches)));
        const register = this.register = Array.from({ length: 12 }, (_, bit) => this.#switch(`switch ${bit}`, () => this.does.switches(this.switches)));
        this.switchesShown = made('input', { class: 'word', id: 'switches-shown', size: 4, maxlength: 4, inputmode: 'numeric', 'aria-label': 'Switch register in octal' });
        this.switchesShown.addEventListener('change', () => this.#typed());
        /** @param {string} text @param {Element[]} own @param {Element} shown @param {string} id */
        const line = (text, own, shown, id) => made('div', { class: 'switches', role: 'group', id, 'aria-label': text },
            made('span', { class: 'name' }, text), made('div', { class: 'bits' }, ...threes(own)), shown);
        const rows = made('div', {}, line('Field', field, made('span', { class: 'word' }), 'field-switches'), line('Switch register', register, this.switchesShown, 'switch-register'));
        this.#told();
        return rows;
    }

    // A click moves a switch; a drag over others moves them to the same side.
    /** @param {string} label @param {() => void} changed */
    #switch(label, changed) {
        /** @param {string} side */
        const move = side => {
            if (it.getAttribute('aria-checked') === side) return;
            it.setAttribute('aria-checked', side);
            this.#told();
            changed();
        };
        const it = made('button', { class: 'switch', role: 'switch', 'aria-checked': 'false', 'aria-label': label,
            onclick: (/** @type {MouseEvent} */ { detail }) => detail && this.dragged ? undefined : move(String(it.getAttribute('aria-checked') !== 'true')),
            onpointerdown: (/** @type {PointerEvent} */ { pointerId }) => {
                this.dragged = null;
                this.side = String(it.getAttribute('aria-checked') !== 'true');
                if (it.hasPointerCapture(pointerId)) it.releasePointerCapture(pointerId);
            },
            onpointerenter: (/** @type {PointerEvent} */ { buttons }) => { if (buttons === 1 && this.side) this.#drag(it, move); },
            onpointerleave: (/** @type {PointerEvent} */ { buttons }) => { if (buttons === 1 && this.side) this.#drag(it, move); } });
        return it;
    }

    // A drag has reached a switch, or has left the one that it began at.
    /** @param {Element} it @param {(side: string) => void} move */
    #drag(it, move) {
        this.dragged = it;
        move(this.side);
    }

    // The switches as they were typed in octal, where that is a word.
    #typed() {
        const text = this.switchesShown.value.trim();
        if (!isOctal(text, 4)) {
            tell('machine-status', 'The switches are a word of at most four octal digits.', true);
            return this.#told();
        }
        this.switches = Number.parseInt(text, 8);
        this.does.switches(this.switches);
    }

    #told() { this.switchesShown.value = this.switches.toString(8).padStart(4, '0'); }

    get switches() { return wordOf(this.register); }

    /** @param {number} word */
    set switches(word) {
        this.register.forEach((it, bit) => it.setAttribute('aria-checked', String((word >> (11 - bit) & 1) === 1)));
        this.#told();
    }

    get fieldSwitches() { return wordOf(this.field); }

    /** @param {number} word */
    set fieldSwitches(word) { this.field.forEach((it, bit) => it.setAttribute('aria-checked', String((word >> (2 - bit) & 1) === 1))); }

    get address() { return this.#address; }

    /** @param {number} cell */
    set address(cell) {
        this.#address = cell;
        this.addressShown.textContent = `address ${cell.toString(8).padStart(5, '0')}`;
    }

    /** @param {boolean} isGoing */
    runs(isGoing) {
        this.#keys.stop.disabled = !isGoing;
        for (const name of ['go', 'step', 'load', 'deposit', 'examine']) this.#keys[name].disabled = isGoing;
    }
}

// The words of the rows that `REGISTERS` prints.
/** @param {Registers} it */
function wordsOf(it) {
    return { pc: Number.parseInt(it.pc, 8), ac: Number.parseInt(it.ac, 8), l: Number(it.l), if: Number(it.if), df: Number(it.df), ion: Number(it.ion) };
}

// Lamps or switches by threes, as their octal digits are.
/** @param {Element[]} all */
function threes(all) {
    return Array.from({ length: Math.ceil(all.length / 3) }, (_, k) => made('span', {}, ...all.slice(3 * k, 3 * k + 3)));
}

/** @param {Element[]} switches */
function wordOf(switches) {
    return switches.reduce((word, it) => 2 * word + (it.getAttribute('aria-checked') === 'true' ? 1 : 0), 0);
}
