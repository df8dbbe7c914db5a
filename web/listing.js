// The listing beside the text, line by line. The line of the cursor and its words are marked in both. What a run of the tape does is shown at them,
// by `trace` and `profile`.
import { $, bringIntoView, elementOf, ids, made, octal, tell } from './dom.js';
import { helpAt, helpOf } from './help.js';
import { Lamps } from './panel.js';
import { textOf } from './program.js';
import { depositsOf, doingOf, linesOf, stepOf } from './replay.js';

const STEPS = '1000', MOST = 8000;

export class Listing {
    /** @param {Page} page @param {import('./source.js').Source} source */
    constructor(page, source) {
        this.page = page;
        this.source = source;
        /** @type {Map<string, HTMLElement>} */
        this.cells = new Map();
        /** @type {Map<string, string>} */
        this.statements = new Map();
        /** @type {Map<number, HTMLElement[]>} */
        this.lines = new Map();
        /** @type {Element[]} */
        this.marked = [];
        /** @type {number | null} */
        this.at = null;
        this.start = this.keys = '';
        this.switches = this.turn = 0;
        this.lamps = new Lamps($('step-panel'), [['pc', 'Program counter', 12], ['ac', 'Accumulator', 12]], 'data-at-step');
        $('listing').addEventListener('click', event => this.#chosen(elementOf(event).closest('[data-line]')));
        $('text').addEventListener('click', () => this.#follow());
        for (const id of ids('listing', 'doings')) helpAt($(id), $('listing-help'), it => helpOf(it.closest('.l')?.textContent ?? ''));
        $('text').addEventListener('keyup', () => this.#follow());
        $('trace').addEventListener('click', () => this.#trace());
        $('profile').addEventListener('click', () => this.#profile());
        $('doings').addEventListener('click', event => this.#step(elementOf(event).closest('[data-step]')));
        $('doings').addEventListener('keydown', event => event.key === 'Enter' && this.#step(elementOf(event).closest('[data-step]')));
        $('to-step').addEventListener('click', () => this.#toStep());
    }

    // Lays out a listing. A line of a cell and a word alone belongs to the line of the text before it.
    /** @param {string} text */
    show(text) {
        const lines = text.match(/[^\n]*\n|[^\n]+$/g) ?? [];
        let number = 0, word = 0, own = '';
        this.cells = new Map();
        this.statements = new Map();
        this.lines = new Map();
        this.marked = [];
        $('listing').replaceChildren(...lines.slice(0, MOST).map(it => {
            const cell = /^([0-7]{5})  [0-7]{4}/.exec(it)?.[1], isFurther = /^[0-7]{5}  [0-7]{4}@?$/.test(it.trimEnd());
            if (!isFurther) [number, word, own] = [number + 1, 0, it.slice(16)];
            const line = made('span', { class: 'l', 'data-line': String(number), 'data-word': String(word), 'data-cell': cell ?? null }, it);
            if (cell) this.#cell(cell, line, own, word++);
            if (isFurther) this.lines.get(number)?.push(line);
            else this.lines.set(number, [line]);
            return line;
        }), lines.slice(MOST).join(''));
        this.#doings('');
        this.#follow();
    }

    // Notes the line of a cell, and the statement that gives its word.
    /** @param {string} cell @param {HTMLElement} line @param {string} text @param {number} word */
    #cell(cell, line, text, word) {
        this.cells.set(cell, line);
        this.statements.set(cell, (statementsOf(text)[word] ?? { text: text.replace(/\/.*/s, '').trim() }).text);
    }

    // Marks the words of the line that the cursor is in, and the one of its statement.
    #follow() {
        const text = $('text').value, place = $('text').selectionStart, line = lineAt(text, place), begin = place ? text.lastIndexOf('\n', place - 1) + 1 : 0, end = text.indexOf('\n', place);
        const own = text.slice(begin, end < 0 ? text.length : end), help = helpOf(own);
        if ($('listing-help').textContent !== help) $('listing-help').textContent = help;
        const lines = this.source.isOld ? [] : this.lines.get(line) ?? [];
        this.#mark(lines);
        const all = statementsOf(own), column = place - begin;
        if (all.length === lines.length && lines.length > 1) lines[all.filter(it => it.at <= column).length - 1]?.classList.add('own');
    }

    /** @param {Element[]} lines */
    #mark(lines) {
        for (const it of this.marked) it.classList.remove('at', 'own');
        for (const it of lines) it.classList.add('at');
        this.marked = lines;
        bringIntoView($('listing'), lines[0]);
    }

    // Goes to the line of the text that a line of the listing shows.
    /** @param {HTMLElement | null} line */
    #chosen(line) {
        if (!line || this.source.isOld) return;
        this.#goTo(line, true);
        this.#mark([line]);
    }

    // Goes to the line of the text that a line of the listing shows: to its statement, where the line has one for each of its words.
    /** @param {HTMLElement} line @param {boolean} takesFocus */
    #goTo(line, takesFocus) {
        const number = Number(line.dataset.line), place = this.source.placeOf(number);
        if (!place.isOpen) return tell('source-status', `That is line ${place.line} of the text ${place.name}.`);
        const all = statementsOf($('text').value.split('\n')[number - 1] ?? '');
        const isEach = all.length > 1 && all.length === this.lines.get(number)?.length;
        const { at, text } = all[isEach ? Number(line.dataset.word) : -1] ?? { at: 0, text: '' };
        this.source.goTo(number, takesFocus, at + 1, text.length);
    }

    /** @param {string} words @param {...(string | Node)} rows */
    #doings(words, ...rows) {
        $('doings').replaceChildren(words, ...rows);
        $('to-step').disabled = $('at-step').hidden = true;
        $('listing').classList.remove('counted');
        this.at = null;
        for (const it of /** @type {NodeListOf<HTMLElement>} */ ($('listing').querySelectorAll('[style]'))) {
            it.removeAttribute('style');
            delete it.dataset.count;
        }
    }

    // The cell that a run starts at: 00200 where the tape has it, else that of its first word, as the Machine starts it.
    async #start() {
        const { out } = await this.page.programs.ask(['tape'], this.source.tape ?? '');
        const cells = textOf(out).trim().split('\n').map(it => it.slice(0, 6).replace(' ', ''));
        return cells.includes('00200') ? '00200' : cells[0];
    }

    // What trace or profile prints of the tape of the text, null where there is no tape.
    /** @param {string} word @param {...string} more */
    async #run(word, ...more) {
        if (!await (this.source.tape ? this.source.renew() : this.source.assemble())) return null;
        this.keys = $('doing-keys').value.replaceAll('\\r', '\r');
        const set = $('doing-switches').value.trim();
        this.switches = /^[0-7]{1,4}$/.test(set) ? Number.parseInt(set, 8) : this.page.machine.panel.switches;
        this.start = await this.#start();
        const words = [word, '.source.bin', '--start', this.start, ...doingOf('doing', octal(this.switches, 4)), ...more];
        const { status, out, said } = await this.page.programs.ask(words);
        tell('source-status', said, status !== 0);
        return textOf(out).replace(/\n$/, '').split('\n');
    }

    async #trace() {
        const lines = await this.#run('trace', ...($('doing-steps').value.trim() === '' ? ['--steps', STEPS] : []));
        if (!lines) return;
        this.#doings('', ...lines.map((it, k) => k < lines.length - 1 ? this.#row(it, k) : `${it}\n`));
    }

    // A line of the trace, with the statement of the source that its word is of.
    /** @param {string} line @param {number} k */
    #row(line, k) {
        const own = this.statements.get(line.slice(0, 5)) ?? null;
        return made('span', { class: 'l', 'data-step': String(k), 'data-own': own, tabindex: k ? '-1' : '0' }, `${line}\n`);
    }

    // The profile as the background colour of the lines of the listing, the costliest the darkest.
    async #profile() {
        const lines = await this.#run('profile');
        if (!lines) return;
        this.#doings(`${lines.join('\n')}\n`);
        const counts = lines.map(it => /^([0-7]{5}) (\d+)$/.exec(it)).flatMap(it => it ? [{ cell: it[1], count: Number(it[2]) }] : []);
        const most = Math.max(...counts.map(it => it.count), 1);
        $('listing').classList.add('counted');
        for (const { cell, count } of counts) {
            const share = Math.round(100 * Math.log1p(count) / Math.log1p(most));
            const line = this.cells.get(cell);
            if (!line) continue;
            line.style.background = `color-mix(in srgb, var(--mark) ${share}%, transparent)`;
            line.dataset.count = String(count);
        }
    }

    // Shows where a step of the trace was made.
    /** @param {HTMLElement | null} row */
    #step(row) {
        if (!row) return;
        for (const it of $('doings').querySelectorAll('.at')) it.classList.remove('at');
        row.classList.add('at');
        this.at = Number(row.dataset.step);
        const line = this.cells.get(row.textContent.slice(0, 5));
        if (line) {
            this.#goTo(line, false);
            this.#mark([line]);
        }
        $('to-step').disabled = false;
        this.#again(stepOf(row.textContent.trimEnd()));
    }

    // The lines of the trace up to the step that was chosen.
    get #steps() { return $('doings').textContent.split('\n').slice(0, (this.at ?? 0) + 1); }

    // Runs the tape again to the step that was chosen, and shows the panel, and the step's cells, as they were after it.
    /** @param {import('./replay.js').Traced | null} step */
    async #again(step) {
        const { programs, machine } = this.page, turn = ++this.turn, { tape } = this.source;
        if (!tape) return;
        const cells = step ? [step.cell, ...step.cells] : [];
        const script = [...await depositsOf(this.page, tape), `SWITCHES ${octal(this.switches, 4)}`, `START ${this.start}`, ...linesOf(this.#steps, this.keys),
            ...cells.map(it => `EXAMINE ${it}`), 'REGISTERS'];
        const { out } = await programs.ask(['run', '--look', await machine.image()], `${script.join('\n')}\n`), replies = textOf(out).trim().split('\n');
        if (turn !== this.turn || this.at === null) return;
        const told = /** @type {Registers} */ (JSON.parse(replies.pop() ?? 'null'));
        this.lamps.show(told, null, null);
        $('step-cells').replaceChildren(...replies.slice(replies.length - cells.length).map(it => made('div', {}, made('dt', {}, it.slice(0, 5)), made('dd', {}, it.slice(6)))));
        const isSame = !step || (told.ac === step.ac && told.l === step.l);
        $('step-told').textContent = isSame ? `after step ${this.at + 1}` : 'This run came to another AC than the trace: its program reads more than keys.';
        $('at-step').hidden = false;
    }

    // Runs the tape again, on the Machine made new, to the step that was chosen, from where it can go on.
    async #toStep() {
        const { machine, tabs } = this.page, lines = this.#steps, { tape } = this.source;
        tabs.show('machine');
        await this.page.undo.ofMachine('going on from the step', async () => {
            await machine.renew();
            if (!tape || !await machine.load(tape, `the tape of ${$('source-name').value || 'the source'}`)) return;
            machine.list($('listing').textContent, $('symbols').textContent);
            await machine.runTo(Number.parseInt(this.start, 8), this.switches, linesOf(lines, this.keys), lines.length);
        });
    }
}

// The number of the line that a place of a text is in.
/** @param {string} text @param {number} place */
export function lineAt(text, place) {
    let line = 1;
    for (let at = text.indexOf('\n'); at >= 0 && at < place; at = text.indexOf('\n', at + 1)) line++;
    return line;
}

// The statements of a line, and where each begins; a comment is none.
/** @param {string} line */
function statementsOf(line) {
    return [...line.replace(/\/.*/s, '').matchAll(/[^;]+/g)].map(it => ({ at: (it.index ?? 0) + it[0].length - it[0].trimStart().length, text: it[0].trim() })).filter(({ text }) => text !== '');
}
