// Runs of the program pdp8, each in a worker. The words of a run that are names of files in the page are these files.
const latin1 = new TextDecoder('latin1'), utf8 = new TextEncoder();
// How many workers are begun ahead.
const SPARES = 3;
const WAITING = 1 << 16, LENIENT = ['check', 'get', 'index'];

/** @param {string | Uint8Array} it */
export const bytesOf = it => typeof it === 'string' ? utf8.encode(it) : it;
/** @param {Uint8Array} bytes */
export const textOf = bytes => latin1.decode(bytes);

// Whether a call of the program can wait for what a user types: by promises in calls, or else by memory that two threads have. The page's
// address may ask for less, as `?wait=memory` and `?wait=none` do in the tests.
const asked = new URLSearchParams(location.search).get('wait');
const promises = 'Suspending' in WebAssembly && asked === null;
export const canLive = promises || (globalThis.crossOriginIsolated === true && asked !== 'none');

// Whether the browser has memories of 64 bits: the smallest module with one.
export const hasWideMemory = WebAssembly.validate(new Uint8Array([0, 97, 115, 109, 1, 0, 0, 0, 5, 3, 1, 4, 1]));

/** @param {string} url */
export async function load(url) {
    const answer = await fetch(url);
    if (!answer.ok) throw new Error(`${url}: ${answer.status}`);
    // of a stream with its type the browser keeps the quick code that it makes of a module while that runs
    return answer.headers.get('content-type') === 'application/wasm' ? WebAssembly.compileStreaming(answer) : WebAssembly.compile(await answer.arrayBuffer());
}

export class Programs extends EventTarget {
    /** @type {Promise<unknown>} */
    #last = Promise.resolve();
    // The whole runs that go on.
    /** @type {Set<Run>} */
    #runs = new Set();
    /** @type {Worker[]} */
    #spares = [];
    /** @type {string[]} */
    #busy = [];
    #asked = 0;
    /** @type {Set<string>} */
    held = new Set();

    /** @param {WebAssembly.Module} module @param {import('./store.js').Store} store */
    constructor(module, store) {
        super();
        this.module = module;
        this.store = store;
    }

    // Whether whole runs are asked for that haven't ended.
    get isAsked() { return this.#asked > 0; }

    // Whether a run that was asked for and hasn't ended has a word.
    /** @param {string} word */
    isBusy(word) { return this.#busy.includes(word); }

    // Counts the words of a run until it is over.
    /** @param {string[]} words @param {Promise<unknown>} over */
    async #count(words, over) {
        this.#busy.push(...words);
        await over;
        for (const it of words) this.#busy.splice(this.#busy.indexOf(it), 1);
        this.dispatchEvent(new Event('idle'));
    }

    // The files that a run can't change: those that another run holds, and the volumes that another tab has.
    /** @param {string[]} words */
    locked(words) {
        const { files, claims } = this.store;
        return [...this.held, ...words.filter(it => files.has(it) && !it.startsWith('.') && !claims.has(`volume ${it}`))];
    }

    // The words of a run, with `--lenient` where an image with faults is looked at.
    /** @param {string[]} words */
    #leniently(words) { return LENIENT.includes(words[0]) && words.some(it => this.store.notes.get(`lenient ${it}`)) ? [...words, '--lenient'] : words; }

    // A whole run, after those that were asked for before: its exit status, and what it wrote to each stream.
    /** @param {string[]} words @param {string | Uint8Array} [input] @returns {Promise<Answer>} */
    ask(words, input = '') {
        const answer = this.#after(this.#last, words, input);
        this.#last = answer;
        return answer;
    }

    // Whole runs that only look, side by side, after those that were asked for before.
    /** @param {...string[]} all */
    looks(...all) {
        const before = this.#last, answers = Promise.all(all.map(it => this.#after(before, it, '')));
        this.#last = answers;
        return answers;
    }

    /** @param {Promise<unknown>} before @param {string[]} asked @param {string | Uint8Array} input @returns {Promise<Answer>} */
    #after(before, asked, input) {
        const words = this.#leniently(asked), answer = before.then(() => this.store.claims.known()).then(() => this.#whole(words, bytesOf(input)));
        this.#works(1);
        answer.then(() => this.#works(-1));
        this.#count(words, answer);
        return answer;
    }

    /** @param {string[]} words @param {Uint8Array} input @returns {Promise<Answer>} */
    #whole(words, input) {
        return new Promise(go => {
            /** @type {Uint8Array[]} */
            const out = [];
            /** @type {Uint8Array[]} */
            const said = [];
            const ended = (/** @type {number | null} */ status) => {
                this.#runs.delete(run);
                go({ status, out: joined(out), said: textOf(joined(said)) });
            };
            const run = new Run(this, words, { input, heard: it => out.push(it), said: it => said.push(it), ended });
            this.#runs.add(run);
        });
    }

    // Has the page show that it works, while whole runs go on.
    /** @param {number} by */
    #works(by) {
        this.#asked += by;
        document.body.classList.toggle('works', this.isAsked);
    }

    // Ends the whole runs that are going on.
    stop() { for (const it of [...this.#runs]) it.stop(); }

    // A run that lives until its input is ended, or it is stopped.
    /** @param {string[]} words @param {How} how */
    async begin(words, how) {
        let over = () => {};
        this.#count(words, new Promise(go => { over = () => go(undefined); }));
        await this.#last;
        await this.store.claims.known();
        return new Run(this, words, { ...how, input: null, ended: (status, failed) => { over(); how.ended?.(status, failed); } });
    }

    // Workers are begun ahead, since that takes some time.
    worker() {
        while (this.#spares.length <= SPARES) this.#spares.push(new Worker('worker.js', { type: 'module' }));
        return /** @type {Worker} */ (this.#spares.shift());
    }
}

// One run. `heard` and `said` take what it writes to standard output and to standard error. `ended` takes its status, null where it was stopped or
// has failed, and why it failed, null where it hasn't. `room` is how many bytes it may be ahead of what `show` was given, none for no limit.
// `patience` is after how many milliseconds a read gives nothing. `holds` are the files that it holds, else those of a `run` that changes them. `ends`
// is the name of a file by which it is asked for its end. `takes` takes a file that it has written, and says whether that is none of the page's.
// `again` has the reads of a run that this one follows, and `read` takes each further one that gives bytes, after how many that gave none.
export class Run {
    /** @type {Uint8Array[]} */
    #queue = [];
    #ended = false;
    /** @type {SharedArrayBuffer | null} */
    #channel = null;
    #isWanted = false;

    /** @param {Programs} programs @param {string[]} words @param {How} how */
    constructor(programs, words, how) {
        this.programs = programs;
        this.how = how;
        this.shown = 0;
        this.isLive = true;
        this.worker = programs.worker();
        this.worker.onmessage = ({ data }) => this.#take(data);
        this.worker.onerror = event => this.#end(null, event.message ?? 'the worker failed');
        if (!promises && canLive && how.input === null) this.#channel = new SharedArrayBuffer(16 + (1 << 16));
        const { files } = programs.store;
        const own = words.filter(it => files.has(it));
        this.holds = how.holds ?? (words[0] === 'run' && !words.includes('--look') && how.input === null ? own : []);
        const locked = programs.locked(words);
        this.holds = this.holds.filter(it => !locked.includes(it));
        this.holds.forEach(it => programs.held.add(it));
        this.worker.postMessage({
            begin: true, module: programs.module, words, files: own.map(it => [it, files.get(it)]), input: how.input, locked,
            terminal: how.terminal ?? false, patience: how.patience ?? 0, room: how.room ?? WAITING, channel: this.#channel, promises, again: how.again ?? [],
            ends: how.ends ?? null,
        });
        this.isPaced = how.room !== undefined;
    }

    /** @param {any} data */
    #take(data) {
        if (!this.isLive) return;
        const { store } = this.programs;
        if (data.files) for (const [name, bytes] of data.files) this.how.takes?.(name, bytes) || (bytes ? store.put(name, bytes) : store.remove(name));
        else if (data.wants) {
            this.#isWanted = true;
            this.#give();
        } else if (data.read) this.how.read?.(data.quiet, data.read);
        else if (data.bytes) {
            data.stream === 1 ? this.how.heard?.(data.bytes, data.reads, data.quiet) : this.how.said?.(data.bytes);
            if (!this.isPaced) this.show(data.bytes.length);
        } else this.#end(data.status, data.failed);
    }

    /** @param {number | null} status @param {string | null} [failed] */
    #end(status, failed = null) {
        if (!this.isLive) return;
        this.isLive = false;
        this.worker.terminate();
        this.holds.forEach(it => this.programs.held.delete(it));
        if (failed) this.how.said?.(bytesOf(`${failed}\n`));
        this.how.ended?.(status, failed);
    }

    // Bytes for its standard input.
    /** @param {string | Uint8Array} it */
    say(it) {
        if (!this.isLive) return;
        if (!this.#channel) return this.worker.postMessage({ bytes: bytesOf(it) });
        this.#queue.push(bytesOf(it));
        this.#give();
    }

    // The end of its standard input.
    end() {
        if (!this.isLive) return;
        if (!this.#channel) return this.worker.postMessage({ end: true });
        this.#ended = true;
        this.#give();
    }

    // So many further bytes of its output were shown.
    /** @param {number} count */
    show(count) {
        this.shown += count;
        if (!this.#channel) return this.isLive && this.worker.postMessage({ shown: this.shown });
        Atomics.store(new Int32Array(this.#channel), 2, this.shown);
        Atomics.notify(new Int32Array(this.#channel), 2);
    }

    stop() { this.#end(null); }

    // Asks it for its end, before which it does what it does at each.
    finish() {
        if (!this.isLive) return;
        if (!this.#channel) return this.worker.postMessage({ finish: true });
        const state = new Int32Array(this.#channel, 0, 4);
        Atomics.store(state, 3, 1);
        Atomics.notify(state, 2);
    }

    // Where the worker waits in a call, the next bytes are laid into the memory that both have.
    #give() {
        if (!this.#channel || !this.#isWanted || !(this.#queue.length || this.#ended)) return;
        const state = new Int32Array(this.#channel, 0, 4), room = new Uint8Array(this.#channel, 16);
        const part = this.#queue.shift();
        if (part && part.length > room.length) this.#queue.unshift(part.subarray(room.length));
        if (part) room.set(part.subarray(0, room.length));
        this.#isWanted = false;
        Atomics.store(state, 1, part ? Math.min(part.length, room.length) : -1);
        Atomics.store(state, 0, 1);
        Atomics.notify(state, 0);
    }
}

// A living `run` in which each line gets one line of reply.
export class Lines {
    #text = '';
    /** @type {{ count: number, go: (replies: string[] | null) => void }[]} */
    #waiting = [];
    said = '';
    /** @type {Run | undefined} */
    run = undefined;

    /** @param {Programs} programs @param {string[]} words @param {{ ended?: (status: number | null, said: string, failed: string | null) => void, terminal?: boolean }} [how] */
    static async begin(programs, words, how = {}) {
        const it = new Lines();
        it.run = await programs.begin(words, {
            terminal: how.terminal,
            heard: bytes => it.#hear(textOf(bytes)),
            said: bytes => { it.said += textOf(bytes); },
            ended: (status, failed) => { it.#waiting.splice(0).forEach(({ go }) => go(null)); how.ended?.(status, it.said + it.#text, failed); },
        });
        return it;
    }

    /** @param {string} text */
    #hear(text) {
        this.#text += text;
        while (this.#waiting.length) {
            const { count, go } = this.#waiting[0];
            const lines = this.#text.split('\n');
            if (lines.length <= count) return;
            this.#text = lines.slice(count).join('\n');
            this.#waiting.shift();
            go(lines.slice(0, count));
        }
    }

    stop() { this.run?.stop(); }

    // The replies to these lines, null where the run ends before they are all there.
    /** @param {...string} lines @returns {Promise<string[] | null>} */
    ask(...lines) {
        const { run } = this;
        if (!run?.isLive) return Promise.resolve(null);
        return new Promise(go => {
            this.#waiting.push({ count: lines.length, go });
            run.say(lines.map(it => `${it}\n`).join(''));
        });
    }
}

/** @param {Uint8Array[]} parts */
export function joined(parts) {
    const all = new Uint8Array(parts.reduce((sum, it) => sum + it.length, 0));
    parts.reduce((at, it) => { all.set(it, at); return at + it.length; }, 0);
    return all;
}
