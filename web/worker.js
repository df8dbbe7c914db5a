// A run of the program, apart from the page, which never waits for it. A message begins it. Those after it are its keys or lines, say what of its
// output was shown, and ask it for its end.
import { command, Held } from './host.js';

const FAULT = 'pdp8: a check failed: this is a fault of pdp8 itself; please report it, with the command and its files';

/** @type {Uint8Array[]} */
const parts = [];
let ended = false, shown = 0, sent = 0, wake = () => {};
/** @type {{ state: Int32Array, bytes: Uint8Array } | null} */
let shared = null;
let wanted = false, promises = false;
// The reads that a run is given again, how many gave something so far, and how many gave nothing since.
/** @type {[number, Uint8Array][]} */
let again = [];
let reads = 0, quiet = 0;
// The file that asks a run for its end once it is there, whether it is to be, and when messages were last let in before it was looked for.
/** @type {string | null} */
let ends = null;
let isEnding = false, letIn = 0;
const PAUSE = 50;

onmessage = ({ data }) => {
    if (data.begin) return begin(data);
    if (data.bytes) parts.push(data.bytes);
    if (data.end) ended = true;
    if (data.shown) shown = data.shown;
    if (data.finish) isEnding = true;
    wake();
};

// The files that were given, and which of them have changed since that was last sent.
/** @extends Map<string, Held> */
class Files extends Map {
    /** @type {Map<string, Held>} */
    old = new Map();

    // The file that asks for the run's end is none of the page's.
    /** @param {string} name @returns {Held | undefined} */
    get(name) { return name === ends && mustEnd() ? new Held() : super.get(name); }

    /** @param {Held} file */
    changed(file) { for (const [name, it] of this) if (it === file) this.old.delete(name); }

    tell() {
        /** @type {[string, Uint8Array | null][]} */
        const news = [];
        for (const [name, file] of this)
            if (this.old.get(name) !== file && !/\.pdp8-\d+$/.test(name)) {
                news.push([name, file.bytes.slice()]);
                this.old.set(name, file);
            }
        for (const name of this.old.keys())
            if (!this.has(name)) {
                news.push([name, null]);
                this.old.delete(name);
            }
        if (news.length) postMessage({ files: news });
    }
}

/** @param {Begin} run */
async function begin({ module, words, files, input, locked, terminal, patience, room, channel, ...how }) {
    promises = how.promises;
    [again, reads, quiet] = [how.again, 0, 0];
    [ends, isEnding] = [how.ends, false];
    const own = new Files();
    for (const [name, bytes] of files) own.set(name, new Held(bytes));
    own.old = new Map(own);
    parts.length = shown = sent = 0;
    ended = input !== null;
    if (input?.length) parts.push(input);
    shared = channel && { state: new Int32Array(channel, 0, 4), bytes: new Uint8Array(channel, 16) };
    wanted = false;
    /** @param {number} most */
    const read = most => {
        own.tell();
        const old = readAgain();
        if (old) return old;
        if (parts.length) return counted(take(most), patience);
        if (ended) return new Uint8Array(0);
        if (!wanted) postMessage({ wants: most });
        wanted = true;
        return shared ? counted(taken(shared, most, patience), patience) : given(most, patience).then(it => counted(it, patience));
    };
    /** @param {Uint8Array} bytes @param {number} stream */
    const write = (bytes, stream) => {
        own.tell();
        sent += bytes.length;
        postMessage({ stream, bytes, reads, quiet });
        if (!room || sent - shown <= room || mustEnd()) return;
        if (shared) printed(shared, room);
        else if (promises) return held(room);
    };
    const host = { read, write, before, locked: (/** @type {string} */ name) => locked.includes(name), terminal, promised: promises };
    let status = null, failed = null;
    try {
        status = await command(module, own, ['pdp8', ...words], host);
    } catch (error) {
        failed = error instanceof WebAssembly.RuntimeError ? FAULT : String(error);
    }
    own.tell();
    postMessage({ status, failed });
}

// Whether the run is asked for its end.
function mustEnd() { return isEnding || (shared !== null && Atomics.load(shared.state, 3) === 1); }

// Lets messages in before the file is looked for that asks for the end, from time to time: a program that loops reads none.
/** @param {string} name */
function before(name) {
    if (name !== ends || !promises || performance.now() - letIn < PAUSE) return undefined;
    letIn = performance.now();
    return new Promise(go => setTimeout(go));
}

// The next of the reads that are given again, null where there is none.
function readAgain() {
    for (; again.length; again.shift()) {
        const [first] = again;
        if (first[0]-- > 0) {
            quiet++;
            return new Uint8Array(0);
        }
        if (!first[1].length) continue;
        [reads, quiet] = [reads + 1, 0];
        return again.shift()?.[1] ?? null;
    }
    return null;
}

// Counts a read that isn't given again, and sends it where it gave something. That is for runs that don't wait for keys alone.
/** @param {Uint8Array} bytes @param {number} patience */
function counted(bytes, patience) {
    if (bytes.length && patience) postMessage({ read: bytes, quiet });
    [reads, quiet] = bytes.length ? [reads + 1, 0] : [reads, quiet + 1];
    return bytes;
}

/** @param {number} most */
function take(most) {
    const part = parts[0];
    wanted = false;
    if (part.length > most) parts[0] = part.subarray(most);
    else parts.shift();
    return part.subarray(0, most);
}

// The next bytes, once there are any; none where there is an end, or patience, of so many milliseconds, is.
/** @param {number} most @param {number} patience */
async function given(most, patience) {
    let timer = 0;
    await new Promise(go => {
        wake = () => { if (parts.length || ended) go(true); };
        if (patience) timer = setTimeout(go, patience);
    });
    clearTimeout(timer);
    wake = () => {};
    return parts.length ? take(most) : new Uint8Array(0);
}

// Waits until no more than so many bytes are not shown yet, or the run is to end.
/** @param {number} room */
async function held(room) {
    await new Promise(go => { wake = () => { if (sent - shown <= room || isEnding) go(true); }; wake(); });
    wake = () => {};
}

// The same two where a call can't be left: the page puts bytes into memory that both have, and counts there what was shown.
/** @param {{ state: Int32Array, bytes: Uint8Array }} shared @param {number} most @param {number} patience */
function taken(shared, most, patience) {
    Atomics.wait(shared.state, 0, 0, patience || Infinity);
    const count = Atomics.load(shared.state, 1);
    if (!Atomics.load(shared.state, 0)) return new Uint8Array(0);
    wanted = false;
    if (count < 0) ended = true;
    else parts.push(shared.bytes.slice(0, count));
    Atomics.store(shared.state, 0, 0);
    return count > 0 ? take(most) : new Uint8Array(0);
}

/** @param {{ state: Int32Array }} shared @param {number} room */
function printed(shared, room) {
    for (;;) {
        const now = Atomics.load(shared.state, 2);
        if (sent - now <= room || mustEnd()) return;
        Atomics.wait(shared.state, 2, now);
    }
}
