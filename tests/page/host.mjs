// A thread of server.mjs: runs the page's module as the page's worker does, over the files of a client's folder and the client's streams.
import { closeSync, constants, existsSync, fstatSync, linkSync, mkdirSync, openSync, readFileSync, readSync, statSync, unlinkSync, utimesSync, writeFileSync, writeSync } from 'node:fs';
import { resolve } from 'node:path';
import { parentPort, workerData } from 'node:worker_threads';
import { command, Held } from '../../web/host.js';

const LONGEST = 16777217;
const { O_APPEND, O_NONBLOCK, O_RDONLY, O_WRONLY } = constants;
const clock = new Int32Array(new SharedArrayBuffer(4));

// The files of the host in place of the page's. What is written to them lies there when the program reads a stream, writes one, or ends.
class Folder {
    kept = new Map();
    stale = new Set();

    constructor(folder) { this.folder = folder; }

    has(name) { return this.get(name) !== undefined; }

    get(name) {
        const path = resolve(this.folder, name), found = this.kept.get(path);
        if (found && this.stale.has(found.file)) return found.file;
        if (!existsSync(path)) return undefined;
        const stat = statSync(path, { bigint: true });
        if (!stat.isFile()) return undefined;
        if (found?.time === stat.mtimeNs) return found.file;
        const file = new Held(contents(path, Number(stat.size)));
        file.time = Number(stat.mtimeNs / 1_000_000_000n);
        this.kept.set(path, { file, time: stat.mtimeNs });
        return file;
    }

    // Each file that is written has a name: the one given here or an older one.
    set(name, file) {
        const path = resolve(this.folder, name);
        this.write_back();
        const [older] = [...this.kept].filter(([, it]) => it.file === file);
        if (older && existsSync(older[0])) linkSync(older[0], path);
        else write_file(path, file);
        this.kept.set(path, { file, time: statSync(path, { bigint: true }).mtimeNs });
    }

    delete(name) {
        const path = resolve(this.folder, name);
        this.kept.delete(path);
        unlinkSync(path);
    }

    // Whether there is a folder of the name now.
    make_folder(name) {
        const path = resolve(this.folder, name);
        try {
            if (!existsSync(path)) mkdirSync(path);
            return statSync(path).isDirectory();
        } catch {
            return false;
        }
    }

    has_folder(name) {
        const path = resolve(this.folder, name);
        return existsSync(path) && statSync(path).isDirectory();
    }

    changed(file) { this.stale.add(file); }

    write_back() {
        for (const [path, it] of this.kept)
            if (this.stale.has(it.file)) {
                write_file(path, it.file);
                it.time = statSync(path, { bigint: true }).mtimeNs;
            }
        this.stale.clear();
    }
}

// Writes a file with its bytes, and its time where that was set.
function write_file(path, file) {
    writeFileSync(path, file.bytes);
    if (file.time !== null) utimesSync(path, file.time, file.time);
}

// What a file has, as the page hands it on: no more than one byte beyond what the program takes.
function contents(path, size) {
    if (size < LONGEST) return new Uint8Array(readFileSync(path));
    const room = new Uint8Array(LONGEST), file = openSync(path);
    let had = 0;
    for (let more = 1; more && had < LONGEST; had += more) more = readSync(file, room, had, LONGEST - had, had);
    closeSync(file);
    return room.subarray(0, had);
}

class Closed extends Error {}

// A stream of a client. Where it is a plain file its place is the client's, which gets the new one; others share theirs.
class Stream {
    constructor(pid, number) {
        const path = `/proc/${pid}/fd/${number}`;
        const told = readFileSync(`/proc/${pid}/fdinfo/${number}`, 'latin1');
        const flags = parseInt(/^flags:\s*(\d+)/m.exec(told)?.[1] ?? '', 8);
        this.file = openSync(path, (number ? O_WRONLY | flags & O_APPEND : O_RDONLY) | O_NONBLOCK);
        const stat = fstatSync(this.file, { bigint: true });
        this.at = stat.isFile() ? Number(/^pos:\s*(\d+)/m.exec(told)?.[1]) : null;
        this.appends = (flags & O_APPEND) !== 0;
        this.number = `${stat.dev}:${stat.ino}`;
    }

    // Does what may have to wait for another process.
    patiently(act) {
        for (;;)
            try {
                return act();
            } catch (error) {
                if (/** @type {{ code?: string }} */ (error).code !== 'EAGAIN') throw error;
                Atomics.wait(clock, 0, 0, 1);
            }
    }

    read(most) {
        const room = new Uint8Array(Math.min(most, 1 << 20));
        const count = this.patiently(() => readSync(this.file, room, 0, room.length, this.at));
        if (this.at !== null) this.at += count;
        return room.subarray(0, count);
    }

    write(bytes) {
        for (let done = 0; done < bytes.length;)
            try {
                const count = this.patiently(() => writeSync(this.file, bytes, done, bytes.length - done, this.appends ? null : this.at));
                done += count;
                if (this.at !== null) this.at = this.appends ? fstatSync(this.file).size : this.at + count;
            } catch (error) {
                throw /** @type {{ code?: string }} */ (error).code === 'EPIPE' ? new Closed() : error;
            }
    }
}

// The three streams of a client; where two are one file, they have one place.
function streams(pid) {
    const all = [0, 1, 2].map(number => new Stream(pid, number)), [, output, errors] = all;
    if (output.number === errors.number && output.at === errors.at) {
        closeSync(errors.file);
        all[2] = output;
    }
    return all;
}

async function run({ pid, folder, words }) {
    const files = new Folder(folder), all = streams(pid);
    const read = most => { files.write_back(); return all[0].read(most); };
    const write = (bytes, stream) => { files.write_back(); all[stream].write(bytes); };
    let status;
    try {
        status = await command(workerData, files, ['pdp8', ...words], { read, write });
    } catch (error) {
        if (!(error instanceof Closed)) throw error;
        status = 141;
    } finally {
        files.write_back();
        for (const it of new Set(all)) closeSync(it.file);
    }
    return `${status} ${all.map(it => it.at ?? -1).join(' ')}\n`;
}

parentPort.on('message', async asked => parentPort.postMessage(await run(asked)));
