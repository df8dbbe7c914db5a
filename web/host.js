// What the program asks of its host: files, which lie in a map, and three streams. It decides nothing that the program decides.
const utf8 = new TextEncoder(), text = new TextDecoder();
const ENOENT = 2, EAGAIN = 11, EACCES = 13, EEXIST = 17, EISDIR = 21, EINVAL = 22, ESPIPE = 29;
const O_CREAT = 0o100, O_EXCL = 0o200, O_TRUNC = 0o1000;

const seconds = () => Math.floor(Date.now() / 1000);

// A file: bytes that may grow. Each has a number, as a name may lead to another file meanwhile.
export class Held {
    static last = 0;

    constructor(bytes = new Uint8Array(0)) {
        this.room = bytes;
        this.size = bytes.length;
        this.names = 1;
        this.number = ++Held.last;
        // when its bytes last changed, and the time that was set since, in seconds after the begin of 1970
        this.changed = seconds();
        /** @type {number | null} */
        this.time = null;
    }

    get bytes() { return this.room.subarray(0, this.size); }

    /** @param {number} at @param {Uint8Array} part */
    put(at, part) {
        const end = at + part.length;
        if (end > this.room.length) {
            const room = new Uint8Array(Math.max(end, 2 * this.room.length));
            room.set(this.bytes);
            this.room = room;
        }
        this.room.set(part, at);
        this.size = Math.max(this.size, end);
        this.changed = seconds();
        this.time = null;
    }

    /** @param {number} size */
    cut(size) {
        this.put(size, new Uint8Array(0));
        this.size = size;
    }
}

// Runs the program with these words. `files` has get, set, has and delete, as a Map has. `read(most)` gives bytes for standard input, none at its
// end, and `write(bytes, stream)` takes what is written to stream 1 or 2. Where `promised` is given, the two may promise. `locked(file)` says whether
// another run holds a file, and `terminal` whether standard input is one. `before(name)` may be promised before a file is looked for. The answer is the
// exit status.
/** @param {WebAssembly.Module} module @param {HostFiles} files @param {string[]} words @param {Host} host @returns {Promise<number>} */
export async function command(module, files, words, host) {
    /** @type {any} */
    let exports;
    /** @param {number | bigint} at @param {number | bigint} count @returns {Uint8Array} */
    const memory = (at, count) => new Uint8Array(exports.memory.buffer, Number(at), Number(count));
    const calls = imports(memory, files, words, host);
    if (host.promised)
        for (const name of ['read', 'write', 'statx'])
            calls[name] = /** @type {any} */ (new WebAssembly.Suspending(calls[name]));
    exports = (await WebAssembly.instantiate(module, { env: calls })).exports;
    return (host.promised ? WebAssembly.promising(exports.main) : exports.main)(0, 0n);
}

/** @param {(at: bigint, count: number | bigint) => Uint8Array} memory @param {HostFiles} files @param {string[]} words @param {Host} host @returns {Calls} */
function imports(memory, files, words, host) {
    let errno = 0, next = 3;
    /** @type {Map<number, { file: HeldFile, name: string, folder: boolean, at: number }>} */
    const open = new Map();
    // What is open as a number; the program asks for no other.
    /** @param {number} number */
    const own_of = number => /** @type {{ file: HeldFile, name: string, folder: boolean, at: number }} */ (open.get(number));
    /** @param {number} why */
    const fail = why => { errno = why; return -1; };
    /** @param {bigint} at @param {Uint8Array} bytes */
    const give = (at, bytes) => { memory(at, bytes.length).set(bytes); return BigInt(bytes.length); };
    /** @param {bigint} at */
    const path = at => {
        const all = memory(at, 4096), end = all.indexOf(0);
        return text.decode(all.slice(0, end)).replace(/^\.\//, '');
    };
    /** @param {HeldFile} file @param {string} name */
    const opened = (file, name, folder = false) => { open.set(next, { file, name, folder, at: 0 }); return next++; };
    // The folder of the page's files has no other name. It is opened to bring its names to the disk.
    /** @param {string} name */
    const is_folder = name => name === '.' || files.has_folder?.(name);
    /** @param {number} number @param {number} least */
    const copy = (number, least) => {
        next = Math.max(next, least);
        while (open.has(next)) next++;
        open.set(next, own_of(number));
        return next++;
    };
    return {
        rattle_arg(which, at, room) {
            const word = words[Number(which)];
            if (word === undefined) return -1n;
            const bytes = utf8.encode(word);
            return bytes.length > Number(room) ? -2n : give(at, bytes);
        },
        rattle_env: () => -1n,
        rattle_env_at: () => -1n,
        rattle_errno: () => errno,
        rattle_set_errno(why) { errno = why; },
        isatty: number => number === 0 && host.terminal ? 1 : 0,

        open(at, flags) {
            const name = path(at);
            let file = files.get(name);
            if (file && (flags & O_CREAT) && (flags & O_EXCL)) return fail(EEXIST);
            if (!file && !(flags & O_CREAT) && is_folder(name)) return opened(new Held(), name, true);
            if (!file) {
                if (!(flags & O_CREAT)) return fail(ENOENT);
                file = new Held();
                files.set(name, file);
            }
            if (flags & O_TRUNC) file.cut(0);
            return opened(file, name);
        },
        close(number) { return open.delete(number) ? 0 : fail(EINVAL); },
        dup: number => copy(number, 3),
        fcntl: (number, what, least) => copy(number, Number(least)),
        read(number, at, most) {
            if (number === 0) {
                const part = host.read(Number(most));
                return part instanceof Promise ? part.then(it => give(at, it)) : give(at, part);
            }
            const own = own_of(number), part = own.file.bytes.subarray(own.at, own.at + Number(most));
            if (own.folder) return BigInt(fail(EISDIR));
            own.at += part.length;
            return give(at, part);
        },
        write(number, at, count) {
            const part = memory(at, count).slice();
            if (number === 1 || number === 2) {
                const done = host.write(part, number);
                return done instanceof Promise ? done.then(() => count) : count;
            }
            const own = own_of(number);
            own.file.put(own.at, part);
            own.at += part.length;
            files.changed?.(own.file);
            return count;
        },
        lseek(number, by, from) {
            const own = open.get(number);
            if (!own) return BigInt(fail(ESPIPE));
            own.at = Number(by) + [0, own.at, own.file.size][from];
            return BigInt(own.at);
        },
        ftruncate(number, size) {
            own_of(number).file.cut(Number(size));
            files.changed?.(own_of(number).file);
            return 0;
        },
        // the second of two times is that of the last change
        futimens(number, at) {
            const times = memory(at, 32), file = own_of(number).file;
            file.time = Number(new DataView(times.buffer, times.byteOffset, 32).getBigInt64(16, true));
            files.changed?.(file);
            return 0;
        },
        statx(folder, at, flags, mask, to) {
            const name = path(at), soon = host.before?.(name);
            const look = () => {
                const file = name === '' ? open.get(folder)?.file : files.get(name);
                if (!file) return fail(ENOENT);
                put_stat(memory(to, 256), file);
                return 0;
            };
            return soon ? soon.then(look) : look();
        },
        realpath(at, to) {
            const name = path(at);
            if (!files.has(name)) { errno = ENOENT; return 0n; }
            const bytes = utf8.encode(`${name}\0`);
            if (to === 0n) return 0n;
            give(to, bytes);
            return to;
        },
        // no file of the page is a link
        readlink: () => BigInt(fail(EINVAL)),
        unlink(at) {
            const name = path(at), file = files.get(name);
            if (!file) return fail(ENOENT);
            file.names--;
            files.delete(name);
            return 0;
        },
        link(from, to) {
            const file = files.get(path(from));
            if (!file) return fail(ENOENT);
            if (files.has(path(to))) return fail(EEXIST);
            file.names++;
            files.set(path(to), file);
            return 0;
        },
        rename(from, to) {
            const file = files.get(path(from));
            if (!file) return fail(ENOENT);
            files.delete(path(from));
            files.set(path(to), file);
            return 0;
        },
        mkdir(at) { return files.make_folder?.(path(at)) === false ? fail(EACCES) : 0; },
        clock_gettime: () => fail(EINVAL),
        // names that nobody can guess
        getentropy(at, count) { crypto.getRandomValues(memory(at, count)); return 0; },
        // no program of the page is ended as it writes, so nothing is looked for beside a file
        rattle_open_dir_at: () => fail(EACCES),
        getdents64: () => BigInt(fail(EINVAL)),
        // nobody lets a file go while the program runs, so no time passes
        nanosleep: () => 0,
        flock(number) { return host.locked?.(own_of(number).name) ? fail(EAGAIN) : 0; },
        fchmod: () => 0, fchown: () => 0, fsync: () => 0, fdatasync: () => 0, __sysv_signal: () => 0n,
    };
}

// A plain file of one user, as Linux reports it (statx).
/** @param {Uint8Array} bytes @param {HeldFile} file */
function put_stat(bytes, file) {
    const at = new DataView(bytes.buffer, bytes.byteOffset, 256);
    bytes.fill(0);
    at.setUint32(0, 0x7ff, true);
    at.setUint32(4, 512, true);
    at.setUint32(16, file.names, true);
    at.setUint16(28, 0o100644, true);
    at.setBigUint64(32, BigInt(file.number), true);
    at.setBigUint64(40, BigInt(file.size), true);
    at.setBigInt64(112, BigInt(file.time ?? file.changed), true);
}
