// The types of what worker.js and host.js hand each other. Numbers of C's `long`, sizes and addresses are bigint, those of `int` are number.
type Soon<T> = T | Promise<T>;

interface HeldFile { bytes: Uint8Array; size: number; names: number; number: number; changed: number; time: number | null; put(at: number, part: Uint8Array): void; cut(size: number): void }

// The files that the program sees: the page's are in a Map, those of the tests in a folder, which may have folders in it.
interface HostFiles {
    has(name: string): boolean; get(name: string): HeldFile | undefined; set(name: string, file: HeldFile): unknown; delete(name: string): unknown;
    changed?(file: HeldFile): void; has_folder?(name: string): boolean; make_folder?(name: string): boolean;
}

// Its streams, and what else it may ask.
interface Host {
    read(most: number): Soon<Uint8Array>; write(bytes: Uint8Array, stream: number): Soon<void>; locked?(name: string): boolean;
    terminal?: boolean; promised?: boolean; before?(name: string): Promise<unknown> | undefined;
}

// What begins a run in a worker.
interface Begin {
    begin: true; module: WebAssembly.Module; words: string[]; files: [string, Uint8Array][]; input: Uint8Array | null; locked: string[]; terminal: boolean;
    patience: number; room: number; channel: SharedArrayBuffer | null; promises: boolean; again: [number, Uint8Array][]; ends: string | null;
}

// The program's calls of its host.
interface Calls {
    [name: string]: Function;
    rattle_arg(which: bigint, at: bigint, room: bigint): bigint; rattle_env(): bigint; rattle_env_at(): bigint; rattle_errno(): number;
    rattle_set_errno(why: number): void; isatty(number: number): number; open(at: bigint, flags: number): number; close(number: number): number;
    dup(number: number): number; fcntl(number: number, what: number, least: bigint): number; read(number: number, at: bigint, most: bigint): Soon<bigint>;
    write(number: number, at: bigint, count: bigint): Soon<bigint>; lseek(number: number, by: bigint, from: number): bigint;
    ftruncate(number: number, size: bigint): number; futimens(number: number, at: bigint): number; statx(folder: number, at: bigint, flags: number, mask: number, to: bigint): Soon<number>;
    realpath(at: bigint, to: bigint): bigint; readlink(): bigint; unlink(at: bigint): number; link(from: bigint, to: bigint): number;
    rename(from: bigint, to: bigint): number; mkdir(at: bigint): number; clock_gettime(): number; flock(number: number): number; fchmod(): number;
    getentropy(at: bigint, count: number | bigint): number; rattle_open_dir_at(): number; getdents64(): bigint;
    fchown(): number; fsync(): number; fdatasync(): number; __sysv_signal(): bigint;
}

declare namespace WebAssembly {
    class Suspending { constructor(body: Function); }
    function promising(body: Function): (...them: unknown[]) => Promise<number>;
}
