// The types of node that the page's tests use, since Debian has no package of them.
interface Buffer extends Uint8Array { equals(other: Uint8Array): boolean; toString(form?: string): string; subarray(from?: number, to?: number): Buffer }
declare var Buffer: {
    from(it: string | ArrayLike<number> | Uint8Array, form?: string): Buffer; isBuffer(it: unknown): it is Buffer; alloc(size: number): Buffer;
    concat(parts: Uint8Array[]): Buffer;
};
declare var process: {
    argv: string[]; env: Record<string, string | undefined>; exitCode: number; exit(status: number): never; cwd(): string; chdir(folder: string): void;
    hrtime: { bigint(): bigint };
};

interface Pipe { write(text: string): void; setEncoding(form: string): Pipe; on(event: string, body: (part: string) => void): Pipe }
interface Child {
    stdio: Pipe[]; once(event: string, body: (it: unknown) => void): void; kill(signal: string): void;
    on(event: 'error', body: (it: Error) => void): void; on(event: 'close', body: (status: number | null) => void): void;
}
declare module 'node:child_process' {
    export function spawn(file: string, words: string[], how: { stdio: string[] | string; env?: Record<string, string | undefined> }): Child;
    export function spawnSync(file: string, words: string[], how: { cwd: string; input?: string | Uint8Array; maxBuffer: number }): { stdout: Buffer; status: number | null };
}
declare module 'node:crypto' { export function randomBytes(size: number): Buffer; }
declare module 'node:fs' {
    interface Stats { isFile(): boolean; isDirectory(): boolean; size: number }
    interface ExactStats { isFile(): boolean; size: bigint; mtimeNs: bigint; dev: bigint; ino: bigint }
    export const constants: Record<'O_APPEND' | 'O_NONBLOCK' | 'O_RDONLY' | 'O_WRONLY', number>;
    export function openSync(path: string, flags?: number): number;
    export function closeSync(file: number): void;
    export function readSync(file: number, room: Uint8Array, from: number, count: number, at: number | null): number;
    export function writeSync(file: number, it: Uint8Array, from: number, count: number, at: number | null): number;
    export function fstatSync(file: number): Stats;
    export function fstatSync(file: number, how: { bigint: true }): ExactStats;
    export function unlinkSync(path: string): void;
    export function utimesSync(path: string, read: number, written: number): void;
    export function existsSync(path: string): boolean;
    export function linkSync(from: string, to: string): void;
    export function copyFileSync(from: string, to: string): void;
    export function truncateSync(path: string, size: number): void;
    export function mkdirSync(path: string, how?: { recursive: boolean }): void;
    export function mkdtempSync(prefix: string): string;
    export function readdirSync(path: string): string[];
    export function readdirSync(path: string, how: { withFileTypes: true }): { name: string; isDirectory(): boolean }[];
    export function readFileSync(path: string): Buffer;
    export function readFileSync(path: string, form: string): string;
    export function rmSync(path: string, how?: { recursive?: boolean; force?: boolean; maxRetries?: number }): void;
    export function statSync(path: string): Stats;
    export function statSync(path: string, how: { bigint: true }): ExactStats;
    export function writeFileSync(path: string, it: string | Uint8Array): void;
}
declare module 'node:http' {
    interface Request { url?: string; method?: string }
    interface Response { writeHead(status: number, headers?: Record<string, string>): Response; end(it?: Uint8Array): void }
    export function createServer(answer: (request: Request, response: Response) => void): { listen(port: number, host: string, body: () => void): void; address(): { port: number }; close(): void };
}
declare module 'node:net' {
    interface Socket { on(event: 'data', body: (part: Buffer) => void): Socket; write(text: string): void; destroy(): void }
    interface Client {
        on(event: 'data', body: (part: Buffer) => void): void; on(event: 'error' | 'close', body: () => void): void; end(text: string): void;
    }
    export function connect(port: number, host: string): Socket;
    export function createServer(how: { allowHalfOpen: boolean }, serve: (client: Client) => void): { listen(path: string, body: () => void): void };
}
declare module 'node:os' { export function tmpdir(): string; }
declare module 'node:path' {
    export function dirname(path: string): string;
    export function extname(path: string): string;
    export function join(...parts: string[]): string;
    export function normalize(path: string): string;
    export function resolve(...parts: string[]): string;
}
declare module 'node:worker_threads' {
    interface Port { on(event: 'message', body: (it: any) => void): void; postMessage(it: unknown): void }
    export class Worker {
        constructor(file: URL, how: { workerData: unknown });
        on(event: 'message', body: (it: string) => void): void; on(event: 'error', body: (it: Error) => void): void;
        postMessage(it: unknown): void; terminate(): void;
    }
    export const parentPort: Port;
    export const workerData: any;
}
declare module 'node:url' { export function fileURLToPath(url: string): string; export function pathToFileURL(path: string): URL; }
