// server.mjs WASM COMMAND WORD..: runs a command for which client.c is the program. Each call of that is run here with the page's module, in one of
// some threads; so no call starts node anew. The status is the command's.
import { spawn } from 'node:child_process';
import { mkdtempSync, readFileSync, rmSync } from 'node:fs';
import { createServer } from 'node:net';
import { tmpdir } from 'node:os';
import { join } from 'node:path';
import { Worker } from 'node:worker_threads';

const [wasm, ...words] = process.argv.slice(2);
const module = await WebAssembly.compile(readFileSync(wasm));
const folder = mkdtempSync(join(tmpdir(), 'pdp8-page-'));
const idle = [];

// A thread, whose `told` is called with its answer, or with nothing where it broke off.
function thread() {
    const free = idle.pop();
    if (free) return free;
    const it = { worker: new Worker(new URL('host.mjs', import.meta.url), { workerData: module }), told: /** @param {string | null} _answer */ _answer => {} };
    it.worker.on('message', answer => it.told(answer));
    it.worker.on('error', error => {
        console.log(`server: ${error.stack}`);
        it.told(null);
    });
    return it;
}

// Runs what a client asks for; where the client ends before, so does the thread.
function serve(client) {
    let asked = Buffer.alloc(0), own = null;
    const told = answer => {
        if (answer !== null) idle.push(own);
        own = null;
        client.end(answer ?? '');
    };
    client.on('error', () => {});
    client.on('close', () => own?.worker.terminate());
    client.on('data', part => {
        asked = Buffer.concat([asked, part]);
        if (own || !asked.toString('latin1').endsWith('\0\n\0')) return;
        const [pid, place, ...words] = asked.toString().split('\0').slice(0, -2);
        own = thread();
        own.told = told;
        own.worker.postMessage({ pid, folder: place, words });
    });
}

// The socket's name is a short one, as it must be, from its folder.
const home = process.cwd();
process.chdir(folder);
createServer({ allowHalfOpen: true }, serve).listen('socket', () => {
    process.chdir(home);
    const run = spawn(words[0], words.slice(1), { stdio: 'inherit', env: { ...process.env, PDP8_SERVER: folder } });
    run.on('error', error => { console.log(`server: ${words[0]}: ${error.message}`); });
    run.on('close', status => {
        rmSync(folder, { recursive: true });
        process.exit(status ?? 70);
    });
});
