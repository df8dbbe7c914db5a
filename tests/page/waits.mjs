// waits.mjs PROGRAM FOLDER [PART..]: the page where calls of WebAssembly can't be left. It is tried with memory that two threads have, from a server
// whose headers allow it. It is tried with neither, where whole scripts are what it can. The last line is 'N passed, M failed'.
import { readFileSync } from 'node:fs';
import { dirname, join } from 'node:path';
import { fileURLToPath } from 'node:url';
import { Browser, serve } from './browser.mjs';
import { LOOPS } from './tools.mjs';

const top = dirname(dirname(dirname(fileURLToPath(import.meta.url))));
const folder = process.argv[3], only = process.argv.slice(4);
const isolated = { 'cross-origin-opener-policy': 'same-origin', 'cross-origin-embedder-policy': 'require-corp' };
const isTold = (page, id, part) => page.until(`document.getElementById('${id}').textContent.includes(${JSON.stringify(part)})`);

async function begun(page, url) {
    await page.size(1200, 900);
    await page.go(url);
    await page.click('#tab-files');
    await page.fill('#new-name', 'DISK');
    await page.click('#create');
    await isTold(page, 'files-status', 'CREATED 737');
    await page.click('#tab-source');
    await page.fill('#text', readFileSync(join(top, 'examples/guess.pa'), 'latin1'));
    await page.click('#assemble');
    await isTold(page, 'source-status', 'assembled');
}

async function script(page) {
    await page.click('#tab-script');
    await page.fill('#lines', 'DEPOSIT 00200 7402\nRUN 00200 5\nSTORE A 1\nB\nDIRECT\n');
    await page.click('#script-run');
    await isTold(page, 'script-status', 'status 0');
    const replies = await page.text('replies');
    if (replies !== '00200 7402\nSTEPS 1 HALT 00201\nSTORED A 1\nA 1\nFREE 729\n') throw new Error(`replies ${JSON.stringify(replies)}`);
}

// What a page must not show where no call of the program can wait for a key.
const SHOWN = `['#tab-machine', '#machine', '#boot', '#to-core', '#to-step', '#keys', '#read', '#session', '#entry', '#tty-stop', '[data-run=sort]', '[data-run=lights]']
    .filter(it => document.querySelector(it).checkVisibility()).join(' ')`;

const tests = {
    'with memory that two threads have, the game, the machine and a session run': async page => {
        const server = await serve(folder, isolated);
        try {
            await begun(page, `${server.url}?wait=memory`);
            await page.click('#to-teletype');
            await page.click('#tty-run');
            await isTold(page, 'paper', 'NAME? ');
            await page.keys('ada\n');
            await isTold(page, 'paper', 'GUESS? ');
            await page.keys('79\n');
            await isTold(page, 'tty-status', 'HALT 00263');
            await page.click('#tab-source');
            await page.click('#to-core');
            await isTold(page, 'machine-status', 'words are in core');
            await page.click('#key-start');
            await isTold(page, 'console', 'NAME?');
            await page.click('#key-stop');
            await isTold(page, 'machine-status', 'stopped by the key');
            await script(page);
            await page.click('#session');
            await page.until(`!document.getElementById('entry-line').disabled`);
            await page.click('#entry-line');
            await page.type('EXAMINE 00200');
            await page.key('Enter');
            await isTold(page, 'replies', '00200 0000');
            await page.click('#session');
            await isTold(page, 'script-status', 'status 0');
        } finally {
            server.end();
        }
    },
    'with memory that two threads have, a disk boots, and Stop saves what loops': async page => {
        const server = await serve(folder, isolated);
        try {
            await begun(page, `${server.url}?wait=memory`);
            await page.look(`(() => { const bytes = geivottu.store.files.get('DISK').slice();
                ${JSON.stringify([...LOOPS, 20])}.forEach((word, k) => { bytes[2 * (0o31 + k)] = word & 0o377; bytes[2 * (0o31 + k) + 1] = word >> 8; }); geivottu.store.put('DISK', bytes); })()`);
            await page.click('#tab-machine');
            await page.click('#boot');
            await page.until(`document.activeElement.id === 'paper'`);
            await page.keys('A');
            await isTold(page, 'paper', 'A');
            await page.click('#tty-stop');
            await isTold(page, 'tty-status', 'It was stopped. DISK: 1 sector was changed, and is saved.');
        } finally {
            server.end();
        }
    },
    'with neither, whole scripts run, and the page says what does not': async page => {
        const server = await serve(folder);
        try {
            await begun(page, `${server.url}?wait=none`);
            await script(page);
            await isTold(page, 'kept', 'whole scripts can');
            await page.look(`location.hash = '#machine'`);
            for (const pane of ['files', 'source', 'teletype', 'script']) {
                await page.click(`#tab-${pane}`);
                const shown = await page.look(SHOWN);
                if (shown !== '') throw new Error(`shown in ${pane}: ${shown}`);
            }
            await page.click('#tab-source');
            await page.click('#to-teletype');
            if (!await page.look(`document.getElementById('reader').checkVisibility()`)) throw new Error('the tape reader is not seen');
            await page.look(`document.getElementById('reader').value = 'ADA\\n50\\n79\\n'`);
            await page.click('#tty-run');
            await isTold(page, 'paper', 'GUESSES: 2');
        } finally {
            server.end();
        }
    },
};

let passed = 0, failed = 0;
for (const [name, body] of Object.entries(tests).filter(([it]) => !only.length || only.some(part => it.includes(part)))) {
    const page = await Browser.open();
    try {
        await body(page);
        if (page.errors.length) throw new Error(page.errors.join('; '));
        passed++;
        console.log(`waits: ${name}`);
    } catch (error) {
        failed++;
        console.log(`waits: NOT ${name}: ${error instanceof Error ? error.message : error}`);
    } finally {
        await page.end();
    }
}
console.log(`${passed} passed, ${failed} failed`);
process.exitCode = failed ? 1 : 0;
