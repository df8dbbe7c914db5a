// speeds.mjs PROGRAM FOLDER: the figures of bench/page.sh.
import { spawnSync } from 'node:child_process';
import { mkdtempSync, readdirSync, rmSync, statSync } from 'node:fs';
import { tmpdir } from 'node:os';
import { join, resolve } from 'node:path';
import { Browser, pause, serve } from './browser.mjs';

const [program, folder] = process.argv.slice(2).map(it => resolve(it)), work = mkdtempSync(join(tmpdir(), 'speeds-'));
const native = (words, input = '') => spawnSync(program, words, { cwd: process.cwd(), input, maxBuffer: 1 << 28 }).stdout.toString('latin1');
const CELLS = 'DEPOSIT 00200 2210\nDEPOSIT 00201 5200\nDEPOSIT 00202 2211\nDEPOSIT 00203 5200\nDEPOSIT 00204 5200\nSTART 00200\n';
const many = count => CELLS + 'GO 1000000\n'.repeat(count);
const pictures = milliseconds => `new Promise(go => { let count = 0, last = performance.now(), gap = 0; const end = last + ${milliseconds};
    const next = () => { const now = performance.now(); gap = Math.max(gap, now - last); last = now; count++;
        now < end ? requestAnimationFrame(next) : go({ rate: count / ${milliseconds / 1000}, gap }); }; requestAnimationFrame(next); })`;
const sizeOf = at => readdirSync(at, { withFileTypes: true }).reduce((sum, it) => sum + (it.isDirectory() ? sizeOf(join(at, it.name)) : statSync(join(at, it.name)).size), 0);
const best = async (count, body) => { let least = Infinity; for (let k = 0; k < count; k++) least = Math.min(least, await body()); return least; };

const volume = join(work, 'V');
native(['create', volume, '20']);
const nativeTook = async count => { const from = process.hrtime.bigint(); native(['run', volume, '--look'], many(count)); return Number(process.hrtime.bigint() - from) / 1e9; };
const server = await serve(folder), page = await Browser.open();
try {
    await page.size(1200, 900);
    const from = Date.now();
    await page.go(server.url);
    console.log(`the page begins in ${Date.now() - from} ms`);
    await page.look(`geivottu.programs.ask(['create', 'V', '20'])`);
    const inPage = count => page.look(`(async () => { const script = ${JSON.stringify(CELLS)} + 'GO 1000000\\n'.repeat(${count});
        const from = performance.now(); await geivottu.programs.ask(['run', 'V', '--look'], script); return (performance.now() - from) / 1000; })()`);
    const a = await best(3, () => nativeTook(200)) - await best(3, () => nativeTook(1));
    const b = await best(3, () => inPage(200)) - await best(3, () => inPage(1));
    console.log(`a script of 200 million steps: native ${a.toFixed(2)} s, page ${b.toFixed(2)} s: ${(200 / b).toFixed(0)} million steps a second, ${(a / b).toFixed(2)} of native`);

    await page.look(`(async () => { await geivottu.programs.ask(['create', 'L', '4095']); await geivottu.programs.ask(['put', 'L', '-', '--as', 'A.PA', '--text'], 'X\\n'.repeat(90000)); })()`);
    const shown = await best(5, () => page.look(`(async () => { const from = performance.now(); await geivottu.files.open('L');
        await new Promise(requestAnimationFrame); return performance.now() - from; })()`));
    console.log(`an image of 4095 blocks is shown in ${shown.toFixed(0)} ms`);

    await page.click('#tab-source');
    await page.fill('#text', '*200\nA,\tISZ B\n\tJMP A\n\tISZ C\n\tJMP A\n\tJMP A\nB,\t0\nC,\t0\n$\n');
    await page.click('#assemble');
    await page.until(`!document.getElementById('to-core').disabled`);
    await page.click('#to-core');
    await page.until(`document.getElementById('machine-status').textContent.includes('words are in core')`);
    await page.choose('#speed', 'full');
    await page.click('#key-start');
    await pause(1500);
    const machine = await page.look(pictures(3000)), rate = await page.text('rate');
    await page.click('#key-stop');
    console.log(`the panel at full speed: ${machine.rate.toFixed(0)} pictures a second, longest gap ${machine.gap.toFixed(0)} ms; ${rate}`);

    await page.click('#tab-source');
    await page.fill('#text', '*200\nA,\tTAD B\n\tTLS\n\tCLA\n\tTAD C\n\tTLS\n\tCLA\n\tISZ D\n\tJMP A\n\tTAD E\n\tTLS\n\tCLA\n\tTAD F\n\tTLS\n\tCLA\n\tTAD G\n\tDCA D\n\tJMP A\nB,\t301\nC,\t302\nD,\t7740\nE,\t215\nF,\t212\nG,\t7740\n$\n');
    await page.click('#assemble');
    await page.until(`document.getElementById('source-status').textContent.includes('assembled')`);
    await page.click('#to-teletype');
    await page.click('#tty-run');
    await pause(1500);
    const before = await page.look(`geivottu.teletype.run.shown`);
    const paper = await page.look(pictures(3000));
    const printed = await page.look(`geivottu.teletype.run.shown`) - before;
    await page.click('#tty-stop');
    console.log(`the Teletype at full speed: ${paper.rate.toFixed(0)} pictures a second, longest gap ${paper.gap.toFixed(0)} ms; ${(printed / 3000).toFixed(0)} thousand characters a second`);
    console.log(`the folder has ${(sizeOf(folder) / 1000).toFixed(0)} kB`);
} finally {
    await page.end();
    server.end();
    rmSync(work, { recursive: true, force: true });
}
