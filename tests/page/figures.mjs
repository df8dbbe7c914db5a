// figures.mjs PROGRAM FOLDER [PART..]: how quick the page is, how large, and how much memory it takes. Each time is the best of some tries, since
// other programs may take the processors meanwhile. With IDLE=1 in the environment there are 60 pictures a second, whatever the page's own work for each
// is, and keys and clicks are timed: the middle of nine times. As losses.mjs otherwise.
import { randomBytes } from 'node:crypto';
import { readFileSync, readdirSync, statSync, writeFileSync } from 'node:fs';
import { join, resolve } from 'node:path';
import { alone, assemble, file, holds, isTold, native, pane, run, same } from './tools.mjs';

const TRIES = 8, STEPS = 40;
// A long text, and how much later than in a bare text area a key of it may have its picture, in milliseconds.
const LINE = '/ A LINE\n', LINES = 15000, BESIDE = 15;
const LOOP = '*200\nA,\tISZ B\n\tJMP A\n\tISZ C\n\tJMP A\n\tJMP A\nB,\t0\nC,\t0\n$\n';
const PRINTS = '*200\nA,\tTAD B\n\tTLS\n\tCLA\n\tISZ D\n\tJMP A\n\tTAD E\n\tTLS\n\tCLA\n\tTAD F\n\tTLS\n\tCLA\n\tTAD G\n\tDCA D\n\tJMP A\nB,\t301\nD,\t7740\nE,\t215\nF,\t212\nG,\t7740\n$\n';
const PICTURES = `new Promise(go => { let count = 0; const end = performance.now() + 1000;
    const next = now => { count++; performance.now() < end ? requestAnimationFrame(next) : go(count); }; requestAnimationFrame(next); })`;
const sizeOf = at => readdirSync(at, { withFileTypes: true }).reduce((sum, it) => sum + (it.isDirectory() ? sizeOf(join(at, it.name)) : statSync(join(at, it.name)).size), 0);

// The best of some tries, which end with the first that is good enough.
async function best(isGood, body) {
    const all = [];
    while (all.length < TRIES && !all.some(isGood)) all.push(await body(all.length));
    return { isMet: all.some(isGood), all: all.map(it => Math.round(it)).join(', ') };
}

// The processor time that the page's thread has taken, in milliseconds.
async function spent(page) {
    await page.call('Performance.enable', { timeDomain: 'threadTicks' });
    return (await page.call('Performance.getMetrics')).metrics.find(it => it.name === 'TaskDuration').value * 1000;
}

// Whether there are 60 pictures a second. Where other programs have the processors, it is enough that the page's own work for each would allow it:
// the processor time of its thread.
async function shows(page, what) {
    const before = await spent(page);
    let count = 0;
    const { isMet, all } = await best(it => it >= 57, async () => {
        const pictures = await page.look(PICTURES);
        count += pictures;
        return pictures;
    });
    const own = (await spent(page) - before) / count;
    console.log(`figures: ${what}: ${all} pictures in a second, of ${own.toFixed(1)} ms of work each`);
    holds(isMet || (!process.env.IDLE && own < 1000 / 60), `${what}: ${all} pictures in a second, of ${own.toFixed(1)} ms of work each`);
}

// How long it is from an act of the user to the picture that shows what it brought, in milliseconds.
async function pictured(page, shows, act) {
    await page.look(`(() => { let from = null; const began = event => { from ??= event.timeStamp; };
        for (const it of ['keydown', 'mouseup', 'change']) document.addEventListener(it, began, { capture: true });
        window.took = new Promise(go => { const next = () => {
            if (from === null || !(${shows})) return requestAnimationFrame(next);
            for (const it of ['keydown', 'mouseup', 'change']) document.removeEventListener(it, began, { capture: true });
            const after = new MessageChannel(); // its message comes once the picture is made
            after.port1.onmessage = () => go(performance.now() - from);
            after.port2.postMessage(null);
        }; requestAnimationFrame(next); });
    })()`);
    await act();
    return page.look('took');
}

// Nine such times, in order. `act` and `shows` get the number of the try.
async function times(page, shows, act) {
    const all = [];
    for (let k = 0; k < 9; k++) all.push(await pictured(page, shows(k), () => act(k)));
    return all.sort((a, b) => a - b).map(it => Math.round(it));
}

// What is said where the middle of nine such times is above a limit.
async function answers(page, what, limit, shows, act) {
    const before = await spent(page), all = await times(page, shows, act), own = (await spent(page) - before) / all.length;
    const words = `${what}: ${all.join(', ')} ms, of ${own.toFixed(1)} ms of work each, where ${limit} are wanted`;
    console.log(`figures: ${words}`);
    return all[4] <= limit ? '' : words;
}

// Two keys in a text of so many lines, by the middle of nine times each, in a text area of the browser alone.
async function bare(page, lines) {
    await page.look(`(() => { const it = Object.assign(document.createElement('textarea'), { id: 'bare', wrap: 'off', spellcheck: false });
        Object.assign(it.style, { position: 'fixed', inset: '100px', zIndex: 9, font: '13px/1.4 monospace', contain: 'strict' });
        document.body.append(it); it.value = ${JSON.stringify(LINE)}.repeat(${lines}); it.focus(); it.setSelectionRange(${lines * 5}, ${lines * 5}); })()`);
    const all = [];
    for (const [at, key] of ['A', 'Enter'].entries()) all.push((await times(page, k => `document.getElementById('bare').selectionStart === ${lines * 5 + 9 * at + k + 1}`, () => page.key(key)))[4]);
    await page.look(`document.getElementById('bare').remove()`);
    console.log(`figures: in ${lines} lines of a bare text area a key takes ${all[0]} ms, and a new line ${all[1]}`);
    return all;
}

// Two keys in a text of so many lines. Each has its picture in 50 ms, or soon after a bare text area has it.
async function typed(page, lines, when) {
    await pane(page, 'source');
    const least = await bare(page, lines), told = [];
    for (const [at, key] of ['A', 'Enter'].entries()) {
        await page.look(`(() => { const it = document.getElementById('text'); it.focus(); it.setSelectionRange(${lines * 5}, ${lines * 5}); })()`);
        told.push(await answers(page, `${at ? 'a new line' : 'a key'} in ${lines} lines, ${when}`, Math.max(50, least[at] + BESIDE),
            k => `document.getElementById('text').selectionStart === ${lines * 5 + k + 1}`, () => page.key(key)));
    }
    return told;
}

// Keys in a long text, steps, clicks on files, and changes of panes: what of them takes too long, in words.
async function handled(page, when) {
    const clicks = selector => () => page.click(selector), told = await typed(page, LINES, when);
    await pane(page, 'machine');
    await page.click('#key-load');
    told.push(await answers(page, `a step, ${when}`, 50, k => `document.getElementById('steps').textContent.startsWith('${k + 1} step')`, clicks('#key-step')));
    await pane(page, 'files');
    told.push(await answers(page, `a click on a file, ${when}`, 50, k => `document.getElementById('shown-name').textContent.includes('F${k}.') && document.getElementById('shown').textContent.includes('TEXT ${k} ')`,
        k => page.click(`button[aria-label="F${k}.TX in its best form"]`)));
    const panes = ['machine', 'source', 'files', 'teletype', 'script'];
    told.push(await answers(page, `a change of panes, ${when}`, 50, k => `document.getElementById('${panes[k % 5]}').checkVisibility()`, k => page.click(`#tab-${panes[k % 5]}`)));
    return told.filter(it => it).join('; ');
}

// The memory of the page's process that is its own, in MB, after a sweep.
async function memory(page) {
    await page.call('HeapProfiler.collectGarbage');
    const { processInfo } = await page.call('SystemInfo.getProcessInfo', {}, null);
    const own = processInfo.filter(it => it.type === 'renderer').map(({ id }) => Number(/^RssAnon:\s+(\d+)/m.exec(readFileSync(`/proc/${id}/status`, 'latin1'))?.[1]) / 1024);
    return Math.max(...own);
}

// The times of keys and clicks say something on an idle machine alone: with IDLE=1.
const IDLE_ALONE = ['a key, a step, a click on a file and a change of panes have their picture in 50 ms, beside a busy worker too',
    'an RK05 opens within 300 ms'];

/** @type {Record<string, any>} */
const tests = {
    'the page can be used within a second, and has less than 3 MB': async (page, url) => {
        const { isMet, all } = await best(it => it < 1000, async k => {
            await page.go(`${url}?${k}`);
            return page.look(`performance.getEntriesByName('ready')[0].startTime`);
        });
        holds(isMet, `it took ${all} ms`);
        const size = sizeOf(resolve(process.argv[3]));
        holds(size < 3000000, `it has ${size} bytes`);
    },
    'a volume of 4095 blocks is shown within half a second': async (page, url) => {
        native(['create', 'LARGE', '4095']);
        for (let k = 0; k < 40; k++) native(['put', 'LARGE', '-', '--as', `F${k}.DA`], randomBytes(30000));
        await page.go(url);
        await page.give('#image', file('LARGE'));
        await page.until(`document.querySelectorAll('#directory tbody tr').length === 40`);
        const { isMet, all } = await best(it => it < 500, () => page.look(`(async () => { const from = performance.now(); await geivottu.files.open('LARGE');
            await new Promise(requestAnimationFrame); return performance.now() - from; })()`));
        holds(isMet, `it took ${all} ms`);
    },
    'a key, a step, a click on a file and a change of panes have their picture in 50 ms, beside a busy worker too': async (page, url) => {
        const text = it => page.look(`(() => { const it = document.getElementById('text'); it.value = ${JSON.stringify(it)}; it.dispatchEvent(new Event('input', { bubbles: true })); })()`);
        native(['create', 'DISK', '3248']);
        for (let k = 0; k < 9; k++) native(['put', 'DISK', '-', '--as', `F${k}.TX`, '--text'], `TEXT ${k} \n`.repeat(200));
        await page.go(url);
        await page.give('#image', file('DISK'));
        await page.until(`document.querySelectorAll('#directory tbody tr').length === 9`);
        await assemble(page, 'LOOP', LOOP);
        await page.click('#to-core');
        await isTold(page, 'machine-status', 'words are in core');
        await page.click('#tab-source');
        await page.click('#to-teletype');
        await text(LINE.repeat(LINES) + LOOP);
        const alone = await handled(page, 'alone');
        await text(LOOP);
        await pane(page, 'teletype');
        await page.click('#tty-run');
        await isTold(page, 'tty-status', 'running');
        await text(LINE.repeat(LINES) + LOOP);
        const busy = await handled(page, 'beside a busy worker');
        await pane(page, 'teletype');
        await page.click('#tty-stop');
        same('', [alone, busy].filter(it => it).join('; '), 'what takes longer');
    },
    'an RK05 opens within 300 ms': async (page, url) => {
        native(['create', 'ONE', '3248']);
        for (let k = 0; k < 40; k++) native(['put', 'ONE', '-', '--as', `F${k}.DA`], randomBytes(9000));
        for (let k = 0; k < 9; k++) writeFileSync(file(`RK${k}`), Buffer.concat([readFileSync(file('ONE')), readFileSync(file('ONE'))]));
        await page.go(url);
        same('', await answers(page, 'an RK05', 300, k => `document.getElementById('volume').value === 'RK${k} 1' && document.querySelectorAll('#directory tbody tr').length === 40`,
            k => page.give('#image', file(`RK${k}`))), 'how long it takes');
    },
    'long work shows that it goes on': async (page, url) => {
        await page.go(url);
        await page.look(`geivottu.programs.ask(['create', 'V', '20'])`);
        const seen = () => page.look(`getComputedStyle(document.getElementById('work')).opacity`), script = `DEPOSIT 00200 5200\\nSTART 00200\\n${'GO 1000000\\n'.repeat(100)}`;
        same('0', await seen(), 'the sign at rest');
        await page.look(`void geivottu.programs.ask(['run', 'V', '--look'], '${script}')`);
        await page.until(`getComputedStyle(document.getElementById('work')).opacity === '1'`);
        await page.until(`!geivottu.programs.isAsked && getComputedStyle(document.getElementById('work')).opacity === '0'`);
    },
    'a caret in a long text takes no time on another pane': async (page, url) => {
        await page.go(url);
        await assemble(page, 'LOOP', LOOP);
        await page.click('#to-core');
        await isTold(page, 'machine-status', 'words are in core');
        await pane(page, 'source');
        await page.look(`(() => { const it = document.getElementById('text'); it.value = ${JSON.stringify(LINE.repeat(LINES) + LOOP)}; it.focus(); it.setSelectionRange(${LINES * 5}, ${LINES * 5}); })()`);
        for (const it of ['A', 'Enter', 'A', 'Enter']) await page.key(it);
        await pane(page, 'machine');
        await page.click('#key-load');
        const before = await spent(page);
        for (let k = 1; k <= 5; k++) {
            await page.click('#key-step');
            await page.until(`document.getElementById('steps').textContent.startsWith('${k} step')`);
        }
        const own = (await spent(page) - before) / 5;
        console.log(`figures: a step beside a long text is ${own.toFixed(1)} ms of work`);
        holds(own < 400, `a step is ${own.toFixed(1)} ms of work`);
    },
    'a script makes half of the native steps a second': async (page, url) => {
        const script = count => `DEPOSIT 00200 2210\nDEPOSIT 00201 5200\nDEPOSIT 00202 2211\nDEPOSIT 00203 5200\nDEPOSIT 00204 5200\nSTART 00200\n${'GO 1000000\n'.repeat(count)}`;
        native(['create', 'V', '20']);
        await page.go(url);
        await page.look(`geivottu.programs.ask(['create', 'V', '20'])`);
        const natively = count => { const from = Date.now(); native(['run', 'V', '--look'], script(count)); return Date.now() - from; };
        const there = count => page.look(`(async () => { const from = performance.now(); await geivottu.programs.ask(['run', 'V', '--look'], ${JSON.stringify(script(count))});
            return performance.now() - from; })()`);
        // what begins a run is no step
        const steps = async run => Math.max(1, Math.min(await run(STEPS), await run(STEPS)) - Math.min(await run(1), await run(1)));
        const { isMet, all } = await best(it => it >= 50, async () => 100 * await steps(natively) / await steps(there));
        console.log(`figures: ${all} hundredths of the native steps a second`);
        holds(isMet, `${all} hundredths of the native steps`);
    },
    'the panel and the Teletype have 60 pictures a second at full speed': async (page, url) => {
        await page.go(url);
        await assemble(page, 'LOOP', LOOP);
        await page.click('#to-core');
        await isTold(page, 'machine-status', 'words are in core');
        await page.choose('#speed', 'full');
        await page.click('#key-start');
        // quicker than the machine itself
        await page.until(`document.getElementById('rate').textContent.includes('million steps a second')`);
        await shows(page, 'the panel');
        await page.click('#key-stop');
        await isTold(page, 'machine-status', 'stopped by the key');
        await assemble(page, 'PRINTS', PRINTS);
        await page.click('#to-teletype');
        await page.click('#tty-run');
        await page.until(`document.getElementById('paper').textContent.length > 20000`);
        await shows(page, 'the Teletype');
        await page.click('#tty-stop');
    },
    'with an RK05 open and fifty changes to be undone it takes less than 200 MB': alone(async (page, url) => {
        native(['create', 'ONE', '3248']);
        native(['put', 'ONE', '-', '--as', 'A.DA'], randomBytes(550000));
        writeFileSync(file('RK05'), Buffer.concat([readFileSync(file('ONE')), readFileSync(file('ONE'))]));
        await page.go(url);
        await page.give('#image', file('RK05'));
        await page.until(`document.getElementById('volume').value === 'RK05 1'`);
        const before = await memory(page);
        for (let k = 0; k < 50; k++)
            await page.look(`(async () => { const { programs, undo } = geivottu, noise = new Uint8Array(550000);
                for (let at = 0; at < noise.length; at += 50000) crypto.getRandomValues(noise.subarray(at, at + 50000));
                await undo.group('RK05', 'a change', () => programs.ask(['put', 'RK05', '--volume', '1', '-', '--as', 'A.DA'], noise)); })()`);
        holds(await page.look(`geivottu.undo.count === 50`), `${await page.look('geivottu.undo.count')} changes can be undone`);
        const took = await memory(page);
        holds(took < 200, `it takes ${Math.round(took)} MB`);
        console.log(`figures: ${Math.round(before)} MB with the volume, ${Math.round(took)} MB with fifty changes`);
    }),
};
await run('figures', Object.fromEntries(Object.entries(tests).filter(([name]) => process.env.IDLE || !IDLE_ALONE.includes(name))));
