// kept.mjs PROGRAM FOLDER [PART]: what is on the screen is there after a reload, at whatever moment that comes. As losses.mjs otherwise.
import { readFileSync, readdirSync } from 'node:fs';
import { join } from 'node:path';
import { pause } from './browser.mjs';
import { answer, create, file, holds, image, isTold, native, pane, removeVolume, run, same, setSource, toCore } from './tools.mjs';

const ECHO = '*200\nA,\tKSF\n\tJMP A\n\tKRB\n\tTLS\n\tTSF\n\tJMP .-1\n\tJMP A\n$\n';
// Counts how often it looks for its first key. It prints the count, and once more for the next key.
const WAITS = '*200\nA,\tISZ N\n\tNOP\n\tKSF\n\tJMP A\nB,\tKRB\n\tCLA\n\tTAD M4\n\tDCA K\n\tTAD N\n\tRAL\n\tDCA W\nC,\tTAD W\n\tRTL\n\tRAL\n\tDCA W\n\tTAD W\n'
    + '\tAND SEVEN\n\tTAD ZERO\n\tTLS\n\tTSF\n\tJMP .-1\n\tCLA\n\tISZ K\n\tJMP C\nD,\tKSF\n\tJMP D\n\tJMP B\nN,\t0\nW,\t0\nK,\t0\nM4,\t-4\nSEVEN,\t7\nZERO,\t260\n$\n';
// Prints a character, and counts for ever.
const LOOP = '*200\n\tTAD C\n\tTLS\n\tTSF\n\tJMP .-1\n\tCLA\nA,\tISZ 300\n\tJMP A\n\tIAC\n\tJMP A\nC,\t302\n$\n';
const PRINTS = '*200\n\tTAD A\n\tTLS\n\tTSF\n\tJMP .-1\n\tHLT\nA,\t301\n$\n', COUNT = '*200\n\tCLA CLL\nA,\tISZ B\n\tJMP A\n\tIAC\n\tHLT\nB,\t7700\n$\n';
const registers = page => page.look(`JSON.stringify(geivottu.machine.registers)`);
const machine = page => page.look(`['registers', 'core', 'console', 'steps'].map(it => document.getElementById(it).textContent).join() + document.querySelector('[data-row=pc]').ariaLabel
    + document.querySelector('[data-row=ma]').ariaLabel + document.querySelector('[data-row=mb]').ariaLabel + document.getElementById('switches-shown').value`);
let visits = 0;

// Waits for a visit of the page, also while the visit before it ends.
async function arrive(page, visit) {
    const isThere = () => page.look(`location.search === '?visit=${visit}' && !!document.getElementById('ready')`).catch(() => false);
    for (let k = 0; !await isThere(); k++) {
        if (k > 600) throw new Error(`the page is not there for visit ${visit}`);
        await pause(25);
    }
}

// Leaves the page for itself once more, in the same task in which something was done.
async function leave(page, doing = '') {
    await page.look(`{ ${doing}; } location.search = '?visit=${++visits}'`).catch(() => {});
    await arrive(page, visits);
}

// Leaves it in the moment in which an expression holds first.
async function leaveWhen(page, expression) {
    const visit = ++visits;
    await page.look(`window.leaving = setInterval(() => { if (${expression}) { clearInterval(window.leaving); location.search = '?visit=${visit}'; } }, 1); 0`);
    return () => arrive(page, visit);
}

await run('kept', {
    'a deposit, a switch and an address are kept that are set right before a reload': async (page, url) => {
        await page.go(url);
        await pane(page, 'machine');
        await page.until(`document.getElementById('core').textContent !== ''`);
        await page.look(`document.querySelector('[aria-label="switch 3"]').click()`);
        await leave(page, `document.getElementById('key-load').click()`);
        await page.until(`document.querySelector('[data-row=pc] .word').textContent === '0400'`);
        same('0400', await page.look(`document.getElementById('switches-shown').value`), 'the switches');
        await page.fill('#core-from', '00400');
        await leave(page, `document.getElementById('key-deposit').click()`);
        await page.until(`document.getElementById('core').textContent.startsWith('00400  0400 ')`);
        await leave(page, `document.querySelector('[aria-label="switch 11"]').click()`);
        same('0401', await page.look(`document.getElementById('switches-shown').value`), 'the switches after a further reload');
    },
    'a text and a script are kept that are typed right before a reload': async (page, url) => {
        await page.go(url);
        for (const [name, id] of [['source', 'text'], ['script', 'lines']]) {
            await pane(page, name);
            await page.fill(`#${id}`, 'ONE');
            await leave(page, `document.getElementById('${id}').setRangeText(' TWO', 3, 3, 'end'); document.getElementById('${id}').dispatchEvent(new Event('input', { bubbles: true }))`);
            same('ONE TWO', await page.look(`document.getElementById('${id}').value`), name);
        }
    },
    'what a browser breaks off as the page is left is there after a reload': async (page, url) => {
        await page.go(url);
        await pane(page, 'source');
        await page.fill('#text', 'ONE');
        await page.look('geivottu.store.settled()');
        await leave(page, `IDBDatabase.prototype.transaction = () => { throw new Error('broken off'); };
            document.getElementById('text').value = 'TWO'; document.getElementById('text').dispatchEvent(new Event('input', { bubbles: true }))`);
        same('TWO', await page.look(`document.getElementById('text').value`), 'the text');
    },
    'further texts go home by their names, where the store refuses': async (page, url) => {
        await page.call('Page.addScriptToEvaluateOnNewDocument', { source: `IDBFactory.prototype.open = () => { throw new DOMException('refused', 'SecurityError'); };` });
        await page.go(url);
        for (const name of ['FIRST', 'SECOND', 'THIRD']) {
            if (name !== 'FIRST') await page.click('#text-new');
            await setSource(page, `/${name}\n`);
            await page.fill('#source-name', name);
            await page.key('Tab');
        }
        await page.click('#unkept-home');
        const home = () => readdirSync(page.downloads).filter(it => it.endsWith('.PA')).sort();
        for (let k = 0; k < 200 && home().length < 3; k++) await pause(25);
        same('FIRST.PA,SECOND.PA,THIRD.PA', home().join(), 'the files');
        for (const it of home()) same(`/${it.slice(0, -3)}\n`, readFileSync(join(page.downloads, it), 'latin1'), it);
    },
    'what was printed right before a reload is on the paper': async (page, url) => {
        await page.go(url);
        await setSource(page, PRINTS);
        await page.click('#assemble');
        await isTold(page, 'source-status', 'assembled');
        await page.click('#to-teletype');
        const arrived = await leaveWhen(page, `document.getElementById('paper').textContent === 'A'`);
        await page.look(`document.getElementById('tty-run').click()`);
        await arrived();
        await page.until(`document.getElementById('paper').textContent === 'A'`);
    },
    'a program at the Teletype that waits for a key still waits after a reload, and is where it was': async (page, url) => {
        await page.go(url);
        await setSource(page, ECHO);
        await page.click('#assemble');
        await isTold(page, 'source-status', 'assembled');
        await page.click('#to-teletype');
        await page.click('#tty-run');
        await page.keys('A');
        await isTold(page, 'paper', 'A');
        await leave(page);
        await page.until('geivottu.teletype.run !== null');
        await page.look(`document.getElementById('paper').focus()`);
        await page.key('B');
        await page.until(`document.getElementById('paper').textContent === 'AB'`);
        // a key that is struck as the page is left is not lost
        await leave(page, `addEventListener('pagehide', () => geivottu.teletype.strike('C'), { capture: true })`);
        await page.until(`document.getElementById('paper').textContent === 'ABC'`);
        // how long a program has waited for a key is part of what it is
        await setSource(page, WAITS);
        await pane(page, 'teletype');
        await page.click('#tty-stop');
        await page.until(`!document.getElementById('tty-run').disabled`);
        await page.click('#tear');
        await page.click('#tty-run');
        await page.until('geivottu.teletype.run !== null');
        await pause(300);
        await page.keys('A');
        await page.until(`document.getElementById('paper').textContent.length === 4`);
        const counted = await page.text('paper');
        await leave(page);
        await page.until('geivottu.teletype.run !== null');
        await page.look(`document.getElementById('paper').focus()`);
        await page.key('B');
        await page.until(`document.getElementById('paper').textContent.length === 8`);
        same(counted + counted, await page.text('paper'), 'the count of looks');
        await page.click('#tty-stop');
        await isTold(page, 'tty-status', 'stopped');
        await leave(page);
        same(null, await page.look('geivottu.teletype.run'), 'a program that was stopped');
    },
    'a session keeps the files that it has stored, where the page is left and where it is stopped': async (page, url) => {
        await page.go(url);
        await create(page, 'DISK');
        const stop = async () => { await page.click('#script-stop'); await isTold(page, 'script-status', 'It was stopped.'); };
        for (const { name, ends } of [{ name: 'ONE', ends: () => leave(page) }, { name: 'TWO', ends: stop }]) {
            await pane(page, 'script');
            await page.click('#session');
            await page.until(`!document.getElementById('entry-line').disabled`);
            for (const it of [`STORE ${name} 1`, 'THE LINE']) {
                await page.fill('#entry-line', it);
                await page.key('Enter');
            }
            await isTold(page, 'replies', `STORED ${name} 1`);
            await ends();
            await pane(page, 'files');
            await page.until(`!!document.querySelector('tr[data-name="${name}"]')`);
        }
    },
    'the replies of a script and of a session are there after a reload, with how it ended': async (page, url) => {
        await page.go(url);
        await create(page, 'DISK');
        await pane(page, 'script');
        await page.fill('#lines', 'DIRECT\nNONSENSE\n');
        await page.click('#strict');
        await page.click('#script-run');
        await isTold(page, 'script-status', 'It ended with a fault (status 1).');
        const replies = await page.text('replies');
        holds(replies.startsWith('FREE'), replies);
        await leave(page);
        same(replies, await page.text('replies'), 'the replies after a reload');
        same('It ended with a fault (status 1).', await page.text('script-status'), 'how it ended');
        await page.click('#session');
        await page.until(`!document.getElementById('entry-line').disabled`);
        for (const it of ['STORE ONE 1', 'THE LINE', 'DIRECT']) {
            await page.fill('#entry-line', it);
            await page.key('Enter');
        }
        await isTold(page, 'replies', 'FREE');
        const session = await page.text('replies');
        await leave(page);
        same(session, await page.text('replies'), 'what the session said');
        same('It ended as the page was left. The volume has what was stored.', await page.text('script-status'), 'how the session ended');
        await page.choose('#script-saving', '');
        await page.fill('#lines', `START 00000\n${'GO 1000000\n'.repeat(900)}`);
        await page.click('#script-run');
        await isTold(page, 'script-status', 'running');
        await leave(page);
        same('It ended as the page was left. The volume is as it was before.', await page.text('script-status'), 'how the script ended');
    },
    'a deletion and a removal are undone after a reload, and done again after a further one': async (page, url) => {
        await page.go(url);
        await create(page, 'DISK');
        native(['put', 'DISK', '-', '--as', 'ONE.TX', '--text'], 'the first\n');
        await page.give('#image', file('DISK'));
        await answer(page, 'There is a volume DISK', 1);
        await page.until(`!!document.querySelector('tr[data-name="ONE.TX"]')`);
        await page.click('button[aria-label="ONE.TX delete"]');
        await isTold(page, 'files-status', 'DELETED ONE.TX');
        const deleted = await image(page);
        await removeVolume(page);
        await page.until(`document.getElementById('volume').value === ''`);
        await leave(page);
        await pane(page, 'script');
        await page.click('#undo');
        await isTold(page, 'script-status', 'Undone: the removal of DISK');
        await pane(page, 'files');
        same(deleted, await image(page), 'the volume that was removed');
        await leave(page);
        await page.look(`document.activeElement.blur()`);
        await page.key('z', 'KeyZ', 2);
        await isTold(page, 'files-status', 'Undone: the deletion of ONE.TX');
        same(readFileSync(file('DISK')), await image(page), 'the volume with its file');
        await leave(page);
        await page.click('#redo');
        await isTold(page, 'files-status', 'Done again: the deletion of ONE.TX');
        same(deleted, await image(page), 'the volume without it');
    },
    'core that was typed by hand comes back, whatever was laid over it': async (page, url) => {
        await page.go(url);
        await pane(page, 'machine');
        await page.until(`document.getElementById('core').textContent !== ''`);
        await page.look(`geivottu.machine.panel.switches = 0o1234; geivottu.machine.panel.address = 0o200; document.getElementById('key-deposit').click()`);
        await page.until(`document.getElementById('core').textContent.startsWith('00200  1234')`);
        const core = () => page.look(`document.getElementById('core').textContent.slice(0, 16)`), typed = await core();
        await toCore(page, COUNT);
        await page.until(`document.getElementById('core').textContent.startsWith('00200  7300')`);
        await page.click('#key-start');
        await isTold(page, 'machine-status', 'HALT 00205');
        await leave(page);
        await page.look(`document.activeElement.blur()`);
        await page.key('z', 'KeyZ', 2);
        await isTold(page, 'machine-status', 'Undone: the load of the tape of PROGRAM');
        same(typed, await core(), 'core before the load');
        await page.click('#redo');
        await isTold(page, 'machine-status', 'Done again: the load of the tape of PROGRAM');
        await page.until(`document.querySelector('[data-row=pc] .word').textContent === '0205'`);
        same('Accumulator 0001', await page.look(`document.querySelector('[data-row=ac]').getAttribute('aria-label')`), 'the machine that was run');
        await page.click('#undo');
        await isTold(page, 'machine-status', 'Undone');
        await page.click('#power');
        await isTold(page, 'machine-status', 'a new machine');
        await page.click('#undo');
        await isTold(page, 'machine-status', 'Undone: the new machine');
        same(typed, await core(), 'core before the new machine');
        await pane(page, 'source');
        await page.click('#trace');
        await page.click('#doings [data-step="3"]');
        await page.until(`!document.getElementById('to-step').disabled`);
        await page.click('#to-step');
        await isTold(page, 'machine-status', 'after step 4');
        await page.click('#undo');
        await isTold(page, 'machine-status', 'Undone: going on from the step');
        same(typed, await core(), 'core before the step');
    },
    'a machine whose run can\'t begin is there once it can': async (page, url) => {
        await page.go(url);
        await toCore(page, COUNT);
        await page.look(`document.getElementById('key-step').click(); geivottu.machine.stepped`);
        const shown = await machine(page);
        const { identifier } = await page.call('Page.addScriptToEvaluateOnNewDocument', { source: `{ const { postMessage } = Worker.prototype;
            Worker.prototype.postMessage = function (it) {
                if (it.begin && it.words.slice(0, 2).join() === 'run,--look') setTimeout(() => this.onmessage({ data: { status: null, failed: 'no memory' } }));
                else postMessage.call(this, it);
            }; }` });
        await leave(page);
        await isTold(page, 'machine-status', 'no memory');
        await page.call('Page.removeScriptToEvaluateOnNewDocument', { identifier });
        await leave(page);
        await page.until(`document.getElementById('core').textContent !== ''`);
        same(shown, await machine(page), 'the machine');
    },
    'each step is kept as it is shown': async (page, url) => {
        await page.go(url);
        await toCore(page, COUNT);
        for (let k = 1; k <= 4; k++) {
            const arrived = await leaveWhen(page, `document.getElementById('steps').textContent === '${k} step${k === 1 ? '' : 's'} since START'`);
            await page.look(`document.getElementById('key-step').click()`);
            await arrived();
            await page.until(`geivottu.machine.registers?.pc === '${['0201', '0202', '0201', '0202'][k - 1]}'`);
        }
        same('7702', await page.look(`(async () => (await geivottu.machine.living.ask('EXAMINE 00205'))[0].slice(6))()`), 'the counter');
    },
    'a machine that has stopped is as it was, after a short run and a long one': async (page, url) => {
        await page.go(url);
        await toCore(page, PRINTS);
        await page.click('#key-start');
        await isTold(page, 'machine-status', 'HALT');
        await page.until(`document.querySelector('[data-row=ma] .word').textContent === '0204'`);
        const halted = await machine(page);
        await leave(page);
        await page.until(`document.getElementById('core').textContent !== ''`);
        same(halted, await machine(page), 'what is shown after a HLT');
        await toCore(page, LOOP);
        await page.choose('#speed', 'full');
        await page.click('#key-start');
        await page.until('geivottu.machine.steps > 6000000');
        await page.click('#key-stop');
        await isTold(page, 'machine-status', 'stopped by the key');
        await page.until(`!geivottu.store.notes.get('machine').includes('GO ')`);
        const [before, all] = [await registers(page), await machine(page)];
        await leave(page);
        await page.until(`document.getElementById('core').textContent !== ''`);
        same(before, await registers(page), 'the registers');
        same(all, await machine(page), 'what is shown after a long run');
    },
    'no character is printed twice, wherever the store ends as the page is left': async (page, url) => {
        // as the page is left so many further writes are made, and no more
        await page.call('Page.addScriptToEvaluateOnNewDocument', { source: `{ const { transaction } = IDBDatabase.prototype;
            let left = Infinity;
            addEventListener('pagehide', () => { left = window.writes ?? Infinity; }, true);
            IDBDatabase.prototype.transaction = function (...them) { if (left-- <= 0) throw new DOMException('the page is left', 'AbortError'); return transaction.apply(this, them); }; }` });
        await page.go(url);
        await toCore(page, ECHO);
        await page.click('#key-start');
        await page.until('geivottu.machine.isGoing');
        let wanted = '';
        for (const [k, writes] of [2, 1, 2].entries()) {
            await page.look(`geivottu.machine.keptAt = Infinity; document.getElementById('console').focus()`);
            wanted += 'ABC'[k];
            await page.keys('ABC'[k]);
            await page.until(`document.getElementById('console').textContent === '${wanted}'`);
            await leave(page, `window.writes = ${writes}`);
            await page.until('geivottu.machine.isGoing');
            await page.look(`document.getElementById('console').focus()`);
            wanted += 'XYZ'[k];
            await page.keys('XYZ'[k]);
            await page.until(`document.getElementById('console').textContent.endsWith('${'XYZ'[k]}')`);
            same(wanted, await page.text('console'), `the paper, with ${writes} writes`);
        }
        await page.click('#key-stop');
    },
    'a machine that goes goes on after a reload, and gets the key that it waits for': async (page, url) => {
        await page.go(url);
        await toCore(page, ECHO);
        await page.click('#key-start');
        await page.look(`document.getElementById('console').focus()`);
        await page.keys('AB');
        await isTold(page, 'console', 'AB');
        const steps = await page.look('geivottu.machine.steps');
        await leave(page);
        await page.until('geivottu.machine.isGoing');
        await page.until(`geivottu.machine.steps > ${steps}`);
        await page.look(`document.getElementById('console').focus()`);
        await page.keys('C');
        await isTold(page, 'console', 'ABC');
        same('ABC', await page.text('console'), 'its paper');
        await page.click('#key-stop');
        await isTold(page, 'machine-status', 'stopped by the key');
        await leave(page);
        holds(!await page.look('geivottu.machine.isGoing'), 'a machine that was stopped goes');
        await page.look(`document.getElementById('console').focus()`);
        await page.key('D');
        await leave(page);
        await page.click('#key-go');
        await isTold(page, 'console', 'ABCD');
    },
});
