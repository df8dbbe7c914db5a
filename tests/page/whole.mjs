// whole.mjs PROGRAM FOLDER [PART..]: that what goes into the page, stays there and comes out is whole, and that what was cleared or removed is
// gone. As losses.mjs otherwise.
import { randomBytes } from 'node:crypto';
import { readFileSync, writeFileSync } from 'node:fs';
import { answer, create, file, image, isTold, native, pane, put, removeVolume, run, same, setSource, toCore, volume } from './tools.mjs';

const THREE = '*200\n\tCLA IAC\n\tIAC\n\tIAC\n\tHLT\n$\n';
// Lays each key that is struck into the cells from 00400 on.
const KEYS = '*200\nA,\tKSF\n\tJMP A\n\tKRB\n\tDCA I B\n\tISZ B\n\tJMP A\nB,\t400\n$\n';
const volumes = `[...document.getElementById('volume').options].slice(1).map(it => it.value).join()`;

// Reloads the page, once all is kept.
async function again(page, url) {
    await page.look('geivottu.store.settled()');
    await page.go(`${url}?again`);
}

async function toggle(page, cell, how) {
    await page.click(`#code [data-cell="${cell}"] button`);
    await isTold(page, 'machine-status', `BREAK ${cell} ${how}`);
}

async function starts(page, wanted) {
    await page.click('#key-start');
    await isTold(page, 'machine-status', wanted);
}

await run('whole', {
    'a long file goes in and home whole': async (page, url) => {
        await page.go(url);
        await create(page, 'DISK', 200);
        writeFileSync(file('noise.da'), randomBytes(30000));
        await put(page, 'frames', 'noise.da');
        await isTold(page, 'files-status', 'STORED NOISE.DA');
        native(['put', 'DISK', 'noise.da']);
        same(readFileSync(file('DISK')), await image(page), 'the image');
        same(native(['get', 'DISK', 'NOISE.DA']), (await page.home('button[aria-label="NOISE.DA save as frames"]')).bytes, 'what goes home');
    },
    'a volume of more than 1 MB is kept over a reload': async (page, url) => {
        await page.go(url);
        native(['create', 'LARGE', '4095']);
        writeFileSync(file('noise.da'), randomBytes(900000));
        native(['put', 'LARGE', 'noise.da']);
        await page.give('#image', file('LARGE'));
        await page.until(`!!document.querySelector('tr[data-name="NOISE.DA"]')`);
        await again(page, url);
        await page.until(`!!document.querySelector('tr[data-name="NOISE.DA"]')`);
        same(readFileSync(file('LARGE')), await image(page), 'the image');
    },
    'a volume that was removed stays away after a reload': async (page, url) => {
        await page.go(url);
        await create(page, 'DISK');
        await create(page, 'OTHER', 20);
        await page.look('geivottu.store.settled()');
        await removeVolume(page);
        await page.until(`document.getElementById('volume').value === 'DISK'`);
        await again(page, url);
        same('DISK', await page.look(volumes), 'the volumes');
    },
    'of two images that are dropped at once both come': async (page, url) => {
        await page.go(url);
        for (const it of ['A', 'B']) native(['create', it, '20']);
        await page.drop('#drop', file('A'), file('B'));
        await page.until(`${volumes} === 'A,B' && document.getElementById('volume').value === 'B'`);
        same(readFileSync(file('B')), await image(page), 'the image');
    },
    'what is no image is refused with its line, and not kept': async (page, url) => {
        await page.go(url);
        writeFileSync(file('none.da'), Buffer.from('This is no image.\n\0'));
        await page.give('#image', file('none.da'));
        await isTold(page, 'files-status', 'none.da: ? IMAGE 1 NOT WHOLE');
        same('', await page.look(volumes), 'the volumes');
        native(['create', 'V', '20']);
        const bytes = Buffer.concat([Buffer.alloc(100), readFileSync(file('V'))]);
        bytes[100 + 4001] = 0o377;
        writeFileSync(file('head.img'), bytes);
        await page.give('#image', file('head.img'));
        await isTold(page, 'files-status', 'head.img has faults, and is only looked at, as it is mended:');
        await isTold(page, 'files-status', 'note: head.img has 100 bytes before its blocks and 0 after them');
        same('head.img', await page.look(volumes), 'the volume that is looked at');
    },
    'a file that nobody changes keeps its time, however long the program reads it': async (page, url) => {
        await page.go(url);
        const commands = ['create DISK 90', 'list DISK', 'check DISK'].map(it => it.split(' '));
        // each look at the clock is a second after the one before
        const printed = await page.look(`(async () => {
            const { command } = await import('./host.js'), files = new Map(), text = new TextDecoder();
            let now = 0, all = '';
            Date.now = () => now += 1000;
            const host = { read: () => new Uint8Array(0), write: bytes => { all += text.decode(bytes); } };
            for (const words of ${JSON.stringify(commands)}) await command(geivottu.programs.module, files, ['pdp8', ...words], host);
            return all;
        })()`);
        same(Buffer.concat(commands.map(it => native(it))).toString(), printed, 'what is printed');
    },
    'two reads of a directory at once show each file once': async (page, url) => {
        await page.go(url);
        await create(page, 'DISK');
        writeFileSync(file('one.tx'), 'the first\n');
        await put(page, 'text', 'one.tx');
        await isTold(page, 'files-status', 'STORED ONE.TX');
        await page.look(`Promise.all([geivottu.files.open('DISK'), geivottu.files.open('DISK')])`);
        same('ONE.TX', await page.look(`geivottu.files.entries.map(it => it.name).join()`), 'the entries');
        same(1, await page.look(`document.querySelectorAll('#directory tbody tr').length`), 'the rows');
    },
    'Undo brings back information words': async (page, url) => {
        await page.go(url);
        native(['create', 'DISK', '90']);
        native(['put', 'DISK', '-', '--as', 'ONE.TX', '--text', '--info', '1234'], 'the first\n');
        await page.give('#image', file('DISK'));
        await page.until(`!!document.querySelector('tr[data-name="ONE.TX"]')`);
        writeFileSync(file('one.tx'), 'the second\n');
        await put(page, 'text', 'one.tx');
        await answer(page, 'DISK has a file ONE.TX', 1);
        await isTold(page, 'files-status', 'STORED ONE.TX');
        await page.click('#undo');
        await isTold(page, 'files-status', 'Undone');
        same(readFileSync(file('DISK')), await image(page), 'the image');
    },
    'a new machine has an empty core and no breaks': async (page, url) => {
        await page.go(url);
        await toCore(page, THREE);
        for (const it of ['00201', '00202']) await toggle(page, it, 'ON');
        await starts(page, 'BREAK 00201');
        await page.click('#power');
        await page.until(`document.getElementById('core').textContent.startsWith('00200  0000')`);
        await page.choose('#core-tape', 'source');
        await isTold(page, 'machine-status', 'words are in core');
        same(0, await page.look(`document.querySelectorAll('#code [aria-pressed="true"]').length`), 'the breaks that show');
        await starts(page, 'HALT 00204');
        await again(page, url);
        same(0, await page.look('geivottu.machine.breaks.size'), 'the breaks after a reload');
    },
    'of two breaks each is cleared, and stops no more': async (page, url) => {
        await page.go(url);
        await toCore(page, THREE);
        for (const it of ['00201', '00202']) await toggle(page, it, 'ON');
        await starts(page, 'BREAK 00201');
        for (const it of ['00201', '00202']) await toggle(page, it, 'OFF');
        await starts(page, 'HALT 00204');
        await toggle(page, '00202', 'ON');
        await again(page, url);
        await pane(page, 'machine');
        await starts(page, 'BREAK 00202');
    },
    'each key is struck as its own character': async (page, url) => {
        await page.go(url);
        await toCore(page, KEYS);
        await page.fill('#core-from', '00400');
        await page.key('Enter');
        await page.click('#key-start');
        await page.until('geivottu.machine.isGoing');
        await page.look(`document.getElementById('console').focus()`);
        /** @type {[string, number, string][]} */
        const keys = [['@', 2, '0200'], ['a', 2, '0201'], ['[', 2, '0233'], ['\\', 2, '0234'], [']', 2, '0235'], ['^', 2, '0236'], ['_', 2, '0237'],
            ['a', 0, '0301'], ['Enter', 0, '0215'], ['Backspace', 0, '0377'], ['Escape', 0, '0233'], ['_', 0, '0337']];
        for (const [key, modifiers] of keys) await page.key(key, key, modifiers);
        await page.until('geivottu.store.notes.get("keys").length === 0');
        await page.until(`geivottu.machine.registers.kbd === 0 || geivottu.machine.registers.kbd === false`);
        await page.click('#key-stop');
        await isTold(page, 'machine-status', 'stopped by the key');
        const words = () => page.look(`document.getElementById('core').textContent.replace(/\\d{5}  /g, '').split(/\\s+/).slice(0, ${keys.length}).join()`);
        await page.until(`document.getElementById('core').textContent.startsWith('00400  0200 0201')`).catch(() => {});
        same(keys.map(it => it[2]).join(), await words(), 'the words');
    },
    'a trace is of the text as it stands': async (page, url) => {
        await page.go(url);
        await setSource(page, THREE);
        await page.click('#trace');
        await isTold(page, 'doings', '00202 ');
        await page.fill('#text', '*200\n\tCLA CMA\n\tHLT\n$\n');
        await page.click('#trace');
        await isTold(page, 'doings', '00200 7240');
    },
    'a file is known by its own name, and a volume by what was given': async (page, url) => {
        await page.go(url);
        native(['create', 'my disk.os8', '20']);
        await page.give('#image', file('my disk.os8'));
        await page.until(`document.getElementById('volume').value === 'my_disk.os8'`);
        same('my_disk.os8', await volume(page), 'the volume');
        writeFileSync(file('longname.text'), 'a text\n');
        await put(page, 'name', 'longname.text');
        await answer(page, 'longname.text has no name that a volume can keep', 0);
        await answer(page, 'LONGNA.TE is a text', 1);
        await isTold(page, 'files-status', 'STORED LONGNA.TE');
        await page.until(`!!document.querySelector('tr[data-name="LONGNA.TE"]')`);
    },
});
