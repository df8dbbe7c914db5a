// boots.mjs PROGRAM FOLDER [PART..]: disks that boot in the page: their keys and their end, what they leave in the store, their locks and drives, and what
// comes back. As losses.mjs otherwise.
import { spawnSync } from 'node:child_process';
import { readFileSync, writeFileSync } from 'node:fs';
import { dirname, join, resolve } from 'node:path';
import { fileURLToPath } from 'node:url';
import { COUNTS, LOOPS, answer, assemble, create, file, further, holds, image, isTold, native, optionsOf, pane, run, same, volume } from './tools.mjs';

// Prints for ever.
const PRINTS = [0o7200, 0o1037, 0o6046, 0o6041, 0o5034, 0o5031, 0o301];
const SECTOR = 20, examples = join(dirname(dirname(dirname(fileURLToPath(import.meta.url)))), 'examples');

// A volume of the host with such a program in its first block, which writes a sector.
function disk(name, words = COUNTS, sector = SECTOR, blocks = 90) {
    native(['create', name, String(blocks)]);
    const bytes = readFileSync(file(name));
    [...words, ...(words === PRINTS ? [] : [sector])].forEach((word, k) => { bytes[2 * (0o31 + k)] = word & 0o377; bytes[2 * (0o31 + k) + 1] = word >> 8; });
    writeFileSync(file(name), bytes);
    return bytes;
}

// Opens a volume of the host.
async function opens(page, name, opened = name) {
    await pane(page, 'files');
    await page.give('#image', file(name));
    await page.until(`document.getElementById('volume').value === ${JSON.stringify(opened)}`);
}

// Whether a disk boots, and its paper takes keys.
const isBooted = page => page.until(`geivottu.teletype.run !== null && document.activeElement.id === 'paper'`);

// Boots the disk that is chosen.
async function boots(page) {
    await pane(page, 'machine');
    await page.click('#boot');
    await isBooted(page);
}

// How many keys a disk of the page has counted.
const counted = (name, sector = SECTOR) => `(geivottu.store.files.get('${name}')[${512 * sector + 2 * 0o61}] ?? 0)`;
const status = (page, part) => isTold(page, 'tty-status', part);

// The image of the volume that is open, in its pane.
async function taken(page) {
    await pane(page, 'files');
    return image(page);
}

await run('boots', {
    'a disk boots, its keys are the Teletype\'s, and what it writes is in the store at once': async (page, url) => {
        await page.go(url);
        disk('D');
        await opens(page, 'D');
        await boots(page);
        same('teletype', await page.look('geivottu.tabs.shown'), 'the pane');
        await status(page, 'D is booted. Stop saves it, and ends it.');
        for (const [k, key] of ['A', 'b'].entries()) {
            await page.keys(key);
            await page.until(`${counted('D')} === ${k + 1}`);
        }
        same('AB', await page.text('paper'), 'the paper');
        await page.keys('h');
        await status(page, 'HALT 00040 AC 0000 L 1 MQ 0000');
        same('The program has halted.\nD: 1 sector was changed, and is saved.\nHALT 00040 AC 0000 L 1 MQ 0000', await page.text('tty-status'), 'how it ended');
        native(['boot', 'D'], 'ABH');
        same(readFileSync(file('D')), await taken(page), 'the image');
        same('ABH', await page.text('paper'), 'the paper at the end');
    },
    'Stop lets a program save that waits, loops, or prints more than is shown': async (page, url) => {
        await page.go(url);
        for (const { name, words } of [{ name: 'WAITS', words: COUNTS }, { name: 'LOOPS', words: LOOPS }]) {
            disk(name, words);
            await opens(page, name);
            await boots(page);
            await page.keys('A');
            await isTold(page, 'paper', 'A');
            if (name === 'LOOPS') same(0, await page.look(counted(name)), 'what is saved before');
            await page.click('#tty-stop');
            await status(page, `It was stopped. ${name}: 1 sector was changed, and is saved.`);
            same(false, await page.look(`document.getElementById('tty-status').classList.contains('bad')`), 'whether that is a fault');
            native(['boot', name, '--steps', '100000'], 'A');
            same(readFileSync(file(name)), await taken(page), name);
            await pane(page, 'teletype');
            await page.click('#tear');
        }
        disk('PRINTS', PRINTS);
        await opens(page, 'PRINTS');
        await pane(page, 'teletype');
        await page.choose('#pace', 'real');
        await boots(page);
        await page.until(`document.getElementById('paper').textContent.length > 3`);
        await page.click('#tty-stop');
        await status(page, 'It was stopped. PRINTS: nothing was changed.');
    },
    'a device that isn\'t there is named before the end of a boot and of a tape, and is no fault': async (page, url) => {
        const isBad = () => page.look(`document.getElementById('tty-status').classList.contains('bad')`), note = 'note: no device 6771 at 00';
        await page.go(url);
        disk('HALTS', [0o6771, 0o7402]);
        await opens(page, 'HALTS');
        await pane(page, 'machine');
        await page.click('#boot');
        await status(page, 'HALT');
        same(`The program has halted.\nHALTS: nothing was changed.\n${note}031\nHALT 00033 AC 0000 L 0 MQ 0000`, await page.text('tty-status'), 'how the boot ended');
        same(false, await isBad(), 'whether that is a fault');
        disk('LOOPS', [0o6771, 0o5031]);
        await opens(page, 'LOOPS');
        await boots(page);
        await page.click('#tty-stop');
        await status(page, `It was stopped. LOOPS: nothing was changed.\n${note}031\nLIMIT 0003`);
        same(false, await isBad(), 'whether a stop is a fault');
        await assemble(page, 'IT', '*200\n\t6771\n\tHLT\n$\n');
        await page.click('#to-teletype');
        await page.until(`document.activeElement.id === 'tty-run'`);
        await page.click('#tty-run');
        await status(page, 'HALT 00202');
        same(`The program has halted.\n${note}200\nHALT 00202 AC 0000 L 0`, await page.text('tty-status'), 'how the tape ended');
        same(false, await isBad(), 'whether that is a fault');
    },
    'Undo takes back what a boot wrote, and not while it runs': async (page, url) => {
        await page.go(url);
        const before = disk('D');
        await opens(page, 'D');
        await boots(page);
        await page.keys('AB');
        await page.until(`${counted('D')} === 2`);
        await page.click('#undo');
        await status(page, '? HOST BUSY');
        await pane(page, 'files');
        await page.click('#drop-image');
        await isTold(page, 'files-status', '? HOST BUSY');
        await pane(page, 'teletype');
        await page.click('#tty-stop');
        await status(page, 'It was stopped.');
        const after = await taken(page);
        await page.click('#undo');
        await isTold(page, 'files-status', 'Undone: the boot of D');
        same(before, await image(page), 'the image before');
        await page.look('geivottu.store.settled()');
        await page.go(`${url}?again`);
        await page.click('#redo');
        await isTold(page, 'files-status', 'Done again: the boot of D');
        same(after, await taken(page), 'the image after');
        await page.click('#undo');
        await isTold(page, 'files-status', 'Undone: the boot of D');
    },
    'of two tabs one has the disk, and the Teletype': async (page, url) => {
        const first = await further(page, url);
        const before = disk('D');
        await opens(first, 'D');
        await page.go(`${url}?second`);
        await page.until(`geivottu.store.files.has('D')`);
        await pane(page, 'machine');
        await page.click('#machine-follows button');
        await page.until(`document.getElementById('machine-follows').hidden`);
        await page.click('#boot');
        await status(page, '? HOST BUSY');
        await pane(first, 'files');
        await first.choose('#volume', '');
        await page.choose('#volume', '');
        await boots(page);
        await page.keys('A');
        await page.until(`${counted('D')} === 1`);
        await first.choose('#volume', 'D');
        await isTold(first, 'follows', 'Another tab has D');
        await first.until(`${counted('D')} === 1`);
        await pane(first, 'teletype');
        await first.look(`document.querySelector('#tty-follows button').click()`); // another note lies over it
        await first.until(`document.getElementById('tty-follows').hidden`);
        await status(page, 'It was stopped. D: 1 sector was changed, and is saved.');
        await status(first, 'D booted here, which ended as its page was left.');
        await first.until(`document.getElementById('follows').hidden`);
        holds(!before.equals(Buffer.from(await taken(first))), 'nothing was saved');
    },
    'a reload ends a boot, and the disk has what was saved': async (page, url) => {
        await page.go(url);
        disk('D');
        await opens(page, 'D');
        await boots(page);
        await page.keys('AB');
        await page.until(`${counted('D')} === 2`);
        const saved = await taken(page);
        await page.look('geivottu.store.settled()');
        await page.go(`${url}?again`);
        same('D booted here, which ended as its page was left. It has what was saved by then.', await page.text('tty-status'), 'what is said of it');
        same(null, await page.look('geivottu.teletype.run'), 'what runs');
        same(saved, await taken(page), 'the image');
        same('AB', await page.text('paper'), 'the paper');
        await page.go(`${url}?third`);
        same('', await page.text('tty-status'), 'what is said after a further reload');
    },
    'locks, a look and further drives are those of boot': async (page, url) => {
        await page.go(url);
        const before = disk('D'), other = disk('E', COUNTS, SECTOR, 20);
        await opens(page, 'E');
        await opens(page, 'D');
        await pane(page, 'machine');
        await page.click('#booting summary');
        const runs = async (told) => {
            await boots(page);
            await page.keys('AH');
            await status(page, told);
            await page.look(`document.getElementById('tty-status').textContent = ''`);
            same(before, await taken(page), told);
            await pane(page, 'machine');
        };
        await page.click('#boot-look');
        await runs('D was only looked at: nothing is kept.');
        await page.click('#boot-look');
        await page.click('#lock-0');
        await runs('D was locked.');
        await page.choose('#drive-1', 'D');
        await page.click('#boot');
        await isTold(page, 'machine-status', 'D is in two drives');
        // a program that writes to drive 1: its command is 4102
        const words = [...COUNTS.slice(0, 25), 0o4102];
        disk('F', words);
        await opens(page, 'F');
        await pane(page, 'machine');
        await page.click('#lock-0');
        await page.choose('#drive-0', 'F');
        await page.choose('#drive-1', 'E');
        await boots(page);
        await page.keys('AH');
        await status(page, 'F: nothing was changed. E: 1 sector was changed, and is saved.');
        native(['boot', 'F', '--rk1', 'E'], 'AH');
        holds(!other.equals(readFileSync(file('E'))), 'nothing was written natively');
        same(readFileSync(file('F')), await taken(page), 'the disk in drive 0');
        await page.choose('#volume', 'E');
        same(readFileSync(file('E')), await image(page), 'the disk in drive 1');
    },
    'what can boot is offered, and the switches and capitals are given': async (page, url) => {
        await page.go(url);
        await create(page, 'EMPTY', 20);
        await page.fill('#new-name', 'TAPE');
        await page.click('#create-dectape');
        await isTold(page, 'files-status', 'CREATED 737');
        await pane(page, 'machine');
        same('none can boot true', await page.look(`${optionsOf('drive-0')}.join() + ' ' + document.getElementById('boot').disabled`), 'what is offered without a system');
        same('no disk,EMPTY', await page.look(`${optionsOf('drive-1')}.join()`), 'what may be in drive 1');
        // prints the switches' low bits, then each key as it is struck
        disk('D', [0o7604, 0o6046, 0o6041, 0o5033, 0o6031, 0o5035, 0o6036, 0o6046, 0o5035]);
        await opens(page, 'D');
        await pane(page, 'machine');
        same('D false', await page.look(`${optionsOf('drive-0')}.join() + ' ' + document.getElementById('boot').disabled`), 'what is offered with one');
        await page.fill('#switches-shown', '0123');
        await page.key('Tab');
        await boots(page);
        await isTold(page, 'paper', 'S');
        same(true, await page.look(`document.getElementById('capitals').disabled`), 'whether capitals can be changed');
        await page.keys('a');
        await isTold(page, 'paper', 'SA');
        await page.click('#tty-stop');
        await status(page, 'It was stopped.');
        await page.click('#capitals');
        await boots(page);
        await isTold(page, 'paper', 'SAS');
        await page.keys('b');
        await isTold(page, 'paper', 'SASb');
    },
    'lamps and a picture show which sectors were read, and which a save has changed': async (page, url) => {
        await page.go(url);
        disk('D');
        await opens(page, 'D');
        await pane(page, 'teletype');
        holds(!await page.look(`document.getElementById('drives').checkVisibility()`), 'drives are shown where nothing boots');
        await boots(page);
        const lamps = () => page.look(`[...document.querySelectorAll('.drive-lamp')].map(it => it.ariaLabel).join()`), told = () => page.look(`document.querySelector('.drive canvas').ariaLabel`);
        await page.until(`document.querySelectorAll('.drive-lamp')[1].ariaLabel === 'Read on'`);
        same('Drive 0, 90 sectors: nothing changed yet; 1 sector read, last 0', await told(), 'the picture');
        await page.until(`document.querySelectorAll('.drive-lamp')[1].ariaLabel === 'Read off'`);
        same('Run on,Read off,Write off,Wt prot off', await lamps(), 'the lamps');
        // the light of the middle of a square, of its left side, and of its upper side; there are 32 in a row
        const light = sector => page.look(`(() => { const canvas = document.querySelector('.drive canvas'), brush = canvas.getContext('2d'), across = canvas.clientWidth / 32;
            const at = (x, y) => { const [r, g, b] = brush.getImageData(Math.floor(x), Math.floor(y), 1, 1).data; return r + g + b > 600 ? 'light' : 'dark'; };
            const x = ${sector} % 32 * across, y = Math.floor(${sector} / 32) * Math.floor(across); return [at(x + across / 2, y + across / 2), at(x + 2, y + across / 2), at(x + across / 2, y + 2)].join(' '); })()`);
        same('light light light', await light(SECTOR), 'an empty sector');
        same('dark dark light', await light(0), 'the sector that was read last');
        await page.keys('A');
        await page.until(`document.querySelectorAll('.drive-lamp')[2].ariaLabel === 'Write on'`);
        same(`Drive 0, 90 sectors: 1 sector changed and saved, last ${SECTOR}; 1 sector read, last 0`, await told(), 'the picture after a key');
        same('light light dark', await light(SECTOR), 'the sector that was changed last');
        await page.until(`document.querySelectorAll('.drive-lamp')[2].ariaLabel === 'Write off'`);
        await page.click('#tty-stop');
        await status(page, 'It was stopped.');
        same('Run off,Read off,Write off,Wt prot off', await lamps(), 'the lamps at the end');
    },
    'the disk of the shelf boots at one click, and is that of the examples': async (page, url) => {
        await page.go(url);
        await pane(page, 'machine');
        await page.click('button[data-run="shed"]');
        await isTold(page, 'paper', 'SHED. TYPE ? FOR HELP');
        const made = spawnSync('env', [`PDP8=${resolve(process.argv[2])}`, join(examples, 'disk/make.sh'), 'D'], { cwd: file(''), maxBuffer: 1 << 24 });
        same(0, made.status, 'how it was made natively');
        same(readFileSync(file('D')), await taken(page), 'the disk');
        same('SHED 1', await volume(page), 'the volume');
        await pane(page, 'teletype');
        await page.look(`document.getElementById('paper').focus()`);
        await page.keys('D HELLO.BN\n');
        await page.until(`!document.querySelector('tr[data-name="HELLO.BN"]') && !!document.querySelector('tr[data-name="HELLO.PA"]')`);
        await page.keys('H\n');
        await status(page, 'HALT');
        native(['boot', 'D'], 'D HELLO.BN\rH\r');
        same(readFileSync(file('D')), await taken(page), 'the disk without a file');
        await pane(page, 'machine');
        await page.click('button[data-run="shed"]');
        await status(page, 'SHED is booted.');
        same('SHED', await page.look('geivottu.files.images.join()'), 'the disks of the page');
    },
    'a text that is stored on the disk of the shelf is one of its files': async (page, url) => {
        await page.go(url);
        await pane(page, 'machine');
        await page.click('button[data-run="shed"]');
        await isBooted(page);
        await isTold(page, 'paper', 'SHED. TYPE ? FOR HELP');
        await page.keys('S NOTE.TX\nHELLO\n');
        await page.key('z', 'KeyZ', 2);
        await isTold(page, 'paper', 'STORED 1');
        await page.keys('H\n');
        await status(page, 'HALT');
        await pane(page, 'files');
        await page.until(`!!document.querySelector('tr[data-name="NOTE.TX"]')`);
        writeFileSync(file('D'), await image(page));
        same('HELLO\n', native(['get', 'D:1', 'NOTE.TX', '--text']).toString(), 'the text');
    },
    'a disk that grows by a boot is of the kind that it is then': async (page, url) => {
        await page.go(url);
        // the first words are a directory with a file A, which comes to the second volume
        const bytes = disk('P', COUNTS, 3249, 3248);
        [0o7776, 7, 0, 0, 0o7777, 0o100, 0, 0, 0, 0, 0o7777, 0, 0o1530].forEach((word, k) => { bytes[2 * k] = word & 0o377; bytes[2 * k + 1] = word >> 8; });
        writeFileSync(file('P'), bytes);
        await opens(page, 'P');
        await boots(page);
        await page.keys('AH');
        await status(page, 'HALT 00040');
        native(['boot', 'P'], 'AH');
        await page.until(`document.getElementById('volume').value === 'P 1'`);
        same(readFileSync(file('P')), await taken(page), 'the image');
        await page.click('#undo');
        await isTold(page, 'files-status', 'Undone: the boot of P');
        same('P', await volume(page), 'the volume before');
    },
    'a program at the Teletype is stopped for a boot where one says so, and a boot for another one': async (page, url) => {
        await page.go(url);
        for (const it of ['D', 'E']) disk(it);
        await opens(page, 'E');
        await opens(page, 'D');
        await boots(page);
        await page.keys('A');
        await page.until(`${counted('D')} === 1`);
        await pane(page, 'machine');
        await page.choose('#drive-0', 'E');
        await page.click('#boot');
        await answer(page, 'A program runs at the Teletype.', 0);
        await page.click('#boot');
        await answer(page, 'A program runs at the Teletype.', 1);
        await status(page, 'E is booted.');
        await isBooted(page);
        await page.keys('B');
        await page.until(`${counted('E')} === 1`);
        same(1, await page.look(counted('D')), 'the keys of the first');
        await page.click('#tty-stop');
        await status(page, 'It was stopped. E: 1 sector was changed, and is saved.');
    },
});
