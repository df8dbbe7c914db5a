// archives.mjs PROGRAM FOLDER [PART..]: images of every kind, what `index` prints of all volumes, the words of blocks, and what a damaged volume
// still holds. As losses.mjs otherwise.
import { readFileSync, writeFileSync } from 'node:fs';
import { dirname, join } from 'node:path';
import { fileURLToPath } from 'node:url';
import { answer, file, further, holds, image, isTold, native, optionsOf, pane, put, run, same, volume } from './tools.mjs';

const ADD = readFileSync(join(dirname(dirname(dirname(fileURLToPath(import.meta.url)))), 'examples', 'add-one.bin'));
const rows = (page, id = 'directory') => page.look(`[...document.querySelectorAll('#${id} tbody tr')].map(it => [...it.cells].slice(${id === 'directory' ? '1, 6' : '0, 5'}).map(one => one.textContent).join(' ')).join('; ')`);
const isShown = (page, name) => page.until(`document.getElementById('shown-name').textContent.startsWith(${JSON.stringify(name)})`);
const plain = bytes => bytes.toString('latin1').replaceAll('\r', '');

// Opens an image of the host, of which this volume is then open.
async function opens(page, name, wanted = name) {
    await pane(page, 'files');
    await page.give('#image', file(name));
    await page.until(`document.getElementById('volume').value === '${wanted}'`);
    await rests(page);
}

// The image of the volume, once all of the last change is shown.
async function imageAtRest(page) {
    await rests(page);
    return image(page);
}

// The image of the volume comes to these bytes, at a rest or a later one.
async function comesTo(page, wanted, what) {
    for (let k = 0; k < 10 && !wanted.equals(await imageAtRest(page)); k++);
    same(wanted, await imageAtRest(page), what);
}

// The page has asked the program nothing for half a second. Then all of the volume is shown, and nothing moves any more.
async function rests(page) {
    await page.look(`window.askedAt = performance.now()`);
    await page.until(`(() => { if (geivottu.programs.isAsked) window.askedAt = performance.now(); return performance.now() - window.askedAt > 500; })()`);
}

// A volume of the host with these texts and frames.
function laid(name, size, files) {
    native(['create', name, ...(size ? [String(size)] : ['--dectape'])]);
    for (const [own, bytes] of Object.entries(files))
        native(['put', name, '-', '--as', own, ...(size ? [] : ['--dectape']), ...(/(PA|TX)$/.test(own) ? ['--text', '--date', '1974-03-12'] : [])], bytes);
}

// An RK05 disk of the host, with a file on each of its volumes.
function disk() {
    laid('A', 3248, { 'ONE.TX': 'ONE\n' });
    laid('B', 3248, { 'TWO.TX': 'TWO\n', 'ADD.BN': ADD });
    writeFileSync(file('DISK.RK05'), Buffer.concat([readFileSync(file('A')), readFileSync(file('B'))]));
}

// Changes words of a volume of the host.
function change(name, at, ...words) {
    const bytes = readFileSync(file(name));
    words.forEach((word, k) => { bytes[2 * (at + k)] = word & 0o377; bytes[2 * (at + k) + 1] = word >> 8; });
    writeFileSync(file(name), bytes);
}

// The middle of a block's square, which a click hits.
async function clickBlock(page, block) {
    const { x, y } = await page.look(`(() => { const it = document.getElementById('blocks'), { blocks } = geivottu.files; it.scrollIntoView({ block: 'center' });
        const box = it.getBoundingClientRect(), columns = Math.round(it.clientWidth / blocks.across);
        return { x: box.x + 1 + (${block} % columns + 0.5) * blocks.across, y: box.y + 1 + (Math.floor(${block} / columns) + 0.5) * blocks.side }; })()`);
    for (const type of ['mousePressed', 'mouseReleased']) await page.call('Input.dispatchMouseEvent', { type, x, y, button: 'left', clickCount: 1 });
}

await run('archives', {
    'an RK05 disk opens as its two volumes, and comes home whole': async (page, url) => {
        await page.go(url);
        disk();
        await opens(page, 'DISK.RK05', 'DISK.RK05 1');
        same('none is open,DISK.RK05, volume 1,DISK.RK05, volume 2', (await page.look(optionsOf('volume'))).join(), 'the volumes');
        same('ONE.TX 1 7 1974-03-12 text', await known(page), 'the first');
        await page.choose('#volume', 'DISK.RK05 2');
        await page.until(`document.querySelectorAll('#directory tbody tr').length === 2`);
        same('ADD.BN 1 8  BIN; TWO.TX 1 7 1974-03-12 text', await known(page), 'the second');
        await page.click('button[aria-label="ADD.BN in its best form"]');
        await isShown(page, 'ADD.BN, source');
        same(plain(native(['source'], ADD)), await page.text('shown'), 'its source');
        writeFileSync(file('new.tx'), 'A NEW ONE\n');
        await put(page, 'text', 'new.tx');
        await isTold(page, 'files-status', 'STORED NEW.TX 1');
        native(['put', 'DISK.RK05', '-', '--as', 'NEW.TX', '--text', '--volume', '2'], 'A NEW ONE\n');
        await page.until(`!!document.querySelector('tr[data-name="TWO.TX"]')`);
        await page.click('button[aria-label="TWO.TX delete"]');
        await isTold(page, 'files-status', 'DELETED TWO.TX');
        native(['delete', 'DISK.RK05', 'TWO.TX', '--volume', '2']);
        await comesTo(page, readFileSync(file('DISK.RK05')), 'the disk');
        await page.look('geivottu.store.settled()');
        await page.go(`${url}?again`);
        same('DISK.RK05 2', await volume(page), 'the volume after a reload');
        const other = await further(page, url);
        await other.until(`document.getElementById('volume').value === 'DISK.RK05 2' && !document.getElementById('follows').hidden`);
        laid('TAPE.DT8', 0, {});
        await page.give('#image', file('TAPE.DT8'));
        await other.until(`[...document.getElementById('volume').options].at(-1).value === 'TAPE.DT8 DECtape'`);
        await other.end();
        await page.choose('#volume', 'DISK.RK05 2');
        await page.until(`document.querySelectorAll('#directory tbody tr').length === 2`);
        await pane(page, 'script');
        await page.fill('#lines', 'DIRECT\nFINISH\n');
        await page.click('#script-run');
        await isTold(page, 'replies', 'NEW.TX 1');
        await pane(page, 'machine');
        await page.choose('#core-tape', 'file ADD.BN');
        await isTold(page, 'machine-status', 'words are in core');
    },
    'a DECtape opens by itself, and a file is copied between all kinds': async (page, url) => {
        await page.go(url);
        disk();
        laid('TAPE.DT8', 0, { 'T.TX': 'A TAPE\n' });
        laid('V', 90, { 'PLAIN.TX': 'PLAIN\n' });
        await opens(page, 'DISK.RK05', 'DISK.RK05 1');
        await opens(page, 'V');
        await opens(page, 'TAPE.DT8', 'TAPE.DT8 DECtape');
        same('T.TX 1 7 1974-03-12 text', await known(page), 'its directory');
        holds((await page.look(`document.getElementById('blocks').getAttribute('aria-label')`)).includes('737 blocks: 1 files'), 'the picture');
        await page.click('button[aria-label="T.TX copy to another volume"]');
        await answer(page, 'Copy T.TX to which volume?', 1);
        await isTold(page, 'files-status', 'DISK.RK05, volume 2: STORED T.TX 1');
        native(['copy', 'TAPE.DT8', 'T.TX', 'DISK.RK05', '--dectape', '--to-volume', '2']);
        await page.choose('#volume', 'DISK.RK05 2');
        await page.until(`!!document.querySelector('tr[data-name="ADD.BN"]')`);
        await comesTo(page, readFileSync(file('DISK.RK05')), 'the disk');
        await page.click('button[aria-label="ADD.BN copy to another volume"]');
        await answer(page, 'Copy ADD.BN to which volume?', 1);
        await isTold(page, 'files-status', 'TAPE.DT8, a DECtape: STORED ADD.BN 1');
        native(['copy', 'DISK.RK05', 'ADD.BN', 'TAPE.DT8', '--volume', '2', '--to-dectape']);
        await page.choose('#volume', 'TAPE.DT8 DECtape');
        await page.until(`!!document.querySelector('tr[data-name="ADD.BN"]')`);
        await comesTo(page, readFileSync(file('TAPE.DT8')), 'the tape');
        await page.click('#undo');
        await isTold(page, 'files-status', 'Undone: the copy of ADD.BN');
        await page.until(`!document.querySelector('tr[data-name="ADD.BN"]')`);
        same('TAPE.DT8 DECtape', await volume(page), 'the volume after Undo');
        await pane(page, 'teletype');
        await page.choose('#volume', 'DISK.RK05 2');
        await page.until(`[...document.getElementById('tape').options].some(it => it.value === 'file ADD.BN')`);
        await page.choose('#tape', 'file ADD.BN');
        await page.click('#tty-run');
        await isTold(page, 'tty-status', 'HALT 00203');
    },
    'a disk whose end was never written opens as its first volume': async (page, url) => {
        await page.go(url);
        disk();
        writeFileSync(file('SHORT.RK05'), readFileSync(file('DISK.RK05')).subarray(0, 51200));
        await opens(page, 'SHORT.RK05', 'SHORT.RK05 1');
        same('ONE.TX 1 7 1974-03-12 text', await known(page), 'the directory');
        holds((await page.look(`document.getElementById('blocks').getAttribute('aria-label')`)).includes('3248 blocks: 1 files'), 'the picture');
        writeFileSync(file('new.tx'), 'A NEW ONE\n');
        await put(page, 'text', 'new.tx');
        await isTold(page, 'files-status', 'STORED NEW.TX 1');
        native(['put', 'SHORT.RK05', '-', '--as', 'NEW.TX', '--text', '--volume', '1'], 'A NEW ONE\n');
        await comesTo(page, readFileSync(file('SHORT.RK05')), 'the disk');
    },
    'the directory has dates and kinds by content, and is sorted by them': async (page, url) => {
        await page.go(url);
        laid('V', 90, { 'OLD.TX': 'OLD\n', 'ADD.DA': ADD, 'ODD.DA': Buffer.from([1, 2, 3, 250, 251, 252]) });
        native(['put', 'V', '-', '--as', 'NEW.TX', '--text', '--date', '1975-01-02'], 'NEW\n');
        await opens(page, 'V');
        same('ADD.DA 1 8  BIN; NEW.TX 1 10 1975-01-02 text; ODD.DA 1 9  unknown; OLD.TX 1 7 1974-03-12 text', await known(page), 'the rows');
        await page.click('[data-sort="date"]');
        await page.click('[data-sort="date"]');
        holds((await rows(page)).startsWith('NEW.TX'), 'the newest is not first');
        await page.click('[data-sort="kind"]');
        holds((await rows(page)).startsWith('ADD.DA'), 'a tape is not first');
        await page.click('button[aria-label="ADD.DA in its best form"]');
        await isShown(page, 'ADD.DA, source');
        await page.click('button[aria-label="ODD.DA in its best form"]');
        await isShown(page, 'ODD.DA, words');
        same(native(['dump', 'V', '9']).toString('latin1'), await page.text('shown'), 'its words');
        writeFileSync(file('NEW.TX'), 'NEWER\n');
        await put(page, 'text', 'NEW.TX');
        await answer(page, 'V has a file NEW.TX', 1);
        await isTold(page, 'files-status', 'STORED NEW.TX');
        await page.until(`document.querySelector('tr[data-name="NEW.TX"] .date').textContent === '1975-01-02'`);
    },
    'files of all volumes are found by their names and texts, and a click shows one': async (page, url) => {
        await page.go(url);
        disk();
        laid('V', 90, { 'PLAIN.TX': 'ONE AND TWO\n', 'ADD.BN': ADD });
        await opens(page, 'DISK.RK05', 'DISK.RK05 1');
        await opens(page, 'V');
        await page.click('#search summary');
        await page.fill('#search-name', '*.TX');
        await page.fill('#search-text', 'ONE');
        await page.key('Enter');
        await isTold(page, 'search-status', '2 files in 3 volumes');
        same('ONE.TX DISK.RK05, volume 1 1 1974-03-12 text; PLAIN.TX V 1 1974-03-12 text', await rows(page, 'search-found'), 'what is found');
        await page.click('#search-found button[aria-label="ONE.TX of DISK.RK05, volume 1"]');
        await isShown(page, 'ONE.TX, text');
        same('ONE\n', await page.text('shown'), 'the text');
        same('DISK.RK05 1', await volume(page), 'the volume');
        await page.fill('#search-text', '');
        await page.fill('#search-name', '*.BN');
        await page.key('Enter');
        await page.until(`document.querySelector('#search-found td').textContent === 'ADD.BN'`);
        same('ADD.BN DISK.RK05, volume 2 1  BIN; ADD.BN V 1  BIN', await rows(page, 'search-found'), 'the tapes');
        await page.fill('#search-name', 'A.B.C');
        await page.key('Enter');
        await isTold(page, 'search-status', '--find takes a name, or a pattern');
    },
    'a click on a block shows its words, and one is patched and patched back by Undo': async (page, url) => {
        await page.go(url);
        laid('V', 90, { 'H.TX': 'HELLO\n' });
        await opens(page, 'V');
        await clickBlock(page, 7);
        await isTold(page, 'dump', 'BLOCK 7 H.TX');
        same(native(['dump', 'V', '7']).toString('latin1'), await page.text('dump'), 'the words');
        await page.click('#dump [data-word="1"]');
        await isTold(page, 'patch-words', 'Word 1 of block 7 is 6305');
        await page.type('6701');
        await page.key('Enter');
        await isTold(page, 'dump-status', 'PATCHED 7 1 6305 6701');
        const before = readFileSync(file('V'));
        native(['patch', 'V', '7', '1', '6305', '6701']);
        await comesTo(page, readFileSync(file('V')), 'the image');
        await page.until(`document.querySelector('#dump [data-word="1"]').textContent === '6701'`);
        await page.click('#undo');
        await isTold(page, 'files-status', 'Undone: the patch of block 7');
        same(before, await imageAtRest(page), 'the image before');
        await page.fill('#block-number', '1');
        await page.click('#sixbit');
        await page.fill('#block-number', '1');
        await page.key('Enter');
        await page.until(`document.getElementById('dump').textContent === ${JSON.stringify(native(['dump', 'V', '1', '--sixbit']).toString('latin1'))}`);
        await page.fill('#block-number', '90');
        await page.key('Enter');
        await isTold(page, 'dump-status', '? BLOCKS 1 ONLY 90');
    },
    'a damaged directory shows what a rescue and a scan find, in the picture too': async (page, url) => {
        await page.go(url);
        laid('V', 90, { 'H.TX': 'HELLO\n', 'ADD.BN': ADD, 'LAST.TX': 'THE LAST\n' });
        native(['delete', 'V', 'LAST.TX']);
        change('V', 258, 7);
        await opens(page, 'V');
        await isTold(page, 'files-status', '? DIRECTORY 1 BAD LINK 1');
        native(['rescue', 'V', 'R']);
        await isTold(page, 'rescued', 'RESCUED 2');
        same('? DIRECTORY 1 BAD LINK 1\nRESCUED 2\n', await page.text('rescued'), 'the lines of rescue');
        const texts = plain(native(['scan', 'V']));
        same('TEXT 7 1 HELLO\nTEXT 9 1 THE LAST\nBIN 8 1\n', texts, 'the lines of scan');
        await isTold(page, 'texts-told', '2 texts, 1 program');
        await page.until(`geivottu.files.blocks.all[9].of === 'a text: THE LAST'`);
        same('file', await page.look(`geivottu.files.blocks.all[7].kind`), 'a file in the picture');
        same('found', await page.look(`geivottu.files.blocks.all[9].kind`), 'a text in the picture');
        same('THE LAST\n', (await page.home('button[aria-label="save the text of block 9"]')).bytes.toString(), 'the text that went home');
        await page.click('button[aria-label="the text of block 9"]');
        await isTold(page, 'shown', 'THE LAST');
        await page.click('#rescue');
        await page.until(`document.getElementById('volume').value === 'V-rescued'`);
        await isTold(page, 'files-status', 'RESCUED 2');
        await comesTo(page, readFileSync(file('R')), 'the rescued image');
        await page.until(`document.getElementById('damage').hidden`);
        await page.choose('#volume', 'V');
        await page.until(`!document.getElementById('damage').hidden`);
        await clickBlock(page, 1);
        await isTold(page, 'dump', 'BLOCK 1');
        await page.click('#dump [data-word="2"]');
        await page.type('0');
        await page.key('Enter');
        await isTold(page, 'dump-status', 'PATCHED 1 2 0007 0000');
        await page.until(`document.getElementById('damage').hidden && document.querySelectorAll('#directory tbody tr').length === 2`);
        native(['patch', 'V', '1', '2', '7', '0']);
        await comesTo(page, readFileSync(file('V')), 'the mended image');
    },
    'a file that a rescue leaves out is marked, and blocks that two claim': async (page, url) => {
        await page.go(url);
        native(['create', 'X', '12']);
        change('X', 256, 0o7777, 7, 2, 0, 0o7776, 0o101, 0, 0, 0, 0o123, 0o4567, 0o7774);
        change('X', 512, 0o7777, 8, 0, 0, 0o7776, 0o102, 0, 0, 0, 0, 0, 0o7774);
        await opens(page, 'X');
        await isTold(page, 'rescued', 'RESCUED 1');
        same(plain(native(['rescue', 'X', 'R'])), await page.text('rescued'), 'the lines of rescue');
        await isTold(page, 'files-status', 'TWICE 8 3');
        same('AB, which a rescue leaves out', await page.look(`geivottu.files.blocks.all[11].of`), 'what is left out');
        same(native(['get', 'X', '--blocks', '8', '4']), (await page.home('button[aria-label="AB save as frames"]')).bytes, 'its frames');
    },
});

// The rows of the directory, once dates and kinds are shown.
async function known(page) {
    await page.until(`(all => all.length && all.every(it => it.textContent !== ''))([...document.querySelectorAll('#directory .kind')])`);
    return rows(page);
}
