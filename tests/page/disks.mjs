// disks.mjs PROGRAM FOLDER [PART..]: the files of a disk: each in its best form, programs with starts and names, and what a damaged directory still
// has. Also files whose names can't be typed, and tapes of every kind. As losses.mjs otherwise.
import { readFileSync, writeFileSync } from 'node:fs';
import { dirname, join } from 'node:path';
import { fileURLToPath } from 'node:url';
import { answer, assemble, create, file, holds, image, isTold, native, optionsOf, pane, run, same, volume } from './tools.mjs';

const examples = join(dirname(dirname(dirname(fileURLToPath(import.meta.url)))), 'examples');
const ADD = readFileSync(join(examples, 'add-one.bin'));
const shown = page => page.text('shown');
const plain = text => text.toString('latin1').replaceAll('\r', '');
const isShown = (page, name) => page.until(`document.getElementById('shown-name').textContent.startsWith(${JSON.stringify(name)})`);
// The core control block of one page at 00400, whose program starts at 00401.
const CORE = [0o7777, 0o6203, 0o401, 0, 0o400, 0o100];

// The frames of blocks with these words each: three in two words.
function blocks(...all) {
    const words = all.flatMap(it => [...it, ...Array(256 - it.length).fill(0)]), frames = [];
    for (let k = 0; k < words.length; k += 2) frames.push(words[k] & 0o377, words[k + 1] & 0o377, words[k] >> 8 << 4 | words[k + 1] >> 8);
    return Buffer.from(frames);
}

// Opens a volume of the host.
async function opens(page, name) {
    await pane(page, 'files');
    await page.give('#image', file(name));
    await page.until(`document.getElementById('volume').value === '${name}'`);
}

// A volume of the host with these files, as frames or, with a name that ends with PA or TX, as texts.
function laid(name, files) {
    native(['create', name, '90']);
    for (const [own, bytes] of Object.entries(files)) native(['put', name, '-', '--as', own, ...(/(PA|TX)$/.test(own) ? ['--text'] : [])], bytes);
}

// Changes words of a volume of the host.
function change(name, at, ...words) {
    const bytes = readFileSync(file(name));
    words.forEach((word, k) => { bytes[2 * (at + k)] = word & 0o377; bytes[2 * (at + k) + 1] = word >> 8; });
    writeFileSync(file(name), bytes);
}

await run('disks', {
    'one click shows a file in its best form': async (page, url) => {
        await page.go(url);
        laid('V', { 'ADD.BN': ADD, 'NOTE.TX': 'A NOTE\n' });
        await opens(page, 'V');
        await page.click('button[aria-label="ADD.BN in its best form"]');
        await isShown(page, 'ADD.BN, source');
        same(plain(native(['source'], ADD)), await shown(page), 'the source');
        await page.click('button[aria-label="NOTE.TX in its best form"]');
        await isShown(page, 'NOTE.TX, text');
        same('A NOTE\n', await shown(page), 'the text');
    },
    'a file is found by a part of its name, and the directory is sorted': async (page, url) => {
        await page.go(url);
        laid('V', { 'BIG.DA': Buffer.alloc(2000), 'ADD.BN': ADD, 'NOTE.TX': 'A NOTE\n', 'ADDED.TX': 'ADDED\n' });
        await opens(page, 'V');
        const rows = () => page.look(`[...document.querySelectorAll('#directory tbody tr')].map(it => it.dataset.name).join()`);
        await page.until(`document.querySelectorAll('#directory tbody tr').length === 4`);
        same('ADD.BN,ADDED.TX,BIG.DA,NOTE.TX', await rows(), 'by name');
        await page.click('[data-sort="length"]');
        same('BIG.DA', (await rows()).split(',')[0], 'the longest');
        same('descending', await page.look(`document.querySelector('[data-sort="length"]').parentElement.getAttribute('aria-sort')`), 'the order that is told');
        await page.click('[data-sort="first"]');
        same('BIG.DA,ADD.BN,NOTE.TX,ADDED.TX', await rows(), 'by the first block');
        await page.click('[data-sort="first"]');
        same('ADDED.TX,NOTE.TX,ADD.BN,BIG.DA', await rows(), 'by the first block, from the last');
        await page.fill('#find', 'add');
        same('ADDED.TX,ADD.BN', await rows(), 'what is found');
        same('2 of 4 files', await page.text('found'), 'the count');
        await page.key('Enter');
        await isTold(page, 'shown', 'ADDED');
    },
    'a source has starts and names, which are kept with the volume': async (page, url) => {
        await page.go(url);
        laid('V', { 'ADD.BN': ADD });
        await opens(page, 'V');
        await page.click('button[aria-label="ADD.BN show as source"]');
        await page.until(`document.getElementById('starts').checkVisibility()`);
        await page.fill('#starts', '00200');
        await page.fill('#cell-names', '00200 BEGIN\n00203 SEVEN');
        await page.key('Tab');
        await isTold(page, 'shown', 'BEGIN,');
        writeFileSync(file('names'), '00200 BEGIN\n00203 SEVEN\n');
        const wanted = plain(native(['source', '--start', '00200', '--names', 'names'], ADD));
        await page.until(`document.getElementById('shown').textContent === ${JSON.stringify(wanted)}`);
        await page.fill('#cell-names', '00207 NONE');
        await page.key('Tab');
        await isTold(page, 'files-status', '? NAMES 6 NO WORD 1');
        await page.fill('#cell-names', '00200 BEGIN\n00203 SEVEN');
        await page.key('Tab');
        await page.look('geivottu.store.settled()');
        await page.go(`${url}?again`);
        await page.click('button[aria-label="ADD.BN show as source"]');
        await page.until(`document.getElementById('shown').textContent === ${JSON.stringify(wanted)}`);
        await page.click('#shown-trace');
        await isShown(page, 'ADD.BN, trace');
        writeFileSync(file('add.bn'), ADD);
        same(native(['trace', 'add.bn']).toString(), await shown(page), 'the trace');
        same('BEGIN', await page.look(`document.querySelector('#shown [data-own]').dataset.own`), 'the name beside the step');
        await pane(page, 'machine');
        await page.fill('#watch', 'SEVEN');
        await page.choose('#core-tape', 'file ADD.BN');
        await page.until(`document.getElementById('watched').textContent === 'SEVEN0007'`);
        holds((await page.text('code')).includes('BEGIN,'), 'the listing has no names');
    },
    'names go with the volume: another one of its name begins without': async (page, url) => {
        await page.go(url);
        laid('V', { 'ADD.BN': ADD });
        await opens(page, 'V');
        await page.click('button[aria-label="ADD.BN show as source"]');
        await page.fill('#starts', '00200');
        await page.key('Tab');
        await page.until(`document.getElementById('shown').textContent.includes('/ FROM 00201')`);
        await page.give('#image', file('V'));
        await answer(page, 'There is a volume V', 1);
        await page.until(`document.getElementById('shown-name').textContent === 'No file is shown'`);
        await page.click('button[aria-label="ADD.BN show as source"]');
        await isShown(page, 'ADD.BN, source');
        same('', await page.look(`document.getElementById('starts').value`), 'the starts');
    },
    'what a file\'s program does is counted and traced': async (page, url) => {
        await page.go(url);
        laid('V', { 'ADD.BN': ADD });
        writeFileSync(file('add.bn'), ADD);
        await opens(page, 'V');
        await page.click('button[aria-label="ADD.BN in its best form"]');
        await isShown(page, 'ADD.BN, source');
        for (const [id, word] of [['shown-trace', 'trace'], ['shown-profile', 'profile']]) {
            await page.click(`#${id}`);
            await isTold(page, 'shown', 'HALT');
            await page.until(`document.getElementById('shown').textContent === ${JSON.stringify(native([word, 'add.bn']).toString())}`);
        }
    },
    'core images and RIM tapes are taken wherever a tape is': async (page, url) => {
        await page.go(url);
        const rim = Buffer.from([0o200, 0o200, 0o104, 0o000, 0o72, 0o1, 0o104, 0o001, 0o74, 0o2, 0o200, 0o200]);
        laid('V', { 'A.SV': blocks(CORE, [0o7402, 0o7201, 0o7402]), 'B.RM': rim });
        holds(native(['get', 'V', 'A.SV', '--bin']).length > 8, 'the core image is none');
        await opens(page, 'V');
        await page.click('button[aria-label="A.SV in its best form"]');
        await isShown(page, 'A.SV, source');
        same(plain(native(['source', 'V', 'A.SV'])), await shown(page), 'the source of the core image');
        for (const word of ['trace', 'profile']) {
            await page.click(`#shown-${word}`);
            await page.until(`document.getElementById('shown').textContent === ${JSON.stringify(native([word, 'V', 'A.SV']).toString())}`);
        }
        await page.click('button[aria-label="B.RM in its best form"]');
        await isShown(page, 'B.RM, source');
        writeFileSync(file('b.rim'), rim);
        same(plain(native(['source'], native(['rim', '--bin'], rim))), await shown(page), 'the source of the RIM tape');
        await pane(page, 'machine');
        await page.choose('#core-tape', 'file A.SV');
        await isTold(page, 'machine-status', 'START begins at 00401');
        await page.click('#key-start');
        await isTold(page, 'machine-status', 'HALT 00403');
        for (const [name, cell] of [['A.SV', '00403'], ['B.RM', '00402']]) {
            await pane(page, 'teletype');
            await page.choose('#tape', `file ${name}`);
            await page.click('#tty-run');
            await isTold(page, 'tty-status', `HALT ${cell} AC 0001`);
            await page.look(`document.getElementById('tty-status').textContent = ''`);
        }
        await page.choose('#volume', '');
        await page.drop('#teletype', file('b.rim'));
        await answer(page, 'b.rim is a tape', 0);
        await page.until(`document.getElementById('tape').selectedOptions[0].textContent === 'b.rim'`);
        await page.click('#tty-run');
        await isTold(page, 'tty-status', 'HALT 00402 AC 0001');
    },
    'a damaged directory shows what is left, and each file is taken': async (page, url) => {
        await page.go(url);
        laid('V', { 'H.TX': 'HELLO\n', 'ADD.BN': ADD });
        change('V', 258, 7);
        await opens(page, 'V');
        await isTold(page, 'files-status', '? DIRECTORY 1 BAD LINK 1');
        const rows = await page.look(`[...document.querySelectorAll('#directory tbody tr')].map(it => [...it.cells].slice(1, 4).map(one => one.textContent).join(' ')).join('; ')`);
        same('ADD.BN 1 8; H.TX 1 7', rows, 'the rows');
        same('H.TX', await page.look(`geivottu.files.blocks.all[7].of`), 'the picture');
        same('fault', await page.look(`geivottu.files.blocks.all[1].kind`), 'the directory in the picture');
        const { bytes } = await page.home('button[aria-label="H.TX save as a text"]');
        same('HELLO\n', bytes.toString(), 'the text');
        same(native(['get', 'V', '--blocks', '8', '1']), (await page.home('button[aria-label="ADD.BN save as frames"]')).bytes, 'the frames');
        await page.click('button[aria-label="ADD.BN in its best form"]');
        await isShown(page, 'ADD.BN, source');
        same(plain(native(['source'], ADD)), await shown(page), 'the source');
        await page.click('button[aria-label="H.TX more"]');
        await page.until(`!!document.querySelector('#menu button[aria-label="H.TX save as a text"]')`);
        holds(!await page.look(`!!document.querySelector('button[aria-label="H.TX delete"]')`), 'a file can be deleted');
    },
    'no kind of a block, and no state, is told by colour alone': async (page, url) => {
        await page.go(url);
        laid('V', { 'H.TX': 'HELLO\n'.repeat(400), 'ADD.BN': ADD, 'GONE.TX': 'GONE\n' });
        native(['delete', 'V', 'GONE.TX']);
        change('V', 258, 7);
        await opens(page, 'V');
        await isTold(page, 'files-status', '? DIRECTORY 1 BAD LINK 1');
        await page.until(`geivottu.files.blocks.all.some(it => it.kind === 'found')`);
        // The light of a square at its middle, at a corner, left of the middle, and above it. By halves it is a bar, one that stands, a hole, a
        // cross, or none of these.
        const marks = await page.look(`(() => { const canvas = document.getElementById('blocks'), brush = canvas.getContext('2d'), { blocks } = geivottu.files;
            const light = (x, y) => { const [r, g, b] = brush.getImageData(x, y, 1, 1).data; return r + g + b > 600 ? 'light' : 'dark'; };
            const across = blocks.across, columns = Math.round(canvas.clientWidth / across), found = {};
            blocks.all.forEach(({ kind }, k) => { const x = k % columns * across, y = Math.floor(k / columns) * blocks.side, w = across - 1, h = blocks.side - 1;
                found[kind] ??= [light(x + w / 2, y + h / 2), light(x + 1.5, y + 1.5), light(x + 1.5, y + h / 2), light(x + w / 2, y + 1.5)].join(' '); });
            return found; })()`);
        same('dark dark dark dark', marks.file, 'a file');
        same('light dark dark dark', marks.outside, 'what is not covered');
        same('light dark dark light', marks.found, 'a text that was found');
        same('light dark light dark', marks.directory, 'the directory');
        same('light light dark dark', marks.fault, 'a fault');
        same('light light light light', marks.empty, 'what is empty');
        await assemble(page, 'IT', '*200\n\tCLA IAC\n\tHLT\n$\n');
        await page.click('#to-core');
        await isTold(page, 'machine-status', 'words are in core');
        const hole = () => page.look(`getComputedStyle(document.querySelector('#code [data-cell="00201"] button'), '::before').backgroundColor`);
        same('rgba(0, 0, 0, 0)', await hole(), 'a place for a break is a ring');
        await page.click('#code [data-cell="00201"] button');
        await isTold(page, 'machine-status', 'BREAK 00201 ON');
        holds(await hole() !== 'rgba(0, 0, 0, 0)', 'a break is no disc');
        same('break at 00201: 00201 7402 HLT', await page.look(`document.querySelector('#code [data-cell="00201"] button').getAttribute('aria-label')`), 'its name');
    },
    'a file whose name has other characters is worked by its place': async (page, url) => {
        await page.go(url);
        laid('V', { 'HI.TX': 'HELLO\n' });
        change('V', 261, 0o1011, 0o4100);
        await create(page, 'W');
        await opens(page, 'V');
        await page.until(`!!document.querySelector('tr[data-name="HI_41.TX"]')`);
        await page.click('button[aria-label="HI_41.TX in its best form"]');
        await isTold(page, 'shown', 'HELLO');
        same('HI_41.TX', (await page.home('button[aria-label="HI_41.TX save as a text"]')).name, 'its name at home');
        await page.click('button[aria-label="HI_41.TX delete"]');
        await isTold(page, 'files-status', 'DELETED HI_41.TX');
        native(['delete', 'V', '--at', '7']);
        same(readFileSync(file('V')), await image(page), 'the image');
        same('V', await volume(page), 'the volume');
        holds((await page.look(optionsOf('volume'))).length === 3, 'the volumes');
    },
});
