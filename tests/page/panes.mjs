// panes.mjs PROGRAM FOLDER: works each pane of the page in headless Chromium by its controls, as a user does. It compares what comes out with the
// native program PROGRAM, byte for byte. The last line is 'N passed, M failed'.
import { copyFileSync, linkSync, readFileSync, rmSync, truncateSync, writeFileSync } from 'node:fs';
import { dirname, join } from 'node:path';
import { fileURLToPath } from 'node:url';
import { pause } from './browser.mjs';
import { file, holds, isTold, native, note, pane, removeVolume, runInTurn, same, setSource } from './tools.mjs';

const top = dirname(dirname(dirname(fileURLToPath(import.meta.url))));
/** @type {import('./tools.mjs').Turn[]} */
const tests = [];
/** @param {string} name @param {import('./tools.mjs').Turn['body']} body */
const test = (name, body) => tests.push({ name, body });
/** @param {string[]} words @param {string | Buffer} [input] */
const nativeText = (words, input = '') => native(words, input).toString('latin1');
const status = (page, id) => page.text(`${id}-status`);

// Chooses an option of a list by what it says.
const pick = (page, selector, text) => page.look(`(() => { const it = document.querySelector('${selector}');
    const option = [...it.options].find(one => one.textContent === ${JSON.stringify(text)}); if (!option) throw new Error('no option ' + ${JSON.stringify(text)});
    it.value = option.value; it.dispatchEvent(new Event('change')); })()`);

test('a new volume is the one that create makes', async page => {
    await page.fill('#new-name', 'DISK');
    await page.fill('#new-blocks', '90');
    await page.click('#create');
    await isTold(page, 'files-status', 'CREATED 90');
    native(['create', 'DISK', '90']);
    same(readFileSync(file('DISK')), (await page.home('#take-image')).bytes, 'the image');
    await page.fill('#new-blocks', '7');
    await page.click('#create');
    await isTold(page, 'files-status', 'The blocks of a volume: 7 is not from 8 to 4095');
});

test('files are put in as texts and as frames, as put does it', async page => {
    await page.choose('#put-as', 'text');
    await page.give('#put', join(top, 'examples/hello.pa'), join(top, 'examples/guess.pa'));
    await isTold(page, 'files-status', 'STORED GUESS.PA');
    await page.choose('#put-as', 'frames');
    writeFileSync(file('all.xy'), Buffer.from(Array.from({ length: 1000 }, (_, k) => k * 7 & 255)));
    await page.give('#put', file('all.xy'), join(top, 'examples/add-one.bin'));
    native(['put', 'DISK', '-', '--as', 'HELLO.PA', '--text'], readFileSync(join(top, 'examples/hello.pa')));
    native(['put', 'DISK', '-', '--as', 'GUESS.PA', '--text'], readFileSync(join(top, 'examples/guess.pa')));
    native(['put', 'DISK', '-', '--as', 'ALL.XY'], readFileSync(file('all.xy')));
    await page.until(`document.getElementById('question').open`);
    await page.click('#answers button[value=""]');
    await isTold(page, 'files-status', 'add-one.bin was left');
    copyFileSync(join(top, 'examples/add-one.bin'), file('add.bn'));
    await page.give('#put', file('add.bn'));
    await isTold(page, 'files-status', 'STORED ADD.BN 1');
    native(['put', 'DISK', '-', '--as', 'ADD.BN'], readFileSync(file('add.bn')));
    same(readFileSync(file('DISK')), (await page.home('#take-image')).bytes, 'the image');
});

test('the directory is that of list', async page => {
    await page.until(`document.querySelectorAll('#directory tbody tr').length === 4`);
    const rows = await page.look(`[...document.querySelectorAll('#directory tbody tr')].map(it => it.cells[1].textContent + ' ' + it.cells[2].textContent).join('\\n')`);
    same(nativeText(['list', 'DISK']).replace(/FREE.*\n/, '').trim(), rows, 'the rows');
    const label = await page.look(`document.getElementById('blocks').getAttribute('aria-label')`);
    holds(label.includes('90 blocks: 4 files'), label);
});

test('files are taken home as text, tape and frames, as get gives them', async page => {
    for (const { name, form, words } of [{ name: 'HELLO.PA', form: 'a text', words: ['--text'] }, { name: 'ALL.XY', form: 'frames', words: [] },
        { name: 'ADD.BN', form: 'a tape', words: ['--tape'] }]) {
        const { bytes } = await page.home(`button[aria-label="${name} save as ${form}"]`);
        same(native(['get', 'DISK', name, ...words]), bytes, name);
    }
    await page.click('button[aria-label="ALL.XY save as a tape"]');
    await isTold(page, 'files-status', '? 6.');
});

test('a text, a listing and a source are shown', async page => {
    for (const { name, label, wanted } of [{ name: 'HELLO.PA', label: 'show as a text', wanted: ['get', 'DISK', 'HELLO.PA', '--text'] },
        { name: 'ADD.BN', label: 'show the listing of its tape', wanted: ['tape'] }, { name: 'ADD.BN', label: 'show as source', wanted: ['source'] }]) {
        await page.look(`document.getElementById('shown').textContent = ''`);
        await page.click(`button[aria-label="${name} ${label}"]`);
        await page.until(`document.getElementById('shown').textContent !== ''`);
        const text = nativeText(wanted, wanted.length === 1 ? readFileSync(file('add.bn')) : '').replaceAll('\r', '');
        same(text, await page.text('shown'), `${name} ${label}`);
    }
});

test('delete and squeeze are those of a script', async page => {
    await page.click('button[aria-label="HELLO.PA delete"]');
    await isTold(page, 'files-status', 'DELETED HELLO.PA');
    await page.click('#squeeze');
    await isTold(page, 'files-status', 'SQUEEZED 3');
    native(['run', 'DISK'], 'DELETE HELLO.PA\nSQUEEZE\nFINISH\n');
    same(readFileSync(file('DISK')), (await page.home('#take-image')).bytes, 'the image');
});

test('an image is taken by choice and by a drop', async page => {
    native(['create', 'V.os8', '100']);
    native(['put', 'V.os8', '-', '--as', 'NOTE', '--text'], 'a note\n');
    await page.give('#image', file('V.os8'));
    await page.until(`document.getElementById('volume').value === 'V.os8'`);
    same(readFileSync(file('V.os8')), (await page.home('#take-image')).bytes, 'the image');
    copyFileSync(file('V.os8'), file('W.os8'));
    await page.drop('#drop', file('W.os8'));
    await page.until(`document.getElementById('volume').value === 'W.os8'`);
    await page.until(`document.querySelectorAll('#directory tbody tr').length === 1`);
    await removeVolume(page);
    await page.until(`![...document.getElementById('volume').options].some(it => it.value === 'W.os8')`);
});

test('an image that is none is refused with its line', async page => {
    writeFileSync(file('none.da'), Buffer.from('This is no image.\n\0'));
    await page.give('#image', file('none.da'));
    await isTold(page, 'files-status', 'none.da: ? IMAGE 1 NOT WHOLE');
    holds(!await page.look(`[...document.getElementById('volume').options].some(it => it.value === 'none.da')`), 'it is kept');
});

test('a fault of a directory is told, and marked in the picture', async page => {
    const bytes = readFileSync(file('V.os8'));
    bytes[512 + 4] = 9;
    writeFileSync(file('bad.os8'), bytes);
    await page.give('#image', file('bad.os8'));
    await isTold(page, 'files-status', nativeText(['check', 'bad.os8']).trim());
    holds((await page.look(`document.getElementById('blocks').getAttribute('aria-label')`)).includes('refused: ? DIRECTORY 1 BAD LINK'), 'the label');
    await removeVolume(page);
    await page.until(`document.getElementById('volume').value !== 'bad.os8'`);
});

test('a file of 2 GB is refused, and the page stays live', async page => {
    writeFileSync(file('huge.img'), '');
    truncateSync(file('huge.img'), 2 ** 31);
    await page.give('#image', file('huge.img'));
    await isTold(page, 'files-status', 'huge.img: ? HOST READ');
    await page.choose('#volume', 'DISK');
    await page.until(`document.querySelectorAll('#directory tbody tr').length === 3`);
    linkSync(file('huge.img'), file('huge.da'));
    await page.choose('#put-as', 'frames');
    await page.give('#put', file('huge.da'));
    await isTold(page, 'files-status', '? 8 READER');
    rmSync(file('huge.img'));
    rmSync(file('huge.da'));
});

test('the largest volume is shown in time', async page => {
    native(['create', 'LARGE', '4095']);
    native(['put', 'LARGE', '-', '--as', 'A', '--text'], 'x\n'.repeat(50000));
    await page.give('#image', file('LARGE'));
    await page.until(`document.getElementById('volume').value === 'LARGE'`);
    const took = await page.look(`(async () => { const from = performance.now(); await geivottu.files.open('LARGE'); return performance.now() - from; })()`);
    note(`${Math.round(took)} ms`);
    holds(took < 3000, `it took ${took} ms`);
    await removeVolume(page);
    await page.until(`document.getElementById('volume').value !== 'LARGE'`);
    await page.choose('#volume', 'DISK');
});

test('a fault of a source is told at its line', async page => {
    await setSource(page, '*200\n\tCLA\n\tTAD LIEN\n\tHLT\nLINE,\t5\n$\n');
    await page.click('#assemble');
    await isTold(page, 'source-status', '? 5 UA 3');
    same('UA 3', (await page.look(`document.querySelector('#gutter .bad').textContent`)).trim(), 'the mark');
    await page.click('#faults button');
    const at = await page.look(`document.getElementById('text').value.slice(0, document.getElementById('text').selectionStart).split('\\n').length`);
    same(3, at, 'the line of the cursor');
    holds(await page.look(`document.getElementById('tape-home').disabled`), 'there is a tape');
});

test('a source is assembled, with its listing, symbols and tape', async page => {
    const text = readFileSync(join(top, 'examples/guess.pa'), 'latin1');
    writeFileSync(file('guess.pa'), text);
    await setSource(page, text);
    await page.click('#assemble');
    await isTold(page, 'source-status', 'assembled');
    native(['assemble', 'guess.pa', '--output', 'guess.bin', '--list', 'guess.lst', '--cross']);
    const listing = `${await page.text('listing')}\n\n${await page.text('symbols')}`;
    same(readFileSync(file('guess.lst'), 'latin1').replaceAll('\r', ''), listing, 'the listing');
    same(readFileSync(file('guess.bin')), (await page.home('#tape-home')).bytes, 'the tape');
});

test('text and tape go to the volume', async page => {
    await page.fill('#source-name', 'GAME');
    await page.click('#to-volume');
    await isTold(page, 'source-status', 'STORED GAME.BN');
    native(['put', 'DISK', '-', '--as', 'GAME.PA', '--text'], readFileSync(file('guess.pa')));
    native(['put', 'DISK', '-', '--as', 'GAME.BN'], readFileSync(file('guess.bin')));
    await pane(page, 'files');
    same(readFileSync(file('DISK')), (await page.home('#take-image')).bytes, 'the image');
});

test('the guessing game is played at the Teletype', async page => {
    await pane(page, 'teletype');
    await pick(page, '#tape', 'GAME.BN');
    await page.click('#tty-run');
    await isTold(page, 'paper', 'WHAT IS YOUR NAME? ');
    await page.keys('ada\n');
    await isTold(page, 'paper', 'YOUR GUESS? ');
    for (const [guess, wanted] of [['50', 'TOO LOW'], ['90', 'TOO HIGH']]) {
        await page.keys(`${guess}\n`);
        await isTold(page, 'paper', `${guess} ${wanted}`);
    }
    await page.fill('#line', '79');
    await page.key('Enter');
    await isTold(page, 'tty-status', 'HALT 00263 AC 0000 L 1');
    await page.until(`document.getElementById('paper').textContent.includes('GUESSES: 3')`);
    const wanted = nativeText(['teletype', 'guess.bin'], 'ADA\n50\n90\n79\n').replaceAll('\r', '');
    same(wanted, await page.text('paper'), 'the paper');
});

test('a rubout takes a key back, as the game has it', async page => {
    await page.click('#tear');
    await page.click('#tty-run');
    await isTold(page, 'paper', 'NAME? ');
    await page.keys('BO');
    await page.key('Backspace');
    await page.keys('\n');
    await isTold(page, 'paper', 'YOUR GUESS? ');
    const wanted = nativeText(['teletype', 'guess.bin'], 'BO\x7f\n').replaceAll(/[\r\x7f]/g, '');
    same(wanted, await page.text('paper'), 'the paper');
    await page.click('#tty-stop');
    await isTold(page, 'tty-status', 'stopped');
});

const FOREVER = '*200\nA,\tISZ 300\n\tSKP\n\tJMP A\n\tTAD B\n\tTLS\n\tCLA\n\tJMP A\nB,\t252\n$\n';

test('a program that prints for ever leaves the page live, and is stopped', async page => {
    await setSource(page, FOREVER);
    await page.click('#assemble');
    await isTold(page, 'source-status', 'assembled');
    await page.click('#to-teletype');
    await page.click('#tear');
    await page.click('#tty-run');
    await page.until(`document.getElementById('paper').textContent.length > 20000`);
    const pictures = await page.look(`new Promise(go => { let count = 0; const end = performance.now() + 1000;
        const next = now => { count++; now < end ? requestAnimationFrame(next) : go(count); }; requestAnimationFrame(next); })`);
    note(`${pictures} pictures in a second`);
    holds(pictures >= 2, `${pictures} pictures in a second`);
    await page.click('#tty-stop');
    await isTold(page, 'tty-status', 'stopped');
    await pause(100);
    const length = (await page.text('paper')).length;
    await pause(300);
    same(length, (await page.text('paper')).length, 'the paper after the stop');
});

test('paper moves at ten characters a second', async page => {
    await page.click('#tear');
    await page.choose('#pace', 'real');
    await page.click('#tty-run');
    await page.until(`document.getElementById('paper').textContent.length > 0`);
    const before = (await page.text('paper')).length;
    await pause(2000);
    const printed = (await page.text('paper')).length - before;
    await page.click('#tty-stop');
    await page.choose('#pace', 'full');
    holds(printed >= 8 && printed <= 26, `${printed} in 2 seconds`);
});

const ECHO = '*200\nA,\tKSF\n\tJMP A\n\tKRB\n\tTLS\n\tCLA\n\tJMP A\n$\n';

test('the tape reader loses no character', async page => {
    await setSource(page, ECHO);
    await page.click('#assemble');
    await isTold(page, 'source-status', 'assembled');
    await page.click('#to-teletype');
    await page.click('#tear');
    await page.click('#tty-run');
    const text = Array.from({ length: 3000 }, (_, k) => k % 60 === 59 ? '\n' : String.fromCharCode(33 + k % 60)).join('');
    await page.click('#teletype summary');
    await page.look(`document.getElementById('reader').value = ${JSON.stringify(text)}`);
    await page.click('#read');
    const wanted = text.replaceAll('\n', '\r').replace(/\r$/, '');
    await page.until(`document.getElementById('paper').textContent.length === ${wanted.length}`);
    same(wanted, await page.text('paper'), 'the paper');
    await page.look(`document.getElementById('paper').focus()`);
    await page.key('g', 'KeyG', 2);
    await page.until(`document.getElementById('paper').classList.contains('rings')`);
    await page.click('#tty-stop');
});

const COUNT = '*200\n\tCLA CLL\nA,\tISZ B\n\tJMP A\n\tIAC\n\tHLT\nB,\t7700\n$\n';

test('a tape goes to core, starts, and halts: the lamps show the registers', async page => {
    await setSource(page, COUNT);
    await page.click('#assemble');
    await isTold(page, 'source-status', 'assembled');
    await page.click('#to-core');
    await isTold(page, 'machine-status', 'words are in core');
    await page.click('#key-start');
    await isTold(page, 'machine-status', 'HALT 00205');
    await page.until(`document.querySelector('[data-row=pc] .word').textContent === '0205'`);
    same('Accumulator 0001', await page.look(`document.querySelector('[data-row=ac]').getAttribute('aria-label')`), 'AC');
    same(12, await page.look(`document.querySelectorAll('[data-row=ac] .lamp').length`), 'lamps of AC');
    same(1, await page.look(`document.querySelectorAll('[data-row=ac] .lamp.on').length`), 'lamps of AC that are on');
});

test('a break is set by a click in the listing, and single steps go on from there', async page => {
    await page.click('#code [data-cell="00203"] button');
    await isTold(page, 'machine-status', 'BREAK 00203 ON');
    await page.click('#core-from');
    await page.click('#key-start');
    await isTold(page, 'machine-status', 'BREAK 00203');
    await page.until(`document.querySelector('#code .at')?.dataset.cell === '00203'`);
    await page.click('#key-step');
    await isTold(page, 'machine-status', 'STEPS 1 LIMIT 00204');
    await page.click('#key-go');
    await isTold(page, 'machine-status', 'HALT 00205');
    await page.click('#code [data-cell="00203"] button');
    await isTold(page, 'machine-status', 'BREAK 00203 OFF');
});

test('the registers are those of a script', async page => {
    const script = `STORE C.PA ${COUNT.trim().split('\n').length}\n${COUNT}ASSEMBLE C.BN<C.PA\nFINISH\nLOAD C.BN\nFINISH\nRUN 00200 1000000\nREGISTERS\n`;
    const { run, ...wanted } = JSON.parse(nativeText(['run', 'DISK', '--look'], script).trim().split('\n').at(-1) ?? '');
    const got = await page.look(`Object.fromEntries([...document.querySelectorAll('#registers div')].map(it => [it.children[0].textContent, it.children[1].textContent]))`);
    same(JSON.stringify(Object.fromEntries(Object.entries(wanted).map(([key, value]) => [key, String(value)]))), JSON.stringify(got), 'the registers');
});

test('switches, load address, deposit and examine work', async page => {
    const set = async word => {
        for (let bit = 0; bit < 12; bit++) {
            const selector = `[aria-label="switch ${bit}"]`, isOn = await page.look(`document.querySelector('${selector}').getAttribute('aria-checked') === 'true'`);
            if (isOn !== ((word >> (11 - bit) & 1) === 1)) await page.click(selector);
        }
    };
    await set(0o300);
    await page.click('#key-load');
    await set(0o5252);
    await page.click('#key-deposit');
    await isTold(page, 'machine-status', '00300 5252');
    await set(0o300);
    await page.click('#key-load');
    await page.click('#key-examine');
    await isTold(page, 'machine-status', '00300 5252');
    same('5252', await page.look(`document.querySelector('[data-row=mb] .word').textContent`), 'MB');
    same('0300', await page.look(`document.querySelector('[data-row=ma] .word').textContent`), 'MA');
});

test('a machine that goes for ever is stopped by its key, at 60 pictures a second', async page => {
    await setSource(page, '*200\nA,\tIAC\n\tJMP A\n$\n');
    await page.click('#assemble');
    await isTold(page, 'source-status', 'assembled');
    await page.click('#to-core');
    await isTold(page, 'machine-status', 'words are in core');
    await page.choose('#speed', 'full');
    await page.click('#key-start');
    // figures.mjs measures how many they are, since it has the processors for itself
    await page.until(`document.getElementById('rate').textContent.includes('steps a second')`);
    const pictures = await page.look(`new Promise(go => { let count = 0; const end = performance.now() + 1000;
        const next = now => { count++; now < end ? requestAnimationFrame(next) : go(count); }; requestAnimationFrame(next); })`);
    note(`${pictures} pictures in a second, ${await page.text('rate')}`);
    holds(pictures >= 2, `${pictures} pictures in a second`);
    await page.click('#key-stop');
    await isTold(page, 'machine-status', 'stopped by the key');
    await page.choose('#speed', 'real');
});

test('the machine prints, and keys are struck at its Teletype', async page => {
    await setSource(page, ECHO);
    await page.click('#assemble');
    await isTold(page, 'source-status', 'assembled');
    await page.click('#to-core');
    await isTold(page, 'machine-status', 'words are in core');
    await page.click('#key-start');
    await page.look(`document.getElementById('console').focus()`);
    await page.keys('HELLO');
    await isTold(page, 'console', 'HELLO');
    await page.click('#key-stop');
    await isTold(page, 'machine-status', 'stopped by the key');
});

const SCRIPT = 'STORE S.PA 4\n*200\n\tCLA IAC\n\tHLT\n$\nASSEMBLE S.BN<S.PA\nFINISH\nLOAD S.BN\nFINISH\nRUN 00200 10\nREGISTERS\nNONSENSE\nDIRECT\n';

test('a script has the replies of run, and changes the image as it does', async page => {
    await pane(page, 'script');
    await page.fill('#lines', SCRIPT);
    await page.click('#script-run');
    await isTold(page, 'script-status', 'status 0');
    same(nativeText(['run', 'DISK'], SCRIPT), await page.text('replies'), 'the replies');
    await page.click('#strict');
    await page.click('#script-run');
    await isTold(page, 'script-status', 'status 1');
    native(['run', 'DISK'], SCRIPT);
    await page.click('#strict');
    await pane(page, 'files');
    same(readFileSync(file('DISK')), (await page.home('#take-image')).bytes, 'the image');
});

test('a session answers line by line, holds the image, and tells the form of a bad line', async page => {
    await pane(page, 'script');
    await page.choose('#script-saving', '--keep');
    await page.click('#session');
    await page.until(`!document.getElementById('entry-line').disabled`);
    await page.click('#entry-line');
    await page.type('STORE NEW 1');
    await page.key('Enter');
    await page.type('ONE LINE');
    await page.key('Enter');
    await isTold(page, 'replies', 'STORED NEW 1');
    await page.type('examine');
    await page.key('Enter');
    await isTold(page, 'replies', 'note: EXAMINE');
    await pane(page, 'files');
    await page.until(`!!document.querySelector('tr[data-name=NEW]')`);
    await page.give('#put', file('add.bn'));
    await isTold(page, 'files-status', '? HOST BUSY');
    await pane(page, 'script');
    await page.click('#session');
    await isTold(page, 'script-status', 'status 0');
    native(['run', 'DISK'], 'STORE NEW 1\nONE LINE\n');
    await pane(page, 'files');
    same(readFileSync(file('DISK')), (await page.home('#take-image')).bytes, 'the image');
    await pane(page, 'script');
    await page.choose('#script-saving', '');
});

test('a script is stopped in the midst, and the image is as it was', async page => {
    await page.look(`document.getElementById('lines').value = 'STORE GONE 1\\nX\\nDEPOSIT 00200 5200\\n' + 'RUN 00200 50000\\n'.repeat(20000)`);
    await page.click('#script-run');
    await isTold(page, 'replies', 'STEPS 50000 LIMIT 00200');
    await page.click('#script-stop');
    await isTold(page, 'script-status', 'stopped');
    await pane(page, 'files');
    same(readFileSync(file('DISK')), (await page.home('#take-image')).bytes, 'the image');
});

test('a reload keeps volumes, texts, paper and core', async (page, server) => {
    await setSource(page, COUNT);
    await page.click('#assemble');
    await isTold(page, 'source-status', 'assembled');
    await page.click('#to-core');
    await isTold(page, 'machine-status', 'words are in core');
    await page.look('geivottu.store.settled()');
    await page.go(`${server.url}?again`);
    same(COUNT, await page.look(`document.getElementById('text').value`), 'the source');
    await pane(page, 'files');
    same('DISK', await page.look(`document.getElementById('volume').value`), 'the volume');
    same(readFileSync(file('DISK')), (await page.home('#take-image')).bytes, 'the image');
    await pane(page, 'machine');
    await page.until(`document.getElementById('core').textContent.startsWith('00200  7300')`);
});

test('all is done by keys alone', async page => {
    await page.look(`document.activeElement.blur(); document.getElementById('tab-script').focus()`);
    await page.key('Home');
    same('tab-machine', await page.look('document.activeElement.id'), 'the first tab');
    await page.key('ArrowRight');
    same('tab-files', await page.look('document.activeElement.id'), 'the tab');
    holds(await page.look(`!document.getElementById('files').hidden`), 'the pane');
    const passed = [];
    for (let k = 0; k < 60 && !passed.includes('create'); k++) {
        await page.key('Tab');
        passed.push(await page.look('document.activeElement.id'));
        if (passed.at(-1) === 'new-blocks') await page.type('20');
    }
    for (const id of ['image', 'new-name', 'new-blocks', 'create']) holds(passed.includes(id), `Tab does not come to ${id}: ${passed}`);
    await page.key('Enter');
    await page.until(`document.getElementById('question').open`);
    await page.key('Enter');
    await isTold(page, 'files-status', 'CREATED 20');
    same('DISK-2', await page.look(`document.getElementById('volume').value`), 'the volume');
});

test('each control has a name for who can\'t see it', async page => {
    await page.call('Accessibility.enable');
    for (const name of ['files', 'source', 'machine', 'teletype', 'script']) {
        await pane(page, name);
        const { nodes } = await page.call('Accessibility.getFullAXTree');
        const bare = nodes.filter(it => !it.ignored && ['button', 'textbox', 'checkbox', 'combobox', 'switch', 'tab', 'log', 'image', 'listbox'].includes(it.role?.value) && !it.name?.value);
        holds(bare.length === 0, `${name}: ${bare.map(it => `${it.role.value} ${it.backendDOMNodeId}`)}`);
    }
});

test('a window of any width needs no sideways scrolling', async page => {
    for (const width of [320, 360, 768, 1024, 1190, 1200, 1280]) {
        await page.size(width, 740);
        for (const name of ['files', 'source', 'machine', 'teletype', 'script']) {
            await pane(page, name);
            const further = await page.look('document.documentElement.scrollWidth - document.documentElement.clientWidth');
            holds(further <= 0, `${name} is ${further} pixels wider than a window of ${width}`);
        }
    }
    await page.size(1200, 900);
});

test('nothing was asked of another place', async (page, server) => {
    const others = page.asked.filter(it => !it.startsWith(server.url) && !/^(blob|data):/.test(it));
    holds(others.length === 0, `asked: ${others}`);
    holds(server.asked.every(it => it.startsWith('GET ')), 'something was sent');
});

test('a browser without wide memories is told so in words', async (page, server) => {
    const { identifier } = await page.call('Page.addScriptToEvaluateOnNewDocument', { source: 'WebAssembly.validate = () => false;' });
    await page.go(`${server.url}?narrow`);
    await isTold(page, 'trouble', 'no WebAssembly memory of 64 bits');
    same('', await page.look(`[...document.querySelectorAll('button, input, select, textarea, #kept')].filter(it => it.checkVisibility()).map(it => it.id).join(' ')`), 'what is shown');
    await page.call('Page.removeScriptToEvaluateOnNewDocument', { identifier });
});

await runInTurn('panes', tests);
