// offers.mjs PROGRAM FOLDER [PART..]: what the program has, and the page offers: the menu of a file, several files at once, texts of a volume in Source,
// new disks, the options of commands, all lines of a scan, help, and words for refusals. As losses.mjs otherwise.
import { spawnSync } from 'node:child_process';
import { readFileSync, utimesSync, writeFileSync } from 'node:fs';
import { dirname, join } from 'node:path';
import { fileURLToPath } from 'node:url';
import { answer, assemble, create, file, holds, image, isTold, native, pane, put, run, same, setSource, volume } from './tools.mjs';

const top = dirname(dirname(dirname(fileURLToPath(import.meta.url)))), examples = join(top, 'examples');
const ADD = readFileSync(join(examples, 'add-one.bin')), plain = text => text.toString('latin1').replaceAll('\r', '');
// The core control block of one page at 00400, whose program starts at 00401, and that page: it halts.
const CORE = [0o7777, 0o6203, 0o401, 0, 0o400, 0o100];
const names = page => page.look(`[...document.querySelectorAll('#directory tbody tr')].map(it => it.dataset.name).sort().join()`);
const has = (page, name) => page.until(`!!document.querySelector('tr[data-name="${name}"]')`);
const asks = (page, words) => page.until(`document.getElementById('question').open && document.getElementById('question-words').textContent.includes(${JSON.stringify(words)})`);

// A volume of the host with these files, as frames or, with a name that ends with PA or TX, as texts.
function laid(name, files, blocks = 90) {
    native(['create', name, String(blocks)]);
    for (const [own, bytes] of Object.entries(files)) native(['put', name, '-', '--as', own, ...(/(PA|TX)$/.test(own) ? ['--text', '--date', '1974-03-12'] : [])], bytes);
}

// Opens a volume of the host, which has a file.
async function opens(page, name, has_file) {
    await pane(page, 'files');
    await page.give('#image', file(name));
    await page.until(`document.getElementById('volume').value.startsWith('${name}')`);
    await has(page, has_file);
    await page.until(`document.querySelector('tr[data-name="${has_file}"] .kind').textContent !== ''`);
}

// The frames of blocks with these words each: three in two words.
function blocks(...all) {
    const words = all.flatMap(it => [...it, ...Array(256 - it.length).fill(0)]), frames = [];
    for (let k = 0; k < words.length; k += 2) frames.push(words[k] & 0o377, words[k + 1] & 0o377, words[k] >> 8 << 4 | words[k + 1] >> 8);
    return Buffer.from(frames);
}

// Waits until the image of the volume that is open is this one.
async function comesTo(page, wanted, what) {
    for (let k = 0; k < 40 && !(await image(page)).equals(wanted); k++) await page.look('new Promise(go => setTimeout(go, 50))');
    same(wanted, await image(page), what);
}

// The files of a zip, as another program reads them: name, date and bytes of each.
function unzipped(bytes) {
    writeFileSync(file('all.zip'), bytes);
    const code = 'import sys,zipfile\nz=zipfile.ZipFile(sys.argv[1])\nassert z.testzip() is None\nfor i in z.infolist(): print(i.filename, "%d-%02d-%02d" % i.date_time[:3], z.read(i).hex())';
    const { stdout, status } = spawnSync('python3', ['-c', code, file('all.zip')], { cwd: top, maxBuffer: 1 << 28 });
    same(0, status, 'the status of who reads the zip');
    return stdout.toString().trim().split('\n').map(it => it.split(' '));
}

await run('offers', {
    'a file has three buttons and a menu, which keys work too': async (page, url) => {
        await page.go(url);
        laid('V', { 'ONE.TX': 'ONE\n' });
        await opens(page, 'V', 'ONE.TX');
        same('ONE.TX,Save,Edit,More', await page.look(`[...document.querySelectorAll('tr[data-name="ONE.TX"] button')].map(it => it.textContent).join()`), 'the buttons');
        const more = 'button[aria-label="ONE.TX more"]', focus = () => page.look('document.activeElement.textContent');
        await page.click(more);
        same('true', await page.look(`document.querySelector('${more}').getAttribute('aria-expanded')`), 'whether it is told to be open');
        same('Show as a text', await focus(), 'the first item');
        await page.key('ArrowUp');
        same('Delete', await focus(), 'the last item');
        await page.key('ArrowDown');
        same('Show as a text', await focus(), 'the first item again');
        await page.key('Escape');
        same('true More', await page.look(`document.getElementById('menu').hidden + ' ' + document.activeElement.textContent`), 'the menu after Escape, and the focus');
        await page.click(more);
        await page.click('#volume-name');
        same(true, await page.look(`document.getElementById('menu').hidden`), 'the menu after a press elsewhere');
        await page.click(more);
        await page.click(more);
        same(true, await page.look(`document.getElementById('menu').hidden`), 'the menu after a second press of its button');
        same('ONE\n', (await page.home('button[aria-label="ONE.TX save"]')).bytes.toString(), 'what Save gives');
    },
    'a file is saved in its own form': async (page, url) => {
        await page.go(url);
        laid('V', { 'ONE.TX': 'ONE\n', 'ADD.BN': ADD, 'ODD.DA': Buffer.from([1, 2, 3, 250, 251, 252]) });
        await opens(page, 'V', 'ODD.DA');
        for (const [name, ...how] of [['ONE.TX', '--text'], ['ADD.BN', '--tape'], ['ODD.DA']])
            same(native(['get', 'V', name, ...how]), (await page.home(`button[aria-label="${name} save"]`)).bytes, name);
    },
    'a file is renamed, and Undo brings its name back': async (page, url) => {
        await page.go(url);
        laid('V', { 'ONE.TX': 'ONE\n', 'TWO.TX': 'TWO\n' });
        await opens(page, 'V', 'ONE.TX');
        const before = readFileSync(file('V'));
        await page.click('button[aria-label="ONE.TX rename"]');
        await asks(page, 'The new name of ONE.TX');
        same('ONE.TX', await page.look('document.activeElement.value'), 'the name that stands there');
        await page.type('new.tx');
        await page.key('Enter');
        await isTold(page, 'files-status', 'RENAMED ONE.TX NEW.TX');
        native(['rename', 'V', 'ONE.TX', 'NEW.TX']);
        await comesTo(page, readFileSync(file('V')), 'the image');
        await page.click('button[aria-label="NEW.TX rename"]');
        await asks(page, 'The new name of NEW.TX');
        await page.type('TWO.TX');
        await page.key('Enter');
        await isTold(page, 'files-status', 'There is a file of that name. Rename or delete that one first.\n? RENAME 1 FILE EXISTS');
        await page.click('#undo');
        await isTold(page, 'files-status', 'Undone: the new name of ONE.TX');
        await comesTo(page, before, 'the image before');
        await page.click('button[aria-label="ONE.TX rename"]');
        await asks(page, 'The new name of ONE.TX');
        await page.key('Escape');
        await has(page, 'ONE.TX');
    },
    'several files are chosen, and saved as one zip': async (page, url) => {
        await page.go(url);
        laid('V', { 'ONE.TX': 'ONE\n', 'ADD.BN': ADD, 'ODD.DA': Buffer.from([1, 2, 3, 250, 251, 252]) });
        native(['put', 'V', '-', '--as', 'NEW.TX', '--text', '--date', '1984-05-06'], 'NEW\n');
        native(['put', 'V', '-', '--as', 'WORDS.TX', '--text'], 'NO DATE\n');
        await opens(page, 'V', 'NEW.TX');
        same('No file is chosen true', await page.look(`document.getElementById('chosen-told').textContent + ' ' + document.getElementById('chosen-zip').disabled`), 'what is told first');
        for (const name of ['ONE.TX', 'NEW.TX', 'ADD.BN']) await page.click(`input[aria-label="${name} chosen"]`);
        same('3 files are chosen', await page.text('chosen-told'), 'what is told');
        const { name, bytes } = await page.home('#chosen-zip'), dates = plain(native(['list', 'V', '--long']));
        same('V.zip', name, 'the name of the zip');
        const year = /NEW\.TX .* (\d{4})-05-06/.exec(dates)?.[1] ?? '';
        same([['ADD.BN', '1980-01-01', native(['get', 'V', 'ADD.BN', '--tape']).toString('hex')], ['NEW.TX', `${Number(year) >= 1980 ? year : '1980'}-05-06`.replace(/^1980.*/, '1980-01-01'), Buffer.from('NEW\n').toString('hex')],
            ['ONE.TX', '1980-01-01', Buffer.from('ONE\n').toString('hex')]].join('; '), unzipped(bytes).sort().join('; '), 'the files of the zip');
        await page.click('#choose-all');
        same('5 files are chosen', await page.text('chosen-told'), 'all');
        await page.click('#choose-all');
        same('No file is chosen', await page.text('chosen-told'), 'none');
    },
    'several files are copied, and deleted: each is one change': async (page, url) => {
        await page.go(url);
        laid('A', { 'ONE.TX': 'OLD\n' });
        laid('V', { 'ONE.TX': 'ONE\n', 'TWO.TX': 'TWO\n', 'KEPT.TX': 'KEPT\n' });
        await opens(page, 'A', 'ONE.TX');
        await opens(page, 'V', 'TWO.TX');
        const before = readFileSync(file('V'));
        for (const name of ['ONE.TX', 'TWO.TX']) await page.click(`input[aria-label="${name} chosen"]`);
        await page.click('#chosen-copy');
        await answer(page, 'Copy 2 files to which volume?', 0);
        await answer(page, 'A has a file ONE.TX. Writing over it loses what it has.', 1);
        await isTold(page, 'files-status', 'STORED TWO.TX 1');
        native(['copy', 'V', 'ONE.TX', 'TWO.TX', '--to', 'A', '--force']);
        await page.choose('#volume', 'A');
        await page.until(`!document.querySelector('tr[data-name="KEPT.TX"]') && !!document.querySelector('tr[data-name="TWO.TX"]')`);
        same('No file is chosen', await page.text('chosen-told'), 'what is chosen of another volume');
        await comesTo(page, readFileSync(file('A')), 'the image of the copies');
        await page.click('#undo');
        await isTold(page, 'files-status', 'Undone: the copy of 2 files to A');
        await page.until(`!document.querySelector('tr[data-name="TWO.TX"]')`);
        await page.choose('#volume', 'V');
        await has(page, 'KEPT.TX');
        for (const name of ['ONE.TX', 'TWO.TX']) await page.click(`input[aria-label="${name} chosen"]`);
        await page.click('#chosen-delete');
        await isTold(page, 'files-status', 'DELETED TWO.TX');
        await page.until(`!document.querySelector('tr[data-name="TWO.TX"]')`);
        same('KEPT.TX', await names(page), 'what is left');
        same('No file is chosen', await page.text('chosen-told'), 'what is chosen of files that are no more');
        await page.click('#undo');
        await isTold(page, 'files-status', 'Undone: the deletion of 2 files');
        await comesTo(page, before, 'the image before');
    },
    'a text of a volume is opened in Source, and saved back into it': async (page, url) => {
        await page.go(url);
        laid('V', { 'NOTE.TX': 'ONE\nTWO\n', 'OTHER.TX': 'OTHER\n' });
        await opens(page, 'V', 'NOTE.TX');
        await page.click('button[aria-label="NOTE.TX edit in Source"]');
        await page.until(`!document.getElementById('source').hidden && document.getElementById('text').value === 'ONE\\nTWO\\n'`);
        same('NOTE', await page.look(`document.getElementById('source-name').value`), 'its name');
        await page.look('geivottu.store.settled()');
        await page.go(`${url}?opened`);
        await pane(page, 'source');
        same(false, await page.look(`document.getElementById('text-back').disabled`), 'whether it has no file after a reload');
        await page.fill('#text', 'ONE\nTHREE\n');
        await page.click('#text-back');
        await isTold(page, 'source-status', 'STORED NOTE.TX 1');
        native(['put', 'V', '-', '--as', 'NOTE.TX', '--text'], 'ONE\nTHREE\n');
        await pane(page, 'files');
        await comesTo(page, readFileSync(file('V')), 'the image');
        writeFileSync(file('note.tx'), 'MEANWHILE\n');
        await put(page, 'text', 'note.tx');
        await answer(page, 'V has a file NOTE.TX', 1);
        await isTold(page, 'files-status', 'STORED NOTE.TX');
        native(['put', 'V', '-', '--as', 'NOTE.TX', '--text'], 'MEANWHILE\n');
        await pane(page, 'source');
        await page.fill('#text', 'ONE\nFOUR\n');
        await page.click('#text-back');
        await answer(page, 'NOTE.TX of V was changed since it was opened.', 0);
        await isTold(page, 'source-status', 'NOTE.TX of V was left as it is');
        await page.click('#text-back');
        await answer(page, 'NOTE.TX of V was changed since it was opened.', 1);
        await isTold(page, 'source-status', 'STORED NOTE.TX 1');
        native(['put', 'V', '-', '--as', 'NOTE.TX', '--text'], 'ONE\nFOUR\n');
        await pane(page, 'files');
        await comesTo(page, readFileSync(file('V')), 'the image in the end');
        await page.look('geivottu.store.settled()');
        await page.go(`${url}?again`);
        await pane(page, 'source');
        await page.fill('#text', 'ONE\nFIVE\n');
        await page.click('#text-back');
        await isTold(page, 'source-status', 'STORED NOTE.TX 1');
        await page.click('#text-new');
        same(true, await page.look(`document.getElementById('text-back').disabled`), 'whether a new text has no file');
    },
    'a program of a volume is opened in Source, in PAL8 too': async (page, url) => {
        await page.go(url);
        laid('V', { 'ADD.BN': ADD });
        await opens(page, 'V', 'ADD.BN');
        await page.click('button[aria-label="ADD.BN edit in Source"]');
        await page.until(`document.getElementById('text').value === ${JSON.stringify(plain(native(['source'], ADD)))}`);
        same('PAL III true', await page.look(`document.getElementById('dialect').value + ' ' + document.getElementById('text-back').disabled`), 'its dialect, and that it is no file');
        await page.click('#text-drop');
        await pane(page, 'files');
        await page.click('button[aria-label="ADD.BN open in Source as PAL8"]');
        await page.until(`document.getElementById('text').value === ${JSON.stringify(plain(native(['source', '--pal8'], ADD)))}`);
        same('PAL8', await page.look(`document.getElementById('dialect').value`), 'its dialect');
        await page.click('#assemble');
        await isTold(page, 'source-status', 'assembled');
        same(native(['tape'], ADD).toString(), native(['tape'], (await page.home('#tape-home')).bytes).toString(), 'the words of its tape');
    },
    'a new DECtape and a new RK05 disk are those of create': async (page, url) => {
        await page.go(url);
        for (const [key, how, name, told, opened] of [['dectape', '--dectape', 'TAPE', 'CREATED 737', 'TAPE DECtape'], ['disk', '--rk05', 'PACK', 'CREATED 3248', 'PACK 1']]) {
            await page.fill('#new-name', name);
            await page.click(`#create-${key}`);
            await isTold(page, 'files-status', told);
            same(opened, await volume(page), 'the volume');
            native(['create', name, how]);
            await comesTo(page, readFileSync(file(name)), name);
        }
    },
    'files are put in with a date, or with their own': async (page, url) => {
        await page.go(url);
        await create(page, 'V');
        writeFileSync(file('one.tx'), 'ONE\n');
        const date = async text => { await page.click('#put-date'); await asks(page, 'The date of files that are put in'); await page.type(text); await page.key('Enter'); await page.until(`document.getElementById('put-date').textContent === 'Date: ${text}'`); };
        await date('1974-13-12');
        await put(page, 'name', 'one.tx');
        await isTold(page, 'files-status', 'The date: 1974-13-12 is not a date from 1970 on');
        await date('1974-03-12');
        await put(page, 'name', 'one.tx');
        await isTold(page, 'files-status', 'STORED ONE.TX 1');
        native(['put', 'V', 'one.tx', '--text', '--date', '1974-03-12']);
        await comesTo(page, readFileSync(file('V')), 'the image');
        writeFileSync(file('two.tx'), 'TWO\n');
        utimesSync(file('two.tx'), 200000000, 200000000);
        await date('their own');
        await put(page, 'name', 'two.tx');
        await isTold(page, 'files-status', 'STORED TWO.TX 1');
        native(['put', 'V', 'two.tx', '--text', '--dates']);
        await comesTo(page, readFileSync(file('V')), 'the image with a file of its own date');
        await date('none');
        await page.click('#put-date');
        await asks(page, 'The date of files that are put in');
        await page.key('Escape');
        same('Date: none', await page.text('put-date'), 'the date after Escape');
    },
    'an empty file takes the place of another once one says so': async (page, url) => {
        await page.go(url);
        laid('V', { 'ONE.TX': 'ONE\n' });
        await opens(page, 'V', 'ONE.TX');
        writeFileSync(file('one.tx'), '');
        await put(page, 'text', 'one.tx');
        await answer(page, 'V has a file ONE.TX', 1);
        await isTold(page, 'files-status', 'STORED ONE.TX 1');
        native(['put', 'V', '-', '--as', 'ONE.TX', '--text', '--empty'], '');
        await comesTo(page, readFileSync(file('V')), 'the image');
    },
    'PAL8 has its options, and its listing is shown and saved': async (page, url) => {
        await page.go(url);
        const text = '*200\n\tTAD A -1\n\tTAD A\n\tTAD (5)\n\tHLT\nT,\tTEXT /AB/\n*400\nA,\t5\n$\n';
        writeFileSync(file('p.pa'), text);
        await setSource(page, text);
        same(5, await page.look(`document.querySelectorAll('#pal8-options input:disabled').length`), 'the options that PAL III has not');
        await page.choose('#dialect', 'PAL8');
        await page.fill('#source-name', 'P');
        await page.click('#assemble');
        await isTold(page, 'source-status', 'assembled');
        native(['assemble', '--pal8', 'p.pa', '--output', 'p.bn', '--list', 'p.ls', '--cross']);
        const { name, bytes } = await page.home('#listing-home');
        same('P.LS', name, 'the name of the listing');
        same(readFileSync(file('p.ls')), bytes, 'the listing that is saved');
        same(plain(readFileSync(file('p.ls'))), `${await page.text('listing')}\n\n${await page.text('symbols')}`, 'the listing that is shown');
        await page.click('#text-without-zero');
        await page.click('#notes');
        await page.click('#assemble');
        await isTold(page, 'source-status', 'note: palbart');
        native(['assemble', '--pal8', '--text-without-zero', '--notes', 'p.pa', '--output', 'p.bn']);
        same(readFileSync(file('p.bn')), (await page.home('#tape-home')).bytes, 'the tape without 00');
        await page.click('#no-links');
        await page.click('#assemble');
        await isTold(page, 'faults', 'line 3');
        await page.look('geivottu.store.settled()');
        await page.go(`${url}?again`);
        same('--no-links --text-without-zero --notes', await page.look(`[...document.querySelectorAll('#pal8-options input:checked')].map(it => it.value).join(' ')`), 'the options after a reload');
        await pane(page, 'source');
        await page.click('#no-links');
        await page.click('#stay');
        await page.click('#no-origin');
        await page.click('#assemble');
        await isTold(page, 'source-status', 'assembled');
    },
    'a trace and a count take keys, switches and steps': async (page, url) => {
        await page.go(url);
        const text = '*200\nA,\tLAS\n\tKSF\n\tJMP .-1\n\tKRB\n\tDCA 300\n\tJMP A\n$\n', how = ['--switches', '1234', '--steps', '40', '--keys=XY'];
        await assemble(page, 'T', text);
        await page.fill('#doing-keys', 'XY');
        await page.fill('#doing-switches', '1234');
        await page.fill('#doing-steps', '40');
        writeFileSync(file('t.bn'), (await page.home('#tape-home')).bytes);
        for (const it of ['trace', 'profile']) {
            await page.click(`#${it}`);
            await page.until(`document.getElementById('doings').textContent === ${JSON.stringify(`${native([it, 't.bn', '--start', '00200', ...how]).toString().trimEnd()}\n`)}`);
        }
        laid('V', { 'T.BN': readFileSync(file('t.bn')) });
        await opens(page, 'V', 'T.BN');
        await page.click('button[aria-label="T.BN in its best form"]');
        await isTold(page, 'shown', 'LAS');
        await page.fill('#shown-keys', 'XY');
        await page.fill('#shown-switches', '1234');
        await page.fill('#shown-steps', '40');
        for (const it of ['trace', 'profile']) {
            await page.click(`#shown-${it}`);
            await page.until(`document.getElementById('shown').textContent === ${JSON.stringify(native([it, 't.bn', ...how]).toString())}`);
        }
        await pane(page, 'machine');
        await page.click('#power');
        await isTold(page, 'machine-status', 'a new machine');
        await pane(page, 'source');
        await page.click('#to-core');
        await isTold(page, 'machine-status', 'words are in core');
        await page.fill('#switches-shown', '1234');
        await page.fill('#core-keys', 'XY');
        await page.fill('#core-steps', '40');
        for (const it of ['trace', 'profile']) {
            await page.click(`#core-${it}`);
            await page.until(`document.getElementById('core-does').textContent === ${JSON.stringify(native([it, 't.bn', '--start', '00200', ...how]).toString())}`);
        }
        same('A', await page.look(`document.querySelector('#core-does [data-own]').dataset.own`), 'the name of a cell');
        await page.click('#power');
        await page.click('#core-trace');
        await isTold(page, 'machine-status', 'Nothing is in core');
        await pane(page, 'files');
        await page.fill('#shown-steps', '0');
        await page.click('#shown-trace');
        await isTold(page, 'files-status', 'The steps: 0 is not 1 or more');
        await page.fill('#shown-steps', '9');
        await page.fill('#shown-switches', '9');
        await page.click('#shown-trace');
        await isTold(page, 'files-status', 'The switches: 9 is not a word, 0 to 7777 in octal');
    },
    'equal files of all volumes are found': async (page, url) => {
        await page.go(url);
        laid('A', { 'ADD.BN': ADD, 'ONE.TX': 'ONE\n' });
        laid('B', { 'SAME.DA': ADD, 'TWO.TX': 'TWO\n' });
        await opens(page, 'A', 'ONE.TX');
        await opens(page, 'B', 'TWO.TX');
        await page.click('#search summary');
        await page.click('#search-same');
        await page.click('#search-form button');
        await isTold(page, 'search-status', '2 files in 2 volumes');
        same('ADD.BN A,SAME.DA B', await page.look(`[...document.querySelectorAll('#search-found tbody tr')].map(it => it.cells[0].textContent + ' ' + it.cells[1].textContent).join()`), 'the files');
    },
    'all that a scan finds is listed, and each program goes to the machine': async (page, url) => {
        await page.go(url);
        laid('IN', { 'X.TX': 'X\n' }, 20);
        const rim = Buffer.from([0o200, 0o200, 0o102, 0, 0o72, 0, 0o102, 1, 0o74, 2, 0o200, 0o200]), inner = readFileSync(file('IN')).subarray(512, 1024), frames = [];
        for (let k = 0; k < 512; k += 4) frames.push(inner[k], inner[k + 2], inner[k + 1] << 4 | inner[k + 3]);
        laid('V', { 'LAST.TX': 'THE LAST\n', 'A.DA': ADD, 'R.DA': rim, 'C.DA': blocks(CORE, [0, 0o7402, 5]), 'D.DA': Buffer.from(frames) });
        const wanted = plain(native(['scan', 'V'])).trim().split('\n');
        same('BIN,CORE,DIR,RIM,TEXT', [...new Set(wanted.map(it => it.split(' ')[0]))].sort().join(), 'the lines of scan');
        await opens(page, 'V', 'R.DA');
        await page.click('#scan');
        await isTold(page, 'texts-told', 'In its blocks: 1 text, 3 programs, 1 part of a directory');
        same(wanted.length, await page.look(`document.querySelectorAll('#texts-list li').length`), 'the lines');
        for (const it of wanted.filter(it => /^(BIN|RIM|CORE)/.test(it))) {
            const [kind, first, length] = it.split(' '), where = length === '1' ? `block ${first}` : `blocks ${first} to ${Number(first) + Number(length) - 1}`;
            same(native(['get', 'V', '--blocks', first, length]), (await page.home(`button[aria-label="save the program of ${where}"]`)).bytes, `${kind} at home`);
            await page.click(`button[aria-label="the program of ${where} to the machine"]`);
            await isTold(page, 'machine-status', `at-${first}: `);
            await isTold(page, 'machine-status', kind === 'CORE' ? 'START begins at 00401' : 'START begins at 00200');
            await page.click('#key-start');
            await isTold(page, 'machine-status', 'HALT');
            await pane(page, 'files');
        }
        const [, at] = wanted.find(it => it.startsWith('DIR'))?.split(' ') ?? [];
        await page.click(`button[aria-label="the directory of block ${at}"]`);
        await isTold(page, 'dump', `BLOCK ${at}`);
    },
    'each refusal of the program is said in the page\'s words': async (page, url) => {
        await page.go(url);
        const lines = readFileSync(join(top, 'docs/reference/refusals.md'), 'utf8').split('\n').filter(it => it.startsWith('| `')).map(it => it.split(' | ')[0]);
        const refusals = [...new Set(lines.flatMap(it => [...it.matchAll(/`(?:JOB j )?(\? [^`]*)`/g)].map(one => one[1].replaceAll(/\b[nj]\b/g, '7').replace('CC', 'UA'))))].filter(it => it.split(' ').length > 2);
        holds(refusals.length > 40, `${refusals.length} refusals`);
        const bare = await page.look(`import('./words.js').then(({ inWords }) => ${JSON.stringify(refusals)}.filter(it => inWords(it) === it))`);
        same('', bare.join('; '), 'the refusals without words');
        same('It is no BIN tape.\nX: ? 6.4 NO TRAILER', await page.look(`import('./words.js').then(({ inWords }) => inWords('X: ? 6.4 NO TRAILER\\n'))`), 'a refusal in words, and its line');
    },
    'help is reached from each pane, and needs nothing from elsewhere': async (page, url) => {
        await page.go(url);
        for (const [name, at, head] of [['files', 'archives', 'Files in and out of a volume'], ['source', 'assembler', 'The assembler'], ['machine', 'page', 'The page: the program in a browser'],
            ['teletype', 'teletype', 'Running a program: Teletype, trace, profile'], ['script', 'scripts', 'Scripts']]) {
            await pane(page, name);
            same(`help.html#${at}`, await page.look(`document.getElementById('help').getAttribute('href')`), `the link of ${name}`);
            same(true, await page.look(`document.getElementById('help').checkVisibility()`), 'whether it is there');
            same(head, await page.look(`fetch('help.html').then(it => it.text()).then(it => new DOMParser().parseFromString(it, 'text/html').getElementById('${at}').textContent)`), 'the text');
        }
        const told = await page.look(`fetch('help.html').then(it => it.text()).then(it => { const all = new DOMParser().parseFromString(it, 'text/html');
            const lost = [...all.querySelectorAll('a')].map(it => it.getAttribute('href')).filter(it => !it.startsWith('#') || !all.getElementById(it.slice(1)));
            return JSON.stringify({ lost, sessions: all.querySelectorAll('pre').length > 20, rest: /\\]\\(|\\*\\*|\`/.test([...all.querySelectorAll('p, li, td')].map(it => it.textContent).join('\\n')) }); })`);
        same('{"lost":[],"sessions":true,"rest":false}', told, 'its links, sessions, and signs that are left');
    },
});
