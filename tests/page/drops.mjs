// drops.mjs PROGRAM FOLDER [PART]: what comes into the page stays what it is, what is shown is what is there, and a refusal is seen and has plain words.
// As losses.mjs otherwise.
import { mkdirSync, readFileSync, writeFileSync } from 'node:fs';
import { answer, create, file, holds, image, isTold, native, optionsOf, pane, put, run, same, setSource } from './tools.mjs';

const MARKS = '*200\r\n/ Gr\u00fc\u00dfe \u2318\r\n\tHLT\r\n$\r\n\u001a';
const text = page => page.look(`document.getElementById('text').value`);
const names = page => page.look(optionsOf('texts')).then(it => it.join());

// A volume with a file, and the same with a word of thirteen bits.
function faulty() {
    native(['create', 'V', '90']);
    native(['put', 'V', '-', '--as', 'ONE.TX', '--text'], 'the first\n');
    const bytes = readFileSync(file('V'));
    bytes[20 * 512 + 1] |= 0x70;
    writeFileSync(file('BAD'), bytes);
}

await run('drops', {
    'a text goes home byte for byte, and in its encoding once it was changed': async (page, url) => {
        await page.go(url);
        const latin = Buffer.from('*200\n/ caf\u00e9\n\tHLT\n$\n', 'latin1'), marked = Buffer.from(`\ufeff${MARKS}`, 'utf8');
        for (const { name, bytes, changed } of [{ name: 'utf.pa', bytes: Buffer.from(MARKS, 'utf8'), changed: Buffer.from(MARKS.replace('\u001a', 'X'), 'utf8') },
            { name: 'latin.pa', bytes: latin, changed: Buffer.concat([latin, Buffer.from('X')]) },
            { name: 'marked.pa', bytes: marked, changed: Buffer.from(`\ufeff${MARKS.replace('\u001a', 'X')}`, 'utf8') }]) {
            writeFileSync(file(name), bytes);
            await pane(page, 'source');
            await page.give('#source-file', file(name));
            await page.until(`document.getElementById('source-name').value === ${JSON.stringify(name.split('.')[0].toUpperCase())}`);
            holds(/Gr\u00fc\u00dfe \u2318\n|caf\u00e9\n/.test(await text(page)), `the text of ${name}: ${await text(page)}`);
            same(bytes, (await page.home('#text-home')).bytes, name);
            await page.look(`{ const it = document.getElementById('text'); it.value += 'X'; it.dispatchEvent(new Event('input', { bubbles: true })); }`);
            same(changed, (await page.home('#text-home')).bytes, `${name} with an X`);
        }
        await page.choose('#texts', 'LATIN');
        await page.look('geivottu.store.settled()');
        await page.go(`${url}?again`);
        await pane(page, 'source');
        same(Buffer.concat([latin, Buffer.from('X')]), (await page.home('#text-home')).bytes, 'the text after a reload');
    },
    'an image with a fault is only looked at, until it is written as it is mended': async (page, url) => {
        await page.go(url);
        await create(page, 'DISK');
        faulty();
        const before = await image(page);
        await pane(page, 'machine');
        await page.drop('#panel', file('BAD'));
        await isTold(page, 'machine-status', 'BAD has faults, and is only looked at');
        holds(!await page.look(`document.getElementById('machine').hidden`), 'the pane is left');
        await pane(page, 'files');
        await isTold(page, 'mended', 'note: BAD: block 20, word 0 is ');
        await page.click('button[aria-label="ONE.TX show as a text"]');
        await isTold(page, 'shown', 'the first');
        writeFileSync(file('two.tx'), 'the second\n');
        await put(page, 'text', 'two.tx');
        await isTold(page, 'files-status', '? IMAGE 4 BAD WORD 5120');
        same(readFileSync(file('BAD')), await image(page), 'the image that is looked at');
        await page.look('geivottu.store.settled()');
        await page.go(`${url}?again`);
        await page.until(`!!document.querySelector('tr[data-name="ONE.TX"]') && !document.getElementById('mending').hidden`);
        await page.click('#mend');
        await isTold(page, 'files-status', 'The mended image of BAD is written');
        const whole = readFileSync(file('BAD'));
        whole[20 * 512 + 1] &= 0o17;
        same(whole, await image(page), 'the mended image');
        await page.until(`document.getElementById('mending').hidden`);
        await put(page, 'text', 'two.tx');
        await isTold(page, 'files-status', 'STORED TWO.TX');
        for (let k = 0; k < 2; k++) await page.click('#undo');
        await page.until(`!document.getElementById('mending').hidden`);
        same(readFileSync(file('BAD')), await image(page), 'the image that was mended');
        await page.choose('#volume', 'DISK');
        await page.until(`document.getElementById('mending').hidden`);
        same(before, await image(page), 'the other volume');
    },
    'an image that was cut short is whole once it is mended': async (page, url) => {
        await page.go(url);
        native(['create', 'V', '90']);
        native(['put', 'V', '-', '--as', 'ONE.TX', '--text'], 'the first\n');
        const whole = readFileSync(file('V'));
        writeFileSync(file('CUT'), whole.subarray(0, whole.length - 100));
        await page.give('#image', file('CUT'));
        await isTold(page, 'mended', 'bytes of zeros added at the end: 100');
        await page.click('#mend');
        await isTold(page, 'files-status', 'The mended image of CUT is written');
        same(whole, await image(page), 'the image');
    },
    'a tape goes where one says, and what may be several things is asked for': async (page, url) => {
        await page.go(url);
        await create(page, 'DISK');
        writeFileSync(file('it.pa'), '*200\n\tHLT\n$\n');
        native(['assemble', 'it.pa', '--output', 'it.bn']);
        await page.drop('#drop', file('it.bn'));
        await answer(page, 'it.bn is a tape', 0);
        await isTold(page, 'files-status', 'STORED IT.BN');
        await page.drop('#drop', file('it.bn'));
        await answer(page, 'it.bn is a tape', 2);
        await isTold(page, 'machine-status', 'it.bn: 1 word is in core');
        await pane(page, 'script');
        await page.drop('#lines', file('it.bn'));
        await answer(page, 'it.bn is a tape');
        same('script', await page.look('geivottu.tabs.shown'), 'the pane');
        writeFileSync(file('odd.da'), Buffer.from([1, 2, 3, 255, 0]));
        await page.drop('#lines', file('odd.da'));
        await answer(page, 'odd.da is no image and no tape', 2);
        await isTold(page, 'script-status', 'STORED ODD.DA');
        await page.until(`geivottu.files.entries.some(it => it.name === 'ODD.DA')`);
    },
    'what is chosen in a pane is opened as what it is, whatever the button is for': async (page, url) => {
        await page.go(url);
        native(['create', 'V', '90']);
        writeFileSync(file('it.pa'), '*200\n\tHLT\n$\n');
        writeFileSync(file('odd.da'), Buffer.from([1, 2, 3, 255, 0]));
        native(['assemble', 'it.pa', '--output', 'it.bn']);
        await pane(page, 'source');
        await page.give('#source-file', file('V'));
        await isTold(page, 'source-status', 'V is open: the pane Files shows it.');
        same('no name yet', await names(page), 'the texts');
        await page.give('#source-file', file('it.bn'));
        await answer(page, 'it.bn is a tape', 0);
        await page.until(`geivottu.tabs.shown === 'teletype' && document.getElementById('tape').selectedOptions[0].textContent === 'it.bn'`);
        await page.give('#tape-file', file('it.pa'));
        await page.until(`geivottu.tabs.shown === 'source' && document.getElementById('source-name').value === 'IT'`);
        await pane(page, 'teletype');
        await page.give('#tape-file', file('odd.da'));
        await answer(page, 'odd.da is no image and no tape', 0);
        await isTold(page, 'tty-status', 'odd.da was not opened');
        same('it.bn', await page.look(`document.getElementById('tape').selectedOptions[0].textContent`), 'the tape');
        await pane(page, 'files');
        await page.give('#image', file('it.bn'));
        await answer(page, 'it.bn is a tape', 0);
        await isTold(page, 'files-status', 'STORED IT.BN');
        await page.give('#image', file('odd.da'));
        await isTold(page, 'files-status', 'odd.da: ? IMAGE');
        await page.give('#image', file('it.pa'));
        await answer(page, 'it.pa is a text, and no image', 2);
        await isTold(page, 'files-status', 'it.pa was not opened: it is a text, and no image.');
        await page.give('#image', file('it.pa'));
        await answer(page, 'it.pa is a text, and no image', 1);
        await isTold(page, 'files-status', 'STORED IT.PA');
        same('V', await page.look(`geivottu.files.images.join()`), 'the images');
    },
    'an image that is dropped on another pane, and one that can\'t be opened, say so there': async (page, url) => {
        await page.go(url);
        await create(page, 'DISK');
        await pane(page, 'script');
        await page.click('#session');
        await page.until(`!document.getElementById('entry-line').disabled`);
        await pane(page, 'machine');
        await page.drop('#panel', file('DISK'));
        await answer(page, 'There is a volume DISK', 1);
        await isTold(page, 'machine-status', 'DISK: ? HOST BUSY');
        mkdirSync(file('FOLDER'));
        await page.drop('#panel', file('FOLDER'));
        await isTold(page, 'machine-status', 'FOLDER can\'t be read: it is a folder');
        native(['create', 'OTHER', '90']);
        await page.drop('#panel', file('OTHER'));
        await isTold(page, 'machine-status', 'OTHER is open: the pane Files shows it.');
        same('machine', await page.look('geivottu.tabs.shown'), 'the pane');
    },
    'a put asks for a name that the page would cut, and for the form of what isn\'t what its name says': async (page, url) => {
        await page.go(url);
        await create(page, 'DISK');
        writeFileSync(file('a long name.tx'), 'the first\n');
        await put(page, 'name', 'a long name.tx');
        await page.until(`document.getElementById('question').open`);
        same('ALONGN.TX', await page.look(`document.getElementById('question-text').value`), 'the name that is offered');
        await page.type('FIRST.TX');
        await page.key('Enter');
        await isTold(page, 'files-status', 'STORED FIRST.TX');
        await put(page, 'name', 'a long name.tx');
        await answer(page, 'a long name.tx has no name');
        await isTold(page, 'files-status', 'a long name.tx was left');
        writeFileSync(file('plain.da'), 'the second\n');
        await put(page, 'name', 'plain.da');
        await answer(page, 'PLAIN.DA is a text, and its name says nothing', 0);
        await isTold(page, 'files-status', 'STORED PLAIN.DA');
        writeFileSync(file('noise.tx'), Buffer.from([1, 2, 3, 255, 0]));
        await put(page, 'name', 'noise.tx');
        await answer(page, 'NOISE.TX has the name of a text, and is none', 0);
        await isTold(page, 'files-status', 'STORED NOISE.TX');
        native(['put', 'DISK', '-', '--as', 'FIRST.TX', '--text'], 'the first\n');
        native(['put', 'DISK', '-', '--as', 'PLAIN.DA', '--text'], 'the second\n');
        native(['put', 'DISK', '-', '--as', 'NOISE.TX'], readFileSync(file('noise.tx')));
        same(readFileSync(file('DISK')), await image(page), 'the image');
    },
    'a link of more than a page can show quickly is asked for, and one of nothing says so': async (page, url) => {
        await page.go(url);
        const link = count => page.look(`(async () => { location.hash = 'source=' + await (await import('./shelf.js')).packed('/'.repeat(${count})); })()`);
        await link(3000000);
        await answer(page, 'The link has a text of 3000000 characters', 0);
        await isTold(page, 'files-status', 'The text of the link was not opened');
        await link(20000000);
        await isTold(page, 'files-status', 'more than 16777216 bytes');
        same('', await text(page), 'the text');
        for (const [hash, words] of [['run=nonsense', 'There is no program nonsense here. A link may run hello, guess, sort, lights, guess8, shed or disk.'], ['nonsense', 'There is no pane nonsense.']]) {
            await page.go(`${url}?${hash.slice(0, 3)}#${hash}`);
            await isTold(page, 'files-status', words);
        }
    },
    'a number or a name that can\'t be gets a line that says what is wanted': async (page, url) => {
        await page.go(url);
        await page.fill('#new-name', 'a/b');
        await page.click('#create');
        await isTold(page, 'files-status', 'A volume has a name without blanks and slashes');
        same('', await page.look(`document.getElementById('volume').value`), 'the volume');
        await create(page, 'DISK');
        await page.click('#dump-box summary');
        await page.fill('#block-number', 'x');
        await page.key('Enter');
        await isTold(page, 'dump-status', 'A block has a number: x is none.');
        await page.fill('#new-name', 'E');
        await page.fill('#new-blocks', '-1');
        await page.click('#create');
        await isTold(page, 'files-status', 'The blocks of a volume: -1 is no number');
        await page.click('#put-date');
        await page.until(`document.getElementById('question').open`);
        await page.type('yesterday');
        await page.key('Enter');
        await isTold(page, 'files-status', 'A date is given as 1974-03-12, or as their own, or none: yesterday is none of these.');
        same('Date: none', await page.text('put-date'), 'the date');
        await setSource(page, '*200\n\tHLT\n$\n');
        await page.fill('#doing-steps', '-3');
        await page.click('#trace');
        await isTold(page, 'source-status', 'The steps: -3 is no number');
        await page.fill('#further', '!!');
        await page.click('#assemble');
        await isTold(page, 'source-status', 'There is no text !! that waits');
        await page.fill('#further', '');
        await page.fill('#source-name', 'a-b');
        await page.key('Tab');
        await isTold(page, 'source-status', 'A text\'s name has at most six letters or digits.');
        same('', await page.look(`document.getElementById('source-name').value`), 'the name');
        await pane(page, 'machine');
        for (const [id, value, words] of [['core-from', '9', 'Core is shown from an address'], ['switches-shown', '8888', 'The switches are a word']]) {
            await page.fill(`#${id}`, value);
            await page.key('Enter');
            await isTold(page, 'machine-status', words);
        }
        same('0000', await page.look(`document.getElementById('switches-shown').value`), 'the switches');
    },
    'what is no text is no text, and says so on the pane in sight': async (page, url) => {
        writeFileSync(file('picture.jpg'), Buffer.from([0xff, 0xd8, 0xff, 0xe0, ...Array.from({ length: 2000 }, (_, k) => k * 7 & 255)]));
        writeFileSync(file('long'), 'x'.repeat(30000000));
        await page.go(url);
        await pane(page, 'script');
        await page.drop('#lines', file('picture.jpg'));
        await answer(page, 'picture.jpg is no image and no tape', 0);
        await isTold(page, 'script-status', 'picture.jpg was not opened');
        await page.drop('#lines', file('long'));
        await isTold(page, 'script-status', 'long: ? HOST READ');
        same('no name yet', await names(page), 'the texts');
    },
    'a refusal has words of the page, and none of a command line': async (page, url) => {
        await page.go(url);
        for (const [blocks, words] of [['5', 'The blocks of a volume: 5 is not from 8 to 4095'], ['many', 'The blocks of a volume: many is no number']]) {
            await page.fill('#new-blocks', blocks);
            await page.click('#create');
            await isTold(page, 'files-status', words);
            same(words, await page.text('files-status'), 'what is said');
        }
        await create(page, 'DISK');
        writeFileSync(file('my long name.tx'), 'the first\n');
        await put(page, 'name', 'my long name.tx');
        await page.until(`document.getElementById('question').open`);
        await page.type('TOO LONG.TX');
        await page.key('Enter');
        await isTold(page, 'files-status', 'A file\'s name has 1 to 6 letters or digits');
        holds(!(await page.text('files-status')).includes('.put'), await page.text('files-status'));
        writeFileSync(file('prog.bin'), Buffer.from([1, 128, 192, 0]));
        await put(page, 'text', 'prog.bin');
        await answer(page, 'prog.bin has no name that a volume can keep', 0);
        await isTold(page, 'files-status', 'It is no text: put it in as frames.');
        await pane(page, 'machine');
        await page.until(`document.getElementById('registers').textContent !== ''`);
        holds(!(await page.text('registers')).includes('run'), 'a register that says run');
        await page.click('#key-load');
        await page.click('#key-step');
        await isTold(page, 'machine-status', '1 step: the next instruction is at 00001 (STEPS 1 LIMIT 00001)');
    },
    'a file that is shown is shown as it is now, and no more once it is gone': async (page, url) => {
        await page.go(url);
        await create(page, 'DISK');
        writeFileSync(file('one.tx'), 'the first\n');
        await put(page, 'text', 'one.tx');
        await isTold(page, 'files-status', 'STORED ONE.TX');
        await page.click('button[aria-label="ONE.TX show as a text"]');
        await isTold(page, 'shown', 'the first');
        writeFileSync(file('one.tx'), 'the second\n');
        await put(page, 'text', 'one.tx');
        await answer(page, 'DISK has a file ONE.TX', 1);
        await isTold(page, 'shown', 'the second');
        await page.click('button[aria-label="ONE.TX delete"]');
        await isTold(page, 'shown-name', 'No file is shown');
        same('', await page.text('shown'), 'what is shown');
        await isTold(page, 'files-status', 'DELETED ONE.TX');
    },
});
