// undone.mjs PROGRAM FOLDER [PART]: what a user changed in the page comes back. It comes back by Undo, by the name of a text, under its own name from
// home, and after a reload. As losses.mjs otherwise.
import { readFileSync, writeFileSync } from 'node:fs';
import { answer, assemble, create, file, further, holds, image, isTold, native, optionsOf, pane, put, removeVolume, run, same, setSource, volume } from './tools.mjs';

const ONE = '*200\n\tCLA IAC\n\tHLT\n$\n', TWO = '*200\n\tCLA CMA\n\tHLT\n$\n', BAD = '*200\n\tTAD LIEN\n$\n';
const MARK = '*200\nSTART,\tCLA CLL CML\n\tTAD WORD\n\t6221\n\tHLT\n\tJMP START\nWORD,\t1234\n$\n';

// A volume with a file ONE.TX, as it is in the page.
async function withOne(page, url, name = 'DISK') {
    await page.go(url);
    await create(page, name);
    writeFileSync(file('one.tx'), 'the first\n');
    await put(page, 'text', 'one.tx');
    await isTold(page, 'files-status', 'STORED ONE.TX');
    native(['put', name, 'one.tx', '--text']);
    return readFileSync(file(name));
}

const undo = (page, words) => page.click('#undo').then(() => isTold(page, 'files-status', words));
const again = (page, words) => page.click('#redo').then(() => isTold(page, 'files-status', words));
const text = page => page.look(`document.getElementById('text').value`);
const name = page => page.look(`document.getElementById('source-name').value`);
const names = page => page.look(optionsOf('texts')).then(it => it.join());

await run('undone', {
    'a deletion, a squeeze and what was put are undone and done again': async (page, url) => {
        const one = await withOne(page, url);
        writeFileSync(file('two.tx'), 'the second\n');
        await put(page, 'text', 'two.tx');
        await isTold(page, 'files-status', 'STORED TWO.TX');
        const two = await image(page);
        await page.click('button[aria-label="ONE.TX delete"]');
        await isTold(page, 'files-status', 'DELETED ONE.TX');
        const deleted = await image(page);
        await page.click('#squeeze');
        await isTold(page, 'files-status', 'SQUEEZED');
        const squeezed = await image(page);
        await undo(page, 'Undone: the squeeze');
        same(deleted, await image(page), 'before the squeeze');
        await undo(page, 'Undone: the deletion of ONE.TX');
        same(two, await image(page), 'before the deletion');
        await undo(page, 'Undone: putting TWO.TX');
        same(one, await image(page), 'before the second');
        await again(page, 'Done again: putting TWO.TX');
        await again(page, 'Done again: the deletion of ONE.TX');
        await again(page, 'Done again: the squeeze');
        same(squeezed, await image(page), 'all done again');
        holds(await page.look(`document.getElementById('redo').disabled`), 'nothing is left to be done again');
    },
    'what is undone is kept over a reload': async (page, url) => {
        const one = await withOne(page, url);
        await page.click('button[aria-label="ONE.TX delete"]');
        await isTold(page, 'files-status', 'DELETED');
        await page.look('geivottu.store.settled()');
        await undo(page, 'Undone');
        await page.look('geivottu.store.settled()');
        await page.go(`${url}?again`);
        await page.until(`!!document.querySelector('tr[data-name="ONE.TX"]')`);
        same(one, await image(page), 'the image');
    },
    'fifty changes of files are undone after a reload': async (page, url) => {
        const one = await withOne(page, url);
        for (let k = 0; k < 50; k++) await page.look(`geivottu.undo.group('DISK', 'file ${k}', () => geivottu.programs.ask(['put', 'DISK', '-', '--as', 'F${k}.TX', '--text'], 'A ${k}\\n'))`);
        await page.look('geivottu.store.settled()');
        await page.go(`${url}?again`);
        await page.until(`document.querySelectorAll('#directory tbody tr').length === 51`);
        for (let k = 49; k >= 0; k--) {
            await page.click('#undo');
            await page.until(`geivottu.undo.count === ${k}`);
        }
        same(one, await image(page), 'the image');
    },
    'several files that were put at once are one change, and keys undo it': async (page, url) => {
        await page.go(url);
        await create(page, 'DISK');
        const empty = await image(page);
        for (const it of ['one.tx', 'two.tx']) writeFileSync(file(it), `${it}\n`);
        await put(page, 'name', 'one.tx', 'two.tx');
        await isTold(page, 'files-status', 'STORED TWO.TX');
        await page.look(`document.getElementById('undo').focus()`);
        await page.key('z', 'KeyZ', 2);
        await isTold(page, 'files-status', 'Undone: putting ONE.TX, TWO.TX');
        same(empty, await image(page), 'the image');
        await page.look(`document.getElementById('redo').focus()`);
        await page.key('y', 'KeyY', 2);
        await isTold(page, 'files-status', 'Done again: putting ONE.TX, TWO.TX');
        await page.until(`document.querySelectorAll('#directory tbody tr').length === 2`);
    },
    'a volume that was removed, or written over, comes back': async (page, url) => {
        const one = await withOne(page, url);
        await page.click('#drop-image');
        await answer(page, 'Remove DISK from the page?', 0);
        same('DISK', await volume(page), 'the volume after Leave it');
        await removeVolume(page);
        await page.until(`document.getElementById('volume').value === ''`);
        await undo(page, 'Undone: the removal of DISK');
        same('DISK', await volume(page), 'the volume');
        same(one, await image(page), 'the image');
        await page.fill('#new-name', 'DISK');
        await page.fill('#new-blocks', '20');
        await page.click('#create');
        await answer(page, 'There is a volume DISK', 1);
        await isTold(page, 'files-status', 'CREATED 20');
        await undo(page, 'Undone: the new volume DISK');
        same(one, await image(page), 'the image that was written over');
    },
    'a script is one change, and a session holds its volume against Undo': async (page, url) => {
        const one = await withOne(page, url);
        await pane(page, 'script');
        await page.fill('#lines', 'STORE A 1\nX\nSTORE B 1\nY\nDELETE ONE.TX\n');
        await page.choose('#script-saving', '--keep');
        await page.click('#script-run');
        await isTold(page, 'script-status', 'status 0');
        await pane(page, 'files');
        await page.until(`document.querySelectorAll('#directory tbody tr').length === 2`);
        await undo(page, 'Undone: the script');
        same(one, await image(page), 'the image');
        await pane(page, 'script');
        await page.click('#session');
        await page.until(`!document.getElementById('entry-line').disabled`);
        await pane(page, 'files');
        await page.click('#redo');
        await isTold(page, 'files-status', '? HOST BUSY');
        same(one, await image(page), 'the image that a session holds');
    },
    'what another tab changed since is not undone': async (page, url) => {
        await withOne(page, url);
        await page.click('button[aria-label="ONE.TX delete"]');
        await isTold(page, 'files-status', 'DELETED');
        const second = await further(page, url);
        await create(page, 'OTHER', 20);
        await second.choose('#volume', 'DISK');
        await second.until(`document.getElementById('follows').hidden && document.getElementById('volume').value === 'DISK'`);
        writeFileSync(file('two.tx'), 'the second\n');
        await put(second, 'text', 'two.tx');
        await isTold(second, 'files-status', 'STORED TWO.TX');
        await undo(page, 'Undone: the new volume OTHER');
        await page.click('#undo');
        await isTold(page, 'files-status', '? HOST BUSY');
        await second.end();
        await page.until(`document.getElementById('follows').hidden`);
        await page.choose('#volume', 'DISK');
        await page.until(`!!document.querySelector('tr[data-name="TWO.TX"]')`);
        await undo(page, 'can\'t be undone: something else was changed since');
        holds(await page.look(`!!document.querySelector('tr[data-name="TWO.TX"]')`), 'the other tab\'s file is there');
    },
    'a new text has no name until it gets one, and its files wait for it': async (page, url) => {
        await page.go(url);
        await create(page, 'DISK');
        await setSource(page, ONE);
        same('', await name(page), 'the name');
        await page.click('#assemble');
        await isTold(page, 'source-status', 'assembled');
        await page.click('#to-volume');
        await isTold(page, 'source-status', 'The text has no name yet');
        same('source-name', await page.look('document.activeElement.id'), 'the focus');
        await page.type('IT');
        await page.click('#to-volume');
        await isTold(page, 'source-status', 'STORED IT.BN');
    },
    'several texts are kept, by their names': async (page, url) => {
        await page.go(url);
        await setSource(page, ONE);
        await page.fill('#source-name', 'FIRST');
        await page.click('#text-new');
        same('', await text(page), 'a new text');
        await page.fill('#text', TWO);
        await page.fill('#source-name', 'SECOND');
        await page.key('Tab');
        same('SECOND,FIRST', await names(page), 'the texts');
        await page.choose('#texts', 'FIRST');
        same(ONE, await text(page), 'the first');
        same('FIRST', await name(page), 'its name');
        await page.look('geivottu.store.settled()');
        await page.go(`${url}?again`);
        await pane(page, 'source');
        same('FIRST,SECOND', await names(page), 'the texts after a reload');
        await page.choose('#texts', 'SECOND');
        same(TWO, await text(page), 'the second');
        await page.fill('#source-name', 'FIRST');
        await page.key('Tab');
        await isTold(page, 'source-status', 'There is another text FIRST');
        same('SECOND', await name(page), 'the name stays');
    },
    'a text that is opened is a further one, and one of that name is asked for': async (page, url) => {
        await page.go(url);
        await setSource(page, ONE);
        await page.fill('#source-name', 'GUESS');
        await page.key('Tab');
        writeFileSync(file('guess.pa'), TWO);
        await page.give('#source-file', file('guess.pa'));
        await answer(page, 'There is a text GUESS', 0);
        await page.until(`document.getElementById('text').value === ${JSON.stringify(TWO)}`);
        same('GUESS2', await name(page), 'its name');
        await page.choose('#texts', 'GUESS');
        same(ONE, await text(page), 'the first');
        await page.give('#source-file', file('guess.pa'));
        await answer(page, 'There is a text GUESS');
        same(ONE, await text(page), 'the first is left');
        await page.give('#source-file', file('guess.pa'));
        await answer(page, 'There is a text GUESS', 1);
        await page.until(`document.getElementById('text').value === ${JSON.stringify(TWO)}`);
        same('GUESS', await name(page), 'the one that is written over');
    },
    'a text that was removed comes back': async (page, url) => {
        await page.go(url);
        await setSource(page, ONE);
        await page.fill('#source-name', 'FIRST');
        await page.click('#text-new');
        await page.fill('#text', TWO);
        await page.fill('#source-name', 'SECOND');
        await page.click('#text-drop');
        await isTold(page, 'source-status', 'SECOND is removed');
        same(ONE, await text(page), 'the other one is open');
        await pane(page, 'files');
        await undo(page, 'Undone: the removal of the text SECOND');
        await pane(page, 'source');
        await page.choose('#texts', 'SECOND');
        same(TWO, await text(page), 'the second');
    },
    'what goes home comes back under its own name': async (page, url) => {
        await page.go(url);
        await create(page, 'DISK');
        await assemble(page, 'IT', ONE);
        same('IT.PA', (await page.home('#text-home')).name, 'the text of Source');
        same('IT.BN', (await page.home('#tape-home')).name, 'the tape of Source');
        await page.click('#to-volume');
        await isTold(page, 'source-status', 'STORED IT.BN');
        await pane(page, 'files');
        const before = await image(page);
        for (const [it, form] of [['IT.PA', 'text'], ['IT.BN', 'tape']]) {
            const home = await page.home(`button[aria-label="${it} save as a ${form}"]`);
            same(it, home.name, 'the name');
            writeFileSync(file(it), home.bytes);
        }
        await create(page, 'SECOND');
        await put(page, 'name', 'IT.PA', 'IT.BN');
        await isTold(page, 'files-status', 'STORED IT.BN');
        same(before, await image(page), 'the image of what came back');
    },
    'what goes home comes back with its date, if it comes back as it went': async (page, url) => {
        await page.go(url);
        native(['create', 'A', '90']);
        native(['put', 'A', '-', '--as', 'ONE.TX', '--text', '--date', '1974-03-12'], 'the first\n');
        await page.give('#image', file('A'));
        await page.until(`document.querySelector('tr[data-name="ONE.TX"] .date')?.textContent === '1974-03-12'`);
        const { name, bytes } = await page.home('button[aria-label="ONE.TX save as a text"]');
        writeFileSync(file(name), bytes);
        await create(page, 'B');
        await put(page, 'name', 'ONE.TX');
        await isTold(page, 'files-status', 'STORED ONE.TX');
        same(readFileSync(file('A')), await image(page), 'the image of what came back');
        await create(page, 'C');
        writeFileSync(file('ONE.TX'), 'another\n');
        native(['put', 'C', 'ONE.TX', '--text']);
        await put(page, 'name', 'ONE.TX');
        await isTold(page, 'files-status', 'STORED ONE.TX');
        same(readFileSync(file('C')), await image(page), 'the image of what was changed');
    },
    'a file is copied between two volumes of the page, with its date': async (page, url) => {
        await page.go(url);
        await create(page, 'A');
        native(['put', 'A', '-', '--as', 'ONE.TX', '--text', '--info', '1234'], 'the first\n');
        await page.give('#image', file('A'));
        await answer(page, 'There is a volume A', 1);
        await page.until(`!!document.querySelector('tr[data-name="ONE.TX"]')`);
        await create(page, 'B');
        native(['copy', 'A', 'ONE.TX', 'B']);
        await page.choose('#volume', 'A');
        await page.until(`!!document.querySelector('tr[data-name="ONE.TX"]')`);
        await page.click('button[aria-label="ONE.TX copy to another volume"]');
        await answer(page, 'Copy ONE.TX to which volume?', 0);
        await isTold(page, 'files-status', 'B: STORED ONE.TX');
        await page.click('button[aria-label="ONE.TX copy to another volume"]');
        await answer(page, 'Copy ONE.TX to which volume?', 0);
        await answer(page, 'B has a file ONE.TX', 0);
        await isTold(page, 'files-status', 'was left as it was');
        await page.choose('#volume', 'B');
        await page.until(`!!document.querySelector('tr[data-name="ONE.TX"]')`);
        same(readFileSync(file('B')), await image(page), 'the image');
    },
    'a reload keeps and shows core, registers, breaks and the tape': async (page, url) => {
        await page.go(url);
        await setSource(page, MARK);
        await page.click('#assemble');
        await isTold(page, 'source-status', 'assembled');
        await page.click('#to-core');
        await isTold(page, 'machine-status', 'words are in core');
        await page.look(`document.querySelector('[data-cell="00201"] button').click()`);
        await isTold(page, 'machine-status', 'BREAK 00201 ON');
        for (let k = 0; k < 2; k++) {
            await page.look(`document.getElementById('machine-status').textContent = ''`);
            await page.click('#key-start');
            await isTold(page, 'machine-status', 'BREAK 00201');
        }
        await page.click('#key-go');
        await isTold(page, 'machine-status', 'HALT');
        await page.until(`geivottu.machine.registers.ac === '1234'`);
        const before = await page.look(`geivottu.machine.registers`);
        await page.look('geivottu.store.settled()');
        await page.go(`${url}?again`);
        await page.until(`document.getElementById('core').textContent.startsWith('00200  7320')`);
        const after = await page.look(`geivottu.machine.registers`);
        for (const it of ['ac', 'l', 'pc', 'if', 'df', 'ion']) same(before[it], after[it], it);
        same('1234', after.ac, 'the accumulator');
        same('true', await page.look(`document.querySelector('[data-cell="00201"] button').getAttribute('aria-pressed')`), 'the break');
        await page.click('#key-start');
        await isTold(page, 'machine-status', 'BREAK 00201');
        await pane(page, 'source');
        holds(await page.look(`!document.getElementById('tape-home').disabled && document.getElementById('listing').textContent.includes('7320')`), 'the tape and its listing');
        same('Listing', await page.text('listing-name'), 'the tape is not old');
    },
    'several texts are one source, which goes on where the first has PAUSE': async (page, url) => {
        const first = '*200\nA,\tCLA; TAD B\n\tPAUSE\nNOT READ\n', second = '\tTAD A\n\tHLT\nB,\t5\n$\n', bad = '\tTAD LIEN\n\tHLT\nB,\t5\n$\n';
        await page.go(url);
        await create(page, 'DISK');
        await setSource(page, bad);
        await page.fill('#source-name', 'TWO');
        await page.key('Tab');
        await page.click('#text-new');
        await setSource(page, first);
        await page.fill('#source-name', 'ONE');
        await page.fill('#further', 'two');
        await page.click('#assemble');
        await isTold(page, 'faults', 'TWO, line 1, column 6: UA');
        await page.click('#faults button');
        same(bad, await page.look(`document.getElementById('text').value`), 'the text with the fault');
        same('', await page.look(`document.getElementById('further').value`), 'the second goes on in none');
        await page.fill('#text', second);
        await page.choose('#texts', 'ONE');
        same('two', await page.look(`document.getElementById('further').value`), 'what the first goes on in');
        await page.click('#assemble');
        await isTold(page, 'source-status', 'assembled');
        for (const [name, text] of [['one.pa', first], ['two.pa', second]]) writeFileSync(file(name), text);
        native(['assemble', 'one.pa', 'two.pa', '--output', 'one.bin', '--list', 'one.lst', '--cross']);
        same(readFileSync(file('one.lst'), 'latin1').replaceAll('\r', ''), `${await page.text('listing')}\n\n${await page.text('symbols')}`, 'the listing');
        same(readFileSync(file('one.bin')), (await page.home('#tape-home')).bytes, 'the tape');
        await page.look(`document.querySelector('#listing [data-cell="00203"]').click()`);
        await isTold(page, 'source-status', 'That is line 2 of the text TWO');
        await page.click('#to-volume');
        await isTold(page, 'source-status', 'STORED ONE.BN');
        for (const it of ['one', 'two']) native(['put', 'DISK', '-', '--as', `${it.toUpperCase()}.PA`, '--text'], readFileSync(file(`${it}.pa`)));
        native(['put', 'DISK', '-', '--as', 'ONE.BN'], readFileSync(file('one.bin')));
        await pane(page, 'files');
        same(readFileSync(file('DISK')), await image(page), 'the image');
        await page.look('geivottu.store.settled()');
        await page.go(`${url}?again`);
        same('two', await page.look(`document.getElementById('further').value`), 'what it goes on in after a reload');
        same('Listing', await page.text('listing-name'), 'the tape is not old');
        await pane(page, 'source');
        await page.fill('#further', 'none');
        await page.click('#assemble');
        await isTold(page, 'source-status', 'There is no text NONE');
    },
    'a text has its dialect, which is kept with it': async (page, url) => {
        const text = '*200\n\tTAD (5\n\tDCA A\n\tHLT\n*400\nA,\tTEXT /AB/\n$\n', words = [text, ONE];
        ['pal8.pa', 'one.pa'].forEach((it, k) => writeFileSync(file(it), words[k]));
        native(['assemble', '--pal8', 'pal8.pa', '--output', 'pal8.bin']);
        native(['assemble', 'one.pa', '--output', 'one.bin']);
        await page.go(url);
        await setSource(page, ONE);
        await page.fill('#source-name', 'ONE');
        await page.key('Tab');
        await page.click('#text-new');
        await setSource(page, text);
        await page.fill('#source-name', 'EIGHT');
        await page.key('Tab');
        await page.click('#assemble');
        await isTold(page, 'source-status', '? 5 IC 2. It reads like PAL8');
        await page.choose('#dialect', 'PAL8');
        await isTold(page, 'faults', '');
        await page.click('#assemble');
        await isTold(page, 'source-status', 'assembled');
        same(readFileSync(file('pal8.bin')), (await page.home('#tape-home')).bytes, 'the tape');
        await page.choose('#texts', 'ONE');
        same('PAL III', await page.look(`document.getElementById('dialect').value`), 'the dialect of the other text');
        await page.click('#assemble');
        await isTold(page, 'source-status', 'assembled');
        same(readFileSync(file('one.bin')), (await page.home('#tape-home')).bytes, 'the tape of the other text');
        await page.choose('#texts', 'EIGHT');
        await page.look('geivottu.store.settled()');
        await page.go(`${url}?again`);
        await pane(page, 'source');
        same('PAL8', await page.look(`document.getElementById('dialect').value`), 'the dialect after a reload');
        await page.choose('#dialect', 'PAL III');
        await page.until(`document.getElementById('faults').textContent.includes('IC')`);
    },
    'what was typed into a text and into the script is undone by keys, after a reload too': async (page, url) => {
        await page.go(url);
        for (const [name, id, words] of [['source', 'text', 'typing in the text'], ['script', 'lines', 'typing in the script']]) {
            await pane(page, name);
            const value = () => page.look(`document.getElementById('${id}').value`), first = await value();
            await page.fill(`#${id}`, ONE);
            await page.look('geivottu.undo.endTyping()');
            await page.fill(`#${id}`, '');
            await page.go(`${url}?again`);
            await page.until(`!document.getElementById('${id}').readOnly`);
            await page.look(`document.getElementById('${id}').focus()`);
            for (const [key, modifiers, wanted] of [['z', 2, ONE], ['z', 2, first], ['y', 2, ONE], ['y', 2, ''], ['z', 2, ONE]]) {
                await page.key(key, `Key${key.toUpperCase()}`, modifiers);
                await page.until(`document.getElementById('${id}').value === ${JSON.stringify(wanted)}`);
            }
            await isTold(page, `${name}-status`, `Undone: ${words}`);
        }
        await page.click('#undo');
        await isTold(page, 'script-status', 'Undone: typing in the script');
        await page.click('#undo');
        await isTold(page, 'script-status', 'Undone: typing in the text');
        same('', await text(page), 'the text of the other pane');
    },
    'fifty changes of a text come back, and what is only added is one': async (page, url) => {
        await page.go(url);
        await pane(page, 'source');
        await page.look(`{ const it = document.getElementById('text'); for (let k = 0; k < 60; k++) { it.value = '/' + k; it.dispatchEvent(new Event('input', { bubbles: true })); geivottu.undo.endTyping(); } }`);
        await page.go(`${url}?again`);
        await page.until(`!document.getElementById('text').readOnly`);
        await page.look(`document.getElementById('text').focus()`);
        for (let k = 0; k < 50; k++) await page.key('z', 'KeyZ', 2);
        await page.until(`document.getElementById('text').value === '/9'`);
        await page.look(`{ const it = document.getElementById('text'); for (const more of ['A', 'B', 'C']) { it.value += more; it.dispatchEvent(new Event('input', { bubbles: true })); geivottu.undo.endTyping(); } }`);
        await page.key('z', 'KeyZ', 2);
        await page.until(`document.getElementById('text').value === '/9'`);
    },
    'deposits with no step between them are one change, and paper that was torn off comes back': async (page, url) => {
        await page.go(url);
        await pane(page, 'machine');
        await page.until(`document.getElementById('core').textContent !== ''`);
        const core = await page.look(`document.getElementById('core').textContent`);
        await page.fill('#switches-shown', '1234');
        await page.key('Enter');
        for (let k = 0; k < 2; k++) await page.click('#key-deposit');
        await page.until(`document.getElementById('core').textContent.startsWith('00200  1234 1234')`);
        await page.click('#undo');
        await isTold(page, 'machine-status', 'Undone: the deposits');
        await page.until(`document.getElementById('core').textContent === ${JSON.stringify(core)}`);
        await page.click('#redo');
        await page.until(`document.getElementById('core').textContent.startsWith('00200  1234 1234')`);
        await pane(page, 'teletype');
        await page.look(`geivottu.teletype.paper.print(new TextEncoder().encode('READY' + String.fromCharCode(13, 10)))`);
        await isTold(page, 'paper', 'READY');
        await page.click('#tear');
        await page.look(`geivottu.teletype.paper.print(new TextEncoder().encode('MORE'))`);
        await page.until(`document.getElementById('paper').textContent === 'MORE'`);
        await page.go(`${url}?again`);
        await page.until(`!document.getElementById('tear').disabled`);
        await page.click('#undo');
        await page.until(`document.getElementById('paper').textContent.split(String.fromCharCode(10)).join('|') === 'READY|MORE'`);
    },
    'what is changed while Undo waits stays': async (page, url) => {
        await withOne(page, url);
        await page.look(`geivottu.teletype.paper.print(new TextEncoder().encode('READY'))`);
        await isTold(page, 'paper', 'READY');
        await pane(page, 'script');
        await page.click('#session');
        await page.until(`!document.getElementById('entry-line').disabled`);
        await page.look(`(() => {
            for (let k = 0; k < 3; k++) document.getElementById('undo').click();
            document.getElementById('tear').click();
            return geivottu.files.undone;
        })()`);
        await page.until(`document.getElementById('paper').textContent === ''`);
        await page.click('#session');
        await page.until(`document.getElementById('entry-line').disabled`);
        await pane(page, 'files');
        await undo(page, 'Undone: tearing the paper off');
        await undo(page, 'Undone: putting ONE.TX');
    },
    'faults show as one types, and the tape stays': async (page, url) => {
        await page.go(url);
        await setSource(page, ONE);
        await page.click('#assemble');
        await isTold(page, 'source-status', 'assembled');
        await page.fill('#text', BAD);
        await isTold(page, 'faults', 'line 2');
        await isTold(page, 'gutter', 'UA 2');
        await page.fill('#text', TWO);
        await page.until(`document.getElementById('faults').textContent === ''`);
        await isTold(page, 'listing-name', 'old');
    },
});
