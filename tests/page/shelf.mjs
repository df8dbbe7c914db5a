// shelf.mjs PROGRAM FOLDER [PART]: what a visitor plays with at once: the shelf, links, what is dropped, and the keys of editor, panes and panel.
// As losses.mjs otherwise.
import { readFileSync, writeFileSync } from 'node:fs';
import { dirname, join, resolve } from 'node:path';
import { fileURLToPath, pathToFileURL } from 'node:url';
import { answer, file, holds, image, isTold, native, pane, run, same, setSource, stranger, volume } from './tools.mjs';

const examples = join(dirname(dirname(dirname(fileURLToPath(import.meta.url)))), 'examples');
const example = name => readFileSync(join(examples, name));
const ONE = '*200\n\tCLA IAC\n\tHLT\n$\n';
const BUSY = '*200\n\tCLA\nA,\tISZ B\n\tJMP A\n\tHLT\nB,\t7700\n$\n';
// Waits for the printer by its flag, and so would take more steps with one that isn't quick.
const ECHO = '*200\nA,\tKSF\n\tJMP A\n\tKRB\n\tTLS\n\tTSF\n\tJMP .-1\n\tJMP A\n$\n';
const SORT = '*200\n\tCLA; TAD A\n\tHLT\nA,\t3\n$\n';
// What of the panel and the Teletype can't be seen whole, without scrolling.
const OUTSIDE = `['#key-start', '#key-load', '#key-deposit', '#key-examine', '#key-go', '#key-stop', '#key-step', '#console', '#console-line'].filter(it => {
    const box = document.querySelector(it).getBoundingClientRect();
    return box.width === 0 || box.top < 0 || box.left < 0 || box.bottom > innerHeight || box.right > innerWidth; }).join(' ')`;
const lit = (page, row) => page.look(`[...document.querySelectorAll('[data-row="${row}"] .lamp')].map(it => it.classList.contains('on') ? 1 : 0).join('')`);
async function press(page, name) {
    await pane(page, 'machine');
    await page.click(`button[data-run="${name}"]`);
}

await run('shelf', {
    'at first sight panel and Teletype stand side by side with the game in core, START plays it, and the keys stay in sight': async (page, url) => {
        for (const [width, height] of [[1280, 600], [1280, 800], [390, 844]]) {
            const other = await stranger(page);
            await other.size(width, height);
            await other.go(`${url}?first`);
            same('', await other.look(OUTSIDE), `what is not in sight, ${width} by ${height}`);
            const { panel, console } = await other.look(`Object.fromEntries([['panel', '#panel .board'], ['console', '#console']].map(([name, it]) => [name, document.querySelector(it).getBoundingClientRect().toJSON()]))`);
            if (width > 1000) holds(console.left >= panel.right && console.top < panel.bottom, 'the Teletype is not beside the panel');
            if (width > 1000) same(1, await other.look(`new Set([...document.querySelectorAll('#panel .small .lamps')].map(it => Math.round(it.getBoundingClientRect().top))).size`), 'the rows of the small lamps');
            await other.look('scrollTo(0, document.documentElement.scrollHeight)');
            same('', await other.look(OUTSIDE.replace(", '#console', '#console-line'", '')), `which keys are not in sight at the end of the pane, ${width} by ${height}`);
            await other.end();
        }
        await page.go(`${url}?first`);
        await isTold(page, 'code', 'A GAME FOR THE TELETYPE');
        same('00200', await page.look(`document.querySelector('#code .at').dataset.cell`), 'the line that is marked');
        same('0200', await page.look(`[...document.querySelectorAll('#registers dt')].find(it => it.textContent === 'pc').nextSibling.textContent`), 'PC beside its lamps');
        await page.click('#key-start');
        await isTold(page, 'console', 'WHAT IS YOUR NAME?');
        await page.keys('ada\n');
        await isTold(page, 'console', 'YOUR GUESS?');
        await page.fill('#console-line', '50');
        await page.key('Enter');
        await isTold(page, 'console', '50 TOO LOW');
        same('', await page.look(`document.getElementById('text').value`), 'the text in Source');
        holds(await page.look(`document.getElementById('undo').disabled`), 'there is something to undo');
        await page.click('#power');
        await isTold(page, 'machine-status', 'a new machine');
        await page.look('geivottu.machine.going');
        same('a new machine', await page.text('machine-status'), 'what is said once the old machine has stopped');
        await page.look('geivottu.store.settled()');
        await page.go(`${url}?again`);
        holds(!await page.look(`document.getElementById('code').textContent.includes('GAME')`), 'the game comes again');
    },
    'a click plays the game at the panel, and keys go to it at once': async (page, url) => {
        await page.go(url);
        await press(page, 'guess');
        await isTold(page, 'console', 'WHAT IS YOUR NAME?');
        same('GUESS', await page.look(`document.getElementById('source-name').value`), 'the text');
        await page.keys('ada\n');
        await isTold(page, 'console', 'YOUR GUESS?');
        await press(page, 'sort');
        await isTold(page, 'machine-status', 'to be sorted are at 00240');
    },
    'a click prints a line, and a link runs the same': async (page, url) => {
        await page.go(url);
        await press(page, 'hello');
        await isTold(page, 'paper', 'HELLO');
        await page.call('Page.navigate', { url: `${url}?b#run=hello` });
        await page.until(`location.search === '?b' && document.getElementById('tty-status')?.textContent.includes('HALT')`);
    },
    'a link plays the game that is written in PAL8, and its text has that dialect': async (page, url) => {
        await page.go(url);
        await page.call('Page.navigate', { url: `${url}?b#run=guess8` });
        await page.until(`location.search === '?b' && document.getElementById('paper')?.textContent.includes('WHAT IS YOUR NAME?')`);
        same('GUESS8 PAL8', await page.look(`document.getElementById('source-name').value + ' ' + document.getElementById('dialect').value`), 'the text');
        await page.click('#tty-stop');
    },
    'the sort is in core, and SING STEP goes from its start': async (page, url) => {
        await page.go(url);
        await press(page, 'sort');
        await isTold(page, 'machine-status', 'to be sorted are at 00240');
        await page.click('#key-load');
        await isTold(page, 'machine-status', 'address');
        await page.look(`geivottu.machine.panel.address = 0o200`);
        await page.click('#key-step');
        await page.until(`geivottu.machine.registers.pc === '0201'`);
        await page.click('#key-step');
        await page.until(`geivottu.machine.registers.pc === '0202'`);
        await page.choose('#speed', 'full');
        await page.click('#key-go');
        await isTold(page, 'machine-status', 'HALT');
        await page.fill('#core-from', '00240');
        await page.key('Enter');
        await page.until(`document.getElementById('core').textContent.startsWith('00240  0001 0002 0005 0007 0017 0024 0030 0031'.slice(0, 20))`);
    },
    'the lights run, and RUN is out when the machine is stopped': async (page, url) => {
        await page.go(url);
        await press(page, 'lights');
        await page.until(`geivottu.machine.isGoing`);
        await page.until(`document.querySelector('[data-row="run"] .lamp').classList.contains('on')`);
        const first = await lit(page, 'ac');
        await page.until(`[...document.querySelectorAll('[data-row="ac"] .lamp')].map(it => it.classList.contains('on') ? 1 : 0).join('') !== '${first}'`);
        await page.click('#key-stop');
        await isTold(page, 'machine-status', 'stopped by the key');
        holds(/^stopped by the key: the next instruction is at [0-7]{5}$/.test(await page.text('machine-status')), await page.text('machine-status'));
        await page.until(`!document.querySelector('[data-row="run"] .lamp').classList.contains('on')`);
    },
    'the disk of the shelf has the programs and their tapes': async (page, url) => {
        await page.go(url);
        await press(page, 'disk');
        await page.until(`document.getElementById('volume').value === 'SHELF' && document.querySelectorAll('#directory tbody tr').length === 8`);
        native(['create', 'SHELF', '737']);
        for (const it of ['hello', 'guess', 'sort', 'lights']) {
            writeFileSync(file(`${it}.pa`), example(`${it}.pa`));
            native(['assemble', `${it}.pa`, '--output', `${it}.bn`]);
            native(['put', 'SHELF', `${it}.pa`, '--text']);
            native(['put', 'SHELF', `${it}.bn`]);
        }
        same(readFileSync(file('SHELF')), await image(page), 'the image');
    },
    'a link has a text, and opens it anywhere': async (page, url) => {
        await page.go(url);
        await setSource(page, ONE);
        await page.fill('#source-name', 'IT');
        await page.look(`Object.defineProperty(navigator, 'clipboard', { value: { writeText: async it => { window.copied = it; } } })`);
        await page.click('#link');
        await isTold(page, 'source-status', 'A link to this text is copied');
        const link = await page.look('copied');
        holds(link.startsWith(`${url}#source=`) && link.endsWith('&name=IT'), link);
        await page.fill('#source-name', 'OTHER');
        await page.fill('#text', '/ ANOTHER\n');
        await page.look('geivottu.store.settled()');
        await page.go(`${url}?c${link.slice(url.length)}`);
        await page.until(`document.getElementById('text').value === ${JSON.stringify(ONE)} && !document.getElementById('source').hidden`);
        same('OTHER', await page.look(`document.getElementById('texts').options[1].textContent`), 'the text that was open');
        await page.go(`${url}?d#source=@@@`);
        await isTold(page, 'source-status', 'The link has no text that can be read');
    },
    'a link has the dialect of its text, and the texts that it goes on in': async (page, url) => {
        const first = '*200\n\tTAD A\n\tHLT\nA,\t"B\n', second = '*300\n\tHLT\n$\n';
        await page.go(url);
        await setSource(page, second);
        await page.fill('#source-name', 'TWO');
        await page.click('#text-new');
        await setSource(page, first);
        await page.fill('#source-name', 'ONE');
        await page.key('Tab');
        await page.choose('#dialect', 'PAL8');
        await page.fill('#further', 'TWO');
        await page.key('Tab');
        await page.look(`Object.defineProperty(navigator, 'clipboard', { value: { writeText: async it => { window.copied = it; } } })`);
        await page.click('#link');
        await isTold(page, 'source-status', 'A link to this text is copied');
        const link = await page.look('copied'), other = await stranger(page);
        await other.go(`${url}${link.slice(url.length)}`);
        await other.until(`document.getElementById('text').value === ${JSON.stringify(first)}`);
        same('ONE PAL8 TWO', await other.look(`['source-name', 'dialect', 'further'].map(it => document.getElementById(it).value).join(' ')`), 'the text');
        await other.click('#assemble');
        await isTold(other, 'source-status', 'assembled');
        await other.choose('#texts', 'TWO');
        same(second, await other.look(`document.getElementById('text').value`), 'the further text');
        await other.end();
    },
    'two clicks at the shelf are one disk, with the tapes of its texts': async (page, url) => {
        await page.go(url);
        await press(page, 'disk');
        await page.look(`document.querySelector('button[data-run="disk"]').click()`);
        for (let k = 0; k < 3; k++) await page.look(`document.querySelector('button[data-run="disk"]').dispatchEvent(new MouseEvent('click')); new Promise(go => setTimeout(go, 100))`);
        await page.until(`document.getElementById('volume').value === 'SHELF'`);
        await page.until(`!document.querySelector('button[data-run="disk"]').disabled`);
        const made = await image(page);
        native(['create', 'SHELF', '737']);
        for (const it of ['hello', 'guess', 'sort', 'lights']) {
            writeFileSync(file(`${it}.pa`), example(`${it}.pa`));
            native(['assemble', `${it}.pa`, '--output', `${it}.bn`]);
            native(['put', 'SHELF', '-', '--as', `${it.toUpperCase()}.PA`, '--text'], example(`${it}.pa`));
            native(['put', 'SHELF', '-', '--as', `${it.toUpperCase()}.BN`], readFileSync(file(`${it}.bn`)));
        }
        same(readFileSync(file('SHELF')), made, 'the disk');
        same('SHELF', await page.look(`[...document.getElementById('volume').options].slice(1).map(it => it.value).join()`), 'the volumes');
    },
    'what is dropped is opened as what it is': async (page, url) => {
        await page.go(url);
        native(['create', 'DISK', '90']);
        writeFileSync(file('it.pa'), ONE);
        native(['assemble', 'it.pa', '--output', 'it.bn']);
        const drop = async (...names) => {
            const all = names.map(it => [it, readFileSync(file(it)).toString('base64')]);
            await page.look(`void geivottu.files.drops.take(${JSON.stringify(all)}.map(([name, text]) => new File([Uint8Array.from(atob(text), it => it.charCodeAt(0))], name)))`);
        };
        await drop('it.pa');
        await page.until(`document.getElementById('text').value === ${JSON.stringify(ONE)} && !document.getElementById('source').hidden`);
        await drop('it.bn');
        await answer(page, 'it.bn is a tape', 0);
        await page.until(`document.getElementById('tape').selectedOptions[0].textContent === 'it.bn' && !document.getElementById('teletype').hidden`);
        await drop('DISK');
        await page.until(`document.getElementById('volume').value === 'DISK'`);
        await pane(page, 'files');
        await drop('it.pa', 'it.bn');
        native(['put', 'DISK', 'it.pa', '--text']);
        native(['put', 'DISK', 'it.bn']);
        await page.until(`document.querySelectorAll('#directory tbody tr').length === 2`);
        same(readFileSync(file('DISK')), await image(page), 'the image');
    },
    'Tab types a tab in the editor, Escape leaves it, and Back goes to the pane before': async (page, url) => {
        await page.go(url);
        await pane(page, 'source');
        await page.look(`document.getElementById('text').focus()`);
        await page.key('Tab');
        await page.type('HLT');
        same('\tHLT', await page.look(`document.getElementById('text').value`), 'the text');
        await page.key('Escape');
        await page.key('Tab');
        same('listing', await page.look('document.activeElement.id'), 'the focus');
        await pane(page, 'script');
        await page.look('history.back()');
        await page.until(`!document.getElementById('source').hidden`);
        await page.look('history.back()');
        await page.until(`!document.getElementById('files').hidden`);
        same('', await volume(page), 'no volume');
    },
    'a line of the text and its words are marked together, and a click goes to the line': async (page, url) => {
        await page.go(url);
        await setSource(page, SORT);
        await page.click('#assemble');
        await isTold(page, 'source-status', 'assembled');
        const marked = () => page.look(`[...document.querySelectorAll('#listing .at')].map(it => it.dataset.cell).join()`);
        await page.look(`(() => { const it = document.getElementById('text'); it.focus(); it.setSelectionRange(11, 11); it.dispatchEvent(new Event('keyup')); })()`);
        same('00200,00201', await marked(), 'the words of the second line');
        same('00201', await page.look(`document.querySelector('#listing .own').dataset.cell`), 'the word of the statement');
        await page.look(`document.querySelector('#listing [data-cell="00201"]').click()`);
        same('TAD A', await page.look(`(() => { const it = document.getElementById('text'); return it.value.slice(it.selectionStart, it.selectionEnd); })()`), 'the statement that is chosen');
        await page.look(`document.querySelector('#listing [data-cell="00202"]').click()`);
        same('\tHLT', await page.look(`(() => { const it = document.getElementById('text'); return it.value.slice(it.selectionStart, it.selectionEnd); })()`), 'the line that is chosen');
    },
    'a trace and a profile are those of the program, and the panel shows the step': async (page, url) => {
        await page.go(url);
        await setSource(page, SORT);
        await page.click('#trace');
        await isTold(page, 'doings', 'HALT');
        writeFileSync(file('it.pa'), SORT);
        native(['assemble', 'it.pa', '--output', 'it.bin']);
        same(native(['trace', 'it.bin']).toString(), await page.text('doings'), 'the trace');
        await page.look(`document.querySelectorAll('#doings [data-step]')[1].click()`);
        same('00201', await page.look(`document.querySelector('#listing .at').dataset.cell`), 'the line of the step');
        same('2', await page.look(`document.querySelector('#gutter .at').textContent.trim()`), 'the line of the text');
        await page.until(`document.querySelector('[data-at-step="ac"] .word').textContent === '0003' && document.querySelector('[data-at-step="pc"] .word').textContent === '0202'`);
        same('002011203', await page.text('step-cells'), 'the cell of the step');
        same('TAD A', await page.look(`document.querySelectorAll('#doings [data-step]')[1].dataset.own`), 'the statement beside the step');
        await page.click('#to-step');
        await isTold(page, 'machine-status', 'after step 2');
        await page.until(`geivottu.machine.registers.ac === '0003'`);
        same('2 steps since START', await page.text('steps'), 'the count');
        await pane(page, 'source');
        await page.click('#profile');
        await isTold(page, 'doings', 'NEVER 00203');
        same(native(['profile', 'it.bin']).toString(), await page.text('doings'), 'the profile');
        holds(await page.look(`!!document.querySelector('#listing [data-cell="00200"]').style.background`), 'the colour');
        same('1', await page.look(`document.querySelector('#listing [data-cell="00200"]').dataset.count`), 'the count, which is no colour');
        await page.fill('#text', BUSY);
        await page.click('#profile');
        await isTold(page, 'doings', '00201 64');
        const share = cell => page.look(`Number(/(\\d+)%/.exec(document.querySelector('#listing [data-cell="${cell}"]').getAttribute('style'))[1])`);
        same(100, await share('00201'), 'the colour of the dearest');
        holds(await share('00200') < 50, 'the colour of the cheapest');
    },
    'each line of a trace shows the panel as it was there, with keys and a printer': async (page, url) => {
        await page.go(url);
        await setSource(page, ECHO);
        await page.fill('#doing-keys', 'AB');
        await page.click('#trace');
        await isTold(page, 'doings', 'KEYS');
        writeFileSync(file('it.pa'), ECHO);
        native(['assemble', 'it.pa', '--output', 'it.bin']);
        const lines = native(['trace', 'it.bin', '--keys', 'AB']).toString().trim().split('\n');
        same(`${lines.join('\n')}\n`, await page.text('doings'), 'the trace');
        for (const [k, line] of lines.slice(0, -1).entries()) {
            await page.look(`document.querySelectorAll('#doings [data-step]')[${k}].click()`);
            await page.until(`document.getElementById('step-told').textContent === 'after step ${k + 1}'`);
            const word = row => page.look(`document.querySelector('[data-at-step="${row}"] .word').textContent`);
            same(/AC (\d+)/.exec(line)?.[1], await word('ac'), `AC after step ${k + 1}`);
            same((lines[k + 1].startsWith('STEPS') ? lines[k + 1].slice(-4) : lines[k + 1].slice(1, 5)), await word('pc'), `PC after step ${k + 1}`);
        }
        await page.click('#to-step');
        await isTold(page, 'machine-status', `after step ${lines.length - 1}`);
        await isTold(page, 'console', 'AB');
    },
    'switches are moved by typed octal, and by a drag': async (page, url) => {
        await page.go(url);
        await pane(page, 'machine');
        await page.fill('#switches-shown', '1234');
        await page.key('Enter');
        const switches = () => page.look(`geivottu.machine.panel.switches`);
        same(0o1234, await switches(), 'the switches that were typed');
        await page.fill('#switches-shown', '9');
        await page.key('Tab');
        same('1234', await page.look(`document.getElementById('switches-shown').value`), 'what is no word');
        await page.fill('#switches-shown', '0');
        await page.key('Enter');
        const places = await page.look(`[...document.querySelectorAll('#switch-register .switch')].map(it => { const box = it.getBoundingClientRect(); return [box.x + box.width / 2, box.y + box.height / 2]; })`);
        const mouse = (type, [x, y], buttons) => page.call('Input.dispatchMouseEvent', { type, x, y, button: 'left', buttons, clickCount: 1 });
        await mouse('mousePressed', places[9], 1);
        for (const it of [10, 11]) await mouse('mouseMoved', places[it], 1);
        await mouse('mouseReleased', places[11], 0);
        same(0o0007, await switches(), 'the switches that were dragged');
        await page.click('#switch-register .switch');
        same(0o4007, await switches(), 'the switch that was clicked');
    },
    'each pane has a link of its own': async (page, url) => {
        await page.go(url);
        for (const [k, name] of ['script', 'machine', 'teletype', 'source', 'files'].entries()) {
            await page.go(`${url}?${k}#${name}`);
            holds(await page.look(`!document.getElementById('${name}').hidden && document.getElementById('tab-${name}').getAttribute('aria-selected') === 'true'`), name);
        }
        await pane(page, 'teletype');
        same('#teletype', await page.look('location.hash'), 'the address');
    },
    'a page from a file says in words what to do': async page => {
        await page.call('Page.navigate', { url: pathToFileURL(join(resolve(process.argv[3]), 'index.html')).href });
        await page.until(`document.getElementById('trouble')?.hidden === false`);
        await isTold(page, 'trouble', 'python3 -m http.server --bind 127.0.0.1 8008');
    },
    'the page can be installed as a program': async (page, url) => {
        await page.go(url);
        await page.until(`navigator.serviceWorker.ready.then(it => !!it.active)`);
        const { errors, data, url: from } = await page.call('Page.getAppManifest'), manifest = JSON.parse(data);
        same('[]', JSON.stringify(errors), 'what is wrong in the manifest');
        holds(from.startsWith(url) && manifest.name && manifest.display === 'standalone' && manifest.icons.length > 0, data);
        const { installabilityErrors } = await page.call('Page.getInstallabilityErrors');
        same('', installabilityErrors.map(it => it.errorId).filter(it => it !== 'in-incognito').join(), 'why it can\'t be installed');
    },
    'the page works without a network once it was seen': async (page, url) => {
        await page.go(url);
        await page.until(`navigator.serviceWorker.ready.then(it => !!it.active)`);
        await page.until(`caches.open('geivottu').then(it => it.keys()).then(it => it.length > 20)`);
        await page.call('Network.emulateNetworkConditions', { offline: true, latency: 0, downloadThroughput: -1, uploadThroughput: -1 });
        await page.go(`${url}?away`);
        await press(page, 'hello');
        await isTold(page, 'paper', 'HELLO');
    },
    'at most twelve stops of Tab come before the text that is shown, and arrows go through the directory': async (page, url) => {
        await page.go(url);
        await press(page, 'disk');
        await page.until(`document.querySelectorAll('#directory tbody tr').length === 8`);
        await setSource(page, SORT);
        await page.click('#assemble');
        await isTold(page, 'source-status', 'assembled');
        const told = [];
        for (const [name, wanted] of [['files', 'shown'], ['source', 'text'], ['machine', 'console'], ['teletype', 'paper'], ['script', 'lines']]) {
            await pane(page, name);
            await page.look(`document.querySelector('.skip').focus()`);
            const stops = ['skip'];
            for (let k = 0; k < 40 && stops.at(-1) !== wanted; k++) {
                await page.key('Tab');
                stops.push(await page.look(`document.activeElement.id || document.activeElement.className || document.activeElement.textContent`));
            }
            if (stops.length - 1 > 12 || stops.at(-1) !== wanted) told.push(`${name}: ${stops.length - 1} stops of Tab: ${stops}`);
        }
        same('', told.join('; '), 'the stops of Tab');
        await pane(page, 'machine');
        await page.look(`document.querySelector('#switch-register .switch').focus()`);
        await page.key('ArrowRight');
        same('switch 1', await page.look(`document.activeElement.getAttribute('aria-label')`), 'the switch');
        await pane(page, 'files');
        await page.look(`document.querySelector('#directory button').focus()`);
        same('Name', await page.look(`document.activeElement.textContent`), 'the head');
        for (let k = 0; k < 2; k++) await page.key('ArrowDown');
        await page.key('ArrowRight');
        same('GUESS.PA save', await page.look(`document.activeElement.getAttribute('aria-label')`), 'the button');
    },
});
