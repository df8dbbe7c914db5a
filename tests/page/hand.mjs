// hand.mjs PROGRAM FOLDER [PART]: nothing moves under the hand of who works the page, and nothing is written over unasked. As losses.mjs otherwise.
import { writeFileSync } from 'node:fs';
import { create, file, holds, isTold, native, pane, put, answer, run, same, setSource } from './tools.mjs';

const COUNT = '*200\n\tCLA CLL\nA,\tISZ B\n\tJMP A\n\tIAC\n\tHLT\nB,\t7700\n$\n', BAD = '*200\n\tTAD ONE\n\tTAD TWO\n\tTAD THREE\n\tTAD FOUR\n\tTAD FIVE\n\tTAD SIX\n\tHLT\n$\n';
const PANES = ['machine', 'files', 'source', 'teletype', 'script'];
// The controls of a pane that can be clicked; of those alike, which have no name of their own, the first two of each box.
const CONTROLS = name => `(() => { const alike = {}; window.controls = [...document.querySelectorAll('#${name} :is(button, select, summary, label.button, input:not([type=file]))')]
    .filter(it => it.checkVisibility() && !it.disabled && (it.id || (alike[it.closest('[id]').id + it.className] = (alike[it.closest('[id]').id + it.className] ?? 0) + 1) <= 2)); return window.controls.length; })()`;
// Where a control is in the window, and how far that is scrolled; null where it can't be clicked any more.
const PLACE = k => `(() => { const it = controls[${k}]; if (!it.isConnected || !it.checkVisibility() || it.disabled) return null;
    const { x, y, width, height } = it.getBoundingClientRect(); return { x: x + width / 2, y: y + height / 2, text: [Math.round(x), Math.round(y), Math.round(scrollY)].join(' '), words: it.id || it.textContent, isList: it.tagName === 'SELECT', options: it.options?.length }; })()`;
const top = (page, id) => page.look(`Math.round(document.getElementById('${id}').getBoundingClientRect().top + scrollY)`);

async function assemble(page, text) {
    await setSource(page, text);
    await page.click('#assemble');
    await isTold(page, 'source-status', 'assembled');
}

// Clicks a control of a list ten times, or chooses from it, and gives in words whether it moved, or the window.
async function movedBy(page, k, name) {
    await page.look(`controls[${k}].isConnected && controls[${k}].scrollIntoView({ block: 'center' }); new Promise(go => requestAnimationFrame(() => requestAnimationFrame(go)))`);
    const first = await page.look(PLACE(k));
    if (!first) return '';
    for (let turn = 0; turn < 10; turn++) {
        if (first.isList) await page.look(`(() => { const it = controls[${k}]; it.selectedIndex = ${turn % Math.max(1, first.options)}; it.dispatchEvent(new Event('change', { bubbles: true })); })()`);
        else for (const type of ['mouseMoved', 'mousePressed', 'mouseReleased']) await page.call('Input.dispatchMouseEvent', { type, x: first.x, y: first.y, button: type === 'mouseMoved' ? 'none' : 'left', clickCount: 1 });
        await page.until(`!geivottu.programs.isAsked && !geivottu.shelf.isBusy && new Promise(go => requestAnimationFrame(() => requestAnimationFrame(() => go(true))))`);
        if (await page.look(`document.getElementById('question').open`)) await page.key('Escape');
        if (await page.look(`geivottu.tabs.shown`) !== name) return void await page.look(`geivottu.tabs.show('${name}')`) ?? '';
        const now = await page.look(PLACE(k));
        if (!now) return '';
        if (now.text !== first.text) return `${name}: ${first.words} was at ${first.text}, and after ${turn + 1} clicks at ${now.text}`;
    }
    return '';
}

// What has the focus as Tab goes through a pane, and where it is in the page.
async function stopsOf(page, name) {
    await pane(page, name);
    await page.look(`scrollTo(0, 0); document.querySelector('.skip').focus()`);
    const all = [];
    for (let k = 0; k < 90; k++) {
        if (await page.look(`document.activeElement.id === 'text'`)) await page.key('Escape');
        await page.key('Tab');
        const stop = await page.look(`(() => { const it = document.activeElement; if (it === document.body || it.matches('.skip')) return null;
            const box = (it.closest('label.button') ?? it).getBoundingClientRect(); return { name: it.id || it.textContent, left: box.left, right: box.right, top: box.top + scrollY, bottom: box.bottom + scrollY }; })()`);
        if (!stop) break;
        all.push(stop);
    }
    return all;
}

// Clicks at the place where a control is now, whatever stands there later.
async function clickAt(page, id, times) {
    const { x, y } = await page.look(`(() => { const box = document.getElementById('${id}').getBoundingClientRect(); return { x: box.x + box.width / 2, y: box.y + box.height / 2 }; })()`);
    for (let k = 1; k <= times; k++) {
        for (const type of ['mouseMoved', 'mousePressed', 'mouseReleased']) await page.call('Input.dispatchMouseEvent', { type, x, y, button: type === 'mouseMoved' ? 'none' : 'left', clickCount: 1 });
        await page.until(`geivottu.machine.steps === ${k} || document.elementFromPoint(${x}, ${y}).id !== '${id}'`);
    }
}

await run('hand', {
    'single steps scroll no window, and each click is a step': async (page, url) => {
        await page.size(1280, 400); // the listing is out of sight
        await page.go(url);
        await assemble(page, `${'/ A LINE\n'.repeat(200)}${COUNT}`);
        await page.click('#to-core');
        await isTold(page, 'machine-status', 'words are in core');
        await page.until(`!!document.querySelector('#code .at')`);
        await page.look(`document.getElementById('key-step').scrollIntoView({ block: 'end' })`);
        const before = await page.look('scrollY');
        await clickAt(page, 'key-step', 6);
        await page.until(`(() => { const box = document.getElementById('code').getBoundingClientRect(), line = document.querySelector('#code .at').getBoundingClientRect();
            return line.top >= box.top - 1 && line.bottom <= box.bottom + 1; })()`);
        same(6, await page.look('geivottu.machine.steps'), 'the steps');
        same(before, await page.look('scrollY'), 'how far the window is scrolled');
    },
    'faults, help and what is said have their places': async (page, url) => {
        await page.go(url);
        await pane(page, 'source');
        await assemble(page, COUNT);
        const places = async () => (await Promise.all(['text', 'listing', 'symbols-name', 'trace'].map(it => top(page, it)))).join(), before = await places();
        await page.fill('#text', BAD);
        await page.until(`document.querySelectorAll('#faults li').length === 6`);
        same(before, await places(), 'the places beside six faults');
        await page.fill('#text', '*200\n\tCLL CLA CMA CML IAC RTL; SZA SNL CLA OSR HLT; SMA SZA CLA; RAR; ISZ 300; JMS I 300\n$\n');
        await page.look(`document.getElementById('text').setSelectionRange(6, 6)`);
        await page.key('ArrowRight');
        await page.until(`document.getElementById('listing-help').textContent.length > 200`);
        same(before, await places(), 'the places beside a long help');
        await create(page, 'DISK');
        const files = await top(page, 'volume-name');
        writeFileSync(file('one.tx'), '\u0080');
        await put(page, 'text', 'one.tx');
        await isTold(page, 'files-status', 'BAD TEXT');
        same(files, await top(page, 'volume-name'), 'the place of the volume beside a refusal');
    },
    'a key in a text of 15,000 lines makes few nodes anew': async (page, url) => {
        await page.go(url);
        await setSource(page, COUNT);
        await page.look(`(() => { const it = document.getElementById('text');
            it.value = '\\tCLA /' + 'A LINE\\n\\tCLA /'.repeat(15000);
            for (let k = 0; k < 4; k++) {
                it.setRangeText('\\n', 10, 10, 'end');
                it.dispatchEvent(new Event('input', { bubbles: true }));
            } })()`);
        const numbers = () => page.look(`document.getElementById('gutter').textContent.trim().split('\\n')`), above = await numbers();
        same('1', above[0], 'the first number');
        holds(above.length < 200, `there are ${above.length} numbers of lines`);
        await page.look(`document.getElementById('text').scrollTop = 1e7; new Promise(requestAnimationFrame)`);
        await page.until(`document.getElementById('gutter').textContent.trim().split('\\n').at(-1) === '15005'`);
        const apart = await page.look(`(() => { const line = parseFloat(getComputedStyle(document.getElementById('text')).lineHeight), gutter = document.getElementById('gutter'), text = document.getElementById('text');
            const first = Number(gutter.textContent.trim().split('\\n')[0]); return Math.abs((first - 1) * line + gutter.scrollTop - text.scrollTop); })()`);
        holds(apart < 3, `the numbers stand ${apart} pixels from their lines`);
    },
    'a refusal of the page, and what another tab has, lie over it': async (page, url) => {
        await page.go(url);
        for (const [name, ...ids] of [['machine', 'panel', 'console', 'code'], ['source', 'text', 'listing', 'trace'], ['teletype', 'paper', 'tty-run'], ['script', 'lines', 'script-run']]) {
            await pane(page, name);
            const places = async () => (await Promise.all(ids.map(it => top(page, it)))).join(), before = await places();
            await page.look(`geivottu.tell('Words.'); for (const it of document.querySelectorAll('#notices > *, #${name}:not(#machine) > .note')) { it.hidden = false; it.append('Words.'); }`);
            same(before, await places(), `the places of ${name} beside what is said`);
            await page.look(`for (const it of document.querySelectorAll('#notices > *, #${name} > .note')) it.hidden = true`);
        }
    },
    'each control stays where it was clicked, ten times over': async (page, url) => {
        await page.call('Page.setInterceptFileChooserDialog', { enabled: true });
        await page.size(1280, 600);
        await page.go(url);
        await create(page, 'DISK');
        writeFileSync(file('one.tx'), 'A LINE\n'.repeat(60));
        writeFileSync(file('two.tx'), 'TWO\n');
        await put(page, 'text', 'one.tx', 'two.tx');
        writeFileSync(file('it.pa'), COUNT);
        native(['assemble', 'it.pa', '--output', 'it.bn']);
        await put(page, 'frames', 'it.bn');
        await page.click('button[aria-label="IT.BN in its best form"]');
        await page.until(`!document.getElementById('shown-how').hidden`);
        await assemble(page, COUNT);
        await page.click('#to-core');
        await isTold(page, 'machine-status', 'words are in core');
        await page.click('#key-start');
        await isTold(page, 'machine-status', 'HALT');
        const moved = [];
        for (const name of PANES) {
            await pane(page, name);
            const count = await page.look(CONTROLS(name));
            holds(count > 3, `${name} has ${count} controls`);
            for (let k = 0; k < count; k++) moved.push(await movedBy(page, k, name));
        }
        same('', moved.filter(it => it).join('; '), 'what moved');
    },
    'the order of Tab is that of the eye, wide and narrow': async (page, url) => {
        await page.go(url);
        await create(page, 'DISK');
        await put(page, 'text', (writeFileSync(file('one.tx'), 'A LINE\n'), 'one.tx'));
        await assemble(page, COUNT);
        const back = [];
        for (const [width, height] of [[1280, 600], [390, 844]]) {
            await page.size(width, height);
            for (const name of PANES) {
                const all = await stopsOf(page, name);
                holds(all.length > 6, `${name} has ${all.length} stops`);
                for (const [k, it] of all.entries()) {
                    const last = all[k - 1];
                    // before it, as one reads: in a line above and not in a column to the right, or left of it in its line
                    if (last && (it.bottom <= last.top + 4 ? it.left < last.right - 4 : it.top < last.bottom - 4 && it.right <= last.left + 4)) back.push(`${name}, ${width} wide: from ${last.name} back to ${it.name}`);
                }
            }
        }
        same('', back.join('; '), 'where Tab goes back');
    },
    'the example of Script writes over no file unasked': async (page, url) => {
        await page.go(url);
        await create(page, 'DISK');
        native(['put', 'DISK', '-', '--as', 'HELLO.PA', '--text'], 'mine\n');
        await page.give('#image', file('DISK'));
        await answer(page, 'There is a volume DISK', 1);
        await page.until(`!!document.querySelector('tr[data-name="HELLO.PA"]')`);
        await pane(page, 'script');
        await page.click('#script-run');
        await answer(page, 'The example writes over HELLO.PA of DISK', 0);
        same('', await page.text('replies'), 'the replies');
        await page.click('#script-run');
        await answer(page, 'The example writes over HELLO.PA of DISK', 1);
        await isTold(page, 'script-status', 'status 0');
        await page.click('#undo');
        await isTold(page, 'script-status', 'Undone: the script');
        await pane(page, 'files');
        await page.click('button[aria-label="HELLO.PA show as a text"]');
        await isTold(page, 'shown', 'mine');
    },
});
