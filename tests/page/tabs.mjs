// tabs.mjs PROGRAM FOLDER [PART]: two tabs of the page, of which one has each kind of state, and the other follows or takes it. As losses.mjs otherwise.
import { pause } from './browser.mjs';
import { further, holds, isTold, pane, run, same, setSource, toCore } from './tools.mjs';

const ECHO = '*200\nA,\tKSF\n\tJMP A\n\tKRB\n\tTLS\n\tTSF\n\tJMP .-1\n\tJMP A\n$\n';
const value = (page, id) => page.look(`document.getElementById('${id}').value`);
const isSeen = (page, id) => page.look(`document.getElementById('${id}').checkVisibility()`);

// Two tabs, of which the first has all.
async function two(page, url) {
    const first = await further(page, url);
    await page.go(`${url}?second`);
    return first;
}

await run('tabs', {
    'a script is typed in one tab, and the other follows': async (page, url) => {
        const first = await two(page, url);
        await pane(first, 'script');
        await pane(page, 'script');
        await isTold(page, 'script-follows', 'Another tab has the script');
        await first.fill('#lines', 'DIRECT\n');
        await page.until(`document.getElementById('lines').value === 'DIRECT\\n'`);
        await page.fill('#lines', 'LOST');
        same('DIRECT\n', await value(page, 'lines'), 'the script that is followed');
        await page.look(`geivottu.store.note('lines', 'LOST')`);
        await page.look('geivottu.store.settled()');
        same('DIRECT\n', await first.look(`geivottu.store.notes.get('lines')`), 'the script of the first');
        await first.fill('#lines', 'DIRECT\nREGISTERS\n');
        await page.until(`document.getElementById('lines').value === 'DIRECT\\nREGISTERS\\n'`);
        await first.go(`${url}?again`);
        same('DIRECT\nREGISTERS\n', await value(first, 'lines'), 'the script after a reload');
        await page.until(`document.getElementById('script-follows').hidden`);
        same('DIRECT\nREGISTERS\n', await page.look(`geivottu.store.notes.get('lines')`), 'the script of the tab that has it now');
    },
    'one tab has the machine, and the other takes it as it is': async (page, url) => {
        const first = await two(page, url);
        await toCore(first, ECHO);
        await first.look(`document.querySelector('[data-cell="00205"] button').click()`);
        await isTold(first, 'machine-status', 'BREAK 00205 ON');
        await pane(page, 'machine');
        await isTold(page, 'machine-follows', 'Another tab has the machine');
        holds(!await isSeen(page, 'panel'), 'a panel is shown that can\'t be worked');
        same(null, await page.look(`geivottu.machine.living.lines`), 'a machine of the tab that follows');
        await page.look(`geivottu.machine.renew()`);
        await first.look(`document.getElementById('console').focus()`);
        await first.click('#key-start');
        await first.look(`document.getElementById('console').focus()`);
        await first.keys('A');
        await isTold(first, 'machine-status', 'BREAK 00205');
        await first.until(`document.getElementById('console').textContent === 'A'`);
        await page.click('#machine-follows button');
        await page.until(`document.getElementById('machine-follows').hidden`);
        await isTold(first, 'machine-follows', 'Another tab has the machine');
        await page.until(`document.querySelector('#code .at')?.dataset.cell === '00205'`);
        same('A', await page.text('console'), 'the paper');
        same('true', await page.look(`document.querySelector('[data-cell="00205"] button').getAttribute('aria-pressed')`), 'the break');
        await page.go(`${url}?third`);
        await isTold(page, 'machine-follows', 'Another tab has the machine');
        await first.until(`document.querySelector('#code .at')?.dataset.cell === '00205'`);
    },
    'a machine that goes is taken, and goes on': async (page, url) => {
        const first = await two(page, url);
        await toCore(first, ECHO);
        await first.click('#key-start');
        await first.until('geivottu.machine.steps > 0');
        await pane(page, 'machine');
        await page.click('#machine-follows button');
        await page.until('geivottu.machine.isGoing');
        holds(!await first.look('geivottu.machine.isGoing'), 'the first goes on');
        await page.look(`document.getElementById('console').focus()`);
        await page.keys('B');
        await isTold(page, 'console', 'B');
        await page.click('#key-stop');
    },
    'a page that begins before the one before it is gone has what that wrote last': async (page, url) => {
        const first = await further(page, url), deaf = `Object.defineProperty(BroadcastChannel.prototype, 'onmessage', { set() {} });`;
        await setSource(first, 'THE FIRST\n');
        await page.call('Page.addScriptToEvaluateOnNewDocument', { source: `${deaf} navigator.locks.query = () => new Promise(() => {});` });
        await page.call('Page.navigate', { url: `${url}?second#source` });
        await first.until(`navigator.locks.query().then(({ pending }) => pending.some(it => it.name === 'geivottu text'))`);
        await pause(500);
        await first.fill('#text', 'THE LAST\n');
        await first.end();
        await page.until(`!!document.getElementById('ready')`);
        same('THE LAST\n', await value(page, 'text'), 'the text');
    },
    'what a machine has printed comes to the other tab with the machine': async (page, url) => {
        const first = await two(page, url);
        await page.look(`window.news = []; window.ear = new BroadcastChannel('geivottu'); ear.onmessage = ({ data }) => news.push((data.news ?? []).map(([, key]) => key)); 0`);
        await toCore(first, ECHO);
        await first.click('#key-start');
        await first.look(`document.getElementById('console').focus()`);
        await first.keys('A');
        await isTold(first, 'console', 'A');
        await page.until(`news.some(it => it.includes('console'))`);
        same('[]', await page.look(`JSON.stringify(news.filter(it => it.includes('console') && !['machine', 'printed'].every(key => it.includes(key))))`), 'a paper without its machine');
        await first.click('#key-stop');
    },
    'the shelf and a new text take what they need from the other tab': async (page, url) => {
        const first = await two(page, url);
        await setSource(first, '*200\n$\n');
        await first.fill('#source-name', 'MINE');
        await first.key('Tab');
        await page.until(`document.getElementById('source-name').value === 'MINE'`);
        await pane(page, 'machine');
        await page.click('button[data-run="hello"]');
        await isTold(page, 'paper', 'HELLO');
        await isTold(first, 'text-follows', 'Another tab has the text');
        same('HELLO', await value(first, 'source-name'), 'the text that the first follows');
        await first.until(`document.getElementById('paper').textContent.includes('HELLO')`);
        await pane(page, 'source');
        await page.choose('#texts', 'MINE');
        same('*200\n$\n', await value(page, 'text'), 'the text of the first');
    },
    'each tab undoes what was done in it, and what was done in a closed one comes to the next': async (page, url) => {
        const first = await two(page, url), added = (it, name) => it.look(`(async () => { await geivottu.files.add('${name}', await geivottu.files.blank('20'), ''); })()`);
        const listed = it => it.look(`[document.getElementById('undo').title, geivottu.undo.count].join()`), images = it => it.look('geivottu.files.images.join()');
        await added(first, 'ONE');
        await added(page, 'TWO');
        same('the new volume ONE,1', await listed(first), 'what the first can undo');
        same('the new volume TWO,1', await listed(page), 'what the second can undo');
        await page.look('geivottu.store.settled()');
        await page.go(`${url}?third`);
        same('the new volume TWO,1', await listed(page), 'what the second can undo after a reload');
        await page.click('#undo');
        await page.until(`!geivottu.store.files.has('TWO')`);
        await first.until(`geivottu.files.images.join() === 'ONE'`);
        await added(page, 'THREE');
        await first.look('geivottu.store.settled()');
        await first.end();
        same('the new volume THREE,1', await listed(page), 'what the second can undo after the first is closed');
        await page.go(`${url}?fourth`);
        same('the new volume THREE,2', await listed(page), 'what the second can undo then');
        for (const [it, left] of [['THREE', 'ONE'], ['ONE', '']]) {
            await page.click('#undo');
            await page.until(`!geivottu.store.files.has('${it}')`);
            same(left, await images(page), 'the volumes');
        }
        same('0', await page.look(`String([...geivottu.store.notes.keys()].filter(it => it.startsWith('undo') && !it.startsWith(geivottu.undo.list)).length)`), 'lists of other tabs');
    },
    'each tab has its own pane and volume after a reload': async (page, url) => {
        const first = await further(page, url);
        await pane(first, 'script');
        await page.go(url);
        await pane(page, 'source');
        await first.go(`${url}?again`);
        same('script', await first.look('geivottu.tabs.shown'), 'the pane');
    },
});
