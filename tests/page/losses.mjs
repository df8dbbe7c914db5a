// losses.mjs PROGRAM FOLDER [PART]: what a user could lose in the page, in headless Chromium, each test with a profile of its own. What comes
// out is compared with the native program PROGRAM. PART takes the tests whose names have it. The last line is 'N passed, M failed'.
import { randomBytes } from 'node:crypto';
import { readFileSync, writeFileSync } from 'node:fs';
import { alone, answer, assemble, create, file, further, holds, image, isTold, native, optionsOf, pane, put, removeVolume, run as runAll, same, setSource } from './tools.mjs';

const ONE = '*200\n\tCLA IAC\n\tHLT\n$\n', TWO = '*200\n\tCLA CMA\n\tHLT\n$\n', BAD = '*200\n\tTAD LIEN\n$\n';

const tests = {
    'a tape is that of the text beside it, or is marked old': async (page, url) => {
        await page.go(url);
        await create(page, 'DISK');
        await setSource(page, ONE);
        await page.click('#assemble');
        await isTold(page, 'source-status', 'assembled');
        await page.fill('#text', TWO);
        await isTold(page, 'listing-name', 'old');
        await isTold(page, 'symbols-name', 'old');
        await isTold(page, 'source-status', 'The tape is old');
        holds((await page.look(optionsOf('tape'))).includes('the source\'s, old'), 'the Teletype\'s list');
        holds((await page.look(optionsOf('core-tape'))).includes('the source\'s, old'), 'the Machine\'s list');
        await page.fill('#source-name', 'IT');
        await page.click('#to-volume');
        await isTold(page, 'source-status', 'STORED IT.BN');
        same('Listing', await page.text('listing-name'), 'the name of the listing');
        writeFileSync(file('it.pa'), TWO);
        native(['assemble', 'it.pa', '--output', 'it.bin']);
        native(['put', 'DISK', '-', '--as', 'IT.PA', '--text'], TWO);
        native(['put', 'DISK', '-', '--as', 'IT.BN'], readFileSync(file('it.bin')));
        await pane(page, 'files');
        same(readFileSync(file('DISK')), await image(page), 'the image');
    },
    'an old tape is assembled again before it goes to core, home and to the Teletype': async (page, url) => {
        await page.go(url);
        await setSource(page, ONE);
        await page.click('#assemble');
        await isTold(page, 'source-status', 'assembled');
        await page.fill('#text', TWO);
        await page.click('#to-core');
        await isTold(page, 'machine-status', 'words are in core');
        await page.until(`document.getElementById('core').textContent.startsWith('00200  7240')`);
        await setSource(page, ONE);
        writeFileSync(file('one.pa'), ONE);
        native(['assemble', 'one.pa', '--output', 'one.bin']);
        same(readFileSync(file('one.bin')), (await page.home('#tape-home')).bytes, 'the tape');
        await page.fill('#text', TWO);
        await page.click('#to-teletype');
        await page.until(`document.activeElement.id === 'tty-run'`);
        await page.click('#tty-run');
        await isTold(page, 'tty-status', 'HALT 00202 AC 7777');
        await setSource(page, BAD);
        await page.click('#to-teletype');
        await isTold(page, 'source-status', '? 5 UA 2');
        holds(await page.look(`!document.getElementById('source').hidden`), 'the pane is left');
    },
    'an old tape is assembled again before the Teletype runs it': async (page, url) => {
        await page.go(url);
        await setSource(page, ONE);
        await page.click('#assemble');
        await isTold(page, 'source-status', 'assembled');
        await page.click('#to-teletype');
        await page.until(`document.activeElement.id === 'tty-run'`);
        await setSource(page, TWO);
        await pane(page, 'teletype');
        await page.click('#tty-run');
        await isTold(page, 'tty-status', 'HALT 00202 AC 7777');
        await setSource(page, ONE);
        await pane(page, 'machine');
        await page.choose('#core-tape', 'source');
        await page.until(`document.getElementById('core').textContent.startsWith('00200  7201')`);
    },
};

Object.assign(tests, {
    'of two tabs on one volume one has it, and the other looks and follows': async (page, url) => {
        writeFileSync(file('one.tx'), 'the first\n');
        writeFileSync(file('two.tx'), 'the second\n');
        writeFileSync(file('three.tx'), 'the third\n');
        const first = await further(page, url);
        await create(first, 'DISK');
        await put(first, 'text', 'one.tx');
        await isTold(first, 'files-status', 'STORED ONE.TX');
        await page.go(url);
        await page.until(`!!document.querySelector('tr[data-name="ONE.TX"]')`);
        await isTold(page, 'follows', 'Another tab has DISK');
        holds(await first.look(`document.getElementById('follows').hidden`), 'the first tab follows');
        await put(page, 'text', 'three.tx');
        await isTold(page, 'files-status', '? HOST BUSY');
        await page.click('button[aria-label="ONE.TX delete"]');
        await page.until(`document.getElementById('files-status').textContent.includes('? HOST BUSY')`);
        await put(first, 'text', 'two.tx');
        await isTold(first, 'files-status', 'STORED TWO.TX');
        await page.until(`!!document.querySelector('tr[data-name="TWO.TX"]')`);
        await first.end();
        await page.until(`document.getElementById('follows').hidden`);
        await put(page, 'text', 'three.tx');
        await isTold(page, 'files-status', 'STORED THREE.TX');
        for (const it of ['one', 'two', 'three']) native(['put', 'DISK', '-', '--as', `${it.toUpperCase()}.TX`, '--text'], readFileSync(file(`${it}.tx`)));
        same(readFileSync(file('DISK')), await image(page), 'the image');
        await page.look('geivottu.store.settled()');
        await page.go(`${url}?again`);
        await page.until(`document.querySelectorAll('#directory tbody tr').length === 3`);
        same(readFileSync(file('DISK')), await image(page), 'the image after a reload');
    },
    'a tab that opens another volume leaves the first to the other tab': async (page, url) => {
        const first = await further(page, url);
        await create(first, 'A');
        await page.go(url);
        await isTold(page, 'follows', 'Another tab has A');
        await create(first, 'B');
        await page.until(`document.getElementById('follows').hidden`);
        await page.until(`[...document.getElementById('volume').options].some(it => it.value === 'B')`);
        writeFileSync(file('one.tx'), 'the first\n');
        await put(page, 'text', 'one.tx');
        await isTold(page, 'files-status', 'STORED ONE.TX');
        await page.choose('#volume', 'B');
        await isTold(page, 'follows', 'Another tab has B');
    },
    'of two tabs one has the text, and the other looks and follows': async (page, url) => {
        const first = await further(page, url);
        await setSource(first, ONE);
        await page.go(url);
        await pane(page, 'source');
        await isTold(page, 'text-follows', 'Another tab has the text');
        await page.until(`document.getElementById('text').value === ${JSON.stringify(ONE)}`);
        await page.fill('#text', 'LOST');
        await first.fill('#text', TWO);
        await page.until(`document.getElementById('text').value === ${JSON.stringify(TWO)}`);
        await page.click('#assemble');
        await isTold(page, 'source-status', 'assembled');
        await first.end();
        await page.until(`document.getElementById('text-follows').hidden`);
        await page.fill('#text', ONE);
        await page.look('geivottu.store.settled()');
        await page.go(`${url}?again`);
        same(ONE, await page.look(`document.getElementById('text').value`), 'the text after a reload');
    },
});

// Has the browser's store take so many bytes of the page, or as many as it would.
const room = (page, url, ...bytes) => page.call('Storage.overrideQuotaForOrigin', { origin: new URL(url).origin, ...(bytes.length ? { quotaSize: bytes[0] } : {}) });

const run = (page, source) => page.call('Page.addScriptToEvaluateOnNewDocument', { source });

// A volume that the browser's store takes as it is new, but not with a file of noise. The room is set before the page is there, since
// the browser looks at it anew only where it doesn't suffice.
async function overfill(page, url) {
    await run(page, 'delete Navigator.prototype.serviceWorker;'); // whose files take room, too
    await room(page, url, 100000);
    await page.go(url);
    await create(page, 'DISK', 900);
    await page.look('geivottu.store.settled()');
    holds(await page.look(`document.getElementById('unkept').hidden`), 'told before');
    writeFileSync(file('noise.da'), randomBytes(200000));
    await put(page, 'frames', 'noise.da');
    await isTold(page, 'unkept', 'Not kept: DISK.');
    native(['put', 'DISK', '-', '--as', 'NOISE.DA'], readFileSync(file('noise.da')));
}

Object.assign(tests, {
    'a full store is told at once, and what isn\'t kept is marked and taken home': alone(async (page, url) => {
        await overfill(page, url);
        await isTold(page, 'volume-name', 'DISK, not kept');
        same('none is open,DISK, not kept', (await page.look(optionsOf('volume'))).join(), 'the list');
        page.accepts = false;
        await page.call('Page.navigate', { url: `${url}?away` });
        same('beforeunload', page.dialogs.splice(0).join(), 'what asked');
        page.accepts = true;
        same(readFileSync(file('DISK')), (await page.home('#unkept-home')).bytes, 'the image');
        await page.go(`${url}?away`);
        same('', page.dialogs.join(), 'what asked after it was taken home');
    }),
    'what was not kept is kept once there is room': alone(async (page, url) => {
        await overfill(page, url);
        await room(page, url);
        await setSource(page, ONE);
        await page.look('geivottu.store.settled()');
        await page.until(`document.getElementById('unkept').hidden`);
        await page.go(`${url}?again`);
        same('', page.dialogs.join(), 'what asked');
        same(ONE, await page.look(`document.getElementById('text').value`), 'the text');
        await pane(page, 'files');
        same(readFileSync(file('DISK')), await image(page), 'the image');
    }),
    'a store that refuses is told at once': async (page, url) => {
        await run(page, `IDBFactory.prototype.open = () => { throw new DOMException('refused', 'SecurityError'); };`);
        await page.go(url);
        holds(await page.look(`document.getElementById('unkept').hidden`), 'told before');
        await create(page, 'DISK');
        await setSource(page, ONE);
        await isTold(page, 'unkept', 'Not kept: DISK, the text of Source.');
        await page.call('Page.navigate', { url: `${url}?away` });
        same('beforeunload', page.dialogs.join(), 'what asked');
    },
    'a store that refuses is no alarm while nothing of the visitor\'s own is there': async (page, url) => {
        await run(page, `IDBFactory.prototype.open = () => { throw new DOMException('refused', 'SecurityError'); };`);
        await page.go(url);
        await isTold(page, 'kept', 'This browser keeps nothing');
        await pane(page, 'machine');
        await page.click('button[data-run="hello"]');
        await isTold(page, 'paper', 'HELLO');
        await pane(page, 'machine');
        await page.click('button[data-run="disk"]');
        await page.until(`document.getElementById('volume').value === 'SHELF'`);
        holds(await page.look(`document.getElementById('unkept').hidden`), 'told of what is the page\'s own');
        await page.call('Page.navigate', { url: `${url}?away` });
        await page.until(`location.search === '?away' && !!document.getElementById('ready')`);
        same('', page.dialogs.join(), 'what asked');
        await setSource(page, ONE);
        await isTold(page, 'unkept', 'Not kept: the text of Source.');
    },
    'the browser is asked to keep the store once there is something to keep': async (page, url) => {
        await run(page, `window.persisted = 0; StorageManager.prototype.persist = async () => { window.persisted++; return false; };`);
        await page.go(url);
        await pane(page, 'source');
        same(0, await page.look('persisted'), 'asked before');
        await page.fill('#text', ONE);
        await page.until('persisted === 1');
        await create(page, 'DISK');
        same(1, await page.look('persisted'), 'asked');
    },
});

Object.assign(tests, {
    'before a file of that name is written over the user is asked': async (page, url) => {
        await page.go(url);
        await create(page, 'DISK');
        writeFileSync(file('one.tx'), 'the first\n');
        await put(page, 'text', 'one.tx');
        await isTold(page, 'files-status', 'STORED ONE.TX');
        native(['put', 'DISK', '-', '--as', 'ONE.TX', '--text'], 'the first\n');
        writeFileSync(file('one.tx'), 'the second\n');
        for (const tabs of [undefined, 0]) {
            await put(page, 'text', 'one.tx');
            await answer(page, 'DISK has a file ONE.TX', tabs);
            await isTold(page, 'files-status', 'ONE.TX was left as it was');
            same(readFileSync(file('DISK')), await image(page), 'the image');
            await page.look(`document.getElementById('files-status').textContent = ''`);
        }
        await put(page, 'text', 'one.tx');
        await answer(page, 'DISK has a file ONE.TX', 1);
        await isTold(page, 'files-status', 'STORED ONE.TX');
        native(['put', 'DISK', '-', '--as', 'ONE.TX', '--text'], 'the second\n');
        same(readFileSync(file('DISK')), await image(page), 'the image that is written over');
    },
    'before the text goes over a file of the volume the user is asked': async (page, url) => {
        await page.go(url);
        await create(page, 'DISK');
        await assemble(page, 'IT', ONE);
        await page.click('#to-volume');
        await isTold(page, 'source-status', 'STORED IT.BN');
        await pane(page, 'files');
        const before = await image(page);
        await setSource(page, TWO);
        await page.click('#to-volume');
        await answer(page, 'DISK has a file IT.PA', 0);
        await answer(page, 'DISK has a file IT.BN', 0);
        await isTold(page, 'source-status', 'IT.BN was left as it was');
        await pane(page, 'files');
        same(before, await image(page), 'the image');
    },
    'before a volume of that name is written over the user is asked': async (page, url) => {
        const volumes = `[...document.getElementById('volume').options].slice(1).map(it => it.value).join()`;
        await page.go(url);
        await create(page, 'DISK');
        native(['put', 'DISK', '-', '--as', 'ONE.TX', '--text'], 'the first\n');
        const old = readFileSync(file('DISK'));
        await page.give('#image', file('DISK'));
        await answer(page, 'There is a volume DISK', 1);
        await page.until(`!!document.querySelector('tr[data-name="ONE.TX"]')`);
        same(old, await image(page), 'the image that is written over');
        await page.click('#create');
        await answer(page, 'There is a volume DISK');
        await page.click('#create');
        await answer(page, 'There is a volume DISK', 0);
        await page.until(`document.getElementById('volume').value === 'DISK-2'`);
        same('DISK,DISK-2', await page.look(volumes), 'the volumes');
        await page.choose('#volume', 'DISK');
        await page.until(`!!document.querySelector('tr[data-name="ONE.TX"]')`);
        same(old, await image(page), 'the image that is left');
        await page.give('#image', file('DISK'));
        await answer(page, 'There is a volume DISK', 2);
        same('DISK,DISK-2', await page.look(volumes), 'the volumes');
    },
});

// Counts the runs that live, from now on, in `begun`.
const count = page => page.look(`(() => { const { programs } = geivottu, { begin } = programs; window.begun = 0;
    programs.begin = (...them) => { window.begun++; return begin.apply(programs, them); }; })()`);
const clickTwice = (page, id) => page.look(`document.getElementById('${id}').click(); document.getElementById('${id}').click()`);

Object.assign(tests, {
    'a volume that a session holds is not removed': async (page, url) => {
        await page.go(url);
        await create(page, 'DISK');
        await pane(page, 'script');
        await page.choose('#script-saving', '--keep');
        await page.click('#session');
        await page.until(`!document.getElementById('entry-line').disabled`);
        await pane(page, 'files');
        await page.click('#drop-image');
        await isTold(page, 'files-status', '? HOST BUSY');
        same('DISK', await page.look(`document.getElementById('volume').value`), 'the volume');
        same('', page.dialogs.join(), 'what asked');
        await pane(page, 'script');
        await page.click('#session');
        await isTold(page, 'script-status', 'status 0');
        await pane(page, 'files');
        await removeVolume(page);
        await page.until(`document.getElementById('volume').value === ''`);
        same('', page.dialogs.join(), 'what the browser asked');
    },
    'a tab that follows can\'t remove the volume, and sees that it was removed': async (page, url) => {
        const first = await further(page, url);
        await create(first, 'DISK');
        await page.go(url);
        await isTold(page, 'follows', 'Another tab has DISK');
        await page.click('#drop-image');
        await isTold(page, 'files-status', '? HOST BUSY');
        await removeVolume(first);
        await page.until(`![...document.getElementById('volume').options].some(it => it.value === 'DISK')`);
        await page.until(`document.getElementById('follows').hidden && document.getElementById('volume-view').hidden`);
    },
    'Run clicked twice is one run': async (page, url) => {
        await page.go(url);
        await create(page, 'DISK');
        await setSource(page, '*200\n\tTAD A\n\tTLS\n\tTSF\n\tJMP .-1\n\tHLT\nA,\t301\n$\n');
        await page.click('#assemble');
        await isTold(page, 'source-status', 'assembled');
        await page.click('#to-teletype');
        await page.until(`document.activeElement.id === 'tty-run'`);
        await count(page);
        await clickTwice(page, 'tty-run');
        await isTold(page, 'tty-status', 'HALT 00205');
        await isTold(page, 'paper', 'A');
        same(1, await page.look('begun'), 'runs at the Teletype');
        same('A', await page.text('paper'), 'the paper');
        await pane(page, 'script');
        await page.fill('#lines', 'STORE A 1\nX\nDIRECT\n');
        await page.look('begun = 0');
        await clickTwice(page, 'script-run');
        await isTold(page, 'script-status', 'status 0');
        same(1, await page.look('begun'), 'runs of the script');
        same(native(['run', 'DISK'], 'STORE A 1\nX\nDIRECT\n').toString(), await page.text('replies'), 'the replies');
        await page.click('#script-run');
        await page.until('begun === 2');
    },
});

await runAll('losses', tests);
