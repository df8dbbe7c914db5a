// pictures.mjs PROGRAM FOLDER [PART..]: makes pictures of each pane at work in target/pictures/, wide, low and narrow, light and dark, to be looked at.
// Those that the documents show go to docs/pictures/ too. As losses.mjs otherwise.
import { copyFileSync, mkdirSync, readFileSync, writeFileSync } from 'node:fs';
import { dirname, join } from 'node:path';
import { fileURLToPath } from 'node:url';
import { pause } from './browser.mjs';
import { assemble, file, isTold, native, pane, run } from './tools.mjs';

const top = dirname(dirname(dirname(fileURLToPath(import.meta.url)))), to = process.env.PICTURES ?? join(top, 'target/pictures'), docs = join(top, 'docs/pictures');
const GUESS = readFileSync(join(top, 'examples/guess.pa'), 'latin1');
const SCRIPT = 'STORE S.PA 4\n*200\n\tCLA IAC\n\tHLT\n$\nASSEMBLE S.BN<S.PA\nFINISH\nLOAD S.BN\nFINISH\nRUN 00200 10\nREGISTERS\nNONSENSE\nDIRECT\n';
// What the documents show.
const SHOWN = ['files', 'machine'];

/** @typedef {import('./tools.mjs').Page} Page */

/** @param {Page} page @param {string} name */
async function shot(page, name) {
    mkdirSync(to, { recursive: true });
    await page.look('scrollTo(0, 0)');
    await pause(250);
    await page.picture(join(to, `${name}.png`));
}

// A volume of the host with the examples and their tapes.
/** @param {string} name @param {number} blocks */
function laid(name, blocks) {
    native(['create', name, String(blocks)]);
    for (const [it, date] of [['hello', '1971-05-03'], ['guess', '1974-03-12'], ['sort', '1974-03-14'], ['lights', '1977-11-30']]) {
        copyFileSync(join(top, `examples/${it}.pa`), file(`${it}.pa`));
        native(['assemble', `${it}.pa`, '--output', `${it}.bn`]);
        native(['put', name, `${it}.pa`, '--text', '--date', date]);
        native(['put', name, `${it}.bn`, '--date', date]);
    }
}

/** @param {Page} page @param {string} name @param {string} volume */
async function opens(page, name, volume) {
    await pane(page, 'files');
    await page.give('#image', file(name));
    await page.until(`document.getElementById('volume').value === '${volume}'`);
    await page.until(`(all => all.length && all.every(it => it.textContent !== ''))([...document.querySelectorAll('#directory .kind')]) || !document.getElementById('damage').hidden`);
}

/** @param {Page} page */
async function disk(page) {
    laid('A', 3248);
    writeFileSync(file('GAMES.RK05'), Buffer.concat([readFileSync(file('A')), readFileSync(file('A'))]));
    await opens(page, 'GAMES.RK05', 'GAMES.RK05 1');
    await page.click('button[aria-label="GUESS.PA in its best form"]');
    await isTold(page, 'shown', 'GUESS');
}

// A volume whose directory is damaged, with a file that is taken out.
/** @param {Page} page */
async function damaged(page) {
    laid('OLD', 200);
    native(['delete', 'OLD', 'SORT.PA']);
    const bytes = readFileSync(file('OLD'));
    bytes[2 * 258] = 7;
    writeFileSync(file('OLD'), bytes);
    await opens(page, 'OLD', 'OLD');
    await isTold(page, 'rescued', 'RESCUED');
    await isTold(page, 'texts-told', 'texts');
}

/** @param {Page} page */
async function lights(page) {
    await page.look(`void geivottu.shelf.run('lights')`);
    await page.until('geivottu.machine.isGoing');
    await page.fill('#watch', 'SHOWN TIMES 00245');
    await page.look(`document.querySelector('#code [data-cell="00226"] button').focus()`);
    await pause(2500);
}

// The game, as far as a second try.
/** @param {Page} page */
async function plays(page) {
    await page.look(`void geivottu.shelf.run('guess')`);
    for (const line of ['ADA\n', '50\n', '90\n']) {
        await page.until(`/[?] $/.test(document.getElementById('console').textContent)`);
        await page.keys(line);
        await pause(200);
    }
}

/** @param {Page} page */
async function scripts(page) {
    native(['create', 'DISK', '90']);
    await pane(page, 'files');
    await page.give('#image', file('DISK'));
    await page.until(`document.getElementById('volume').value === 'DISK'`);
    await pane(page, 'script');
    await page.fill('#lines', SCRIPT);
    await page.click('#script-run');
    await isTold(page, 'script-status', 'status 0');
}

// Each pane at work, by its name.
/** @type {Record<string, (page: Page) => Promise<unknown>>} */
const PANES = {
    first: async () => {},
    files: disk,
    source: async page => { await assemble(page, 'GUESS', GUESS); await page.click('#trace'); await isTold(page, 'doings', 'KEYS'); },
    faults: async page => {
        await assemble(page, 'GUESS', GUESS);
        await page.look(`(() => { const it = document.getElementById('text'); it.value = it.value.replaceAll('TAD', 'TAD LIEN+'); it.dispatchEvent(new Event('input')); })()`);
        await page.click('#assemble');
        await isTold(page, 'source-status', '? 5');
    },
    machine: lights,
    stopped: async page => {
        await lights(page);
        await page.click('#key-stop');
        await isTold(page, 'machine-status', 'stopped by the key');
    },
    game: plays,
    teletype: async page => { await page.look(`void geivottu.shelf.run('guess8')`); await isTold(page, 'paper', 'NAME?'); await page.keys('ADA\n'); await isTold(page, 'paper', 'GUESS?'); },
    script: scripts,
    damaged: async page => { await damaged(page); await page.look(`geivottu.files.dump.show(1)`); await page.click('#dump [data-word="2"]'); },
    search: async page => {
        await disk(page);
        laid('OLD', 200);
        await opens(page, 'OLD', 'OLD');
        await page.click('#search summary');
        await page.fill('#search-name', '*.PA');
        await page.fill('#search-text', 'TLS');
        await page.key('Enter');
        await page.until(`!document.getElementById('search-found').hidden`);
    },
};
const SIZES = [[1280, 800], [1280, 600], [390, 844]];

/** @type {import('./tools.mjs').Tests} */
const tests = {};
for (const [name, works] of Object.entries(PANES)) {
    tests[name] = async (page, url) => {
        await page.size(1280, 800);
        await page.go(`${url}?`);
        await works(page);
        for (const [width, height] of SIZES) {
            await page.size(width, height);
            for (const scheme of ['light', 'dark']) {
                await page.scheme(scheme);
                await shot(page, `${name}-${width}x${height}-${scheme}`);
            }
        }
        if (SHOWN.includes(name)) copyFileSync(join(to, `${name}-1280x800-light.png`), join(docs, `${name}.png`));
    };
}
await run('pictures', tests);
