// What the tests of the page share: each test has a tab with a profile of its own, a folder of the host, and the native program beside it.
import { spawnSync } from 'node:child_process';
import { mkdtempSync, rmSync } from 'node:fs';
import { tmpdir } from 'node:os';
import { join, resolve } from 'node:path';
import { Browser, serve } from './browser.mjs';

const [program, folder] = process.argv.slice(2, 4).map(it => resolve(it));
const only = process.argv.slice(4);
let work = '', noted = '';

// Programs of a disk that boots, from cell 00031 on. They print each key, count it in 00061, and write the cells 00000 to 00177 to the sector that is
// given in 00063. H halts. The second one goes on for ever after a first key.
export const COUNTS = [0o6031, 0o5031, 0o6036, 0o6046, 0o1060, 0o7650, 0o7402, 0o2061, 0o7000, 0o1062, 0o6746, 0o6744, 0o1063, 0o6743, 0o6741, 0o5047, 0o5031, 0, 0, 0, 0, 0, 0, 0o7470, 0, 0o4100];
export const LOOPS = [...COUNTS.slice(0, 16), 0o5051, ...COUNTS.slice(17)];

/** @typedef {import('./browser.mjs').Browser} Page */
/** @typedef {((page: Page, url: string) => Promise<unknown>) & { isAlone?: boolean }} Test */
/** @typedef {Record<string, Test>} Tests */
/** @typedef {{ name: string, body: (page: Page, server: { url: string, asked: string[] }) => Promise<unknown> }} Turn */

// A file of the host in the test's folder.
/** @param {string} name */
export const file = name => join(work, name);

// What the native program writes to standard output.
/** @param {string[]} words @param {string | Uint8Array} [input] */
export const native = (words, input = '') => spawnSync(program, words, { cwd: work, input, maxBuffer: 1 << 28 }).stdout;

/** @param {Page} page @param {string} id @param {string} part */
export const isTold = (page, id, part) => page.until(`document.getElementById('${id}').textContent.includes(${JSON.stringify(part)})`);
/** @param {Page} page @param {string} name */
export const pane = (page, name) => page.click(`#tab-${name}`);
/** @param {string} id */
export const optionsOf = id => `[...document.getElementById('${id}').options].map(it => it.textContent)`;

/** @param {unknown} wanted @param {any} got @param {string} what */
export function same(wanted, got, what) {
    const equal = Buffer.isBuffer(wanted) ? wanted.equals(Buffer.from(got)) : wanted === got;
    if (!equal) throw new Error(`${what}: wanted ${show(wanted)}, got ${show(got)}`);
}

/** @param {unknown} it */
function show(it) { return Buffer.isBuffer(it) ? `${it.length} bytes ${it.subarray(0, 40).toString('hex')}` : JSON.stringify(it); }

/** @param {unknown} it @param {string} what */
export function holds(it, what) { if (!it) throw new Error(what); }

// The image of the volume that is open, and its name.
/** @param {Page} page */
export const image = async page => (await page.home('#take-image')).bytes;
/** @param {Page} page */
export const volume = page => page.look(`document.getElementById('volume').value`);

// A further tab with the page.
/** @param {Page} page @param {string} url */
export async function further(page, url) {
    const it = await page.tab();
    await it.go(url);
    return it;
}

// A further user, with a profile of its own.
/** @param {Page} page */
export const stranger = page => /** @type {Page} */ (page.browser ?? page).user();

// A new volume in the page, and the same natively.
/** @param {Page} page @param {string} name @param {number} [blocks] */
export async function create(page, name, blocks = 90) {
    await pane(page, 'files');
    await page.fill('#new-name', name);
    await page.fill('#new-blocks', String(blocks));
    await page.click('#create');
    await isTold(page, 'files-status', `CREATED ${blocks}`);
    await page.until(`document.getElementById('volume').value === '${name}'`);
    native(['create', name, String(blocks)]);
}

/** @param {Page} page @param {string} text */
export async function setSource(page, text) {
    await pane(page, 'source');
    await page.fill('#text', text);
}

// A text whose tape is in core.
/** @param {Page} page @param {string} text */
export async function toCore(page, text) {
    await setSource(page, text);
    await page.click('#assemble');
    await isTold(page, 'source-status', 'assembled');
    await page.click('#to-core');
    await isTold(page, 'machine-status', 'words are in core');
}

// A text of this name, and its tape.
/** @param {Page} page @param {string} name @param {string} text */
export async function assemble(page, name, text) {
    await setSource(page, text);
    await page.fill('#source-name', name);
    await page.click('#assemble');
    await isTold(page, 'source-status', 'assembled');
}

// Puts files into the volume that is open.
/** @param {Page} page @param {string} form @param {...string} names */
export async function put(page, form, ...names) {
    await pane(page, 'files');
    await page.choose('#put-as', form);
    await page.give('#put', ...names.map(file));
}

// Waits for a question of the page with these words, and answers by keys: so many times Tab, and Enter; or Escape.
/** @param {Page} page @param {string} words @param {number} [tabs] */
export async function answer(page, words, tabs) {
    await page.until(`document.getElementById('question').open && document.getElementById('question-words').textContent.includes(${JSON.stringify(words)})`);
    for (let k = 0; k < (tabs ?? 0); k++) await page.key('Tab');
    await page.key(tabs === undefined ? 'Escape' : 'Enter');
}

// Removes the volume that is open.
/** @param {Page} page */
export async function removeVolume(page) {
    await page.click('#drop-image');
    await answer(page, 'Undo brings it back', 1);
}

// Marks a test that wants a browser of its own, since a further user's store has other limits.
/** @param {Test} body @returns {Test} */
export const alone = body => Object.assign(body, { isAlone: true });

// How often a test with a page of its own is tried: a browser on a busy machine may come late once. A planted fault must be noticed at the first try.
const TRIES = Number(process.env.TRIES ?? 2);

/** @param {unknown} error */
const words = error => error instanceof Error ? error.message : String(error);

// Tries a test so often until it passes, and returns whether it does. The line of one that passes late says why it didn't at first.
/** @param {string} title @param {string} name @param {number} tries @param {() => Promise<string>} body what gives a word to add to its line */
async function passes(title, name, tries, body) {
    const why = [];
    while (why.length < tries) {
        try {
            const noted = await body();
            console.log(`${title}: ${name}${noted}${why.map(it => `, at a further try; before: ${it}`).join('')}`);
            return true;
        } catch (error) {
            why.push(words(error));
        }
    }
    console.log(`${title}: NOT ${name}: ${why.join('; again: ')}`);
    return false;
}

// Runs the tests, by their names, of a file of this name, and prints 'N passed, M failed'.
/** @param {string} title @param {Tests} tests */
export async function run(title, tests) {
    const browser = await Browser.open();
    const counts = { passed: 0, failed: 0 };
    for (const [name, body] of Object.entries(tests).filter(([it]) => !only.length || only.some(part => it.includes(part)))) {
        const isPassed = await passes(title, name, TRIES, async () => {
            const server = await serve(folder), page = await (body.isAlone ? Browser.open() : browser.user());
            work = mkdtempSync(join(tmpdir(), `${title}-`));
            try {
                await page.size(1200, 900);
                await body(page, server.url);
                if (page.errors.length) throw new Error(page.errors.join('; '));
                return '';
            } finally {
                await page.end();
                server.end();
                rmSync(work, { recursive: true, force: true });
            }
        });
        counts[isPassed ? 'passed' : 'failed']++;
    }
    await browser.end();
    tellCounts(counts);
}

/** @param {{ passed: number, failed: number }} counts */
function tellCounts({ passed, failed }) {
    console.log(`${passed} passed, ${failed} failed`);
    process.exitCode = failed ? 1 : 0;
}

// Has the line of a test say so, too.
/** @param {string} text */
export const note = text => { noted = `: ${text}`; };

// Runs tests in turn, each in the page and the folder as the one before left them, and prints 'N passed, M failed'. One that is asked for by its name
// alone needs nothing of those before it.
/** @param {string} title @param {Turn[]} tests */
export async function runInTurn(title, tests) {
    const server = await serve(folder), page = await Browser.open(), counts = { passed: 0, failed: 0 };
    work = mkdtempSync(join(tmpdir(), `${title}-`));
    try {
        await page.size(1200, 900);
        await page.go(server.url);
        for (const { name, body } of tests.filter(({ name }) => !only.length || only.some(part => name.includes(part)))) {
            const from = Date.now();
            const isPassed = await passes(title, name, 1, async () => {
                noted = '';
                await body(page, server);
                holds(page.errors.length === 0, `errors of the page: ${page.errors}`);
                return `${noted} (${((Date.now() - from) / 1000).toFixed(1)} s)`;
            });
            counts[isPassed ? 'passed' : 'failed']++;
            page.errors.splice(0);
        }
    } finally {
        await page.end();
        server.end();
        rmSync(work, { recursive: true, force: true });
    }
    tellCounts(counts);
}
