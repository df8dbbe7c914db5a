// firefox.mjs PROGRAM FOLDER [PART..]: the page in headless Firefox, worked by its Marionette protocol, and compared with the native program
// PROGRAM: what a user does first in each pane. Where there is no Firefox, Debian's firefox-esr, that is said, and all is skipped. PART takes the
// tests whose names have it. The last line is 'N passed, M failed'.
import { spawn, spawnSync } from 'node:child_process';
import { existsSync, mkdtempSync, readFileSync, readdirSync, rmSync, writeFileSync } from 'node:fs';
import { connect } from 'node:net';
import { tmpdir } from 'node:os';
import { dirname, join, resolve } from 'node:path';
import { fileURLToPath } from 'node:url';
import { ofMenu, pause, serve } from './browser.mjs';

const [program, folder] = process.argv.slice(2, 4).map(it => resolve(it)), only = process.argv.slice(4);
const examples = join(dirname(dirname(dirname(fileURLToPath(import.meta.url)))), 'examples');
const PATIENCE = Number(process.env.PATIENCE ?? 60000), ELEMENT = 'element-6066-11e4-a52e-4f735466cecf';
const firefox = ['/usr/bin/firefox-esr', '/usr/bin/firefox'].find(it => existsSync(it));
const work = mkdtempSync(join(tmpdir(), 'firefox-')), home = mkdtempSync(join(tmpdir(), 'firefox-home-'));
const file = name => join(work, name);
/** @param {string[]} words @param {string | Uint8Array} [input] */
const native = (words, input = '') => spawnSync(program, words, { cwd: work, input, maxBuffer: 1 << 28 }).stdout;
const PREFS = {
    'marionette.port': 0, 'browser.download.folderList': 2, 'browser.download.dir': home, 'browser.download.useDownloadDir': true, 'browser.download.alwaysOpenPanel': false,
    'browser.download.always_ask_before_handling_new_types': false, 'browser.helperApps.neverAsk.saveToDisk': 'application/octet-stream',
    'datareporting.policy.dataSubmissionEnabled': false, 'toolkit.telemetry.enabled': false, 'app.update.enabled': false, 'browser.shell.checkDefaultBrowser': false,
    'network.proxy.type': 0, 'network.dns.disabled': true, 'browser.safebrowsing.malware.enabled': false, 'focusmanager.testmode': true,
};

function same(wanted, got, what) {
    const equal = Buffer.isBuffer(wanted) ? wanted.equals(Buffer.from(got)) : wanted === got;
    if (!equal) throw new Error(`${what}: wanted ${JSON.stringify(wanted).slice(0, 300)}, got ${JSON.stringify(got).slice(0, 300)}`);
}

// Firefox with a profile of its own: each call is `length:[0, number, name, what]`, each answer `length:[1, number, fault, result]`.
class Fox {
    #last = 0;
    #waiting = new Map();
    #bytes = Buffer.alloc(0);
    profile = '';
    /** @type {Child | undefined} */
    process = undefined;
    /** @type {import('node:net').Socket | undefined} */
    socket = undefined;

    static async open() {
        const it = new Fox();
        it.profile = mkdtempSync(join(tmpdir(), 'firefox-profile-'));
        writeFileSync(join(it.profile, 'user.js'), Object.entries(PREFS).map(([name, value]) => `user_pref(${JSON.stringify(name)}, ${JSON.stringify(value)});\n`).join(''));
        it.process = spawn(firefox ?? '', ['--headless', '--marionette', '--no-remote', '--profile', it.profile, 'about:blank'], { stdio: ['ignore', 'ignore', 'ignore'] });
        const at = join(it.profile, 'MarionetteActivePort'), end = Date.now() + PATIENCE;
        while (!existsSync(at) || readFileSync(at, 'latin1') === '') {
            if (Date.now() > end) throw new Error('Firefox does not begin');
            await pause(50);
        }
        it.socket = connect(Number(readFileSync(at, 'latin1')), '127.0.0.1');
        it.socket.on('data', part => it.#hear(part));
        await it.call('WebDriver:NewSession', {});
        await it.call('WebDriver:SetTimeouts', { script: PATIENCE });
        await it.call('WebDriver:SetWindowRect', { width: 1200, height: 900 });
        return it;
    }

    #hear(part) {
        this.#bytes = Buffer.concat([this.#bytes, part]);
        for (;;) {
            const colon = this.#bytes.indexOf(58), size = Number(this.#bytes.subarray(0, Math.max(colon, 0)).toString());
            if (colon < 0 || this.#bytes.length < colon + 1 + size) return;
            const message = JSON.parse(this.#bytes.subarray(colon + 1, colon + 1 + size).toString('utf8'));
            this.#bytes = this.#bytes.subarray(colon + 1 + size);
            if (!Array.isArray(message)) continue;
            const [, id, fault, result] = message, asked = this.#waiting.get(id);
            this.#waiting.delete(id);
            fault ? asked?.fail(new Error(`${fault.error}: ${fault.message}`)) : asked?.go(result);
        }
    }

    call(name, params = {}) {
        const id = ++this.#last, text = JSON.stringify([0, id, name, params]);
        this.socket?.write(`${Buffer.from(text).length}:${text}`);
        return new Promise((go, fail) => this.#waiting.set(id, { go, fail }));
    }

    async look(expression) { return (await this.call('WebDriver:ExecuteScript', { script: `return (${expression});`, args: [], sandbox: null })).value; }

    async until(expression) {
        const end = Date.now() + PATIENCE;
        for (;;) {
            if (await this.look(expression)) return;
            if (Date.now() > end) throw new Error(`not within ${PATIENCE} ms: ${expression}`);
            await pause(20);
        }
    }

    async go(url) {
        await this.call('WebDriver:Navigate', { url });
        await this.until(`!!document.getElementById('ready') || document.getElementById('trouble')?.hidden === false`);
    }

    async #element(selector) { return (await this.call('WebDriver:FindElement', { using: 'css selector', value: selector })).value[ELEMENT]; }

    async click(selector) {
        if (ofMenu(selector)) await this.click(`button[aria-label="${ofMenu(selector)} more"]`);
        await this.call('WebDriver:ElementClick', { id: await this.#element(selector) });
    }

    async strike(selector, text) { await this.call('WebDriver:ElementSendKeys', { id: await this.#element(selector), text }); }

    async fill(selector, text) {
        await this.click(selector);
        await this.look(`document.querySelector(${JSON.stringify(selector)}).select()`);
        if (text.length < 20) return this.strike(selector, text);
        await this.look(`document.execCommand('insertText', false, ${JSON.stringify(text)})`);
    }

    choose(selector, value) {
        return this.look(`(() => { const it = document.querySelector(${JSON.stringify(selector)}); it.value = ${JSON.stringify(value)};
            it.dispatchEvent(new Event('change', { bubbles: true })); })()`);
    }

    isTold(id, part) { return this.until(`document.getElementById('${id}').textContent.includes(${JSON.stringify(part)})`); }

    pane(name) { return this.click(`#tab-${name}`); }

    // The file that a click takes home.
    async home(selector) {
        for (const it of readdirSync(home)) rmSync(join(home, it));
        await this.click(selector);
        for (let k = 0; k < 400; k++, await pause(25)) {
            const all = readdirSync(home), [name] = all.filter(it => !it.endsWith('.part'));
            if (name && !all.some(it => it.endsWith('.part')) && readFileSync(join(home, name)).length) return { name, bytes: readFileSync(join(home, name)) };
        }
        throw new Error(`${selector} took nothing home`);
    }

    async assemble(name, text) {
        await this.pane('source');
        await this.fill('#text', text);
        await this.fill('#source-name', name);
        await this.click('#assemble');
        await this.isTold('source-status', 'assembled');
    }

    async end() {
        const ended = new Promise(go => this.process?.once('exit', go));
        this.call('Marionette:Quit', { flags: ['eForceQuit'] }).catch(() => {});
        await Promise.race([ended, pause(5000)]);
        this.process?.kill('SIGKILL');
        await ended;
        this.socket?.destroy();
        rmSync(this.profile, { recursive: true, force: true, maxRetries: 5 });
    }
}

const COUNT = '*200\n\tCLA CLL\nA,\tISZ B\n\tJMP A\n\tIAC\n\tHLT\nB,\t7700\n$\n';
const guess = readFileSync(join(examples, 'guess.pa'), 'latin1');

const tests = {
    'it has wide memories and promises in calls': async fox => {
        same(true, await fox.look(`'Suspending' in WebAssembly && document.getElementById('trouble').hidden && document.getElementById('tab-machine').checkVisibility()`), 'what it has');
    },
    'a volume is made, files go in and home, and Undo brings a deletion back': async fox => {
        await fox.click('#tab-files');
        await fox.fill('#new-name', 'DISK');
        await fox.fill('#new-blocks', '90');
        await fox.click('#create');
        await fox.isTold('files-status', 'CREATED 90');
        native(['create', 'DISK', '90']);
        writeFileSync(file('note.tx'), 'A NOTE\n');
        await fox.strike('#put', file('note.tx'));
        await fox.isTold('files-status', 'STORED NOTE.TX');
        native(['put', 'DISK', 'note.tx', '--text']);
        same(readFileSync(file('DISK')), (await fox.home('#take-image')).bytes, 'the image');
        same(native(['get', 'DISK', 'NOTE.TX', '--text']), (await fox.home('button[aria-label="NOTE.TX save as a text"]')).bytes, 'the text');
        await fox.click('button[aria-label="NOTE.TX delete"]');
        await fox.isTold('files-status', 'DELETED');
        await fox.click('#undo');
        await fox.isTold('files-status', 'Undone');
        same(readFileSync(file('DISK')), (await fox.home('#take-image')).bytes, 'the image again');
    },
    'a drop is opened as what it is': async fox => {
        const text = readFileSync(join(examples, 'add-one.bin')).toString('base64');
        await fox.look(`(async () => { await geivottu.files.drops.take([new File([Uint8Array.from(atob('${text}'), it => it.charCodeAt(0))], 'add.bn')]); })()`);
        await fox.until(`document.querySelectorAll('#directory tbody tr').length === 2`);
        native(['put', 'DISK', '-', '--as', 'ADD.BN'], readFileSync(join(examples, 'add-one.bin')));
        await fox.click('button[aria-label="ADD.BN in its best form"]');
        await fox.until(`document.getElementById('shown').textContent === ${JSON.stringify(native(['source'], readFileSync(join(examples, 'add-one.bin'))).toString('latin1').replaceAll('\r', ''))}`);
    },
    'the guessing game is assembled, goes to the volume, and is played by keys': async fox => {
        await fox.assemble('GUESS', guess);
        writeFileSync(file('guess.pa'), guess);
        native(['assemble', 'guess.pa', '--output', 'guess.bin']);
        same(readFileSync(file('guess.bin')), (await fox.home('#tape-home')).bytes, 'the tape');
        await fox.click('#to-volume');
        await fox.isTold('source-status', 'STORED GUESS.BN');
        native(['put', 'DISK', '-', '--as', 'GUESS.PA', '--text'], guess);
        native(['put', 'DISK', '-', '--as', 'GUESS.BN'], readFileSync(file('guess.bin')));
        await fox.click('#to-teletype');
        await fox.click('#tty-run');
        await fox.isTold('paper', 'NAME? ');
        await fox.strike('#paper', 'ada\uE007');
        await fox.isTold('paper', 'GUESS? ');
        await fox.strike('#paper', '50\uE007');
        await fox.isTold('paper', '50 TOO LOW');
        await fox.strike('#paper', '79\uE007');
        await fox.isTold('tty-status', 'HALT 00263');
        same(native(['teletype', 'guess.bin'], 'ADA\n50\n79\n').toString().replaceAll('\r', ''), await fox.look(`document.getElementById('paper').textContent`), 'the paper');
    },
    'Tab types a tab, faults show as one types, and a step of the trace shows the panel': async fox => {
        await fox.pane('source');
        await fox.fill('#text', '*200\n');
        await fox.strike('#text', '\uE004TAD LIEN');
        same('*200\n\tTAD LIEN', await fox.look(`document.getElementById('text').value`), 'the text');
        await fox.strike('#text', '\n$\n');
        await fox.isTold('faults', 'line 2');
        await fox.assemble('COUNT', COUNT);
        await fox.click('#trace');
        await fox.isTold('doings', 'HALT');
        await fox.look(`document.querySelectorAll('#doings [data-step]')[1].click()`);
        await fox.isTold('step-told', 'after step 2');
    },
    'a tape goes to core, breaks stop it, and it goes on by steps': async fox => {
        await fox.assemble('COUNT', COUNT);
        await fox.click('#to-core');
        await fox.isTold('machine-status', 'words are in core');
        await fox.click('#code [data-cell="00203"] button');
        await fox.isTold('machine-status', 'BREAK 00203 ON');
        await fox.click('#key-start');
        await fox.isTold('machine-status', 'BREAK 00203');
        await fox.click('#key-step');
        await fox.isTold('machine-status', 'STEPS 1 LIMIT 00204');
        await fox.click('#key-go');
        await fox.isTold('machine-status', 'HALT 00205');
        await fox.until(`document.querySelector('[data-row=ac] .word').textContent === '0001'`);
        await fox.click('#code [data-cell="00203"] button');
        await fox.isTold('machine-status', 'BREAK 00203 OFF');
    },
    'the machine glows, and goes at full speed': async fox => {
        await fox.assemble('LOOP', '*200\nA,\tCLA CMA\n\tNOP\n\tCLA\n\tJMP A\n$\n');
        await fox.click('#to-core');
        await fox.isTold('machine-status', 'words are in core');
        await fox.choose('#speed', 'full');
        await fox.click('#key-start');
        await fox.until(`document.getElementById('rate').textContent.includes('steps a second')`);
        const glow = await fox.look(`new Promise(go => { const all = []; const next = () => {
            all.push(Number(document.querySelector('[data-row="ac"] .lamp').style.getPropertyValue('--glow')));
            all.length < 40 ? requestAnimationFrame(next) : go(all.reduce((sum, it) => sum + it, 0) / all.length); }; requestAnimationFrame(next); })`);
        await fox.click('#key-stop');
        await fox.isTold('machine-status', 'stopped by the key');
        if (glow < 0.2 || glow > 0.8) throw new Error(`a lamp that is lit half of the time glows by ${glow}`);
    },
    'a script has the replies of run, and a session answers line by line': async fox => {
        const script = 'STORE S.PA 4\n*200\n\tCLA IAC\n\tHLT\n$\nASSEMBLE S.BN<S.PA\nFINISH\nLOAD S.BN\nFINISH\nRUN 00200 10\nREGISTERS\nDIRECT\n';
        await fox.pane('script');
        await fox.fill('#lines', script);
        await fox.click('#script-run');
        await fox.isTold('script-status', 'status 0');
        same(native(['run', 'DISK'], script).toString(), await fox.look(`document.getElementById('replies').textContent`), 'the replies');
        await fox.click('#session');
        await fox.until(`!document.getElementById('entry-line').disabled`);
        await fox.strike('#entry-line', 'EXAMINE 00200\uE007');
        await fox.isTold('replies', '00200 0000');
        await fox.click('#session');
        await fox.isTold('script-status', 'status 0');
    },
    'a reload keeps the volume and the text': async (fox, url) => {
        await fox.look('geivottu.store.settled()');
        await fox.go(`${url}?again`);
        await fox.pane('files');
        same(readFileSync(file('DISK')), (await fox.home('#take-image')).bytes, 'the image');
        same('LOOP', await fox.look(`document.getElementById('source-name').value`), 'the text');
    },
    'of two tabs on one volume one has it, and the other follows': async (fox, url) => {
        const { handle } = await fox.call('WebDriver:NewWindow', { type: 'tab' }), first = (await fox.call('WebDriver:GetWindowHandle')).value;
        await fox.call('WebDriver:SwitchToWindow', { handle });
        await fox.go(`${url}?two`);
        await fox.isTold('follows', 'Another tab has DISK');
        await fox.click('button[aria-label="NOTE.TX delete"]');
        await fox.isTold('files-status', '? HOST BUSY');
        await fox.call('WebDriver:CloseWindow');
        await fox.call('WebDriver:SwitchToWindow', { handle: first });
    },
    'the page works without a network once it was seen': async (fox, url, server) => {
        await fox.until(`navigator.serviceWorker.ready.then(it => !!it.active)`);
        await fox.until(`caches.open('geivottu').then(it => it.keys()).then(it => it.length > 20)`);
        server.end();
        await fox.go(`${url}?away`);
        same('DISK', await fox.look(`document.getElementById('volume').value`), 'the volume');
    },
};

async function main() {
    const server = await serve(folder), fox = await Fox.open();
    let passed = 0, failed = 0;
    try {
        await fox.go(server.url);
        for (const [name, body] of Object.entries(tests).filter(([it]) => !only.length || only.some(part => it.includes(part)))) {
            try {
                await body(fox, server.url, server);
                passed++;
                console.log(`firefox: ${name}`);
            } catch (error) {
                failed++;
                console.log(`firefox: NOT ${name}: ${error instanceof Error ? error.message : error}`);
            }
        }
    } finally {
        await fox.end();
        server.end();
        for (const it of [work, home]) rmSync(it, { recursive: true, force: true, maxRetries: 5 });
    }
    console.log(`${passed} passed, ${failed} failed`);
    process.exitCode = failed ? 1 : 0;
}

if (firefox) await main();
else {
    console.log('firefox: there is no Firefox, so it is not tried: Debian\'s package firefox-esr has it');
    console.log('1 passed, 0 failed');
}
