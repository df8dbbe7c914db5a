// Headless Chromium, driven through its DevTools protocol over a pipe, and a static server. No package is needed.
import { spawn } from 'node:child_process';
import { createServer } from 'node:http';
import { existsSync, mkdtempSync, readFileSync, readdirSync, rmSync, statSync, writeFileSync } from 'node:fs';
import { tmpdir } from 'node:os';
import { extname, join, normalize } from 'node:path';

/** @type {Record<string, string>} */
const TYPES = { '.html': 'text/html', '.css': 'text/css', '.js': 'text/javascript', '.wasm': 'application/wasm', '.svg': 'image/svg+xml',
    '.webmanifest': 'application/manifest+json' };
// How long a test waits for what must come, in milliseconds.
const PATIENCE = Number(process.env.PATIENCE ?? 300000);
// How long it waits for the page at least, which comes late on a busy machine whatever is in it.
const COMING = 120000;
/** @param {number} milliseconds */
export const pause = milliseconds => new Promise(go => setTimeout(go, milliseconds));

// What is promised, or a fault where it doesn't come in time.
/** @param {number} milliseconds @param {Promise<T>} promise @param {string} what @template T @returns {Promise<T>} */
async function within(milliseconds, promise, what) {
    let timer;
    const late = new Promise((_, fail) => { timer = setTimeout(() => fail(new Error(`not within ${milliseconds} ms: ${what}`)), milliseconds); });
    try {
        return await Promise.race([promise, late]);
    } finally {
        clearTimeout(timer);
    }
}

// What the page in a folder says that it lets in and out, for a header, which also keeps it out of frames.
/** @param {string} folder */
const policyOf = folder => `${/http-equiv="Content-Security-Policy" content="([^"]*)"/.exec(readFileSync(join(folder, 'index.html'), 'utf8'))?.[1]}; frame-ancestors 'none'`;

// A plain server of a folder, which notes what it was asked for. `headers` are given with each answer; without others that is the page's own policy.
/** @param {string} folder @param {Record<string, string>} [headers] */
export function serve(folder, headers = { 'content-security-policy': policyOf(folder) }) {
    /** @type {string[]} */
    const asked = [];
    const server = createServer((request, response) => {
        const path = normalize(decodeURIComponent(new URL(request.url ?? '/', 'http://x').pathname));
        const file = join(folder, path === '/' ? 'index.html' : path);
        asked.push(`${request.method} ${path}`);
        if (!existsSync(file) || !statSync(file).isFile()) {
            response.writeHead(404).end();
            return;
        }
        response.writeHead(200, { 'content-type': TYPES[extname(file)] ?? 'application/octet-stream', 'cache-control': 'no-store', ...headers });
        response.end(readFileSync(file));
    });
    return /** @type {Promise<{ asked: string[], url: string, end: () => void }>} */ (new Promise(go => server.listen(0, '127.0.0.1', () => go({ asked, url: `http://127.0.0.1:${server.address().port}/`, end: () => server.close() }))));
}

export function chromium() {
    return ['/usr/lib/chromium/chromium', '/usr/bin/chromium', '/usr/bin/google-chrome'].find(it => existsSync(it)) ?? null;
}

// The file in whose menu an item is, by the item's name: one of those that the row doesn't have.
/** @param {string} selector */
export const ofMenu = selector => /^button\[aria-label="(\S+) (?:show as|show the|show its|open in|save as|rename|copy|delete)\b/.exec(selector)?.[1] ?? null;

export class Browser {
    #last = 0;
    /** @type {Map<number, { go: (it: any) => void, fail: (why: Error) => void }>} */
    #waiting = new Map();
    /** @type {string | null} */
    #session = null;
    /** @type {string[]} */
    asked = [];
    /** @type {string[]} */
    errors = [];
    /** @type {string[]} */
    dialogs = [];
    folder = '';
    downloads = '';
    isUser = false;
    /** @type {string | undefined} */
    context = undefined;
    /** @type {Browser | undefined} */
    browser = undefined;
    accepts = true;
    /** @type {Map<string, Browser>} */
    tabs = new Map();
    /** @type {Child} */
    #process;

    /** @param {Child} [child] */
    constructor(child) { this.#process = /** @type {Child} */ (child); }

    /** @param {...string} words */
    static async open(...words) {
        const folder = mkdtempSync(join(tmpdir(), 'page-'));
        const it = new Browser(spawn(chromium() ?? 'chromium', ['--headless=new', '--remote-debugging-pipe', '--no-sandbox', '--disable-gpu', '--no-first-run',
            '--disable-background-networking', '--disable-component-update', '--disable-sync', '--disable-dev-shm-usage',
            '--host-resolver-rules=MAP * ~NOTFOUND , EXCLUDE 127.0.0.1', `--user-data-dir=${folder}/profile`, ...words, 'about:blank'],
        { stdio: ['ignore', 'ignore', 'ignore', 'pipe', 'pipe'] }));
        it.folder = folder;
        let text = '';
        it.#process.stdio[4].setEncoding('utf8').on('data', part => {
            text += part;
            const messages = text.split('\0');
            text = messages.pop() ?? '';
            messages.forEach(message => it.#take(JSON.parse(message)));
        });
        it.downloads = mkdtempSync(join(tmpdir(), 'home-'));
        const { targetInfos } = await it.call('Target.getTargets');
        const { targetId } = targetInfos.find((/** @type {{ type: string }} */ { type }) => type === 'page');
        ({ sessionId: it.session } = await it.call('Target.attachToTarget', { targetId, flatten: true }));
        await it.call('Browser.setDownloadBehavior', { behavior: 'allow', downloadPath: it.downloads });
        for (const domain of ['Page', 'Runtime', 'Network', 'DOM']) await it.call(`${domain}.enable`);
        return it;
    }

    // A further tab, in a window of its own.
    tab() { return this.#tab({ newWindow: true, ...(this.context ? { browserContextId: this.context } : {}) }, this.downloads); }

    // A tab with a profile of its own, as that of a further user, whose end takes the profile away.
    async user() {
        const { browserContextId } = await this.call('Target.createBrowserContext', { disposeOnDetach: true });
        const downloads = mkdtempSync(join(tmpdir(), 'home-'));
        await this.call('Browser.setDownloadBehavior', { behavior: 'allow', downloadPath: downloads, browserContextId });
        const it = await this.#tab({ browserContextId }, downloads);
        it.isUser = true;
        return it;
    }

    /** @param {{ newWindow?: boolean, browserContextId?: string }} how @param {string} downloads */
    async #tab(how, downloads) {
        const browser = this.browser ?? this;
        const { targetId } = await this.call('Target.createTarget', { url: 'about:blank', ...how });
        const { sessionId } = await this.call('Target.attachToTarget', { targetId, flatten: true });
        const it = new Tab(browser, targetId, sessionId, how.browserContextId, downloads);
        browser.tabs.set(sessionId, it);
        for (const domain of ['Page', 'Runtime', 'Network', 'DOM']) await it.call(`${domain}.enable`);
        return it;
    }

    /** @param {string} id */
    set session(id) { this.#session = id; }

    /** @param {any} message */
    #take(message) {
        if (message.id) {
            const asked = this.#waiting.get(message.id);
            this.#waiting.delete(message.id);
            return message.error ? asked?.fail(new Error(`${message.error.message} ${message.error.data ?? ''}`)) : asked?.go(message.result);
        }
        const tab = this.tabs.get(message.sessionId) ?? this;
        if (message.method === 'Network.requestWillBeSent') tab.asked.push(message.params.request.url);
        if (message.method === 'Runtime.exceptionThrown') tab.errors.push(message.params.exceptionDetails.exception?.description ?? message.params.exceptionDetails.text);
        if (message.method === 'Page.javascriptDialogOpening') {
            tab.dialogs.push(message.params.type);
            this.call('Page.handleJavaScriptDialog', { accept: tab.accepts }, message.sessionId);
        }
    }

    /** @param {string} method @param {object} [params] @param {string | null} [session] @returns {Promise<any>} */
    call(method, params = {}, session = /^(Target|Browser)\./.test(method) ? null : this.#session) {
        const id = ++this.#last;
        this.#process.stdio[3].write(`${JSON.stringify({ id, method, params, ...(session ? { sessionId: session } : {}) })}\0`);
        return new Promise((go, fail) => this.#waiting.set(id, { go, fail }));
    }

    // What an expression is, once it is known.
    /** @param {string} expression */
    async look(expression) {
        const answer = this.call('Runtime.evaluate', { expression, awaitPromise: true, returnByValue: true, userGesture: true });
        const { result, exceptionDetails } = await within(2 * PATIENCE, answer, expression);
        if (exceptionDetails) throw new Error(`${expression}: ${exceptionDetails.exception?.description ?? exceptionDetails.text}`);
        return result.value;
    }

    // Waits until an expression holds, and gives its value.
    /** @param {string} expression @param {number} [milliseconds] */
    async until(expression, milliseconds = PATIENCE) {
        const end = Date.now() + milliseconds;
        for (;;) {
            const value = await this.look(expression);
            if (value) return value;
            if (Date.now() > end) throw new Error(`not within ${milliseconds} ms: ${expression}`);
            await pause(20);
        }
    }

    // Goes to an address. The page's own, without more, is that of its pane Files, where most tests begin; `?` is what it opens with by itself.
    /** @param {string} url */
    async go(url) {
        await this.call('Page.navigate', { url: url.endsWith('/') ? `${url}#files` : url });
        await this.until('document.readyState === "complete" && (document.getElementById("ready") || !document.getElementById("trouble")?.hidden) !== null && !!(document.getElementById("ready") || document.getElementById("trouble")?.hidden === false)', Math.max(PATIENCE, COMING));
    }

    /** @param {string} id */
    text(id) { return this.look(`document.getElementById(${JSON.stringify(id)}).textContent`); }

    // The middle of an element, brought into view, once it stays there from one picture to the next.
    /** @param {string} selector */
    #middle(selector) {
        return this.until(`(async () => { const it = document.querySelector(${JSON.stringify(selector)}); if (!it) return null;
            it.scrollIntoView({ block: 'center', inline: 'center' }); const box = it.getBoundingClientRect();
            if (!box.width) return null;
            await new Promise(go => { requestAnimationFrame(() => requestAnimationFrame(go)); setTimeout(go, 100); });
            const again = it.getBoundingClientRect();
            return again.x === box.x && again.y === box.y ? { x: box.x + box.width / 2, y: box.y + box.height / 2 } : null; })()`);
    }

    // Opens the menu of a file, where an item of it is meant.
    /** @param {string} selector */
    async #menu(selector) {
        const name = ofMenu(selector);
        if (name && !await this.look(`!!document.querySelector(${JSON.stringify(selector)})?.checkVisibility()`)) await this.click(`button[aria-label="${name} more"]`);
    }

    // Clicks an element, once more where the page had moved by then and the click hit another place.
    /** @param {string} selector */
    async click(selector) {
        await this.#menu(selector);
        for (let tries = 1; tries <= 5; tries++) {
            const { x, y } = await this.#middle(selector);
            await this.look(`(() => { window.clickCame = document.querySelector(${JSON.stringify(selector)}).disabled === true;
                document.addEventListener('click', ({ target }) => { window.clickCame ||= !!target.closest?.(${JSON.stringify(selector)}); }, { once: true, capture: true }); })()`);
            for (const type of ['mouseMoved', 'mousePressed', 'mouseReleased'])
                await this.call('Input.dispatchMouseEvent', { type, x, y, button: type === 'mouseMoved' ? 'none' : 'left', clickCount: 1 });
            if (await this.look('window.clickCame')) return;
        }
        throw new Error(`no click comes to ${selector}`);
    }

    // Types into the element that has the focus.
    /** @param {string} text */
    type(text) { return this.call('Input.insertText', { text }); }

    /** @param {string} key @param {string} [code] @param {number} [modifiers] */
    async key(key, code = key, modifiers = 0) {
        /** @type {Record<string, number>} */
        const codes = { Enter: 13, Tab: 9, Backspace: 8, ArrowRight: 39, ArrowLeft: 37, Escape: 27, ' ': 32 }, known = codes[key];
        const windowsVirtualKeyCode = known ?? (/^[a-z0-9]$/i.test(key) ? key.toUpperCase().charCodeAt(0) : 0);
        const text = key === 'Enter' ? '\r' : key.length === 1 && !(modifiers & 2) ? key : undefined;
        await this.call('Input.dispatchKeyEvent', { type: 'keyDown', key, code, modifiers, windowsVirtualKeyCode, text });
        await this.call('Input.dispatchKeyEvent', { type: 'keyUp', key, code, modifiers, windowsVirtualKeyCode });
    }

    /** @param {string} text */
    async keys(text) { for (const it of text) await this.key(it === '\n' ? 'Enter' : it); }

    // Puts a text in the place of an input's.
    /** @param {string} selector @param {string} text */
    async fill(selector, text) {
        await this.click(selector);
        await this.look(`document.querySelector(${JSON.stringify(selector)}).select()`);
        if (text === '') return this.key('Backspace');
        await this.type(text);
    }

    /** @param {string} selector @param {string} value */
    choose(selector, value) {
        return this.look(`(() => { const it = document.querySelector(${JSON.stringify(selector)}); it.value = ${JSON.stringify(value)};
            it.dispatchEvent(new Event('change', { bubbles: true })); return it.value; })()`);
    }

    /** @param {string} selector @param {...string} files */
    async give(selector, ...files) {
        const { result } = await this.call('Runtime.evaluate', { expression: `document.querySelector(${JSON.stringify(selector)})` });
        await this.call('DOM.setFileInputFiles', { files, objectId: result.objectId });
    }

    // Drops files of the host at the middle of an element, as by a mouse.
    /** @param {string} selector @param {...string} files */
    async drop(selector, ...files) {
        const { x, y } = await this.#middle(selector), data = { items: [], files, dragOperationsMask: 1 };
        for (const type of ['dragEnter', 'dragOver', 'drop']) await this.call('Input.dispatchDragEvent', { type, x, y, data });
    }

    // The file that a click takes home.
    /** @param {string} selector */
    async home(selector) {
        for (const it of readdirSync(this.downloads)) rmSync(join(this.downloads, it));
        await this.click(selector);
        for (let k = 0; k < 400; k++) {
            const [name] = readdirSync(this.downloads).filter(it => !it.endsWith('.crdownload') && !it.startsWith('.'));
            if (name) {
                await this.#untilWhole(join(this.downloads, name));
                return { name, bytes: readFileSync(join(this.downloads, name)) };
            }
            await pause(25);
        }
        throw new Error(`${selector} took nothing home`);
    }

    // Waits until a file grows no more: on a busy machine it is there before its bytes are. An empty one is given a second.
    /** @param {string} path */
    async #untilWhole(path) {
        for (let k = 0, before = -1; k < 100; k++) {
            const now = readFileSync(path).length;
            if (now === before && (now > 0 || k > 20)) return;
            before = now;
            await pause(50);
        }
    }

    /** @param {number} width @param {number} height @param {number} [scale] */
    size(width, height, scale = 1) {
        return this.call('Emulation.setDeviceMetricsOverride', { width, height, deviceScaleFactor: scale, mobile: false });
    }

    /** @param {string} value */
    scheme(value) { return this.call('Emulation.setEmulatedMedia', { features: [{ name: 'prefers-color-scheme', value }] }); }

    /** @param {string} file */
    async picture(file) {
        const { data } = await this.call('Page.captureScreenshot', { format: 'png' });
        writeFileSync(file, Buffer.from(data, 'base64'));
    }

    async end() {
        const ended = new Promise(go => this.#process.once('exit', go));
        this.call('Browser.close').catch(() => {});
        await Promise.race([ended, pause(3000)]);
        this.#process.kill('SIGKILL');
        await ended;
        for (const it of [this.folder, this.downloads]) rmSync(it, { recursive: true, force: true, maxRetries: 5 });
    }
}

// A further tab: what it has of its own is its session, and of a further user's the profile.
class Tab extends Browser {
    /** @param {Browser} browser @param {string} target @param {string} session @param {string | undefined} context @param {string} downloads */
    constructor(browser, target, session, context, downloads) {
        super();
        this.main = this.browser = browser;
        this.target = target;
        this.own = session;
        this.context = context;
        this.downloads = downloads;
    }

    /** @param {string} method @param {object} [params] @param {string | null} [session] @returns {Promise<any>} */
    call(method, params = {}, session = /^(Target|Browser)\./.test(method) ? null : this.own) { return this.main.call(method, params, session); }

    async end() {
        this.accepts = true; // a page that asks before it is left is left
        await Promise.race([this.call('Target.closeTarget', { targetId: this.target }), pause(3000)]);
        if (this.isUser) await Promise.race([this.call('Target.disposeBrowserContext', { browserContextId: this.context }), pause(3000)]);
        for (let k = 0; k < 250 && (await this.call('Target.getTargets')).targetInfos.some((/** @type {{ targetId: string }} */ it) => it.targetId === this.target); k++) await pause(20);
        this.main.tabs.delete(this.own);
        if (this.isUser) rmSync(this.downloads, { recursive: true, force: true, maxRetries: 5 });
    }
}
