// The paper of a Teletype: characters are put on it as they come, or ten a second. It is kept in sheets. So a browser lays out only the last of them
// anew. A line that a return alone began anew is printed over what it had.
const MOST = 60000, SHEET = 2000;

export class Paper {
    /** @type {Uint8Array[]} */
    #waiting = [];
    /** @type {number | null} */
    #pace = null;
    #due = 0;
    #timer = 0;
    #isAsked = false;
    // Whether the end was in sight before the paper got another size.
    isAtEnd = true;

    // `shown` gets how many characters were printed, `kept` what the paper then holds.
    /** @param {HTMLElement} element @param {{ shown?: (count: number) => void, kept?: (text: string) => void, sound?: import('./sound.js').Sound }} [how] */
    constructor(element, how = {}) {
        this.last = document.createTextNode('');
        this.keeping = this.laid = 0;
        this.element = element;
        this.shown = how.shown ?? (() => {});
        this.kept = how.kept ?? (() => {});
        this.sound = how.sound;
        this.returned = '';
        this.length = 0;
        this.#sheet();
        element.addEventListener('scroll', () => { this.isAtEnd = this.#seesEnd; });
        new ResizeObserver(() => { if (this.isAtEnd) element.scrollTop = element.scrollHeight; }).observe(element);
    }

    // Whether the end of the paper is in sight.
    get #seesEnd() { return this.element.scrollTop + this.element.clientHeight >= this.element.scrollHeight - 30; }

    get text() { return this.element.textContent; }

    #sheet() {
        const sheet = document.createElement('div');
        this.last = document.createTextNode('');
        this.laid = 0;
        sheet.append(this.last);
        this.element.append(sheet);
    }

    // Characters a second, null for full speed.
    /** @param {number | null} pace */
    set pace(pace) {
        this.#pace = pace;
        this.#ask();
    }

    /** @param {string} text */
    restore(text) {
        this.#lay(text);
        this.length = text.length;
        this.element.scrollTop = this.element.scrollHeight;
    }

    tear() {
        this.replace('');
        this.kept('');
    }

    // Shows another paper in place of this one.
    /** @param {string} text */
    replace(text) {
        this.element.replaceChildren();
        this.returned = '';
        this.#sheet();
        this.restore(text);
    }

    /** @param {Uint8Array} bytes */
    print(bytes) {
        this.#waiting.push(bytes);
        this.#ask();
    }

    // Leaves out what was not printed yet.
    drop() { this.#waiting = []; }

    #ask() {
        if (this.#isAsked || !this.#waiting.length) return;
        this.#isAsked = true;
        requestAnimationFrame(now => this.#frame(now));
    }

    // What is due at this picture, or at once where there may be none.
    /** @param {number} now @param {boolean} [isLast] */
    #frame(now, isLast = false) {
        if (!isLast) this.#isAsked = false;
        let count = Infinity;
        if (this.#pace) {
            this.#due = Math.min(this.#due + (now - (this.#timer || now)) * this.#pace / 1000, 3);
            count = Math.floor(this.#due);
            this.#due -= count;
        }
        this.#timer = this.#waiting.length ? now : 0;
        let made = 0, text = '';
        while (made < count && this.#waiting.length) {
            const part = this.#waiting[0], taken = part.subarray(0, count - made);
            if (taken.length === part.length) this.#waiting.shift();
            else this.#waiting[0] = part.subarray(taken.length);
            for (const it of taken) text += this.#character(it);
            made += taken.length;
        }
        if (made) {
            this.#put(text);
            if (/[!-~]/.test(text)) this.sound?.strike();
            this.shown(made);
        }
        if (!this.#waiting.length) this.#timer = 0;
        this.#ask();
    }

    // A character as a page shows it: a line feed goes on, a return alone begins the line anew, and the bell is seen.
    /** @param {number} it */
    #character(it) {
        if (it === 0o7) this.#ring();
        if (it === 0o12) return '\n';
        if (it === 0o11) return '\t';
        if (it === 0o15) return '\r';
        return it < 0o40 || it === 0o177 ? '' : String.fromCharCode(it);
    }

    /** @param {string} text */
    #put(text) {
        const { element } = this, isAtEnd = this.#seesEnd, cut = text.indexOf('\n') + 1;
        if (this.laid > SHEET && cut) {
            this.#lay(text.slice(0, cut));
            this.#sheet();
            this.#lay(text.slice(cut));
        } else this.#lay(text);
        this.length += text.length;
        while (this.length > MOST && element.children.length > 1) {
            this.length -= element.children[0].textContent.length;
            element.children[0].remove();
        }
        if (isAtEnd) element.scrollTop = element.scrollHeight;
        if (this.#pace && text.includes('\n')) this.#feed();
        clearTimeout(this.keeping);
        this.keeping = window.setTimeout(() => this.keep(), 500);
    }

    // Has the page keep the paper as it is now, if that is due. What is to be printed at once is on it then.
    keep() {
        if (!this.#pace) this.#frame(performance.now(), true);
        if (!this.keeping) return;
        clearTimeout(this.keeping);
        this.keeping = 0;
        this.kept(this.text);
    }

    // Lays characters on the last sheet. A return before a line feed, or where nothing stands in the line, is nothing; what stands there is else
    // laid under what follows.
    /** @param {string} text */
    #lay(text) {
        const [first, ...over] = `${this.returned}${text}`.split(/\r+(?!\r|\n|$)/);
        this.returned = (over.at(-1) ?? first).endsWith('\r') ? '\r' : '';
        this.laid += text.length;
        for (const [k, part] of [first, ...over].entries()) {
            if (k) this.#begin();
            this.last.appendData(part.replace(/\r+(?=\n|$)/g, ''));
        }
    }

    // Begins the line anew: what it has is laid under it.
    #begin() {
        const { last } = this, at = last.data.lastIndexOf('\n') + 1, line = last.data.slice(at);
        if (line === '') return;
        last.deleteData(at, line.length);
        this.last = document.createTextNode('');
        const under = document.createElement('span');
        under.className = 'under';
        under.textContent = `${line}\r`;
        last.after(under, this.last);
    }

    #feed() {
        this.element.classList.remove('feeds');
        void this.element.offsetWidth;
        this.element.classList.add('feeds');
    }

    #ring() {
        this.sound?.ring();
        this.element.classList.add('rings');
        setTimeout(() => this.element.classList.remove('rings'), 150);
    }
}

// The characters of a key that was struck, null for one that is the browser's: Tab goes on, as everywhere in a page.
/** @param {KeyboardEvent} event */
export function keyOf(event) {
    if (event.altKey || event.metaKey || event.isComposing) return null;
    if (event.ctrlKey) {
        if (['c', 'v', 'x', 'a'].includes(event.key.toLowerCase()) && (event.key.toLowerCase() === 'v' || !getSelection()?.isCollapsed)) return null;
        return /^[a-z@[\\\]^_]$/i.test(event.key) ? String.fromCharCode(event.key.toUpperCase().charCodeAt(0) & 0o37) : null;
    }
    if (event.key === 'Enter') return '\r';
    if (event.key === 'Backspace' || event.key === 'Delete') return '\x7f';
    if (event.key === 'Escape') return '\x1b';
    return event.key.length === 1 ? event.key : null;
}
