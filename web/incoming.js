// The name and the form that a file of the host gets on a volume. The user is asked for a name where the page's cut isn't the host's, and for the form
// where name and contents differ.
import { ask, askFor } from './ask.js';
import { bytesOfFile } from './dom.js';
import { isText } from './encoding.js';

/** @typedef {{ name: string, bytes: Uint8Array, form: string }} Incoming */

// Names of files that the program takes home as texts: where the name says what goes in, these go in as texts.
export const TEXTS = /\.(BA|BI|FT|HL|LS|MA|PA|RA|SB|TX)$/;

// A file of the host as it goes into a volume, as `text`, as `frames`, or by its `name`; null where the user leaves it.
/** @param {File} file @param {string} form @returns {Promise<Incoming | null>} */
export async function incoming(file, form) {
    const name = await nameFor(file.name), bytes = await bytesOfFile(file), own = name && await formFor(name, bytes, form);
    return name && own ? { name, bytes, form: own } : null;
}

// The name that a file of the host gets, null for none.
/** @param {string} path */
async function nameFor(path) {
    const whole = plain(path), name = nameOf(whole);
    return name === whole ? name : askFor(`${path} has no name that a volume can keep: 1 to 6 letters or digits, a dot, and 1 or 2 more. Its name there:`, name);
}

/** @param {string} name @param {Uint8Array} bytes @param {string} form */
async function formFor(name, bytes, form) {
    if (form !== 'name' || !bytes.length || TEXTS.test(name) === isText(bytes)) return form;
    return isText(bytes) ? ask(`${name} is a text, and its name says nothing of that.`, ['text', 'Put it in as a text'], ['frames', 'Put it in as frames'], ['', 'Leave it'])
        : ask(`${name} has the name of a text, and is none.`, ['frames', 'Put it in as frames'], ['text', 'Put it in as a text'], ['', 'Leave it']);
}

// The name of a file of the host without what a browser may have added: an ending to a name that it had before, or a number in brackets.
/** @param {string} path */
function plain(path) {
    const escaped = /^((?:[A-Z0-9]|_[0-7]{2}){1,6}\.(?:[A-Z0-9]|_[0-7]{2}){1,2})\.(TXT|BIN)$/;
    return path.toUpperCase().replace(/ ?\(\d+\)(?=\.|$)/, '').replace(escaped, '$1');
}

// The name that a file of the host has on a volume; what can't be one is the program's to refuse.
/** @param {string} name */
function nameOf(name) {
    const [first, ...rest] = name.split('.');
    return rest.length ? `${cut(first, 6)}.${cut(rest[rest.length - 1], 2)}` : cut(first, 6);
}

// The first characters of a name, so many; `_` and two octal digits are one. Others than letters and digits are none of a name.
/** @param {string} text @param {number} most */
function cut(text, most) { return text.match(/_[0-7]{2}|[A-Z0-9]/g)?.slice(0, most).join('') ?? ''; }
