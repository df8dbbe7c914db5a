// A text of the host as the editor shows it, and as it goes home: byte for byte as it came, or, once it was changed, in its encoding and with its ends of
// lines.
const utf8 = new TextEncoder();

/** @typedef {{ bytes: Uint8Array, shown: string, isLatin: boolean, hasMark: boolean, ends: string }} Form */

// What an editor shows of the bytes of a text, and its form, null where that is UTF-8 with line feeds.
/** @param {Uint8Array} bytes @returns {{ text: string, form: Form | null }} */
export function shownOf(bytes) {
    const plain = unicodeOf(bytes), whole = plain ?? latinOf(bytes), shown = whole.replace(/\r\n?/g, '\n').replaceAll('\u001a', '');
    if (plain !== null && isSame(utf8.encode(shown), bytes)) return { text: shown, form: null };
    const hasMark = bytes[0] === 0xef && bytes[1] === 0xbb && bytes[2] === 0xbf && plain !== null, ends = /\r\n/.test(whole) ? '\r\n' : /\r/.test(whole) ? '\r' : '\n';
    return { text: shown, form: { bytes, shown, isLatin: plain === null, hasMark, ends } };
}

// The bytes of a text of this form.
/** @param {string} text @param {Form | null | undefined} form */
export function homeOf(text, form) {
    if (!form) return utf8.encode(text);
    return text === form.shown ? form.bytes : encoded(`${form.hasMark ? '\ufeff' : ''}${text.replaceAll('\n', form.ends)}`, form);
}

// The bytes of a text in the encoding of its form.
/** @param {string} text @param {Form | null | undefined} form */
export function encoded(text, form) { return form?.isLatin && /^[\0-\xff]*$/.test(text) ? Uint8Array.from(text, it => it.charCodeAt(0)) : utf8.encode(text); }

// Whether bytes are plainly a text: without control characters but those that lay it out, and in Unicode, or in Latin letters with few accents.
/** @param {Uint8Array} bytes */
export function isText(bytes) {
    const isOdd = bytes.some(it => it < 7 || (it > 13 && it < 32 && it !== 26 && it !== 27) || it === 127), accents = bytes.filter(it => it > 127);
    return !isOdd && (unicodeOf(bytes) !== null || (accents.length * 4 < bytes.length && accents.every(it => it > 159)));
}

/** @param {Uint8Array} bytes */
function unicodeOf(bytes) {
    try {
        return new TextDecoder('utf-8', { fatal: true }).decode(bytes);
    } catch {
        return null;
    }
}

/** @param {Uint8Array} bytes */
function latinOf(bytes) {
    let text = '';
    for (let at = 0; at < bytes.length; at += 8192) text += String.fromCharCode(...bytes.subarray(at, at + 8192));
    return text;
}

/** @param {Uint8Array} a @param {Uint8Array} b */
function isSame(a, b) { return a.length === b.length && a.every((byte, k) => byte === b[k]); }
