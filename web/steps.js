// A change of a file, a text or the machine as what Undo keeps of it: the bytes that differ, as they were and as they became.
import { bytesOf, joined } from './program.js';

const BLOCK = 512;

// A change as what is kept of it, null where nothing changed. A thing that was not there before, or isn't after, is kept whole.
/** @param {Slot} slot @param {string} key @param {Kept} before @param {Kept} after @param {string} words @returns {Omit<Step, 'id'> | null} */
export function stepOf(slot, key, before, after, words) {
    const was = before === undefined ? null : bytesOf(before), is = after === undefined ? null : bytesOf(after);
    const isText = typeof (before ?? after) === 'string', step = { slot, key, words, isText };
    if (!was || !is) return was || is ? { ...step, was, is, size: (was ?? is)?.length ?? 0 } : null;
    const parts = isText ? spliceOf(was, is) : stretchesOf(was, is).map(({ at, end }) => ({ at, old: was.slice(at, end), fresh: is.slice(at, end) }));
    if (!parts.length) return null;
    const size = parts.reduce((sum, it) => sum + it.old.length + it.fresh.length, 0);
    return { ...step, parts, lengths: [was.length, is.length], size };
}

// The one stretch of a text that differs, from the first byte of it to the last.
/** @param {Uint8Array} was @param {Uint8Array} is @returns {Part[]} */
function spliceOf(was, is) {
    const most = Math.min(was.length, is.length);
    let at = 0, end = 0;
    while (at < most && was[at] === is[at]) at++;
    while (end < most - at && was[was.length - 1 - end] === is[is.length - 1 - end]) end++;
    return at === was.length && at === is.length ? [] : [{ at, old: was.slice(at, was.length - end), fresh: is.slice(at, is.length - end) }];
}

// The stretches of blocks in which two values differ, each as long as it can be, to keep few parts.
/** @param {Uint8Array} was @param {Uint8Array} is */
function stretchesOf(was, is) {
    /** @type {{ at: number, end: number }[]} */
    const all = [], most = Math.max(was.length, is.length);
    for (let at = 0; at < most; at += BLOCK) {
        if (isSame(was.subarray(at, at + BLOCK), is.subarray(at, at + BLOCK))) continue;
        const last = all.at(-1);
        if (last?.end === at) last.end += BLOCK;
        else all.push({ at, end: at + BLOCK });
    }
    return all;
}

// A value with a step undone, or done again: undefined for none. Null where it isn't what the step left, but for a paper, on which more may be printed.
/** @param {Kept} value @param {Step} step @param {boolean} isAgain */
export function laid(value, { key, was = null, is = null, parts, lengths, isText }, isAgain) {
    const now = value === undefined ? null : bytesOf(value);
    if (!parts || !lengths) {
        const [left, wanted] = isAgain ? [was, is] : [is, was];
        if (!(now === left || (now && left && isSame(now, left)))) return null;
        return wanted === null ? undefined : worded(wanted, isText);
    }
    const left = lengths[isAgain ? 0 : 1];
    const sides = parts.map(({ at, old, fresh }) => isAgain ? { at, there: old, given: fresh } : { at, there: fresh, given: old });
    if (!now || (now.length !== left && key !== 'paper') || !sides.every(({ at, there }) => isSame(there, now.subarray(at, at + there.length)))) return null;
    const all = sides.flatMap(({ at, given }, k) => [now.subarray(k ? sides[k - 1].at + sides[k - 1].there.length : 0, at), given]), last = sides[sides.length - 1];
    return worded(joined([...all, now.subarray(last.at + last.there.length)]), isText);
}

/** @param {Uint8Array} bytes @param {boolean} isText */
function worded(bytes, isText) { return isText ? new TextDecoder().decode(bytes) : bytes; }

/** @param {Uint8Array} a @param {Uint8Array} b */
function isSame(a, b) { return a.length === b.length && a.every((byte, k) => byte === b[k]); }
