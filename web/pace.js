// How many steps the machine makes at once, and how quick it is.

// About so many steps, never twice the same number. So what the lamps are seen at is no part of a program's own beat.
/** @param {number} count */
export function uneven(count) { return Math.round(count * (0.6 + 0.8 * Math.random())); }

// So many thousands of steps a second, in words.
/** @param {number} thousands */
export function rateOf(thousands) {
    return thousands >= 1000 ? `${(thousands / 1000).toFixed(1)} million` : `${Math.round(thousands)} thousand`;
}
