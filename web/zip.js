// A zip of files as they are, none of them packed.
import { joined } from './program.js';

/** @typedef {{ name: string, bytes: Uint8Array, date?: string }} Member */

const TABLE = Uint32Array.from({ length: 256 }, (_, k) => {
    let sum = k;
    for (let bit = 0; bit < 8; bit++) sum = sum & 1 ? 0xedb88320 ^ sum >>> 1 : sum >>> 1;
    return sum;
});

// The check sum of bytes that a zip has of each file: CRC-32.
/** @param {Uint8Array} bytes */
function crc(bytes) {
    let sum = 0xffffffff;
    for (const it of bytes) sum = TABLE[(sum ^ it) & 255] ^ sum >>> 8;
    return ~sum >>> 0;
}

// A date as a zip has it; it has none before 1980.
/** @param {string | undefined} date */
function dateOf(date) {
    const [, year, month, day] = /^(\d{4})-(\d\d)-(\d\d)$/.exec(date ?? '') ?? [];
    return Number(year) >= 1980 ? Number(year) - 1980 << 9 | Number(month) << 5 | Number(day) : 0x21;
}

// Numbers one after the other, each in so many bytes, the low one first.
/** @param {...[number, number]} all */
function numbers(...all) {
    return Uint8Array.from(all.flatMap(([value, count]) => Array.from({ length: count }, (_, k) => Math.floor(value / 256 ** k) & 255)));
}

// A zip of these files.
/** @param {Member[]} members */
export function zipOf(members) {
    /** @type {Uint8Array[]} */
    const parts = [], /** @type {Uint8Array[]} */ heads = [];
    let at = 0;
    for (const { name, bytes, date } of members) {
        const path = new TextEncoder().encode(name), size = bytes.length, common = numbers([10, 2], [0x800, 2], [0, 2], [0, 2], [dateOf(date), 2], [crc(bytes), 4], [size, 4], [size, 4], [path.length, 2], [0, 2]);
        heads.push(numbers([0x02014b50, 4], [20, 2]), common, numbers([0, 2], [0, 2], [0, 2], [0, 4], [at, 4]), path);
        parts.push(numbers([0x04034b50, 4]), common, path, bytes);
        at += 4 + common.length + path.length + size;
    }
    const length = heads.reduce((sum, it) => sum + it.length, 0), count = members.length;
    return joined([...parts, ...heads, numbers([0x06054b50, 4], [0, 2], [0, 2], [count, 2], [count, 2], [length, 4], [at, 4], [0, 2])]);
}
