// What each mnemonic of PAL III does (Small Computer Handbook), as a line of help where the pointer rests or the focus is.
/** @type {Record<string, string>} */
const MNEMONICS = {
    AND: 'ands the word of the cell into AC', TAD: 'adds the word of the cell to AC; a carry complements L', ISZ: 'adds one to the cell, and skips if that gave zero',
    DCA: 'puts AC into the cell, and clears AC', JMS: 'puts the address of the next instruction into the cell, and goes on at the one after it', JMP: 'goes on at the cell',
    NOP: 'does nothing', IAC: 'adds one to AC; a carry complements L', RAL: 'moves L and AC one bit to the left, around', RTL: 'moves L and AC two bits to the left, around',
    RAR: 'moves L and AC one bit to the right, around', RTR: 'moves L and AC two bits to the right, around', CML: 'complements L', CMA: 'complements AC',
    CIA: 'makes AC its negative', CLL: 'clears L', STL: 'sets L', CLA: 'clears AC', GLK: 'puts L into AC', STA: 'sets AC to 7777',
    HLT: 'stops the machine', OSR: 'ors the switches into AC', SKP: 'skips the next instruction', SNL: 'skips if L is one', SZL: 'skips if L is zero',
    SZA: 'skips if AC is zero', SNA: 'skips if AC is not zero', SMA: 'skips if AC is negative', SPA: 'skips if AC is not negative', LAS: 'puts the switches into AC',
    ION: 'turns interrupts on, after the next instruction', IOF: 'turns interrupts off',
    RSF: 'skips if the reader has a character', RRB: 'ors the reader\'s character into AC', RFC: 'has the reader read a character', PSF: 'skips if the punch is done',
    PCF: 'clears the punch\'s flag', PPC: 'punches AC', PLS: 'clears the punch\'s flag, and punches AC',
    KSF: 'skips if a key was struck', KCC: 'clears AC and the keyboard\'s flag', KRS: 'ors the key into AC', KRB: 'clears the keyboard\'s flag, and puts the key into AC',
    TSF: 'skips if the printer is done', TCF: 'clears the printer\'s flag', TPC: 'prints AC', TLS: 'clears the printer\'s flag, and prints AC',
    CDF: 'takes the field for data', CIF: 'takes the field for instructions, at the next JMP or JMS', RDF: 'ors the data field into AC', RIF: 'ors the instruction field into AC',
    RIB: 'ors the fields that an interrupt saved into AC', RMF: 'brings back the fields that an interrupt saved',
    I: 'indirect: the cell has the address', Z: 'on page zero',
};

// What each register, flag and state of the machine is that REGISTERS names.
/** @type {Record<string, string>} */
export const STATES = {
    ac: 'the accumulator', l: 'the link', pc: 'the program counter', if: 'the instruction field', df: 'the data field', ib: 'the instruction buffer', sf: 'the save field',
    switches: 'the switches', key: 'the keyboard\'s buffer', kbd: 'the keyboard\'s flag', busy: 'whether the printer is busy', printer: 'the printer\'s flag',
    ion: 'whether interrupts are on', wait: 'whether interrupts wait for the instruction after ION', held: 'whether interrupts are held off', run: 'whether the machine runs',
};

// The help for a line of a listing or a source: each mnemonic in it, in the order that they have there, without its comment.
/** @param {string} line */
export function helpOf(line) {
    const words = line.replace(/\/.*/, '').match(/\b[A-Z]+\b/g) ?? [];
    return [...new Set(words)].filter(it => it in MNEMONICS && (it !== 'I' && it !== 'Z' || words.length > 1)).map(it => `${it} ${MNEMONICS[it]}`).join('. ');
}

// Shows in a line of its own the help for what the pointer rests on, or else for what has the focus.
/** @param {HTMLElement} box @param {HTMLElement} shown @param {(it: HTMLElement) => string} help */
export function helpAt(box, shown, help) {
    const show = (/** @type {EventTarget | null} */ it) => { shown.textContent = it instanceof HTMLElement ? help(it) : ''; };
    const focus = () => box.contains(document.activeElement) ? document.activeElement : null;
    box.addEventListener('mouseover', event => show(event.target));
    box.addEventListener('mouseleave', () => show(focus()));
    box.addEventListener('focusin', event => show(event.target));
    box.addEventListener('focusout', () => show(null));
}
