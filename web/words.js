// The page's words beside the program's lines. What the program says of a command line is said of what the page has; its other lines stay as they are.
/** @type {[RegExp, string][]} */
const REFUSALS = [
    [/\? HOST READ/, 'It can\'t be read. A file may have 16,777,216 bytes at most.'],
    [/\? HOST WRITE/, 'It can\'t be written.'],
    [/\? HOST BUSY/, 'A run or another tab has this volume, and may change it alone.'],
    [/\? HOST EXISTS/, 'There is a file of that name.'],
    [/\? HOST ONE FILE/, 'What is written would lie over what is read.'],
    [/\? 8 READER/, 'It is too long. 16,777,216 bytes are read at most.'],
    [/\? 9 WRITER/, 'What it prints can\'t be taken.'],
    [/\? 10 MEMORY/, 'The browser has no more memory for it.'],
    [/\? IMAGE 1\b/, 'It is no image of a volume.'],
    [/\? IMAGE 2\b/, 'It is too short. A volume has 8 blocks of 512 bytes or more.'],
    [/\? IMAGE 3\b/, 'It is too long. A volume has 4095 blocks of 512 bytes at most.'],
    [/\? IMAGE 4\b/, 'A word has more than twelve bits. The image is damaged, or is none.'],
    [/\? DISK 1 TOO LONG/, 'It is longer than a disk.'],
    [/\? DISK 2 NO DECTAPE/, 'It hasn\'t the length of a DECtape.'],
    [/\? KIND 1 TWO READINGS/, 'It may be an image of two kinds.'],
    [/\? KIND 2 OTHER KIND/, 'With this change it would look like an image of another kind.'],
    [/\? (BLOCKS|PATCH) 1 ONLY/, 'The volume has no such block.'],
    [/\? PATCH 2 NO WORD/, 'A block has the words 0 to 255 alone.'],
    [/\? PATCH 3 OTHER WORD/, 'Another word stands there by now.'],
    [/\? DIRECTORY/, 'The directory is damaged. What still can be had is shown below.'],
    [/\? 4\.1 NOT FOUND/, 'The volume has no such file.'],
    [/\? 4\.2 NO ROOM/, 'There is no room for it. Squeeze moves the files together.'],
    [/\? 4\.3 DIRECTORY FULL/, 'The directory is full. Delete makes room in it.'],
    [/\? 4\.4 BUSY NAME/, 'A job of the script has this file.'],
    [/\? 4\.5 BAD NAME/, 'A file\'s name has 1 to 6 letters or digits, then nothing, or a dot and 1 or 2 more.'],
    [/\? 4\.(6 TOO LONG|7 TENTATIVE OPEN)/, 'The file that is being written has no more room, or another one is begun.'],
    [/\? 4\.(8 DEVICE|9 STOPPED)/, 'The volume could not be read or written.'],
    [/\? 4\.11 NOTHING WRITTEN/, 'It is empty, and takes no other file\'s place.'],
    [/\? 7 BAD TEXT/, 'It is no text: put it in as frames.'],
    [/\? (RENAME|COPY) 1 FILE EXISTS/, 'There is a file of that name. Rename or delete that one first.'],
    [/\? PUT 1 SAME NAME/, 'Two of these files would have one name.'],
    [/\? PUT 2 ONLY/, 'The files of this volume have no room for a date.'],
    [/\? CORE [12] /, 'It is no core image.'],
    [/\? 6\.[1-4] /, 'It is no BIN tape.'],
    [/\? RIM [12] /, 'It is no RIM tape.'],
    [/\? (SOURCE|TELETYPE) 1 NO WORD/, 'The tape has no words.'],
    [/\? SOURCE 2 NO WORD AT/, 'The tape has no word where the program is to start.'],
    [/\? (SOURCE 3 RESERVED|NAMES 3 PERMANENT) NAME/, 'The language has this word for itself. Give the cell another name.'],
    [/\? NAMES 1 BAD LINE/, 'Each line is a cell of five octal digits, a blank, and its name.'],
    [/\? NAMES 2 NO NAME/, 'A cell\'s name has 1 to 6 letters or digits, and begins with a letter.'],
    [/\? NAMES 4 FORM OF A TAG/, 'Names like this one are made of the cells. Give the cell another name.'],
    [/\? NAMES 5 GIVEN TWICE/, 'An earlier line has this name, or this cell.'],
    [/\? NAMES 6 NO WORD/, 'The tape has no word in this cell.'],
    [/\? 1 BAD LINE/, 'It is no line of a script.'],
    [/\? 2 NO JOB/, 'There is no such job.'],
    [/\? 3 TOO MANY JOBS/, 'There are eight jobs. FINISH lets them end.'],
    [/\? 11 TOO MANY BREAKS/, '64 breaks are set. Take one away first.'],
    [/\? 5 [A-Z]{2} \d/, 'The text has faults.'],
    [/^HALT [0-7]{5} AC/m, 'The program has halted.'],
    [/^KEYS END [0-7]{5}/m, 'The program waits for a key, and none is left.'],
    [/^UNASSIGNED [0-7]{5} [0-7]{4}/m, 'The word that comes next is no instruction.'],
];
/** @type {Record<string, string>} */
const OPTIONS = { '[BLOCKS]': 'The blocks of a volume', '--start <FAAAA>': 'The start', '--switches <WWWW>': 'The switches', '--steps <N>': 'The steps', '--date <DATE>': 'The date',
    '[BLOCK]': 'The block', '<BLOCK>': 'The block', '<NEW>': 'The new word' };

// The page's words for a refusal, and what the program said beside them.
/** @param {string} said */
export function inWords(said) {
    const plain = said.replace(/\berror: invalid value '([^\n]*)' for '([^\n]*?)': (.*)$/gm, (_, value, what, why) => `${OPTIONS[what] ?? what}: ${reasonOf(value, why)}`)
        .replace(/\berror: unexpected argument '([^\n]*)' found/g, '$1 can\'t stand there').replace(/^error: /gm, '').replace(/\n*^( *tip: .*|Usage: .*|For more information, try '--help'\.)$/gm, '').replace(/: --lenient reads [^\n]*/g, '');
    const words = REFUSALS.filter(([pattern, text]) => pattern.test(plain) && !plain.includes(text)).map(([, text]) => text);
    return [...words, plain.replace(/\n+$/, '')].join('\n');
}

/** @param {string} value @param {string} why */
function reasonOf(value, why) {
    const [, least, most] = /is not in (\d+)\.\.=?(\d+)/.exec(why) ?? [];
    if (least !== undefined) return most.length > 12 ? `${value} is not ${least} or more` : `${value} is not from ${least} to ${most}`;
    return why.startsWith('not ') ? `${value} is ${why}` : `${value || 'nothing'} is no number`;
}

/** @type {Record<string, string>} */
const STOPS = { LIMIT: 'the next instruction is at', HALT: 'it has halted, before', BREAK: 'it has come to the break at', UNASSIGNED: 'no instruction is at' };

// The reply to steps, or to START, in words, with the program's line.
/** @param {string} reply */
export function stepsIn(reply) {
    const [, start] = /^STARTED ([0-7]{5})/.exec(reply) ?? [];
    if (start) return `it goes from ${start} (${reply})`;
    const [, steps, why, cell] = /^STEPS (\d+) ([A-Z]+) ([0-7]{5})/.exec(reply) ?? [];
    return STOPS[why] ? `${steps} ${steps === '1' ? 'step' : 'steps'}: ${STOPS[why]} ${cell} (${reply})` : reply;
}

// How a run ended, in words, with its status.
/** @param {number | null} status */
export function endOf(status) { return status === null ? 'It was stopped.' : status === 0 ? 'It is done (status 0).' : `It ended with a fault (status ${status}).`; }
