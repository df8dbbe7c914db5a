// panel.mjs PROGRAM FOLDER [PART..]: the panel and the paper as things: how lamps glow, what is printed over, what sounds, and what helps. All of it
// can be seen and hit. As losses.mjs otherwise.
import { writeFileSync } from 'node:fs';
import { assemble, file, holds, isTold, native, pane, run, same } from './tools.mjs';

// Prints AB, a return alone, C, a line feed and the bell.
const PRINTS = '*200\nA,\tCLA\n\tTAD I P\n\tSNA\n\tHLT\n\tTLS\n\tTSF\n\tJMP .-1\n\tISZ P\n\tJMP A\nP,\t300\n*300\n301;302;215;303;212;304;215;212;207;0\n$\n';
const BLINKS = '*200\nA,\tCLA CMA\n\tNOP\n\tCLA\n\tJMP A\n$\n';
const CALLS = '*200\nSTART,\tJMS SUB\n\tIAC\n\tHLT\nSUB,\t0\n\tISZ COUNT\n\tJMP I SUB\nCOUNT,\t0\n$\n';
// Steps that use their own cell, one of their page, one by a pointer, by a pointer that counts by itself, of page zero, and of a subroutine. Then a
// pointer alone, a HLT that skips a HLT, a loop, and a word that is no instruction.
const USES = '*7\n0\n223\n*200\n\tCLA CLL\n\tTAD FIVE\n\tDCA I PTR\n\tTAD I PTR\n\tDCA I 10\n\tISZ 7\n\tJMS I SUBP\n\tJMP I AFTER\n\tHLT\n\tSZA HLT\n\tHLT\n\tHLT\n'
    + 'LOOP,\tJMP LOOP\n7002\nFIVE,\t5\nPTR,\tDEST\nSUBP,\tSUB\nAFTER,\t211\nDEST,\t0\n*400\nSUB,\t0\n\t6032\n\tJMP I SUB\n$\n';
const USED = ['0200 7300', '0216 0005', '0222 0005', '0222 0005', '0224 0005', '0007 0001', '0400 0207', '0401 6032', '0400 0207', '0221 0211', '0211 7442'];

/** @typedef {import('./tools.mjs').Page} Page */

/** @param {Page} page @param {string} text */
async function toCore(page, text) {
    await assemble(page, 'IT', text);
    await page.click('#to-core');
    await isTold(page, 'machine-status', 'words are in core');
}

/** @param {Page} page @param {string} text */
async function atTeletype(page, text) {
    await assemble(page, 'IT', text);
    await page.click('#to-teletype');
    await page.until(`document.activeElement.id === 'tty-run'`);
}

/** @param {Page} page */
async function runs(page) {
    await page.click('#tty-run');
    await isTold(page, 'tty-status', 'HALT');
    await page.until(`geivottu.teletype.paper.returned === '' && document.getElementById('paper').textContent.includes('D\\n')`);
}

// Moves the pointer over an element.
/** @param {Page} page @param {string} selector */
async function point(page, selector) {
    const { x, y } = await page.look(`(() => { const it = document.querySelector(${JSON.stringify(selector)}); it.scrollIntoView({ block: 'center' });
        const box = it.getBoundingClientRect(); return { x: box.x + Math.min(60, box.width / 2), y: box.y + box.height / 2 }; })()`);
    await page.call('Input.dispatchMouseEvent', { type: 'mouseMoved', x, y, button: 'none' });
}

// What of a pane is smaller than 24 pixels, and whose edge differs from what is around it by less than 3:1.
const SMALL = `[...document.querySelectorAll('button, input, select, textarea, summary, label.button')].filter(it => it.checkVisibility() && !it.matches('.hidden'))
    .map(it => ({ it, box: it.getBoundingClientRect() })).filter(({ box }) => box.width && (box.width < 24 || box.height < 24))
    .map(({ it, box }) => (it.id || it.className || it.textContent) + ' ' + Math.round(box.width) + ' by ' + Math.round(box.height)).join('; ')`;
const RATIO = `const parts = it => (it.match(/[\\d.]+/g) ?? []).map(Number), isClear = it => parts(it).length === 4 && parts(it)[3] === 0;
    const light = it => { const [r, g, b] = parts(it).map(one => one / 255).map(one => one <= 0.04045 ? one / 12.92 : ((one + 0.055) / 1.055) ** 2.4);
        return 0.2126 * r + 0.7152 * g + 0.0722 * b; };
    const ratio = (a, b) => { const [x, y] = [light(a), light(b)].sort((p, q) => q - p); return (x + 0.05) / (y + 0.05); };`;
const FAINT = `(() => { ${RATIO}
    const behind = it => { for (let at = it.parentElement; at; at = at.parentElement) { if (at.id === 'panel') return 'rgb(74, 51, 32)';
        const colour = getComputedStyle(at).backgroundColor; if (!isClear(colour)) return colour; } return 'rgb(255, 255, 255)'; };
    return [...document.querySelectorAll('button:not(:disabled), .button, input, select, textarea, pre')].filter(it => it.checkVisibility()
        && !it.matches('.hidden, #code button, #directory td:nth-child(2) button, #search-found td:first-child button, th button, #text, #faults button, [role=tab], [type=checkbox]')).map(it => {
        const style = getComputedStyle(it), around = behind(it);
        return { it, most: Math.max(ratio(style.borderTopColor, around), isClear(style.backgroundColor) ? 1 : ratio(style.backgroundColor, around)) };
    }).filter(({ most }) => most < 3).map(({ it, most }) => (it.id || it.textContent) + ' ' + most.toFixed(1)).join('; ');
})()`;

// The colours of the picture of blocks that differ from the paper by less than 3:1; that of what is empty has an edge.
const PALE = `(() => { ${RATIO}
    const colourOf = name => { const it = document.createElement('span'); it.style.color = 'var(--' + name + ')'; document.body.append(it);
        const colour = getComputedStyle(it).color; it.remove(); return colour; };
    return ['directory', 'file', 'file-2', 'found', 'outside', 'fault', 'edge', 'bad', 'accent', 'quiet'].filter(it => ratio(colourOf(it), colourOf('paper')) < 3).join('; ');
})()`;

await run('panel', {
    'lamps glow by the share of the time that they are lit': async (page, url) => {
        await page.go(url);
        await toCore(page, BLINKS);
        await page.click('#key-start');
        await page.until('geivottu.machine.isGoing');
        const mean = () => page.look(`new Promise(go => { const all = []; const next = () => {
            all.push(Number(document.querySelector('[data-row="ac"] .lamp').style.getPropertyValue('--glow')));
            all.length < 40 ? requestAnimationFrame(next) : go(all.reduce((sum, it) => sum + it, 0) / all.length); }; requestAnimationFrame(next); })`);
        // Where other work goes on, pictures come before the machine's first steps, or the same part of its loop is seen again and again.
        let glow = await mean();
        const isHalf = () => glow > 0.25 && glow < 0.75;
        for (let again = 0; again < 4 && !isHalf(); again += 1) glow = await mean();
        holds(isHalf(), `a lamp that is lit half of the time glows by ${glow}`);
        await page.click('#key-stop');
        await isTold(page, 'machine-status', 'stopped by the key');
        await page.until(`[...document.querySelectorAll('.lamp')].every(it => ['0', '1'].includes(getComputedStyle(it).getPropertyValue('--glow').trim()))`);
    },
    'MA and MB glow by the share of the steps that use a cell': async (page, url) => {
        await page.go(url);
        await toCore(page, '*200\nA,\tISZ 300\n\tJMP A\n\tJMP A\n$\n');
        await page.click('#key-start');
        /** @param {string} row @param {number} bit */
        const glow = (row, bit) => `Number(document.querySelectorAll('#panel [data-row=${row}] .lamp')[${bit}].style.getPropertyValue('--glow'))`;
        await page.until(`${glow('ma', 5)} > 0.1 && ${glow('ma', 5)} < 0.9`);
        await page.until(`${glow('ma', 4)} === 1 && ${glow('ma', 0)} === 0`);
        await page.until(`${glow('mb', 0)} > 0.1`);
        await page.click('#key-stop');
        await isTold(page, 'machine-status', 'stopped by the key');
        same('', await page.look(`document.querySelectorAll('#panel [data-row=ma] .lamp')[5].style.getPropertyValue('--glow')`), 'the glow of a lamp after a stop');
    },
    'a return alone prints over': async (page, url) => {
        await page.go(url);
        await atTeletype(page, PRINTS);
        await runs(page);
        const under = () => page.look(`[...document.querySelectorAll('#paper .under')].map(it => it.textContent).join('|')`);
        same('AB\r', await under(), 'what is under');
        same('AB\rC\nD\n', await page.text('paper'), 'the paper');
        const apart = await page.look(`(() => { const under = document.querySelector('#paper .under'), range = document.createRange();
            range.selectNodeContents(under.nextSibling); const [a, b] = [under.getBoundingClientRect(), range.getClientRects()[0]]; return Math.abs(a.left - b.left) + Math.abs(a.top - b.top); })()`);
        holds(apart < 4, `what is printed over lies ${apart} pixels apart`);
        await page.until(`geivottu.store.notes.get('paper') === 'AB\\rC\\nD\\n'`);
        await page.look('geivottu.store.settled()');
        await page.go(`${url}?again`);
        same('AB\r', await under(), 'what is under after a reload');
    },
    'the end of the paper stays in sight where the window gets smaller': async (page, url) => {
        await page.size(1280, 800);
        await page.go(`${url}#machine`);
        await page.look(`geivottu.machine.paper.replace('A LINE\\n'.repeat(8) + 'THE END')`);
        const gap = () => page.look(`(it => it.scrollHeight - it.clientHeight - it.scrollTop)(document.getElementById('console'))`);
        holds(await gap() < 5, `${await gap()} pixels are below the wide paper`);
        await page.size(390, 844);
        await page.until(`(it => it.scrollHeight > it.clientHeight + 30 && it.scrollHeight - it.clientHeight - it.scrollTop < 5)(document.getElementById('console'))`);
        await page.look(`document.getElementById('console').scrollTop = 0`);
        await page.size(390, 700);
        await page.size(390, 844);
        same(0, await page.look(`document.getElementById('console').scrollTop`), 'where the paper is that was scrolled back');
    },
    'bell and clatter sound where they are switched on, and that is kept': async (page, url) => {
        const source = `window.sounds = ''; window.AudioContext = class { currentTime = 0; sampleRate = 8000; state = 'running'; destination = {};
            #node(name) { return { frequency: {}, playbackRate: {}, connect: it => it, start() { window.sounds += name; }, stop() {} }; }
            createOscillator() { return this.#node('bell '); } createBufferSource() { return this.#node('clatter '); }
            createGain() { return { gain: { setValueAtTime() {}, exponentialRampToValueAtTime() {} }, connect: it => it }; }
            createBuffer(_, size) { return { getChannelData: () => new Float32Array(size) }; } };`;
        await page.call('Page.addScriptToEvaluateOnNewDocument', { source });
        await page.go(url);
        await atTeletype(page, PRINTS);
        await runs(page);
        same('', await page.look('sounds'), 'what sounds at first');
        for (const it of ['bell', 'clatter']) await page.click(`#${it}`);
        await page.look('geivottu.store.settled()');
        await page.go(`${url}?again`);
        await pane(page, 'teletype');
        await page.choose('#tape', 'source');
        await page.click('#tear');
        await runs(page);
        await page.until(`sounds.includes('bell') && sounds.includes('clatter')`);
    },
    'a line of help says what a mnemonic and a key of the panel do': async (page, url) => {
        await page.go(url);
        await toCore(page, CALLS);
        await page.look(`document.querySelector('#code [data-cell="00204"] button').focus()`);
        await isTold(page, 'code-help', 'ISZ adds one to the cell, and skips if that gave zero');
        await point(page, '#code [data-cell="00205"] button');
        await isTold(page, 'code-help', 'JMP goes on at the cell. I indirect');
        await page.look(`document.getElementById('key-step').focus()`);
        await isTold(page, 'panel-help', 'makes one step');
        await point(page, '#key-examine');
        await isTold(page, 'panel-help', 'shows the word at the address');
        await pane(page, 'source');
        await point(page, '#listing [data-cell="00202"]');
        await isTold(page, 'listing-help', 'HLT stops the machine');
        await page.look(`(() => { const it = document.getElementById('text'); it.focus(); it.setSelectionRange(22, 22); it.dispatchEvent(new Event('keyup')); })()`);
        await isTold(page, 'listing-help', 'IAC adds one to AC');
    },
    'a subroutine is stepped over, and cells are watched by their names': async (page, url) => {
        await page.go(url);
        await toCore(page, CALLS);
        await page.fill('#watch', 'count 202 nowhere');
        await page.key('Tab');
        await page.until(`document.getElementById('watched').textContent === 'COUNT0000' + '2027402' + 'NOWHEREno such name'`);
        await page.fill('#switches-shown', '0200');
        await page.key('Tab');
        await page.click('#key-load');
        await page.click('#step-over');
        await page.until(`geivottu.machine.registers.pc === '0201' && document.getElementById('watched').textContent.startsWith('COUNT0001')`);
        await page.click('#step-over');
        await page.until(`geivottu.machine.registers.pc === '0202' && geivottu.machine.registers.ac === '0001'`);
        await page.click('#key-start');
        await isTold(page, 'machine-status', 'HALT 00203');
        await page.look('geivottu.store.settled()');
        await page.go(`${url}?again`);
        await page.until(`document.getElementById('watched').textContent.startsWith('COUNT')`);
    },
    'steps are counted since START': async (page, url) => {
        await page.go(url);
        await toCore(page, '*200\n\tCLA CLL\nA,\tISZ B\n\tJMP A\n\tHLT\nB,\t0\n$\n');
        await page.choose('#speed', 'full');
        writeFileSync(file('it.pa'), '*200\n\tCLA CLL\nA,\tISZ B\n\tJMP A\n\tHLT\nB,\t0\n$\n');
        native(['assemble', 'it.pa', '--output', 'it.bin']);
        const [, count] = native(['profile', 'it.bin']).toString().trim().split('\n').at(-1)?.split(' ') ?? [];
        await page.click('#key-start');
        await isTold(page, 'machine-status', 'HALT 00204');
        await page.until(`document.getElementById('steps').textContent === '${count} steps since START'`);
        await page.until(`geivottu.store.notes.get('steps') === ${count}`);
        await page.look('geivottu.store.settled()');
        await page.go(`${url}?again`);
        same(`${count} steps since START`, await page.text('steps'), 'the count after a reload');
        await page.fill('#switches-shown', '0200');
        await page.key('Tab');
        await page.click('#key-load');
        for (const wanted of ['1 step since START', '2 steps since START']) {
            await page.click('#key-step');
            await page.until(`document.getElementById('steps').textContent === '${wanted}'`);
        }
        await page.click('#power');
        await page.until(`document.getElementById('steps').textContent === ''`);
    },
    'LOAD ADD shows the address in PC, EXAM the next one, and CONT goes from there': async (page, url) => {
        await page.go(url);
        await toCore(page, '*200\n\tHLT\n*400\n\tCLA IAC\n\tHLT\n$\n');
        const pc = () => page.look(`document.querySelector('[data-row=pc] .word').textContent`);
        await page.until(`document.querySelector('[data-row=pc] .word').textContent === '0200'`);
        await page.fill('#switches-shown', '0400');
        await page.key('Tab');
        await page.click('[aria-label="field switch 0"]');
        await page.click('#key-load');
        await page.until(`document.querySelector('[data-row=pc] .word').textContent === '0400'`);
        same('1', await page.look(`document.querySelector('[data-row=if] .word').textContent`), 'IF');
        await page.click('[aria-label="field switch 0"]');
        await page.click('#key-load');
        await page.until(`document.querySelector('[data-row=if] .word').textContent === '0'`);
        await page.click('#key-examine');
        await page.until(`document.querySelector('[data-row=mb] .word').textContent === '7201'`);
        same('0401', await pc(), 'PC after EXAM');
        await page.click('#key-load');
        await page.click('#key-go');
        await isTold(page, 'machine-status', 'HALT 00402');
        await page.until(`document.querySelector('[data-row=pc] .word').textContent === '0402'`);
        same('0001', await page.look(`document.querySelector('[data-row=ac] .word').textContent`), 'AC');
    },
    'MA and MB show what the last step used, after each kind of stop': async (page, url) => {
        await page.go(url);
        await toCore(page, USES);
        /** @param {string} wanted */
        const shows = wanted => page.until(`['ma', 'mb'].map(it => document.querySelector('#panel [data-row=' + it + '] .word').textContent).join(' ') === '${wanted}'`);
        for (const wanted of USED) {
            await page.click('#key-step');
            await shows(wanted);
        }
        await isTold(page, 'machine-status', 'HALT 00213');
        await page.click('#key-start');
        await isTold(page, 'machine-status', 'HALT 00213');
        await shows('0211 7442');
        await page.click('#code [data-cell="00207"] button');
        await isTold(page, 'machine-status', 'BREAK 00207 ON');
        await page.click('#key-start');
        await isTold(page, 'machine-status', 'BREAK 00207');
        await shows('0400 0207');
        await page.fill('#switches-shown', '0214');
        await page.key('Tab');
        await page.click('#key-load');
        await shows('0214 ');
        await page.click('#key-examine');
        await shows('0214 5214');
        await page.click('#key-load');
        await page.click('#key-start');
        await page.until(`document.getElementById('rate').textContent.includes('steps a second')`);
        await shows('0214 5214');
        await page.click('#key-stop');
        await isTold(page, 'machine-status', 'stopped by the key: the next instruction is at 00214');
        await shows('0214 5214');
        await page.fill('#switches-shown', '0215');
        await page.key('Tab');
        await page.click('#key-load');
        await page.click('#key-start');
        await isTold(page, 'machine-status', 'UNASSIGNED 00215');
        await shows('0215 7002');
    },
    'the Teletype is beside the panel on a wide window, and below it on a narrow one': async (page, url) => {
        await page.go(url);
        await pane(page, 'machine');
        const places = () => page.look(`Object.fromEntries(['panel', 'console'].map(it => [it, document.getElementById(it).getBoundingClientRect().toJSON()]))`);
        for (const width of [1040, 1200, 1600]) {
            await page.size(width, 900);
            const { panel, console } = await places();
            holds(console.left >= panel.right && console.top < panel.bottom && console.bottom <= panel.bottom + 2 && console.width > 250, `${width} wide: ${JSON.stringify({ panel, console })}`);
        }
        await page.size(900, 900);
        const { panel, console } = await places();
        holds(console.top >= panel.bottom && console.width > 500, `900 wide: ${JSON.stringify({ panel, console })}`);
    },
    'what is watched shows while the machine goes': async (page, url) => {
        await page.go(url);
        await toCore(page, '*200\nA,\tISZ COUNT\n\tJMP A\n\tJMP A\nCOUNT,\t0\n$\n');
        await page.fill('#watch', 'COUNT');
        await page.key('Tab');
        await page.until(`document.getElementById('watched').textContent === 'COUNT0000'`);
        await page.click('#key-start');
        await page.until(`geivottu.machine.isGoing && document.getElementById('watched').textContent !== 'COUNT0000'`);
        await page.click('#key-stop');
        await isTold(page, 'machine-status', 'stopped by the key');
    },
    'each control has 24 pixels, and an edge of 3:1, light and dark': async (page, url) => {
        await page.go(url);
        await pane(page, 'machine');
        await page.click('button[data-run="disk"]');
        await page.until(`document.querySelectorAll('#directory tbody tr').length === 8`);
        await toCore(page, CALLS);
        await page.look(`for (const it of document.querySelectorAll('details')) it.open = true`);
        for (const width of [1200, 390]) {
            await page.size(width, 900);
            for (const name of ['files', 'source', 'machine', 'teletype', 'script']) {
                await pane(page, name);
                same('', await page.look(SMALL), `what is small in ${name}, ${width} wide`);
            }
        }
        for (const scheme of ['light', 'dark']) {
            await page.scheme(scheme);
            same('', await page.look(PALE), `what is pale in the picture of blocks, ${scheme}`);
            for (const name of ['files', 'source', 'machine', 'teletype', 'script']) {
                await pane(page, name);
                same('', await page.look(FAINT), `what is faint in ${name}, ${scheme}`);
            }
        }
    },
});
