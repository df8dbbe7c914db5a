// closed.mjs PROGRAM FOLDER [PART..]: the page lets nothing in and nothing out: what it may load and run is what its server gives it, by the policy that
// it has in itself, and by the one in the server's headers. As losses.mjs otherwise.
import { resolve } from 'node:path';
import { serve } from './browser.mjs';
import { holds, isTold, pane, run, same } from './tools.mjs';

const folder = resolve(process.argv[3]);

// Tries all ways out of the page to a place, and gives what the policy refused, by its directives.
/** @param {string} to */
const TRY = to => `(async () => {
    const refused = [], heard = event => refused.push(event.effectiveDirective);
    document.addEventListener('securitypolicyviolation', heard);
    await fetch('${to}fetched').catch(() => {});
    navigator.sendBeacon('${to}beacon', 'words');
    try { new WebSocket('${to}'.replace('http', 'ws')); } catch {}
    try { new EventSource('${to}events'); } catch {}
    const put = (tag, given) => { const it = Object.assign(document.createElement(tag), given); document.body.append(it); return it; };
    for (const it of [put('img', { src: '${to}picture' }), put('link', { rel: 'stylesheet', href: '${to}style.css' }), put('script', { src: '${to}script.js' }),
        put('script', { textContent: 'window.came = true' }), put('iframe', { src: '${to}frame' }), put('object', { data: '${to}object' }), put('style', { textContent: 'body { color: red }' })])
        setTimeout(() => it.remove(), 500);
    setTimeout(() => { try { (0, eval)('window.came = true'); } catch {} }); // what the tests themselves evaluate at once may
    await new Promise(go => setTimeout(go, 600));
    document.removeEventListener('securitypolicyviolation', heard);
    return { came: window.came === true, refused: [...new Set(refused)].sort().join(' ') };
})()`;
const REFUSED = 'connect-src frame-src img-src object-src script-src script-src-elem style-src-elem';

/** @param {import('./tools.mjs').Page} page @param {string} url */
async function tries(page, url) {
    const other = await serve(folder);
    try {
        await page.go(url);
        await pane(page, 'machine');
        await page.click('button[data-run="hello"]');
        await isTold(page, 'paper', 'HELLO');
        const { came, refused } = await page.look(TRY(other.url));
        same(REFUSED, refused, 'what was refused');
        holds(!came, 'a script that is not of the server ran');
        same('', other.asked.join(), 'what came out');
    } finally {
        other.end();
    }
}

await run('closed', {
    'by its own policy the page asks no other place, and runs no other script': async page => {
        const bare = await serve(folder, {});
        try {
            await tries(page, bare.url);
        } finally {
            bare.end();
        }
    },
    'with the policy of a server too it works, and stands in no frame': async (page, url) => {
        await tries(page, url);
        await page.call('Page.navigate', { url: 'about:blank' });
        await page.until(`location.href === 'about:blank'`);
        await page.look(`new Promise(go => { const it = Object.assign(document.createElement('iframe'), { src: '${url}?framed', onload: go }); document.body.append(it); })`);
        const { frameTree } = await page.call('Page.getFrameTree'), [child] = frameTree.childFrames ?? [];
        holds(!child || child.frame.url.startsWith('chrome-error:') || child.frame.unreachableUrl, `the frame shows ${child?.frame.url}`);
    },
});
