// Answers for the page where there is no network, from its own files as they were last given. With a network all comes from there.
const CACHE = 'geivottu', worker = /** @type {ServiceWorkerGlobalScope} */ (/** @type {unknown} */ (self));
/** @type {string[]} */
const FILES = [/* the files of the page */];

worker.addEventListener('install', event => event.waitUntil(caches.open(CACHE).then(it => it.addAll(FILES)).then(() => worker.skipWaiting())));
worker.addEventListener('activate', event => event.waitUntil(worker.clients.claim()));
worker.addEventListener('fetch', event => {
    const { request } = event;
    if (request.method === 'GET' && new URL(request.url).origin === location.origin) event.respondWith(answer(request));
});

/** @param {Request} request */
async function answer(request) {
    const cache = await caches.open(CACHE);
    try {
        const given = await fetch(request);
        if (given.ok) await cache.put(request, given.clone());
        return given;
    } catch (error) {
        const kept = await cache.match(request, { ignoreSearch: true });
        if (kept) return kept;
        throw error;
    }
}
