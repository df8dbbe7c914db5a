// A page from a file is no page from a server: its modules are not loaded.
if (location.protocol === 'file:') {
    const it = /** @type {HTMLElement} */ (document.getElementById('trouble'));
    it.textContent = 'This page works from a server of static files, and not from a file. In its folder: python3 -m http.server --bind 127.0.0.1 8008, and then http://127.0.0.1:8008/';
    it.hidden = false;
}
