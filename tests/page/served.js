// Starts the page from its source modules, which a loopback server serves with the repository as its root.

import { startPage } from '/out/web/page/main.js';

async function servedParts() {
    const module = await WebAssembly.compile(await (await fetch('/library/cdpatch.wasm')).arrayBuffer());
    return { module, newWorker: () => new Worker('/out/web/page/worker.js', { type: 'module' }), made: [] };
}

startPage(servedParts()).then(app => { Object.assign(globalThis, { app }); });
