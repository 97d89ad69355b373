// Replaces node:fs/promises where there is no node. Bundlers for browsers include it in place of that module.

import { Fault } from './errors.js';

export async function stat(): Promise<never> {
    throw new Fault('openFile works only in node; in a browser, use a File or a Blob as the image');
}

export async function readFile(): Promise<never> {
    throw new Fault('a page that is opened as a file cannot load a module; serve it over HTTP, or pass the bytes of cdpatch.wasm to load');
}

export { stat as open };
