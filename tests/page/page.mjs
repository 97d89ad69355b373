// Shared by the tests of the page's logic: its modules, from the directory WEB or else out/web, and the calls of the module.

import { File } from 'node:buffer';
import { webcrypto } from 'node:crypto';
import { readFileSync } from 'node:fs';
import { join } from 'node:path';
import { fileURLToPath, pathToFileURL } from 'node:url';

// Globals of browsers that node 18 lacks.
globalThis.File ??= File;
globalThis.crypto ??= webcrypto;

export const top = fileURLToPath(new URL('../..', import.meta.url));
const web = process.env.WEB ?? join(top, 'out/web');

/** @param {string} name a file or a directory of the page */
export const pageFile = name => join(web, 'page', name);

/** @param {string} name a module of the page */
export const page = name => import(pathToFileURL(pageFile(name)).href);

/** @param {string} name a module of the core */
export const core = name => import(pathToFileURL(join(web, 'core', name)).href);

/** @param {string} name a module of cdscript */
export const command = name => import(pathToFileURL(join(web, 'command', name)).href);

const { Calls } = await core('module/calls.js');

export const calls = new Calls(new WebAssembly.Module(readFileSync(join(top, 'library/cdpatch.wasm'))));

const { Sha1 } = await page('app/hashing.js');

/** A stand-in for a worker that hashes. */
class HashWorker {
    constructor() {
        this.sha1 = new Sha1(calls);
    }

    postMessage({ module, sum }) {
        if (module) return;
        if (sum) this.sha1.add(sum);
        const digest = sum ? null : this.sha1.digest();
        setImmediate(() => this.onmessage({ data: { digest } }));
    }

    terminate() {}
}

/** The parts of a page with workers that hash. */
export const parts = { module: true, newWorker: () => new HashWorker() };

const { Pool, localWorker } = await core('pool/pool.js');
const { JOBS } = await core('jobs/jobs.js');

/** Parts that hash and survey images in this process, with a worker only for the SHA-1. */
export const summing = { pool: new Pool([localWorker(calls, JOBS)]), parts };

/** An image of undamaged sectors with this user data, padded with zeros. */
export function imageOf(users) {
    const bytes = new Uint8Array(2352 * users.length);
    users.forEach((user, block) => {
        const all = new Uint8Array(2048);
        all.set(user);
        bytes.set(calls.encode(calls.address(block), all), 2352 * block);
    });
    return imageOfBytes(bytes);
}

/** An image of these bytes whose first sector is block 0. */
export function imageOfBytes(bytes) {
    const reader = { size: bytes.length, read: async (at, length) => bytes.slice(at, at + length) };
    return { name: 'game.bin', bytes, reader, base: 0, addressed: 0, sectors: Math.floor(bytes.length / 2352) };
}

/** The file that results from these writes. */
export async function writtenBy(writes) {
    const bytes = new Uint8Array(Math.max(0, ...writes.map(({ position, data }) => position + (data.size ?? data.length))));
    for (const { position, data } of writes) bytes.set(new Uint8Array(await new Blob([data]).arrayBuffer()), position);
    return Buffer.from(bytes.buffer);
}
