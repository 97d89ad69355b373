// Times the core's jobs in node: `node bench/core.mjs THREADS JOB IMAGE [IMAGE..]`, with THREADS 0 for the main thread. Prints the seconds
// and the maximum memory of the process.

import { fstatSync, openSync, readFileSync, readSync, writeSync } from 'node:fs';
import { Worker } from 'node:worker_threads';
import { Pool, localWorker } from '../out/web/core/pool/index.js';
import { openDisc } from '../out/web/core/disc/index.js';
import { encodingOf } from '../out/web/core/encodings/index.js';
import { filesOf } from '../out/web/core/iso/index.js';
import { JOBS } from '../out/web/core/jobs/index.js';
import { Calls } from '../out/web/core/module/index.js';
import { auditText } from '../out/web/core/sectors/index.js';
import { compareTrack, openTrack, repairTrack } from '../out/web/core/tasks/index.js';
import { joinFound, sectorsBeyond } from '../out/web/core/texts/index.js';

const [threads, job, ...paths] = process.argv.slice(2);
const module = new WebAssembly.Module(readFileSync(new URL('../library/cdpatch.wasm', import.meta.url)));
const calls = new Calls(module);

/** A reader of a file. */
function readerOf(path) {
    const descriptor = openSync(path);
    return {
        size: fstatSync(descriptor).size,
        async read(at, length) {
            const bytes = new Uint8Array(length);
            const count = readSync(descriptor, bytes, 0, length, at);
            return count === length ? bytes : bytes.subarray(0, count);
        },
    };
}

/** A pool member that runs jobs in a thread of node. */
function threadWorker() {
    const thread = new Worker(new URL('core_worker.mjs', import.meta.url), { workerData: module });
    const worker = { post: (message, transfer) => thread.postMessage(message, transfer), onreply: () => {}, onfault: () => {} };
    thread.on('message', reply => worker.onreply(reply));
    thread.on('error', error => worker.onfault(error));
    return worker;
}

const step = Number(process.env.STEP || 1024);
const tracks = () => Promise.all(paths.map(async path => openTrack(await openDisc(calls, [{ name: path, reader: readerOf(path) }]))));
const out = process.env.OUT ? openSync(process.env.OUT, 'w') : null;
const write = bytes => { if (out !== null) writeSync(out, bytes); };

/** @type {Record<string, (pool: Pool, tracks: any[]) => Promise<unknown>>} */
const JOBS_TIMED = {
    async files(pool, [{ image }]) {
        return (await filesOf(image.reader, image.base)).files.length;
    },
    async find(pool, [{ image }]) {
        const wanted = encodingOf('CP932').units(process.env.TEXT || 'number 004242');
        const parts = [];
        const how = { base: image.base, step, beyond: sectorsBeyond(wanted) };
        await pool.share('find', [image.reader], { texts: [wanted], limit: 100 }, how, ([answer]) => { parts.push(answer); });
        return joinFound(parts, 100).count;
    },
    async survey(pool, [{ image }]) {
        const parts = [];
        await pool.share('survey', [image.reader], {}, { base: image.base, step }, answer => { parts.push(answer); });
        const records = Buffer.concat(parts.map(part => part.records));
        return auditText(calls, { block: image.base, records }, image.tail).text.length;
    },
    async diff(pool, [old, { image: fresh }]) {
        const { script, left } = await compareTrack({ calls, pool }, old, fresh.reader, {}, { step });
        if (script) script.pieces.forEach(write);
        return { left: left.length, bytes: script && script.size, patches: script && script.patches, long: script && script.long };
    },
    async merge(pool, [old, ...others]) {
        let pieces = 0;
        const { taken, damaged, disputed, different } = await repairTrack({ calls, pool }, old, others, () => { pieces += 1; }, { step });
        return { taken: taken.length, damaged: damaged.length, disputed: disputed.length, different, pieces };
    },
    async user(pool, [{ image }]) {
        await pool.share('user', [image.reader], {}, { base: image.base, step }, answer => { write(answer.user); });
    },
    async raw(pool, [image]) {
        await pool.share('raw', [image.reader], {}, { step, units: [2048] }, answer => { write(answer); });
    },
};

const opened = job === 'raw' ? paths.map(path => ({ reader: readerOf(path) })) : await tracks();
const begin = process.hrtime.bigint();
const pool = new Pool(Number(threads) === 0 ? [localWorker(calls, JOBS)] : Array.from({ length: Number(threads) }, threadWorker));
const result = await JOBS_TIMED[job](pool, opened);
const seconds = Number(process.hrtime.bigint() - begin) / 1e9;
const { user, system } = process.cpuUsage();
console.log(`${job} ${threads} threads: ${seconds.toFixed(2)} s, ${((user + system) / 1e6).toFixed(2)} s of the processor (${(system / 1e6).toFixed(2)} of the system), ${Math.round(process.resourceUsage().maxRSS / 1024)} MB`, JSON.stringify(result) ?? '');
if (Number(threads) > 0) process.exit();
