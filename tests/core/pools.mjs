// Shared by the tests of jobs: pools of this thread and of others, and the answers of jobs.

import { Worker } from 'node:worker_threads';
import { calls, core, module } from './common.mjs';

const { Pool, localWorker } = await core('pool/pool.js');
const { JOBS } = await core('jobs/jobs.js');

/** A pool that works in this thread. */
export const localPool = (table = JOBS) => new Pool([localWorker(calls, table)]);

/** Runs `use` with a pool of threads, and ends the threads afterwards. */
export async function withThreads(count, use) {
    const workers = Array.from({ length: count }, () => new Worker(new URL('worker.mjs', import.meta.url), { workerData: module }));
    try {
        return await use(new Pool(workers.map(threadWorker)));
    } finally {
        await Promise.all(workers.map(worker => worker.terminate()));
    }
}

function threadWorker(thread) {
    const worker = { post: (message, transfer) => thread.postMessage(message, transfer) };
    thread.on('message', reply => worker.onreply(reply));
    thread.on('error', error => worker.onfault(error));
    return worker;
}

/** The answers of a job, in the order of their delivery. */
export async function answersOf(pool, job, readers, args, how) {
    const answers = [];
    await pool.share(job, readers, args, how, answer => { answers.push(answer); });
    return answers;
}
