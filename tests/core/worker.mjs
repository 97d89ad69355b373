// A worker for tests: the core's jobs in a thread of node.

import { parentPort, workerData } from 'node:worker_threads';
import { core } from './common.mjs';

const { Calls } = await core('module/calls.js');
const { serving, transfersOf } = await core('pool/pool.js');
const { JOBS } = await core('jobs/jobs.js');
const serve = serving(new Calls(workerData), JOBS);
parentPort.on('message', message => {
    const reply = serve(message);
    parentPort.postMessage(reply, transfersOf(reply));
});
