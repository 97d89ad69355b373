// The thread of bench/core.mjs that runs jobs.

import { parentPort, workerData } from 'node:worker_threads';
import { serving, transfersOf } from '../out/web/core/pool/index.js';
import { JOBS } from '../out/web/core/jobs/index.js';
import { Calls } from '../out/web/core/module/index.js';

const serve = serving(new Calls(workerData), JOBS);
parentPort.on('message', message => {
    const reply = serve(message);
    parentPort.postMessage(reply, transfersOf(reply));
});
