// Counts the work of a call, which is the same on every machine, in place of its time. It must be imported before the sources: only code that
// is compiled after it is counted.

import { Session } from 'node:inspector';
import { examining } from './examined.mjs';

const TESTS = new URL('..', import.meta.url).href;

const session = new Session();
session.connect();
session.post('Profiler.enable');
session.post('Profiler.startPreciseCoverage', { callCount: true, detailed: true });

/** The number of blocks of the sources that were executed since the last call. */
function blocksSince() {
    let blocks = 0;
    session.post('Profiler.takePreciseCoverage', (_, { result }) => {
        for (const { url, functions } of result) {
            if (!url.startsWith('file:') || url.startsWith(TESTS)) continue;
            for (const { ranges } of functions) for (const { count } of ranges) blocks += count;
        }
    });
    return blocks;
}

/** The number of blocks of the sources that a call executes, and of characters that it examines. */
export async function workIn(use) {
    blocksSince();
    const end = examining();
    try {
        await use();
    } finally {
        end();
    }
    return blocksSince() + end();
}
