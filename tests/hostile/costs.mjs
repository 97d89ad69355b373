// Measures how the time and the memory for an input grow with it.

import { readFileSync, writeFileSync } from 'node:fs';
import { setFlagsFromString } from 'node:v8';
import { runInNewContext } from 'node:vm';
import { GROWTH, ended } from './growth.mjs';

/** Sizes double from the smallest until one takes ENOUGH milliseconds of CPU time, or is the largest. */
const SMALLEST = 1 << 9;
const LARGEST = 1 << 14;
const ENOUGH = 60;
/** Differences up to this many milliseconds, and megabytes, are ignored. */
const NOISE = { time: 15, memory: 100 };
const LARGER = 4;
const MOST = 9;

setFlagsFromString('--expose-gc');
const collectGarbage = runInNewContext('gc');

/** The memory of this process in megabytes, and its largest value since it was reset; 0 where the system does not report them. */
function memory() {
    try {
        const text = readFileSync('/proc/self/status', 'latin1');
        return ['VmRSS', 'VmHWM'].map(key => Number(new RegExp(`^${key}:\\s*(\\d+) kB$`, 'm').exec(text)[1]) / 1024);
    } catch {
        return [0, 0];
    }
}

/** Frees what can be freed, and returns the memory that is left. */
function resetMemory() {
    collectGarbage();
    try {
        writeFileSync('/proc/self/clear_refs', '5');
    } catch {
        // Not on this system.
    }
    return memory()[0];
}

/** The CPU time in milliseconds of the fastest of some runs, and their largest memory in megabytes, above the least that was left before one. */
async function costOf(make, size, runs) {
    const cost = { time: Infinity, memory: 0 };
    let least = Infinity;
    for (let i = 0; i < runs; i++) {
        const job = make(size);
        least = Math.min(least, resetMemory());
        const begun = process.cpuUsage();
        await ended(job);
        const { user, system } = process.cpuUsage(begun);
        cost.time = Math.min(cost.time, (user + system) / 1000);
        cost.memory = Math.max(cost.memory, memory()[1] - least);
    }
    return cost;
}

/**
 * Measures a shape. Returns what two sizes cost, and the reason why that grows too fast, or null. An apparent failure is measured again.
 */
export async function growthOf(name) {
    const make = GROWTH[name];
    let size = SMALLEST;
    while (size < LARGEST && (await costOf(make, size, 2)).time < ENOUGH) size *= 2;
    for (let runs = 1; ; runs++) {
        const [small, large] = [await costOf(make, size, runs + 1), await costOf(make, LARGER * size, runs)];
        const over = ['time', 'memory'].filter(it => large[it] > MOST * small[it] + NOISE[it]);
        const cost = ({ time, memory: megabytes }) => `${time.toFixed()} ms and ${megabytes.toFixed()} MB`;
        const found = `size ${size} takes ${cost(small)}, and ${LARGER * size} takes ${cost(large)}`;
        const twice = Math.sqrt(large.time / small.time).toFixed(1);
        if (over.length === 0 || runs === 2) return { defect: over.length === 0 ? null : found, found: `twice as much takes ${twice} times as long: ${found}` };
    }
}
