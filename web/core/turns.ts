// Interrupts long work regularly, so that signals, Cancel, and the display of the page are handled in between.

import { cancelled } from './faults.js';

/** Ends a job if it is aborted. */
export type Signal = { aborted: boolean };

/** How many milliseconds of work pass before other tasks get a turn. */
const WORK_TIME = 50;

/** How many items are sorted without a turn. */
const SORTED_AT_ONCE = 1 << 13;

let lastTurn = 0;

/** Whether other tasks are due a turn. A loop of millions of short steps asks this first, because it only reads the clock. */
export function isTurnDue() {
    return Date.now() - lastTurn >= WORK_TIME;
}

/**
 * Lets other tasks run if a turn is due. A loop over untrusted input awaits this in each step. Throws a Fault, `cancelled`, if the signal
 * ends the job.
 */
export async function letOthersIn(signal?: Signal) {
    if (signal && signal.aborted) throw cancelled();
    if (!isTurnDue()) return;
    await new Promise(resolve => { setTimeout(() => resolve(undefined)); });
    lastTurn = Date.now();
    if (signal && signal.aborted) throw cancelled();
}

/** How many items are collected before the clock is read. */
const COLLECTED_AT_ONCE = 64;

/** Collects items that are generated. Other tasks get turns in between. */
export async function collectedInTurns<T>(items: Iterable<T>, signal?: Signal) {
    const all = [];
    for (const it of items) {
        all.push(it);
        if (all.length % COLLECTED_AT_ONCE === 0 && isTurnDue()) await letOthersIn(signal);
    }
    return all;
}

/** Sorts items by their keys, stably. Other tasks get turns in between. */
export async function sortedInTurns<T>(items: T[], keyOf: (item: T) => number, signal?: Signal): Promise<T[]> {
    let runs: { key: number, item: T }[][] = [];
    for (let at = 0; at < items.length; at += SORTED_AT_ONCE) {
        const keyed = items.slice(at, at + SORTED_AT_ONCE).map(item => ({ key: keyOf(item), item }));
        runs.push(keyed.sort((a, b) => a.key - b.key));
        await letOthersIn(signal);
    }
    while (runs.length > 1) {
        const merged = [];
        for (let i = 0; i < runs.length; i += 2) merged.push(await mergedRuns(runs[i], runs[i + 1] || [], signal));
        runs = merged;
    }
    return runs.length === 0 ? [] : runs[0].map(({ item }) => item);
}

/** Merges two sorted runs. */
async function mergedRuns<T>(first: { key: number, item: T }[], second: { key: number, item: T }[], signal?: Signal) {
    const all = new Array(first.length + second.length);
    let [i, k] = [0, 0];
    for (let at = 0; at < all.length; at++) {
        const isFirst = k === second.length || (i < first.length && first[i].key <= second[k].key);
        all[at] = isFirst ? first[i++] : second[k++];
        if (at % SORTED_AT_ONCE === 0) await letOthersIn(signal);
    }
    return all;
}
