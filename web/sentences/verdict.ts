// The verdict on a file in words.

import { blocksIn, type Run } from '../core/sectors/views.js';
import type { Finding, Verdict } from '../core/tasks/index.js';

// Formats runs of blocks as words.

/**
 * Formats the blocks of runs, for example as 'block 3' or 'blocks 3, 5 to 6 and 9'. Blocks after the first runs are only counted.
 * @param runs one at least
 * @param most how many runs are listed
 */
export function blocksText(runs: Run[], most: number = runs.length) {
    const words = runs.slice(0, most).map(({ first, last }) => first === last ? String(first) : `${first} to ${last}`);
    const more = blocksIn(runs.slice(most));
    const last = more > 0 ? `${more} more` : words.pop();
    return `${blocksIn(runs) === 1 ? 'block' : 'blocks'} ${words.length > 0 ? `${words.join(', ')} and ` : ''}${last}`;
}

/** How many places are listed before which sectors are missing or extra. */
const MOST_PLACES = 3;

function counted(count: number, one: string, many: string = `${one}s`) {
    return `${count.toLocaleString('en')} ${count === 1 ? one : many}`;
}

function are(count: number) {
    return count === 1 ? 'is' : 'are';
}

function gapClause({ count, gaps }: Finding) {
    const places = gaps.map(({ first, last, isAtStart }) => isAtStart ? last + 1 : first).map(block => ({ first: block, last: block }));
    if (count > 1) return `sectors are missing or extra in ${count} places: before ${blocksText(places, MOST_PLACES)}`;
    const [{ by, isAtStart }] = gaps;
    const sectors = counted(Math.abs(by), by < 0 !== isAtStart ? 'extra sector' : 'sector');
    return `${sectors} ${are(Math.abs(by))} ${by < 0 !== isAtStart ? '' : 'missing '}before ${blocksText(places)}`;
}

function lostClause({ count, bytes }: Finding) {
    const hex = bytes.map(byte => byte.toString(16).toUpperCase().padStart(2, '0'));
    return `${counted(count, 'data sector')} ${are(count)} lost${hex.length === 0 ? '' : `, filled with ${hex.join(' and ')}`}`;
}

const CLAUSES: Record<Finding['code'], (finding: Finding, tested: number) => string> = {
    damaged: ({ count }, tested) => `${count.toLocaleString('en')} of ${counted(tested, 'data sector')} ${are(count)} damaged`,
    lost: lostClause,
    short: ({ count }) => `${counted(count, 'block')} of the volume ${are(count)} missing at the end`,
    cut: () => 'the last sector is incomplete',
    gap: gapClause,
    missing: ({ count }) => `${counted(count, 'track')} ${are(count)} in a missing file`,
    untested: ({ count }) => `${counted(count, 'Mode 2 sector')} could not be tested`,
    unread: ({ count }) => `${counted(count, 'data track')} without 2352-byte sectors ${count === 1 ? 'was' : 'were'} not tested`,
    address: ({ count }) => `${counted(count, 'sector')} ${count === 1 ? 'has' : 'have'} a wrong address`,
};

/** The verdict as a sentence without a capital and a full stop. */
export function verdictText({ level, findings, tested, without }: Verdict) {
    const more = without === 0 ? '' : `; ${counted(without, 'sector')} ${without === 1 ? 'has' : 'have'} no codes that show damage`;
    if (level === 'nothing') return `nothing was tested${more}`;
    const sound = `${counted(tested, 'data sector')}${without === 0 ? '' : ' with codes'}`;
    if (level === 'sound') return `${tested === 1 ? `the only ${sound.slice(2)} is` : `all ${sound} are`} sound${more}`;
    return `${findings.filter(isSaid).map(it => CLAUSES[it.code](it, tested)).join('; ')}${more}`;
}

/** Whether a finding is said. The wrong addresses after a gap result from it. */
function isSaid({ code, count, gaps }: Finding) {
    return code !== 'address' || count > blocksIn(gaps);
}
