// Tries a module on the cases that tests/library/piece_cases.c prints: `node cases.mjs MODULE < CASES`. Prints the first differences, and the
// number of cases.

import { Calls } from './calls.mjs';
import { Input } from '../lib/input.mjs';
import { sameInPieces, sameOfLong } from './pieces.mjs';

/** @typedef {{ base: number, flags: number, status: number, sizes: number[], blank: number }} Head */

const SHOWN = 10;
const FAILED = 2;

const calls = new Calls(process.argv[2]);
const input = new Input();

/**
 * @param {Head} head
 * @param {Uint8Array[]} parts
 */
function compare({ base, flags, status, blank }, [image, script, text, out]) {
    if (blank > 0) sameOfLong(calls, { script, base, flags }, { sectors: image, size: blank }, { status, text, out });
    else sameInPieces(calls, { image, script, base, flags }, { status, text, out: status === FAILED ? null : out });
}

let [number, differ] = [0, 0];
for (; !input.ended(); number++) {
    const head = /** @type {Head} */ (JSON.parse(input.text(10)));
    const parts = head.sizes.map(size => input.take(size));
    try {
        compare(head, parts);
    } catch (fault) {
        if (differ++ < SHOWN) console.log(`case ${number}: ${fault}`);
    }
}
console.log(`${number} cases, ${differ} differ`);
process.exitCode = Number(differ > 0 || number === 0);
