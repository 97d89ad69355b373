// Repeats the calls that random_calls.c has recorded on a module: `replay.mjs MODULE < RECORDS`. Prints the first differences, and how often
// each call was made. Calls that the module does not export are skipped.

import { Calls, Room, Size } from '../modules/calls.mjs';
import { Input } from '../lib/input.mjs';

const SHOWN = 10;

/** @typedef {{ given: Uint8Array | Room | Size | number, after?: Uint8Array }} Argument */

/**
 * @param {Input} input
 * @returns {Argument}
 */
function argument(input) {
    const letter = String.fromCharCode(input.take(1)[0]);
    if (letter === 'z') return { given: 0 };
    if (letter === 'n') return { given: Number(input.number(8)) };
    if (letter === 's') return { given: new Size(input.number(8)) };
    const size = Number(input.number(4));
    const bytes = input.take(size).slice();
    return letter === 'i' ? { given: bytes } : { given: new Room(bytes), after: input.take(size).slice() };
}

/**
 * @param {number | bigint | undefined} result of a call
 * @param {bigint} wanted
 */
function same(result, wanted) {
    return (typeof result === 'bigint' ? BigInt.asUintN(64, result) : BigInt((result ?? 0) >>> 0)) === wanted;
}

const calls = new Calls(process.argv[2]);
const input = new Input();
/** @type {Map<string, number>} */
const made = new Map();
let [number, differ] = [0, 0];
for (; !input.ended(); number++) {
    const name = input.text(0);
    const taken = Array.from({ length: input.take(1)[0] }, () => argument(input));
    const wanted = input.number(8);
    if (calls.exports[`cdpatch_${name}`] === undefined) continue;
    const result = calls.call(`cdpatch_${name}`, ...taken.map(({ given }) => given));
    const left = taken.every(({ given, after }) => !(given instanceof Room) || !after || Buffer.compare(given.bytes, after) === 0);
    const right = same(result, wanted) && left;
    if (!right && differ++ < SHOWN) console.log(`call ${number}, ${name}: ${result}, and not ${wanted}, or other bytes`);
    made.set(name, (made.get(name) ?? 0) + 1);
}
console.log([...made].sort().map(([name, count]) => `${name} ${count}`).join(', '));
console.log(`${number} calls, ${[...made.values()].reduce((sum, count) => sum + count, 0)} by the module, ${differ} differ`);
process.exitCode = Number(differ > 0 || number === 0);
