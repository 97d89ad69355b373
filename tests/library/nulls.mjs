// Passes a null pointer and size 0 to each call of a module that accepts bytes and their size: `node nulls.mjs MODULE`. Prints differences
// from the same call with a valid pointer and size 0.

import { Calls, Room, Size } from '../modules/calls.mjs';

const calls = new Calls(process.argv[2]);
const NONE = new Uint8Array(0);
const LINE = 16;
const PATCH = 16;
const PATCH_BYTES = 4096;
const DIGEST_STATE = 96;
const [INDEX, NAMED_BASE] = [32, 16];

/** @typedef {Uint8Array | Room | Size | number | boolean} Given */

function sector() {
    const room = new Room(2352);
    calls.call('cdpatch_encode', new Uint8Array([0, 2, 0]), new Uint8Array(2048), room);
    return room.bytes;
}

function patch() {
    const room = new Room(PATCH);
    const line = new TextEncoder().encode('set 5 0 41');
    calls.call('cdpatch_read_line', 1, new Size(0), line, new Size(line.length), room, new Room(PATCH_BYTES), new Room(PATCH_BYTES));
    return room.bytes;
}

function begun() {
    const room = new Room(DIGEST_STATE);
    calls.call('cdpatch_sha1_begin', room);
    return room.bytes;
}

/**
 * For each call its arguments; `none` is a pointer to no bytes.
 * @type {[string, (none: Given) => Given[]][]}
 */
const rows = [
    ['edc', none => [none, new Size(0)]],
    ['survey', none => [none, new Size(0), 0, none, new Size(0)]],
    ['merge_sector', none => [new Uint8Array([0, 2, 0]), new Uint8Array(2352), none, new Size(0), new Room(8)]],
    ['change_user', none => [new Room(sector()), new Size(7), none, new Size(0)]],
    ['carry_user', none => [new Room(sector()), new Size(2049), none, new Size(0)]],
    ['first_line', none => [none, new Size(0), new Room(LINE)]],
    ['read_line', none => [1, new Size(0), none, new Size(0), new Room(PATCH), new Room(PATCH_BYTES), new Room(PATCH_BYTES)]],
    ['apply_patch', none => [patch(), new Uint8Array(PATCH_BYTES), new Uint8Array(PATCH_BYTES), none, new Size(0), true, new Room(8)]],
    ['sha1_add', none => [new Room(begun()), none, new Size(0)]],
    ['index_script', none => [none, new Size(0), none, new Size(0), new Room(INDEX)]],
    ['script_base', none => [none, new Size(0), 0, new Room(NAMED_BASE)]],
];

/**
 * A call's result, and the bytes that it leaves in rooms.
 * @param {string} name
 * @param {Given[]} given
 */
function made(name, given) {
    const answer = String(calls.call(`cdpatch_${name}`, ...given));
    return [answer, ...given.map(it => it instanceof Room ? Buffer.from(it.bytes).toString('hex') : '')].join(' ');
}

let failures = 0;
for (const [name, given] of rows) {
    const [wanted, got] = [made(name, given(NONE)), made(name, given(0))];
    if (wanted !== got) console.log(`${name}: ${got} and not ${wanted}`);
    failures += Number(wanted !== got);
}
console.log(`${rows.length} calls, ${failures} differ`);
process.exitCode = Number(failures > 0);
