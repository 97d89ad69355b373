// Shared by the tests of scripts between two images: changed images, and scripts applied to images.

import assert from 'node:assert/strict';
import { calls, core, joinedPieces, readerOf } from './common.mjs';

const { Refusal, readScript } = await core('script/script.js');
const { applyPatches } = await core('script/patches.js');
const { openTrack } = await core('tasks/opened.js');

export const RAW = 2352;
export const sectorAt = (image, i) => image.subarray(RAW * i, RAW * (i + 1));
export const countOf = image => Math.floor(image.length / RAW);

/** An image whose addresses agree with its base. */
export const imageOf = (bytes, base, reader = readerOf(bytes)) =>
    ({ name: 'image.bin', reader, base, addressed: base, sectors: countOf(bytes), tail: bytes.length % RAW });

/** An opened track that consists of an image without a cue sheet. */
export const trackIn = image => openTrack({ sheet: null, files: [image], tracks: [{ number: 1, type: '', file: 0, block: image.base, sectors: image.sectors, image, part: image }] });

export const trackOf = (bytes, base, reader) => trackIn(imageOf(bytes, base, reader));

/** A consistent sector for a block. */
export const sound = (block, user) => calls.encode(calls.address(block) ?? Uint8Array.of(1, 2, 3), user);

/** A consistent image of random user data, most of it zeros. */
export function soundImage(dice, count, base, tail = 0) {
    const image = new Uint8Array(count * RAW + tail).fill(9);
    for (let i = 0; i < count; i++) {
        const user = new Uint8Array(2048);
        for (let k = dice(300); k > 0; k--) user[dice(2048)] = dice(256);
        image.set(sound(base + i, user), RAW * i);
    }
    return image;
}

/** Ways to change a sector: each returns the changed sector. */
export const CHANGES = {
    bytes: (sector, dice) => withUser(sector, user => { for (let k = 1 + dice(9); k > 0; k--) user[dice(2048)] ^= 1 + dice(255); }),
    run: (sector, dice) => withUser(sector, user => user.fill(dice(256), dice(2048), dice(2048))),
    whole: (sector, dice) => withUser(sector, user => user.forEach((_, i) => { user[i] = dice(256); })),
    address: (sector, dice) => calls.encode(calls.address(dice(400000)), sector.slice(16, 2064)),
    both: (sector, dice) => CHANGES.whole(CHANGES.address(sector, dice), dice),
    sound: sector => calls.encode(sector.slice(12, 15), sector.slice(16, 2064)),
    damaged: (sector, dice) => withByte(sector, 16 + dice(2336), 1 + dice(255)),
    noAddress: sector => calls.encode(Uint8Array.of(0, 0x7A, 0), sector.slice(16, 2064)),
    lateSecond: sector => calls.encode(Uint8Array.of(0x10, 0x60, 0), sector.slice(16, 2064)),
    mode: (sector, dice) => withByte(sector, 15, 1 + dice(3)),
    sync: (sector, dice) => withByte(sector, dice(12), 1 + dice(255)),
    audio: (sector, dice) => sector.map(() => dice(256)),
};

/** The consistent sector with changed user data. */
function withUser(sector, change) {
    const user = sector.slice(16, 2064);
    change(user);
    return calls.encode(sector.slice(12, 15), user);
}

function withByte(sector, place, value) {
    const other = sector.slice();
    other[place] ^= value;
    return other;
}

/** A copy of an image in which one of every `few` sectors, on average, is changed in one of these ways. */
export function changedImage(dice, image, ways, few = 3) {
    const changed = image.slice();
    for (let i = 0; i < countOf(image); i++) {
        if (dice(few) === 0) changed.set(CHANGES[ways[dice(ways.length)]](sectorAt(changed, i), dice), RAW * i);
    }
    return changed;
}

export const textOf = script => Buffer.concat(script.pieces).toString('latin1');

/** The image after a script. No patch may be refused. */
export async function patchedBy(script, image, base, carry = false) {
    const read = await readScript(calls, script.pieces ?? script, true);
    assert.ok(!(read instanceof Refusal), Buffer.from(read.text ?? '').toString());
    const made = await applyPatches(calls, readerOf(image), read, { base, carry });
    assert.equal(made.status, 0, Buffer.from(made.text).toString());
    return joinedPieces(image, made.pieces);
}

/** The blocks of runs, each with its run's other properties. */
export const blocksOf = runs => runs.flatMap(({ first, last, ...said }) =>
    Array.from({ length: last - first + 1 }, (_, i) => ({ block: first + i, ...said })));
