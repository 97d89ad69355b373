// A disc with a file whose extents lie apart.

import { calls, core, encoded, readerOf } from './common.mjs';
import { recordOf, volumeOf } from './strangers.mjs';

const { openTrack } = await core('tasks/index.js');
const { openDisc } = await core('disc/disc.js');

const USER = 2048;

export const TEXT = 'press start';

const APART = [recordOf('BIG', 30, 2 * USER, { flags: 128 }), recordOf('BIG', 20, USER, { flags: 0 })];

/** A disc whose file /BIG continues after block 31 in block 20, with a text across that border, and the same text in block 36. */
export async function openedDisc(records = APART, text = encoded(TEXT)) {
    const user = volumeOf(40, sector => sector === 18 ? records : []);
    user.set(text.subarray(0, 5), 32 * USER - 5);
    user.set(text.subarray(5), 20 * USER);
    user.set(text, 36 * USER + 100);
    const reader = readerOf(calls.encodeBlocks(0, user));
    return { reader, opened: openTrack(await openDisc(calls, [{ name: 'game.bin', reader }])) };
}
