// Finds a text in a data track, in the order of its files.

import { usualBytes, type Encoding } from '../encodings/index.js';
import { Fault } from '../faults.js';
import { bytesAround, encodingsWith, endOfMatch, longestOf, searchText, unitsAlike, type Hit, type Hits } from '../texts/index.js';
import { replaceBytes } from './replace.js';
import type { OrderedImage } from '../disc/index.js';
import type { Place } from '../sectors/index.js';
import type { Engine, OpenedTrack, Watch } from './opened.js';

/** `loose` as in `unitsAlike`. */
type WantedText = { text: string, encodings: Encoding[], loose?: boolean };
/** The places of a text, and its encoding there. */
export type Places = { image: OrderedImage, encoding: Encoding, hits: Hit[] };
/**
 * The result of a search: the part that was searched; the hits in the first encoding that has any, and in the others; the names of the
 * encodings that were searched; and the failures of those that cannot express the text.
 */
type FoundText = { image: OrderedImage, best: Hits | null, others: Hits[], searched: string[], faults: Fault[] };

/**
 * Finds a text in a track. An encoding in which it occurs only in the middle of characters is listed last. Throws a Fault: `find/empty`,
 * `text` if no encoding has its characters, `cancelled`.
 * @param options how many hits are kept in each encoding, one at least
 */
export async function findText({ pool }: Pick<Engine, 'pool'>, opened: Pick<OpenedTrack, 'contents'>,
    { text, loose, limit, ...options }: WantedText & { limit: number }, watch?: Watch): Promise<FoundText> {
    if (text === '') throw new Fault('find/empty', {});
    const { part } = await opened.contents();
    const { encodings, names, faults } = encodingsWith(options.encodings, text, loose);
    const [best = null, ...others] = await searchText(pool, part, { text, encodings, limit, loose }, watch);
    return { image: part, best, others, searched: names, faults };
}

/**
 * Finds a text at a place, in the first encoding in which it is there. Throws a Fault if there is none.
 * @param options with a place in the whole image
 */
export async function findTextAt({ calls }: Pick<Engine, 'calls'>, opened: OpenedTrack,
    { text, loose, place, ...options }: WantedText & { place: Place }): Promise<Places> {
    const { image } = await opened.contents();
    const { encodings } = encodingsWith(options.encodings, text, loose);
    const isIn = place.block >= image.base && place.block < image.base + image.sectors;
    for (const encoding of isIn ? encodings : []) {
        const wanted = unitsAlike(encoding, text, loose);
        const { bytes } = await bytesAround(image, place, 0, longestOf(wanted));
        const size = endOfMatch(wanted, bytes, 0);
        if (size > 0) return { image, encoding, hits: [{ ...place, size }] };
    }
    const usual = usualBytes(unitsAlike(encodings[0], text));
    await replaceBytes(calls, image, place, usual, usual); // throws a Fault that names the differing byte
    throw new Fault('find/nothing', {});
}
