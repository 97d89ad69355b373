// An opened data track, with its files, and its sectors in the order of these files.

import type { Reader } from '../bytes.js';
import { dataTrack, type Disc, type DiscImage, type DiscTrack, type OrderedImage } from '../disc/index.js';
import { cancelled, failedBy, type Fault } from '../faults.js';
import { fileOrder, filesOf, wholeFile, type FileEntry, type VolumeFiles } from '../iso/index.js';
import { SECTOR_SIZE, sectorCount, type Calls } from '../module/index.js';
import type { Sharer, Sharing } from '../pool/index.js';
import { watchedReader } from '../readers/index.js';

// A reader that reports its progress and can be cancelled.

/**
 * A reader that reports the sector in which each read begins, and the number of sectors. Its reads throw a Fault, `cancelled`, as soon as
 * the signal is aborted.
 */
export function watchedSectors(reader: Reader, { signal, progress }: Watch) {
    const all = sectorCount(reader.size);
    return watchedReader(reader, at => {
        if (signal?.aborted) throw cancelled();
        progress?.(Math.floor(at / SECTOR_SIZE), all);
    });
}

// The types that all tasks use.

/** The calls of a module for short work, and the pool that distributes long work. */
export interface Engine {
    calls: Calls;
    pool: Sharer;
}

/** Receives the progress of a task, and can cancel it. */
export type Watch = Pick<Sharing, 'signal' | 'progress'>;

type DataTrack = DiscTrack & { image: DiscImage, part: DiscImage };
/**
 * The contents of a track: its volume, or the failure (`volume`) to list one; its files, none without a volume; and the image and the part,
 * whose texts are read in the order of these files.
 */
export type TrackContents = { volume: VolumeFiles | null, fault: Fault | null, files: FileEntry[], image: OrderedImage,
    part: OrderedImage };

/** An image with a different first block. `shift` is how many blocks later it begins. */
function shifted(image: DiscImage, shift: number): DiscImage {
    return { ...image, base: image.base + shift, addressed: null };
}

/** A data track of a disc. Its files are read when they are first needed. */
export class OpenedTrack {
    reading: Promise<TrackContents> | null = null;
    track; image; part; byAddresses;

    /** @param byAddresses the same track before its base was set by hand */
    constructor(readonly disc: Disc, track: DataTrack, byAddresses: OpenedTrack | null = null) {
        const { image, part, ...own } = track;
        this.track = own;
        /** The whole file in which the track lies. */
        this.image = image;
        this.part = part;
        /** The track with the base from its addresses or its cue sheet. It is this object unless the base was set by hand. */
        this.byAddresses = byAddresses || (this as OpenedTrack);
    }

    /** @param base the first block of the image, set by hand */
    withBase(base: number) {
        const shift = base - this.image.base;
        const track = { ...this.track, image: shifted(this.image, shift), part: shifted(this.part, shift) };
        return new OpenedTrack(this.disc, track, this.byAddresses);
    }

    /** The contents of the track, which are read once. Throws what the reader throws. */
    contents() {
        if (this.reading === null) {
            const reading = contentsOf(this.image, this.part);
            reading.catch(() => { this.reading = null; }); // the next call tries again
            this.reading = reading;
        }
        return this.reading;
    }
}

/**
 * Opens the data track with a number, or the first one. The first block of its image is `base`, or else the one that the addresses of its
 * sectors imply. Throws a Fault, `disc`, if there is no such track.
 */
export function openTrack(disc: Disc, { track = null, base }: { track?: number | null, base?: number } = {}) {
    const opened = new OpenedTrack(disc, dataTrack(disc, track));
    return base === undefined ? opened : opened.withBase(base);
}

/**
 * Another track, with the base that a task uses. A base that was set by hand for the first track is used for all, despite their addresses.
 */
export function trackBeside(first: OpenedTrack, other: OpenedTrack) {
    return first.byAddresses === first ? other : other.withBase(first.image.base);
}

/**
 * A file of a track, and its volume (`names`). Throws a Fault: `volume` if there is no volume, or a different one if the entries are not a
 * file.
 * @param entries all of one path
 */
export async function fileOfTrack(opened: Pick<OpenedTrack, 'contents'>, entries: FileEntry[]) {
    const { volume, fault } = await opened.contents();
    if (volume === null) throw fault;
    return { ...wholeFile(entries), names: volume };
}

async function contentsOf(image: DiscImage, part: DiscImage): Promise<TrackContents> {
    const { volume, fault } = await volumeOf(part);
    const files = volume === null ? [] : volume.files;
    const ordered = (it: DiscImage) => ({ ...it, order: fileOrder(it, files) });
    return { volume, fault, files, image: ordered(image), part: ordered(part) };
}

async function volumeOf({ reader, base }: DiscImage) {
    try {
        return { volume: await filesOf(reader, base), fault: null };
    } catch (error) {
        if (!failedBy(error, 'volume')) throw error;
        return { volume: null, fault: error };
    }
}
