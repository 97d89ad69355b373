// Writes a patched image as a stream to a file, or as a Blob of slices of the old file with the patched sectors between them.

import {
    PieceKeeper, bytesOfPieces, extentOf, forwardOf, pieceWithin, readBytes, readInto, type Piece, type Reader,
} from '../../core/bytes.js';
import { Fault, cancelled, newBytes } from '../../core/faults.js';
import { BETWEEN_WRITTEN } from '../../core/script/views.js';
import { ownFault } from '../../sentences/index.js';
import { fileOf, fileReader } from '../open/index.js';
import { format, playerTexts } from '../texts/index.js';
import { nextTurn } from '../ui/index.js';
import { asDownloaded, canStream, chosenOther, downloadImage, downloadMade, type OpenFile } from './files_out.js';
import * as texts from '../texts/index.js';

// Cuts an image into regions to save it. Each region is written in one call: slices of the file with the patched sectors between them. A
// browser writes slices of a file twice as fast as bytes that the page has read.

type Extent = { from: number, to: number };
/** A part of the image. Its room holds the patched bytes already; its slices, in order, are not read yet. */
type Region = { at: number, size: number, slices: Extent[], patched: Extent[], room: Uint8Array };
/** A write in the form that FileSystemWritableFileStream accepts. */
export type Write = { type: 'write', position: number, data: Uint8Array | Blob };

const MOST_IN_REGION = 1 << 24;
/** Patched sectors with fewer bytes between them are written as one part, and slices with fewer bytes between them are one read. */
const PART_COST = BETWEEN_WRITTEN;

/** Cuts pieces, which are pushed in order, into regions. */
class RegionCutter {
    /** The room of this region, and of the one before it, which is still being written. */
    rooms = [new Uint8Array(0), new Uint8Array(0)];
    region;

    /** @param give receives a region; afterwards the memory of the region before is reused */
    constructor(readonly give: (region: Region) => Promise<void>) {
        this.region = this.regionAt(0);
    }

    regionAt(at: number): Region {
        return { at, size: 0, slices: [], patched: [], room: this.rooms[0] };
    }

    /** @param piece whose bytes may change after the call */
    async push(piece: Piece) {
        const { from, to } = extentOf(piece);
        for (let at = from, end = to; at < to; at = end) {
            if (this.region.size >= MOST_IN_REGION) await this.end();
            end = Math.min(at + MOST_IN_REGION - this.region.size, to);
            if ('bytes' in piece) this.put(piece.bytes.subarray(at - from, end - from));
            else this.region.slices.push({ from: at, to: end });
            this.region.size += end - at;
        }
    }

    /** @param bytes copied to the end of the region */
    put(bytes: Uint8Array) {
        const { region } = this;
        const at = region.at + region.size;
        roomOf(region).set(bytes, region.size);
        region.patched.push({ from: at, to: at + bytes.length });
    }

    /** Passes on the current region, unless it is empty. */
    async end() {
        const { region, rooms: [own, last] } = this;
        if (region.size > 0) await this.give(region);
        this.rooms = [last, region.room.length > 0 ? region.room : own];
        this.region = this.regionAt(region.at + region.size);
    }
}

/** The memory of a region, which is allocated when it is first needed. */
function roomOf(region: Region) {
    if (region.room.length === 0) region.room = newBytes(MOST_IN_REGION);
    return region.room;
}

/** Reads the parts of a region's slices that are in a range into its room. */
async function readSlices(reader: Reader, region: Region, from: number, to: number) {
    const wanted = region.slices.flatMap(slice => pieceWithin(slice, from, to) || []);
    if (wanted.length === 0) return;
    const placeOf = (it: Extent) => roomOf(region).subarray(it.from - region.at, it.to - region.at);
    const whole = { from: wanted[0].from, to: wanted[wanted.length - 1].to };
    const cost = wanted.reduce((sum, it) => sum + it.to - it.from + PART_COST, -PART_COST);
    if (cost <= whole.to - whole.from) {
        for (const it of wanted) await readInto(reader, it.from, placeOf(it));
        return;
    }
    const bytes = await readBytes(reader, whole.from, whole.to - whole.from);
    for (const it of wanted) placeOf(it).set(bytes.subarray(it.from - whole.from, it.to - whole.from));
}

/**
 * Reads all bytes of a region into its room.
 * @param reader that slices refer to
 */
async function bytesOfRegion(reader: Reader, region: Region) {
    await readSlices(reader, region, region.at, region.at + region.size);
    return roomOf(region).subarray(0, region.size);
}

/**
 * The data to write for a region: slices of the file with the patched sectors between them. If most of it is patched, or the image is not a
 * file, returns its bytes.
 * @param reader that slices refer to
 */
async function dataOfRegion(file: Blob | null, reader: Reader, region: Region) {
    const { at, size } = region;
    const patched = joinedExtents(region.patched);
    const bytes = patched.reduce((sum, { from, to }) => sum + to - from, 0);
    if (file === null || 2 * bytes > size) return bytesOfRegion(reader, region);
    const parts = [];
    let end = at;
    for (const { from, to } of patched) {
        await readSlices(reader, region, from, to);
        parts.push(file.slice(end, from), roomOf(region).subarray(from - at, to - at));
        end = to;
    }
    return new Blob([...parts, file.slice(end, at + size)]);
}

/** Joins ranges of patched bytes that are near each other. */
function joinedExtents(patched: Extent[]) {
    const found: Extent[] = [];
    for (const { from, to } of patched) {
        const last = found[found.length - 1];
        if (last && from - last.to < PART_COST) last.to = to;
        else found.push({ from, to });
    }
    return found;
}

/** Writes a file: a FileSystemWritableFileStream, or a substitute in a test. Bytes may change once they are written. */
export type Sink = { write(write: Write): Promise<void>, close(): Promise<void>, abort(): Promise<void> };
/**
 * Receives the number of bytes written, and cancels the save. `seen` receives all written bytes in order; they may change after it.
 * `accept` throws if the result must not be kept.
 */
type Watch = { signal: { aborted: boolean }, progress: (done: number) => void, seen?: (bytes: Uint8Array) => Promise<void>,
    accept?: () => Promise<void> };
/** Passes on the pieces of an image in order. */
type Maker = (take: (piece: Piece) => Promise<void>) => Promise<void>;

/** The Fault of a file that could not be written to its end. `done` is the number of bytes that were written. */
function unwritten(done: number, cause: unknown) {
    const full = cause instanceof Error && cause.name === 'QuotaExceededError';
    return new Fault('unwritten', { sentence: cause instanceof Error ? cause.message : String(cause), done, full });
}

/** Writes regions to a sink in order, preparing the next one while the previous one is written. */
class SinkWriter {
    done = 0;
    /** The current write: resolves to null, or to the error. */
    writing: Promise<unknown> = Promise.resolve(null);
    ahead;

    constructor(readonly sink: Sink, readonly reader: Reader, readonly watch: Watch) {
        this.ahead = forwardOf(reader);
    }

    async push(region: Region) {
        const data = await dataOfRegion(fileOf(this.reader), this.ahead, region);
        await this.settle();
        if (this.watch.signal.aborted) throw cancelled();
        this.writing = this.write({ type: 'write', position: region.at, data }, region.size).then(() => null, error => error);
        if (this.watch.seen) await this.watch.seen(data instanceof Blob ? await bytesOfRegion(this.ahead, region) : data);
    }

    async write(write: Write, size: number) {
        await this.sink.write(write).catch(error => this.fail(write, error));
        this.done += size;
        this.watch.progress(this.done);
    }

    /**
     * Throws the error of a failed write. A browser does not report whether a slice could not be read or not be written, so the last byte
     * is read again: if that fails, the error of the reader is thrown.
     */
    async fail({ position, data }: Write, error: unknown) {
        if (data instanceof Blob) await readBytes(this.reader, position + data.size - 1, 1);
        throw unwritten(this.done, error);
    }

    async settle() {
        const fault = await this.writing;
        if (fault !== null) throw fault;
    }
}

/**
 * Writes a patched image to a sink, and closes the sink only if everything was written and accepted. Returns the number of bytes. Throws a
 * Fault, `cancelled` or `unwritten`, and any error of the reader, `make`, and `accept`; then the sink was aborted.
 */
export async function saveToSink(sink: Sink, reader: Reader, make: Maker, watch: Watch) {
    const writer = new SinkWriter(sink, reader, watch);
    const regions = new RegionCutter(region => writer.push(region));
    try {
        await make(piece => regions.push(piece));
        await regions.end();
        await writer.settle();
        if (watch.accept) await watch.accept();
        if (watch.signal.aborted) throw cancelled();
        await sink.close().catch(error => {
            throw unwritten(writer.done, error);
        });
        return writer.done;
    } catch (error) {
        await sink.abort().catch(() => {});
        throw error;
    }
}

/** The number of parts of a Blob that are made in one turn: a browser needs up to a millisecond for each. */
const MOST_PARTS = 100;

/** The patched image as a Blob. It holds only the patched bytes; the rest are slices of the file. */
export async function blobOfPieces(file: Blob, pieces: Piece[]) {
    const blobs: Blob[] = [];
    for (let i = 0; i < pieces.length; i += MOST_PARTS) {
        if (i > 0) await nextTurn();
        const some = pieces.slice(i, i + MOST_PARTS);
        blobs.push(new Blob(some.map(piece => 'bytes' in piece ? piece.bytes : file.slice(piece.from, piece.to))));
    }
    const blob = new Blob(blobs, { type: 'application/octet-stream' });
    return asDownloaded(blob);
}

/**
 * Adds a remark to a file name: 'game.bin' becomes 'game (patched).bin'.
 * @param what the remark
 * @param ending replaces the name's own extension
 */
export function patchedName(name: string, what: string = texts.savePatchedInName, ending: string = '') {
    const [, stem, own] = /^(.*?)(\.[^.]*)?$/.exec(name) || ['', name, ''];
    return `${stem} (${what})${ending || own || '.bin'}`;
}

// Saves an image from pieces: as a stream to a file that the user chooses, or as a download.

/** A file's name; whether it was written to its end, or a download may still be running; and the file, null if the page cannot read it. */
export type SavedFile = { name: string, streamed: boolean, file: File | null };

/**
 * Saves an image. Returns null if the user chose no file. Throws a Fault if an open file was chosen, and any error of saveToSink; then
 * nothing is kept. So it does if the browser has stored another number of bytes than were written.
 * @param readers of the image that slices refer to, and of other files that must not be overwritten
 * @param making returns the maker of the pieces. It is called after the file was chosen: a browser lets a page open that dialog only
 *     shortly after a click.
 * @param name proposed to the user
 * @param opened all open files
 */
export async function saveImage(readers: Reader[], making: () => Promise<Maker>, name: string, opened: OpenFile[],
    watch: Watch): Promise<SavedFile | null> {
    if (!canStream()) return downloadPieces(readers[0], await making(), name, watch);
    const chosen = await chosenOther(name, readers, opened);
    if (chosen === null) return null;
    // A file that was there keeps its bytes until the new ones are complete.
    let isOurs = (await chosen.getFile()).size === 0;
    try {
        const make = await making();
        const wanted = await saveToSink(await chosen.createWritable(), readers[0], make, watch);
        isOurs = true;
        const file = await chosen.getFile().catch(() => null);
        if (file !== null && file.size !== wanted) throw ownFault(format(playerTexts.saveNotSavedToEnd, { size: file.size, wanted }));
        return { name: chosen.name, streamed: true, file };
    } catch (error) {
        if (isOurs && chosen.remove) await chosen.remove().catch(() => {});
        throw error;
    }
}

/** Returns a maker that passes on the given pieces. */
export function givingAll(pieces: Piece[]): Maker {
    return async take => {
        for (const piece of pieces) await take(piece);
    };
}

/** Starts the download of the image if it is accepted. */
async function downloadPieces(reader: Reader, make: Maker, name: string, { signal, progress, seen, accept }: Watch): Promise<SavedFile> {
    const source = fileOf(reader);
    let done = 0;
    const see = async (from: Reader, piece: Piece, take: (bytes: Uint8Array) => Promise<void> = async () => {}) => {
        for await (const bytes of bytesOfPieces(from, [piece])) {
            if (signal.aborted) throw cancelled();
            if (seen) await seen(bytes);
            await take(bytes);
            progress(done += bytes.length);
        }
    };
    const end = async () => {
        if (accept) await accept();
        if (signal.aborted) throw cancelled();
    };
    if (source === null) {
        return downloadMade(async take => {
            await make(piece => see(reader, piece, bytes => take(bytes.slice())));
            await end();
        }, name);
    }
    const pieces: Piece[] = [];
    const keeper = new PieceKeeper();
    await make(async piece => void pieces.push(keeper.kept(piece)));
    const blob = await blobOfPieces(source, pieces);
    const file = new File([blob], name);
    if (seen) await see(forwardOf(fileReader(file)), { from: 0, to: file.size });
    await end();
    downloadImage(blob, name);
    return { name, streamed: false, file };
}
