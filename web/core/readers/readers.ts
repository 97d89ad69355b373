// Readers that are made from other readers.

import { READ_SIZE, extentOf, firstAfter, forwardOf, pieceWithin, readBytes, readInto, type Piece, type Reader } from '../bytes.js';
import { newBytes } from '../faults.js';

// A reader that two callers share.

/** If a caller is at most this many bytes behind the other one, the bytes are not read again. */
const BEHIND = 1 << 20;

/** A reader for two callers that read forward, one a little behind the other. It keeps the last bytes for the second one. */
export function readerForTwo(reader: Reader): Reader {
    const ahead = forwardOf(reader);
    const known: { at: number, bytes: Uint8Array }[] = [];
    return {
        size: reader.size,
        async read(at, length) {
            const there = known.find(it => at >= it.at && at < it.at + it.bytes.length);
            if (there) return there.bytes.subarray(at - there.at, at - there.at + length);
            const bytes = await ahead.read(at, length);
            known.push({ at, bytes });
            while (known[0].at + known[0].bytes.length <= at - BEHIND) known.shift();
            return bytes;
        },
    };
}

// A reader of an image that exists only as a list of pieces.

/**
 * A reader of adjacent pieces, from the first one up to the end of the image. It reads the range from the source, unless the pieces have
 * all its bytes, and overwrites the changed bytes.
 * @param reader the source of the slices
 */
export function pieceReader(reader: Reader, pieces: Piece[]): Reader {
    const ends = pieces.map(piece => extentOf(piece).to);
    return {
        size: reader.size,
        async read(at, length, room = newBytes(length)) {
            const end = Math.min(at + length, reader.size);
            const bytes = room.subarray(0, end - at);
            const first = firstAfter(ends, at);
            let last = first;
            while (last < pieces.length && extentOf(pieces[last]).from < end) last++;
            const inside = pieces.slice(first, last);
            if (inside.some(piece => !('bytes' in piece))) await readInto(reader, at, bytes);
            for (const piece of inside) {
                const there = 'bytes' in piece && pieceWithin(piece, at, end);
                if (there) bytes.set(there.bytes, there.at - at);
            }
            return bytes;
        },
        forward: () => pieceReader(forwardOf(reader), pieces),
    };
}

// Combines reads of an image that are close together.

/** The fewest bytes that are read at a time, unless the image ends or a part of them is buffered. */
const LEAST = 1 << 15;

/** A buffer of the bytes of an image that were read last. It reads more at a time if the next request is close to the buffer's end. */
export class ReadAhead {
    at = 0;
    bytes = new Uint8Array(0);
    room = new Uint8Array(0);
    wanted = LEAST;
    reader;

    /** @param reader of the image, which is read forward from now on */
    constructor(reader: Reader) {
        this.reader = forwardOf(reader);
    }

    /** Buffered bytes of the image, not copied; null if they have to be read first. */
    here(at: number, size: number) {
        const from = at - this.at;
        return from >= 0 && from + size <= this.bytes.length ? this.bytes.subarray(from, from + size) : null;
    }

    /** As many whole units of a range as are buffered, from its start on, not copied; null if the first one has to be read. */
    units(at: number, size: number, unit: number) {
        const there = Math.min(this.at + this.bytes.length - at, size);
        return there < unit ? null : this.here(at, there - there % unit);
    }

    /** Bytes of the image, which are read if they are not buffered. They are valid until the next request. */
    async bytesAt(at: number, size: number) {
        return this.here(at, size) || this.read(at, size);
    }

    /** Bytes of the image that begin in the buffer or at its end. Missing bytes are read. Null if the range begins elsewhere. */
    async bytesOn(at: number, size: number) {
        const isOn = this.bytes.length > 0 && at >= this.at && at <= this.at + this.bytes.length;
        return isOn ? this.bytesAt(at, size) : null;
    }

    /**
     * Reads bytes, and those after them that the same read returns. Buffered bytes are not read again. In that case nothing after the range
     * is read either, so that few bytes are moved.
     */
    async read(at: number, size: number) {
        const end = this.at + this.bytes.length;
        const kept = this.bytes.subarray(at < this.at ? this.bytes.length : at - this.at);
        const from = at + kept.length;
        const missing = size - kept.length;
        this.wanted = from - end < this.wanted ? Math.min(2 * this.wanted, READ_SIZE) : LEAST;
        const length = Math.min(kept.length > 0 ? missing : Math.max(missing, this.wanted), this.reader.size - from);
        const room = this.roomAfter(kept, length);
        if (kept.length === 0) this.bytes = await readBytes(this.reader, from, length, room, Math.min(missing, length));
        else {
            await readInto(this.reader, from, room);
            this.bytes = this.room.subarray(0, kept.length + length);
        }
        this.at = at;
        return this.bytes.subarray(0, size);
    }

    /** Room for bytes after the kept ones, which are moved to the front of the buffer. */
    roomAfter(kept: Uint8Array, length: number) {
        const size = kept.length + length;
        const room = this.room.length < size ? newBytes(size) : this.room;
        room.set(kept);
        this.room = room;
        return room.subarray(kept.length, size);
    }
}

// A reader of a part of a file.

/** A reader of a part of a file, for example of a track. */
export function sliceOf(reader: Reader, from: number, to: number): Reader {
    const size = to - from;
    const { lent } = reader;
    return {
        size,
        read: (at, length, room) => reader.read(from + at, Math.max(Math.min(length, size - at), 0), room),
        lent: lent && ((at, length) => lent(from + at, length)),
    };
}

// A reader that reports its reads.

/**
 * Wraps a reader so that a callback is called before each read, with the place where the read begins.
 * @param onRead the callback; an exception that it throws ends the read
 */
export function watchedReader(reader: Reader, onRead: (at: number) => void): Reader {
    const { forward } = reader;
    return {
        ...reader,
        async read(at, length, room) {
            onRead(at);
            return reader.read(at, length, room);
        },
        forward: forward && (() => watchedReader(forward(), onRead)),
    };
}

// A reader of a file that is padded.

/** A reader of a file that is padded to a size with one byte. */
export function filledReader(reader: Reader, size: number, fill: number = 0): Reader {
    return {
        size,
        async read(at, length) {
            if (at < reader.size) return reader.read(at, Math.min(length, reader.size - at));
            return new Uint8Array(Math.min(length, size - at)).fill(fill);
        },
    };
}
