// Lists the records of a table of fixed width: one row for each, whether it is likely to be a text or not.

import { hexText, type Reader } from '../bytes.js';
import { fillerOf, fillerSizeAt, sizeBeforeFilling, withEnd, type Encoding } from '../encodings/index.js';
import { readerOfFile, wholeFile, type FileEntry } from '../iso/index.js';
import { ReadAhead } from '../readers/index.js';
import { EncodingChooser, cellOf, shownPlace, visible, type ListedText } from '../texts/index.js';
import { isTurnDue, letOthersIn } from '../turns.js';
import { exportedPieces, type ExportOptions } from './list_tables.js';
import type { OpenedTrack, Watch } from './opened.js';

/**
 * The records of a file: each begins `every` bytes after the one before it, the first one after `skip` bytes, and its text has up to
 * `length` bytes. `limit` is how many there are at most.
 */
export type Layout = { every: number, length: number, skip?: number, limit?: number };
/** The file, and the encoding, or null for the usual one in which the records read best; and the byte that ends texts, if it is known. */
type ListedRecords = Layout & { entries: FileEntry[], encoding: Encoding | null } & Pick<ExportOptions, 'end'>;
export type RecordOptions = ListedRecords & Pick<ExportOptions, 'form' | 'freshOf'>;
/** Where its text begins in the file, and the bytes of the text. */
type TableRecord = { at: number, bytes: Uint8Array };

/** The least and the greatest value of each number of a layout. */
export const LAYOUT_LIMITS = { every: [1, 1 << 20], length: [1, 4096], skip: [0, 1e12] } as const;

/** How many records are read in all usual encodings. */
const MOST_RECORDS_COMPARED = 1 << 16;

/** How many rows are formatted at a time. */
const ROWS_AT_ONCE = 1024;

/** Whether the text of a record would overlap the next record. */
export function recordsOverlap({ every, length }: Layout) {
    return every < length;
}

/** The table of the records of a file, as listRecords lists them. */
export async function exportRecords(opened: Pick<OpenedTrack, 'contents'>, { form, freshOf, ...listed }: RecordOptions, watch: Watch = {}) {
    const { texts, ...made } = await listRecords(opened, listed, watch);
    return { ...made, table: exportedPieces(texts, { form, freshOf }, true) };
}

/**
 * Lists the records of a file that are whole, as texts. `encoding` is the one in which they are read, and `filler` has the bytes of the
 * most frequent character after their texts. Throws what the reader throws, and a Fault: `path` or `extents` if the bytes of the file are
 * not simply those of its blocks, `cancelled`.
 */
export async function listRecords(opened: Pick<OpenedTrack, 'contents'>, { entries, ...options }: ListedRecords, watch: Watch = {}) {
    const { part } = await opened.contents();
    const file = wholeFile(entries);
    const { reader, placeOf } = readerOfFile(part, file);
    const records = () => recordsIn(reader, options, watch);
    const encoding = withEnd(options.encoding || await bestEncoding(records(), watch.signal), options.end);
    const filler = await usualFiller(encoding, records());
    // A code such as {00}, because spreadsheets turn 00 into 0.
    const fill = codeOfBytes(filler);
    const listed = ({ at, bytes }: TableRecord) => {
        const place = { ...shownPlace(part, placeOf(at)), file: `${visible(file.path)}+${at}` };
        return { ...place, ...textOf(encoding, bytes), room: options.length, encoding: encoding.name, fill };
    };
    return { encoding, filler, texts: listedIn(records(), listed) };
}

/** The text of a record, and its size. An empty record is the code of its first filler, so that it can have a new text. */
function textOf(encoding: Encoding, bytes: Uint8Array) {
    const size = sizeBeforeFilling(encoding, bytes);
    if (size > 0) return { bytes: size, text: cellOf(encoding, bytes.subarray(0, size)) };
    const filler = fillerSizeAt(encoding, bytes, 0, bytes.length);
    return { bytes: filler, text: codeOfBytes(bytes.subarray(0, filler)) };
}

function codeOfBytes(bytes: Uint8Array) {
    return `{${hexText(bytes)}}`;
}

/**
 * Yields the records of a file. The bytes of each are valid until the next one.
 * @param reader of the file
 */
async function* recordsIn(reader: Reader, { every, length, skip = 0, limit = Infinity }: Layout,
    { signal, progress }: Watch): AsyncGenerator<TableRecord> {
    const ahead = new ReadAhead(reader);
    const count = Math.min(Math.floor((reader.size - skip - length) / every) + 1, limit);
    for (let i = 0; i < count; i++) {
        if (isTurnDue()) await letOthersIn(signal);
        if (progress && i % ROWS_AT_ONCE === 0) progress(i, count);
        const at = skip + i * every;
        yield { at, bytes: await ahead.bytesAt(at, length) };
    }
}

/** The usual encoding in which the first records read best. */
async function bestEncoding(records: AsyncIterable<TableRecord>, signal: Watch['signal']) {
    const chooser = new EncodingChooser();
    await chooser.prepare(signal);
    let count = 0;
    for await (const { bytes } of records) {
        chooser.add(bytes);
        count += 1;
        if (count === MOST_RECORDS_COMPARED) break;
    }
    return chooser.best();
}

/** The most frequent filler directly after the texts of records; that of empty records if no text has any; 00 if these have none either. */
async function usualFiller(encoding: Encoding, records: AsyncIterable<TableRecord>) {
    /** By digits. */
    const fillers: Map<string, { bytes: Uint8Array, texts: number, empty: number }> = new Map();
    for await (const { bytes } of records) {
        const from = sizeBeforeFilling(encoding, bytes);
        const filler = bytes.slice(from, from + fillerSizeAt(encoding, bytes, from, bytes.length));
        const known = fillers.get(hexText(filler)) || { bytes: filler, texts: 0, empty: 0 };
        if (filler.length > 0) fillers.set(hexText(filler), known);
        known[from > 0 ? 'texts' : 'empty'] += 1;
    }
    const [first] = [...fillers.values()].sort((a, b) => b.texts - a.texts || b.empty - a.empty);
    return first ? first.bytes : fillerIfNone(encoding);
}

/** The filler of a table whose records have none: 00 with the bytes of a character, or the space if 00 is a visible character. */
function fillerIfNone(encoding: Encoding) {
    const size = fillerSizeAt(encoding, new Uint8Array(2), 0, 2);
    return fillerOf(encoding, size > 0 ? new Uint8Array(size) : null) || Uint8Array.of(0);
}

/** Yields records as listed texts. */
async function* listedIn(records: AsyncIterable<TableRecord>, listed: (record: TableRecord) => ListedText): AsyncGenerator<ListedText[]> {
    let some = [];
    for await (const record of records) {
        if (some.push(listed(record)) < ROWS_AT_ONCE) continue;
        yield some;
        some = [];
    }
    yield some;
}
