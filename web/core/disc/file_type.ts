// Recognises the kind of a file: a raw image, or a format that has to be converted first.

import { readBytes, wholeOf, type Reader } from '../bytes.js';
import { textOfFile } from '../encodings/index.js';
import type { FileKind } from '../faults.js';
import { SECTOR_KIND, SECTOR_SIZE, USER_SIZE, type Calls } from '../module/index.js';
import { HEADERLESS_SIZE, imageTooLong, isSoundMode2, testMode2, withHeaders } from '../sectors/index.js';

// Recognises files of subchannels, which programs write beside an image: 96 bytes per sector, 12 for each channel. Q is the second one.

const CHANNELS_SIZE = 96;
/** The offset of channel Q, its size in bytes, and how many of these its checksum covers. */
const Q_AT = 12;
const Q_SIZE = 12;
const Q_SUMMED = 10;
const SAMPLED_CHANNELS = 32;

/** Whether the checksum of channel Q is right. It is a CRC-16, stored inverted. */
function isChannelQ(q: Uint8Array) {
    let sum = 0;
    for (const byte of q.subarray(0, Q_SUMMED)) {
        sum ^= byte << 8;
        for (let bit = 0; bit < 8; bit++) sum = (sum << 1 ^ (sum & 0x8000 ? 0x1021 : 0)) & 0xFFFF;
    }
    return (sum ^ 0xFFFF) === (q[Q_SUMMED] << 8 | q[Q_SUMMED + 1]);
}

/** Whether a file has the subchannels of an image: more than half of the sampled Q channels have the right checksum. */
async function isSubchannelFile(reader: Reader) {
    const sectors = reader.size / CHANNELS_SIZE;
    if (!Number.isInteger(sectors)) return false;
    const count = Math.min(sectors, SAMPLED_CHANNELS);
    let right = 0;
    for (let i = 0; i < count; i++) {
        const at = Math.floor(sectors * i / count) * CHANNELS_SIZE + Q_AT;
        right += Number(isChannelQ(await readBytes(reader, at, Q_SIZE)));
    }
    return 2 * right > count;
}

/** The bytes of a sector and its subchannels. */
export const SUBCHANNEL_SIZE = 2448;
const VOLUME_MARK = 16 * USER_SIZE + 1;
/** Larger files are not taken for cue sheets. */
export const LARGEST_SHEET = 1 << 17;
const SAMPLED_PAIRS = 32;
/** How many bytes at the start and at the end of a file are examined, and how many at the end of a ZIP archive, which lists its files. */
const LONGEST_BEGINNING = 96;
const EXAMINED_END = 12;
const LONGEST_DIRECTORY = 1 << 15;
const ZIP = 'PK\x03\x04';
/** The beginning of a GDI: the number of tracks, and the first track with its block, its type, and the bytes of a sector. */
const GDI = /^\s*\d{1,2}\s+1\s+\d+\s+[04]\s+2\d{3}\s/;
/** A text file has at least LEAST_TEXT bytes, and its first ones, at most TEXT_BEGINNING, are lines of text. */
const LEAST_TEXT = 64;
const TEXT_BEGINNING = 4096;
const NOT_IN_LINES = /[^\P{Cc}\t\n\r]/u;
/** The sync field, one character for each byte. */
const SYNC = `\0${'\xFF'.repeat(10)}\0`;
/** The offset of the header of a sector, and the bytes that scrambling adds to it (XOR). */
const HEADER = 12;
const SCRAMBLER = [0x01, 0x80, 0x00, 0x60];
/** If samples are on average at most NEAR bytes apart, SAMPLED_AT_ONCE bytes are read at a time, because even a short read takes time. */
const NEAR = 1 << 16;
const SAMPLED_AT_ONCE = 1 << 18;

/**
 * How files begin, one character for each byte, and what their first and last bytes must match besides. The first row that a file matches
 * counts.
 */
const BY_ENDS: [FileKind, string, RegExp?][] = [
    ['chd', 'MComprHD'], ['ecm', 'ECM\0'], ['mds', 'MEDIA DESCRIPTOR'], ['ccd', '[CloneCD]'],
    ['workbook', ZIP, /xl\/workbook\.xml|opendocument\.spreadsheet/],
    ['archive', ZIP], ['archive', '7z\xBC\xAF\x27\x1C'], ['archive', 'Rar!'], ['archive', '\x1F\x8B'],
    ['patch', 'PPF10'], ['patch', 'PPF20'], ['patch', 'PPF30'], ['patch', '\xD6\xC3\xC4'], ['patch', '%XDELTA%'], ['patch', '%XDZ'],
    ['patch', 'PATCH', /EOF(?:[^]{3})?$/], ['patch', 'BPS1'], ['patch', 'UPS1'],
    ['wave', 'RIFF', /^RIFF[^]{4}WAVE/], ['nrg', '', /NER5[^]{8}$|NERO[^]{4}$/],
];

/** The kind of a file according to its first and last bytes, one character each; undefined if these do not show it. */
export function kindByEnds(ends: string) {
    const known = BY_ENDS.find(([, beginning, more]) => ends.startsWith(beginning) && (more === undefined || more.test(ends)));
    return known && known[0];
}

/** The kind of a file according to its first and last bytes alone; undefined if these do not show it. */
export async function kindOfEnds(reader: Reader) {
    const begins = await latin(reader, 0, LONGEST_BEGINNING);
    const size = begins.startsWith(ZIP) ? LONGEST_DIRECTORY : EXAMINED_END;
    return kindByEnds(begins + await latin(reader, Math.max(reader.size - size, 0), size));
}

/** The kind of a file, from its size, its first and last bytes, and a few of its sectors. */
export async function kindOfFile(calls: Calls, reader: Reader): Promise<FileKind> {
    return (await recognised(calls, reader)).kind;
}

/** The kind of a file, and the bytes of a cue sheet; null for other files. */
export async function recognised(calls: Calls, reader: Reader): Promise<{ kind: FileKind, sheet: Uint8Array | null }> {
    const { kind, sheet } = await recognisedByBytes(calls, reader);
    return { kind: imageTooLong(reader.size) && (kind === 'raw' || kind === 'audio') ? 'long' : kind, sheet };
}

async function recognisedByBytes(calls: Calls, reader: Reader): Promise<{ kind: FileKind, sheet: Uint8Array | null }> {
    const kind = await kindByBytes(reader) || await kindBySectors(calls, reader);
    if (kind !== null) return { kind, sheet: null };
    const sheet = await sheetIn(reader);
    if (sheet !== null) return sheet;
    if (await beginsWithLines(reader)) return { kind: 'text', sheet: null };
    if (await isSubchannelFile(reader)) return { kind: 'sub', sheet: null };
    return { kind: reader.size % SECTOR_SIZE === 0 ? 'audio' : 'unknown', sheet: null };
}

/** The kind of a file that is empty, or whose first or last bytes or volume descriptor show it; null for any other file. */
async function kindByBytes(reader: Reader): Promise<FileKind | null> {
    if (reader.size === 0) return 'empty';
    const known = await kindOfEnds(reader);
    if (known) return known;
    return await latin(reader, VOLUME_MARK, 5) === 'CD001' ? 'iso' : null;
}

/** The kind of a file with sectors; null for other files. */
async function kindBySectors(calls: Calls, reader: Reader): Promise<FileKind | null> {
    const { synced: raw, scrambled } = await countSynced(calls, reader, SECTOR_SIZE);
    const { synced: longer } = await countSynced(calls, reader, SUBCHANNEL_SIZE);
    const one = reader.size === SUBCHANNEL_SIZE; // a single sector has no neighbour
    if (longer > raw || (one && longer > 0)) return 'subchannels';
    if (raw > 0) return 2 * scrambled > raw ? 'scrambled' : 'raw';
    if (await isUnaligned(reader)) return 'unaligned';
    return await isHeaderless(calls, reader) ? 'headerless' : null;
}

/** Whether a file begins with lines in UTF-8 without control characters. */
async function beginsWithLines(reader: Reader) {
    if (reader.size < LEAST_TEXT) return false;
    const bytes = await readBytes(reader, 0, Math.min(reader.size, TEXT_BEGINNING));
    try {
        const text = new TextDecoder('utf-8', { fatal: true }).decode(bytes, { stream: true });
        return text.includes('\n') && !NOT_IN_LINES.test(text);
    } catch {
        return false;
    }
}

/** Whether raw sectors begin in the middle of what would be the first one: two sync fields a sector apart. */
async function isUnaligned(reader: Reader) {
    if (reader.size < 2 * SECTOR_SIZE + SYNC.length) return false;
    const text = await latin(reader, 0, 2 * SECTOR_SIZE + SYNC.length);
    for (let at = text.indexOf(SYNC); at >= 0; at = text.indexOf(SYNC, at + 1)) {
        if (text.startsWith(SYNC, at + SECTOR_SIZE)) return true;
    }
    return false;
}

/**
 * Whether a file has Mode 2 sectors without sync fields and headers: one of the sampled sectors matches its codes. They include neither.
 */
async function isHeaderless(calls: Calls, reader: Reader) {
    if (reader.size % HEADERLESS_SIZE !== 0) return false;
    for await (const { sector } of sampledSectors(reader, HEADERLESS_SIZE, 2, SAMPLED_PAIRS)) {
        const raw = withHeaders(calls, sector, 0);
        if (isSoundMode2(testMode2(calls, raw, calls.survey(raw, 0), null)[0])) return true;
    }
    return false;
}

/** Bytes of a file, one character each. There are fewer if the file ends earlier. */
async function latin(reader: Reader, at: number, length: number) {
    const count = Math.max(Math.min(length, reader.size - at), 0);
    return String.fromCharCode(...await readBytes(reader, at, count));
}

/**
 * Samples sectors from all over a file, in groups of adjacent ones, the first and the last group among them: their numbers from 0, and at
 * most their first 2352 bytes.
 * @param size of a sector
 * @param together how many sectors a group has
 * @param most the most groups
 */
export async function* sampledSectors(reader: Reader, size: number, together: number, most: number) {
    const sectors = Math.floor(reader.size / size);
    const groups = Math.ceil(sectors / together);
    const taken = Math.min(groups, most);
    const least = reader.size <= NEAR * taken ? SAMPLED_AT_ONCE : 0;
    const end = sectors * size;
    let read = new Uint8Array(0);
    let from = 0;
    for (let i = 0; i < taken; i++) {
        const first = together * Math.floor((groups - 1) * i / Math.max(taken - 1, 1));
        const [begin, next] = [first * size, Math.min(first + together, sectors) * size];
        if (next > from + read.length) {
            read = await readBytes(reader, begin, Math.max(Math.min(least, end - begin), next - begin));
            from = begin;
        }
        const bytes = read.subarray(begin - from, next - from);
        for (let at = 0; at < bytes.length; at += size) {
            yield { number: first + at / size, sector: bytes.subarray(at, at + Math.min(size, SECTOR_SIZE)) };
        }
    }
}

/**
 * Counts the sampled sectors that begin with a sync field, and how many of these are scrambled. If the sectors have a different size, at
 * most one of two neighbours begins with a sync field.
 * @param size of a sector
 */
async function countSynced(calls: Calls, reader: Reader, size: number) {
    let [synced, scrambled] = [0, 0];
    for await (const { sector } of sampledSectors(reader, size, 2, SAMPLED_PAIRS)) {
        const kind = calls.kind(sector);
        synced += Number(kind !== SECTOR_KIND.NOSYNC);
        scrambled += Number(kind === SECTOR_KIND.OTHER && isScrambled(sector));
    }
    return { synced, scrambled };
}

/** Whether the descrambled header of a sector is valid: digits of an address, and a mode (ECMA-130, Annex B). */
function isScrambled(sector: Uint8Array) {
    const [minute, second, frame, mode] = SCRAMBLER.map((it, i) => it ^ sector[HEADER + i]);
    return [minute, second, frame].every(it => it >> 4 <= 9 && (it & 15) <= 9) && second < 0x60 && frame < 0x75 && mode <= 2;
}

/** Recognises a small file as a cue sheet, a TOC file, or a GDI; null if it is none of them. */
async function sheetIn(reader: Reader): Promise<{ kind: 'cue' | 'toc' | 'gdi', sheet: Uint8Array | null } | null> {
    if (reader.size > LARGEST_SHEET) return null;
    const bytes = await wholeOf(reader);
    // Letters are those of ASCII in each encoding of sheets, perhaps with 00 beside them. Decoding takes much longer than this test.
    const letters = new TextDecoder('latin1').decode(bytes).replaceAll('\0', '');
    if (GDI.test(letters)) return { kind: 'gdi', sheet: null };
    if (!/TRACK/i.test(letters)) return null;
    const lines = textOfFile(bytes).split(/\r\n|\r|\n/).map(line => line.trim());
    const has = (form: RegExp) => lines.some(line => form.test(line));
    if (has(/^FILE\s/i) && has(/^TRACK\s+\d/i)) return { kind: 'cue', sheet: bytes };
    return has(/^CD_(?:DA|ROM|ROM_XA|I)$/) && has(/^TRACK\s+(?:AUDIO|MODE)/) ? { kind: 'toc', sheet: null } : null;
}
