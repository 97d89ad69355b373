// Parses cue sheets: the tracks of a disc, and the bytes of each track in its file.

import { readBytes } from '../bytes.js';
import { textsOfFile } from '../encodings/index.js';
import { Fault } from '../faults.js';
import { SECTOR_KIND, SECTOR_SIZE, type Calls } from '../module/index.js';
import type { DiscImage } from './disc.js';
import { sampledSectors } from './file_type.js';

// Writes a cue sheet from what was read of one.

/** The text of a sheet: its files, tracks, flags, and times. No other bytes of the text from which it was read remain. */
export function textOfSheet({ files, points }: Sheet) {
    const lines: string[] = [];
    points.forEach((point, i) => {
        const { track, file, index, frame } = point;
        const [before, after] = [points[i - 1], points[i + 1]];
        if (before?.file !== file) lines.push(`FILE "${files[file].name}" ${files[file].format}`);
        if (before?.track !== track) lines.push(...beginOfTrack(track));
        lines.push(`    INDEX ${twoDigits(index)} ${timeOf(frame)}`);
        if (after?.track !== track && track.postgap > 0) lines.push(`    POSTGAP ${timeOf(track.postgap)}`);
    });
    return lines.map(line => `${line}\n`).join('');
}

function beginOfTrack({ number, type, flags, pregap }: SheetTrack) {
    return [`  TRACK ${twoDigits(number)} ${type}`, ...flags.length > 0 ? [`    FLAGS ${flags.join(' ')}`] : [],
        ...pregap > 0 ? [`    PREGAP ${timeOf(pregap)}`] : []];
}

function twoDigits(number: number) {
    return String(number).padStart(2, '0');
}

function timeOf(frames: number) {
    return [Math.floor(frames / 4500), Math.floor(frames / 75) % 60, frames % 75].map(twoDigits).join(':');
}

// Creates a cue sheet for an image without one, if it is a disc with one track.

const SAMPLED = 64;

/**
 * Whether an image looks like a whole disc with one Mode 1 track: it begins with block 0, has no tail, and all sampled sectors and the last
 * one are Mode 1. The first track of a disc with a file for each track looks the same.
 */
export async function isOneTrack(calls: Calls, { reader, addressed, tail }: DiscImage) {
    if (addressed !== 0 || tail > 0) return false;
    const isMode1 = (sector: Uint8Array) => calls.kind(sector) === SECTOR_KIND.MODE1;
    for await (const { sector } of sampledSectors(reader, SECTOR_SIZE, 1, SAMPLED)) {
        if (!isMode1(sector)) return false;
    }
    return isMode1(await readBytes(reader, reader.size - SECTOR_SIZE, SECTOR_SIZE));
}

/** The cue sheet of an image with one track; '' if a sheet cannot contain its name. */
export function sheetOfOneTrack(name: string) {
    return name.includes('"') ? '' : `FILE "${name}" BINARY\n  TRACK 01 MODE1/2352\n    INDEX 01 00:00:00\n`;
}

/** `raw` if its format is plain sectors, such as BINARY. */
type SheetFile = { name: string, format: string, raw: boolean };
/** The start of an index of a track in a file. */
type Point = { track: SheetTrack, index: number, file: number, frame: number };
type SheetTrack = { number: number, type: string, sectorSize: number, pregap: number, postgap: number, flags: string[],
    line: number };
export type Sheet = { files: SheetFile[], tracks: SheetTrack[], points: Point[] };
type FileRange = { file: number, at: number | null, end: number | null, block: number | null };
/**
 * A track. `at` to `end` are its bytes in file number `file`, from its INDEX 01 on, and `block` is its first block on the disc. Values that
 * a sheet does not determine are null: places in audio files, and blocks after these. `pregap` is how many bytes of its pregap precede
 * INDEX 01 in the same file.
 */
export type Track = { number: number, type: string, sectorSize: number, pregap: number } & FileRange;
/** From one index to the next, or to the end of the file. */
type IndexRange = { point: Point, end: number | null } & FileRange;

const RAW_FORMATS = ['BINARY', 'MOTOROLA'];
const FLAGS = ['DCP', '4CH', 'PRE', 'SCMS'];
/** Blocks count from the end of a pause of two seconds, with which the pregap of the first track begins. */
const FIRST_PAUSE = 150;
export const LAST_TRACK = 99;
/** The most files of a sheet. The pause of a track may have its own file. */
const MOST_FILES = 2 * LAST_TRACK;

/** Whether a file is called like a cue sheet. */
export function isSheetName(name: string) {
    return /\.cue$/i.test(name);
}

/** Parses a cue sheet. Commands that do not concern bytes, such as TITLE and REM, are ignored. Throws a Fault. */
export function sheetOf(text: string): Sheet {
    const sheet: Sheet = { files: [], tracks: [], points: [] };
    text.split(/\r\n|\r|\n/).forEach((line, i) => {
        const [, command, rest] = /^(\S*)\s*(.*)$/s.exec(line.trim()) || ['', '', ''];
        const read = SHEET_COMMANDS[command.toUpperCase()];
        if (read) read(sheet, rest, i + 1);
    });
    if (sheet.tracks.length === 0) throw new Fault('cue/no-track', {});
    for (const track of sheet.tracks) {
        if (!sheet.points.some(it => it.track === track && it.index === 1)) {
            throw new Fault('cue/no-index', { line: track.line, track: track.number });
        }
    }
    return sheet;
}

/**
 * Parses the bytes of a cue sheet, in each encoding that they may have. Only the names of the files show which one is right. Throws a
 * Fault.
 * @returns one, or two
 */
export function sheetsOf(bytes: Uint8Array): Sheet[] {
    const [text, ...others] = textsOfFile(bytes);
    return [sheetOf(text), ...others.map(sheetOf)];
}

const SHEET_COMMANDS: Record<string, (sheet: Sheet, rest: string, line: number) => void> = {
    FILE: readFileLine,
    TRACK: readTrackLine,
    INDEX: readIndexLine,
    PREGAP: (sheet, rest, line) => { trackBefore(sheet, line).pregap = framesOf(rest, line); },
    POSTGAP: (sheet, rest, line) => { trackBefore(sheet, line).postgap = framesOf(rest, line); },
    FLAGS: readFlagsLine,
};

function readFileLine(sheet: Sheet, rest: string, line: number) {
    const last = rest.split(/\s+/).slice(-1)[0];
    const before = rest.slice(0, rest.length - last.length).trimEnd();
    const [, name] = /^"([^"]*)"$/.exec(before) || /^([^"].*)$/s.exec(before) || [];
    if (name === undefined) throw new Fault('cue/file-words', { line });
    if (sheet.files.length >= MOST_FILES) throw new Fault('cue/too-many-files', { line, most: MOST_FILES });
    const format = last.toUpperCase();
    sheet.files.push({ name, format, raw: RAW_FORMATS.includes(format) });
}

function readTrackLine(sheet: Sheet, rest: string, line: number) {
    const found = /^(\d{1,2})\s+(\S+)$/.exec(rest);
    if (!found) throw new Fault('cue/track-words', { line });
    const number = Number(found[1]);
    const type = found[2].toUpperCase();
    const sectorSize = sizeOfType(type);
    if (sectorSize === 0) throw new Fault('cue/track-type', { line, type: found[2] });
    if (sheet.files.length === 0) throw new Fault('cue/no-file', { line });
    const before = sheet.tracks.length > 0 ? sheet.tracks[sheet.tracks.length - 1].number : 0;
    if (number <= before || number > LAST_TRACK) throw new Fault('cue/track-order', { line, track: number, before });
    sheet.tracks.push({ number, type, sectorSize, pregap: 0, postgap: 0, flags: [], line });
}

function readFlagsLine({ tracks }: Sheet, rest: string) {
    const words = rest.toUpperCase().split(/\s+/);
    for (const track of tracks.slice(-1)) track.flags = FLAGS.filter(it => words.includes(it));
}

/** The size in bytes of a sector of a track type; 0 for an unknown type. */
function sizeOfType(type: string) {
    const found = /^(?:MODE[12]|CDI)\/(2048|2324|2336|2352)$/.exec(type);
    if (found) return Number(found[1]);
    if (type === 'AUDIO') return SECTOR_SIZE;
    return type === 'CDG' ? 2448 : 0;
}

function readIndexLine(sheet: Sheet, rest: string, line: number) {
    const found = /^(\d{1,2})\s+(\S+)$/.exec(rest);
    if (!found) throw new Fault('cue/index-words', { line });
    const track = trackBefore(sheet, line);
    const index = Number(found[1]);
    const frame = framesOf(found[2], line);
    const file = sheet.files.length - 1;
    const last = sheet.points[sheet.points.length - 1];
    if (last && last.track === track && last.index >= index) throw new Fault('cue/index-late', { line, index: found[1] });
    if (last && last.file === file && last.frame > frame) throw new Fault('cue/index-back', { line, index: found[1] });
    sheet.points.push({ track, index, file, frame });
}

function trackBefore({ tracks }: Sheet, line: number) {
    if (tracks.length === 0) throw new Fault('cue/before-track', { line });
    return tracks[tracks.length - 1];
}

/**
 * Converts a time to a number of sectors.
 * @param time minutes, seconds, frames
 */
function framesOf(time: string, line: number) {
    const found = /^(\d{1,3}):([0-5]?\d):([0-6]?\d|7[0-4])$/.exec(time);
    if (!found) throw new Fault('cue/time', { line, time });
    return (60 * Number(found[1]) + Number(found[2])) * 75 + Number(found[3]);
}

/**
 * The tracks of a sheet, with their places in its files and on the disc.
 * @param sizes of its files in bytes
 */
export function tracksOf(sheet: Sheet, sizes: number[]): Track[] {
    const parts = placedParts(sheet, sheet.files.flatMap((_, file) => partsOfFile(sheet, file, sizes[file])));
    return sheet.tracks.map(track => {
        const all = parts.filter(part => part.point.track === track);
        const own = all.filter(part => part.point.index > 0);
        const [first, last] = [own[0], own[own.length - 1]];
        if (first.file !== last.file) throw new Fault('cue/two-files', { line: track.line, track: track.number });
        const { number, type, sectorSize } = track;
        const { file, at, block } = first;
        const begin = all[0].file === file ? all[0].at : at;
        return { number, type, sectorSize, pregap: Number(at) - Number(begin), file, at, end: last.end, block };
    });
}

/**
 * Splits a file at its indexes. Its tracks may have sectors of different sizes.
 * @param size in bytes
 */
function partsOfFile({ files, points }: Sheet, file: number, size: number): IndexRange[] {
    const own = points.filter(point => point.file === file);
    if (!files[file].raw) return own.map(point => ({ point, file, at: null, end: null, block: null }));
    let [at, frame] = [0, 0];
    let before = own.length > 0 ? own[0].track : null;
    const starts = own.map(point => {
        at += (point.frame - frame) * (before || point.track).sectorSize;
        frame = point.frame;
        before = point.track;
        const { number: track, line } = point.track;
        if (at > size) throw new Fault('cue/after-end', { line, track, name: files[file].name });
        return at;
    });
    return own.map((point, i) => ({ point, file, at: starts[i], end: i + 1 < own.length ? starts[i + 1] : size, block: null }));
}

/**
 * Adds the blocks of parts, which follow one another with the pauses that no file contains.
 * @param parts of all files
 */
function placedParts({ tracks }: Sheet, parts: IndexRange[]): IndexRange[] {
    let block = 0; // NaN after a file whose sectors are not known
    return parts.map((part, i) => {
        const { track, frame } = part.point;
        const before = i > 0 ? parts[i - 1] : null;
        if (!before || before.file !== part.file) block += frame;
        if (!before || before.point.track !== track) block += pauseBefore(tracks, tracks.indexOf(track));
        const own = Number.isNaN(block) ? null : block;
        block += part.at === null || part.end === null ? NaN : Math.floor((part.end - part.at) / track.sectorSize);
        return { ...part, block: own };
    });
}

/** The number of sectors before a track that no file contains. */
function pauseBefore(tracks: SheetTrack[], i: number) {
    return i === 0 ? Math.max(tracks[0].pregap - FIRST_PAUSE, 0) : tracks[i - 1].postgap + tracks[i].pregap;
}
