// The jobs that show the contents of a data track: `files`, `find`, and `show`.

import { bytesOfLines, hexText } from '../core/bytes.js';
import { filesLines, type FileEntry } from '../core/iso/views.js';
import { SECTOR_KIND, USER_SIZE, kindName } from '../core/module/index.js';
import { FIELDS, addressIn, addressText, findingOf, type Place } from '../core/sectors/views.js';
import { entriesNamed, pathFromRoot, sectorsOfRange, type OpenedTrack, type TrackContents } from '../core/tasks/index.js';
import {
    FilesAlong, LONGEST_CHARACTER, LOOKED_BACK, bytesAround, bytesInside, charactersFrom, contextsOf, shownCell, shownPlace, type Context,
    type Hit,
} from '../core/texts/views.js';
import { ownFault, sentenceOf } from '../sentences/index.js';
import { nearest, placeGiven } from './options.js';
import { openTrackOf } from './opening.js';
import { encodingsOf, foundText, openTextsOf } from './listing.js';
import { visible } from './printed.js';
import type { DiscImage, OrderedImage } from '../core/disc/views.js';
import type { Encoding } from '../core/encodings/views.js';
import type { Job, Target } from './job.js';

const DEFAULT_LIMIT = 1000;

/** The number of bytes in a row of `show`, and of bytes shown from an offset on. */
const ROW = 16;
const BYTES_SHOWN = 128;

/** The entries of the file with a path. Throws a Fault if there is none. */
export async function entriesAtPath(opened: Pick<OpenedTrack, 'contents'>, path: string) {
    const { volume, fault } = await opened.contents();
    if (volume === null) throw fault;
    const named = entriesNamed(volume.files, path);
    if (named.length > 0) return named;
    const meant = nearest(pathFromRoot(path), volume.files.map(file => pathFromRoot(file.path)));
    throw ownFault(`no file ${path} on the disc; ${meant === null ? 'cdscript files lists the files' : `did you mean ${meant}?`}`);
}

/** Reports why no file is named, if there is no volume. */
export function sayNoVolume(job: Job, { fault }: TrackContents) {
    if (fault !== null) job.say(`file names are unknown: ${sentenceOf(fault)}`);
}

export async function filesJob(job: Job) {
    const target = await job.target();
    const opened = await openTrackOf(job, job.names[0]);
    const { volume, fault } = await opened.contents();
    if (volume === null) throw fault;
    const { files, faults } = volume;
    await target.write(bytesOfLines(filesLines(files, visible, sentenceOf)));
    faults.forEach(it => job.say(sentenceOf(it)));
    return Number(faults.length > 0 || files.some(it => it.fault !== null));
}

/** The files that contain a place, each with its number of bytes before the place; '-' if there is none. */
function filesText(files: FilesAlong, place: Place) {
    return files.with(place).map(({ path, at }) => `${path}+${at}`).join(' ') || '-';
}

/** The files with printable paths, for places in order. */
function printedFiles(files: FileEntry[]) {
    return new FilesAlong(files.map(file => ({ ...file, path: visible(file.path) })));
}

function hitLine(image: OrderedImage, files: FilesAlong, hit: Hit, { before, hit: text, after, doubt }: Context) {
    const around = shownCell(visible(`${before.join('')}${text}${after.join('')}`));
    const { block, offset } = shownPlace(image, hit);
    return [block, offset, hit.size, filesText(files, hit), around, ...doubt === null ? [] : [sentenceOf(doubt)]].join('\t');
}

/** Writes the lines of hits. */
async function writeHits(target: Target, image: OrderedImage, files: FileEntry[], encoding: Encoding, hits: Hit[]) {
    const along = printedFiles(files);
    for await (const near of contextsOf(image, encoding, hits)) {
        await target.write(bytesOfLines(Array.from(near, ({ hit, context }) => hitLine(image, along, hit, context))));
    }
}

export async function findJob(job: Job) {
    const { limit = DEFAULT_LIMIT } = job.options;
    const target = await job.target();
    const opened = await openTextsOf(job);
    const [text] = job.names.slice(-1);
    const { image, best } = await foundText(job, opened, text, Math.max(limit, 1));
    const { count, hits } = best || { count: 0, hits: [] };
    const printed = hits.slice(0, limit);
    if (best !== null) {
        const contents = await opened.contents();
        sayNoVolume(job, contents);
        await writeHits(target, image, contents.files, best.encoding, printed);
    }
    job.say(`hits ${count} printed ${printed.length}`);
    return Number(count === 0);
}

/**
 * Formats user bytes in rows of digits and text, with the number of each block after the first. A character is in the row in which it
 * begins.
 * @param place of the first byte
 * @param size the number of bytes shown, if there are that many
 */
async function rowLines(image: DiscImage, encoding: Encoding, place: Place, size: number) {
    const { at, bytes } = await bytesAround({ ...image, order: undefined }, place, LOOKED_BACK, size + LONGEST_CHARACTER);
    const shown = bytes.subarray(at, at + size);
    const texts = new Array(Math.ceil(shown.length / ROW)).fill('');
    for (const it of charactersFrom(encoding, bytes, at + bytesInside(encoding, bytes, at))) {
        if (encoding.hasCharacters && it.at < at + shown.length) texts[Math.floor((it.at - at) / ROW)] += visible(it.text);
    }
    return texts.flatMap((text, i) => {
        const offset = place.offset + i * ROW;
        const digits = hexText(shown.subarray(i * ROW, (i + 1) * ROW), ' ');
        const row = `${String(offset % USER_SIZE).padStart(4)}  ${digits}  ${text}`.trimEnd();
        return offset === USER_SIZE ? [`block ${place.block + 1}`, row] : [row];
    });
}

/**
 * The lines about a sector: its address and kind, the files that contain the byte at `place`, and of a Mode 1 sector the EDC, and what is
 * wrong with it.
 */
async function sectorLines(job: Job, opened: OpenedTrack, sector: Uint8Array, place: Place) {
    const found = findingOf(job.calls, place.block, job.calls.survey(sector, place.block));
    const contents = await opened.contents();
    sayNoVolume(job, contents);
    const kind = job.calls.kind(sector);
    const isMode1 = kind === SECTOR_KIND.MODE1;
    if (!isMode1) job.say(`block ${place.block} was not tested: show tests the codes of Mode 1 only`);
    const edc = isMode1 ? ` edc ${hexText(sector.subarray(FIELDS.edc, FIELDS.zeros))}` : '';
    return [
        `block ${place.block} address ${addressText(addressIn(sector, 0))} ${kindName(kind)}${edc}`,
        ...found === '' ? [] : [`wrong: ${found}`],
        `file ${filesText(printedFiles(contents.files), place)}`,
    ];
}

export async function showJob(job: Job) {
    const [name, blockText, offsetText = '0'] = job.names;
    const place = placeGiven(blockText, offsetText);
    const [encoding] = await encodingsOf(job);
    const first = Math.floor(place.offset / ROW) * ROW;
    const size = job.names.length < 3 ? USER_SIZE : BYTES_SHOWN;
    const target = await job.target();
    const opened = await openTrackOf(job, name, true);
    const { image } = opened;
    const lines = await sectorLines(job, opened, await sectorsOfRange(image, place, 1), place);
    await target.write(bytesOfLines([...lines, ...await rowLines(image, encoding, { block: place.block, offset: first }, size)]));
    return 0;
}
