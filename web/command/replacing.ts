// The jobs that write scripts for a text or a file: `replace` and `replace-file`. The core applies each script before it is written.

import { fillerOf, usualBytes } from '../core/encodings/views.js';
import { Fault } from '../core/faults.js';
import { hexText } from '../core/bytes.js';
import { assertHasRoom, filledUp, findTextAt, replaceFile, replaceHits, type OpenedTrack, type Places } from '../core/tasks/index.js';
import { contextOf, unitsAlike } from '../core/texts/views.js';
import { ownFault, sentenceOf } from '../sentences/index.js';
import { checkListsJob, encodingsOf, foundText, replaceInFileJob, replaceListJob } from './listing.js';
import { entriesAtPath } from './looking.js';
import { placeGiven } from './options.js';
import { openTrackOf } from './opening.js';
import { sayOfRuns } from './printed.js';
import { writeFinished } from './scripts.js';
import type { Place } from '../core/sectors/views.js';
import type { Job, Target } from './job.js';

/** The maximum number of places that are listed if a text should occur once, but occurs at several places. */
const MOST_LISTED = 20;
const MOST_PLACES = 1000000;

/** The places at which a text occurs: the only one, or all with `--all`. Throws a Fault if there is none, or several without `--all`. */
async function wantedPlaces(job: Job, opened: OpenedTrack, text: string): Promise<Places> {
    const { all, inside } = job.options;
    const { image, best } = await foundText(job, opened, text, all ? MOST_PLACES : MOST_LISTED);
    if (best === null) throw ownFault('text not found');
    const { count, hits, encoding } = best;
    const doubt = count === 1 && !all && !inside ? await doubtText({ image, encoding, hits }) : '';
    if (doubt !== '') throw ownFault(`${doubt}: --inside replaces it anyway`);
    if (count === 1 || (all && count === hits.length)) return { image, encoding, hits };
    if (all) throw ownFault(`the text occurs ${count} times, but at most ${MOST_PLACES} can be replaced`);
    for (const hit of hits) {
        const { doubt: why, before, hit: own, after } = await contextOf(image, encoding, hit);
        const place = `found at block ${hit.block} offset ${hit.offset}${why === null ? '' : `, ${sentenceOf(why)}`}`;
        job.say(`${place}: ${[...before, own, ...after].join('')}`);
    }
    throw ownFault(`the text occurs ${count} times: give BLOCK and OFFSET of one, or --all`);
}

/** The message about the first place if it may begin in the middle of a character, else ''. */
async function doubtText({ image, encoding, hits: [hit] }: Places) {
    const { doubt } = await contextOf(image, encoding, hit, 0);
    return doubt === null ? '' : sentenceOf({ code: 'replace/hit-left', facts: { text: hit, why: doubt } });
}

/** The given place, at which the text must be. Reports if it may be in the middle of a character. */
async function placesAt(job: Job, opened: OpenedTrack, place: Place, text: string) {
    const { loose } = job.options;
    const places = await findTextAt(job, opened, { text, encodings: await encodingsOf(job), loose, place });
    const doubt = await doubtText(places);
    if (doubt !== '') job.say(doubt);
    return places;
}

/** The message about padding. `count` is the number of bytes added. */
function paddedText(count: number, fill: Uint8Array) {
    return `padded with ${count} ${count === 1 ? 'byte' : 'bytes'} (${hexText(fill)})`;
}

/** The new bytes, padded, for each size of the old text. Throws a Fault if they do not fit, or cannot be padded. */
function freshBytes(job: Job, { encoding, hits }: Places, text: string) {
    const bytes = usualBytes(unitsAlike(encoding, text));
    const fill = fillerOf(encoding, job.options.fill || null);
    const known: Map<number, Uint8Array> = new Map();
    for (const size of new Set(hits.map(hit => hit.size))) {
        assertHasRoom(encoding, bytes, size);
        const missing = size - bytes.length;
        if (missing > 0 && fill === null) throw ownFault(`${encoding.name} has no space character to pad with: give --fill`);
        known.set(size, filledUp(bytes, size, fill));
        if (missing > 0 && fill !== null) job.say(paddedText(missing, fill));
    }
    return known;
}

/**
 * Writes the script that replaces a text at places. Lists the places that are left out, and returns their number. Throws a Fault if the
 * only place is left out.
 */
async function writeReplaced(job: Job, target: Target, opened: OpenedTrack, places: Places,
    { text, inside }: { text: string, inside: boolean | undefined }) {
    const known = freshBytes(job, places, text);
    const { script, left } = await replaceHits(job, opened, { ...places, freshFor: size => known.get(size) as Uint8Array, inside });
    if (left.length === 1 && places.hits.length === 1) throw new Fault(left[0].why.code, left[0].why.facts);
    sayOfRuns(job, left, facts => sentenceOf({ code: 'replace/hit-left', facts }));
    if (script === null) throw ownFault('every place is left out, so no script was written');
    await writeFinished(job, target, script);
    return left.length;
}

export async function replaceJob(job: Job) {
    const { check, list, file } = job.options;
    if (check) return checkListsJob(job);
    if (list !== undefined) return file === undefined ? replaceListJob(job, list) : replaceInFileJob(job, file, list);
    const [name, ...more] = job.names;
    const [after, before, offset, block] = more.reverse();
    const given = block === undefined ? null : placeGiven(block, offset);
    if (given !== null && job.options.all) throw ownFault('--all cannot be used together with BLOCK and OFFSET');
    const target = await job.target();
    const opened = await openTrackOf(job, name, given !== null);
    const places = given === null ? await wantedPlaces(job, opened, before) : await placesAt(job, opened, given, before);
    const inside = given !== null || job.options.inside;
    return Number(await writeReplaced(job, target, opened, places, { text: after, inside }) > 0);
}

export async function replaceFileJob(job: Job) {
    const { fill } = job.options;
    if (fill === 'end' || (fill && fill.length !== 1)) throw ownFault('--fill must be one byte for replace-file');
    const target = await job.target();
    const opened = await openTrackOf(job, job.names[0]);
    const entries = await entriesAtPath(opened, job.names[1]);
    const { reader } = await job.files.image(job.names[2]);
    const made = await replaceFile(job, opened, { entries, newFile: reader, fill: fill && fill[0] });
    const { file } = made;
    sayOfRuns(job, made.left, left => sentenceOf({ code: 'script/left', facts: { runs: [left], image: opened.part.name } }));
    sayOfRuns(job, made.sharing, other => sentenceOf({ code: 'replace/shared-blocks', facts: { path: file.path, other } }));
    if (made.script === null) throw ownFault('these blocks of the file cannot be patched, so no script was written');
    if (fill && reader.size < file.size) job.say(paddedText(file.size - reader.size, fill));
    else if (reader.size !== file.size) job.say(`${file.path}: ${file.size} bytes, now ${reader.size}`);
    await writeFinished(job, target, made.script);
    return 0;
}
