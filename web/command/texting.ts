// The job `texts`: prints a table of all texts of a data track, for translators.

import { hexText } from '../core/bytes.js';
import { USUAL_ENCODING, encodingOf } from '../core/encodings/views.js';
import { failedBy } from '../core/faults.js';
import {
    ListedSpans, exportRecords, exportTable, findPointers, newTextsOf, recordsOverlap, type ExportOptions, type OpenedTrack,
    type RecordOptions,
} from '../core/tasks/index.js';
import { ownFault, rowName, sentenceOf } from '../sentences/index.js';
import { filesNamed, ofLists, openTextsOf, tableIn } from './listing.js';
import { entriesAtPath, sayNoVolume } from './looking.js';
import type { ListedText } from '../core/texts/views.js';
import type { Job, Target } from './job.js';
import type { Options } from './options.js';

/** Writes a table, and returns the number of its texts. The Fault about a path that names no file says how to list the files. */
async function writeTable(target: Target, table: ReturnType<typeof exportTable>) {
    let texts = 0;
    try {
        for await (const { text, count } of table) {
            texts += count;
            await target.write(new TextEncoder().encode(text));
        }
    } catch (error) {
        if (failedBy(error, 'no-file')) throw ownFault(`${sentenceOf(error)}; cdscript files lists the files`);
        throw error;
    }
    return texts;
}

/** Reads the new texts of lists. */
async function newTextsNamed(job: Job, names: string[]) {
    const { news, fuzzy } = await ofLists(names, async () => newTextsOf(await filesNamed(job, names)));
    if (fuzzy > 0) job.say(sentenceOf({ code: 'list/fuzzy', facts: { count: fuzzy } }));
    return news;
}

/** The entries of the file whose records are listed: that of --file, or of the only --in. */
async function entriesOfRecords(job: Job, opened: Pick<OpenedTrack, 'contents'> & Partial<OpenedTrack>) {
    const [path] = job.options.in || [];
    return path === undefined ? (await opened.contents()).files : entriesAtPath(opened, path);
}

/** Writes a table of records of fixed width, and reports the encoding if none was given. Returns the number of records. */
async function writeRecords(job: Job, target: Target, opened: Pick<OpenedTrack, 'contents'> & Partial<OpenedTrack>,
    { encoding, ...how }: Pick<RecordOptions, 'encoding' | 'form' | 'freshOf' | 'end'>) {
    const { every = 1, length = 1, skip, limit } = job.options;
    const entries = await entriesOfRecords(job, opened);
    const made = await exportRecords(opened, { entries, every, length, skip, limit, encoding, ...how }, job.watch);
    const texts = await writeTable(target, made.table);
    if (encoding === null && texts > 0) job.say(`the records read best in ${made.encoding.name}; --encoding selects a different encoding`);
    return texts;
}

/** Throws a Fault if the options of records, or of all runs of characters, do not fit together. */
function assertListed({ any, every, length, in: paths = [], file }: Options) {
    if (any && paths.length + Number(file !== undefined) === 0) throw ownFault('--any needs --in PATH, or --file FILE');
    if (every === undefined || length === undefined) return;
    if (recordsOverlap({ every, length })) throw ownFault(`--every must be at least --length, so at least ${length}`);
    if (paths.length + Number(file !== undefined) !== 1) throw ownFault('--every needs one --in PATH, or --file FILE');
}

/** Reports the new texts of earlier lists that are not in this one. */
function sayUnused(job: Job, { unused, records }: Awaited<ReturnType<typeof newTextsNamed>>) {
    if (records > 0) job.say(`translations of records that were left out, since they need their own table: ${records}`);
    if (unused.size === 0) return;
    const some = Array.from(unused, rowName).slice(0, MOST_NAMED);
    job.say(`translations that match no text here: ${unused.size} (${some.join(', ')}${unused.size > some.length ? ', …' : ''})`);
    job.say('if the texts have moved, --po and msgmerge carry their translations over');
}

/** What to try if no text was found. `isAsked` says whether an encoding or a table was given. */
function nothingFound(isAsked: boolean) {
    const other = isAsked ? 'no text was found in this encoding: try a different one' :
        'no Japanese text was found: name the encoding of a different language with --encoding, such as Windows-1252';
    return `${other}; a game may have its own characters (--table), or compressed text`;
}

/** How many unused rows are named. */
const MOST_NAMED = 5;

/** Reports the bytes other than 00 with which the texts of files end. `paths` has the files of each. */
function sayEnds(job: Job, paths: Map<number, string[]>) {
    for (const [end, [first, ...others]] of paths) {
        const more = others.length === 0 ? '' : `, and those of ${others.length} more`;
        const texts = `the texts of ${first || 'sectors between files'}${more}`;
        job.say(`${texts} end with ${hexText(Uint8Array.of(end))}; --end selects a different byte`);
    }
}

export async function textsJob(job: Job) {
    const { encoding, table: file, end, csv, po, lines, min: least, in: paths, list, any, every, pointers } = job.options;
    assertListed(job.options);
    const named = encoding === undefined ? null : encodingOf(encoding);
    if (named !== null && !named.hasCharacters) {
        throw ownFault(`${named.name} is not a character encoding, so texts cannot be recognised in it`);
    }
    const { text: table, own } = file === undefined ? { text: undefined, own: named } : await tableIn(job, file);
    const target = await job.target();
    const forPointers = pointers === undefined ? null : await job.files.make(pointers);
    const opened = await openTextsOf(job);
    sayNoVolume(job, await opened.contents());
    const engine = { pool: job.pool.poolForTexts(opened.part.sectors) };
    const news = list && await newTextsNamed(job, list);
    const cells = csv ? 'csv' : 'tsv';
    const how: Pick<ExportOptions, 'form' | 'end' | 'freshOf'> = { form: po ? 'po' : cells, end, freshOf: news && (it => news.of(it)) };
    const ends = new Map<number, string[]>();
    const ended = (path: string, end: number) => void ends.set(end, [...ends.get(end) || [], path]);
    const listed = new ListedSpans();
    const seen = forPointers === null ? undefined : (some: ListedText[]) => listed.add(some);
    const anyIn = any && table === undefined ? encoding ?? USUAL_ENCODING.name : encoding;
    const exported = { encoding: anyIn, table, lines, least, any, paths, ended, seen, ...how };
    const texts = every === undefined ? await writeTable(target, exportTable(engine, opened, exported)) :
        await writeRecords(job, target, opened, { ...how, encoding: own });
    sayEnds(job, ends);
    job.say(`texts ${texts}`);
    if (forPointers !== null) {
        const { text, count, unsearched } = await findPointers(opened, listed, job.watch);
        await forPointers.write(new TextEncoder().encode(text));
        job.say(`tables of pointers ${count}`);
        if (unsearched !== null) job.say(sentenceOf(unsearched));
    }
    if (texts === 0) job.say(nothingFound(encoding !== undefined || table !== undefined));
    if (news) sayUnused(job, news);
    return Number(texts === 0);
}
