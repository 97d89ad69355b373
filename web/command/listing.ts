// What the jobs with texts share: the scripts and lists of `replace --list`, the option --file, and the search for a text.

import { PieceCutter, wholeOf } from '../core/bytes.js';
import { SEARCHED, encodingOf, linesLeftOut, tableInTurns, tableTextOf, withEnd, type Encoding } from '../core/encodings/views.js';
import { MOST_PATCHES } from '../core/module/index.js';
import { tablesOfList, type ListedTable } from '../core/pointers/views.js';
import {
    checkLists, findText, importIntoFile, importMoving, importTable, openPlainFile, type ImportedTable, type OpenedTrack,
} from '../core/tasks/index.js';
import { ownFault, sentenceOf } from '../sentences/index.js';
import type { Job } from './job.js';
import { openTrackOf } from './opening.js';
import { linesOfRuns, sayOfRuns, visible } from './printed.js';
import { writeFinished } from './scripts.js';
import { inFile } from './system.js';

// Finds texts in a data track, in a given encoding or in the usual ones.

/** The text of a file with a character table, and its encoding. Reports the lines of the table that are ignored. */
export function tableIn(job: Job, name: string) {
    return inFile(name, async () => {
        const text = tableTextOf(await wholeOf((await job.files.image(name)).reader));
        const own = await tableInTurns(text);
        const note = linesLeftOut(own);
        if (note !== null) job.sayOnce(sentenceOf(note));
        return { text, own };
    }, 'text');
}

/**
 * The encodings in which a text is searched for: the encoding or the table of the options, or else the usual encodings; with the byte of
 * the options that ends texts.
 */
export async function encodingsOf(job: Job): Promise<Encoding[]> {
    const { encoding, table, end } = job.options;
    if (table !== undefined) return [withEnd((await tableIn(job, table)).own, end)];
    return (encoding === undefined ? SEARCHED : [encodingOf(encoding) as Encoding]).map(it => withEnd(it, end));
}

/**
 * Searches for a text. Reports the encoding in which it was found, and others in which it occurs too; or the encodings in which it was not
 * found.
 * @param limit the maximum number of hits that are kept
 */
export async function foundText(job: Job, opened: Pick<OpenedTrack, 'contents'> & Partial<OpenedTrack>, text: string, limit: number) {
    const { options: { loose, encoding, table } } = job;
    const found = await findText(job, opened, { text, encodings: await encodingsOf(job), loose, limit });
    const { image, best, others, searched, faults } = found;
    faults.forEach(fault => job.say(sentenceOf(fault)));
    if (best === null) {
        const which = opened.disc && opened.track && opened.disc.sheet !== null ? `track ${opened.track.number} in ` : '';
        job.say(`searched ${which}${image.name} in these encodings: ${searched.join(', ')}`);
        return found;
    }
    if (encoding === undefined && table === undefined) job.say(`found in ${best.encoding.name}`);
    for (const { begins, encoding: { name } } of others) {
        job.say(begins ? `also found in ${name}: use --encoding ${name}` : `found in ${name} only in the middle of characters`);
    }
    return found;
}

/** The files of some names. */
export async function filesNamed(job: Job, names: string[]) {
    const files = [];
    for (const name of names) files.push({ name, reader: (await job.files.image(name)).reader });
    return files;
}

/** Reads lists. A failure in the only one names it; the core names that of several. */
export function ofLists<T>(names: string[], reading: () => Promise<T>) {
    return names.length === 1 ? inFile(names[0], reading, 'list', 'po') : reading();
}

/** Reports what a translator may have overlooked: codes that new texts leave out, characters that only they have, and fuzzy entries. */
function sayOverlooked(job: Job, { codes, glyphs, fuzzy }: Pick<ImportedTable, 'codes' | 'glyphs' | 'fuzzy'>) {
    sayOfRuns(job, codes, facts => sentenceOf({ code: 'list/code-left', facts }));
    if (glyphs.length > 0) job.say(sentenceOf({ code: 'list/new-characters', facts: { characters: glyphs } }));
    if (fuzzy > 0) job.say(sentenceOf({ code: 'list/fuzzy', facts: { count: fuzzy } }));
}

const OF_LACKING = 'if the font of the game can show a character that the encoding lacks, a character table (--table) gives it a code';

/**
 * Reports the rows that do not fit, and what a translator may have overlooked. Throws a Fault if all rows are needed and some do not fit.
 */
function sayOfLists(job: Job, { left, ...made }: Pick<ImportedTable, 'left' | 'codes' | 'glyphs' | 'fuzzy'>, output: 'script'
    | 'file') {
    sayOfRuns(job, left, facts => sentenceOf({ code: 'list/row-left', facts }));
    if (left.some(({ why }) => why.code === 'text/no-character')) job.say(OF_LACKING);
    sayOverlooked(job, made);
    if (left.length === 0 || job.options.partial) return;
    const [rows, them] = left.length === 1 ? ['1 row does', 'it'] : [`${left.length} rows do`, 'them'];
    throw ownFault(`${rows} not fit, so no ${output} was written; use --partial to leave ${them} out`);
}

/**
 * The options of an import. `isAsked` says whether the encodings replace the names in rows.
 * @param names of the lists
 */
async function importOptions(job: Job, names: string[]) {
    const { encoding, table, fill, partial = false } = job.options;
    const isAsked = encoding !== undefined || table !== undefined;
    return { encodings: await encodingsOf(job), isAsked, lists: await filesNamed(job, names), fill, partial };
}

/** The tables of pointers in a file. Reports if there are none, because then no text can move. */
async function pointersIn(job: Job, name: string) {
    const tables = await inFile(name, async () => tablesOfList((await job.files.image(name)).reader), 'pointers', 'list');
    if (tables.some(({ count }) => count > 0)) return tables;
    job.say(`${name} has no table of pointers, so all texts stay in place`);
    return [];
}

/** Imports lists whose texts may move, and reports those that have moved. */
async function importedMoving(job: Job, opened: OpenedTrack, options: Awaited<ReturnType<typeof importOptions>>, tables: ListedTable[]) {
    const { keep = [], pointers = '' } = job.options;
    const isKept = ({ number }: { number: number }) => keep.includes(number);
    const made = await inFile(pointers, () => importMoving(job, opened, { ...options, tables, isKept }, job.watch), 'pointers');
    for (const remarks of [made.moved, made.few, made.sharing]) sayOfRuns(job, remarks, it => sentenceOf(it));
    job.say(`texts moved ${made.moved.length}`);
    return made;
}

/** Reports a number of patches if cdpatch does not accept as many. */
function sayOfPatches(job: Job, patches: number) {
    if (patches > MOST_PATCHES) job.say(sentenceOf({ code: 'script/many', facts: { patches, most: MOST_PATCHES } }));
}

/** @param names of the lists */
export async function replaceListJob(job: Job, names: string[]) {
    const target = await job.target();
    const opened = await openTrackOf(job, job.names[0]);
    const { pointers } = job.options;
    const tables = pointers === undefined ? [] : await pointersIn(job, pointers);
    const options = { ...await importOptions(job, names), counted: (patches: number) => sayOfPatches(job, patches) };
    const { script, ...made } = await ofLists<Pick<ImportedTable, 'script' | 'left' | 'codes' | 'glyphs' | 'fuzzy'>>(names, () =>
        tables.length > 0 ? importedMoving(job, opened, options, tables) : importTable(job, opened, options));
    sayOfLists(job, made, 'script');
    if (script === null) throw ownFault('no row fits, so no script was written');
    await writeFinished(job, target, script);
    return Number(made.left.length > 0);
}

export async function checkListsJob(job: Job) {
    const options = await importOptions(job, job.names);
    const { count, left, untested, ...made } = await ofLists(job.names, () => checkLists(options));
    const lines = linesOfRuns(left, facts => visible(sentenceOf({ code: 'list/row-left', facts })));
    const last = `texts ${count} left out ${left.length} not tested ${untested} fuzzy ${made.fuzzy}`;
    await job.output.write(new TextEncoder().encode(`${[...lines, last].join('\n')}\n`));
    sayOverlooked(job, made);
    if (untested > 0) job.say('the tables do not contain the room and the encoding of all texts, so these were not tested');
    return Number(left.length + untested > 0);
}

// The option --file: a file that is not an image, in place of IMAGE.

/** Opens the file of --file, or the data track of the first argument. */
export async function openTextsOf(job: Job): Promise<Pick<OpenedTrack, 'part' | 'contents'> & Partial<OpenedTrack>> {
    const { file } = job.options;
    return file === undefined ? openTrackOf(job, job.names[0]) : openPlainFile(await job.files.image(file));
}

/**
 * The job `replace --file`: writes a copy of a file with the new texts of lists.
 * @param name of the file
 * @param lists the names of the lists
 */
export async function replaceInFileJob(job: Job, name: string, lists: string[]) {
    const { output } = job.options;
    if (output !== undefined) throw ownFault('with --file, replace writes OUT, and does not accept -o');
    const out = await job.files.make(job.names[0]);
    const file = await job.files.image(name);
    const { changes, ...made } = await ofLists(lists, async () =>
        importIntoFile(openPlainFile(file), await importOptions(job, lists), job.watch));
    sayOfLists(job, made, 'file');
    if (changes === null || changes.length === 0) throw ownFault('no row fits, so no file was written');
    const cutter = new PieceCutter(piece => out.writePiece(file.reader, piece));
    for (const { at, bytes } of changes) await cutter.put(at, bytes);
    await cutter.keep(file.reader.size);
    return Number(made.left.length > 0);
}
