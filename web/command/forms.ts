// The jobs of the command line, with their help texts.

import { applyJob, checkJob, diffJob, rebuildsJob, undoJob } from './scripts.js';
import { extractJob, mergeJob, rawJob, userJob } from './images.js';
import { infoJob } from './informing.js';
import { filesJob, findJob, showJob } from './looking.js';
import { OPTIONS, type OptionName } from './options.js';
import { replaceFileJob, replaceJob } from './replacing.js';
import { scanJob } from './scanning.js';
import { textsJob } from './texting.js';
import type { Job } from './job.js';

/**
 * A job: the function that does it and returns the status, its arguments, and its help. Of the arguments, a name that ends in `?` is
 * optional, a name that ends in `..` may occur several times, and those in brackets are optional together; `words` are arguments that are
 * not files. `instead` has the arguments with an option, and `own` the help of options that do something different in this job. A line feed
 * in `does` begins a new line. `ends` has the meaning of each status.
 */
export type Form = { job: (job: Job) => Promise<number>, takes: string[], words?: string[], instead?: Record<string, string[]>,
    options: OptionName[], says: string, does: string, ends?: Record<number, string>, example: string, own?: Partial<Record<OptionName,
    string>> };
const FROM_0 = 'The first sector is block 0 unless --base or a cue sheet says otherwise. An image whose addresses contradict that is ' +
    'refused.';

export const FORMS: Record<string, Form> = {
    'info': {
        job: infoJob, takes: ['IMAGE'], options: ['dat', 'json', 'base', 'track'], says: 'Identify a file, and report what it contains',
        does: 'Prints the verdict, SHA-1, tracks, base, kinds of sectors, and what is wrong with which sectors. For a file that is not a ' +
            'raw image, prints what to do with it.',
        ends: { 0: 'no findings', 1: 'findings, or not in the DAT', 2: 'failed' },
        example: 'cdscript info game.cue',
    },
    'scan': {
        job: scanJob, takes: ['PATH..'], options: ['dat', 'missing', 'json', 'resume', 'output'],
        says: 'Check all images of a collection',
        does: 'Prints a line for each file, with tabs between these columns:\n' +
            '1 name\n' +
            '2 kinds of sectors, or "none: " and the kind of file; then "tail N" if the last sector is incomplete, and ' +
            '"short N" if the image lacks N blocks of its volume\n' +
            '3 damaged sectors\n' +
            '4 findings\n' +
            '5 sectors with a wrong address\n' +
            '6 SHA-1\n' +
            '7 what the DAT says\n' +
            '8 bytes\n' +
            '9 modification time\n' +
            '10 CRC32\n' +
            '11 MD5\n' +
            '- means not tested, or not computed. PATH is an image, a cue sheet, or a directory.',
        ends: { 0: 'no findings', 1: 'findings, or not in the DAT', 2: 'a file could not be read' },
        example: 'cdscript scan /games --dat redump.dat --resume games.tsv',
    },
    'check': {
        job: checkJob, takes: ['IMAGE', 'SCRIPT'], options: ['track', 'base', 'carry', 'long'],
        says: "Report what a script's patches would do to an image",
        does: 'Prints what would happen to each patch, like cdpatch check. No file is written. ' +
            FROM_0,
        ends: { 0: 'all accepted', 1: 'some refused', 2: 'failed' },
        example: 'cdscript check game.cue english.txt',
    },
    'apply': {
        job: applyJob, takes: ['IMAGE', 'SCRIPT', 'OUT'], options: ['track', 'base', 'carry', 'long'],
        says: 'Apply a script to an image, and write a new file',
        does: 'Prints what happened to each patch, like cdpatch apply. OUT must not exist. It is IMAGE with all accepted patches ' +
            'applied. ' +
            FROM_0,
        ends: { 0: 'all applied', 1: 'some refused', 2: 'failed' },
        example: 'cdscript apply game.cue english.txt english.bin',
    },
    'files': {
        job: filesJob, takes: ['IMAGE'], options: ['track', 'base', 'output'], says: 'List the files on a disc',
        does: 'Prints the first block, the size in bytes, and the path of each file, separated by tabs.',
        ends: { 0: 'done', 1: 'a part of the file system could not be read', 2: 'failed' },
        example: 'cdscript files game.cue -o files.tsv',
    },
    'find': {
        job: findJob, takes: ['IMAGE', 'TEXT'], words: ['TEXT'], instead: { file: ['TEXT'] },
        options: ['encoding', 'table', 'loose', 'limit', 'file', 'track', 'base', 'output'],
        says: 'Find text in the user data of a disc',
        does: 'Prints block, offset, length in bytes, file with the offset in it, and the surrounding text, separated by tabs. ' +
            'Without --encoding it tries the encodings of Japanese discs. With --file, the block is "-", and the offset counts ' +
            'from the start of the file.',
        ends: { 0: 'found', 1: 'not found', 2: 'failed' },
        example: "cdscript find game.cue 'press start' --encoding CP932",
    },
    'texts': {
        job: textsJob, takes: ['IMAGE'], instead: { file: [] },
        options: ['encoding', 'table', 'end', 'in', 'any', 'min', 'lines', 'every', 'length', 'skip', 'limit', 'csv', 'po', 'list',
            'pointers', 'file', 'track', 'base', 'output'],
        own: { limit: 'print the first N records', encoding: 'the encoding of text, as for find, except hex' },
        says: 'Print a table of all text on a disc',
        does: 'Its columns are block, offset, bytes, room, encoding, file, text, and new. Write translations in the column new, for ' +
            '`replace --list`. A PO file has an entry for each distinct string. --list fills in the translations of an earlier ' +
            'table. Strings that are unlikely to be text are left out. Without --encoding it looks for text in the encodings of ' +
            'Japanese discs. With --file, the block is "-", and the offset counts from the start of the file. With --every and ' +
            '--length it prints a row for each record of one file, with a further column named fill: what pads a shorter ' +
            'translation.',
        ends: { 0: 'done', 1: 'none found', 2: 'failed' },
        example: 'cdscript texts game.cue -o texts.tsv',
    },
    'show': {
        job: showJob, takes: ['IMAGE', 'BLOCK', 'OFFSET?'], words: ['BLOCK', 'OFFSET'],
        options: ['encoding', 'table', 'track', 'base', 'output'],
        says: 'Show the user data of a block as hex and text',
        does: 'With OFFSET it shows 128 bytes, starting with the row of that byte.',
        ends: { 0: 'done', 2: 'failed' },
        example: 'cdscript show game.cue 1234 512',
    },
    'extract': {
        job: extractJob, takes: ['IMAGE', 'PATH', 'OUT'], words: ['PATH'], options: ['track', 'base'], says: 'Extract a file from a disc',
        does: 'PATH is a path that `cdscript files` prints.',
        ends: { 0: 'done', 1: 'some of its sectors are not Mode 1', 2: 'failed' },
        example: 'cdscript extract game.cue /DATA/TEXT.BIN text.bin',
    },
    'replace': {
        job: replaceJob, takes: ['IMAGE', '[BLOCK OFFSET]', 'OLD', 'NEW'], words: ['BLOCK', 'OFFSET', 'OLD', 'NEW'],
        instead: { check: ['LIST..'], file: ['OUT'], list: ['IMAGE'] },
        options: ['encoding', 'table', 'end', 'loose', 'fill', 'all', 'inside', 'list', 'pointers', 'keep', 'file', 'check', 'partial',
            'track', 'base', 'output'],
        says: 'Write a script that replaces text',
        does: 'Without BLOCK and OFFSET it searches for OLD, which must occur exactly once unless --all is given. A shorter NEW is ' +
            'padded with spaces (00 for hex) or with --fill. A longer NEW is refused.\n' +
            'With --list it reads a table with the columns block, offset, text, and new (room and encoding are optional), or a PO ' +
            'file from `texts --po`.\n' +
            'With --check it tests whether the translations of tables fit and can be encoded.\n' +
            'With --file and --list it makes OUT, a copy of FILE with the translations.',
        ends: { 0: 'done', 1: 'some places are left out (they are listed) or not tested', 2: 'failed' },
        example: "cdscript replace game.cue 'press start' 'Start' -o english.txt",
        own: {
            end: 'the byte that ends each text: --fill end writes it, and no translation replaces the last of it',
            partial: 'leave out the rows of the table that do not fit',
            pointers: 'move texts that are longer than their room, with the tables of pointers in this file from `texts --pointers`',
        },
    },
    'replace-file': {
        job: replaceFileJob, takes: ['IMAGE', 'PATH', 'FILE'], words: ['PATH'], options: ['fill', 'track', 'base', 'output'],
        own: { fill: 'pad with this byte, such as 20' },
        says: 'Write a script that replaces a file on a disc',
        does: 'FILE may grow to the end of the last sector of the old file. The size in the directory is updated, and the rest ' +
            'of the sectors becomes 00. With --fill, the old size is kept: a shorter FILE is padded, and a longer one is ' +
            'refused.',
        ends: { 0: 'done', 2: 'failed' },
        example: 'cdscript replace-file game.cue /DATA/TEXT.BIN text.bin -o new.txt',
    },
    'diff': {
        job: diffJob, takes: ['OLD', 'NEW'], options: ['skipDamaged', 'partial', 'fields', 'track', 'base', 'output'],
        says: 'Write a script that turns OLD into NEW',
        does: 'Differences that a script cannot express are listed, and no script is written unless --partial is given.',
        ends: { 0: 'done', 1: 'some blocks are left out or, with --fields, differ', 2: 'failed' },
        example: 'cdscript diff game.bin english.bin -o english.txt',
    },
    'merge': {
        job: mergeJob, takes: ['OLD', 'OTHER..', 'OUT'], instead: { parity: ['OLD', 'OTHER..?', 'OUT'] },
        options: ['parity', 'dat', 'json', 'track', 'base'],
        says: 'Repair an image from other dumps of the same disc',
        does: 'OUT is OLD with its damaged and lost sectors replaced by sound ones from the OTHERs. `repair` is another name for ' +
            'this job.',
        ends: {
            0: 'all tested sectors are sound, or a DAT verifies OUT',
            1: 'not everything could be repaired or confirmed (the lines say what)',
            2: 'failed',
        },
        example: 'cdscript merge first.bin second.bin third.bin repaired.bin',
    },
    'rebuilds': {
        job: rebuildsJob, takes: ['IMAGE'], options: ['track', 'base', 'output'],
        says: 'Write a script that recalculates stale EDC and parity',
        does: 'Use it only if all sectors were sound before the image was edited. The script makes the sectors sound with their ' +
            'present bytes. So it hides real damage for good, and destroys deliberate damage.',
        ends: { 0: 'done', 2: 'failed' },
        example: 'cdscript rebuilds edited.bin -o rebuild.txt',
    },
    'undo': {
        job: undoJob, takes: ['IMAGE', 'SCRIPT'], options: ['base', 'track', 'carry', 'long', 'output'],
        says: 'Write a script that undoes another script',
        does: 'IMAGE is the image as it was before SCRIPT was applied.',
        ends: { 0: 'done', 1: 'some changes cannot be undone (they are listed), or the script has refused lines', 2: 'failed' },
        example: 'cdscript undo game.cue english.txt -o back.txt',
        own: { carry: 'SCRIPT is applied with --carry' },
    },
    'raw': {
        job: rawJob, takes: ['IMAGE', 'OUT'], options: ['base', 'first'], says: 'Convert an ISO image to a raw image',
        does: 'OUT must not exist. It has 2352 bytes per sector. IMAGE may also have 2448 bytes per sector (its subchannels are left ' +
            'out) or 2336 (Mode 2 without sync fields and headers, which are added).',
        ends: { 0: 'done', 2: 'failed' },
        example: 'cdscript raw game.iso game.bin',
    },
    'user': {
        job: userJob, takes: ['IMAGE', 'OUT'], options: ['track', 'base'], says: 'Extract the user data of an image as an ISO image',
        does: 'OUT must not exist. It has 2048 bytes per sector.',
        ends: { 0: 'done', 1: 'some sectors are damaged, misplaced, incomplete, or not Mode 1', 2: 'failed' },
        example: 'cdscript user game.cue game.iso',
    },
};

/** The arguments of a job, in the notation of help. */
export function usageOf(takes: string[]) {
    return takes.map(name => name.endsWith('?') ? `[${name.slice(0, -1)}]` : name).join(' ');
}

/** The arguments of each form of a job, in the notation of help. */
export function usagesOf(job: string) {
    const { takes, instead = {} } = FORMS[job];
    const usages = [usageOf(takes)];
    for (const [name, taken] of Object.entries(instead)) {
        const { word, value, needs = {} } = OPTIONS[(name as OptionName)];
        const other = OPTIONS[(needs[job] as OptionName)];
        const words = [word, value, ...other ? [other.word, other.value] : [], usageOf(taken)];
        usages.push(words.filter(it => it !== '').join(' '));
    }
    return usages;
}
