// The English sentences for the failures and remarks of the core, by code. A translation is another such table.

import { hexText } from '../core/bytes.js';
import type { Facts, FileKind, RowName, StayReason } from '../core/faults.js';
import { LAST_BASE, kindName } from '../core/module/index.js';
import type { Sentences } from './sentences.js';
import { blocksText } from './verdict.js';

// Descriptions of the kinds of files.

/** A description, and advice on what to do with the file. */
export const KINDS: Record<FileKind, [string, string]> = {
    raw: ['a raw image, 2352 bytes per sector', ''],
    audio: ['audio, or not an image (no sync field in any of the sectors checked)', 'Choose the data track of the disc.'],
    subchannels: [
        'an image of 2448 bytes per sector, with subchannels',
        'Convert it to a raw image with `cdscript raw`, which leaves the subchannels out.',
    ],
    iso: [
        'an ISO image, 2048 bytes per sector',
        'Convert it to a raw image with cdscript raw. Then merge that with a dump, or patch it and extract its user data as an ISO image.',
    ],
    chd: ['a CHD file', 'Unpack it with `chdman extractcd -i FILE -o disc.cue -ob disc.bin`, which writes a cue sheet and an image.'],
    ecm: ['an ECM file', 'Unpack it with `unecm`, which writes the raw image.'],
    archive: ['an archive', 'Unpack it, and choose the cue sheet, the raw image, or the script in it.'],
    wave: ['audio in a RIFF/WAVE file', 'Choose the data track of the disc.'],
    cue: ['a cue sheet', 'Open it together with the files that it names.'],
    scrambled: [
        'a scrambled image, with its sectors as they are on the disc',
        'Descramble it with the program that read the disc, such as redumper or DiscImageCreator.',
    ],
    headerless: [
        'an image of 2336 bytes per sector, Mode 2 without sync fields and headers',
        'Convert it to a raw image with `cdscript raw`, which adds them.',
    ],
    unaligned: [
        'a raw image whose first sector is cut',
        'Remove the bytes before the first sync field (00, ten bytes FF, 00), or read the disc again.',
    ],
    nrg: ['an image of Nero (NRG)', 'Convert it to a raw image and a cue sheet.'],
    mds: ['the description of an MDF image (MDS)', 'Choose the MDF file: with 2352 bytes per sector it is a raw image.'],
    ccd: ['a control file of CloneCD (CCD)', 'Choose the IMG file next to it, which is a raw image.'],
    toc: ['a TOC file of cdrdao', 'Convert it to a cue sheet with `toc2cue`, or choose the image that it names.'],
    gdi: ['a GDI, which lists the tracks of a Dreamcast disc',
        'Choose the data track of the game, mostly track03.bin. It begins at block 45000.'],
    sub: ['the subchannels of an image (SUB)', 'Choose the image itself.'],
    long: ['an image that is larger than a CD', `A CD has at most ${LAST_BASE + 1} sectors. Choose the image of a CD.`],
    text: ['a text file', 'Choose a raw image, 2352 bytes per sector, or its cue sheet.'],
    workbook: ['a workbook, such as XLSX', 'Save its table as CSV (UTF-8), and choose that file.'],
    patch: ['a patch of a different tool (PPF, xdelta, IPS, BPS, or UPS)',
        'Apply it to a copy of the image with its own tool. docs/FAQ.md has the commands that then write a script.'],
    empty: ['an empty file', 'Copy or download it again.'],
    unknown: ['not recognised', 'Choose a raw image, 2352 bytes per sector, or its cue sheet.'],
};

/** Why texts cannot move, by the reason. */
const STAYS: Record<StayReason, string> = {
    'kept': 'it is to stay in place', 'no-pointer': 'no pointer leads to it', 'no-end': 'no known byte ends it',
    'pointed-inside': 'a pointer or a row leads into its middle',
    'length': 'its length is beside its pointer, or before it', 'doubtful': 'a number beside a table may be one more pointer to it',
    'overlap': 'a pointer is within its room',
};

const MEGABYTE = 1e6;

const NO_DAT = 'not a DAT in Logiqx XML';

/** The beginning of the sentence about a bad dump. */
const BAD_DUMP = 'known as a bad dump:';

/** @param line of a cue sheet */
function inSheet(line: number, what: string) {
    return `line ${line} of the cue sheet: ${what}`;
}

function noTrack({ sheet, track, tracks }: Facts['disc/no-track']) {
    const own = `${tracks.length === 1 ? 'track' : 'tracks'} ${tracks.join(', ')}`;
    return `${sheet} has no track ${track}. It has ${own}. An image without a cue sheet counts as track ${track}.`;
}

function knownDump({ name, isBad, others }: Facts['dat/dump']) {
    const more = others === 0 ? '' : `, and ${others === 1 ? '1 other' : `${others} others`}`;
    return `${isBad ? BAD_DUMP : 'verified'} ${name}${more}`;
}

function leftClause({ runs, image, most }: Facts['script/left']) {
    const blocks = blocksText(runs, most);
    if (runs[0].why === 'damaged') return `${image} is damaged in ${blocks}`;
    if (runs[0].why === 'address') return `a script cannot write the address of ${blocks} in ${image}`;
    return `${[...new Set(runs.flatMap(run => run.kinds))].map(kindName).join(' and ')} in ${blocks}, and a script changes only mode1`;
}

/** Formats a character, with its code point. */
function shownCharacter(character: string) {
    const code = (character.codePointAt(0) || 0).toString(16).toUpperCase().padStart(4, '0');
    return /[\p{C}\p{Z}\p{M}]/u.test(character) ? `U+${code}` : `'${character}' (U+${code})`;
}

/** The most lines of a table that are listed because they mean nothing here. */
const MOST_NAMED = 20;

function linesLeftOut({ lines }: Facts['text/lines-left-out']) {
    const more = lines.length > MOST_NAMED ? [`and ${lines.length - MOST_NAMED} more`] : [];
    const named = [...lines.slice(0, MOST_NAMED), ...more].join(', ');
    return lines.length === 1 ? `line ${named} of the table has no meaning here, and is ignored`
        : `lines ${named} of the table have no meaning here, and are ignored`;
}

export function rowName({ list, unit, number, place }: RowName) {
    return `${list === '' ? '' : `${list}: `}${unit} ${number}${place === '' ? '' : ` (${place})`}`;
}

function leftCode({ code, count, rows, first }: Facts['list/code-left']) {
    const often = count === 1 ? 'once' : `${count} times`;
    const isPlain = first.every(({ list, place }) => list === '' && place === '');
    const more = rows > first.length ? [`and ${rows - first.length} more`] : [];
    const named = [...first.map(it => isPlain ? it.number : rowName(it)), ...more];
    return `translations leave out {${code}} ${often}: ${isPlain ? `${rows === 1 ? 'row' : 'rows'} ` : ''}${named.join(', ')}`;
}

/** How many characters or ranges of characters that only new texts have are listed. */
const MOST_RANGES = 60;

/** Characters in ranges, such as A-Z: letters first, then digits, then others, each by itself. */
function rangesOf(characters: string[]) {
    const kindOf = (it: string) => [/^\p{L}$/u, /^\d$/, /^/].findIndex(kind => kind.test(it));
    const codeOf = (it: string) => Number(it.codePointAt(0));
    const ranges: { kind: number, to: number, parts: string[] }[] = [];
    for (const it of [...characters].sort((a, b) => kindOf(a) - kindOf(b) || codeOf(a) - codeOf(b))) {
        const kind = kindOf(it);
        const code = codeOf(it);
        const last = ranges[ranges.length - 1];
        if (last && kind < 2 && last.kind === kind && code === last.to + 1) {
            last.to = code;
            last.parts.push(it);
        } else ranges.push({ kind, to: code, parts: [it] });
    }
    return ranges.flatMap(({ parts }) => parts.length > 2 ? [`${parts[0]}-${parts[parts.length - 1]}`] : parts);
}

function newCharacters({ characters }: Facts['list/new-characters']) {
    const ranges = rangesOf(characters);
    const listed = [...ranges.slice(0, MOST_RANGES), ...ranges.length > MOST_RANGES ? ['…'] : []].join(' ');
    const [are, them] = characters.length === 1 ? ['1 character is', 'it'] : [`${characters.length} characters are`, 'them'];
    return `${are} in no old text: ${listed}. Does the font of the game have ${them}?`;
}

function wrongFiller({ missing, filler }: Facts['replace/filler']) {
    const bytes = missing === 1 ? 'byte' : 'bytes';
    return `cannot pad ${missing} ${bytes} with the ${filler.length}-byte filler ${hexText(filler, ' ')}; use --fill with one byte`;
}

export const ENGLISH: Sentences = {
    cancelled: () => 'cancelled',
    'no-memory': () => 'no memory',
    'no-vectors': () => 'this JavaScript engine has no WebAssembly SIMD, which cdpatch needs, or the processor has no SSE4.1',
    'image-ended': ({ at }) => `the image ends at byte ${at}`,
    unread: () => 'a worker cannot read the file',

    'disc/missing-files': ({ sheet, file }) => `${sheet} names ${file}. Put it next to the cue sheet, or open both together.`,
    'disc/two-sheets': ({ one, other }) => `${one} and ${other} are both cue sheets. Open one of them.`,
    'disc/no-image': () => 'Open one image, or a cue sheet together with the files that it names.',
    'disc/other-file': ({ name, kind }) => `${name} is ${KINDS[kind].join('. ')}`,
    'disc/no-track': noTrack,
    'disc/no-data': () => 'The disc has no data track with 2352-byte sectors. Choose a disc that has one.',
    'disc/other-track': ({ track }) => `Track ${track} is not a data track with 2352-byte sectors. Choose a different track.`,
    'disc/sector-size': ({ track, name, size }) =>
        `Track ${track} in ${name} has ${size}-byte sectors. Convert each track to an image with 2352-byte sectors first.`,
    'kind/what': ({ kind }) => KINDS[kind][0],
    'kind/advice': ({ kind }) => KINDS[kind][1],

    'cue/no-track': () => 'the cue sheet has no track',
    'cue/no-index': ({ line, track }) => inSheet(line, `track ${track} has no INDEX 01`),
    'cue/file-words': ({ line }) => inSheet(line, 'FILE needs a name and a format'),
    'cue/too-many-files': ({ line, most }) => inSheet(line, `more than ${most} files`),
    'cue/track-words': ({ line }) => inSheet(line, 'TRACK needs a number and a type'),
    'cue/track-type': ({ line, type }) => inSheet(line, `unknown track type ${type}`),
    'cue/no-file': ({ line }) => inSheet(line, 'a track before the first FILE'),
    'cue/track-order': ({ line, track, before }) => inSheet(line, `track numbers must increase: ${track} follows ${before}`),
    'cue/index-words': ({ line }) => inSheet(line, 'INDEX needs a number and a time'),
    'cue/index-late': ({ line, index }) => inSheet(line, `INDEX ${index} is not higher than the INDEX before it`),
    'cue/index-back': ({ line, index }) => inSheet(line, `INDEX ${index} is earlier in its file than the INDEX before it`),
    'cue/before-track': ({ line }) => inSheet(line, 'there is no TRACK before this'),
    'cue/time': ({ line, time }) => inSheet(line, `invalid time ${time}`),
    'cue/two-files': ({ line, track }) => inSheet(line, `track ${track} is in two files`),
    'cue/after-end': ({ line, track, name }) => inSheet(line, `track ${track} begins after the end of ${name}`),

    'dat/other-file': () => `it is ${NO_DAT}`,
    'dat/software-list': () => `it is a software list of MAME, and ${NO_DAT}`,
    'dat/machines': () => `it is a list of MAME's machines, and ${NO_DAT}`,
    'dat/archive': () => 'it is an archive: unpack it',
    'dat/clrmamepro': () => "it is in clrmamepro's own format: save it as Logiqx XML",
    'dat/encoding': ({ encoding }) => `its encoding ${encoding} is not supported: save it as UTF-8`,
    'dat/declares': () => 'it contains declarations, such as entities, that a DAT cannot have',
    'dat/entity': ({ entity }) => `it has the entity ${entity}, which a DAT does not have`,
    'dat/tag': ({ tag }) => `it is not well-formed: a < is inside the tag <${tag}`,
    'dat/long-tag': ({ most }) => `it has a tag of more than ${most} characters`,
    'dat/long-name': ({ most }) => `it has a name of more than ${most} characters`,
    'dat/deep': ({ most }) => `its elements are nested more than ${most} deep`,
    'dat/too-many': ({ most }) => `there are more than ${most} dumps`,
    'dat/cut': () => 'it is incomplete: download it again',
    'dat/no-dump': () => 'it has no dump with a SHA-1, or with a size and a CRC32 or MD5',
    'dat/dump': knownDump,
    'dat/only-size': () => 'the DAT has a dump of this size, but none with this SHA-1: perhaps another dump of the disc repairs it',
    'dat/no-size': () => 'the DAT has no dump of this size: perhaps the file is cut short, or is of a different disc',

    'volume/no-descriptor': ({ block }) => `no ISO 9660 volume: block ${block} has no volume descriptor`,
    'volume/block-size': ({ size, due }) => `the volume has logical blocks of ${size} bytes, not of ${due}`,
    'volume/no-root': () => 'the volume descriptor has no root directory',
    'volume/root-elsewhere': ({ blocks }) => `the root directory is not in block ${blocks.join(' or ')}`,
    'volume/two-roots': ({ blocks }) => `blocks ${blocks.join(' or ')} could both be the root directory`,
    path: ({ path, why }, sentence) => `${path}: ${sentence(why)}`,
    'tree/no-joliet-root': () => "Joliet's volume descriptor has no root directory",
    'tree/no-record': ({ at }) => `there is no valid record of a file at byte ${at} of the directory`,
    'tree/unread': ({ path, why }, sentence) => `the directory ${path} is not read: ${sentence(why)}`,
    'tree/not-in-image': ({ path }) => `the directory ${path} is not in the image`,
    'tree/same': ({ block }) => `two directories claim block ${block}`,
    'tree/shared': ({ first, last }) => `the directory in blocks ${first} to ${last} shares sectors with another directory`,
    'tree/large': ({ block, size }) => `the directory in block ${block} would have ${size} bytes`,
    'tree/missing': ({ block }) => `the directory is in block ${block}, which is not in the image`,
    'tree/cut': ({ first, last }) => `the directory in blocks ${first} to ${last} continues after the end of the image`,
    'tree/deep': ({ most }) => `its directories are not read: they are nested more than ${most} deep`,
    'tree/many-entries': ({ most }) => `the volume has more than ${most} files and directories`,
    'tree/long-paths': ({ most }) => `its paths have more than ${most} characters`,
    'tree/many-areas': ({ most }) => `its records are continued in more than ${most} places`,
    'tree/ends': ({ why }, sentence) => `from here on nothing is listed: ${sentence(why)}`,
    'tree/more': ({ count }) => `and so on: ${count} places in all`,
    'extent/several': () => 'it has several extents',
    'extent/cut': () => 'the image does not contain all of it',
    'extent/byte-orders': () => 'its numbers in the two byte orders differ',
    'extent/other-volume': ({ volume, number }) => `it is on volume ${volume} of the set, and this is volume ${number}`,
    'extent/interleaved': () => 'it is interleaved',
    'extent/associated': () => 'it is an associated file (a second stream) of this name',
    'extents/apart': ({ path, count }) => `${path} has ${count} directory records that do not form one file`,
    'extents/over': ({ path }) => `the parts of ${path} overlap`,

    'text/no-character': ({ name, character, place }) =>
        `${name} cannot encode ${shownCharacter(character)}, character ${place} of the text`,
    'text/half-byte': ({ place }) => `hexadecimal digits come in pairs: character ${place} of the text is half a byte`,
    'text/large-table': ({ size, most }) => `the table has ${size} bytes, but a table may have at most ${most}`,
    'text/empty-table': () => 'the table has no line HEX=TEXT',
    'text/no-pair': ({ line }) => `line ${line} of the table is not HEX=TEXT`,
    'text/long-bytes': ({ line, most }) => `line ${line} of the table has more than ${most} bytes`,
    'text/long-text': ({ line, most }) => `line ${line} of the table has a text of more than ${most} characters`,
    'text/many-parameters': ({ line, most }) => `line ${line} of the table has more than ${most} parameters`,
    'text/twice': ({ line, digits }) => `line ${line} of the table: ${digits} occurs twice`,
    'text/lines-left-out': linesLeftOut,

    'script/refused': ({ line }) => line,
    'script/other-base': ({ line, base, begins }) =>
        `line ${line} of the script says base ${base}, but the image begins with block ${begins}`,
    'script/conflict': () => 'the patches conflict, so no script is written',
    'script/too-large': ({ most }) => `the script would have more than ${most} bytes: too much differs`,
    'script/full': ({ most }) => `the script would have more than ${most.toLocaleString('en')} patches`,
    'script/many': ({ patches, most }) => `the script will have about ${patches.toLocaleString('en')} patches, and cdpatch accepts `
        + `${most.toLocaleString('en')} at most: it will need cdscript apply --long`,
    'script/wrong-sector': ({ block }) => `the script for block ${block} would not give the right sector, so it is not written`,
    'script/left': leftClause,

    'find/empty': () => 'the text to find is empty',
    'find/nothing': () => 'text not found',
    'find/inside': ({ before }) => `perhaps in the middle of a character (byte before: ${hexText(Uint8Array.of(before))})`,
    'no-file': ({ path }) => `no file or directory ${path} on the disc`,

    'convert/cut': ({ name, size, unit }) => `${name} has ${size} bytes, which is not a multiple of ${unit}`,
    'convert/after-last': ({ name }) => `${name} continues after block ${LAST_BASE}, the last one with an address`,

    'replace/other-size': ({ fresh, old }) => `expected ${old} new bytes, one for each old byte, but got ${fresh}`,
    'replace/filler': wrongFiller,
    'replace/no-room': ({ name, size, room }) =>
        `the new text has ${size} bytes in ${name}, and there is room for ${room}: ${size - room} too many`,
    'replace/no-bytes': () => 'there are no old bytes',
    'replace/no-offset': ({ last }) => `an offset must be from 0 to ${last}`,
    'replace/no-block': ({ first, last }) => `the image has only the blocks ${first} to ${last}`,
    'replace/other-bytes': ({ block, offset }) => `old bytes differ at block ${block} offset ${offset}`,
    'replace/damaged': ({ block }) => `block ${block} is damaged: repair it first`,
    'replace/not-mode1': ({ block }) => `block ${block} is not Mode 1`,
    'replace/overlaps': () => 'it overlaps the place before it',
    'replace/hit-left': ({ text: { block, offset }, why }, sentence) => `block ${block} offset ${offset}: ${sentence(why)}`,

    'replace/own-block': ({ path, block, kind }) => `block ${block} of ${path} contains a ${kind} of the volume, which cannot be replaced`,
    'replace/udf': ({ path }) => `the UDF file system of the disc would keep the old length of ${path}: use --fill to keep the length`,
    'replace/shared-length': ({ path, other }) => `the length of ${path} cannot change: ${other} has some of its blocks`,
    'replace/shared-blocks': ({ path, other }) => `${other} shares blocks with ${path}, and changes too`,
    'replace/long-file': ({ path, size, room, wanted }) =>
        `${path} has ${size} bytes${room === null ? '' : ` and room for ${room}`}, but the new file has ${wanted}`,

    'list/invalid': ({ list, why }, sentence) => `${list}: ${sentence(why)}`,
    'list/not-unicode': ({ isPo }) => isPo ? 'the list is not in UTF-8 or UTF-16; msgconv -t UTF-8 converts it'
        : 'the list is not in UTF-8 or UTF-16: save it as UTF-8 (in a spreadsheet, CSV UTF-8)',
    'list/no-encoding': ({ name, known }) => name === 'the table' ? "the row was listed with a game's own table: use that table again"
        : `unknown encoding '${name}'; known encodings: ${known.join(', ')}`,
    'list/too-large': ({ name, size, most }) => `${name} has ${size} bytes, but a list may have at most ${most}`,
    'list/too-many-cells': ({ row, most }) => `row ${row} of the table has more than ${most} cells`,
    'list/too-many-rows': ({ most }) => `more than ${most} rows of the list have a translation`,
    'list/too-many-characters': ({ most }) => `the texts of all rows of the lists have more than ${most} characters`,
    'list/no-column': ({ row, columns }) =>
        `the header in row ${row} of the list lacks the ${columns.length === 1 ? 'column' : 'columns'} ${columns.join(', ')}`,
    'list/column-twice': ({ row, column }) => `the header in row ${row} of the list has two columns ${column}`,
    'list/no-new-text': () => 'no row of the list has a translation',
    'list/no-place': () => 'block or offset is not a number',
    'list/place-in-file': () => 'its block is -, so its place is in a file that is not an image',
    'list/place-in-image': () => 'it has a block number, so its place is in an image, not in the file',
    'list/after-file': ({ size }) => `the file has only ${size} bytes`,
    'list/cell-runs-on': ({ row }) => `a quoted cell continues into row ${row}, which is a row of its own`,
    'list/overlaps': ({ row }) => `it overlaps the text of ${rowName(row)}`,
    'list/line-across': ({ line }) => `line ${line} of the script already writes here, and also before or after this text`,
    'list/long-text': ({ most }) => `a text has more than ${most} characters`,
    'list/no-space': ({ name }) => `${name} has no space character to pad with`,
    'list/other-text': () => 'the old text is not there',
    'list/new-text-there': () => 'the new text is already there',
    'list/formula': ({ cell }) => `a spreadsheet wrote ${cell} in place of a formula: write the text, with {3D} for =`,
    'list/no-fill': ({ cell }) => `the filler ${cell} is not a code such as {00}`,
    'list/no-code': ({ code }) => `${code} is not a code: a code has two digits 0 to F for each byte; to write a brace, use {7B}`,
    'list/row-left': ({ text, why }, sentence) => `${rowName(text)}: ${sentence(why)}`,
    'list/code-left': leftCode,
    'list/fuzzy': ({ count }) => count === 1 ? '1 fuzzy entry is not applied' : `${count} fuzzy entries are not applied`,
    'list/new-characters': newCharacters,

    'pointers/no-column': ({ columns }) =>
        `the first row of the list of pointers lacks the ${columns.length === 1 ? 'column' : 'columns'} ${columns.join(', ')}`,
    'pointers/cell': ({ row, column, cell }) => `row ${row} of the list of pointers: ${column} cannot be '${cell}'`,
    'pointers/too-large': ({ size, most }) => `the list of pointers has ${size} bytes, but may have at most ${most}`,
    'pointers/too-many': ({ most }) => `the tables of the list have more than ${most} pointers`,
    'pointers/no-file': ({ row, path, most }) =>
        `row ${row} of the list of pointers: the disc has no file ${path} with at most ${most} bytes`,
    'pointers/after-file': ({ row, path, size, after }) =>
        `row ${row} of the list of pointers: its last pointer ends at byte ${after}, but ${path} has only ${size}`,
    'pointers/over': ({ row, other, path, at }) =>
        `rows ${other} and ${row} of the list of pointers overlap at byte ${at} of ${path}: delete or correct one`,
    'pointers/overlap': () => 'some of its bytes belong to a pointer, so it does not change',
    'pointers/stays': ({ reason, why }, sentence) => `${sentence(why)}. It cannot move: ${STAYS[reason]}`,
    'pointers/no-room': ({ path, missing }) =>
        `the texts of ${path} need ${missing} ${missing === 1 ? 'byte' : 'bytes'} more than their room and the free end of the file`,
    'pointers/moved': ({ text, path, from, to, pointers }) =>
        `${rowName(text)}: moved in ${path} from ${from} to ${to}; pointers ${pointers}`,
    'pointers/few': ({ text, pointers, beside }) =>
        `${rowName(text)}: moved with fewer pointers (${pointers}) than the texts beside it (${beside}); check it in the game`,
    'pointers/inside': ({ text }) =>
        `${rowName(text)}: a number that may be a pointer leads into the old text, so the game may show a part of the new one; check it`,
    'pointers/unsearched': ({ path, size, more }) =>
        `not searched for pointers: ${path} (${(size / MEGABYTE).toFixed(1)} MB)${more === 0 ? '' : `, ${more} more`}`,
    'pointers/unproved': ({ path, at }) => `the script would be wrong at byte ${at} of ${path}, so it was not written; please report this`,

    'po/line': ({ line }) =>
        `line ${line} of the list is not a line of a PO file: expected a comment, a keyword such as msgid, or a text in quotes`,
    'po/escape': ({ line }) => `line ${line} of the list has an escape that PO files do not have; write \\\\ for a backslash`,
    'po/long-line': ({ line, most }) => `line ${line} of the list has more than ${most} characters`,
    'po/entry': ({ line }) => `the entry in line ${line} of the list is not complete: it needs one msgid and one msgstr`,
    'po/many-places': ({ line, most }) => `the entry in line ${line} of the list has more than ${most} references`,
    'po/charset': ({ name }) => `the list is in ${name}, but must be in UTF-8; msgconv -t UTF-8 converts it`,
    'po/plural': () => 'an entry with plural forms cannot be applied: it needs one msgstr',
    'po/no-place': () => 'the entry has no reference to a place, such as 28+26',
};
