// Failures and remarks that a user may see.

// The facts of each failure and remark of the core, by its code. A failure is thrown, and a remark is returned. Their sentences are in
// `web/sentences`. Most codes begin with a subject and a slash.

/** The facts by code. A fact of type `string` comes from the user's files: a name, a path, or a word. */
export interface Facts {
    cancelled: {};
    'no-memory': {};
    /** The engine cannot run the module of libcdpatch. */
    'no-vectors': {};
    /** The image ends at this byte. */
    'image-ended': { at: number };
    /** A worker cannot read the bytes that it is lent. */
    unread: {};

    // Discs. `names` lists all missing files, and `file` is the missing file with data.
    'disc/missing-files': { sheet: string; file: string; names: string[] };
    'disc/two-sheets': { one: string; other: string };
    'disc/no-image': {};
    'disc/other-file': { name: string; kind: FileKind };
    'disc/no-track': { sheet: string; track: number; tracks: number[] };
    'disc/no-data': {};
    'disc/other-track': { track: number };
    'disc/sector-size': { track: number; name: string; size: number };
    /** The kind of a file, and advice on what to do with it. */
    'kind/what': { kind: FileKind };
    'kind/advice': { kind: FileKind };

    // Cue sheets. `line` is the number of a line of the sheet.
    'cue/no-track': {};
    'cue/no-index': { line: number; track: number };
    'cue/file-words': { line: number };
    'cue/too-many-files': { line: number; most: number };
    'cue/track-words': { line: number };
    'cue/track-type': { line: number; type: string };
    'cue/no-file': { line: number };
    'cue/track-order': { line: number; track: number; before: number };
    'cue/index-words': { line: number };
    'cue/index-late': { line: number; index: string };
    'cue/index-back': { line: number; index: string };
    'cue/before-track': { line: number };
    'cue/time': { line: number; time: string };
    'cue/two-files': { line: number; track: number };
    'cue/after-end': { line: number; track: number; name: string };

    // DATs.
    'dat/other-file': {};
    'dat/software-list': {};
    'dat/machines': {};
    'dat/archive': {};
    'dat/clrmamepro': {};
    'dat/encoding': { encoding: string };
    'dat/declares': {};
    'dat/entity': { entity: string };
    'dat/tag': { tag: string };
    'dat/long-tag': { most: number };
    'dat/long-name': { most: number };
    'dat/deep': { most: number };
    'dat/too-many': { most: number };
    'dat/cut': {};
    'dat/no-dump': {};
    /** An entry of a DAT, and how many other entries have the same hash. */
    'dat/dump': { name: string; isBad: boolean; others: number };
    'dat/only-size': {};
    'dat/no-size': {};

    // Volumes: why a track has none; which part of a volume was not read, and at which path; and why the bytes of a file are not simply
    // the bytes from its block on.
    'volume/no-descriptor': { block: number };
    'volume/block-size': { size: number; due: number };
    'volume/no-root': {};
    'volume/root-elsewhere': { blocks: number[] };
    'volume/two-roots': { blocks: number[] };
    path: { path: string; why: Remark };
    'tree/no-joliet-root': {};
    'tree/no-record': { at: number };
    'tree/unread': { path: string; why: Remark };
    'tree/not-in-image': { path: string };
    'tree/same': { block: number };
    'tree/shared': { first: number; last: number };
    'tree/large': { block: number; size: number };
    'tree/missing': { block: number };
    'tree/cut': { first: number; last: number };
    'tree/deep': { most: number };
    'tree/many-entries': { most: number };
    'tree/long-paths': { most: number };
    'tree/many-areas': { most: number };
    'tree/ends': { why: Remark };
    'tree/more': { count: number };
    'extent/several': {};
    'extent/cut': {};
    'extent/byte-orders': {};
    'extent/other-volume': { volume: number; number: number };
    'extent/interleaved': {};
    'extent/associated': {};
    'extents/apart': { path: string; count: number };
    'extents/over': { path: string };

    // Texts that an encoding cannot express, and a game's own tables. `at` is the index of the character in the string, and `place` counts
    // whole characters from 1.
    'text/no-character': { name: string; character: string; place: number; at: number };
    'text/half-byte': { place: number };
    'text/large-table': { size: number; most: number };
    'text/empty-table': {};
    'text/no-pair': { line: number };
    'text/long-bytes': { line: number; most: number };
    'text/long-text': { line: number; most: number };
    'text/many-parameters': { line: number; most: number };
    'text/twice': { line: number; digits: string };
    'text/lines-left-out': { lines: number[] };

    // Scripts. `line` of `refused` is the line that the program prints.
    /** `kind` is what the script is instead, if its first and last bytes show that. */
    'script/refused': { line: string; tooLong: boolean; kind: FileKind | null };
    'script/other-base': { line: number; base: number; begins: number };
    'script/conflict': {};
    'script/too-large': { most: number };
    'script/full': { most: number };
    'script/many': { patches: number; most: number };
    'script/wrong-sector': { block: number };
    /** Sectors of an image that a script cannot produce, all for one reason, and the most runs of them that are listed. */
    'script/left': { runs: LeftRun[]; image: string; most?: number };

    // Searches for texts.
    'find/empty': {};
    'find/nothing': {};
    /** The byte before a found text, which may begin in the middle of a character. */
    'find/inside': { before: number };
    'no-file': { path: string };

    // Conversions to raw images. `size` is in bytes, as is `unit`, the size of a sector of the image.
    'convert/cut': { name: string; size: number; unit: number };
    'convert/after-last': { name: string };

    // Replacing of bytes. `old`, `fresh`, `size`, and `room` are in bytes.
    'replace/other-size': { fresh: number; old: number };
    'replace/filler': { missing: number; filler: Uint8Array };
    'replace/no-room': { name: string; size: number; room: number };
    'replace/no-bytes': {};
    'replace/no-offset': { last: number };
    'replace/no-block': { first: number; last: number };
    'replace/other-bytes': { block: number; offset: number };
    'replace/damaged': { block: number };
    'replace/not-mode1': { block: number };
    'replace/overlaps': {};
    'replace/hit-left': { text: { block: number; offset: number }; why: Remark };

    // Replacing of files.
    'replace/own-block': { path: string; block: number; kind: 'descriptor' | 'directory' | 'path table' };
    'replace/udf': { path: string };
    'replace/shared-length': { path: string; other: string };
    'replace/shared-blocks': { path: string; other: string };
    /** The room is null if the file keeps its length. */
    'replace/long-file': { path: string; size: number; room: number | null; wanted: number };

    // Lists of texts.
    /** Why one of several lists cannot be read. */
    'list/invalid': { list: string; why: Remark };
    'list/too-large': { name: string; size: number; most: number };
    'list/not-unicode': { isPo: boolean };
    'list/no-encoding': { name: string; known: string[] };
    'list/too-many-cells': { row: number; most: number };
    'list/too-many-rows': { most: number };
    'list/too-many-characters': { most: number };
    'list/no-column': { row: number; columns: string[] };
    'list/column-twice': { row: number; column: string };
    'list/no-new-text': {};
    'list/no-place': {};
    'list/place-in-file': {};
    'list/place-in-image': {};
    'list/after-file': { size: number };
    /** The first separate row into which a quoted cell of an earlier row extends. */
    'list/cell-runs-on': { row: number };
    'list/overlaps': { row: RowName };
    /** A line of the script that writes at the place of a text, and also before it or after its room. */
    'list/line-across': { line: number };
    'list/long-text': { most: number };
    'list/no-space': { name: string };
    'list/other-text': {};
    'list/new-text-there': {};
    'list/formula': { cell: string };
    'list/no-fill': { cell: string };
    'list/no-code': { code: string };
    'list/row-left': { text: RowName; why: Remark };
    /** How often new texts leave out a code, in how many rows, and the first of these rows. */
    'list/code-left': { code: string; count: number; rows: number; first: RowName[] };
    /** The number of fuzzy entries of PO files. */
    'list/fuzzy': { count: number };
    /** The characters that only new texts have; control characters as codes. */
    'list/new-characters': { characters: string[] };

    // Pointers. `row` is the number of a row of the list of tables; places are in a file, sizes in bytes.
    'pointers/no-column': { columns: string[] };
    'pointers/cell': { row: number; column: string; cell: string };
    'pointers/too-large': { size: number; most: number };
    'pointers/too-many': { most: number };
    'pointers/no-file': { row: number; path: string; most: number };
    'pointers/after-file': { row: number; path: string; size: number; after: number };
    /** Pointers of two rows overlap. */
    'pointers/over': { row: number; other: number; path: string; at: number };
    /** A text has bytes of a pointer. */
    'pointers/overlap': {};
    /** Why a text that does not fit stays in place. */
    'pointers/stays': { reason: StayReason; why: Remark };
    'pointers/no-room': { path: string; missing: number };
    'pointers/moved': { text: RowName; path: string; from: number; to: number; pointers: number };
    'pointers/inside': { text: RowName };
    'pointers/few': { text: RowName; pointers: number; beside: number };
    'pointers/unproved': { path: string; at: number };
    /** A file in which no pointers are searched, and how many more there are. */
    'pointers/unsearched': { path: string; size: number; more: number };

    // PO files. `line` is the number of a line of the file.
    'po/line': { line: number };
    'po/escape': { line: number };
    'po/long-line': { line: number; most: number };
    'po/entry': { line: number };
    'po/many-places': { line: number; most: number };
    'po/charset': { name: string };
    'po/plural': {};
    'po/no-place': {};
}

/**
 * What messages call a row of a table, or a line of a PO file: its list, if there are several, else ''; its number; and in a PO file its
 * place, such as 28+26.
 */
export type RowName = { list: string; unit: 'row' | 'line'; number: number; place: string };

/** Why a text cannot move. */
export type StayReason = 'kept' | 'no-pointer' | 'no-end' | 'pointed-inside' | 'length' | 'doubtful' | 'overlap';

export type FileKind = 'raw' | 'audio' | 'subchannels' | 'iso' | 'chd' | 'ecm' | 'archive' | 'wave' | 'cue' | 'empty' | 'unknown'
    | 'scrambled' | 'unaligned' | 'headerless' | 'nrg' | 'mds' | 'ccd' | 'toc' | 'gdi' | 'sub' | 'long' | 'text' | 'workbook'
    | 'patch';

/** A run of blocks, why a script cannot produce them, and their kinds if these are the reason. */
export type LeftRun = { first: number; last: number; why: 'damaged' | 'kind' | 'address'; kinds: number[] };

export type Code = keyof Facts;
/** The subjects with which codes begin. */
export type Subject = Code extends infer Name ? (Name extends `${infer First}/${string}` ? First : never) : never;
/** The given codes, and all codes of the given subjects. */
export type CodesOf<Wanted extends Code | Subject> = Extract<Code, Wanted | `${Wanted}/${string}`>;

export type Remark<Name extends Code = Code> = { [Each in Name]: { code: Each; facts: Facts[Each] } }[Name];

/**
 * An expected failure, which is shown to the user. Any other exception is a bug. A failure of an interface itself has its sentence in
 * `facts`.
 */
export class Fault<Name extends Code = Code> extends Error {
    constructor(readonly code: Name, readonly facts: Facts[Name]) {
        super('sentence' in facts ? String(facts.sentence) : code);
        this.name = 'Fault';
    }
}

/** Whether an error is a failure with one of the given codes or subjects. */
export function failedBy<Wanted extends Code | Subject>(error: unknown, ...wanted: Wanted[]): error is Fault<CodesOf<Wanted>> {
    return error instanceof Fault && wanted.some(it => it === error.code || error.code.startsWith(`${it}/`));
}

/** A remark: a code and its facts, which are returned and not thrown. */
export function remark<Name extends Code>(code: Name, facts: Facts[Name]): Remark<Name> {
    return { code, facts } as Remark<Name>;
}

/** The failure of a job that its signal ended. */
export function cancelled() {
    return new Fault('cancelled', {});
}

/**
 * Calls a function that does nothing but allocate memory. Throws a Fault, `no-memory`, if none is left: engines throw a RangeError then.
 */
export function inMemory<Made>(make: () => Made): Made {
    try {
        return make();
    } catch (error) {
        if (error instanceof RangeError) throw new Fault('no-memory', {});
        throw error;
    }
}

export function newBytes(size: number) {
    return inMemory(() => new Uint8Array(size));
}
