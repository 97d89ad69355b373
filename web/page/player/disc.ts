// Opens the disc that a player chose, and explains how to play the image that was saved.

import { knownFiles, openKnown, type KnownFile } from '../../core/disc/views.js';
import { textOfFile } from '../../core/encodings/views.js';
import { failedBy } from '../../core/faults.js';
import { endsAfterLast, rawReader } from '../../core/tasks/index.js';
import type { App } from '../app/index.js';
import { discFileOf, fileOf } from '../open/index.js';
import { copyWords, otherFiles, savingSheet, sheetNaming } from '../save/index.js';
import { playerTexts as texts, say } from '../texts/index.js';
import { button, element, fill, messageParts, nameOf, notice, type Child } from '../ui/index.js';
import type { PatcherData } from './patcher.js';

// Explains to players how to play the image that was saved.

/**
 * A cue sheet that names the image to play: the player's, or else the author's, with the name replaced; '' if neither names its image.
 * @param name of the image to play
 * @param sheet the player's
 * @param image the name that the player's image had
 * @param data the author's sheet and image
 */
export function sheetFor(name: string, sheet: string, image: string, { cue, name: own }: Pick<PatcherData, 'cue' | 'name'>) {
    return sheetNaming(sheet, [[image, name]]) || sheetNaming(cue, [[own, name]]);
}

/**
 * @param name of the image to play
 * @param sheet a cue sheet that names it
 */
export function playWords(name: string, sheet: string): Child[] {
    return [element('p', {}, ...say(texts.playerSaveSheetBeside, { name: element('b', {}, nameOf(name)) })), copyWords(otherFiles(sheet,
        name)),
        ...sheetSaver(name, sheet, texts.playerSaveTheCueSheet)];
}

/**
 * The text if no cue sheet is known. If the player has one, it belongs to the unpatched image.
 * @param name of the image to play
 * @param sheet of a disc that has one track, or '' if this one may have more
 * @param take accepts a cue sheet that the player has; returns whether it names the image. Null if such a sheet describes other sectors
 */
export function wordsWithoutSheet(name: string, sheet: string, take: ((file: File) => Promise<boolean>) | null): Child[] {
    const image = { name: element('b', {}, nameOf(name)) };
    const own = take === null ? [] : [element('p', {}, texts.playerOldSheetStartsOld), ...sheetChooser(take)];
    if (sheet === '') return [element('p', {}, ...say(texts.playerOpenInEmulator, image)), ...own];
    return [element('p', {}, ...say(texts.playerSaveOneSheetBeside, image)), ...sheetSaver(name, sheet, texts.saveCueSheet),
        element('p', { class: 'small quiet' }, texts.playerSheetOfOneTrack), ...own];
}

/** The button with which a player chooses an existing cue sheet. */
function sheetChooser(take: (file: File) => Promise<boolean>): Child[] {
    const message = element('div', { role: 'status' });
    const input: HTMLInputElement = element('input', { type: 'file', id: 'player-sheet', class: 'hide', tabindex: -1,
        'aria-label': texts.playerYourCueSheet,
        change: async () => {
            const [file] = [...input.files || []];
            input.value = '';
            if (file && !await take(file)) fill(message, notice('bad', say(texts.playerOtherSheet, { name: nameOf(file.name) })));
        } });
    return [button('slim', () => input.click(), texts.playerChooseYourSheet), input, message];
}

/**
 * The button that saves a cue sheet, and the status that then says what to open.
 * @param name of the image
 */
function sheetSaver(name: string, sheet: string, label: string): Child[] {
    const { save, saved } = savingSheet(sheet, name.replace(/(\.[^.]*)?$/, '.cue'));
    return [button('main big', save, label), saved];
}

// Opens the disc of the files that a player chose. A cue sheet and the files that it names may be chosen one after the other.

/** The kinds of files that are converted to raw images while they are read, and the keys of the texts about that. */
const CONVERTED = { iso: 'playerFromIso', subchannels: 'playerFromSubchannels' } as const;

export type ConvertedKind = keyof typeof CONVERTED;

/** What is done with an image that is converted. */
export function convertedWords(kind: ConvertedKind) {
    return texts[CONVERTED[kind]];
}

function isConverted(kind: string): kind is ConvertedKind {
    return Object.keys(CONVERTED).includes(kind);
}

function hasSheet(files: KnownFile[]) {
    return files.some(({ kind }) => kind === 'cue');
}

export class ChosenDisc {
    /** The files of the last choice, unless they were a cue sheet and all files that it names. */
    before: KnownFile[] = [];

    /** @param base of the author's image, which is that of an ISO image too */
    constructor(readonly app: App, readonly base: number) {}

    /** Opens files, together with those of the previous choice if just one of the two has a cue sheet. Throws what openDisc throws. */
    async open(files: File[]) {
        const { before } = this;
        this.before = [];
        const own = await knownFiles(this.app.calls, files.map(discFileOf));
        this.before = own;
        const together = [...before.filter(({ file }) => own.every(it => it.file.name !== file.name)), ...own];
        const opened = hasSheet(own) === hasSheet(before) ? await this.opened(own)
            : await this.opened(together).catch(() => this.opened(own));
        if (opened.disc.sheet !== null) this.before = [];
        return opened;
    }

    /** The text of a cue sheet; '' for any other file. */
    async sheetText(file: File) {
        const [{ kind, sheet }] = await knownFiles(this.app.calls, [discFileOf(file)]);
        return kind === 'cue' && sheet !== null ? textOfFile(sheet) : '';
    }

    /** The disc of files. `kind` is that of an image that is converted: no cue sheet describes what it is converted to. */
    async opened(files: KnownFile[]) {
        const { calls } = this.app;
        const own = files.flatMap(({ file }) => fileOf(file.reader) || []);
        const others = files.filter(({ kind }) => isConverted(kind));
        const [kind = null] = others.flatMap(it => isConverted(it.kind) ? it.kind : []);
        const disc = await openKnown(calls, kind === null ? files : others.map(it => this.converted(it)));
        return { disc, files: own, kind };
    }

    converted(known: KnownFile): KnownFile {
        const { file: { name, reader }, kind } = known;
        if (!isConverted(kind)) return known;
        if (endsAfterLast(reader, kind, this.base)) return { ...known, kind: 'long' };
        return { file: { name, reader: rawReader(this.app.calls, reader, kind, this.base) }, kind: 'raw', sheet: null };
    }

    /** The image of the last choice that its cue sheet does not name, or undefined. */
    unnamedImage() {
        const text = this.before.map(({ kind, sheet }) => kind === 'cue' && sheet !== null ? textOfFile(sheet) : '').join('');
        return this.before.find(({ kind, file: { name } }) => kind === 'raw' && sheetNaming(text, [[name, name]]) === '');
    }

    /** Returns a function that writes the notice on why files are not an image to patch, in the current language. */
    faultOf(error: unknown, files: File[]): () => HTMLElement {
        const renamed = this.unnamedImage();
        if (renamed !== undefined && failedBy(error, 'disc/missing-files')) {
            const { sheet, file } = error.facts;
            const parts = { sheet: nameOf(sheet), wanted: nameOf(file), name: nameOf(renamed.file.name) };
            return () => notice('bad', say(texts.playerSheetNamesOther, parts), texts.playerRenamedWithoutSheet);
        }
        const names = files.map(file => file.name);
        return () => notice('bad', texts.openNotOpenedYet, ...messageParts(error, names));
    }
}
