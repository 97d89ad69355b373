// The cue sheets that are saved for patched images, and the texts about them.

import { isOneTrack, sheetOfOneTrack } from '../../core/disc/views.js';
import type { Calls } from '../../core/module/index.js';
import type { Image } from '../app/index.js';
import { playerTexts, say } from '../texts/index.js';
import { element, fill, nameOf, namesOf, verdictLine, type Child } from '../ui/index.js';
import { downloadText } from './files_out.js';
import { patchedName } from './save.js';
import * as texts from '../texts/index.js';

// Rewrites cue sheets for patched images, and lists the files that they name.

/** Replaces names of files in a cue sheet. Returns '' if it names none of them. `names` are each file's own name, and its new name. */
export function sheetNaming(sheet: string, names: Iterable<[string, string]>) {
    const others = new Map([...names].map(([own, other]) => [own.toLowerCase(), other]));
    let found = false;
    const lines = sheet.split('\n').map(line => {
        const parts = fileParts(line);
        const other = parts && others.get(withoutPath(parts.name).toLowerCase());
        if (!other) return line;
        found = true;
        return `${parts.before}"${other}"${parts.after}`;
    });
    return found ? lines.join('\n') : '';
}

/** The names of the files of a cue sheet, except one. */
export function otherFiles(sheet: string, but: string) {
    const names = sheet.split('\n').flatMap(line => fileParts(line)?.name || []).map(withoutPath);
    return [...new Set(names)].filter(name => name.toLowerCase() !== but.toLowerCase());
}

/** @param path as in a sheet, with or without quotes */
function withoutPath(path: string) {
    const name = path.replace(/^"|"$/g, '');
    return name.slice(Math.max(name.lastIndexOf('/'), name.lastIndexOf('\\')) + 1);
}

/**
 * Splits a FILE line of a sheet into the name and the parts before and after it; returns null for any other line. A single regular
 * expression with two gaps would need minutes for a long line.
 */
function fileParts(line: string) {
    const text = line.trim();
    const command = /^FILE\s+/i.exec(text);
    if (!command) return null;
    const rest = text.slice(command[0].length);
    const size = rest.startsWith('"') ? rest.indexOf('"', 1) + 1 : nameSize(rest);
    const at = line.length - line.trimStart().length + command[0].length;
    const after = line.slice(at + size);
    return size > 0 && /^\s+\S+$/.test(after.trimEnd()) ? { before: line.slice(0, at), name: rest.slice(0, size), after } : null;
}

/** The length of a name without quotes, which ends before the last word. */
function nameSize(rest: string) {
    let end = rest.length;
    while (end > 0 && rest.charAt(end - 1).trim() !== '') end--;
    return rest.slice(0, end).trimEnd().length;
}

// The cue sheet that is saved for a patched or repaired image, and the texts about it.

const MOST_NAMED = 4;

/** The first names of files, and how many more there are. */
export function listedNames(names: string[]): Child | Child[] {
    const more = names.length - MOST_NAMED;
    const files = namesOf(names.slice(0, MOST_NAMED));
    return more > 0 ? say(playerTexts.playerFilesAndMore, { n: more, files }) : files;
}

/** Asks to copy the files that a cue sheet names into its directory; false if it names none. */
export function copyWords(names: string[]) {
    return names.length > 0 && element('p', {}, ...say(playerTexts.playerCopySheetFiles, { n: names.length, files: listedNames(names) }));
}

/**
 * A function that saves a cue sheet, and the status that then says what to open.
 * @param name of its file
 */
export function savingSheet(sheet: string, name: string) {
    const saved = element('div', { role: 'status' });
    const save = () => {
        downloadText(sheet, name);
        fill(saved, verdictLine('good', say(playerTexts.playerSheetSaved, { name: nameOf(name) })));
    };
    return { save, saved };
}

/** Whether an image without a cue sheet looks like a whole disc of one track. */
export async function isDiscOfOneTrack(calls: Calls, { sheet, part }: Image) {
    return sheet === '' && isOneTrack(calls, part).catch(() => false);
}

/**
 * The parts for the cue sheet of a saved image: texts, a function that saves it (null if there is no sheet), and the status of that.
 * @param image that was patched or repaired
 * @param name of the saved image
 * @param oneTrack whether the image has no cue sheet, and looks like a whole disc of one track
 * @param what the remark in the name of a cue sheet with several files
 */
export function sheetParts(image: Image, name: string, oneTrack: boolean, what: string = texts.savePatchedInName) {
    const sheet = oneTrack ? sheetOfOneTrack(name) : sheetNaming(image.sheet, image.renamed);
    const { save, saved } = savingSheet(sheet, image.disc.files.length > 1 ? patchedName(image.from, what)
        : name.replace(/(\.[^.]*)?$/, '.cue'));
    return { words: sheetWords(image, name, sheet), save: sheet === '' ? null : save, saved };
}

/**
 * Explains the cue sheet of a saved image: its purpose, and the files that it names beside the image.
 * @param name of the saved image
 * @param sheet that names the saved image, or '' if there is none
 */
function sheetWords({ sheet: own, renamed }: Image, name: string, sheet: string): Child[] {
    const quiet = (...message: Child[]) => element('p', { class: 'small quiet' }, ...message);
    if (sheet === '') return [own === '' && quiet(texts.saveOldSheetNamesOld)];
    const saved = [...renamed.values()].filter(it => it !== name);
    return [element('p', {}, 'Your emulator opens a cue sheet: save one that names the new image, next to it.'), own === '' &&
        quiet(playerTexts.playerSheetOfOneTrack, ' ',
        texts.saveOldSheetNamesOld),
        saved.length > 0 && quiet(...say('The cue sheet also names files that you saved before: {names}', { names: namesOf(saved) })),
        copyWords(otherFiles(sheet, name).filter(it => !saved.includes(it)))];
}
