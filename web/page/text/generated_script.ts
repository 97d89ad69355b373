// Puts the lines that are generated from the translations into the script.

import {
    PatchedReader, linesMade, linesUnder, modelInParts, type Merged, type Script, type ScriptLine,
} from '../../core/script/views.js';
import {
    generate, noteGenerated, patchedTexts, textLines, withGenerated, type Generated, type Placed, type PointedTexts,
    type Translation, type Watch,
} from '../../core/tasks/index.js';
import { letOthersIn } from '../../core/turns.js';
import { ownFault } from '../../sentences/index.js';
import { assertTaken, type App, type Image, type ScriptLines } from '../app/index.js';
import { format, scriptWouldBeTooLong } from '../texts/index.js';
import { chosenEncoding } from './search.js';
import * as texts from '../texts/index.js';

/** The changed lines of the script: those that stay, and others. */
type Edit = Pick<Generated, 'lines' | 'removed' | 'instead' | 'end'>;

/** How many lines were added, replaced lines, or are unchanged. Numbers that are 0 are left out. */
export function mergedWords({ added, replaced, same }: Merged) {
    return [added > 0 && format(texts.discLinesAdded, { n: added }), replaced > 0 && format(
        '{n} line replaced an earlier one.|{n} lines replaced earlier ones.', { n: replaced }),
        same > 0 && format('{n} line is unchanged.|{n} lines are unchanged.', { n: same })].flatMap(words => words || []).join(' ');
}

/**
 * The lines of the script by the texts that they write. Texts may be where pointers lead.
 * @param pointed the texts that may have moved by some tables
 */
export function linesOfTexts(app: App, image: Image, { all }: Translation, pointed: PointedTexts[]) {
    const listed = pointed.length === 0 ? [] : all.map(({ as }) => as);
    return textLines(image.opened, app.script, { pointed, listed, own: chosenEncoding(app) }, app.closing.signal);
}

/**
 * Returns a function that finds the new texts of the script, in place, or also where pointers lead.
 * @param end the byte that ends texts, if it is known
 */
export async function textsOfScript(app: App, image: Image, translation: Translation, pointed: PointedTexts | null, end?: number) {
    const { script } = app;
    if (script.patches === 0) return async () => '';
    const lines = await linesOfTexts(app, image, translation, pointed === null ? [] : [pointed]);
    const reader = new PatchedReader(app.calls, { reader: image.reader, base: image.base }, script);
    return patchedTexts(image.opened, reader, { own: chosenEncoding(app), end, lines, pointed });
}

/** From how many lines on they are read in turns. */
const MANY = 256;

/** A function that makes generated lines those of the script, as one edit. Throws an error if it would have more than the module takes. */
async function editOf(script: ScriptLines, made: Edit, signal: AbortSignal): Promise<() => unknown> {
    // Of such a script no lines are kept, so they would be lost.
    if (script.long !== null) throw ownFault(scriptWouldBeTooLong);
    const { instead, removed, end } = made;
    const isFew = end.length < MANY || script.head < 0;
    if (removed.size === 0 && instead.size === 0 && isFew) return () => end.length === 0 || script.add(end, '');
    if (removed.size === 1 && instead.size === 1 && end.length === 0) {
        const [[number, lines]] = instead;
        return () => script.edit(number - 1, 1, lines);
    }
    const texts = withGenerated(made);
    texts.splice(1, 0, ...script.comments());
    const text = texts.join('\n');
    assertTaken(text);
    const known = await modelInParts(script.calls, text, () => letOthersIn(signal));
    return () => script.take(text, script.name, known);
}

/**
 * Makes generated lines those of the script. Returns false if the script was edited meanwhile.
 * @param note is called at the same time
 */
async function put({ app, image }: { app: App, image: Image }, edit: Edit, note: () => void) {
    const { script } = app;
    const change = await editOf(script, edit, app.closing.signal);
    if (app.image !== image || script.lines !== edit.lines) return false;
    if (edit.removed.size + edit.instead.size + edit.end.length === 0) note();
    else {
        app.changeScript(() => {
            change();
            for (const line of [...edit.end, ...[...edit.instead.values()].flat()]) script.made.add(line);
            note();
        });
    }
    return true;
}

/**
 * Generates the lines of all texts that are due, and puts them into the script. What others have changed in it is read before. Returns the
 * counts of lines, null if the image was closed.
 * @param read reads the script, and returns whether it stayed the same meanwhile
 * @param show receives places that have changed
 */
export async function putIntoScript(app: App, image: Image, translation: Translation, read: () => Promise<boolean>,
    show: (places: Iterable<Placed>) => unknown, watch: Watch = {}) {
    const { script, closing: { signal } } = app;
    const counts = { added: 0, replaced: 0, same: 0 };
    while (translation.due.size > 0) {
        if (!translation.hasRead(script) && !await read()) continue;
        const made = await generate(app, image.opened, translation, script, { signal, ...watch });
        const isPut = await put({ app, image }, made, () => noteGenerated(translation, made, script));
        if (app.image !== image) return null;
        if (!isPut) continue;
        await show(made.made.keys());
        counts.added += made.end.length;
        for (const lines of made.instead.values()) counts.replaced += lines.length;
    }
    return counts;
}

/** Throws an error if a line of the script that stays writes bytes of new lines. */
function assertFree({ script }: App, incoming: string[], isReplaced: (line: ScriptLine) => boolean) {
    const same = new Set(incoming);
    const line = linesUnder(script, incoming).find(it => !isReplaced(it) && !same.has(it.text));
    if (line) throw ownFault(format(texts.textLineWritesHere, { line: String(line.number) }));
}

/**
 * Puts the lines of a finished script in place of those that write the same texts, or what moves them. Returns their counts; null if the
 * script was edited meanwhile, or the image was closed.
 * @param script null if there are no lines
 */
export async function putInPlaceOf(app: App, image: Image, script: Script | null, isReplaced: (line: ScriptLine) => boolean,
    note: () => void) {
    const { script: { lines } } = app;
    const incoming = script === null ? [] : linesMade(script);
    assertFree(app, incoming, isReplaced);
    const earlier = lines.filter(isReplaced);
    const [before, after] = [new Set(earlier.map(({ text }) => text)), new Set(incoming)];
    const removed = new Set(earlier.filter(({ text }) => !after.has(text)).map(({ number }) => number));
    const end = incoming.filter(text => !before.has(text));
    const isPut = await put({ app, image }, { lines, removed, instead: new Map(), end }, note);
    const replaced = Math.min(removed.size, end.length);
    return isPut ? { added: end.length - replaced, replaced, same: incoming.length - end.length } : null;
}
