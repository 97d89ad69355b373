// The lines of a script that replace files of the disc. If a file is replaced again, its earlier lines are removed.

import { firstAfter, type Reader } from '../../core/bytes.js';
import { RESULT, VERB, type PatchRange } from '../../core/module/index.js';
import { NEWEST_VERSION, headLine, linesOfText, patchesOf, userPlace, type UserRange } from '../../core/script/views.js';
import { applyScript, validScript } from '../../core/tasks/index.js';
import { assertTaken, type ScriptLines } from './script_lines.js';
import type { Signal } from '../../core/turns.js';

export type Line = { number: number, text: string, patch: PatchRange };

/** How many earlier replacements of a file are looked for in a script. */
const MOST_RUNS = 8;

/** The lines of a script that write at least one byte of the places, in their order. */
export function linesIn({ calls, lines, long }: ScriptLines, places: UserRange[]): Line[] {
    const isIn = (patch: PatchRange) => patch.size > 0 && places.some(place =>
        userPlace(patch) < userPlace(place) + place.size && userPlace(patch) + patch.size > userPlace(place));
    if (!long) return lines.flatMap(({ number, text, patch }) => patch !== null && isIn(patch) ? { number, text, patch } : []);
    const found = patchesOf(calls, long.text).filter(isIn).sort((a, b) => a.number - b.number);
    return found.map(patch => ({ number: patch.number, text: new TextDecoder().decode(patch.line), patch }));
}

/** Returns a function that tells whether a script writes at least one byte of a range. */
export function writesOf({ calls, lines, long }: ScriptLines): (range: UserRange) => boolean {
    const patches = (long ? patchesOf(calls, long.text) : lines.flatMap(({ patch }) => patch || [])).filter(({ size }) => size > 0)
        .sort((a, b) => userPlace(a) - userPlace(b));
    const begins = patches.map(userPlace);
    let end = 0;
    const ends = patches.map(patch => { end = Math.max(end, userPlace(patch) + patch.size); return end; });
    return range => {
        const before = firstAfter(begins, userPlace(range) + range.size - 1);
        return before > 0 && ends[before - 1] > userPlace(range);
    };
}

/**
 * Whether a line only writes bytes of one of the places, and names the old bytes, like each line that replaces a file.
 * @param places of the file
 */
function mayReplace({ patch }: Line, places: UserRange[]) {
    return patch.verb === VERB.SET && patch.old !== null && places.some(place =>
        userPlace(patch) >= userPlace(place) && userPlace(patch) + patch.size <= userPlace(place) + place.size);
}

/** The script of some lines of a script. */
export function scriptOfLines(script: ScriptLines, lines: Line[]) {
    const text = [headLine(script.versionName() || NEWEST_VERSION.name), ...lines.map(line => line.text), ''].join('\n');
    return validScript(script.calls, [new TextEncoder().encode(text)], true);
}

/** The lines whose old bytes match an image. */
async function fittingLines(script: ScriptLines, image: { reader: Reader, base: number }, lines: Line[], signal?: Signal) {
    const read = await scriptOfLines(script, lines);
    const { outcomes } = await applyScript(script, image, read, { carry: true }, { signal });
    return outcomes.flatMap(({ number, result }) => result === RESULT.OK ? lines[number - 2] : []);
}

/**
 * The lines of a script that replace a file of this disc, or part of it: they write in this file only, and their old bytes match. The old
 * bytes of a line for a different disc do not match. Throws a Fault.
 * @param places of the file
 */
export async function linesReplacing(script: ScriptLines, image: { reader: Reader, base: number }, places: UserRange[], signal?: Signal) {
    let left = linesIn(script, places).filter(line => mayReplace(line, places));
    let found: Line[] = [];
    // If two lines replace the same bytes of the disc, only one of them matches in a run.
    for (let run = 0; run < MOST_RUNS && left.length > 0; run++) {
        const fitting = await fittingLines(script, image, left, signal);
        found = found.concat(fitting);
        const known = new Set(fitting);
        left = fitting.length > 0 ? left.filter(line => !known.has(line)) : [];
    }
    return found.map(({ text }) => text);
}

/** The lines that were added last for each file of a disc. Lines for the files of a different disc are kept. */
export class ReplacedFiles {
    /** By the image of the disc, and by the file's path. */
    discs = new WeakMap<Reader, Map<string, string[]>>();

    linesOf(disc: Reader) {
        const known = this.discs.get(disc) || new Map();
        this.discs.set(disc, known);
        return known;
    }

    /**
     * Adds lines that replace a file (none if it is as on the disc), and removes the lines that were added for it before. Returns how many
     * were removed. Throws an error, and changes nothing, if the script would have more than the module takes.
     * @param disc its image
     * @param earlier lines that replaced it in an earlier session
     */
    replace(script: ScriptLines, disc: Reader, path: string, texts: string[], earlier: string[] = []) {
        const known = this.linesOf(disc);
        const before = new Set(earlier.concat(known.get(path) || []));
        const lines = linesOfText(script.text());
        const kept = lines.filter(text => !before.has(text));
        if (kept.length < lines.length) {
            const end = kept.length - Number(kept[kept.length - 1] === '');
            const text = [...kept.slice(0, end), ...texts, ''].join('\n');
            if (texts.length > 0) assertTaken(text);
            for (const it of texts) script.made.add(it);
            script.take(text, script.name);
        } else if (texts.length > 0) script.add(texts, '');
        known.set(path, texts);
        return lines.length - kept.length;
    }
}
