// Generates the lines of the script from the new texts of a translation, in place.

import type { Remark } from '../faults.js';
import { MOST_PATCHES } from '../module/index.js';
import { ScriptParts, type ScriptLine, type ScriptModel } from '../script/index.js';
import type { ListedText } from '../texts/index.js';
import { isTurnDue, letOthersIn } from '../turns.js';
import { fittedRows, placeInImage } from './list_fitting.js';
import type { ListRow } from './list_rows.js';
import type { Engine, OpenedTrack, Watch } from './opened.js';
import { replaceBytes } from './replace.js';
import { fittingScript } from './scripts.js';
import type { Placed, Translation } from './translation.js';

function lineAcross({ number }: ScriptLine): Remark {
    return { code: 'list/line-across', facts: { line: number } };
}

/** The lines of a place, in order of the disc: the new text for which they were generated, and why there are none. */
type MadeLines = { fresh: string, lines: string[], why: Remark | null };

/** The lines of the script that are each place's own. */
type EarlierLines = Map<Placed, ScriptLine[]>;

/** The row of a list that gives a listed text a new text. */
export function rowOfListed({ block, offset, room, encoding, text, fill = '' }: ListedText, fresh: string): ListRow {
    const isInFile = block === '-';
    return {
        list: '', unit: 'row', number: 0, place: '', block: isInFile ? 0 : block, isInFile, offset, room, encoding, fill, text, fresh,
        fault: null, isFuzzy: false,
    };
}

/** The lines of places with new texts. Places that others' lines write, or whose texts do not fit, have none. */
async function linesOfPlaces({ calls }: Pick<Engine, 'calls'>, opened: OpenedTrack, wanted: Map<Placed, string>,
    watch: Watch): Promise<Map<Placed, MadeLines>> {
    const { image, part } = await opened.contents();
    const rows: Map<ListRow, Placed> = new Map();
    for (const [place, fresh] of wanted) rows.set(rowOfListed(place.as, fresh), place);
    const made: Map<Placed, MadeLines> = new Map();
    const parts = new ScriptParts();
    const decoder = new TextDecoder();
    const into = placeInImage(part, null, async (row, window, old, fresh) => {
        const lines = await replaceBytes(calls, window, row, old, fresh, true);
        parts.push(lines);
        const place = rows.get(row) as Placed;
        made.set(place, { fresh: row.fresh, lines: decoder.decode(lines.text).trimEnd().split('\n'), why: null });
    });
    for (const how of new Set([...rows.values()].map(place => place.how))) {
        const some = [...rows.keys()].filter(row => rows.get(row)?.how === how);
        const { left } = await fittedRows(some, into, how, watch);
        for (const { text: row, why } of left) {
            const place = rows.get(row);
            if (place !== undefined) made.set(place, { fresh: row.fresh, lines: [], why });
        }
    }
    await fittingScript(calls, image, parts);
    return made;
}

/** The lines of all places that are due, from a script whose lines were all read. Nothing changes until `noteGenerated` is called. */
export async function generate(engine: Pick<Engine, 'calls'>, opened: OpenedTrack, translation: Translation, script: ScriptModel,
    watch: Watch = {}) {
    const { lines } = script;
    const made: Map<Placed, MadeLines> = new Map();
    const wanted: Map<Placed, string> = new Map();
    const earlier: EarlierLines = new Map();
    for (const place of translation.due) {
        if (isTurnDue()) await letOthersIn(watch.signal);
        const { own, others } = translation.linesAt(script, place);
        earlier.set(place, own);
        if (others.length > 0) made.set(place, { fresh: place.fresh, lines: [], why: lineAcross(others[0]) });
        else if (place.fresh === '') made.set(place, { fresh: '', lines: [], why: null });
        else wanted.set(place, place.fresh);
    }
    for (const [place, it] of wanted.size === 0 ? [] : await linesOfPlaces(engine, opened, wanted, watch)) made.set(place, it);
    return { lines, made, ...editOfMade(script, made, earlier) };
}

/**
 * The edit of the script that gives places their lines: the numbers of the lines that are `removed`, the lines that take the place of some
 * of them (`instead`), and those at the `end`. Notes the places whose lines would be more than a script has: they keep their earlier ones.
 */
function editOfMade(script: ScriptModel, made: Map<Placed, MadeLines>, earlier: EarlierLines) {
    const each = [...made].map(([place, it]) => ({ it, own: (earlier.get(place) || []).map(({ number }) => number) }));
    const removed = new Set(each.flatMap(({ it, own }) => it.why === null ? own : []));
    let room = MOST_PATCHES - script.patches;
    for (const { it, own } of each) if (it.why === null && it.lines.length === 0) room += own.length;
    const instead: Map<number, string[]> = new Map();
    const end: string[] = [];
    for (const { it, own } of each) {
        if (it.lines.length === 0) continue;
        const more = it.lines.length - own.length;
        if (more > room) Object.assign(it, { lines: [], why: { code: 'script/full', facts: { most: MOST_PATCHES } } });
        else {
            room -= more;
            if (own.length === 0) end.push(...it.lines);
            else instead.set(own[0], it.lines);
        }
    }
    for (const { it, own } of each) if (it.why !== null) own.forEach(number => removed.delete(number));
    return { removed, instead, end };
}

export type Generated = Awaited<ReturnType<typeof generate>>;

/** The texts of all lines of the script with the generated ones. */
export function withGenerated({ lines, removed, instead, end }: Pick<Generated, 'lines' | 'removed' | 'instead' | 'end'>) {
    const texts = lines.flatMap(({ number, text }) => instead.get(number) || (removed.has(number) ? [] : [text]));
    const last = texts.length - Number(texts[texts.length - 1] === '');
    return end.length === 0 ? texts : [...texts.slice(0, last), ...end, ''];
}

/** Notes what was generated, when the script has these lines. A text that was changed meanwhile stays due. */
export function noteGenerated(translation: Translation, { lines: before, removed, made }: Generated, script: ScriptModel) {
    translation.seen = script.lines;
    for (const [place, { fresh, why }] of made) {
        if (why === null) place.written = fresh;
        if (place.fresh === fresh) translation.settle(place, place.written, why);
    }
    for (const number of removed) {
        const { patch } = before[number - 1];
        if (patch !== null) translation.meeting(patch).forEach(place => translation.retry(place));
    }
}
