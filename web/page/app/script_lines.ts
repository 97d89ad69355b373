// The script of the page: its lines, the edits that can be undone, and whether it is saved.

import { MOST_PATCHES, MOST_SCRIPT_BYTES, RESULT, isFault, type Calls } from '../../core/module/index.js';
import {
    ScriptModel, afterColon, baseComment, countOld, headLine, linesOfText, oldBytesOf, wordsOf, wordsOn, type Outcome,
    type ScriptState,
} from '../../core/script/views.js';
import { ownFault } from '../../sentences/index.js';
import { format, lineDoesNotFit, lineFits, lineNotCompared, scriptWouldBeTooLong } from '../texts/index.js';

export { scriptIsLong as LONG } from '../texts/index.js';

// Scripts with more than the module takes, of which no lines are kept, and those that are too long to be drawn.

/** Up to how many characters the editor draws lines. This is no limit of the lines that are kept. */
export const MOST_DRAWN = 4000000;
const MOST_LINES = 150000;

/** The text that says what works with a script of which no lines are kept, and what does not. */

/** The first character of a line that is not blank and not a comment, and the blanks before it. */
const BEGUN = /[ \t\r]*[^ \t\r\n#]/y;

/** Whether a script has more patches than the page can apply. Its lines are not read: those that are neither blank nor comments count. */
export function hasTooMany(text: string) {
    let count = 0;
    for (let at = 0; at >= 0 && count <= MOST_PATCHES + 1; at = text.indexOf('\n', at) + 1 || -1) {
        BEGUN.lastIndex = at;
        count += Number(BEGUN.test(text));
    }
    return count > MOST_PATCHES + 1;
}

/** Whether a script has more than the module takes, so that its lines are not kept. */
export function isLong(text: string) {
    if (text.length > MOST_SCRIPT_BYTES) return true;
    let lines = 1;
    for (let at = text.indexOf('\n'); at >= 0 && lines <= MOST_LINES; at = text.indexOf('\n', at + 1)) lines += 1;
    return lines > MOST_LINES;
}

/** Throws an error if a script that would be written has more than the module takes. */
export function assertTaken(text: string) {
    if (isLong(text) || hasTooMany(text)) throw ownFault(scriptWouldBeTooLong);
}

// The lines of a script with the outcomes of Check.

/** The lines, and what the program says of each. */
class CheckedLines extends ScriptModel {
    /** By the number of the line, from 1. */
    outcomes: Map<number, Outcome>;
    /** The program's words for each fault met so far. */
    faultWords: Map<number, string>;
    writers;

    constructor(calls: Calls, text: string) {
        super(calls, text);
        this.outcomes = new Map();
        /** For each refused line, the last line before it that wrote the byte which differs; null until first needed. */
        this.writers = null as Map<number, number> | null;
        this.faultWords = new Map();
    }

    /** @param outcomes of Check */
    setOutcomes(outcomes: Outcome[]) {
        this.outcomes = new Map(outcomes.map(outcome => [outcome.number, outcome]));
        this.writers = null;
    }

    /** The number of the last line before a refused one that wrote the byte which differs there, or 0. */
    writerBefore({ number }: Outcome) {
        if (this.writers === null) {
            const isApplied = (line: number) => this.outcomes.get(line)?.result === RESULT.OK;
            this.writers = this.writersBefore([...this.outcomes.values()].filter(({ result }) => result === RESULT.DIFFERS), isApplied);
        }
        return this.writers.get(number) || 0;
    }

    /** Whether a line has a fault or a patch that is refused. */
    isWrong(i: number) {
        const outcome = this.outcomes.get(i + 1);
        return isFault(this.lines[i].content) || (outcome !== undefined && outcome.result !== RESULT.OK);
    }

    /** Whether the patch of a line names old bytes, and the image has them there. */
    isMatched(i: number) {
        const { patch } = this.lines[i];
        const outcome = this.outcomes.get(i + 1);
        return outcome !== undefined && outcome.result === RESULT.OK && patch !== null && patch.old !== null;
    }

    /** The message for a line, in the program's words: its fault, or whether its patch matches; '' if there is neither. */
    wordsAt(i: number) {
        const { content, number } = this.lines[i];
        const outcome = this.outcomes.get(i + 1);
        if (isFault(content)) {
            const words = this.faultWords.get(content) ?? wordsOn(this.calls.faultLine(1, content), 1);
            this.faultWords.set(content, words);
            return words;
        }
        if (!outcome) return '';
        if (outcome.result === RESULT.OK) return this.isMatched(i) ? lineFits : lineNotCompared;
        const words = wordsOn(this.calls.outcomeLine(number, outcome.result, outcome.block, outcome.offset), number);
        return format(lineDoesNotFit, { why: afterColon(words) });
    }

    /**
     * The next wrong line, wrapping round at the end, or -1.
     * @param step 1 or -1
     */
    nextWrong(from: number, step: number) {
        const count = this.lines.length;
        for (let k = 1; k <= count; k++) {
            const i = (from + k * step + k * count) % count;
            if (this.isWrong(i)) return i;
        }
        return -1;
    }
}

/**
 * An edit: from line `at` on, the `removed` and the `inserted` lines, and the script's names before and after it. A typed edit is joined to
 * the previous one if that was typed in the same line. `saved` says that the text after the edit is in a file. How an edit was typed: in
 * the line, as bytes of a sector, or not at all.
 */
export type Edit = { at: number, removed: string[], inserted: string[], names: string[], typed: Typed, saved: boolean };
export type Typed = 'line' | 'bytes' | '';

/** With the state of the lines before it. */
export type LongScript = { text: string, saved: boolean, before: ScriptState & Pick<ScriptLines, 'done' | 'undone' | 'name'> };

/** The number of characters of lines, with their line ends. */
function sizeOf(lines: string[]) {
    return lines.reduce((sum, text) => sum + text.length + 1, 0);
}

/** The head line, the only line of a new script. */
const HEAD = headLine();

/** The script. If it has more than the module takes, only its text is kept, and no lines. */
export class ScriptLines extends CheckedLines {
    done: Edit[];
    undone: Edit[];
    /** The lines that an import or a replacement made, and that were not typed. */
    made: Set<string>;
    name; base; long;

    constructor(calls: Calls, text: string = `${HEAD}\n`) {
        super(calls, text);
        this.done = [];
        this.undone = [];
        this.made = new Set();
        /** The name of its file, or ''. */
        this.name = '';
        /** The base of the open image. */
        this.base = 0;
        this.long = null as LongScript | null;
    }

    text() {
        return this.long ? this.long.text : super.text();
    }

    /** Whether this is a new script, which has only its head line. */
    isNew() {
        const [head, rest] = this.lines;
        return !this.long && this.lines.length === 2 && head.text === HEAD && rest.text === '';
    }

    /** The lines of the comment that gives the image's base, for a new script; none for other scripts. */
    comments() {
        return this.head < 0 || this.isNew() ? linesOfText(baseComment(this.base)).slice(0, -1) : [];
    }

    /**
     * Replaces the text. If unsaved text is lost, returns a function that restores it and returns the line to show, or -1; else null.
     * @param name of its file
     * @param known of the text, if it was read already
     */
    take(text: string, name: string, known: ScriptModel | null = null) {
        const isLost = !this.isSaved() && !this.isNew() && this.text() !== text;
        const long = this.long && this.long.text;
        const own = this.name;
        if (isLong(text)) this.setLong(text, name);
        else if (text !== this.text() || name !== this.name) this.replace(text || `${HEAD}\n`, name, known);
        const edit = this.done[this.done.length - 1];
        const bringBack = () => {
            let line = this.long ? 0 : -1;
            if (long !== null) this.setLong(long, own);
            else this.leaveLong();
            while (edit && this.done.includes(edit)) line = this.undo();
            return line;
        };
        return isLost ? bringBack : null;
    }

    /** Begins a new script, with nothing to undo. */
    clear() {
        this.replace(`${HEAD}\n`, '');
        this.done = [];
        this.undone = [];
        this.made = new Set();
    }

    /**
     * Replaces all lines by a text that has more than the module takes. `leaveLong` restores them, and so does replacing this text.
     * @param name of its file
     */
    setLong(text: string, name: string) {
        const before = this.long ? this.long.before : { ...this };
        this.readText('');
        this.head = 0;
        this.outcomes = new Map();
        this.done = [];
        this.undone = [];
        this.name = name;
        this.long = { text, saved: false, before };
        this.tooMany = hasTooMany(text);
    }

    leaveLong() {
        this.outcomes = new Map();
        if (this.long === null) return;
        const { before } = this.long;
        this.adopt(before);
        this.done = before.done;
        this.undone = before.undone;
        this.name = before.name;
        this.long = null;
    }

    /**
     * Replaces the text, as one edit of the lines that differ.
     * @param name of its file
     * @param known of the text
     */
    replace(text: string, name: string, known: ScriptModel | null = null) {
        this.leaveLong();
        const { lines } = this;
        const inserted = linesOfText(text);
        const most = Math.min(lines.length, inserted.length);
        let [same, end] = [0, 0];
        while (same < most && lines[same].text === inserted[same]) same++;
        while (end < most - same && lines[lines.length - 1 - end].text === inserted[inserted.length - 1 - end]) end++;
        this.edit(same, lines.length - same - end, inserted.slice(same, inserted.length - end), '', name, known);
        this.joined = text;
    }

    /**
     * Adds patches at the end, or before a line. A new script first gets its head line and the comment that gives its base. Returns the
     * number of the last line added. Throws an error, and changes nothing, if the script would have more than the module takes.
     * @param before the number of the line before which they are inserted, or 0 for the end
     */
    add(texts: string[], typed: Typed, before: number = 0) {
        const own = [...this.head < 0 ? [HEAD] : [], ...this.comments(), ...texts];
        const last = this.lines.length - Number(this.lines[this.lines.length - 1].text === '');
        const at = before > 0 ? before - 1 : last;
        const inserted = at < this.lines.length ? own : [...own, ''];
        const hasRoom = this.patches + texts.length <= MOST_PATCHES && this.hasRoom(at, 0, inserted);
        if (this.long || !hasRoom) throw ownFault(scriptWouldBeTooLong);
        this.edit(at, 0, inserted, typed);
        if (typed === '') for (const text of texts) this.made.add(text);
        return at + own.length;
    }

    /** Whether lines can be replaced by others without making the script longer than the module takes. */
    hasRoom(at: number, count: number, inserted: string[]) {
        const more = sizeOf(inserted) - sizeOf(this.lines.slice(at, at + count).map(({ text }) => text));
        const lines = this.lines.length - count + inserted.length;
        return (more <= 0 || this.size + more <= MOST_SCRIPT_BYTES + 1) && (inserted.length <= count || lines <= MOST_LINES);
    }

    /** Counts the blocks of the lines that were made here from another base, as one edit. */
    shift(by: number) {
        const others = this.lines.map(({ text, patch }) => {
            if (patch === null || !this.made.has(text)) return text;
            const [verb, , ...words] = wordsOf(text);
            const shifted = [verb, String(patch.block + by), ...words].join(' ');
            this.made.add(shifted);
            return shifted;
        });
        this.replace(others.join('\n').replace(baseComment(this.base - by), baseComment(this.base)), this.name);
    }

    /** Removes lines, as one edit, and returns how many were removed. */
    remove(texts: Set<string>) {
        const { lines, name } = this;
        const kept = lines.filter(({ text }) => !texts.has(text));
        this.take(kept.map(({ text }) => text).join('\n'), name);
        return lines.length - kept.length;
    }

    /** Whether this text is in a file, or nothing was written yet. */
    isSaved() {
        if (this.long) return this.long.saved;
        const last = this.done[this.done.length - 1];
        return last === undefined || last.saved;
    }

    /** Notes that this text is in a file. Later typing is a separate edit. */
    noteSaved() {
        if (this.long) this.long.saved = true;
        const last = this.done[this.done.length - 1];
        if (last) Object.assign(last, { saved: true, typed: last.typed === 'line' ? '' : last.typed });
    }

    /**
     * Replaces lines.
     * @param name of the script after the edit
     * @param known the script after the edit, if it was read already
     */
    edit(at: number, count: number, inserted: string[], typed: Typed = '', name: string = this.name, known: ScriptModel | null = null) {
        const removed = this.lines.slice(at, at + count).map(({ text }) => text);
        const last = this.done[this.done.length - 1];
        const isOne = last && last.at === at && last.inserted.length === 1 && count === 1 && inserted.length === 1;
        if (isOne && typed === 'line' && last.typed === 'line') last.inserted = inserted;
        else this.done.push({ at, removed, inserted, names: [this.name, name], typed, saved: false });
        this.undone = [];
        this.name = name;
        this.put(at, count, inserted, known);
    }

    /** Undoes the last edit, and returns the line to show, or -1. */
    undo() {
        const edit = this.done.pop();
        if (edit === undefined) return -1;
        this.undone.push(edit);
        [this.name] = edit.names;
        this.put(edit.at, edit.inserted.length, edit.removed);
        return edit.at;
    }

    /** Redoes the edit that was undone last, and returns the line to show, or -1. */
    redo() {
        const edit = this.undone.pop();
        if (edit === undefined) return -1;
        this.done.push(edit);
        [, this.name] = edit.names;
        this.put(edit.at, edit.removed.length, edit.inserted);
        return edit.at + edit.inserted.length - 1;
    }

    /** @param known the script after it, if it was read already */
    put(at: number, count: number, inserted: string[], known: ScriptModel | null = null) {
        if (known === null) super.put(at, count, inserted);
        else this.adopt(known);
        this.outcomes = new Map();
    }

    /** How many patches name no old bytes, and how many old bytes the others name. */
    oldBytes() {
        return this.long ? oldBytesOf(this.calls, this.long.text) : countOld(this.lines.flatMap(({ patch }) => patch || []));
    }
}
