// The new texts of a disc, and the lines of the script that follow from them. All that gives texts new ones changes this document, and
// nothing else. Its lines are generated from it, soon after the last change. Lines that others have changed are read into it once.

import { firstAfter } from '../bytes.js';
import type { OrderedImage } from '../disc/index.js';
import type { Remark } from '../faults.js';
import { VERB } from '../module/index.js';
import { byNumber, userPlace, type ScriptLine, type ScriptModel, type UserRange } from '../script/index.js';
import type { ListedText } from '../texts/index.js';
import { isTurnDue, letOthersIn, type Signal } from '../turns.js';
import type { RowEncodings } from './list_fitting.js';
import type { ListRow } from './list_rows.js';
import { rangesInOrder } from './replace.js';

/** A place with a different new text. */
type PlaceChange = { place: Placed, fresh: string };
/** The new text that the script writes at a place, or ''. */
type TextOf = (listed: ListedText) => string | Promise<string>;

/** Why a text does not fit because of other texts or lines at its place. */
const IN_THE_WAY = ['list/line-across', 'list/overlaps'];

/** A text at one place of the disc. */
export class Placed {
    /** The new text that is wanted, '' for none. This is the document; all that follows is made from it. */
    fresh = '';
    /** The new text that the script writes. It differs from `fresh` if this place is due, or if `why` says why it stays so. */
    written = '';
    /** Why the script does not write `fresh`, null if it does or will. */
    why: Remark | null = null;

    /**
     * @param listed the text as it is listed
     * @param as the text as it is fitted: a list may give it another room or encoding
     * @param ranges its bytes with its room
     */
    constructor(public listed: ListedText, public as: ListedText, public ranges: UserRange[], public how: RowEncodings) {}

    /** Equal for equal texts in the same encoding. */
    get key() {
        return `${this.listed.encoding} ${this.listed.text}`;
    }

    /** Whether the script lacks the new text. */
    get isLeft() {
        return this.why !== null || this.fresh !== this.written;
    }
}

/** What a text is known by if it is listed again. */
function listingOf({ block, offset, encoding, fill = '', text }: ListedText) {
    return `${block}+${offset} ${encoding} ${fill} ${text}`;
}

/** The new texts of all places. */
export class Translation {
    /** The texts that are listed. */
    places = new Map<ListedText, Placed>();
    /** Other texts: those of lists, and those listed before whose new texts the script lacks. */
    others: Placed[] = [];
    /** All of them by their places. */
    byPlace = new Map<string, Placed[]>();
    spans: { first: number, after: number, place: Placed }[] = [];
    firsts: number[] = [];
    /** The size of the largest range: how far before a place those begin that may reach it. */
    longest = 0;
    /** The places whose lines are to be generated. */
    due = new Set<Placed>();
    /** The earlier new texts of those that were changed together. */
    done: PlaceChange[][] = [];
    /** The later new texts of those that were undone. */
    undone: PlaceChange[][] = [];
    /** The lines of the script when they were last generated or read. */
    seen: ScriptLine[] = [];
    /** Places of which the script may have lines that were not read. */
    unread = new Set<Placed>();

    /**
     * @param image whose first block is `base`
     * @param how the texts that were listed last are fitted
     */
    constructor(public image: Pick<OrderedImage, 'order' | 'base'>, public how: RowEncodings) {}

    get all() {
        return [...this.places.values(), ...this.others];
    }

    /** The places whose new texts the script lacks, one for each text. */
    get left() {
        return [...new Map(this.all.filter(place => place.isLeft).map(place => [place.key, place])).values()];
    }

    /**
     * Lists other texts. A text that was listed before keeps its new text, and so does one whose new text the script lacks. New texts of
     * others are in the script, from which the texts in their places are read.
     */
    list(listed: ListedText[], how: RowEncodings) {
        this.how = how;
        const before = new Map(this.all.map(place => [listingOf(place.listed), place]));
        this.places = new Map(listed.map(it => {
            const place = before.get(listingOf(it)) || this.placed(it, how);
            before.delete(listingOf(it));
            return [it, Object.assign(place, { listed: it })];
        }));
        // New texts of an ordinary file are nowhere else.
        this.others = [...before.values()].filter(place => place.isLeft || (place.listed.block === '-' && place.fresh !== ''));
        for (const place of before.values()) if (!place.isLeft) this.due.delete(place);
        this.done = [];
        this.undone = [];
        this.seen = [];
        this.index();
    }

    /** Gives texts of lists a place, or says of the place of a listed text what a list says of it. */
    define(found: ListedText[], how: RowEncodings) {
        for (const it of found) {
            const place = this.byPlace.get(`${it.block}+${it.offset}`)?.find(({ listed }) => listed.text === it.text);
            const own = place || this.placed(it, how);
            if (place === undefined) this.others.push(own);
            else Object.assign(own, { as: it, how, ranges: this.rangesOf(it) });
            this.unread.add(own);
        }
        this.index();
    }

    /** The empty texts that are equal to some, with the new texts of these, unless equal ones have different new texts. */
    emptyLike(some: Iterable<Placed>) {
        const fresh: Map<string, string> = new Map();
        for (const place of some) {
            const known = fresh.get(place.key) ?? place.fresh;
            fresh.set(place.key, known === place.fresh ? known : '');
        }
        return new Map(this.all.flatMap(place => {
            const found = place.fresh === '' ? fresh.get(place.key) || '' : '';
            return found === '' ? [] : [[place, found] as const];
        }));
    }

    /** Counts the blocks of all texts from another base. */
    rebase(image: Pick<OrderedImage, 'order' | 'base'>) {
        const by = image.base - this.image.base;
        this.image = image;
        for (const place of this.all) {
            for (const it of new Set([place.listed, place.as])) if (it.block !== '-') it.block += by;
            place.ranges = this.rangesOf(place.as);
        }
        this.index();
    }

    placed(listed: ListedText, how: RowEncodings) {
        return new Placed(listed, listed, this.rangesOf(listed), how);
    }

    rangesOf({ block, offset, bytes, room }: ListedText): UserRange[] {
        return block === '-' ? [] : rangesInOrder(this.image, { block, offset }, Math.max(bytes, room));
    }

    index() {
        this.byPlace = new Map();
        this.spans = [];
        for (const place of this.all) {
            const key = `${place.listed.block}+${place.listed.offset}`;
            this.byPlace.set(key, [...this.byPlace.get(key) || [], place]);
            for (const range of place.ranges) this.spans.push({ first: userPlace(range), after: userPlace(range) + range.size, place });
        }
        this.spans.sort((a, b) => a.first - b.first);
        this.firsts = this.spans.map(({ first }) => first);
        this.longest = this.spans.reduce((most, { first, after }) => Math.max(most, after - first), 0);
    }

    /** The place of a row of a list, if its old text is the same. */
    at({ block, offset, isInFile, text }: Pick<ListRow, 'block' | 'offset' | 'isInFile' | 'text'>) {
        return this.byPlace.get(`${isInFile ? '-' : block}+${offset}`)?.find(({ listed }) => listed.text === text);
    }

    /** Gives places texts of which it is known that they do not fit, as one step that can be undone. */
    leave(left: { place: Placed, fresh: string, why: Remark }[]) {
        this.change(left);
        for (const { place, why } of left) this.settle(place, place.written, why);
    }

    /** Notes what the script writes at a place, and why not the new text. */
    settle(place: Placed, written: string, why: Remark | null) {
        place.written = written;
        place.why = why;
        this.due.delete(place);
    }

    /** Generates the lines of a place again if a line that is gone now was in the way. */
    retry(place: Placed) {
        if (place.why === null || !IN_THE_WAY.includes(place.why.code)) return;
        place.why = null;
        this.due.add(place);
    }

    /** Tries the texts that do not fit again, because others may. */
    tryAgain() {
        for (const place of this.all) {
            if (place.why !== null) this.due.add(place);
            place.why = null;
        }
    }

    /** Changes new texts, as one step that can be undone. Returns the places that have changed. */
    change(changes: PlaceChange[]) {
        const others = changes.filter(({ place, fresh }) => place.fresh !== fresh);
        if (others.length === 0) return [];
        this.done.push(this.set(others));
        this.undone = [];
        return others.map(({ place }) => place);
    }

    /** @returns the texts before them */
    set(changes: PlaceChange[]): PlaceChange[] {
        return changes.map(({ place, fresh }) => {
            const before = place.fresh;
            place.fresh = fresh;
            place.why = null;
            if (fresh === place.written) this.due.delete(place);
            else this.due.add(place);
            return { place, fresh: before };
        });
    }

    /** Undoes the last step, or redoes the one that was undone last. Returns the places that have changed. */
    turnBack(way: 'undo' | 'redo') {
        const [from, to] = way === 'undo' ? [this.done, this.undone] : [this.undone, this.done];
        const last = from.pop();
        if (last === undefined) return [];
        to.push(this.set(last));
        return last.map(({ place }) => place);
    }

    /** Takes a step back as if it had never been made, but for texts that were changed after it. Returns the places that have changed. */
    withdraw(step: PlaceChange[] | undefined) {
        const at = step === undefined ? -1 : this.done.indexOf(step);
        if (step === undefined || at < 0) return [];
        const later = new Set(this.done.slice(at + 1).flatMap(changes => changes.map(({ place }) => place)));
        this.done.splice(at, 1);
        return this.set(step.filter(({ place }) => !later.has(place))).map(({ place }) => place);
    }

    /** The place of a text that is listed, or was before others were. */
    placeOf(listed: ListedText): Placed {
        const there = this.byPlace.get(`${listed.block}+${listed.offset}`);
        const known = this.places.get(listed) || there?.find(it => listingOf(it.as) === listingOf(listed));
        if (known === undefined) this.define([listed], this.how);
        return known || this.placeOf(listed);
    }

    /** Whether the lines of the script are read. */
    hasRead(script: ScriptModel) {
        return script.lines === this.seen && this.unread.size === 0;
    }

    /** The places that a range meets. */
    meeting(range: UserRange) {
        const [from, to] = [userPlace(range), userPlace(range) + range.size];
        const found = [];
        for (let i = firstAfter(this.firsts, from - this.longest); i < this.spans.length && this.spans[i].first < to; i++) {
            if (this.spans[i].after > from) found.push(this.spans[i].place);
        }
        return found;
    }

    /**
     * The place whose line it is, because the line sets bytes only within it: the smallest one, since places may overlap; null if there is
     * none.
     */
    ownerOf({ patch }: ScriptLine) {
        if (patch === null || patch.verb !== VERB.SET) return null;
        const [from, to] = [userPlace(patch), userPlace(patch) + patch.size];
        let least = Infinity;
        let owner = null;
        for (const place of this.meeting(patch)) {
            const size = place.ranges.reduce((sum, range) => sum + range.size, 0);
            const isWithin = place.ranges.some(range => from >= userPlace(range) && to <= userPlace(range) + range.size);
            if (!isWithin || size >= least) continue;
            least = size;
            owner = place;
        }
        return owner;
    }

    /** Notes that the lines of the script are read. */
    noteRead(script: ScriptModel) {
        this.seen = script.lines;
        this.unread.clear();
    }

    /** The lines at a place: its own, and others. */
    linesAt(script: ScriptModel, place: Placed) {
        const lines = [...new Set(place.ranges.flatMap(range => script.linesWriting(range)))].sort(byNumber);
        const isOwn = (line: ScriptLine) => this.ownerOf(line) === place;
        return { own: lines.filter(isOwn), others: lines.filter(line => !isOwn(line)) };
    }

    /** The places at which lines were added, changed, or removed since the lines were generated or read. */
    touchedBy(script: ScriptModel) {
        const touched = new Set(this.unread);
        if (script.lines === this.seen) return touched;
        const before = new Set(this.seen.map(({ text }) => text));
        const now = new Set(script.lines.map(({ text }) => text));
        const note = ({ patch }: ScriptLine) => {
            if (patch !== null) for (const place of this.meeting(patch)) touched.add(place);
        };
        for (const line of this.seen) if (!now.has(line.text)) note(line);
        for (const line of script.lines) if (!before.has(line.text)) note(line);
        return touched;
    }

    /**
     * Reads the lines that others have changed, as one step that can be undone. Where they write another text than before, it becomes that
     * of this document, but for a text that was changed later, and is due.
     * @param options whether all places are read, since pointers may lead elsewhere; and whether texts that do not fit stay in any case
     * @returns the places that were read; null if the script has changed meanwhile
     */
    async read(script: ScriptModel, textOf: TextOf, { signal, all = false, areKept = false }: { signal?: Signal, all?: boolean,
        areKept?: boolean }): Promise<Placed[] | null> {
        const { lines } = script;
        const touched = all ? new Set(this.all) : this.touchedBy(script);
        const found: { place: Placed, others: ScriptLine[], fresh: string }[] = [];
        for (const place of touched) {
            if (isTurnDue()) await letOthersIn(signal);
            found.push({ place, others: this.linesAt(script, place).others, fresh: await textOf(place.as) });
        }
        if (script.lines !== lines) return null;
        this.seen = lines;
        for (const place of touched) this.unread.delete(place);
        const earlier: PlaceChange[] = [];
        for (const { place, others, fresh } of found) {
            const isSame = place.written === fresh;
            if (isSame && others.length === 0) this.retry(place);
            place.written = fresh;
            if (place.fresh === fresh) this.due.delete(place);
            if (isSame || this.due.has(place) || (areKept && place.why !== null)) continue;
            if (place.fresh !== fresh) earlier.push({ place, fresh: place.fresh });
            place.fresh = fresh;
            place.why = null;
        }
        if (earlier.length > 0) {
            this.done.push(earlier);
            this.undone = [];
        }
        return [...touched];
    }
}
