// Imports lists whose texts may be longer than their room: texts with pointers move, and the pointers lead to their new places.

import { fillerOf } from '../encodings/index.js';
import { Fault, failedBy, remark, type Remark } from '../faults.js';
import { layOut, type ListedTable, type Movable, type Span } from '../pointers/index.js';
import { ScriptParts, type Script, type UserRange } from '../script/index.js';
import { sortedInTurns } from '../turns.js';
import {
    encodingsOfRows, fittedLists, placeInImage, type FittedLists, type LeftRow, type ListPlace,
} from './list_fitting.js';
import type { ListRow } from './list_rows.js';
import type { ImportOptions } from './list_tables.js';
import { OrderedTexts, laidInOrder, placesInOrder, type Piece, type Segment } from './moving_order.js';
import { openPointedFiles, type PointedFile, type PointedFiles } from './moving_pointers.js';
import { FreshFiles, checkMoved, pushFreshFiles, type FileLayout } from './moving_script.js';
import { MovedTexts, type MovedText, type PointedRow } from './moving_texts.js';
import type { Engine, OpenedTrack, Watch } from './opened.js';
import { assertHasRoom, replaceBytes, sharingWith, type VolumeNames } from './replace.js';
import { fittingScript } from './scripts.js';

type MovedRemark = Remark<'pointers/moved' | 'pointers/few' | 'pointers/inside' | 'replace/shared-blocks'>;
/** An import with tables of pointers; `isKept` selects rows that stay in place; `isTaken` says whether other lines write in a range. */
type MovingOptions = Omit<ImportOptions, 'isAlso'> & { tables: ListedTable[], isKept: (row: ListRow) => boolean,
    isTaken?: (range: UserRange) => boolean };
/**
 * The rows as in other imports, the finished script, and remarks: on each text that has moved, on those with fewer pointers than the texts
 * beside them or with pointers into their old texts, and on other files that change too. `longer` is how many texts fit only because texts
 * have moved.
 */
export type MovingImport = FittedLists & { script: Script | null, moved: MovedRemark[], few: MovedRemark[], sharing: MovedRemark[],
    longer: number };

/** Whether the new text of a row fits in its place. */
function hasRoom({ fresh, room }: PointedRow) {
    return fresh.length <= room;
}

/** A function that replaces the reason why a text does not fit if its place has no room. */
function insteadOfNoRoom(whyOf: (why: LeftRow['why']) => LeftRow['why']): (why: LeftRow['why']) => LeftRow['why'] {
    return why => why.code === 'replace/no-room' ? whyOf(why) : why;
}

/** Why a new text cannot have the size of the old one. */
function whyNotSized({ fresh, known, encoding }: PointedRow, fill: ImportOptions['fill'] = null) {
    const filler = fillerOf(encoding, fill);
    const missing = known - fresh.length;
    return missing > 0 && filler !== null ? remark('replace/filler', { missing, filler })
        : remark('replace/no-room', { name: encoding.name, size: fresh.length, room: known });
}

/**
 * The fewest texts without which the others have room: those that grow most. Null if the others have none even without all that grow.
 * @param growthOf how many bytes a text has more than the old one
 * @param missingWithout how many bytes are missing without some texts
 */
async function longestTexts<T extends MovedText>(texts: T[], growthOf: (text: T) => number,
    missingWithout: (omitted: Set<T>) => number | Promise<number>) {
    const growing = texts.filter(it => it.rows.length > 0 && growthOf(it) > 0).sort((a, b) => growthOf(b) - growthOf(a));
    if (await missingWithout(new Set(growing)) > 0) return null;
    let [fewest, fitting] = [0, growing.length];
    while (fewest < fitting) {
        const count = (fewest + fitting) >> 1;
        if (await missingWithout(new Set(growing.slice(0, count))) > 0) fewest = count + 1;
        else fitting = count;
    }
    return new Set(growing.slice(0, fitting));
}

/** The import of lists into a track, whose texts may move. */
class MovingRows {
    parts = new ScriptParts();
    fresh = new FreshFiles();
    /** The rows that may move. */
    rows: Map<PointedFile, PointedRow[]>;
    /** What rows in place replace in these files. */
    inPlace: { file: PointedFile, first: number, after: number }[] = [];
    layouts: (FileLayout & { texts: { end: number } })[] = [];
    left: LeftRow[] = [];
    remarks: Pick<MovingImport, 'moved' | 'few' | 'sharing'> = { moved: [], few: [], sharing: [] };

    constructor(readonly engine: Engine, readonly opened: OpenedTrack, readonly files: PointedFiles, readonly options: MovingOptions,
        readonly watch: Watch) {
        this.rows = new Map(files.files.map(file => [file, []]));
    }

    /** The image as the place of rows. `mayMove` says whether rows that may move are only collected. */
    async place(mayMove: boolean) {
        const { part } = await this.opened.contents();
        const { engine: { calls }, options: { fill } } = this;
        return placeInImage(part, fill, async (row, window, old, bytes) => {
            this.parts.push(await replaceBytes(calls, window, row, old, bytes, true));
            const spot = this.files.spotOf(row);
            if (spot === null) return;
            const { file, at } = spot;
            this.fresh.note(file, at, bytes);
            this.inPlace.push({ file, first: at, after: at + old.length });
        }, (row, { known, room, size, encoding }, bytes) => {
            const spot = this.files.spotOf(row);
            if (spot === null) return 0;
            const { file, at } = spot;
            const used = Math.max(known, Math.min(bytes.length, room), size);
            if (file.hasPointer(at, at + used)) throw new Fault('pointers/overlap', {});
            if (mayMove && file.leading.length > 0) {
                this.rows.get(file)?.push({ row, at, known, room, fresh: bytes, encoding });
                return used;
            }
            // The room of a text ends before the next place to which a pointer leads.
            const [next] = file.leadingTo(at + known, at + used);
            if (next !== undefined) assertHasRoom(encoding, bytes, Math.max(known, next.target - at - 1));
            return 0;
        });
    }

    /**
     * Fits a row in place, or leaves it out.
     * @param whyOf turns the reason why it does not fit into the one that is reported
     */
    async fitInPlace(place: ListPlace, { row }: PointedRow, whyOf: (why: LeftRow['why']) => LeftRow['why']) {
        try {
            await place.fit(row, encodingsOfRows(this.options)(row.encoding), this.watch.signal);
        } catch (error) {
            if (!(error instanceof Fault) || failedBy(error, 'cancelled')) throw error;
            this.left.push({ text: row, why: whyOf(remark(error.code, error.facts)) });
        }
    }

    /** Where rows without a new text are in each file. */
    placesOfOthers(others: ListRow[]) {
        const places: Map<PointedFile, number[]> = new Map(this.files.files.map(file => [file, []]));
        for (const row of others) {
            const spot = row.block < 0 ? null : this.files.spotOf(row);
            if (spot !== null) places.get(spot.file)?.push(spot.at);
        }
        return places;
    }

    /** Lays out the texts of a file if some do not fit in place. `firsts` are the places of rows without a new text. */
    async layOutFile(file: PointedFile, firsts: number[]) {
        const rows = await sortedInTurns(this.rows.get(file) || [], ({ at }) => at, this.watch.signal);
        const place = await this.place(false);
        if (rows.every(hasRoom)) {
            for (const text of rows) await this.fitInPlace(place, text, why => why);
            return;
        }
        const free = await this.freeEnd(file);
        const ordered = await this.layOutInOrder(place, file, rows, firsts, free);
        const mixed = rows.filter(({ at }) => !ordered.inBlocks.has(at));
        if (mixed.length === 0) return;
        const texts = new MovedTexts(file, mixed, { firsts: [...firsts, ...ordered.inBlocks], isKept: this.options.isKept });
        await texts.sort(this.watch.signal);
        for (const { text, reason } of texts.staying) {
            await this.fitInPlace(place, text, insteadOfNoRoom(why => remark('pointers/stays', { reason, why })));
        }
        await this.layOutMixed(place, file, texts, ordered.hasGrown ? { ...free, after: free.first } : free);
    }

    /** Lays out texts without an order. If they do not fit, the longest ones are left out, and keep their places. */
    async layOutMixed(place: ListPlace, file: PointedFile, { movable, end }: MovedTexts, free: Span) {
        const laidWithout = async (omitted: Set<Movable & MovedText>) => {
            const some = movable.filter(it => !omitted.has(it));
            return { some, layout: await layOut(some, { end: free, ranges: file.free }, this.watch.signal) };
        };
        const { layout: { missing } } = await laidWithout(new Set());
        const omitted = missing === 0 ? new Set<Movable & MovedText>() : await longestTexts(movable,
            ({ first, after, bytes }) => bytes.length - (after - first), async it => (await laidWithout(it)).layout.missing);
        if (omitted !== null) {
            const { some, layout } = await laidWithout(omitted);
            this.layouts.push({ file, texts: { movable: some, end }, layout });
        }
        await this.leaveInPlace(place, file, omitted === null ? movable : [...omitted], missing);
    }

    /**
     * Lays out a segment. If its texts do not fit, the longest new ones are left out, and the old ones move instead. Returns the end of the
     * last text, or null if the texts do not fit, but need no order.
     * @param end the byte that ends the texts of the file
     */
    async layOutSegment(place: ListPlace, file: PointedFile, { pieces, limit, isLast, areAddresses }: Segment, end: number, free: Span) {
        const last = isLast ? free.after : limit;
        const { missing } = placesInOrder(pieces, last);
        if (missing > 0 && areAddresses) return null;
        const without = (omitted: Set<Piece>) =>
            pieces.map(it => omitted.has(it) ? { ...it, bytes: it.old, rows: [], lengths: [], padding: null } : it);
        const omitted = missing === 0 ? new Set<Piece>() : await longestTexts(pieces, ({ bytes, old }) => bytes.length - old.length,
            it => placesInOrder(without(it), last).missing);
        if (omitted === null) {
            await this.leaveInPlace(place, file, pieces, missing);
            return 0;
        }
        const movable = without(omitted);
        const { places, left, end: after } = laidInOrder(movable, last);
        this.layouts.push({ file, texts: { movable, end }, layout: { places, left, end: after > file.size ? after : 0 } });
        const why = remark('pointers/no-room', { path: file.path, missing });
        for (const { row } of [...omitted].flatMap(({ rows }) => rows)) this.left.push({ text: row, why });
        return after;
    }

    /** Fits texts in place that have no room where they could move. `missing` is how many bytes of room are missing. */
    async leaveInPlace(place: ListPlace, { path }: PointedFile, texts: MovedText[], missing: number) {
        const whyOf = insteadOfNoRoom(() => remark('pointers/no-room', { path, missing }));
        for (const text of texts.flatMap(({ rows }) => rows)) await this.fitInPlace(place, text, whyOf);
    }

    /**
     * Lays out the texts of blocks with an order. Returns the places of their rows, and whether one of them uses the free end of the file.
     * @param firsts the places of rows without a new text
     */
    async layOutInOrder(place: ListPlace, file: PointedFile, rows: PointedRow[], firsts: number[], free: Span) {
        const { isKept, fill } = this.options;
        const texts = new OrderedTexts(file, rows, { firsts, isKept, fill });
        const { end, inBlocks, segments, staying } = texts;
        await texts.read(this.watch.signal);
        let hasGrown = false;
        for (const segment of segments) {
            const own = segment.pieces.flatMap(it => it.rows);
            if (own.every(hasRoom)) {
                for (const text of own) await this.fitInPlace(place, text, why => why);
                continue;
            }
            const after = await this.layOutSegment(place, file, segment, end, free);
            if (after === null) own.forEach(({ at }) => inBlocks.delete(at));
            else hasGrown = hasGrown || after > file.size;
        }
        for (const { text, reason } of staying) {
            const stays = (why: LeftRow['why']) => remark('pointers/stays', { reason, why });
            if (reason === 'length') this.left.push({ text: text.row, why: stays(whyNotSized(text, fill)) });
            else await this.fitInPlace(place, text, insteadOfNoRoom(stays));
        }
        return { inBlocks, hasGrown };
    }

    /** The free end of the last sector of a file: empty if its length cannot change, or if the sector has other data there. */
    async freeEnd({ file, bytes, size }: PointedFile) {
        const { volume } = await this.opened.contents();
        const free = { first: size, after: bytes.length };
        if (volume === null || bytes.subarray(size).some(it => it !== 0)) return { ...free, after: size };
        try {
            sharingWith(file, volume, false);
            return free;
        } catch (error) {
            if (!(error instanceof Fault)) throw error;
            return { ...free, after: size };
        }
    }

    /** How many of the texts that were laid out have more bytes than their room. */
    get longer() {
        const rows = this.layouts.flatMap(({ texts: { movable } }) => movable.flatMap(it => it.rows));
        return rows.filter(it => !hasRoom(it)).length;
    }

    /** Writes the layouts, and reports what has moved. */
    async write() {
        const { volume, part } = await this.opened.contents();
        const { signal } = this.watch;
        for (const { file, texts, layout } of this.layouts) {
            await this.fresh.write(file, layout, texts.end, signal);
            this.report(file, texts.movable, layout.places);
        }
        this.reportInside();
        if (volume === null) return;
        this.reportSharing(volume);
        const { isTaken: isKept, counted } = this.options;
        await pushFreshFiles(this.engine.calls, part, { names: volume, isKept, counted }, this.fresh, this.parts, signal);
    }

    /** Reports the rows with new texts into whose old texts pointers lead, as compilers make them for words that end alike. */
    reportInside() {
        const left = new Set(this.left.map(({ text }) => text));
        for (const [file, rows] of this.rows) {
            const inside = rows.filter(({ row, at, known }) => !left.has(row) && file.isPointed(at + 1, at + known));
            this.remarks.few.push(...inside.map(({ row }) => remark('pointers/inside', { text: row })));
        }
    }

    reportSharing(names: VolumeNames) {
        for (const [{ file, size }, fresh] of this.fresh.files) {
            const sharing = sharingWith(file, names, fresh.size === size);
            this.remarks.sharing.push(...sharing.map(other => remark('replace/shared-blocks', { path: file.path, other })));
        }
    }

    /**
     * Reports the rows whose texts have moved, and those with fewer pointers than the texts beside them.
     * @param texts in order
     */
    report({ path }: PointedFile, texts: MovedText[], places: Map<MovedText, number>) {
        for (const [i, text] of texts.entries()) {
            const { first, rows: [own], pointers: { length: pointers } } = text;
            const to = places.get(text) ?? first;
            if (to === first || own === undefined) continue;
            this.remarks.moved.push(remark('pointers/moved', { text: own.row, path, from: first, to, pointers }));
            const [before, after] = [texts[i - 1], texts[i + 1]].map(it => it === undefined ? Infinity : it.pointers.length);
            const beside = Math.min(before, after);
            if (pointers >= beside || beside === Infinity) continue;
            this.remarks.few.push(remark('pointers/few', { text: own.row, pointers, beside }));
        }
    }
}

/**
 * Creates the script of lists with new texts, which may be longer than their room if pointers lead to them. Before it is returned, it is
 * applied in memory, and all pointers and texts are read again. Throws a Fault if the lists cannot be read, if the tables are not those of
 * the disc, if the result is not as it should be, or `cancelled`.
 * @param watch receives the number of rows
 */
export async function importMoving(engine: Engine, opened: OpenedTrack, options: MovingOptions, watch: Watch = {}): Promise<MovingImport> {
    const { lists, tables, partial, encodings, isAsked } = options;
    const files = await openPointedFiles(opened, tables, watch.signal);
    const moving = new MovingRows(engine, opened, files, options, watch);
    const fitted = await fittedLists(lists, await moving.place(true), { encodings, isAsked, isAlso: () => true }, watch);
    if (fitted.count === 0 && fitted.fuzzy === 0) throw new Fault('list/no-new-text', {});
    for (const [file, firsts] of moving.placesOfOthers(fitted.others)) await moving.layOutFile(file, firsts);
    await moving.write();
    const left = [...fitted.left, ...moving.left];
    const { image } = await opened.contents();
    const script = partial || left.length === 0 ? await fittingScript(engine.calls, image, moving.parts) : null;
    if (script !== null) await checkMoved(engine.calls, opened, script, moving, watch.signal);
    return { ...fitted, left, script, longer: moving.longer, ...moving.remarks };
}
