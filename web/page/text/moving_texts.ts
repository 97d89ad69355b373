// Finds the pointers of the listed texts, and lets the texts move.

import type { DiscFile } from '../../core/disc/views.js';
import { encodingOf } from '../../core/encodings/views.js';
import type { Remark } from '../../core/faults.js';
import { tablesOfList, type ListedTable } from '../../core/pointers/views.js';
import type { Merged, ScriptLine, ScriptModel } from '../../core/script/views.js';
import {
    ListedSpans, PointedTexts, exportedPieces, findPointers, importMoving, importTable, openPointedFiles, type ImportedTable,
    type MovingImport, type Placed, type TextLines, type Translation, type Watch,
} from '../../core/tasks/index.js';
import type { ListedText } from '../../core/texts/views.js';
import { isTurnDue, letOthersIn } from '../../core/turns.js';
import { ownFault } from '../../sentences/index.js';
import { jobAt, type App, type Bar, type Image } from '../app/index.js';
import { discFileOf } from '../open/index.js';
import { downloadText } from '../save/index.js';
import { format, remarkText, say } from '../texts/index.js';
import { announce, capital, failureNotice, fill, nameOf, notice, seen, sentence, showMessageAt } from '../ui/index.js';
import { linesOfTexts, putInPlaceOf } from './generated_script.js';
import { PointersCard } from './pointers_card.js';
import { chosenEncoding } from './search.js';
import type { List } from './texts_card.js';
import type { TextsTable } from './texts_table.js';
import * as texts from '../texts/index.js';

// Generates the script of all new texts, which may move, and replaces the lines of earlier texts in the open script by it.

/** The listed texts of a disc. */
type DiscList = List & { image: Image };
/** What was imported, and what has moved. */
type Made = Pick<ImportedTable, 'count' | 'left' | 'codes' | 'glyphs' | 'fuzzy' | 'script'> & Pick<MovingImport, 'moved' | 'few'
    | 'sharing' | 'longer'>;
/** With the counts of lines. */
export type Moved = Made & { merged: Merged };

/** What an import in place lacks, and what an import without lists has. */
const NOTHING_MOVED = { moved: [], few: [], sharing: [], longer: 0 };
const NOTHING_MADE = { ...NOTHING_MOVED, count: 0, left: [], codes: [], glyphs: [], fuzzy: 0, script: null };

/** Texts with new ones as the list that the table saves. */
async function listFile(freshOf: Map<ListedText, string>): Promise<DiscFile> {
    const pieces = [];
    const all = (async function* () { yield [...freshOf.keys()]; })();
    const areRecords = [...freshOf.keys()].some(({ fill: own }) => own !== undefined);
    for await (const { text } of exportedPieces(all, { form: 'tsv', freshOf: it => freshOf.get(it) || '' }, areRecords)) pieces.push(text);
    return discFileOf(new File(pieces, texts.textAllTexts));
}

/** The lines in the way of texts: they write at the place of a text, but belong to something else. */
async function linesInTheWay(translation: Translation, { script, closing: { signal } }: App, lines: TextLines) {
    const found: Map<Placed, Remark> = new Map();
    for (const place of translation.all) {
        if (isTurnDue()) await letOthersIn(signal);
        const line = translation.linesAt(script, place).others.find(it => !lines.isOfMoved(it));
        if (line !== undefined) found.set(place, { code: 'list/line-across', facts: { line: line.number } });
    }
    return found;
}

/**
 * Generates the lines of all new texts. Texts move by the pointers of tables, or stay in place (null). The lines replace those that write
 * the texts, or what moves them, by all tables that an earlier script may have used. Returns null if the image was closed, or the script
 * was edited meanwhile.
 */
async function movedScript(app: App, { image, options }: DiscList, translation: Translation, tables: ListedTable[] | null,
    used: ListedTable[][], watch: Watch & { signal: AbortSignal }): Promise<Moved | null> {
    if (app.script.long !== null) throw ownFault(
        'The script is too long to be changed here. Use cdscript replace --list with --pointers instead.');
    const pointed: PointedTexts[] = [];
    for (const some of used) pointed.push(new PointedTexts(await openPointedFiles(image.opened, some, watch.signal)));
    const before = app.script.lines;
    const lines = await linesOfTexts(app, image, translation, pointed);
    const inTheWay = await linesInTheWay(translation, app, lines);
    const fresh = new Map(translation.all.map(place => [place, place.fresh]));
    // A text to which no pointer leads, and that does not change, keeps its lines.
    const encodingFor = ({ as }: Placed) => encodingOf(as.encoding) || chosenEncoding(app);
    const keeps = (place: Placed) => place.fresh !== '' && !place.isLeft && !translation.due.has(place) &&
        pointed.every(some => some.of(place.as, encodingFor(place)) === null);
    const kept = new Set(translation.all.filter(place => inTheWay.has(place) || keeps(place)));
    const list = new Map([...fresh].map(([place, text]) => [place.as, kept.has(place) ? '' : text]));
    const made = await imported(app, image, { ...options, lists: [await listFile(list)], partial: true, tables,
        isKept: () => false, isTaken: range => app.script.linesWriting(range).some(it => !isReplaced(it)) }, [...list.values()], watch);
    if (app.script.lines !== before) return null;
    const merged = await putInPlaceOf(app, image, made.script, isReplaced, () => note(translation, app.script, fresh, inTheWay, made));
    return merged && { ...made, merged };
    function isReplaced(line: ScriptLine) {
        const owner = translation.ownerOf(line);
        if (owner !== null && kept.has(owner)) return false;
        return lines.isOfMoved(line) || (owner !== null && (owner.fresh !== '' || owner.written !== ''));
    }
}

/** Imports a list with new texts, which move by the pointers of tables, or stay in place. */
async function imported(app: App, image: Image, how: Omit<Parameters<typeof importMoving>[2], 'tables'> & { tables: ListedTable[] | null },
    fresh: string[], watch: Watch): Promise<Made> {
    const { tables } = how;
    if (fresh.every(text => text === '')) return NOTHING_MADE;
    if (tables !== null) return importMoving(app, image.opened, { ...how, tables }, watch);
    return { ...await importTable(app, image.opened, how, watch), ...NOTHING_MOVED };
}

/** Notes which texts the script has, and why not the others. */
function note(translation: Translation, { lines }: ScriptModel, fresh: Map<Placed, string>, inTheWay: Map<Placed, Remark>, { left }: Made) {
    const whys = new Map([...inTheWay, ...left.map(({ text, why }) => [translation.at(text), why] as const)]);
    for (const [place, text] of fresh) {
        const why = text === '' ? null : whys.get(place) || null;
        if (!inTheWay.has(place)) place.written = why === null ? text : '';
        if (place.fresh === text) translation.settle(place, place.written, why);
    }
    translation.seen = lines;
}

/** The listed texts, if pointers can lead to them: not names in records, lines, nor the texts of an ordinary file. */
function discListOf(list: List | null) {
    return list !== null && 'disc' in list.image && !list.areRecords && !list.areLines ? (list as DiscList) : null;
}

/** The texts that may move. */
export class MovingTexts {
    /** The listed texts, null if they are not those of a disc. */
    list: DiscList | null = null;
    /** Whether texts may move. */
    isOn = false;
    /** Whether the page has let them, because the script already moves texts. */
    isOwn = false;
    /** The texts of the chosen tables; null if there are none, or if they are not those of the disc. */
    pointed: PointedTexts | null = null;
    /** Ends when the pointers of the chosen tables have been read. */
    judging = Promise.resolve();
    /** Ends when no script is being generated. */
    making = Promise.resolve();
    /** The tables with which the script was generated, null if none was with any. */
    used: ListedTable[] | null = null;
    card;

    constructor(readonly app: App, readonly owner: TextsTable) {
        this.card = new PointersCard({
            find: () => void this.find(), open: file => void this.open(file), save: list => this.save(list),
            chosen: () => void this.judge(), turn: isOn => void this.turn(isOn), make: () => void this.make(),
        });
        app.on('image', () => {
            if (app.translation === null) this.forget();
        });
    }

    forget() {
        this.app.endJobAt(this.card.job);
        this.isOn = false;
        this.isOwn = false;
        this.pointed = null;
        this.used = null;
        this.making = Promise.resolve();
        fill(this.card.message);
        this.card.show([]);
        this.draw();
    }

    /** Draws the switch, after texts have changed, or others were listed. */
    draw() {
        const list = discListOf(this.owner.known.list);
        this.card.card.hidden = list === null;
        if (this.list !== list) {
            this.list = list;
            if (list !== null) void this.judge();
        }
        const isOld = this.used === null || !this.card.areChosen(this.used);
        const { isOn, isOwn, pointed } = this;
        this.card.drawSwitch({ isOn, isOwn, isReady: pointed !== null, waiting: list === null ? 0 : list.texts.waiting, isOld });
    }

    /** Whether the new texts of a list wait until the script of all texts is generated. */
    letsWait(list: List | null) {
        return this.isOn && discListOf(list) !== null;
    }

    /**
     * Runs a job with its bar in the card.
     * @param undone is called if the job fails
     */
    work<Result>({ failure, ...words }: { name: string, noun?: string, failure: string, replaces?: boolean },
        run: (bar: Bar, signal: AbortSignal) => Promise<Result>, done: (result: Result) => unknown, undone: () => void = () => {}) {
        const { app, card } = this;
        return jobAt(app, card.job, {
            ...words, of: 'image', run: (bar, signal) => {
                fill(card.message);
                return run(bar, signal);
            },
            done, failed: error => {
                undone();
                showMessageAt(card.message, failureNotice(error, failure));
            },
        });
    }

    /** Finds the tables of pointers to the listed texts. */
    async find() {
        const { list } = this;
        if (list === null) return;
        const words = { name: texts.textLookingForPointers, failure: texts.textPointersAsBefore };
        await this.work(words, async (bar, signal) => {
            const spans = new ListedSpans();
            spans.add(list.texts.listed);
            const { text, count, unsearched } = await findPointers(list.image.opened, spans, { signal, progress: bar.sectors });
            return { tables: count === 0 ? [] : await tablesOfList(discFileOf(new File([text], '')).reader, signal), unsearched };
        }, ({ tables, unsearched }) => this.take(tables, unsearched));
    }

    /** @param file with a list of tables */
    async open(file: File) {
        const words = { name: texts.textLookingForPointers, failure: texts.textPointersAsBefore };
        await this.work(words, (_, signal) => tablesOfList(discFileOf(file).reader, signal), tables => this.take(tables));
    }

    /**
     * Shows tables, and uses all of them.
     * @param unsearched names a file that was not searched for pointers
     */
    async take(tables: ListedTable[], unsearched: Remark | null = null) {
        const { message } = this.card;
        this.card.show(tables);
        const pointers = tables.reduce((sum, { count }) => sum + count, 0);
        const found = format('{n} table with {pointers} pointers.|{n} tables with {pointers} pointers.', { n: tables.length, pointers });
        announce(tables.length === 0 ? texts.textNoPointers : found);
        const more = unsearched === null ? '' : ` ${capital(seen(remarkText(unsearched)))}.`;
        fill(message, tables.length === 0 ? notice('plain', texts.textNoPointers,
            'The texts may be compressed, or the game computes where they are.', more)
            : notice('good', found, 'If only few pointers of a table lead to the first byte of a text, leave that table out.', more));
        await this.judge();
    }

    judge() {
        this.judging = this.readPointers();
        return this.judging;
    }

    /** Reads the pointers of the chosen tables. The table of texts then has the new texts to which the script leads them. */
    async readPointers() {
        const { card, list } = this;
        const { chosen } = card;
        const isCurrent = () => this.list === list && card.areChosen(chosen);
        if (list === null) return;
        this.pointed = null;
        try {
            const files = chosen.length === 0 ? null : await openPointedFiles(list.image.opened, chosen, this.app.closing.signal);
            if (!isCurrent()) return;
            this.pointed = files === null ? null : new PointedTexts(files);
            // In a script that moves texts, a text in its old place would be written over others.
            if (!this.isOn && this.pointed?.hasPointerIn(range => this.app.script.lineAt(range) > 0)) {
                this.isOn = true;
                this.isOwn = true;
                this.letWait(list);
            }
        } catch (error) {
            if (!isCurrent()) return;
            showMessageAt(card.message, notice('bad', `${sentence(error)}.`, 'Leave that table out, or open a corrected list.'));
        }
        await this.mark(list);
        if (chosen.length > 0) this.owner.known.changes.readAgain();
    }

    /** Notes which texts may move. */
    async mark(list: DiscList) {
        const { app, pointed, isOn } = this;
        for (const known of list.texts.all) {
            if (isTurnDue()) await letOthersIn(app.closing.signal);
            const encoding = encodingOf(known.encoding) || chosenEncoding(app);
            known.mayMove = isOn && pointed !== null && known.places.every(place => pointed.of(place, encoding) !== null);
        }
        if (this.list === list) this.owner.known.redraw();
    }

    /** Lets the texts wait that do not fit in place. */
    letWait({ texts: own }: DiscList) {
        own.areWaiting = true;
        own.translation.tryAgain();
        void this.owner.show(own.translation.due);
    }

    /** Lets texts move, or puts them back in place. */
    async turn(isOn: boolean) {
        const { list } = this;
        if (list === null) return;
        this.isOn = isOn;
        this.isOwn = false;
        if (isOn) this.letWait(list);
        else list.texts.areWaiting = false;
        await this.mark(list);
        if (!isOn && (list.texts.waiting > 0 || this.used !== null)) await this.make();
    }

    /** Generates a script when the one before it is generated and the table has its texts, because it would remove those that it lacks. */
    inTurn<Result>(generate: () => Promise<Result>) {
        const made = this.making.then(() => this.judging).then(() => this.owner.known.settled()).then(generate);
        this.making = made.then(() => {}, () => {});
        return made;
    }

    /** Generates the script of all new texts of the table. If they are put back in place, it replaces the one that is being generated. */
    async make() {
        const { list, isOn } = this;
        if (list === null) return;
        const words = { name: texts.discMakingLines, noun: texts.textMakingOfRows, failure: texts.discNothingAdded, replaces: !isOn };
        await this.work(words, (bar, signal) => this.inTurn(async () =>
            this.isOn && this.pointed === null ? null : this.generate({ signal, progress: bar.things })), made => made && showMessageAt(
            this.card.message, this.owner.madeNotice(made, made.merged, { made, hasButtons: false })), () => {
            this.isOn = this.isOn || !isOn;
            void this.mark(list);
        });
    }

    /** Generates the script of all new texts. Returns null if the image was closed. */
    async generate(watch: Watch & { signal: AbortSignal }) {
        const { app, list } = this;
        const tables = this.isOn ? this.card.chosen : null;
        const used = [...tables === null ? [] : [tables], ...this.used === null ? [] : [this.used]];
        let made = null as Moved | null;
        while (made === null) {
            const { translation } = app;
            if (list === null || translation === null || this.list !== list) return null;
            while (!translation.hasRead(app.script)) await this.owner.read(false);
            made = await movedScript(app, list, translation, tables, used, watch);
        }
        this.used = tables;
        app.checkAfterChange();
        await this.owner.show(list?.texts.translation.all || []);
        this.owner.known.redraw();
        return made;
    }

    /** @param list of the chosen tables */
    save(list: string) {
        if (this.list === null) return;
        const name = `${this.list.image.name.replace(/\.[^.]*$/, '')} (pointers).tsv`;
        downloadText(list, name);
        showMessageAt(this.card.message, notice('good', say(texts.discFileSaved, { name: nameOf(name) })));
    }
}
