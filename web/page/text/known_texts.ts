// The texts of a disc as the page shows them: each distinct text once, with its places and its new text.

import type { Placed, Translation, roomInTrack } from '../../core/tasks/index.js';
import { Glyphs, type ListedText } from '../../core/texts/views.js';
import { isTurnDue, letOthersIn, type Signal } from '../../core/turns.js';
import type { App } from '../app/index.js';

// The table of texts as a view of its document: what is typed goes into the document, from which the lines of the script are generated
// soon; and lines that others have changed are read into it when the table is seen.

/** A text with a different new text at all its places. */
export type Change = { known: KnownText, fresh: string };
/**
 * The callbacks to the panel: the new texts that are still being typed in their fields; drawing places that have changed, or all; the
 * display of an error; a function that puts the texts that are due into the script or the file; and one that reads the script.
 */
type ChangesOwner = { inFields: () => Change[], refresh: (places: Placed[]) => void, redraw: () => void, failed: (error: unknown) => void,
    generate: () => Promise<unknown>, read: (areKept: boolean) => Promise<boolean> };

/** The changes of the translations of the open image or file. */
export class TextChanges {
    /** Ends when the script has all that was typed, and the table all that is in the script. */
    queue = Promise.resolve();
    waiting = 0;
    /** How often texts were typed, and how often before the last list that was saved. */
    typings = 0;
    saved = 0;

    constructor(readonly app: App, readonly owner: ChangesOwner) {
        app.on('script', () => this.update());
        app.on('panel', () => this.update());
        app.on('image', () => {
            if (app.translation === null) this.saved = this.typings;
        });
    }

    /** Whether a typed text is neither in the script nor in a saved list. */
    isLost() {
        const { translation } = this.app;
        if (translation === null) return false;
        return (this.typings > this.saved && translation.left.length > 0) || this.owner.inFields().length > 0;
    }

    /**
     * Saves all that was typed, also in a field that still has the focus. If that fails, it does not count as saved.
     */
    async saveBy(save: () => Promise<void>) {
        this.typed(this.owner.inFields());
        await this.queue;
        const { typings } = this;
        try {
            await save();
            this.saved = typings;
        } catch (error) {
            this.owner.failed(error);
        }
    }

    /** Notes new texts that were typed. */
    typed(changes: Change[]) {
        const { translation } = this.app;
        if (translation === null) return;
        this.show(translation.change(changes.filter(({ known, fresh }) => known.fresh !== fresh).flatMap(({ known, fresh }) =>
            known.places.map(it => ({ place: translation.placeOf(it), fresh })))));
    }

    /** Undoes the last change, or redoes what was undone last, and returns the first place that has changed. */
    turnBack(way: 'undo' | 'redo') {
        const places = this.app.translation?.turnBack(way) || [];
        this.show(places);
        return places.length === 0 ? null : places[0];
    }

    /** Shows places that have changed, whose lines are generated soon. */
    show(places: Placed[]) {
        if (places.length === 0) return;
        this.typings += 1;
        this.owner.refresh(places);
        this.next(() => this.write());
    }

    /** @param work that begins when all earlier work has ended */
    next(work: () => Promise<void>) {
        this.waiting += 1;
        this.queue = this.queue.then(work).finally(() => {
            this.waiting -= 1;
            this.update();
        });
    }

    /** Generates the lines of texts that are due. */
    async write() {
        const { translation } = this.app;
        if (translation === null || translation.due.size === 0) return;
        try {
            await this.owner.generate();
        } catch (error) {
            if (this.app.translation === translation) this.owner.failed(error);
        }
        if (this.app.translation === translation) this.owner.redraw();
    }

    /** Reads all lines of the script again, because pointers may lead elsewhere. Typed texts that do not fit are kept. */
    readAgain() {
        this.next(() => this.readScript(true));
    }

    /** Reads the lines that others have changed, if the table is seen. */
    update() {
        const { app, app: { translation } } = this;
        if (translation === null || app.panel !== 'text' || this.waiting > 0 || translation.hasRead(app.script)) return;
        this.next(() => this.readScript(false));
    }

    async readScript(areKept: boolean) {
        const { translation } = this.app;
        if (translation === null) return;
        try {
            if (!await this.owner.read(areKept) || this.app.translation !== translation) return;
            this.owner.redraw();
            // A line that was in the way is gone.
            if (translation.due.size > 0) this.next(() => this.write());
        } catch (error) {
            if (this.app.translation !== translation) return;
            translation.noteRead(this.app.script);
            this.owner.failed(error);
        }
    }
}

/** How a new text fits at the smallest of its places: the most bytes that it may have there, and what encodes it. */
export type Fit = Awaited<ReturnType<typeof roomInTrack>>;
/**
 * At how many places the script writes a new text, and why not at all of them, as a sentence, or ''; and whether it waits until the script
 * of all texts is generated, because texts may move.
 */
export type Outcome = { written: number, why: string, waits?: boolean };
export type Kind = 'all' | 'empty' | 'left' | 'signs' | 'done';

/** The kinds of texts that a filter shows. */
export const KINDS = ['all', 'empty', 'left', 'signs', 'done'] as Kind[];

/** A text of the disc. Equal texts in different encodings are different texts, since a new text has different bytes in each. */
export class KnownText {
    places: ListedText[] = [];
    /** The new text, or ''. */
    fresh = '';
    /** At how many places the script writes the new text. */
    written = 0;
    /** Why the script does not write the new text at all places, as a sentence; '' if it does. */
    why = '';
    /** Whether the new text waits until the script of all texts is generated. */
    waits = false;
    /** Whether a pointer leads to each place of the text, and texts may move. */
    mayMove = false;
    /** The characters of the new text that no old text has. */
    signs = '';
    /** How a new text fits, or the error that says why none does; undefined until it was read. */
    fit: Fit | Error | undefined = undefined;
    text; small; encoding;

    /** @param first its first place */
    constructor({ text, encoding }: ListedText) {
        this.text = text;
        /** The text in small letters, in which words are found. */
        this.small = text.toLowerCase();
        this.encoding = encoding;
    }

    /** The place with the smallest room. */
    get tightest() {
        return this.places.reduce((least, it) => it.room < least.room ? it : least);
    }

    /** Whether the script writes the new text at all places. */
    get isWritten() {
        return this.is('done') && this.why === '' && !this.waits;
    }

    /** Whether a filter shows the text. */
    is(kind: Kind) {
        switch (kind) {
            case 'empty': return this.fresh === '';
            case 'left': return this.why !== '';
            case 'signs': return this.signs !== '';
            case 'done': return this.fresh !== '' && this.written === this.places.length;
            default: return true;
        }
    }
}

/** All texts of a disc. */
export class KnownTexts {
    all: KnownText[] = [];
    /** The places of all texts, in the order of the disc. */
    listed: ListedText[] = [];
    /** By encoding and text. */
    byText = new Map<string, KnownText>();
    /** Whether texts that are due wait until the script of all texts is generated. */
    areWaiting = false;
    glyphs = new Glyphs();
    /** How many texts each filter shows. */
    counts = { all: 0, empty: 0, left: 0, signs: 0, done: 0 };
    /** How many texts wait until the script of all texts is generated. */
    waiting = 0;
    /** How many new texts have each character that no old text has. */
    signs = new Map<string, number>();

    /**
     * @param translation the document with the new texts
     * @param words the sentence on why the script does not have a new text
     */
    constructor(readonly translation: Translation, readonly words: (place: Placed) => string = () => '') {}

    of({ encoding, text }: { encoding: string, text: string }) {
        return this.byText.get(`${encoding} ${text}`);
    }

    async add(some: ListedText[], signal: Signal) {
        for (const listed of some) {
            if (isTurnDue()) await letOthersIn(signal);
            const known = this.of(listed) || new KnownText(listed);
            if (known.places.push(listed) === 1) {
                this.byText.set(`${listed.encoding} ${listed.text}`, known);
                this.all.push(known);
                this.count(known, 1);
                this.glyphs.add({ text: listed.text, fresh: '' });
            }
            this.listed.push(listed);
        }
    }

    /** The texts of some places, each once. */
    *textsOf(places: Iterable<Placed>) {
        const some = new Set<KnownText>();
        for (const { listed } of places) {
            const known = this.of(listed);
            if (known === undefined || some.has(known)) continue;
            some.add(known);
            yield known;
        }
    }

    /** Shows what the document has for some places. */
    refresh(places: Iterable<Placed>) {
        for (const known of this.textsOf(places)) this.show(known);
    }

    /** Like refresh, but others get turns in between. */
    async refreshInTurns(places: Iterable<Placed>, signal: Signal) {
        for (const known of this.textsOf(places)) {
            if (isTurnDue()) await letOthersIn(signal);
            this.show(known);
        }
    }

    /** Shows the most frequent new text of the places of a text, at how many it is or will be in the script, and why not at the others. */
    show(known: KnownText) {
        const { translation } = this;
        const places = known.places.map(it => translation.placeOf(it));
        const counts: Map<string, number> = new Map();
        for (const { fresh } of places) if (fresh !== '') counts.set(fresh, (counts.get(fresh) || 0) + 1);
        const [[fresh]] = [...counts, ['', 0] as [string, number]].sort(([, a], [, b]) => b - a);
        const waits = this.areWaiting && places.some(it => translation.due.has(it));
        const left = places.find(({ why }) => why !== null);
        const written = waits ? 0 : places.filter(it => it.fresh === fresh && it.why === null).length;
        this.note(known, fresh, { written, why: left === undefined ? '' : this.words(left), waits });
    }

    /** Notes at how many places the script writes a new text, and why not at all of them. */
    note(known: KnownText, fresh: string, { written, why, waits = false }: Outcome) {
        this.count(known, -1);
        known.fresh = fresh;
        known.written = written;
        known.why = why;
        known.waits = waits;
        known.signs = fresh === '' ? '' : this.glyphs.missingIn(fresh).join('');
        this.count(known, 1);
    }

    /** Adds a text to the counts, or removes it from them. */
    count(known: KnownText, step: 1 | -1) {
        for (const kind of KINDS) this.counts[kind] += known.is(kind) ? step : 0;
        this.waiting += known.waits ? step : 0;
        for (const sign of known.signs) {
            const count = (this.signs.get(sign) || 0) + step;
            if (count === 0) this.signs.delete(sign);
            else this.signs.set(sign, count);
        }
    }

    /** The texts that a filter shows and that contain some words, in the old or in the new text, in capital or small letters. */
    shown(kind: Kind, words: string) {
        const sought = words.toLowerCase();
        return this.all.filter(known => known.is(kind) &&
            (sought === '' || known.small.includes(sought) || known.fresh.toLowerCase().includes(sought)));
    }
}
