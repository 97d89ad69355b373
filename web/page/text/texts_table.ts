// Saves all texts of the disc as a table or a PO file for a translator, and generates lines of the script from lists with new texts.

import { isTableList } from '../../core/pointers/views.js';
import {
    Translation, changesOfLists, changesOfRows, rowOfListed, type FreshOf, type ListRow, type Placed, type RowOptions, type Watch,
} from '../../core/tasks/index.js';
import { ownFault } from '../../sentences/index.js';
import { jobAt, type App, type Bar, type Image, type PlainFile } from '../app/index.js';
import { fileReader } from '../open/index.js';
import { downloadBytes } from '../save/index.js';
import { format, say } from '../texts/index.js';
import { announce, button, element, failureNotice, fill, menuButton, nameOf, notice, showMessageAt, type Child } from '../ui/index.js';
import { mergedWords, putIntoScript, textsOfScript } from './generated_script.js';
import { rowOptionsOf } from './search.js';
import { WhatToList, bestWords, exportedList, exportedWords, inParts, listName } from './what_to_list.js';
import { LeftRows, importedWords } from './left_rows.js';
import { KnownTexts } from './known_texts.js';
import { MovingTexts, type Moved } from './moving_texts.js';
import { PlainCard, putIntoFile } from './plain_card.js';
import { movedList, movedWords } from './pointers_card.js';
import { TextsCard, type Form } from './texts_card.js';
import { leftSentence } from './text_row.js';
import type { Merged, ScriptLine } from '../../core/script/views.js';
import * as texts from '../texts/index.js';

/** The buttons for tables, their messages, and the rows that do not fit. */
export class TextsTable {
    input: HTMLInputElement;
    end: HTMLInputElement = element('input', { type: 'text', class: 'mono slim', id: 'texts-end', maxlength: 2, size: 2,
        autocomplete: 'off',
            spellcheck: 'false', pattern: '[0-9A-Fa-f]{2}' });
    job = element('div', { class: 'stack' });
    message = element('div', { role: 'status' });
    moving: MovingTexts;
    known: TextsCard;
    /** How often new texts were put into the ordinary file, and how often before it was saved last. */
    plain = { changes: 0, saved: 0 };
    label = element('span', { class: 'small quiet' }, texts.textAllTextsAsTable);
    left; what; plainCard; part;

    constructor(readonly app: App) {
        this.input = element('input', { type: 'file', class: 'hide', tabindex: -1, accept: '.tsv,.csv,.txt,.po',
            'aria-label': 'A table or PO file to import', change: () => this.chosen() });
        this.left = new LeftRows(app, this);
        this.what = new WhatToList(app);
        this.known = new TextsCard(app, { changed: () => this.changed(), save: form => this.saveKnown(form),
            generate: () => this.generate(), read: areKept => this.read(areKept) });
        this.moving = new MovingTexts(app, this);
        this.plainCard = new PlainCard(app, this);
        this.part = element('div', { class: 'stack tight' }, element('div', { class: 'row texts-table' }, this.label,
            button('slim', () => void this.list(), texts.textShowAllTexts),
            menuButton('slim', 'export', 'Export', () => [
                { label: 'Export a table (CSV)…', press: () => void this.save('csv') },
                { label: 'Export PO…', press: () => void this.save('po') }]),
            button('slim', () => this.input.click(), 'Import a list…'),
            element('label', { class: 'row small quiet' }, 'Byte that ends each text (such as FF; leave empty to find it):', this.end)),
        this.what.hint, this.what.part, this.job, this.message, this.input);
        for (const name of (['image', 'plain'] as const)) app.on(name, () => this.opened());
        app.addTaker(file => this.isTable(file));
        app.serve({ showLeft: () => this.showLeft() });
    }

    opened() {
        const { app, app: { image, plain, translation }, known: { list } } = this;
        this.plain = { changes: 0, saved: 0 };
        fill(this.label, plain === null ? texts.textAllTextsAsTable : 'All text in the file:');
        this.forget();
        if (image === null || translation === null) return;
        // The same disc, perhaps with another base.
        this.known.changes.next(async () => {
            const { part } = await image.opened.contents();
            if (app.translation !== translation) return;
            const by = part.base - translation.image.base;
            translation.rebase(part);
            if (by !== 0) app.changeScript(script => script.shift(by));
            translation.seen = [];
            if (list !== null) this.known.take({ ...list, image });
        });
    }

    /** The document with the new texts of what is open. */
    async document(opened: Image | PlainFile) {
        const { app } = this;
        const { part } = await opened.opened.contents();
        return app.translation || app.setTranslation(new Translation(part, this.rowOptions()));
    }

    /** Shows places that have changed, if they are listed. */
    async show(places: Iterable<Placed>) {
        await this.known.list?.texts.refreshInTurns(places, this.app.closing.signal);
    }

    /** Puts the texts that are due into the script or the file. Returns the counts of lines, null if what was open was closed. */
    async generate(watch: Watch = {}): Promise<Merged | null> {
        const { app, app: { image, plain, translation }, known: { list } } = this;
        if (translation === null) return null;
        if (list !== null) list.texts.areWaiting = this.moving.letsWait(list);
        const due = [...translation.due];
        if (plain !== null) await putIntoFile(plain, translation);
        this.plain.changes += 1;
        if (plain === null && image !== null && !this.moving.letsWait(list)) {
            return putIntoScript(app, image, translation, () => this.read(false), places => this.show(places), watch);
        }
        await this.show(due);
        return { added: 0, replaced: 0, same: 0 };
    }

    /** Reads the script, and returns whether it stayed the same meanwhile. */
    async read(areKept: boolean) {
        const { app, app: { image, translation } } = this;
        if (translation !== null && image === null) translation.noteRead(app.script);
        if (translation === null || image === null) return true;
        const { pointed } = this.moving;
        const textOf = await textsOfScript(app, image, translation, pointed, this.endByte());
        const how = { signal: app.closing.signal, all: pointed !== null || areKept, areKept };
        const places = await translation.read(app.script, textOf, how);
        if (places !== null) await this.show(places);
        return places !== null;
    }

    /** Shows the first new text that the script lacks: in the table, in the card of the rows that do not fit, or after all were listed. */
    async showLeft() {
        const { app, known } = this;
        app.showPanel('text');
        const [first] = app.translation?.left || [];
        if (first === undefined || !this.left.part.hidden) return;
        if (known.list === null) await this.list();
        known.showText(first);
    }

    forget() {
        fill(this.message);
        void this.left.show(null);
    }

    /** Texts of the table may have changed: those that did not fit may be in the script now. */
    changed() {
        this.moving.draw();
        if (this.left.leaveWritten(row => this.app.translation?.at(row)?.isLeft === false)) fill(this.message);
    }

    /**
     * Runs a job on the open image or file with a progress bar, and shows its result.
     * @param name of the job
     * @param noun the things that it counts, in the plural
     * @param failure the message if it fails
     */
    async work(name: string, noun: string, failure: string, job: (image: Image | PlainFile, bar: Bar, signal: AbortSignal) =>
        Promise<Child>) {
        const { app } = this;
        const { opened: image } = app;
        if (image === null) return void fill(this.message, notice('warn', texts.textNoImageIsOpen, texts.textOpenDiscFirst));
        return jobAt(app, this.job, {
            name, noun, of: 'image', run: (bar, signal) => {
                fill(this.message);
                return job(image, bar, signal);
            },
            done: message => fill(this.message, message),
            failed: error => fill(this.message, failureNotice(error, failure, [image.name])),
        });
    }

    /** The byte that ends texts, if one was entered. */
    endByte() {
        return /^[0-9A-Fa-f]{2}$/.test(this.end.value) ? parseInt(this.end.value, 16) : undefined;
    }

    rowOptions() {
        return rowOptionsOf(this.app, this.endByte());
    }

    /** Lists the texts of the disc, or what was chosen of them, in the table, with the new texts of the script. */
    async list() {
        const before = this.known.list;
        await this.work(texts.textLookingForTexts, texts.textMakingOfRows, 'The texts are not listed.', (...given) =>
            this.listInto(...given));
        if (this.known.list !== before) this.known.title.focus();
    }

    async listInto(image: Image | PlainFile, bar: Bar, signal: AbortSignal) {
        const { known } = this;
        const translation = await this.document(image);
        const found = new KnownTexts(translation, leftSentence);
        const options = this.rowOptions();
        const { pieces, areRecords, areLines, best, ends } = await this.what.listing(image.opened, this.endByte(), bar, signal);
        for await (const some of pieces) await found.add(some, signal);
        if (found.all.length === 0) return notice('plain', texts.textNoTextFound, texts.textAnotherEncoding);
        await known.allSettled();
        translation.list(found.listed, options);
        while (!await this.read(false));
        await found.refreshInTurns(translation.all, signal);
        await known.allSettled();
        translation.done = [];
        known.take({ image, texts: found, options, ends: [...ends], areRecords, areLines });
        const [names] = bestWords(best);
        return names === undefined ? null : notice('plain', names);
    }

    /** Saves the texts of the table, with their new texts, and all other new texts. */
    async saveKnown(form: Form) {
        this.assertRead();
        const { known: { list }, app: { opened, translation } } = this;
        if (translation === null || opened === null) return;
        const others = translation.others.filter(({ fresh }) => fresh !== '').map(({ as }) => as);
        const areRecords = list?.areRecords || others.some(({ fill: own }) => own !== undefined);
        const { pieces } = await exportedList(inParts([...translation.places.keys(), ...others]), { form, areRecords,
            newTextOf: it => translation.placeOf(it).fresh });
        const name = listName(opened.name, areRecords, form);
        downloadBytes(pieces, name);
        this.plain.saved = this.plain.changes;
        showMessageAt(this.known.message, notice('good', say(texts.discFileSaved, { name: nameOf(name) })));
    }

    /** Saves the list that `cdscript texts` prints with --csv or --po, with the new texts of the script. */
    save(form: 'csv' | 'po') {
        return this.work(texts.textLookingForTexts, texts.textMakingOfRows, 'No list was saved.', async (image, bar, signal) => {
            this.assertRead();
            const { pieces: some, areRecords, best, ends } = await this.what.listing(image.opened, this.endByte(), bar, signal);
            const listed = [];
            for await (const part of some) listed.push(...part);
            await this.known.settled();
            const newTextOf = await this.newTextOf(image);
            const { pieces, ...counts } = await exportedList(inParts(listed), { form, areRecords, newTextOf, signal });
            if (counts.all === 0) return notice('plain', texts.textNoTextFound, texts.textAnotherEncoding);
            const name = listName(image.name, areRecords, form);
            downloadBytes(pieces, name);
            const words = exportedWords({ ...counts, best, ends, form });
            return notice('good', say(texts.discFileSaved, { name: nameOf(name) }), words);
        });
    }

    /** Throws an error if the script has more than is read of it: an exported list would lack its translations. */
    assertRead() {
        const { script } = this.app;
        if (script.long !== null || script.tooMany) throw ownFault(
            'The script has more patches or lines than cdpatch accepts, so the list would lack translations. Shorten the script, then ' +
            'export again.');
    }

    /** The function that finds the new texts of the document, and of the script for texts that the document does not have. */
    async newTextOf(opened: Image | PlainFile): Promise<FreshOf> {
        const translation = await this.document(opened);
        const inScript = 'disc' in opened ? await textsOfScript(this.app, opened, translation, this.moving.pointed, this.endByte())
            : () => '';
        return listed => {
            const { block } = listed;
            const isInFile = block === '-';
            const place = translation.at({ ...listed, block: isInFile ? 0 : block, isInFile });
            // A name in a record would be padded differently.
            return place === undefined || place.as.fill !== listed.fill ? inScript(listed) : place.fresh;
        };
    }

    chosen() {
        const file = (this.input.files || [])[0];
        this.input.value = '';
        if (file) void this.takeAny(file);
    }

    /** @param file that is opened */
    async isTable(file: File) {
        if (!/\.(?:[tc]sv|po)$/i.test(file.name)) return false;
        const use = () => {
            this.app.showPanel('text');
            return this.takeAny(file);
        };
        return { needsImage: true, use };
    }

    /** @param file with texts, or with tables of pointers to the texts of the disc, which are then listed first */
    async takeAny(file: File) {
        let isOfTables = false;
        await this.work(texts.discMakingLines, texts.textMakingOfRows, texts.discNothingAdded, async (...given) => {
            isOfTables = await isTableList(fileReader(file));
            return isOfTables ? null : this.take(file, ...given);
        });
        if (!isOfTables) return undefined;
        if (this.known.list === null) await this.list();
        if (this.moving.list !== null) return this.moving.open(file);
        return this.known.list && fill(this.message, notice('warn', 'Pointers lead to the texts of a disc.', 'List these texts first.'));
    }

    /** Changes the texts as a list says. Returns the message about it. */
    async take(file: File, image: Image | PlainFile, bar: Bar, signal: AbortSignal) {
        const { app, known } = this;
        this.forget();
        if (app.plain !== null && known.list === null) await this.listInto(image, bar, signal);
        const watch = { signal, progress: bar.things };
        const lists = [{ name: file.name, reader: fileReader(file) }];
        const options = this.rowOptions();
        await known.settled();
        const translation = await this.document(image);
        const isAlso = ({ block, offset }: ListRow) => app.script.lineAt({ block, offset, size: 1 }) > 0;
        const given = await changesOfLists(image.opened, translation, lists, options, watch, isAlso);
        const put = await this.put(given, watch);
        if (put === null) return null;
        const { left, merged, withdrawn, made } = put;
        await this.left.show('disc' in image ? { image, name: file.name, rows: left, options } : null);
        const { length: count } = [...given.changes, ...given.left];
        return this.madeNotice({ ...given, count, left }, merged, { withdrawn, made, equal: translation.emptyLike(given.changes.keys()) });
    }

    /** Gives empty texts the new texts of equal ones. */
    fillEqual(equal: Map<Placed, string>): Promise<unknown> {
        return this.work(texts.discMakingLines, texts.textMakingOfRows, texts.discNothingAdded, async (_, bar, signal) => {
            const changes = new Map([...equal].map(([place, fresh]) => [place, rowOfListed(place.as, fresh)]));
            const put = await this.put({ changes, empty: new Set(), left: [] }, { signal, progress: bar.things });
            const rows = { count: changes.size, left: put?.left || [], codes: [], glyphs: [], fuzzy: 0 };
            return put && this.madeNotice(rows, put.merged, { made: put.made });
        });
    }

    /**
     * Changes the texts as rows say. Returns the rows that do not fit, the counts of lines, those of texts for which the rows have no new
     * text, and what has moved; null if the image was closed.
     */
    async put({ changes, empty, left: others }: Awaited<ReturnType<typeof changesOfRows>>, watch: Watch & { signal: AbortSignal }) {
        const { app, known } = this;
        const { translation } = app;
        if (translation === null) return null;
        while (!translation.hasRead(app.script)) await this.read(false);
        let same = 0;
        for (const [place, row] of changes) {
            if (row.fresh === place.fresh && !place.isLeft) same += translation.linesAt(app.script, place).own.length;
        }
        const withdrawn = [...empty].flatMap(place => place.fresh === '' ? [] : translation.linesAt(app.script, place).own);
        const changed = translation.change([...changes].map(([place, row]) => ({ place, fresh: row.fresh })));
        const step = changed.length === 0 ? undefined : translation.done[translation.done.length - 1];
        await this.show(changed);
        const isMoving = this.moving.letsWait(known.list);
        const made = isMoving ? await this.moving.inTurn(() => this.moving.generate(watch)).catch(cancel) : null;
        const merged = isMoving ? made && made.merged : await this.generate(watch).catch(cancel);
        function cancel(error: unknown): never {
            known.changes.show(translation?.withdraw(step) || []);
            throw error;
        }
        if (merged === null || app.translation !== translation) return null;
        app.checkAfterChange();
        known.redraw();
        const left = [...others, ...[...changes].flatMap(([{ why }, text]) => why === null ? [] : [{ text, why }])];
        withdrawn.sort((a, b) => a.number - b.number);
        return { left, merged: { ...merged, same: merged.same + (isMoving ? 0 : same) }, withdrawn, made };
    }

    /** Changes the texts of some rows. */
    async putRows(rows: ListRow[], { opened }: Image, options: RowOptions) {
        const { app } = this;
        if (app.translation === null) return null;
        const { signal } = app.closing;
        return this.put(await changesOfRows(opened, app.translation, rows, options, { signal }), { signal });
    }

    /** The message about imported rows, and what has moved. */
    madeNotice(rows: Parameters<typeof importedWords>[0], merged: Merged, { withdrawn = [], made = null, equal = new Map(),
        hasButtons = true }: { withdrawn?: ScriptLine[], made?: Moved | null, equal?: Map<Placed, string>, hasButtons?: boolean } = {}) {
        const { plain, translation } = this.app;
        const n = plain === null ? 0 : translation?.all.filter(({ fresh, why }) => fresh !== '' && why === null).length || 0;
        const head = plain === null ? mergedWords(merged) || texts.discNothingAdded : format(
            '{n} new text is ready to be saved in the file.|{n} new texts are ready to be saved in the file.', { n });
        const { isGood, words: [added, fit, ...remarks] } = importedWords(rows, head, withdrawn);
        const isAny = hasButtons && plain === null && merged.added + merged.replaced + merged.same + withdrawn.length > 0;
        if (made !== null) {
            remarks.push(...movedWords(made));
            fill(this.moving.card.moved, movedList(made.moved));
        }
        announce([added, fit, ...remarks].join(' '));
        const more = remarks.map(it => element('p', {}, it));
        const words = 'Use them for {n} equal text that is empty|Use them for {n} equal texts that are empty';
        return notice(isGood ? 'good' : 'warn', added, fit, ...more, isAny && element('div', { class: 'row' }, equal.size > 0 &&
            button('slim', () => void this.fillEqual(equal), format(words, { n: equal.size })), withdrawn.length > 0 &&
            button('slim', () => this.remove(withdrawn), 'Remove from the script'), this.scriptButton()));
    }

    /** Says that all rows that did not fit are in the script. */
    ended() {
        this.app.checkAfterChange();
        const script = this.scriptButton();
        fill(this.message, notice('good', 'All translations are in the script now.', element('div', { class: 'row' }, script)));
        script.focus();
    }

    scriptButton() {
        return button('slim', () => this.app.showPanel('script'), texts.discOpenScriptPanel);
    }

    remove(withdrawn: ScriptLine[]) {
        const n = this.app.changeScript(script => script.remove(new Set(withdrawn.map(({ text }) => text))));
        const head = format('Lines removed: {n}. Ctrl+Z in the script brings them back.', { n });
        announce(head);
        fill(this.message, notice('good', head, element('div', { class: 'row' }, this.scriptButton())));
    }
}
