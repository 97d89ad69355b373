// The card with the table of all texts: filters, a search, the rows, and the texts that were typed.

import { roomInTrack, rowOfListed, type Placed, type RowOptions } from '../../core/tasks/index.js';
import type { App, Image, PlainFile } from '../app/index.js';
import { format, remarkText } from '../texts/index.js';
import {
    askBeforeLeaving, askUser, button, capital, element, fill, keyed, messageArea, notice, oneTabStop, sentence, setDisabled,
} from '../ui/index.js';
import { KINDS, TextChanges, type Kind, type KnownText, type KnownTexts } from './known_texts.js';
import { encodingLabel } from './search.js';
import { TextRow, VirtualRows, placeWords, withCodes } from './text_row.js';
import * as texts from '../texts/index.js';

/**
 * The listed texts of an image or an ordinary file; how new ones are fitted; the bytes that were found to end texts; and whether the texts
 * are names in records, or lines.
 */
export type List = { image: Image | PlainFile, texts: KnownTexts, options: RowOptions, ends: string[], areRecords: boolean,
    areLines: boolean };
export type Form = 'csv' | 'tsv' | 'po';
/** The callbacks to the panel: saving the list; noting changes of texts; and those of TextChanges. */
type CardOwner = { save: (form: Form) => Promise<void>, changed: () => void, generate: () => Promise<unknown>,
    read: (areKept: boolean) => Promise<boolean> };

const FILTERS = { all: 'All {n}', empty: 'Empty {n}', left: 'Do not fit {n}',
    signs: 'New characters {n}', done: 'Done {n}' } as const;

/** How many places of a text are listed. */
const MOST_PLACES = 12;

/** The names of the columns. */
function columns() {
    const names = [texts.textColumnFile, 'Old text', texts.textNewText, 'Bytes of room'];
    return element('thead', {}, element('tr', {}, ...names.map(name => element('th', { scope: 'col' }, name))));
}

export class TextsCard {
    list: List | null = null;
    kind: Kind = 'all';
    /** The texts that the filter shows. */
    shown: KnownText[] = [];
    drawn = new Map<KnownText, TextRow>();
    /** The index of the row that has the focus, or gets it by the Tab key. */
    chosen = 0;
    others = element('input', { type: 'text', id: 'texts-others', class: 'slim', autocomplete: 'off',
        spellcheck: 'false',
            placeholder: texts.textReplaceWith, 'aria-label': texts.textReplaceWith });
    title = element('h2', { id: 'all-texts-title', tabindex: -1 }, texts.textAllTexts);
    filters = element('div', { class: 'seg', role: 'group', 'aria-label': 'Which texts are shown' });
    meter = element('span', { class: 'meter small quiet' });
    body = element('tbody', {});
    message = messageArea('pad');
    strip = element('div', { class: 'foot pad small stack tight' });
    signs = element('p', { class: 'foot pad small quiet' });
    changes; find; back; table; box; rows; card;

    constructor(readonly app: App, readonly owner: CardOwner) {
        this.changes = new TextChanges(app, { ...owner, inFields: () => this.inFields(), redraw: () => this.redraw(),
            refresh: places => {
                this.list?.texts.refresh(places);
                this.redraw();
            },
            failed: error => fill(this.message, notice('bad', sentence(error))) });
        this.find = element('input', { type: 'text', id: 'texts-find', class: 'slim', autocomplete: 'off', spellcheck: 'false',
            placeholder: texts.textFindInTexts, 'aria-label': texts.textFindInTexts, input: () => this.filter() });
        this.back = button('slim bare', () => this.turnBack('undo'), texts.undo,
            element('span', { class: 'hide' }, ' the last change'));
        this.table = element('table', { class: 'all-texts', 'aria-labelledby': 'all-texts-title' }, columns(), this.body);
        this.box = element('div', { class: 'scroll texts' }, this.table);
        this.rows = new VirtualRows(this.box, this.body, index => this.rowAt(index));
        this.card = element('section', { class: 'card', 'aria-labelledby': 'all-texts-title', hidden: true }, this.header(), this.changer(),
            this.message, this.box, this.strip, this.signs);
        this.listen();
    }

    header() {
        const save = button('slim', () => void this.save(), texts.discSaveReport);
        return element('header', {}, this.title, this.filters, this.meter, this.back, save);
    }

    /** The search, and the replacement of what it finds. */
    changer() {
        return element('div', { class: 'row pad in-texts' }, this.find, this.others,
            button('slim', () => this.replaceWords(), 'Replace in all shown'));
    }

    listen() {
        const { app } = this;
        for (const part of [this.filters, this.strip]) oneTabStop(part, 'button');
        for (const [isPlain, what] of ([[false, texts.textTypedAreLost], [true, texts.textTypedNotInFile]] as const)) {
            askBeforeLeaving(() => (app.plain !== null) === isPlain && this.changes.isLost(), what, () => this.saveAs('csv'), true);
        }
        app.on('image', () => {
            if (app.translation === null) this.take(null);
        });
    }

    /** The new texts that are only in their fields, because they are still being typed. */
    inFields() {
        return [...this.drawn].flatMap(([known, { input: { value }, shown }]) => value === shown ? [] : [{ known, fresh: value }]);
    }

    /** Shows the texts of an image. */
    take(list: List | null) {
        this.list = list;
        this.card.hidden = list === null;
        this.kind = 'all';
        this.find.value = '';
        this.others.value = '';
        fill(this.message);
        this.filter();
    }

    /** Shows the texts of the chosen filter that contain the entered words. */
    filter() {
        const { list } = this;
        this.shown = list === null ? [] : list.texts.shown(this.kind, this.find.value);
        this.chosen = 0;
        this.drawn.clear();
        this.table.setAttribute('aria-rowcount', String(this.shown.length + 1));
        this.rows.show(this.shown.length);
        this.drawHead();
        this.drawStrip();
    }

    showKind(kind: Kind) {
        this.kind = kind;
        this.filter();
    }

    /** Shows a text among all others, and moves the focus to it. */
    showText({ listed }: Placed) {
        this.find.value = '';
        this.showKind('all');
        const index = this.shown.findIndex(known => known === this.list?.texts.of(listed));
        if (index < 0) return;
        this.choose(index);
        this.move(0);
    }

    /** Draws the filters with their counts, and how many texts are done. */
    drawHead() {
        this.owner.changed();
        if (this.list === null) return;
        const { counts, signs } = this.list.texts;
        fill(this.filters, ...KINDS.map(kind => keyed(kind, element('button', { type: 'button', 'aria-pressed': String(kind === this.kind),
            click: () => this.showKind(kind) }, format(FILTERS[kind], { n: counts[kind] })))));
        const bar = element('i');
        bar.style.width = `${100 * counts.done / counts.all}%`;
        fill(this.meter, element('span', { class: 'filled', 'aria-hidden': 'true' }, bar),
            format('{done} of {all} done', { done: counts.done, all: counts.all }));
        setDisabled(this.back, this.app.translation?.done.length === 0);
        const characters = [...signs.keys()];
        fill(this.signs, characters.length > 0 && capital(remarkText({ code: 'list/new-characters', facts: { characters } })));
    }

    rowAt(index: number) {
        const known = this.shown[index];
        const row = this.drawn.get(known) || new TextRow(known, {
            focused: () => this.choose(this.shown.indexOf(known)),
            typed: fresh => this.changes.typed([{ known, fresh }]),
            move: step => this.move(step),
            turnBack: way => this.turnBack(way),
            readFit: () => this.readFit(known),
            drawn: () => {
                if (this.shown[this.chosen] === known) this.drawStrip();
            },
        });
        if (!this.drawn.has(known)) {
            this.drawn.set(known, row);
            row.draw(index, index === this.chosen);
        }
        return row.row;
    }

    /** @param index of the row that has got the focus */
    choose(index: number) {
        if (index === this.chosen) return;
        const before = this.chosen;
        this.chosen = index;
        for (const i of [before, index]) this.drawn.get(this.shown[i])?.draw(i, i === index);
        this.rows.kept = index;
        this.rows.draw();
        this.drawStrip();
    }

    /** @param step by how many rows the focus moves */
    move(step: number) {
        const index = this.chosen + step;
        if (this.shown[index] === undefined) return;
        this.rows.reveal(index);
        const row = this.drawn.get(this.shown[index]);
        row?.input.focus({ preventScroll: true });
        row?.input.select();
    }

    async readFit(known: KnownText) {
        const { list } = this;
        if (list === null) return;
        known.fit = await roomInTrack(list.image.opened, rowOfListed(known.tightest, ''), list.options).catch(error => error);
        this.drawn.get(known)?.drawSize();
    }

    /** Undoes the last change, or redoes what was undone last, and shows it. */
    turnBack(way: 'undo' | 'redo') {
        const place = this.changes.turnBack(way);
        fill(this.message);
        const known = place && this.list?.texts.of(place.listed);
        const index = this.shown.findIndex(it => it === known);
        if (index < 0) return;
        this.choose(index);
        this.rows.reveal(index);
    }

    /** Replaces the words that are sought by others, in all new texts that are shown. */
    replaceWords() {
        const [words, others] = [this.find.value, this.others.value];
        const found = words === '' ? [] : this.shown.filter(({ fresh }) => fresh.includes(words));
        const changes = found.map(known => ({ known, fresh: known.fresh.split(words).join(others) }));
        this.changes.typed(changes);
        fill(this.message, notice(changes.length > 0 ? 'good' : 'plain',
            format('Replaced in {n} new text.|Replaced in {n} new texts.', { n: changes.length })));
    }

    /** Draws all rows again, after changes of many texts, and forgets those that are not in the document any more. */
    redraw() {
        for (const [known, { row }] of this.drawn) if (!row.isConnected) this.drawn.delete(known);
        this.shown.forEach((known, i) => this.drawn.get(known)?.draw(i, i === this.chosen));
        this.drawHead();
    }

    /** Shows the whole text of the chosen row, its encoding, and its places. */
    drawStrip() {
        const { app, list, chosen, shown: { [chosen]: known } } = this;
        if (list === null) return fill(this.strip);
        if (known === undefined) return fill(this.strip, 'No text is shown. Choose All, or find other words.');
        const { places } = known;
        const listed = places.slice(0, MOST_PLACES).map(({ block, offset }) => block === '-' ? element('span', {}, String(offset))
            : keyed(`${block}, ${offset}`, button('tiny bare', () => app.goTo(block, offset, true), placeWords({ block, offset }))));
        const more = places.length > MOST_PLACES && format(texts.andMore, { n: String(places.length - MOST_PLACES) });
        return fill(this.strip, element('p', { class: 'old-text' }, ...withCodes(known.text)),
            known.fresh.includes('{') && element('p', { class: 'old-text' }, ...withCodes(known.fresh)),
            keyed('places', element('div', { class: 'row quiet' }, element('span', {}, encodingLabel(known.encoding)),
                element('span', {}, places[0].block === '-' ? texts.textColumnOffset : texts.textColumnPlace, ':'), ...listed, more,
                list.ends.length > 0 && format(texts.textEndsFound, { bytes: list.ends.join(', ') }))));
    }

    /** Saves the texts with their new texts in a form that the user chooses. */
    async save() {
        const form = await askUser(['Save all texts and translations as'], [], [['csv', [texts.textAsCsv]], ['tsv', [texts.textAsTsv]],
            ['po', ['A PO file for PO editors']]], 'csv');
        if (form !== '') await this.saveAs(form);
    }

    /** A promise that is kept when all that was typed is in the script or the file, also what is still in a field. */
    settled() {
        this.changes.typed(this.inFields());
        return this.changes.queue;
    }

    /** Like settled, until nothing is typed. */
    async allSettled() {
        while (this.changes.waiting > 0 || this.inFields().length > 0) await this.settled();
    }

    saveAs(form: Form) {
        return this.changes.saveBy(() => this.owner.save(form));
    }
}
