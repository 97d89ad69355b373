// The rows of a list that do not fit: each with its place and the reason, the card that corrects one, and the bytes at its place.

import { encodingOf, usualBytes } from '../../core/encodings/views.js';
import type { Facts, Remark } from '../../core/faults.js';
import type { ScriptLine } from '../../core/script/views.js';
import {
    leftTable, roomInTrack, type FittedLists, type LeftRow, type ListRow, type RowOptions, type roomOfRow,
} from '../../core/tasks/index.js';
import type { App, Image } from '../app/index.js';
import { downloadText } from '../save/index.js';
import { format, remarkText, say } from '../texts/index.js';
import {
    button, capital, element, fill, isDisabled, keyed, messageArea, notice, sentence, setDisabled, showFailure, showMessageAt, shownText,
    tableCard, type Child,
} from '../ui/index.js';
import { mergedWords } from './generated_script.js';
import { AroundCard, readAround } from './hits_card.js';
import { chosenEncoding } from './search.js';
import { gauge, sizeWords, whyLeft } from './text_row.js';
import type { TextsTable } from './texts_table.js';
import * as texts from '../texts/index.js';

/** What Check and Publish say of new texts that the script lacks, with a button that goes to the first one; nothing if it has all. */
export function leftWordsOf({ translation, services }: App): Child[] {
    const n = translation === null ? 0 : translation.left.length;
    return n === 0 ? [] : [format('{n} translation in the table of texts is not in the script.|\
{n} translations in the table of texts are not in the script.', { n }), ' ',
    button('slim bare tiny', () => services.showLeft(), 'Show the first one')];
}

// The card that corrects the new text of a row that does not fit, with its length compared with the room there.

export type Room = Awaited<ReturnType<typeof roomOfRow>>;

/** The card. `equal` is how many rows have the same texts as the shown one, which is one of them. */
class RowCard {
    row: ListRow | null = null;
    equal = 1;
    room: Room | null = null;
    length = element('p', { class: 'small', id: 'row-length', role: 'status' });
    boxes = element('div', { class: 'stack' });
    message = messageArea();
    head = element('header', {});
    body = element('div', { class: 'pad stack' });
    input; addAll; add; field; card;

    /** @param add adds the lines of a corrected row to the script, and with `all` those of equal rows */
    constructor(add: (row: ListRow, all: boolean) => void, skip: () => void) {
        this.input = element('textarea', { class: 'mono', id: 'row-text', rows: 2, autocomplete: 'off', spellcheck: 'false',
            'aria-describedby': 'row-length', input: () => this.draw(), keydown: event => this.pressed(event) });
        this.addAll = button('main', () => this.press(add, true));
        this.add = button('main', () => this.press(add, false));
        this.field = [element('div', {}, element('label', { for: 'row-text' }, texts.textNewText), this.input), this.length, this.boxes,
            element('div', { class: 'row' }, this.addAll, this.add, button('slim bare', skip, texts.textSkipHit))];
        this.card = element('section', { class: 'card', 'aria-label': texts.textNewText }, this.head, this.body);
    }

    /**
     * Shows a row with the room for its new text, or why no new text can make it fit.
     * @param found the room, or the Fault
     * @param equal how many rows have the same texts
     */
    show(row: ListRow, found: Room | unknown, equal: number) {
        this.row = row;
        this.equal = equal;
        this.addAll.hidden = equal === 1;
        this.add.className = equal === 1 ? 'btn main' : 'btn';
        fill(this.addAll, format('Add for this {n} row|Add for all {n} equal rows', { n: equal }));
        fill(this.add, equal === 1 ? 'Add to the script' : 'Only this row');
        this.room = found instanceof Error ? null : (found as Room);
        fill(this.head, element('h2', {}, format('Correct row {row}', { row: String(row.number) })));
        fill(this.body, element('div', {}, element('span', { class: 'label' }, 'Old text'),
            element('p', { class: 'mono old-text' }, shownText(row.text))),
        ...this.room === null ? [element('p', { class: 'say plain' },
            `${sentence(found)}. A different new text does not help: correct this row in your table.`)] : this.field,
        this.message);
        this.input.value = row.fresh;
        this.draw();
    }

    /** The bytes of the new text, or the error if it cannot be encoded. */
    fresh() {
        try {
            return { bytes: this.room ? this.room.bytesOf(this.input.value) : new Uint8Array(0), fault: '' };
        } catch (error) {
            return { bytes: new Uint8Array(0), fault: sentence(error) };
        }
    }

    draw() {
        if (this.room === null) return;
        const { bytes, fault } = this.fresh();
        const { room } = this.room;
        const isWrong = fault !== '' || bytes.length > room;
        fill(this.length, ...fault === '' ? say('{bytes}: there is room for {size}',
            { bytes: sizeWords(bytes.length, room), size: String(room) })
            : [element('b', { class: 'bad-ink' }, fault)]);
        this.input.setAttribute('aria-invalid', String(isWrong));
        fill(this.boxes, gauge(bytes, room, null));
        for (const it of [this.add, this.addAll]) setDisabled(it, isWrong || this.input.value === '');
    }

    pressed(event: KeyboardEvent) {
        if (event.key !== 'Enter' || event.isComposing || event.shiftKey) return;
        event.preventDefault();
        (this.equal === 1 ? this.add : this.addAll).click();
    }

    press(add: (row: ListRow, all: boolean) => void, all: boolean) {
        if (this.row !== null && !isDisabled(this.add)) add({ ...this.row, fresh: this.input.value }, all);
    }
}

/** The rows of a list in a file that do not fit an image, and how they were imported. */
type Left = { image: Image, name: string, rows: LeftRow[], options: RowOptions };

/** The maximum number of rows that are listed. */
const MOST_LISTED_ROWS = 200;

/** The kinds of reasons, by the codes that begin so, with their counts in words. All others are the last one. */
const REASONS = [['replace/no-room', '{n} too long'], ['pointers/no-room', '{n} without room in the file'],
    ['pointers/stays', '{n} too long, and unable to move'], ['text/', '{n} with a character that the encoding lacks'], ['list/other-text',
        '{n} with a different old text there'],
    ['', '{n} for other reasons']] as const;

/** How many rows do not fit for each kind of reason. */
export function reasonWords(rows: LeftRow[]) {
    const counts = REASONS.map(() => 0);
    for (const { why: { code } } of rows) counts[REASONS.findIndex(([begin]) => code.startsWith(begin))] += 1;
    return REASONS.flatMap(([, words], i) => counts[i] > 0 ? [format(words, { n: counts[i] })] : []).join(', ');
}

export class LeftRows {
    left: Left | null = null;
    chosen = 0;
    list = element('div', { class: 'side' });
    row: RowCard; around: AroundCard; part;

    constructor(readonly app: App, readonly owner: TextsTable) {
        this.row = new RowCard((row, all) => void this.add(row, all), () => void this.choose(this.chosen + 1));
        this.around = new AroundCard(app);
        this.part = element('div', { class: 'two even', hidden: true }, this.list,
            element('div', { class: 'side' }, this.row.card, this.around.card));
    }

    show(left: Left | null) {
        this.left = left;
        this.part.hidden = left === null || left.rows.length === 0;
        fill(this.row.message);
        if (this.part.hidden) return fill(this.list);
        return this.choose(0);
    }

    draw({ name, rows }: Left) {
        const names = ['Row', texts.textColumnPlace, 'Text', 'Why it does not fit'];
        const head = element('tr', {}, ...names.map(it => element('th', { scope: 'col' }, it)));
        const more = rows.length > MOST_LISTED_ROWS ? `${format('and {n} more (included in Copy).',
            { n: rows.length - MOST_LISTED_ROWS })} ` : '';
        const title = format('{n} row does not fit|{n} rows do not fit', { n: rows.length });
        const file = `${name.replace(/\.[^.]*$/, '')} (do not fit).csv`;
        const save = button('slim bare', () => downloadText(leftTable(rows, remarkText), file), texts.discSaveReport,
            element('span', { class: 'hide' }, format(texts.theRowsOf, { title })));
        const text = () => rows.map(facts => `${remarkText({ code: 'list/row-left', facts })}\n`).join('');
        const listed = rows.slice(0, MOST_LISTED_ROWS).map((row, i) => this.listed(row, i));
        fill(this.list, keyed('rows', tableCard(title, head, listed, text, more +
            'Correct a row here. Or save the rows, correct them in that table, and import it.', save)));
    }

    listed({ text: { number, block, offset, text, fresh }, why }: LeftRow, i: number) {
        const open = element('button', { type: 'button', class: 'fold' }, number);
        const place = element('td', { class: 'nowrap', 'data-l': 'at' }, block < 0 ? '–' : `${block}, ${offset}`);
        // A press on the button comes up to the row.
        return element('tr', { 'aria-current': i === this.chosen ? 'true' : null, click: () => void this.choose(i) },
            element('td', {}, open), place, element('td', { class: 'mono small wide' }, shownText(text), ' → ', shownText(fresh)),
            element('td', { class: 'wide' }, shownText(remarkText(why))));
    }

    /** Shows a row in the card that corrects it, and the bytes at its place. */
    async choose(i: number) {
        const { left } = this;
        if (left === null) return;
        const { image, rows, options } = left;
        this.chosen = i % Math.min(rows.length, MOST_LISTED_ROWS);
        this.draw(left);
        const { text: row } = rows[this.chosen];
        const found = await roomInTrack(image.opened, row, options).catch(error => error);
        if (this.left !== left || rows[this.chosen].text !== row) return;
        this.row.show(row, found, this.equalRows().length);
        await this.showPlace(image, row);
    }

    async showPlace(image: Image, row: ListRow) {
        const { block, offset } = row;
        this.around.card.hidden = true;
        if (block < image.base || block >= image.base + image.sectors || offset < 0) return;
        try {
            const hit = { block, offset, size: this.sizeOf(row) };
            this.around.show(hit, await readAround(image.opened, hit));
        } catch (error) {
            showFailure(error);
        }
    }

    /** The number of bytes of a row's old text; 1 if it has none or cannot be encoded. */
    sizeOf({ encoding, text }: ListRow) {
        try {
            return Math.max(usualBytes((encodingOf(encoding) || chosenEncoding(this.app)).units(text)).length, 1);
        } catch {
            return 1;
        }
    }

    /** The rows with the same texts as the chosen one, which is one of them. */
    equalRows() {
        const rows = this.left === null ? [] : this.left.rows;
        const { text, fresh, encoding, fill: own } = rows[this.chosen].text;
        return rows.filter(({ text: it }) => it.text === text && it.fresh === fresh && it.encoding === encoding && it.fill === own);
    }

    /**
     * Adds the lines of a corrected row to the script, and shows the next row.
     * @param all whether rows with the same texts are corrected too, as far as they then fit
     */
    async add(row: ListRow, all: boolean) {
        const { left, chosen } = this;
        if (left === null) return;
        const say = (words: HTMLElement) => showMessageAt(this.row.message, words);
        const rows = all ? this.equalRows() : [left.rows[chosen]];
        const fresh = rows.map(({ text }) => ({ ...text, fresh: row.fresh }));
        try {
            const made = await this.owner.putRows(fresh, left.image, left.options);
            if (made === null) return undefined;
            const { left: others, merged } = made;
            if (this.left === null && others.length === 0) return this.end();
            if (this.left !== left) return undefined;
            const why = others.length === 0 ? '' : whyLeft(others[0].why);
            if (others.length === rows.length) return say(notice('bad', why, texts.discNothingAdded));
            this.leave(left, rows, others);
            if (left.rows.length === 0) return this.end();
            const rest = others.length === 0 ? '' : `${format('{n} equal row still does not fit:|{n} equal rows still do not fit:',
                { n: others.length })} ${why}`;
            say(notice(rest === '' ? 'good' : 'warn', mergedWords(merged), rest));
            await this.choose(chosen);
            return this.row.input.focus();
        } catch (error) {
            return say(notice('bad', sentence(error), texts.discNothingAdded));
        }
    }

    /**
     * Removes rows that were corrected. Those that still do not fit stay, with the new reasons.
     * @param others the rows of them that do not fit, as they were corrected
     */
    leave(left: Left, rows: LeftRow[], others: LeftRow[]) {
        const keyOf = ({ text: { number, block, offset } }: LeftRow) => [number, block, offset].join();
        const again = new Map(others.map(it => [keyOf(it), it]));
        const corrected = new Set(rows);
        left.rows = left.rows.flatMap(it => corrected.has(it) ? again.get(keyOf(it)) || [] : it);
    }

    /** Removes the rows whose texts the script writes now. Returns whether that were the last ones. */
    leaveWritten(isWritten: (row: ListRow) => boolean) {
        const { left, chosen } = this;
        const rows = left === null ? [] : left.rows.filter(({ text }) => !isWritten(text));
        if (left === null || rows.length === left.rows.length) return false;
        const index = rows.indexOf(left.rows[chosen]);
        left.rows = rows;
        if (rows.length === 0) void this.show(null);
        else if (index < 0) void this.choose(Math.min(chosen, rows.length - 1));
        else {
            this.chosen = index;
            this.draw(left);
        }
        return rows.length === 0;
    }

    /** Says that no row is left. */
    end() {
        this.show(null);
        this.owner.ended();
    }
}

// The sentences about an imported list: how many of its rows fit, and what else to know about it.

/** The maximum number of lines, and of codes that new texts leave out, that are listed. */
const MOST_NUMBERS = 200;
const MOST_CODES = 20;

/** A remark on a list, as a sentence. */
function remarkWords<Name extends 'list/code-left' | 'list/fuzzy'>(code: Name, facts: Facts[Name]) {
    return `${capital(remarkText({ code, facts } as Remark))}.`;
}

/**
 * The sentences about an imported list, and whether all of its rows fit without a remark.
 * @param added what was added
 * @param withdrawn the lines of the script for which the list has no new text
 */
export function importedWords({ count, left: rowsLeft, codes, glyphs, fuzzy }: Pick<FittedLists, 'count' | 'left' | 'codes' | 'glyphs'
    | 'fuzzy'>, added: string, withdrawn: ScriptLine[]) {
    const { length: left } = rowsLeft;
    const fit = count - left;
    const all = fit === 0 ? '' : format('The translation fits.|All {n} translations fit.', { n: fit });
    const rows = left === 0 ? all
        : `${format('{n} translation fits.|{n} translations fit.', { n: fit })} ${format(
            '{n} translation does not fit: {why}.|{n} translations do not fit: {why}.', { n: left, why: reasonWords(rowsLeft) })}`;
    const n = withdrawn.length;
    const lines = withdrawn.map(({ number }) => number).slice(0, MOST_NUMBERS).join(', ') + (n > MOST_NUMBERS ? ', …' : '');
    const others = [n > 0 && format(
        'The list has no new text for line {lines} of the script.|The list has no new text for the lines {lines} of the script.',
        { n, lines }),
        ...codes.slice(0, MOST_CODES).map(it => remarkWords('list/code-left', it)),
        codes.length > MOST_CODES && format('Translations leave out {n} more code.|Translations leave out {n} more codes.',
            { n: codes.length - MOST_CODES }),
        fuzzy > 0 && remarkWords('list/fuzzy', { count: fuzzy })].flatMap(it => it || []);
    const newCharacters = glyphs.length > 0 && capital(remarkText({ code: 'list/new-characters', facts: { characters: glyphs } }));
    return { isGood: left + others.length === 0, words: [added, rows, ...others, ...newCharacters ? [newCharacters] : []] };
}
