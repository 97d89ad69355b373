// The card with the tables of pointers that were found, and the switch that lets texts move.

import type { Remark } from '../../core/faults.js';
import { baseText, pointerList, type ListedTable } from '../../core/pointers/views.js';
import { format, remarkText } from '../texts/index.js';
import { button, capital, element, fill, messageArea, oneTabStop, seen, setDisabled, shownText } from '../ui/index.js';
import type { Moved } from './moving_texts.js';
import * as texts from '../texts/index.js';

// The sentences about texts that have moved, which are those of the command.

/** The most sentences of one kind, and the most texts that moved, that are listed. */
const MOST_SENTENCES = 20;
const MOST_MOVED = 500;

/** Some remarks as sentences, each once. */
function sentencesOf(remarks: Remark[]) {
    const all = [...new Set(remarks.map(it => `${capital(remarkText(it))}.`))];
    const more = all.length > MOST_SENTENCES ? [format(texts.andMore, { n: String(all.length - MOST_SENTENCES) })] : [];
    return [...all.slice(0, MOST_SENTENCES).map(shownText), ...more];
}

/** How many texts fit only because some moved, how many bytes are missing in which files, and what is to be looked at. */
export function movedWords({ left, few, sharing, longer }: Pick<Moved, 'left' | 'few' | 'sharing' | 'longer'>) {
    const missing = left.flatMap(({ why }) => why.code === 'pointers/no-room' ? [why] : []);
    return [...longer > 0 ? [format('{n} translation fits only because texts moved.|{n} translations fit only because texts moved.',
        { n: longer })] : [], ...sentencesOf(missing), ...sentencesOf(few),
        ...sentencesOf(sharing)];
}

/** The texts that moved, each with its old and its new place. */
export function movedList(moved: Moved['moved']) {
    if (moved.length === 0) return null;
    const rows = moved.slice(0, MOST_MOVED).map(it => element('li', {}, shownText(`${capital(remarkText(it))}.`)));
    const others = moved.length - rows.length;
    const more = others > 0 && element('p', { class: 'quiet' }, format(texts.andMore, { n: String(others) }));
    return element('div', { class: 'pad small moved' }, element('b', {}, format('{n} text moved|{n} texts moved', { n: moved.length })),
        element('ul', { class: 'scroll' }, ...rows), more);
}

/**
 * The callbacks of the card: searching for tables, opening a list of them, and saving the chosen ones; a different choice; the switch; and
 * generating the script.
 */
type PointersOwner = { find: () => void, open: (file: File) => void, save: (list: string) => void, chosen: () => void,
    turn: (isOn: boolean) => void, make: () => void };

/** The most tables that are drawn. */
const MOST_DRAWN = 500;

/** The names of the columns. */
function tableHead() {
    const named = (looks: string | null, names: string[]) =>
        names.map(name => element('th', { scope: 'col', class: looks }, name));
    return element('thead', {}, element('tr', {}, ...named(null, ['Use row', 'File, offset']),
        ...named('n', [texts.textColumnPointers, texts.textColumnBegins]),
        ...named(null, ['How they are written', texts.textColumnTextsIn])));
}

/** How the pointers of a table are written. */
function formWords(table: ListedTable) {
    if (table.free !== undefined) return format('{n} free byte|{n} free bytes', { n: table.free });
    const order = table.big ? 'big-endian' : 'little-endian';
    const facts = { bits: String(8 * table.width), order, distance: String(table.distance), base: baseText(table) };
    const words = format('{bits} bits, {order}, every {distance} bytes, from {base}', facts);
    return table.unit === 1 ? words : `${words}, ${format('in units of {unit} bytes', { unit: String(table.unit) })}`;
}

export class PointersCard {
    tables: ListedTable[] = [];
    /** Those that are not used. */
    leftOut = new Set<ListedTable>();
    input: HTMLInputElement;
    onOff: HTMLInputElement;
    behind = element('p', { class: 'small quiet', role: 'status' });
    body = element('tbody', {});
    more = element('p', { class: 'foot' });
    job = element('div', { class: 'stack' });
    message = messageArea();
    moved = element('div', {});
    saving; make; making; box; turning; card;

    constructor(readonly owner: PointersOwner) {
        this.input = element('input', { type: 'file', class: 'hide', tabindex: -1, accept: '.tsv,.csv,.txt',
            'aria-label': 'A list of pointers to open', change: () => this.opened() });
        this.onOff = element('input', { type: 'checkbox', id: 'let-move', change: () => owner.turn(this.onOff.checked) });
        const save = () => { if (this.chosen.length > 0) owner.save(pointerList(this.chosen)); };
        this.saving = button('slim', save, texts.discSaveReport,
            element('span', { class: 'hide' }, ' the tables of pointers'));
        this.make = button('main', () => owner.make(), 'Make the script');
        this.making = element('div', { class: 'row' }, this.make, this.behind);
        this.box = element('div', { class: 'scroll fit' },
            element('table', { class: 'pointers', 'aria-label': 'Tables of pointers' }, tableHead(), this.body));
        this.turning = element('div', { class: 'pad stack' },
            element('label', { class: 'check' }, this.onOff, element('span', {},
                'Allow longer texts: move them, and change their pointers')), this.making);
        this.card = element('section', { class: 'card', 'aria-labelledby': 'pointers-title', hidden: true }, this.header(),
            element('div', { class: 'pad stack' }, element('p', { class: 'small quiet' },
                'Many games find a text by a pointer, a number that says where the text begins. With the pointers, texts may be longer ' +
                'than their room. The search takes about 5 seconds for each megabyte of files with text.'), this.job,
                this.message),
            this.box, this.more, this.turning, this.moved, this.input);
        oneTabStop(this.body, 'input');
        this.show([]);
    }

    header() {
        return element('header', {}, element('h2', { id: 'pointers-title' }, 'Pointers'),
            button('slim', () => this.owner.find(), 'Find pointers'),
            button('slim', () => this.input.click(), 'Open…'), this.saving);
    }

    /** The tables that are used. */
    get chosen() {
        return this.tables.filter(it => !this.leftOut.has(it));
    }

    /** Whether tables are those that are used. */
    areChosen(tables: ListedTable[]) {
        const { chosen } = this;
        return tables.length === chosen.length && tables.every((it, i) => it === chosen[i]);
    }

    /** Shows tables, and selects all of them. */
    show(tables: ListedTable[]) {
        this.tables = tables;
        this.leftOut = new Set();
        this.box.hidden = this.turning.hidden = tables.length === 0;
        const drawn = tables.slice(0, MOST_DRAWN);
        fill(this.body, ...drawn.map(table => this.rowOf(table)));
        fill(this.more, tables.length > drawn.length && format(
            'and {n} more table, which is used too.|and {n} more tables, which are used too.', { n: tables.length - drawn.length }));
        fill(this.moved);
        this.drawSaving();
    }

    drawSaving() {
        setDisabled(this.saving, this.chosen.length === 0);
    }

    rowOf(table: ListedTable) {
        const { row, path, at, count, begins } = table;
        const change = ({ target }: Event & { target: HTMLInputElement }) => this.choose(table, target.checked);
        const use = element('input', { type: 'checkbox', checked: true, change,
            'aria-label': format('Use table {row}, in {path} at {at}', { row: String(row), path: seen(path), at: String(at) }) });
        return element('tr', {}, element('td', {}, element('label', { class: 'check' }, use, String(row))),
            element('td', { class: 'wide' }, `${seen(path)}, ${at}`),
            element('td', { class: 'n', 'data-l': texts.textColumnPointers }, String(count)),
            element('td', { class: 'n', 'data-l': texts.textColumnBegins }, String(begins)),
            element('td', { class: 'wide' }, formWords(table)),
            element('td', { class: 'wide', 'data-l': texts.textColumnTextsIn }, seen(table.texts)));
    }

    choose(table: ListedTable, isUsed: boolean) {
        if (isUsed) this.leftOut.delete(table);
        else this.leftOut.add(table);
        this.drawSaving();
        this.owner.chosen();
    }

    /**
     * Draws the switch.
     * @param state whether texts may move, and whether the page has let them; whether the chosen tables are those of the disc; how many
     *     texts wait for the script; and whether it was generated with different tables
     */
    drawSwitch({ isOn, isOwn, isReady, waiting, isOld }: { isOn: boolean, isOwn: boolean, isReady: boolean, waiting: number,
        isOld: boolean }) {
        this.onOff.checked = isOn;
        this.onOff.disabled = !isReady && !isOn;
        this.making.hidden = !isOn;
        setDisabled(this.make, !isReady);
        const other = isOld ? 'The script was not made with these tables yet.' : texts.textScriptHasAll;
        fill(this.behind, isOwn && 'The script already moves texts, so longer texts are allowed. ', waiting > 0 ? format(
            '{n} text is not in the script yet. Press Make the script.|{n} texts are not in the script yet. Press Make the script.',
            { n: waiting }) : other);
    }

    opened() {
        const [file] = this.input.files || [];
        this.input.value = '';
        if (file) this.owner.open(file);
    }
}
