// Compares with a second image: lists the differences, and writes the script from the open image to the second one.

import type { Reader } from '../../core/bytes.js';
import type { Script } from '../../core/script/views.js';
import { blocksIn } from '../../core/sectors/views.js';
import {
    FIELD_COUNT, SECOND_STATE, compareTrack, findDifferences, isToMode2, type Comparison, type Differences, type Differing,
} from '../../core/tasks/index.js';
import { blocksText } from '../../sentences/index.js';
import { jobAt, type App, type Image } from '../app/index.js';
import { download, downloadText, patchedName } from '../save/index.js';
import { format, remarkText, say } from '../texts/index.js';
import {
    button, countsRow, element, failureNotice, fill, keyed, moreButton, nameOf, notice, tableCard, term, type Child,
} from '../ui/index.js';
import { PairJob, addDiffering, compareMarks, fileSayer, type PairMarks } from './pair_job.js';
import * as texts from '../texts/index.js';

// Writes the script from the open image to another image. The proved calls have applied it before it is shown.

type Left = Comparison['left'][number];

/**
 * The input of a script: the open image, a reader of the result, the result's name, and the name of the script's file. With `skipMode2` the
 * sectors that become Mode 2 are left out.
 */
type Wanted = { image: Image, fresh: Reader, goal: Child, name: string, skipMode2?: boolean };

/** The use of a written script: it is saved, it is opened in the panel Script, or the user decides (''). */
export type Then = 'save' | 'open' | '';

/** A script with more bytes can only be saved. */
const LONGEST_SHOWN = 1 << 24;
const MOST_LEFT_NAMED = 8;

/** The script that was saved last, and the name of its file. */
const last = { blob: new Blob(), name: '' };

/** Writes the script, and shows the result in `place`. */
export function writeScript(app: App, place: HTMLElement, wanted: Wanted, then: Then = '', skipDamaged: boolean = false) {
    const { image, fresh, name, skipMode2 } = wanted;
    return jobAt(app, place, {
        name: 'Writing the script', of: 'pair',
        run: (bar, signal) => compareTrack(app, image.opened, fresh, { skipDamaged, skipMode2 }, { signal, progress: bar.sectors }),
        done: compared => {
            const again = () => void writeScript(app, place, wanted, then, true);
            if (compared.script === null) return fill(place, refusedScript(compared, again));
            const message = element('p');
            const does = doesWith(app, compared.script, name, message);
            fill(place, written(compared.script, compared.left, wanted, then === '' ? does : {}, message));
            return then === '' ? undefined : does[then]?.();
        },
        failed: error => fill(place, failureNotice(error, 'No script was written.')),
    });
}

/** The actions for a script. A script that is too long to be shown can only be saved. `message` shows that the script was saved. */
function doesWith(app: App, { pieces, size, long }: Script, name: string, message: HTMLElement): { open?: () => void, save?: () => void } {
    const blob = new Blob(pieces);
    const save = () => {
        download(blob, name);
        Object.assign(last, { blob, name });
        fill(message, ...say(texts.discFileSaved, { name: nameOf(name) }));
    };
    const open = async () => {
        const text = await blob.text();
        app.setScript(text, name, last.name === name && last.blob.size === size && await last.blob.text() === text);
        app.checkScript();
    };
    return size <= LONGEST_SHOWN && !long ? { open, save } : { save };
}

/**
 * @param left the differences that are not in the script
 * @param does the actions of the buttons
 */
function written({ size, patches, long }: Script, left: Left[], { image, goal }: Wanted,
    { open, save }: { open?: () => void, save?: () => void }, message: HTMLElement) {
    const it = { image: nameOf(image.name), goal };
    const but = blocksIn(left) === 1 ? 'Verified: applied to {image} it gives {goal}, except for {blocks}, which it leaves as it is.'
        : 'Verified: applied to {image} it gives {goal}, except for {blocks}, which it leaves as they are.';
    const mode2 = blocksIn(left.filter(isToMode2));
    const gives = left.length === 0 ? say('Verified: applied to {image} it gives exactly {goal}.', it)
        : say(but, { ...it, blocks: blocksText(left, MOST_LEFT_NAMED) });
    return notice(left.length === 0 ? 'good' : 'warn', format('The script has {n} patch.|The script has {n} patches.', { n: patches }),
        format('{n} bytes.', { n: size }), ' ', ...gives,
        mode2 > 0 && ` ${format(
            '{n} Mode 2 sector is left out: a script changes only Mode 1.|{n} Mode 2 sectors are left out: a script changes only Mode 1.',
            { n: mode2 })}`, long && ' This exceeds the limits of cdpatch: apply it with cdscript and --long.', message,
        element('div', { class: 'row' },
            open !== undefined && button('main', open, texts.secondOpenInScript), save !== undefined && button('', save,
                texts.secondSaveTheScript)));
}

/** Says why sectors are left out. All have the same reason. */
function leftText(runs: Left[]) {
    return remarkText({ code: 'script/left', facts: { runs, image: 'the second image', most: MOST_LEFT_NAMED } });
}

/** @param again writes the script without the damaged sectors */
function refusedScript({ patches, left, tail }: Comparison, again: () => void) {
    const damaged = left.filter(it => it.why === 'damaged');
    const others = left.filter(it => it.why !== 'damaged');
    if (others.length === 0 && !tail) {
        const n = blocksIn(damaged);
        return notice('bad', format(texts.secondScriptNotWritten, { why: leftText(damaged) }),
            format('Its wrong bytes would get a correct EDC, and nobody could see the damage any more.|\
Their wrong bytes would get a correct EDC, and nobody could see the damage any more.', { n }),
            patches === 0 ? ` ${format(
                'Without this block the script would have no patches.|Without these blocks the script would have no patches.', { n })}`
                : element('div', { class: 'row' }, button('', again, format('Leave this one out|Leave these {n} out', { n }))));
    }
    const first = others.filter(it => it.why === others[0].why);
    const why = tail ? 'the bytes after the last sector differ' : leftText(first);
    return notice('bad', format(texts.secondScriptNotWritten, { why }),
        'Use the second image itself, or “Repair from it”, which copies whole sectors.');
}

type FieldRow = { block: number, fields: number[], state: number };

type Found = Differences & { differing: Differing[] };

/** The files with differences, each with the number of differing sectors, and the rows that are shown of it. */
type Group = { name: string, count: number, isOpen: boolean, rows: FieldRow[] };

const MOST_ROWS = 400;
/** Up to this many differences, the rows of all files are shown. */
const FEW = 40;

export class SecondCompare extends PairJob {
    /** The files that were opened or closed. */
    pressed: Set<string>;
    found;

    constructor(app: App, changed: () => void) {
        super(app, changed);
        this.found = null as Found | null;
        this.pressed = new Set();
        app.on('files', () => this.drawTable());
    }

    forget() {
        this.found = null;
        this.pressed.clear();
        super.forget();
    }

    async begin() {
        const { app, app: { image, second, survey } } = this;
        if (this.begun || image === null || second === null || survey === null) return;
        const marks = compareMarks(survey.marks);
        const differing: Differing[] = [];
        await this.once(watch => findDifferences(app, image.opened, second.reader, answer => {
            addDiffering(marks, answer);
            differing.push(answer);
        }, watch), async found => {
            this.marks = marks;
            this.found = { ...found, differing };
            this.draw(marks, this.found);
            this.changed();
        });
    }

    draw(marks: PairMarks, { sectors: all, onlyCodes, tail }: Found) {
        const damaged = marks.count(1);
        const tally = countsRow([[all, all === 1 ? 'sector differs' : 'sectors differ', ''],
            [onlyCodes, 'only in EDC or parity', ''], [damaged, texts.secondDamagedInSecond, damaged > 0 ? 'bad-ink' : '']]);
        // A script with all differences would be refused.
        const skipDamaged = damaged > 0 && damaged < all;
        const save = skipDamaged ? format('Save the script without the damaged sector…|Save the script without the {n} damaged sectors…',
            { n: damaged }) : texts.secondSaveTheScript;
        const write = [element('p', {}, ...this.directionWords()), element('div', { class: 'row' },
            button('main', () => this.write('save', skipDamaged), save),
            button('', () => this.write('open'), texts.secondOpenInScript))];
        const same = notice('good', tail ? 'Both images are the same, sector for sector.' : texts.secondBothSameBytes);
        const other = tail && notice('warn', texts.secondTailsDiffer, 'A script cannot change them.');
        fill(this.body, tally, other, ...all === 0 ? [same] : write, this.place);
        this.drawTable();
    }

    /** Says which image the script turns into which one. */
    directionWords() {
        const { image, second } = this.app;
        return say('The script turns {image} into {goal}.', { image: image && nameOf(image.name), goal: second && nameOf(second.name) });
    }

    /** @param then what to do with the script */
    write(then: Then, skipDamaged?: boolean) {
        const { image, second } = this.app;
        if (image !== null && second !== null) {
            const name = patchedName(second.name, 'changes', '.txt');
            writeScript(this.app, this.place, { image, fresh: second.reader, goal: nameOf(second.name), name }, then, skipDamaged);
        }
    }

    /** Lists the differences, and lists them again as soon as the files are known. */
    drawTable() {
        const { found, app: { files, second } } = this;
        if (found === null || second === null || found.sectors === 0) return;
        const names = ['header', 'user data', 'EDC', 'parity'];
        const head = element('tr', {}, element('th', { class: 'n' }, term('block', texts.textColumnBlock)), ...names.map(name =>
            element('th', { class: 'n' }, name === 'EDC' ? term('edc', name) : name)), element('th', {}, texts.textColumnFile));
        const fileOf = fileSayer(files);
        const groups = groupsOf(found, fileOf, name => this.pressed.has(name));
        const body = groups.flatMap(group => [this.groupRow(group), ...group.rows.map(row => this.fieldRow(row, names, group.name))]);
        const shown = groups.reduce((sum, { isOpen, count, rows }) => sum + (isOpen ? rows.length : count), 0);
        const left = found.sectors - shown;
        const foot = left > 0 ? format('and {n} more block.|and {n} more blocks.', { n: left })
            : 'If the user data differ and the EDC does not, one of the two is damaged.';
        const list = (most: number) => Array.from(rowsOf(found.differing, most), ({ block, fields }) =>
            `${block}\t${fields.join('\t')}\t${fileOf(block)}\n`).join('');
        const save = () => downloadText(list(Infinity), patchedName(second.name, 'differences', '.txt'));
        const more = moreButton('slim', 'differences', texts.listMore, () => [
            { label: 'Copy the rows', copies: () => list(MOST_ROWS) },
            { label: 'Save the list…', press: save }]);
        fill(this.table, keyed('differences', tableCard('Bytes that differ, by field', head, body, null, foot, more)));
    }

    groupRow({ name, count, isOpen }: Group) {
        const press = () => {
            if (!this.pressed.delete(name)) this.pressed.add(name);
            this.drawTable();
        };
        return keyed(name, element('tr', { click: press }, element('td', { class: 'wide', colspan: 6 },
            element('button', { type: 'button', class: 'fold', 'aria-expanded': String(isOpen) }, isOpen ? '▾ ' : '▸ ',
                element('bdi', { class: 'mono' }, name), element('span', { class: 'quiet' },
                    ` ${format(texts.textCountOfSectors, { n: count })}`)))));
    }

    /** @param names of the columns */
    fieldRow({ block, fields, state }: FieldRow, names: string[], file: string) {
        return keyed(String(block), element('tr', {},
            element('td', { class: 'n', 'data-l': texts.discBlockLabel },
                button('slim bare tiny', () => this.app.goTo(block, -1, true), String(block))),
            ...fields.map((count, i) => element('td', { class: 'n', 'data-l': names[i] }, count)),
            element('td', { class: 'mono small wide' }, `${file} `,
                state === SECOND_STATE.DAMAGED && element('span', { class: 'tag bad' }, texts.secondDamagedInSecond))));
    }
}

/**
 * The differing sectors by the files that contain them, in the order of their first ones, each with the rows that are shown.
 * @param isPressed whether a file was opened, or closed if all are open
 */
function groupsOf({ sectors, differing }: Found, fileOf: (block: number) => string, isPressed: (name: string) => boolean) {
    const groups: Map<string, Group> = new Map();
    let left = MOST_ROWS;
    for (const row of rowsOf(differing)) {
        const name = fileOf(row.block);
        const group = groups.get(name) || { name, count: 0, isOpen: isPressed(name) !== sectors <= FEW, rows: [] };
        if (group.count === 0 && groups.size < MOST_ROWS) groups.set(name, group);
        group.count += 1;
        if (group.isOpen && left-- > 0) group.rows.push(row);
    }
    return [...groups.values()];
}

/** @param most rows */
function* rowsOf(differing: Differing[], most: number = Infinity): Iterable<FieldRow> {
    let left = most;
    for (const { blocks, fields, states } of differing) {
        for (let i = 0; i < blocks.length && left > 0; i++, left--) {
            const [sync, header, user, edc, zeros, parity] = fields.subarray(i * FIELD_COUNT, (i + 1) * FIELD_COUNT);
            yield { block: blocks[i], fields: [sync + header, user, edc, zeros + parity], state: states[i] };
        }
    }
}
