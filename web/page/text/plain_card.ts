// The card of an ordinary file that is open in place of an image: saves a copy of it with the new texts.

import { PieceCutter, type Piece } from '../../core/bytes.js';
import type { Remark } from '../../core/faults.js';
import { importRowsIntoFile, rowOfListed, type LeftRow, type Placed, type Translation } from '../../core/tasks/index.js';
import { jobAt, type App, type PlainFile } from '../app/index.js';
import { givingAll, patchedName, saveImage, type SavedFile } from '../save/index.js';
import { format, playerTexts, say } from '../texts/index.js';
import { askBeforeLeaving, button, element, failureNotice, fill, messageArea, nameOf, notice, showMessageAt } from '../ui/index.js';
import { reasonWords } from './left_rows.js';
import type { TextsTable } from './texts_table.js';
import * as texts from '../texts/index.js';

/** Notes which new texts fit the file. */
export async function putIntoFile({ opened }: PlainFile, translation: Translation) {
    const given = new Map([...translation.due].map(place => [place, place.fresh]));
    const rows = new Map([...given].flatMap(([place, fresh]) => fresh === '' ? [] : [[rowOfListed(place.as, fresh), place] as const]));
    const whys: Map<Placed | undefined, Remark> = new Map();
    for (const how of new Set([...given.keys()].map(place => place.how))) {
        const { left } = await importRowsIntoFile(opened, [...rows.keys()].filter(row => rows.get(row)?.how === how), how);
        for (const { text, why } of left) whys.set(rows.get(text), why);
    }
    for (const [place, fresh] of given) {
        const why = whys.get(place) || null;
        if (place.fresh === fresh) translation.settle(place, why === null ? fresh : '', why);
    }
}

export class PlainCard {
    /** The parts of the panel that are not for an ordinary file. */
    hides: HTMLElement[] = [];
    title = element('h2', { id: 'plain-title' });
    words = element('p', { class: 'small quiet' });
    job = element('div', { class: 'stack' });
    message = messageArea();
    card;

    constructor(readonly app: App, readonly owner: TextsTable) {
        this.card = element('section', { class: 'card', 'aria-labelledby': 'plain-title', hidden: true }, element('header', {}, this.title,
            button('main slim', () => void this.save(), 'Save the translated file…'),
            button('slim bare away', () => void app.services.close(), playerTexts.close)),
        element('div', { class: 'pad stack tight' }, this.words, this.job, this.message));
        askBeforeLeaving(() => this.isLost(), texts.textPlainNotSaved, () => this.save());
        for (const name of (['image', 'plain'] as const)) app.on(name, () => this.draw());
    }

    /** Whether new texts are not in a saved file. */
    isLost() {
        const { changes, saved } = this.owner.plain;
        return this.app.plain !== null && changes > saved;
    }

    draw() {
        const { plain } = this.app;
        this.card.hidden = plain === null;
        for (const part of this.hides) part.hidden = plain !== null;
        fill(this.message);
        fill(this.title, plain && nameOf(plain.name));
        fill(this.words, plain && format('An ordinary file of {n} byte, not a disc image. A copy with your texts is saved; the file stays \
as it is.|An ordinary file of {n} bytes, not a disc image. A copy with your texts is saved; the file stays as it is.',
            { n: plain.reader.size }));
    }

    /** Saves a copy of the file with the new texts. */
    async save() {
        const { app, owner } = this;
        await owner.known.settled();
        const { plain, translation } = app;
        if (plain === null || translation === null || !translation.all.some(({ fresh, why }) => fresh !== '' && why === null)) {
            return showMessageAt(this.message, notice('warn', 'No new text fits yet.'));
        }
        const { changes } = owner.plain;
        const { name, reader, opened } = plain;
        return jobAt(app, this.job, {
            name: 'Saving the file', noun: texts.textMakingOfRows, of: 'image', saves: true, run: async (bar, signal) => {
                const rows = translation.all.flatMap(({ as, fresh }) => fresh === '' ? [] : [rowOfListed(as, fresh)]);
                const made = await importRowsIntoFile(opened, rows, translation.how, { signal, progress: bar.things });
                const pieces: Piece[] = [];
                const cutter = new PieceCutter(piece => void pieces.push(piece));
                for (const { at, bytes } of made.changes) await cutter.put(at, bytes);
                await cutter.keep(reader.size);
                const saving = async () => givingAll(pieces);
                const saved = await saveImage([reader], saving, patchedName(name), app.openFiles(), { signal, progress() {} });
                return { saved, left: made.left };
            },
            done: ({ saved, left }) => {
                if (saved === null) return;
                owner.plain.saved = changes;
                showMessageAt(this.message, savedNotice(saved, left));
            },
            failed: error => showMessageAt(this.message, failureNotice(error, 'The file was not saved.', [name])),
        });
    }
}

function savedNotice({ name }: SavedFile, left: LeftRow[]) {
    const rest = left.length > 0 && format(
        '{n} translation does not fit, and is not in it: {why}.|{n} translations do not fit, and are not in it: {why}.',
        { n: left.length, why: reasonWords(left) });
    return notice(left.length > 0 ? 'warn' : 'good', say(texts.discFileSaved, { name: nameOf(name) }), rest);
}
