// The panel Publish, which saves a copy of this page with the script, for players.

import type { Reader } from '../../core/bytes.js';
import { RESULT } from '../../core/module/index.js';
import { verdictText } from '../../sentences/index.js';
import { OWN, jobAt, sha1Of, type App, type Image } from '../app/index.js';
import {
    MOST_WRITTEN, isImageName, isSeen, patcherText, plainSheet, publishedSource, showPlayer, type PatcherData,
} from '../player/index.js';
import { download, patchedName, patchedWork, sheetNaming } from '../save/index.js';
import { fitOf, fitWords, namingOld, type Fit } from '../script/index.js';
import { leftWordsOf } from '../text/index.js';
import { LANGUAGES, format, say } from '../texts/index.js';
import {
    askBeforeLeaving, button, counted, element, failureNotice, fill, hashParts, isDisabled, messageArea, nameOf, notice, sentence,
    setDisabled, showMessageAt, stemOf, term, type Child,
} from '../ui/index.js';
import { KeptEntries } from './kept.js';
import * as texts from '../texts/index.js';

// What the panel Publish says of the open image itself: whether it is sound and whole, and which SHA-1 players compare theirs with.

/** The rows about an image. If it was not read to its end, its SHA-1 is not calculated, and has no row. */
function imageRows({ sha1 }: Image, survey: App['survey']): Row[] {
    if (survey !== null && survey.over && survey.ended === 0) return [['bad',
        'Your image was not read to its end. Read it again under Disc.']];
    const hash = element('span', { class: 'mono small' }, ...hashParts(sha1));
    return [soundRow(survey), sha1 === '' ? ['quiet', 'Calculating the SHA-1 of your image…']
        : ['good', ...say('Players’ images are compared with this SHA-1: {sha1}', { sha1: hash })]];
}

function soundRow(survey: App['survey']): Row {
    if (survey === null || survey.verdict === null) return ['quiet', 'Reading your image…'];
    const { level, canPublish } = survey.verdict;
    if (level === 'sound') return ['good', 'All sectors of your image that were tested are sound.'];
    const what = verdictText(survey.verdict);
    if (!canPublish) return ['bad',
        format('Your image is not complete: {what}. Players compare theirs with it, so publish from a complete image.', { what })];
    return ['warn', format('Of your image, {what}. Players with a sound disc have a different SHA-1.', { what })];
}

// Tries the script of a patcher on the image, and proposes a name for the patched image.

/**
 * The result of a script on the image: how its patches match, the line of the `first` refused patch or 0, and how many patches are refused
 * for damage; how many patches are `without` old bytes, and how many `old` bytes there are; and the patched image.
 */
type Tried = { script: string, fit: Fit, first: number, damaged: number, without: number, old: number, result: Reader };

/**
 * Proposes a name for the patched image.
 * @param name of the image
 */
function proposedName(name: string) {
    const stem = stemOf(name).replace(/\.[^.]*$/, '').slice(0, LONGEST_PROPOSED).replace(/[\uD800-\uDBFF]$/, '');
    const names = [patchedName(name), patchedName(stemOf(name), 'patched', '.bin'), patchedName(stem, 'patched', '.bin')];
    return names.find(isImageName) || names[1];
}

/** How many characters of an image's name are kept in the proposed name if it would be too long. */
const LONGEST_PROPOSED = 100;

/** Stands for a hash that is not known yet. */
const NO_HASH = '0'.repeat(40);

/** The data of a patcher with stand-ins for those that are not known or not typed yet, so that its size can be calculated. */
function withStandIns(data: PatcherData) {
    return { ...data, title: 'x', name: 'x.bin', image: { ...data.image, sha1: NO_HASH }, result: NO_HASH };
}

/** Tries the script on the image. */
async function triedOn(app: App, image: Image, carry: boolean): Promise<Tried> {
    const script = app.script.text();
    const { outcomes, result } = await patchedWork(app, { reader: image.reader, base: image.base, script, carry });
    const refused = outcomes.filter(it => it.result !== RESULT.OK);
    return {
        script,
        fit: fitOf(outcomes, namingOld(app.calls, app.script), false),
        first: refused.reduce((first, { number }) => first === 0 ? number : Math.min(first, number), 0),
        damaged: outcomes.filter(it => it.result === RESULT.DAMAGED).length,
        ...app.script.oldBytes(),
        result,
    };
}

export type Row = [('good' | 'bad' | 'warn' | 'quiet'), ...Child[]];

/** The characters that no file name may contain. */
const SIGNS_OF_PATHS = '\\ / : * ? " < > |';
/** Keeps typed text in the page: a browser may send it to a service that checks its spelling. */
const PRIVATE = { autocomplete: 'off', spellcheck: 'false' };

export class PublishPanel {
    tried: Tried | null = null;
    fault = '';
    number = 0;
    trying = false;
    /** The size of the patcher in bytes, but for what is typed; 0 if it is not known. */
    size = 0;
    /** Whether something was typed that is not in a patcher yet. */
    edited = false;
    sheet = element('input', { type: 'checkbox', id: 'patcher-cue', checked: true });
    list = element('div', { class: 'stack tight', role: 'status' });
    state = element('div', { class: 'stack' });
    message = messageArea();
    about = element('p', { class: 'small quiet' });
    title; author; note; kept; name; language; carry; save; see; cueRow!: HTMLElement; carryRow!: HTMLElement;

    constructor(readonly app: App, panel: HTMLElement) {
        const text = (id: string) => element('input', { type: 'text', id, maxlength: MOST_WRITTEN.title, ...PRIVATE,
            input: () => this.typed() });
        this.title = text('patcher-title');
        this.author = text('patcher-author');
        this.note = element('textarea', { id: 'patcher-note', rows: 5, maxlength: MOST_WRITTEN.note, ...PRIVATE,
            input: () => this.typed() });
        this.kept = new KeptEntries(app, [this.title, this.author, this.note], () => { this.edited = false; });
        this.name = text('patcher-name');
        this.language = element('select', { id: 'patcher-language', change: () => this.typed() },
            ...[['', 'The player’s browser decides'], ...LANGUAGES].map(([value, label]) =>
                element('option', { value, lang: value || null },
                label)));
        this.carry = element('input', { type: 'checkbox', id: 'patcher-carry', change: () => this.forget() });
        this.save = button('main', () => this.publish(true), 'Save as a patcher…');
        this.see = button('', () => this.publish(false), 'Preview as a player');
        panel.append(element('div', { class: 'two even' }, this.form(), element('div', { class: 'side' }, this.savingCard())));
        askBeforeLeaving(() => this.edited, 'Your entries under Publish have not been saved in a patcher yet.');
        app.on('panel', () => this.shown());
        app.on('patcher', data => this.take(data));
        app.on('closed', () => this.take({ title: '', author: '', note: '', name: '', cue: 'offered', carry: false }));
        for (const name of (['image', 'script'] as const)) app.on(name, () => this.forget());
        for (const name of (['hash', 'surveyed'] as const)) app.on(name, () => this.shown());
    }

    form() {
        const row = (label: string, field: HTMLElement) => element('div', {},
            element('label', { for: field.id }, label), field);
        this.cueRow = element('label', { class: 'check' }, this.sheet,
            element('span', {}, 'Offer a cue sheet that names the patched image'));
        this.carryRow = element('label', { class: 'check', hidden: true }, this.carry,
            element('span', {}, ...say('Patch damaged sectors too ({carry}), as in the patcher you opened',
                { carry: term('carry', 'carry') })));
        return element('section', { class: 'card', 'aria-label': texts.publishPatcherForPlayers },
            element('header', {}, element('h2', {}, texts.publishPatcherForPlayers)),
            element('div', { class: 'pad stack' }, row('Title', this.title), row('By', this.author),
                row('Note for players', this.note),
                ...this.kept.parts,
                row('Name of the patched image', this.name),
                row('Language of the patcher', this.language), this.cueRow, this.carryRow));
    }

    savingCard() {
        return element('section', { class: 'card', 'aria-label': texts.publishBeforeYouSave },
            element('header', {}, element('h2', {}, texts.publishBeforeYouSave)),
            element('div', { class: 'pad stack' },
                this.list, this.state,
                !OWN.licensed && element('p', { class: 'say warn thin', id: 'no-licence' },
                    'The publisher of this copy of cdpatch, which the patcher contains, has not given a licence yet: try it, but do not ' +
                    'publish it before there is a release with a licence.'),
                element('div', { class: 'row' }, this.save, this.see), this.message,
                this.about, element('p', { class: 'small quiet' }, 'The script itself can be saved under Script.')));
    }

    typed() {
        this.edited = true;
        this.draw();
    }

    /** Fills in the form from the data of a patcher, so that the next one can be made from it. */
    take({ title, author, note, name, cue, carry, language = undefined }: Pick<PatcherData, 'title' | 'author' | 'note' | 'name' | 'cue'
        | 'carry' | 'language'>) {
        this.title.value = title;
        this.author.value = author;
        this.note.value = note;
        this.name.value = name;
        this.language.value = language || '';
        this.sheet.checked = cue !== '';
        this.carry.checked = carry;
        if (this.carryRow) this.carryRow.hidden = !carry;
        this.edited = false;
    }

    forget() {
        this.tried = null;
        this.fault = '';
        this.trying = false;
        this.number += 1;
        this.shown();
    }

    /** Tries the script on the image as soon as the panel is shown. */
    shown() {
        if (this.app.panel !== 'publish') return;
        const { image } = this.app;
        if (this.name.value === '' && image) this.name.value = proposedName(image.name);
        this.draw();
        if (this.tried === null && this.fault === '' && !this.trying && image !== null) this.tryScript(image);
    }

    async tryScript(image: Image) {
        const { number } = this;
        this.trying = true;
        try {
            const tried = await triedOn(this.app, image, this.carry.checked);
            const { size } = await this.patcher(withStandIns(this.data(image, tried.script, ''))).catch(() => ({ size: 0 }));
            if (number === this.number) {
                this.tried = tried;
                this.size = size;
            }
        } catch (error) {
            if (number === this.number) this.fault = sentence(error);
        }
        if (number === this.number) this.trying = false;
        this.draw();
    }

    draw() {
        const rows = this.rows();
        fill(this.list, ...rows.map(([tone, ...words]) => element('p', { class: 'mark-row' },
            element('b', { class: `${tone}-ink` }, SIGNS[tone]), ' ', ...words)));
        const ready = rows.every(([tone]) => tone === 'good' || tone === 'warn');
        for (const it of [this.save, this.see]) setDisabled(it, !ready);
        fill(this.about, this.tried !== null && this.size > 0
            && `${format('About {size} KB.', { size: counted(Math.round(this.size / 1000)) })} `,
                'One .html file with this page, your script, and what you entered here. It does not contain the image.');
        if (this.cueRow) this.cueRow.hidden = this.app.image === null || this.cueOf(this.app.image) === '';
    }

    /** @returns what is ready, and what is not */
    rows(): Row[] {
        const { app, tried, fault } = this;
        const { image, survey } = app;
        if (image === null) return [['bad', 'Open the image that the script is made for.']];
        if (fault !== '') return [['bad', fault]];
        if (tried === null) return [['quiet', 'Testing the script on your image…']];
        const title = button('slim bare tiny', () => this.title.focus(), 'Add a title');
        const was = element('span', { class: 'mono small' }, 'was');
        const left = leftWordsOf(app);
        return [this.fitRow(image, tried),
            tried.without === 0 ? ['good', 'Each patch names the bytes that it replaces.']
                : ['warn', ...say('{n} patch without old bytes ({was}): with another dump cdpatch cannot tell whether it matches. The \
patcher says so to players.|\
{n} patches without old bytes ({was}): with another dump cdpatch cannot tell whether they match. The patcher says so to players.',
                { n: tried.without, was })],
            ...imageRows(image, survey),
            ...isSeen(this.title.value) ? [] : [['bad', 'The title is missing.', ' ', title] as Row],
            ...this.warnings(image, tried), ...left.length > 0 ? [['warn', ...left] as Row] : [],
        ];
    }

    fitRow({ name }: Image, { fit, first, damaged }: Tried): Row {
        const { head } = fitWords(this.app.script.name, name, fit);
        const go = first > 0 && button('slim bare tiny', () => this.app.goToLine(first - 1),
            format(texts.scriptGoToLine, { line: String(first) }));
        const isWhole = fit.all > 0 && fit.refused.length === 0;
        const tone = fit.named === 0 ? 'warn' : 'good';
        return [isWhole ? tone : 'bad', ...head, ' ', go,
            damaged > 0 && ` ${format('{n} patch is for a damaged sector: repair the image first.|\
{n} patches are for a damaged sector: repair the image first.', { n: damaged })}`];
    }

    warnings(image: Image, tried: Tried): ['bad' | 'warn', string][] {
        const all: [boolean, 'bad' | 'warn', string][] = [
            [[this.title, this.author, this.note].some(it => it.value.length > it.maxLength), 'bad', format(
                'The title and the author may have at most {most} characters each, and the note {note}.',
                { most: counted(MOST_WRITTEN.title), note: counted(MOST_WRITTEN.note) })],
            [!isImageName(this.name.value.trim()), 'bad', format(
                'The name of the patched image has to end in .bin, .img, or .iso, with at most 120 characters before that, none of them \
invisible, and none of {signs}.', { signs: SIGNS_OF_PATHS })],
            [image.sheet !== '' && this.cueOf(image) === '', 'warn',
                'The cue sheet is not offered because it names files in other folders.'],
            [this.carry.checked, 'warn', 'Damaged sectors are patched too, and the patcher says so to players.'],
            [tried.old > 0, 'warn', format('The old bytes come from the game ({n} byte). Check whether you may publish them.|\
The old bytes come from the game ({n} bytes). Check whether you may publish them.', { n: tried.old })],
        ];
        return all.flatMap(([is, tone, words]) => is ? [[tone, words]] : []);
    }

    /** @param saving whether the patcher is saved, or shown as a player sees it */
    async publish(saving: boolean) {
        const { app, tried } = this;
        const { image } = app;
        if (image === null || tried === null || isDisabled(this.save)) return;
        await jobAt(app, this.state, {
            name: 'Calculating the SHA-1 of the result',
            around: parts => [element('p', {}, 'Calculating the SHA-1 of the patched image, so that players can compare theirs.'),
                ...parts],
            run: (bar, signal) => {
                fill(this.message);
                return sha1Of(app.parts, tried.result, signal, done => bar.at(done, tried.result.size));
            },
            done: result => {
                const data = this.data(image, tried.script, result);
                fill(this.state);
                return saving ? this.saveAs(data) : showPlayer(app, data, { note: () => null, back: () => app.showPanel('publish') });
            },
            failed: error => showMessageAt(this.message, failureNotice(error, 'No patcher was saved.')),
        });
    }

    /**
     * @param script as it was tried
     * @param result the SHA-1 of the patched image
     */
    data(image: Image, script: string, result: string): PatcherData {
        const name = this.name.value.trim();
        const language = (this.language.value || undefined) as PatcherData['language'];
        return { ...this.kept.entries(), name,
            carry: this.carry.checked, base: image.base, ...language && { language },
            cue: this.sheet.checked ? this.cueOf(image) : '',
            image: { size: image.reader.size, sha1: image.sha1 }, result, script };
    }

    /** The cue sheet that is offered to players, or ''. */
    cueOf(image: Image) {
        return plainSheet(sheetNaming(image.sheet, [[image.name, this.name.value.trim()]]));
    }

    async patcher(data: PatcherData) {
        return new Blob([publishedSource(this.app.calls), await patcherText(this.app.calls, data)], { type: 'text/html' });
    }

    async saveAs(data: PatcherData) {
        const name = `${stemOf(data.title) || 'patcher'}.html`;
        download(await this.patcher(data), name);
        this.edited = false;
        showMessageAt(this.message, notice('good', say(texts.discFileSaved, { name: nameOf(name) }),
            'Players double-click it and drop their image on it.'));
    }
}

const SIGNS: Record<string, string> = { good: '✓', bad: '✕', warn: '!', quiet: '…' };
