// The card of one sector: its fault in words, its fields, its bytes, and the chosen byte.

import { filesAt } from '../../core/iso/views.js';
import { DIAGONALS, SECTOR_KIND, SECTOR_SIZE, USER_SIZE } from '../../core/module/index.js';
import { FIELDS as AT, USER_OFFSET, isSound } from '../../core/sectors/views.js';
import type { App } from '../app/index.js';
import { sectorOfSecond } from '../second/index.js';
import { bindEncodings, chosenEncoding, encodingLabel } from '../text/index.js';
import { format, say } from '../texts/index.js';
import { element, fill, moreButton, nameOf, oneTabStop, showFailure, spokenLine, term, type MenuItem } from '../ui/index.js';
import { HexView, USER_END, byteWords, digitsOf, placeName, type Field } from './hex_view.js';
import { crossingsOf } from './places.js';
import { ByteField, SectorEdit, sectorBytes } from './sector_edit.js';
import { sectorFault } from './sector_fault.js';
import * as texts from '../texts/index.js';

// The fields of a sector, as the sector view shows them.

// Two bytes for each diagonal.
const Q_PARITY = SECTOR_SIZE - 2 * DIAGONALS;

const MODE1_FIELDS: Field[] = [
    { name: 'sync', label: 'sync', from: AT.sync, to: AT.header },
    { name: 'header', label: 'header', from: AT.header, to: AT.user },
    { name: 'user', label: 'user data', from: AT.user, to: AT.edc },
    { name: 'edc', label: texts.sectorEdcField, from: AT.edc, to: AT.zeros },
    { name: 'zeros', label: 'zeros', from: AT.zeros, to: AT.parity },
    { name: 'p', label: 'P parity', from: AT.parity, to: Q_PARITY },
    { name: 'q', label: 'Q parity', from: Q_PARITY, to: SECTOR_SIZE },
];

const DATA_FIELDS: Field[] = [...MODE1_FIELDS.slice(0, 2),
    { name: 'user', label: 'everything else', from: AT.user, to: SECTOR_SIZE }];

const PLAIN_FIELDS: Field[] = [{ name: 'user', label: texts.discBytesLabel, from: 0, to: SECTOR_SIZE }];

function fieldsOf(kind: number) {
    if (kind === SECTOR_KIND.MODE1) return MODE1_FIELDS;
    return kind === SECTOR_KIND.NOSYNC ? PLAIN_FIELDS : DATA_FIELDS;
}

export class SectorCard {
    number = 0;
    drawn = 0;
    wantsFocus = false;
    isOld = false;
    /** The message that bytes were copied, until a different byte is chosen. */
    copied = '';
    foot = element('p', { class: 'foot' });
    title = element('h2', { id: 'sector-title' });
    message = element('div');
    fields = element('div', { class: 'fields', role: 'group', 'aria-label': 'Fields (select one to jump there)' });
    goTo = element('input', { type: 'text', id: 'go-to', class: 'num slim', inputmode: 'numeric', autocomplete: 'off' });
    noBlock = element('div');
    choice = element('select', { class: 'slim' });
    empty = element('p', { class: 'pad quiet' }, ...say(
        'Click the map, or a block in the findings. With the keyboard: {tab} to the map, then the arrows and {enter}.',
            { tab: element('kbd', {},
        'Tab'), enter: element('kbd', {}, texts.sectorEnterKey) }));
    edit; view: HexView; spoken; field; body; part;

    constructor(readonly app: App) {
        this.edit = new SectorEdit(app, () => this.drawFoot());
        this.view = new HexView((at, event) => this.edit.pressed(this.view, at, event));
        this.view.hex.addEventListener('moved', () => { this.copied = ''; });
        this.edit.bind(this.view);
        this.spoken = spokenLine(this.foot);
        this.field = new ByteField(this.edit, this.foot);
        this.view.hex.addEventListener('click', () => this.field.part.scrollIntoView({ block: 'nearest' }));
        this.view.hex.addEventListener('copy', () => this.sayCopied());
        bindEncodings(app, this.choice, ({ hasCharacters }) => hasCharacters);
        const fields = element('details', { class: 'fields-box' }, element('summary', {}, 'Fields of the sector'), this.fields);
        this.body = element('div', {}, this.message, fields, this.view.part, this.field.part, this.foot, this.spoken.part);
        this.part = element('section', { class: 'card', 'aria-labelledby': 'sector-title' },
            element('header', {}, this.title, this.tools()), this.noBlock, this.empty, this.body);
        oneTabStop(this.fields, 'button');
        for (const name of (['encoding', 'script', 'second', 'repair', 'panel'] as const)) {
            app.on(name, () => this.redraw(name !== 'panel'));
        }
        app.on('files', () => this.drawFoot());
        this.close();
    }

    /** The further actions: how offsets are shown, and copies of the selected bytes. */
    actions(): (MenuItem | false)[] {
        const { edit, view } = this;
        const isOpen = !this.body.hidden;
        return [{ label: 'Offsets in hexadecimal', checked: view.hexadecimal, press: () => view.setOffsets(!view.hexadecimal) },
            isOpen && { label: 'Copy as hex', copies: () => edit.selectedHex() },
            isOpen && { label: 'Copy as text', copies: () => edit.selectedText() }];
    }

    /** The row of tools: a field to go to a block, the encoding of the bytes, and further actions. */
    tools() {
        const form = element('form', { submit: (event: Event) => this.goToBlock(event) },
            element('label', { class: 'row small' }, 'Go to block', this.goTo));
        const encoding = element('label', { class: 'row small' }, 'Encoding', this.choice);
        return element('div', { class: 'row' }, form, encoding,
            moreButton('slim', 'sector', 'More about the sector', () => this.actions()));
    }

    /** Moves the focus to the bytes, now or as soon as they are shown. */
    focus() {
        this.wantsFocus = true;
        if (!this.body.hidden && this.number === this.drawn) this.takeFocus();
    }

    /** Scrolls to this card, and moves the focus to the bytes. */
    scrollTo() {
        this.view.hex.focus({ preventScroll: true });
        this.part.scrollIntoView();
    }

    /** Moves the focus to the field for a block. */
    ask() {
        this.part.hidden = false;
        this.goTo.focus();
        this.goTo.select();
    }

    /** Scrolls to this card, to its heading if the card is higher than the window. */
    reveal() {
        this.part.scrollIntoView({ block: this.part.offsetHeight > window.innerHeight ? 'start' : 'nearest' });
    }

    takeFocus() {
        this.wantsFocus = false;
        this.view.hex.focus({ preventScroll: true });
        this.reveal();
    }

    close() {
        this.sayBlock('');
        fill(this.title, texts.sectorNoSectorOpen);
        this.empty.hidden = false;
        this.body.hidden = true;
    }

    /** @param changed whether the sector may look different. It is read again only when it is visible. */
    redraw(changed: boolean) {
        this.isOld = this.isOld || changed;
        if (this.isOld && this.app.panel === 'disc') this.draw(false);
    }

    /** Shows the chosen place. `moved` says whether it is a different one than before. `wanted` says whether it is scrolled to. */
    async draw(moved: boolean, wanted: boolean = false) {
        const { app } = this;
        const { image, place } = app;
        if (image === null || place.block < 0) return this.close();
        const number = ++this.number;
        this.isOld = false;
        try {
            const { old, fresh } = await sectorBytes(app, image, place.block);
            const other = await sectorOfSecond(app, place.block);
            if (number !== this.number || image !== app.image) return undefined;
            this.show(old, fresh, other, moved);
            if (wanted) this.reveal();
            this.drawn = number;
            if (this.wantsFocus) this.takeFocus();
        } catch (error) {
            showFailure(error);
        }
        return undefined;
    }

    show(old: Uint8Array, fresh: Uint8Array, other: Uint8Array | null, moved: boolean) {
        const { app } = this;
        const { block, offset } = app.place;
        const kind = app.calls.kind(old);
        const mode1 = kind === SECTOR_KIND.MODE1;
        const found = mode1 ? crossingsOf(app.calls, old) : null;
        this.empty.hidden = true;
        this.body.hidden = false;
        fill(this.title, ...say('Sector of {block} {number}', { block: term('block', texts.discBlockLabel), number: String(block) }));
        if (document.activeElement !== this.goTo) { // else a block is being typed there
            this.goTo.value = String(block);
            this.sayBlock('');
        }
        fill(this.message, sectorFault(app, block, old, found));
        const fields = fieldsOf(kind);
        if (moved) this.drawFields(fields);
        this.view.show({ block, old, bytes: fresh, other, mode1, fields, crossings: new Set(found ? found.crossings : []),
            encoding: chosenEncoding(app), label: encodingLabel(app.encoding) });
        if (moved) {
            const differs = other ? old.findIndex((byte, i) => byte !== other[i]) : -1;
            const first = differs >= 0 ? differs : found && found.crossings[0] || (mode1 ? USER_OFFSET : 0);
            this.view.moveTo(offset >= 0 ? USER_OFFSET + offset : first);
            this.view.reveal(this.view.at, true);
        }
        this.drawFoot();
    }

    drawFields(fields: Field[]) {
        // Of a sector without fields, the only button is called "bytes" itself.
        const bytes = fields.length > 1 && element('span', { class: 'small quiet' }, texts.discBytesColumn);
        fill(this.fields, bytes, ...fields.map(({ name, label, from, to }) => element('button', {
            type: 'button', class: `x-${name}`, click: () => {
                this.view.moveTo(from);
                this.view.reveal(from, true);
            },
        }, label, element('small', {}, `${from}–${to - 1}`))));
    }

    drawFoot() {
        const { app, view } = this;
        const { shown, at } = view;
        if (shown === null || app.image === null) return;
        const byte = shown.bytes[at];
        const isUser = shown.mode1 && at >= USER_OFFSET && at < USER_END;
        const { digit, fault } = this.edit;
        const typed = digit === '' ? `${digitsOf(byte)} = ${byte}` : `${digit}_`;
        const offset = (isUser ? at - USER_OFFSET : at).toString(16).toUpperCase();
        const parts = [element('b', {}, placeName(shown, at)), element('span', { class: 'mono' }, `0x${offset}`),
            isUser && element('span', {}, byteWords(at)), element('span', { class: 'mono' }, typed),
            isUser && this.fileAt(at - USER_OFFSET), ...this.selectionWords()];
        if (shown.bytes[at] !== shown.old[at]) {
            parts.push(element('span', { class: 'good-ink' }, format('changed by the script, {digits} in the file',
                { digits: digitsOf(shown.old[at]) })));
        }
        if (shown.other !== null && shown.other[at] !== shown.old[at]) {
            parts.push(element('b', {}, format('{digits} in the second image', { digits: digitsOf(shown.other[at]) })));
        }
        this.field.draw(view, isUser);
        const unchanged = shown.mode1 ? 'Only user data can be edited. EDC and parity are recalculated.'
            : 'Only Mode 1 sectors can be changed.';
        const hint = isUser ? `Type to change it: each change becomes a patch in the script.${this.damageHint()}` : unchanged;
        fill(this.foot, this.copied !== '' && element('b', { class: 'good-ink' }, this.copied),
            fault !== '' && element('b', { class: 'bad-ink' }, fault), ...parts, element('span', {}, hint));
        this.spoken.changed();
    }

    /** Shows under the bytes that they were copied by a key. */
    sayCopied() {
        const { first, end } = this.view.selection();
        this.copied = format(texts.sectorBytesCopied, { n: end - first });
        this.drawFoot();
    }

    /** Words for how many bytes are selected; none for a single byte. */
    selectionWords() {
        const { view } = this;
        const { first, end } = view.selection();
        if (view.shown === null || end - first === 1) return [];
        return [element('span', {}, format('{n} bytes selected, starting at {place}',
            { n: end - first, place: placeName(view.shown, first) }))];
    }

    /** A warning that changes in a damaged sector will be refused, or ''. */
    damageHint() {
        const { shown } = this.view;
        if (shown === null || isSound(this.app.calls.survey(shown.old, 0), 0)) return '';
        return ' This sector is damaged: Check refuses the patch, unless damaged sectors are patched too (carry), or a rebuild in the ' +
            'script comes before it.';
    }

    fileAt(offset: number) {
        const { files, place } = this.app;
        if (files === null) return false;
        const [file] = filesAt(files.files, place.block, offset);
        if (file === undefined) return element('span', {}, texts.sectorInNoFile);
        const position = (place.block - file.block) * USER_SIZE + offset;
        return element('span', {}, ...say('file {name} at {position}',
            { name: element('span', { class: 'mono' }, nameOf(file.path)), position }));
    }

    goToBlock(event: Event) {
        event.preventDefault();
        const { image } = this.app;
        const block = Number(this.goTo.value.trim().replace(/,/g, '') || NaN);
        const isIn = image !== null && Number.isInteger(block) && block >= image.base && block < image.base + image.sectors;
        this.sayBlock(isIn || image === null ? ''
            : format('The blocks of this image are {first} to {last}.',
                { first: String(image.base), last: String(image.base + image.sectors - 1) }));
        if (isIn) this.app.goTo(block);
    }

    /** @param fault of the block that was typed, or '' */
    sayBlock(fault: string) {
        this.goTo.setAttribute('aria-invalid', String(fault !== ''));
        fill(this.noBlock, fault !== '' && element('p', { class: 'say bad thin', role: 'alert' }, fault));
    }
}
