// Edits the bytes of a sector with keys, copy, and paste.

import { bytesOfHex, readBytes } from '../../core/bytes.js';
import { encodeText } from '../../core/encodings/views.js';
import { SECTOR_SIZE, USER_SIZE } from '../../core/module/index.js';
import { lineText, type ScriptLine } from '../../core/script/views.js';
import { USER_OFFSET } from '../../core/sectors/views.js';
import { applyInMemory } from '../../core/tasks/index.js';
import { charactersFrom } from '../../core/texts/views.js';
import { ownFault } from '../../sentences/index.js';
import type { App, Edit, Image } from '../app/index.js';
import { chosenEncoding, signOf } from '../text/index.js';
import { format } from '../texts/index.js';
import { announce, button, byId, element, fill, hexOf, messageOf, setDisabled, turnBackKey } from '../ui/index.js';
import { USER_END, placeName, type HexView } from './hex_view.js';
import * as texts from '../texts/index.js';

// The field for new bytes under the bytes of a sector. It is shown where a finger points: a byte that is tapped opens no keyboard there.

export class ByteField {
    label = element('label', { for: 'new-bytes' });
    input = element('input', { type: 'text', id: 'new-bytes', class: 'mono', autocomplete: 'off',
        autocapitalize: 'off',
            spellcheck: 'false' });
    undo; redo; part;

    /** @param foot which shows why bytes were not accepted */
    constructor(readonly edit: SectorEdit, readonly foot: HTMLElement) {
        this.undo = button('', () => this.turnBack('undo'), texts.undo);
        this.redo = button('', () => this.turnBack('redo'), 'Redo');
        this.part = element('form', { class: 'byte-field', submit: event => this.change(event) }, this.label,
            element('div', { class: 'row' }, this.input, element('button', { class: 'btn' }, 'Change'), this.undo,
                this.redo));
    }

    /** @param isUser whether the chosen byte can be changed */
    draw(view: HexView, isUser: boolean) {
        const { shown, column } = view;
        this.part.hidden = !isUser;
        if (shown === null) return;
        const place = placeName(shown, view.selection().first);
        fill(this.label, format(column === 'text' ? 'New text from {place} on' : 'New bytes from {place} on, in hex', { place }));
        const { done, undone } = this.edit.app.script;
        setDisabled(this.undo, done[done.length - 1]?.typed !== 'bytes'); // never hidden, or it would appear under the finger
        this.redo.hidden = undone[undone.length - 1]?.typed !== 'bytes';
    }

    change(event: Event) {
        event.preventDefault();
        this.edit.enter(this.input.value);
        if (this.edit.fault === '') this.input.value = '';
        else this.foot.scrollIntoView({ block: 'nearest' });
    }

    turnBack(way: 'undo' | 'redo') {
        if (this.edit.view) this.edit.turnBack(this.edit.view, way);
        this.input.focus();
    }
}

// Converts bytes that are typed in the sector view to lines of the script.

/** Bytes of a line that were typed, and those that were there before. */
type TypedLine = { block: number, offset: number, fresh: number[], old: number[] };

/** Bytes that are typed one after the other, which form one line. Each time that some are typed is an edit of the script. */
export class Typing {
    /** The line that is continued. */
    line: TypedLine | null = null;
    written: ScriptLine | null = null;
    /** The line of each edit, before and after it. */
    edits = new WeakMap<Edit, { number: number, was: TypedLine | null, is: TypedLine }>();

    constructor(readonly app: App) {}

    /** Whether the last line is still in the script as it was written, even if its number has changed. */
    stands() {
        return this.written !== null && this.app.script.lines[this.written.number - 1] === this.written;
    }

    /** Types bytes over others. `before` is the bytes there, after the script so far. */
    type(block: number, offset: number, bytes: Uint8Array, before: Uint8Array) {
        const { app, line } = this;
        const place = line === null ? -1 : offset - line.offset;
        const goesOn = line !== null && block === line.block && place >= 0 && place <= line.fresh.length && this.stands();
        const was = goesOn ? line : null;
        const is = was === null ? { block, offset, fresh: [], old: [] } : { ...was, fresh: [...was.fresh], old: [...was.old] };
        const at = offset - is.offset;
        bytes.forEach((byte, i) => {
            if (at + i === is.fresh.length) is.old.push(before[i]);
            is.fresh[at + i] = byte;
        });
        const text = lineText(lines => lines.set(block, is.offset, Uint8Array.from(is.fresh), Uint8Array.from(is.old)));
        const number = was !== null && this.written ? this.written.number : app.addLines([text], 'bytes');
        if (was !== null) app.replaceLine(number, text, 'bytes');
        this.line = is;
        this.written = app.script.lines[number - 1] || null;
        const edit = app.script.done.slice(-1)[0];
        if (edit !== undefined) this.edits.set(edit, { number, was, is });
        return text;
    }

    /**
     * Continues from an edit that was undone or redone: bytes that are typed next belong to the line that it left. Returns the block of the
     * bytes that changed, the offset of the first one, and the offset after the last one; null for an edit that was not made here.
     */
    continueFrom(edit: Edit, way: 'undo' | 'redo') {
        const known = this.edits.get(edit);
        if (known === undefined) return null;
        const { number, was, is } = known;
        this.line = way === 'undo' ? was : is;
        this.written = this.line && this.app.script.lines[number - 1] || null;
        const changed = [...is.fresh.keys()].filter(i => was === null || is.fresh[i] !== was.fresh[i]);
        const [first, last] = [changed[0] ?? 0, changed[changed.length - 1] ?? 0];
        return { block: is.block, first: is.offset + first, end: is.offset + last + 1 };
    }
}

// The bytes of one sector, in the file and after the script.

/** Reads a sector of the open image, and applies the script to it. Damage is carried, so that each patch is visible. */
export async function sectorBytes(app: App, { reader, base }: Image, block: number) {
    const at = (block - base) * SECTOR_SIZE;
    const old = await readBytes(reader, at, SECTOR_SIZE);
    const script = app.script.scriptNear(block);
    if (script === '') return { old, fresh: old };
    const read = { text: new TextEncoder().encode(script), bases: [] };
    const { pieces } = await applyInMemory(app, { reader, base }, read, { carry: true });
    for (const piece of pieces) {
        if (!('bytes' in piece) || at < piece.at || at >= piece.at + piece.bytes.length) continue;
        return { old, fresh: piece.bytes.subarray(at - piece.at, at - piece.at + SECTOR_SIZE) };
    }
    return { old, fresh: old };
}

export class SectorEdit {
    /** The first digit of a byte whose second one is not typed yet. */
    digit = '';
    /** Why the bytes that were typed or pasted last were not accepted, or ''. */
    fault = '';
    view: HexView | null = null;
    typing;

    /** @param changed called when the text under the bytes changes */
    constructor(readonly app: App, readonly changed: () => void) {
        this.typing = new Typing(app);
    }

    bind(view: HexView) {
        this.view = view;
        view.hex.addEventListener('moved', () => this.forget());
        view.hex.addEventListener('copy', event => {
            if (event.clipboardData === null) return;
            event.clipboardData.setData('text/plain', view.column === 'text' ? this.selectedText() : this.selectedHex());
            event.preventDefault();
            const { first, end } = view.selection();
            announce(format(texts.sectorBytesCopied, { n: end - first }));
        });
        view.hex.addEventListener('paste', event => {
            const text = event.clipboardData ? event.clipboardData.getData('text/plain') : '';
            event.preventDefault();
            this.enter(text);
        });
    }

    /** Writes text that was entered at once: in the column of digits as hexadecimal digits. */
    enter(text: string) {
        this.write(() => this.view?.column === 'text' ? this.encoded(text) : pastedBytes(text));
    }

    /** Discards the typed digit and the message, which belong to the byte that was chosen before. */
    forget() {
        this.digit = this.fault = '';
        this.changed();
    }

    selectedBytes() {
        const { view } = this;
        if (view === null || view.shown === null) return new Uint8Array(0);
        const { first, end } = view.selection();
        return view.shown.bytes.subarray(first, end);
    }

    selectedHex() {
        return hexOf(this.selectedBytes()).replace(/..(?=.)/g, '$& ');
    }

    selectedText() {
        return [...charactersFrom(chosenEncoding(this.app), this.selectedBytes())].map(({ text }) => signOf(text)).join('');
    }

    encoded(text: string) {
        return encodeText(chosenEncoding(this.app), text);
    }

    /** Handles the keys that do not move within the sector. */
    pressed(view: HexView, at: number, event: KeyboardEvent) {
        const key = event.key.length === 1 && !event.isComposing ? event.key : '';
        const way = turnBackKey(event);
        if (way !== '') this.turnBack(view, way);
        else if (event.ctrlKey || event.metaKey) {
            if (key.toLowerCase() !== 'a' || event.shiftKey) return;
            view.selectAll();
        } else if (event.key === 'Escape') this.escape(view);
        else if (event.key === 'PageDown' || event.key === 'PageUp') this.page(view, at, event.key === 'PageDown' ? 1 : -1);
        else if (view.column === 'text' && key !== '') this.write(() => this.encoded(key));
        else if (/^[0-9a-fA-F]$/.test(key)) this.typeDigit(key.toUpperCase());
        else if (key.toLowerCase() === 't') view.typeIn('text');
        else return;
        event.preventDefault();
    }

    /** Handles Escape, which leads from texts back to digits, and from there to the map. */
    escape(view: HexView) {
        if (view.column === 'text') return view.typeIn('hex');
        if (this.digit === '') byId('map').focus();
        return this.forget();
    }

    /** Moves a screen forward or back, or beyond the sector's end to the next or previous sector. */
    page(view: HexView, at: number, step: number) {
        const { app } = this;
        const ends = step > 0 ? at >= SECTOR_SIZE - view.columns : at < view.columns;
        if (!ends) return view.moveTo(at + step * view.screen());
        const block = app.place.block + step;
        if (app.image === null || block < app.image.base || block >= app.image.base + app.image.sectors) return undefined;
        return app.goTo(block);
    }

    /** Undoes the digit or the bytes typed last, or redoes the bytes that were undone last, and shows their place. */
    turnBack(view: HexView, way: 'undo' | 'redo') {
        const { app, digit, typing } = this;
        this.digit = '';
        if (digit !== '') return this.changed();
        const edit = app.turnBytes(way);
        if (edit === null) return announce(way === 'undo' ? 'The last change to the script was not typed here.'
            : 'There are no bytes to redo.');
        const place = typing.continueFrom(edit, way);
        if (place !== null) {
            const offset = way === 'undo' ? place.first : Math.min(place.end, USER_SIZE - 1);
            if (place.block === app.place.block) view.moveTo(USER_OFFSET + offset);
            else app.goTo(place.block, offset);
        }
        return announce(way === 'undo' ? 'The last typed bytes were undone.' : 'The bytes that were undone last are in the script again.');
    }

    /** @param digit of a byte */
    typeDigit(digit: string) {
        const first = this.digit;
        if (first === '' && this.faultOf(1) === '') {
            this.digit = digit;
            return this.changed();
        }
        return this.write(() => Uint8Array.of(parseInt(first + digit, 16)));
    }

    /** Writes bytes from the first selected byte on. `bytesOf` returns the bytes. It may throw a Fault. */
    write(bytesOf: () => Uint8Array) {
        const { view } = this;
        if (view === null || view.shown === null) return;
        const { shown } = view;
        const { first } = view.selection();
        this.digit = '';
        try {
            const bytes = bytesOf();
            this.fault = this.faultOf(bytes.length);
            if (this.fault === '' && bytes.length > 0) {
                const old = shown.bytes.slice(first, first + bytes.length);
                announce(format(texts.sectorInTheScript, { line: this.typing.type(shown.block, first - USER_OFFSET, bytes, old) }));
                shown.bytes = shown.bytes.slice();
                shown.bytes.set(bytes, first);
                return view.moveTo(Math.min(first + bytes.length, USER_END - 1));
            }
        } catch (error) {
            this.fault = messageOf(error);
        }
        this.changed();
        return announce(this.fault);
    }

    /** Why that many bytes cannot be written at the chosen place, or ''. */
    faultOf(count: number) {
        const { view } = this;
        if (view === null || view.shown === null) return '';
        const { first } = view.selection();
        if (!view.shown.mode1 || first < USER_OFFSET || first >= USER_END) return 'Only the user data of Mode 1 sectors can be edited.';
        const room = USER_END - first;
        return count > room ? format('These are {n} bytes, but there is room for only {room} here in the user data of this sector.',
            { n: count, room: String(room) }) : '';
    }
}

/** Converts hexadecimal digits, with or without spaces, to bytes. Throws a Fault for any other text. */
function pastedBytes(text: string) {
    const digits = text.replace(/\s+/g, '');
    if (!/^(?:[0-9a-fA-F]{2})+$/.test(digits)) throw ownFault(
        'These are not pairs of hexadecimal digits. To enter text, first press T or select a character next to the bytes.');
    return bytesOfHex(digits);
}
