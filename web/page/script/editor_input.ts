// Handles keys, the pointer, and the clipboard in the editor. Edits across lines are done here, and those within a line by the browser.

import { linesOfText } from '../../core/script/views.js';
import { turnBackKey } from '../ui/index.js';
import { ROW_HEIGHT, type ScriptEditor } from './editor.js';

export function listenToEditor(editor: ScriptEditor) {
    const { area, box } = editor;
    area.addEventListener('input', () => typed(editor));
    area.addEventListener('keydown', event => pressedIn(editor, event));
    for (const name of (['copy', 'cut'] as const)) {
        area.addEventListener(name, event => copySelection(editor, event, name === 'cut'));
    }
    area.addEventListener('paste', () => {
        if (editor.anchor >= 0) removeChosen(editor, ['']);
    });
    box.addEventListener('mousedown', event => pointed(editor, event));
    box.addEventListener('mousemove', event => dragged(editor, event));
}

function typed(editor: ScriptEditor) {
    const { area, current } = editor;
    const lines = linesOfText(area.value);
    if (lines.length > 1) {
        const column = linesOfText(area.value.slice(0, area.selectionStart));
        return editor.edit(current, 1, lines, current + column.length - 1, column[column.length - 1].length);
    }
    editor.anchor = -1;
    if (!editor.hasRoom(current, 1, lines)) return undefined;
    editor.lines.edit(current, 1, lines, 'line');
    editor.draw();
    editor.reveal();
    editor.owner.changed();
    return editor.owner.moved();
}

function pressedIn(editor: ScriptEditor, event: KeyboardEvent) {
    const control = event.ctrlKey || event.metaKey;
    const done = control ? pressedWithControl(editor, event) : pressedAlone(editor, event);
    if (!done) return;
    event.preventDefault();
    event.stopPropagation();
}

/** @returns whether the key was handled */
function pressedWithControl(editor: ScriptEditor, event: KeyboardEvent): boolean {
    const { key, shiftKey } = event;
    const last = editor.lines.lines.length - 1;
    const keys: Record<string, () => void> = {
        Enter: () => editor.owner.check(),
        Home: () => move(editor, 0, 0, shiftKey),
        End: () => move(editor, last, Infinity, shiftKey),
        a: () => {
            editor.anchor = 0;
            editor.goTo(last, Infinity);
        },
        undo: () => turnBack(editor, editor.lines.undo()),
        redo: () => turnBack(editor, editor.lines.redo()),
    };
    const press = keys[turnBackKey(event) || (key.length === 1 ? key.toLowerCase() : key)];
    if (press) press();
    return press !== undefined;
}

/**
 * Shows an undone or redone change.
 * @param line of the change, or -1 if there is none
 */
export function turnBack(editor: ScriptEditor, line: number) {
    if (line < 0) return;
    editor.anchor = -1;
    editor.current = Math.min(line, editor.lines.lines.length - 1);
    editor.draw();
    editor.goTo(line, Infinity);
    editor.owner.changed();
    editor.owner.moved();
}

/**
 * Undoes the last change, or redoes the one that was undone last, if it was typing bytes into a sector. Returns it, or null if it was not.
 */
export function turnBytes(editor: ScriptEditor, way: 'undo' | 'redo') {
    const { lines } = editor;
    const edit = (way === 'undo' ? lines.done : lines.undone).slice(-1)[0];
    if (edit === undefined || edit.typed !== 'bytes') return null;
    turnBack(editor, way === 'undo' ? lines.undo() : lines.redo());
    return edit;
}

/** @returns whether the key was handled */
function pressedAlone(editor: ScriptEditor, { key, shiftKey, altKey, isComposing }: KeyboardEvent): boolean {
    if (altKey || isComposing) return false;
    const { area, current, lines } = editor;
    const page = Math.max(Math.floor(editor.box.clientHeight / ROW_HEIGHT) - 1, 1);
    const column = area.selectionStart;
    if (key === 'ArrowUp') return atEdge(editor, -1) && move(editor, current - 1, column, shiftKey);
    if (key === 'ArrowDown') return atEdge(editor, 1) && move(editor, current + 1, column, shiftKey);
    if (key === 'PageUp') return move(editor, current - page, column, shiftKey);
    if (key === 'PageDown') return move(editor, current + page, column, shiftKey);
    if (key === 'Escape' && editor.anchor >= 0) return unselect(editor);
    if (key === 'F8') return showLine(editor, lines.nextWrong(current, shiftKey ? -1 : 1));
    if (editor.anchor >= 0 && editor.anchor !== current) return pressedOnChosen(editor, key);
    editor.anchor = -1;
    if (area.selectionStart !== area.selectionEnd && key !== 'Enter') return false;
    return pressedAtCaret(editor, key);
}

/** Handles a key at the caret that has an effect beyond its line. Returns false for other keys. */
function pressedAtCaret(editor: ScriptEditor, key: string) {
    const { area, current } = editor;
    const { lines } = editor.lines;
    const { value: line, selectionStart: at } = area;
    if (key === 'Enter') editor.edit(current, 1, [line.slice(0, at), line.slice(area.selectionEnd)], current + 1, 0);
    else if (key === 'Backspace' && at === 0 && current > 0) {
        const { text } = lines[current - 1];
        editor.edit(current - 1, 2, [text + line], current - 1, text.length);
    } else if (key === 'Delete' && at === line.length && current < lines.length - 1) {
        editor.edit(current, 2, [line + lines[current + 1].text], current, at);
    } else if (key === 'ArrowLeft' && at === 0 && current > 0) editor.goTo(current - 1, Infinity);
    else if (key === 'ArrowRight' && at === line.length && current < lines.length - 1) editor.goTo(current + 1, 0);
    else return false;
    return true;
}

/** Handles a key while lines are selected. A character replaces them, and is then typed by the browser. */
function pressedOnChosen(editor: ScriptEditor, key: string) {
    if (key === 'Backspace' || key === 'Delete') return removeChosen(editor, []);
    if (key === 'Enter') return removeChosen(editor, ['', '']);
    if (key.length === 1) removeChosen(editor, ['']);
    else if (/^(Arrow|Home|End)/.test(key)) unselect(editor);
    return false;
}

function unselect(editor: ScriptEditor) {
    editor.anchor = -1;
    editor.draw();
    return true;
}

function removeChosen(editor: ScriptEditor, inserted: string[]) {
    const [first, last] = chosen(editor);
    editor.edit(first, last - first + 1, inserted, first, 0);
    return true;
}

/** The first and the last selected line. */
function chosen({ anchor, current }: ScriptEditor) {
    return anchor < 0 ? [current, current] : [Math.min(anchor, current), Math.max(anchor, current)];
}

/** Moves the caret, and selects the lines in between if Shift is held. */
function move(editor: ScriptEditor, line: number, column: number, choosing: boolean) {
    if (!choosing) editor.anchor = -1;
    else if (editor.anchor < 0) editor.anchor = editor.current;
    editor.goTo(line, column);
    return true;
}

/** @param line or -1 */
function showLine(editor: ScriptEditor, line: number) {
    if (line >= 0) move(editor, line, 0, false);
    return true;
}

/**
 * Whether the caret is in the first row of its wrapped line (step -1), or in the last row (step 1).
 * @param step -1 or 1
 */
function atEdge(editor: ScriptEditor, step: number) {
    const { area, anchor } = editor;
    if (anchor >= 0 || area.scrollHeight < 2 * ROW_HEIGHT) return true;
    const columns = Math.max(Math.floor(area.clientWidth / editor.characterWidth()), 1);
    const [row, last] = [Math.floor(area.selectionStart / columns), Math.floor(area.value.length / columns)];
    return step < 0 ? row === 0 : row >= last;
}

function copySelection(editor: ScriptEditor, event: ClipboardEvent, cut: boolean) {
    if (editor.anchor < 0 || event.clipboardData === null) return;
    const [first, last] = chosen(editor);
    event.clipboardData.setData('text/plain', editor.lines.lines.slice(first, last + 1).map(({ text }) => `${text}\n`).join(''));
    event.preventDefault();
    if (cut) removeChosen(editor, []);
}

/** The line at the pointer, or -1. */
function lineUnder({ target }: MouseEvent) {
    const row = target instanceof Element ? (target.closest('li[data-line]') as HTMLElement | null) : null;
    return row ? Number(row.dataset.line) : -1;
}

function pointed(editor: ScriptEditor, event: MouseEvent) {
    const line = lineUnder(event);
    if (line < 0 || event.button !== 0) {
        if (event.target === editor.area) unselect(editor);
        return;
    }
    event.preventDefault();
    const source = (event.target as Element).closest('li');
    const text = source && source.querySelector('.src');
    const left = text ? text.getBoundingClientRect().left + 4 : 0;
    const column = Math.max(Math.round((event.clientX - left) / editor.characterWidth()), 0);
    move(editor, line, column, event.shiftKey);
    editor.area.focus({ preventScroll: true });
}

function dragged(editor: ScriptEditor, event: MouseEvent) {
    const line = lineUnder(event);
    if (line >= 0 && event.buttons === 1 && document.activeElement === editor.area) move(editor, line, 0, true);
}
