// Menus: a button opens a list of actions beside it. All menus share one list, since only one is open at a time.

import { counted, format } from '../texts/index.js';
import { byId, copyButton, element, fill, setAttribute, type Child } from './dom.js';
import * as texts from '../texts/index.js';

// Groups of controls that are a single stop of the Tab key. Inside a group, the arrow keys move the focus.

/** The attributes that mark the chosen control. */
const CHOOSES = ['aria-selected', 'aria-current'];

/**
 * Makes the controls in an element one tab stop: arrows, Home, and End move the focus. `chosen` is called with the control to which a key
 * moves the focus, for tabs and switches that follow it.
 * @param controls a selector
 */
export function oneTabStop(group: HTMLElement, controls: string, chosen: (control: HTMLElement) => void = () => {}) {
    const all = () => ([...group.querySelectorAll(controls)] as HTMLElement[]);
    keepStop(all());
    new MutationObserver(() => keepStop(all())).observe(group, { childList: true, subtree: true, attributeFilter: CHOOSES });
    group.addEventListener('focusin', event => setStop(all(), event.target as HTMLElement));
    group.addEventListener('keydown', event => {
        const list = all();
        const next = nextOf(list, list.indexOf(document.activeElement as HTMLElement), event);
        if (next === null) return;
        event.preventDefault();
        event.stopPropagation();
        next.focus();
        chosen(next);
    });
}

/** The control to which a key moves, or null. */
function nextOf(list: HTMLElement[], at: number, event: KeyboardEvent) {
    if (at < 0 || event.altKey || event.ctrlKey || event.metaKey) return null;
    const places: Record<string, number> = { ArrowRight: at + 1, ArrowDown: at + 1, ArrowLeft: at - 1, ArrowUp: at - 1, Home: 0, End: -1 };
    const place = places[event.key];
    if (place === undefined) return null;
    return list[(place + list.length) % list.length];
}

/** Gives a list one tab stop: its chosen control, or else its present stop, or else its first control. */
function keepStop(list: HTMLElement[]) {
    const chosen = list.find(it => it.matches('[aria-selected=true], [aria-current], [aria-current] *')) ||
        list.find(it => it.tabIndex === 0) || list[0];
    setStop(list, chosen);
}

function setStop(list: HTMLElement[], stop: HTMLElement | undefined) {
    if (stop === undefined || !list.includes(stop)) return;
    for (const it of list) {
        const index = it === stop ? 0 : -1;
        if (it.getAttribute('tabindex') !== String(index)) it.tabIndex = index;
    }
}

// The keys of undo and redo.

/** What a key asks for: to undo, to redo, or neither. */
export function turnBackKey({ key, ctrlKey, metaKey, altKey, shiftKey, isComposing }: KeyboardEvent): 'undo' | 'redo' | '' {
    if (isComposing || altKey || !(ctrlKey || metaKey)) return '';
    if (key.toLowerCase() === 'z') return shiftKey ? 'redo' : 'undo';
    return key.toLowerCase() === 'y' ? 'redo' : '';
}

// A row of large counts, and a card with a table.

/** @param counts each with its name and its class */
export function countsRow(counts: [number, string, string][]) {
    return element('div', { class: 'tally' }, ...counts.map(([count, name, looks]) =>
        element('div', { class: looks || null }, element('b', {}, counted(count)), name)));
}

/**
 * A card with a table. If there is a text of its rows, a button copies it.
 * @param head the row of names
 * @param more in the head of the card
 */
export function tableCard(title: string, head: HTMLElement, rows: HTMLElement[], text: string | (() => string) | null, foot: string,
    more: Child = null) {
    const table = element('table', { 'aria-label': title }, element('thead', {}, head), element('tbody', {}, ...rows));
    const part = element('div', { class: 'scroll fit' }, table);
    oneTabStop(part, 'tbody button');
    return element('section', { class: 'card', 'aria-label': title },
        element('header', {}, element('h2', {}, title),
            text !== null && copyButton('slim bare', () => typeof text === 'string' ? text : text(), texts.copy,
                format(texts.theRowsOf, { title })), more),
        part,
        element('p', { class: 'foot' }, element('span', {}, foot)));
}

/**
 * An action of a menu. `checked` is the state of a setting, which the action changes. An action that copies says in its place that it did.
 */
export type MenuItem = { label: string, press: () => void, checked?: boolean } | { label: string, copies: () => string };

/** Pixels between the menu and its button, and the edge of the window. */
const GAP = 4;

/** The key of the menu that is open, or ''. */
const open = { key: '' };

/**
 * A button that opens a menu. The arrow keys move in it; Escape closes it, and gives the focus back to the button.
 * @param looks classes, like those of other buttons
 * @param key identifies the menu, because the button may be redrawn while it is open
 * @param items is called each time when the menu is opened
 * @param name for screen readers, if the label is only a sign
 */
export function menuButton(looks: string, key: string, label: string, items: () => (MenuItem | false)[], name: string = '') {
    return element('button', { type: 'button', class: `btn menu-button ${looks}`.trim(), 'data-menu': key, 'aria-haspopup': 'menu',
        'aria-expanded': String(open.key === key), 'aria-label': name || null, title: name || null,
        click: () => open.key === key ? closeMenu() : openMenu(key, items(), name || label) },
        label, name === '' && element('span', { 'aria-hidden': 'true' }, '▾'));
}

/** The sign of a menu of further actions, and the button with it. */
export function moreButton(looks: string, key: string, name: string, items: () => (MenuItem | false)[]) {
    return menuButton(`sign ${looks}`.trim(), key, '⋯', items, name);
}

/** Makes the list of menus close when the user presses or goes elsewhere, and stay at its button. */
export function mountMenus() {
    const list = byId('menu');
    oneTabStop(list, '[role^=menuitem]');
    list.addEventListener('keydown', pressed);
    list.addEventListener('focusout', ({ relatedTarget }) => leave(relatedTarget));
    document.addEventListener('pointerdown', ({ target }) => leave(target), true);
    window.addEventListener('resize', () => place(list));
}

/** The button of the menu that is open. */
function opener() {
    return document.querySelector(`[data-menu="${open.key}"]`) as HTMLElement | null;
}

function openMenu(key: string, items: (MenuItem | false)[], name: string) {
    leave(document.body);
    open.key = key;
    const list = byId('menu');
    fill(list, ...items.map(item => item && itemButton(item)));
    setAttribute(list, 'aria-label', name);
    list.hidden = false;
    place(list);
    (list.firstElementChild as HTMLElement).focus({ preventScroll: true });
}

function itemButton(item: MenuItem) {
    if ('copies' in item) {
        const made = copyButton('', item.copies, item.label);
        made.setAttribute('role', 'menuitem');
        return made;
    }
    const { label, press, checked } = item;
    const isSetting = checked !== undefined;
    return element('button', { type: 'button', role: isSetting ? 'menuitemcheckbox' : 'menuitem',
        'aria-checked': isSetting && String(checked), click: () => {
            closeMenu();
            press();
        } }, isSetting && element('span', { 'aria-hidden': 'true' }, checked ? '☑' : '☐'), label);
}

/** Puts the list below its button, or above it if the space below is too small. */
function place(list: HTMLElement) {
    const from = opener();
    if (from === null) return;
    setAttribute(from, 'aria-expanded', 'true');
    const { left, bottom, top } = from.getBoundingClientRect();
    const { clientWidth, clientHeight } = document.documentElement;
    const { offsetWidth: width, offsetHeight: height } = list;
    const below = bottom + GAP + height <= clientHeight || top - GAP - height < 0;
    list.style.left = `${Math.max(GAP, Math.min(left, clientWidth - width - GAP)) + scrollX}px`;
    list.style.top = `${(below ? bottom + GAP : top - GAP - height) + scrollY}px`;
}

/** Closes the menu, and gives the focus back to its button. */
function closeMenu() {
    const from = opener();
    leave(document.body);
    from?.focus({ preventScroll: true });
}

/**
 * Closes the menu after a press elsewhere, or if the focus has gone elsewhere.
 * @param target null if the window has lost the focus
 */
function leave(target: EventTarget | null) {
    const list = byId('menu');
    if (open.key === '' || target === null || list.contains(target as Node)) return;
    const from = opener();
    if (from?.contains(target as Node)) return;
    open.key = '';
    if (from !== null) setAttribute(from, 'aria-expanded', 'false');
    list.hidden = true;
}

function pressed(event: KeyboardEvent) {
    if (event.key === 'Escape') {
        event.preventDefault();
        closeMenu();
    } else if (event.key === 'Tab') closeMenu();
}
