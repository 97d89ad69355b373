// Creates parts of the page, and formats bytes for people. Texts are inserted as text: nothing here parses markup.

import { playerTexts } from '../texts/index.js';
import * as texts from '../texts/index.js';

// Redraws parts of the page, and keeps elements that stay. All parts are redrawn by these functions.

export type Child = Node | string | number | null | false;

/** The keys of nodes, which identify a node when its parent is redrawn. */
const keys: WeakMap<Node, string> = new WeakMap();

/** The current listener for each event of an element. */
const listeners: WeakMap<Element, Map<string, ((event: any) => void) | null>> = new WeakMap();

/**
 * Gives a part a key. When its parent is filled again, the element with this key is kept, and gets the new attributes, children, and
 * listeners. So it keeps the focus, and a press on it continues. No other code may hold a reference to an element in it.
 */
export function keyed<Part extends Element>(key: string, part: Part) {
    keys.set(part, key);
    return part;
}

/** Sets the listener for an event of an element, which replaces the previous one. */
function listen(target: Element, name: string, listener: ((event: any) => void) | null) {
    const own = listeners.get(target) || new Map();
    listeners.set(target, own);
    if (!own.has(name)) target.addEventListener(name, event => own.get(name)?.call(target, event));
    own.set(name, listener);
}

/**
 * Replaces the children of an element. Nodes that are in both, or have the same key, are not removed. If the focused control is removed,
 * the control of the class `next` is focused, or else the first one.
 */
export function fill(target: HTMLElement | Element, ...children: Child[]) {
    const had = document.activeElement as HTMLElement | null;
    const isIn = had !== null && target.contains(had);
    put(target, nodesOf(children).map(it => it instanceof Node ? it : document.createTextNode(it)), false);
    if (!isIn || document.activeElement === had) return;
    const goesTo = target.contains(had) ? had : controlIn(target);
    goesTo.focus({ preventScroll: true });
}

/**
 * The control that gets the focus: one in this part, or else one in its card, or else the card itself, which has a name. Buttons of the
 * class `away`, which close a part or replace what is open, never get it: a second press of Enter would press them.
 */
function controlIn(target: Element) {
    const card = (target.closest('.card') || target) as HTMLElement;
    for (const place of [target, card]) {
        const control = place.querySelector('.btn.next, .next .btn') || place.querySelector('.btn:not(.away)');
        if (control instanceof HTMLElement) return control;
    }
    card.tabIndex = -1;
    return card;
}

function nodesOf(children: Child[]): (Node | string)[] {
    return children.flatMap(child => {
        if (child === null || child === false) return [];
        return child instanceof Node ? child : String(child);
    });
}

/** @param isKept whether the target itself was kept: then its nodes without a key are kept by their order */
function put(target: Element, fresh: Node[], isKept: boolean) {
    const before = [...target.childNodes];
    const byKey = new Map(before.flatMap(node => keys.has(node) ? [[keys.get(node), node]] : []));
    const others = isKept ? before.filter(node => !keys.has(node)) : [];
    const nodes = fresh.map(node => {
        const old = keys.has(node) ? byKey.get(keys.get(node)) : others.shift();
        return old && old !== node && old.nodeName === node.nodeName ? changed(old, node) : node;
    });
    const stay = new Set(nodes);
    for (const node of before) {
        if (!stay.has(node)) target.removeChild(node);
    }
    let at = target.firstChild;
    for (const node of nodes) {
        if (node === at) at = at.nextSibling;
        else target.insertBefore(node, at);
    }
}

/** Updates a node that is kept with the attributes, children, and listeners of a new one. Returns the kept node. */
function changed(old: Node, fresh: Node) {
    if (!(old instanceof Element) || !(fresh instanceof Element)) {
        if (old.nodeValue !== fresh.nodeValue) old.nodeValue = fresh.nodeValue;
        return old;
    }
    // Groups of controls set `tabindex` themselves. The content security policy of a page refuses `style` as an attribute.
    for (const name of old.getAttributeNames()) {
        if (!fresh.hasAttribute(name) && name !== 'tabindex') old.removeAttribute(name);
    }
    for (const name of fresh.getAttributeNames()) {
        const value = fresh.getAttribute(name) || '';
        if (name === 'style') (old as HTMLElement).style.cssText = value;
        else if (old.getAttribute(name) !== value) old.setAttribute(name, value);
    }
    const [had, has] = [old, fresh].map(it => listeners.get(it) || new Map());
    for (const name of new Set([...had.keys(), ...has.keys()])) listen(old, name, has.get(name) || null);
    put(old, [...fresh.childNodes], true);
    return old;
}

type Attribute = string | number | boolean | null | ((event: any) => void);

const SVG = 'http://www.w3.org/2000/svg';

/** Creates an element. An attribute that is a function listens to the event of its name; false and null leave an attribute out. */
export function element<Tag extends keyof HTMLElementTagNameMap>(tag: Tag, attributes: Record<string, Attribute> = {},
    ...children: Child[]): HTMLElementTagNameMap[Tag] {
    const made = document.createElement(tag);
    for (const [name, value] of Object.entries(attributes)) setAttribute(made, name, value);
    made.append(...nodesOf(children));
    return made;
}

/** Sets an attribute, or removes it if the value is false or null. A function becomes a listener. */
export function setAttribute(target: Element, name: string, value: Attribute) {
    if (typeof value === 'function') listen(target, name, value);
    else if (value === false || value === null) target.removeAttribute(name);
    else target.setAttribute(name, value === true ? '' : String(value));
}

const unsaved: { isLost: () => boolean, what: string, save: (() => unknown) | null, isOfImage: boolean }[] = [];

/**
 * Makes the browser ask before the page is left, while something would be lost.
 * @param what a sentence about the loss, if closing the image loses it too
 * @param save saves it without a further question; closing waits for a promise
 * @param isOfImage whether it is also lost if a different image takes the place of the open one
 */
export function askBeforeLeaving(isLost: () => boolean, what: string = '', save: (() => unknown) | null = null, isOfImage: boolean =
    false) {
    unsaved.push({ isLost, what, save, isOfImage });
    window.addEventListener('beforeunload', event => { if (isLost()) event.preventDefault(); });
}

/** The unsaved work that would be lost if a different image took the place of the open one. */
export function lostWithImage() {
    return unsaved.filter(({ isLost, isOfImage }) => isOfImage && isLost());
}

/** The unsaved work that would be lost if the image were closed. */
export function lostByClosing() {
    return unsaved.filter(({ isLost, what }) => what !== '' && isLost());
}

/** The element of the page with an id. Throws an Error if there is none. */
export function byId(id: string): HTMLElement {
    const found = document.getElementById(id);
    if (found === null) throw new Error(`the page has no part ${id}`);
    return found;
}

/** A picture from the page: 'mark', 'disc', 'lock', 'tick', 'warn' or 'cross'. Screen readers skip it: words beside it say the same. */
export function icon(name: string) {
    const picture = document.createElementNS(SVG, 'svg');
    picture.setAttribute('aria-hidden', 'true');
    picture.setAttribute('class', `icon-${name}`);
    const use = document.createElementNS(SVG, 'use');
    use.setAttribute('href', `#icon-${name}`);
    picture.append(use);
    return picture;
}

/**
 * A button.
 * @param looks classes in addition to `btn`, such as 'main' or 'slim bare'
 */
export function button(looks: string, press: () => void, ...children: Child[]) {
    return element('button', { type: 'button', class: `btn ${looks}`.trim(), click: () => press() }, ...children);
}

/**
 * The button × of a part that can be closed.
 * @param name for screen readers
 */
export function crossButton(name: string, press: () => void) {
    return element('button', { type: 'button', class: 'btn slim bare sign away', 'aria-label': name, title: name, click: () => press() },
        '×');
}

/** A word that opens its explanation, which is in page.html under `term-NAME`. */
export function term(name: string, word: string) {
    return element('button', { type: 'button', class: 'term', popovertarget: `term-${name}` }, word);
}

/** Formats a text in which each key is between `. */
export function keysIn(text: string) {
    return text.split('`').map((part, i) => i % 2 === 0 ? part : element('kbd', {}, part));
}

/** Marks a button as disabled, for screen readers too, but leaves it reachable by the Tab key. */
export function setDisabled(target: Element, disabled: boolean) {
    setAttribute(target, 'aria-disabled', disabled ? 'true' : null);
}

export function isDisabled(target: Element) {
    return target.getAttribute('aria-disabled') === 'true';
}

/** Bytes in hexadecimal digits, without spaces. */
export function hexOf(bytes: Uint8Array) {
    return Array.from(bytes, byte => byte.toString(16).toUpperCase().padStart(2, '0')).join('');
}

/** A hash with a possible line break in its middle. */
export function hashParts(digits: string): Child[] {
    const middle = digits.length / 2;
    return digits === '' ? [] : [digits.slice(0, middle), element('wbr'), digits.slice(middle)];
}

/** The value of a custom property of the style. */
export function styleValue(name: string) {
    return getComputedStyle(document.documentElement).getPropertyValue(name).trim();
}

/** Says something to screen readers without moving the focus. */
export function announce(text: string) {
    byId('announced').textContent = text;
}

// Buttons that copy a text, and show the result for a moment.

/** How long a button shows the result, in milliseconds. */
const SAID_FOR = 2000;

/** The label of the button that has copied last, and the result. A button with this label that is redrawn meanwhile shows it too. */
const copying = { label: '', says: '', ends: 0 };

/**
 * A button that copies a text.
 * @param looks classes, like those of other buttons
 * @param what it copies, if the label does not say so, for screen readers
 */
export function copyButton(looks: string, text: () => string | Promise<string>, label: string, what: string = '') {
    const made = button(looks, async () => {
        say(`${label}${what}`, await isCopied(await text()) ? texts.copied : 'Not copied');
    });
    Object.assign(made.dataset, { copies: label, what });
    drawCopying(made);
    return made;
}

/** Puts the label and the result into the same place, one of them invisible, so that the button keeps its size and place. */
function drawCopying(made: HTMLElement) {
    const { copies = '', what = '' } = made.dataset;
    const says = copying.label === `${copies}${what}` ? copying.says : '';
    fill(made, element('span', { class: 'either' }, element('span', { class: says && 'unseen' }, copies),
        element('span', { class: says ? '' : 'unseen' }, says || texts.copied)),
    says === '' && what !== '' && element('span', { class: 'hide' }, what));
}

function say(label: string, says: string) {
    const draw = () => document.querySelectorAll('[data-copies]').forEach(it => drawCopying(it as HTMLElement));
    clearTimeout(copying.ends);
    const ends = window.setTimeout(() => {
        copying.label = '';
        draw();
    }, SAID_FOR);
    Object.assign(copying, { label, says, ends });
    draw();
    announce(says);
}

/** Copies a text to the clipboard, and returns whether that succeeded. */
async function isCopied(text: string) {
    try {
        await navigator.clipboard.writeText(text);
        return true;
    } catch {
        const area = element('textarea', { class: 'hide', 'aria-hidden': 'true' });
        area.value = text;
        document.body.append(area);
        area.select();
        const done = document.execCommand('copy');
        area.remove();
        return done;
    }
}

// A small dialog over the page that asks the user a question.

/** Ends the current question without an answer. */
const asking = { end: () => {} };

/**
 * Asks a question. Returns the answer that was pressed, or '' if the dialog was closed or another question has replaced it.
 * @param answers and the labels of their buttons
 * @param main the answer of the main button
 */
export function askUser<Answer extends string>(title: Child[], words: Child[], answers: [Answer, Child[]][], main: Answer
    | ''): Promise<Answer | ''> {
    asking.end();
    const sheet = byId('sheet') as HTMLDialogElement;
    return new Promise(done => {
        const answer = (chosen: Answer | '') => {
            asking.end = () => {};
            sheet.close();
            done(chosen);
        };
        asking.end = () => answer('');
        listen(sheet, 'cancel', event => {
            event.preventDefault();
            answer('');
        });
        const buttons = answers.map(([chosen, label]) =>
            button(chosen === main ? 'main' : '', () => answer(chosen), element('span', {}, ...label)));
        fill(sheet, element('h2', { id: 'sheet-title' }, ...title), words.length > 0 && element('p', {}, ...words),
            element('div', { class: 'stack tight' }, ...buttons, button('bare', () => answer(''), playerTexts.cancel)));
        sheet.showModal();
        buttons.find(it => it.classList.contains('main'))?.focus();
    });
}
