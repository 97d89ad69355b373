// The notices of the page about files and errors: first the fact, then what to do.

import { Fault, failedBy } from '../../core/faults.js';
import type { App } from '../app/index.js';
import { format, playerTexts, remarkText, say } from '../texts/index.js';
import { byId, copyButton, element, fill, icon, type Child } from './dom.js';
import * as texts from '../texts/index.js';

// Formats names of files and other texts of strangers for safe display: whoever made a file has chosen its name.

const MOST_SHOWN = 60;
/** Any further files at one place are only counted: a volume may have any number of them there. */
const MOST_PATHS = 3;
/** The number of characters kept at the end of a shortened name, which include its extension. */
const END_SHOWN = 20;

/** Replaces each character that is invisible, ends a line, or changes the direction of text by a dot. */
export function seen(text: string) {
    return text.replace(/[\p{C}\p{Zl}\p{Zp}]/gu, '·');
}

/** Makes the spaces at the end of a text and its unprintable bytes visible. */
export function shownText(text: string) {
    return text.replace(/ +$/, spaces => '␣'.repeat(spaces.length)).replace(/[\p{Cc}\uFFFD]/gu, '·');
}

/** Like `seen`, for prose such as a title: characters that join letters are kept. */
export function seenTitle(text: string) {
    return text.replace(/[\p{Cc}\p{Cs}\p{Zl}\p{Zp}\p{Bidi_Control}]/gu, '·');
}

/** Like `seenTitle`, for a text of several lines: line ends and tabs are kept. */
export function seenLines(text: string) {
    return text.replace(/(?!\r?\n|\t)[\p{Cc}\p{Cs}\p{Zl}\p{Zp}\p{Bidi_Control}]/gu, '·');
}

/** A text with a capital first letter. */
export function capital(text: string) {
    return text.charAt(0).toUpperCase() + text.slice(1);
}

/** A name as a text, shortened in its middle if it is long. */
export function shownName(name: string) {
    const characters = [...seen(name)];
    if (characters.length <= MOST_SHOWN) return characters.join('');
    return [...characters.slice(0, MOST_SHOWN - END_SHOWN - 1), '…', ...characters.slice(-END_SHOWN)].join('');
}

/** A name as a part of the page. Its text direction does not affect the text around it. */
export function nameOf(name: string) {
    return element('bdi', {}, shownName(name));
}

/** Names, with commas between them. */
export function namesOf(names: string[]): Child[] {
    return names.flatMap((name, i) => i === 0 ? [nameOf(name)] : [', ', nameOf(name)]);
}

/** The files of a volume at one place, as a text. `joint` is the separator. */
export function shownPaths(files: { path: string }[], joint: string) {
    const more = files.length - MOST_PATHS;
    const names = files.slice(0, MOST_PATHS).map(({ path }) => shownName(path));
    return [...names, ...more > 0 ? [format(texts.andMore, { n: String(more) })] : []].join(joint);
}

/** A text as parts of the page, in which each of the names is isolated. */
function withNames(text: string, names: string[]): Child[] {
    const [name, ...others] = names.filter(it => it !== '').sort((a, b) => b.length - a.length);
    if (name === undefined) return [seen(text)];
    return text.split(name).flatMap((part, i) => i === 0 ? withNames(part, others) : [nameOf(name), ...withNames(part, others)]);
}

/** Turns a text into the first part of a new file's name. */
export function stemOf(text: string) {
    return text.replace(/[\p{C}\p{Zl}\p{Zp}/\\:*?"<>|]+/gu, ' ').replace(/\s+/g, ' ').trim();
}

export type Tone = 'good' | 'bad' | 'warn' | 'plain';

export function notice(tone: Tone, head: Child | Child[], ...rest: Child[]) {
    return element('div', { class: `say ${tone}`, role: tone === 'bad' ? 'alert' : 'status' }, element('b', {}, ...[head].flat()), ...rest);
}

/** The picture of a verdict, by its tone. */
const VERDICT_ICONS = { good: 'tick', bad: 'cross', warn: 'warn', plain: 'warn' };

/**
 * A verdict in one sentence, with its picture.
 * @param id if it is a status for screen readers
 */
export function verdictLine(tone: Tone, head: Child | Child[], id: string | null = null) {
    return element('p', { class: `verdict ${tone}-ink`, role: id && 'status', id }, icon(VERDICT_ICONS[tone]),
        element('span', {}, ...[head].flat()));
}

/**
 * Shows a notice above the panel or the player, or at the drop area of the start, until it is closed or replaced. A notice whose job runs
 * stays beside it.
 */
export function showNotice(tone: Tone, head: Child | Child[], ...rest: Child[]) {
    showWords(notice(tone, head, ...rest));
}

/** @param made a notice */
function showWords(made: HTMLElement) {
    const place = byId(byId('start').offsetParent === null ? 'messages' : 'start-message');
    const before = document.activeElement;
    const press = () => {
        clearNotices();
        focusAgain(before);
    };
    made.append(element('button', { type: 'button', class: 'btn slim bare cross away', 'aria-label': playerTexts.close, click: press },
        '×'));
    fill(place, ...busyNotices(place), made);
    place.hidden = false;
    made.scrollIntoView({ block: 'nearest' });
}

/**
 * Returns whether an image is being saved. If so, shows a notice that no image is opened or closed until that has ended.
 * @param names of the files that were to be opened
 * @param place beside the control that was pressed
 */
export function refuseWhileSaving({ saves }: App, names: string[] = [], place: HTMLElement | null = null) {
    if (saves === 0) return false;
    const isNew = names.length > 0;
    const head = isNew ? say(playerTexts.notOpened, { names: namesOf(names) }) : playerTexts.imageBeingSaved;
    const rest = isNew ? `${playerTexts.imageBeingSaved} ${playerTexts.againWhenEnded}` : playerTexts.againWhenEnded;
    endSavingNotices();
    const words = notice('warn', head, rest);
    words.classList.add('while-saving');
    if (place === null) showWords(words);
    else showMessageAt(place, words);
    return true;
}

/** Returns the focus to the element that had it before something was closed, or else to the visible heading. */
export function focusAgain(before: Element | null) {
    const isShown = before instanceof HTMLElement && before !== document.body && before.offsetParent !== null;
    const heading = [...document.querySelectorAll('h1')].find(it => it.offsetParent !== null);
    const target = isShown ? before : heading;
    if (target === heading) heading?.setAttribute('tabindex', '-1');
    target?.focus({ preventScroll: true });
}

/** Removes the notices about an image that was being saved. */
export function endSavingNotices() {
    document.querySelectorAll('.while-saving').forEach(it => it.remove());
    for (const id of ['messages', 'start-message']) byId(id).hidden = byId(id).childElementCount === 0;
}

/** The notices at a place whose jobs run. They stay until these end. */
function busyNotices(place: HTMLElement) {
    return [...place.children].filter(it => it.querySelector('.job-end') !== null);
}

/** Removes the notice of showNotice, unless its job runs. */
export function clearNotices() {
    for (const place of [byId('messages'), byId('start-message')]) {
        const busy = busyNotices(place);
        place.hidden = busy.length === 0;
        fill(place, ...busy);
    }
}

/**
 * A place for messages beside a control.
 * @param looks classes
 */
export function messageArea(looks: string = '') {
    return element('div', { class: `said stack ${looks}`.trim(), role: 'status' });
}

/** Shows a message at a place, and scrolls it into view. */
export function showMessageAt(place: HTMLElement, words: HTMLElement) {
    fill(place, words);
    words.scrollIntoView({ block: 'nearest' });
}

/** Removes all messages about earlier actions. */
export function endMessages() {
    clearNotices();
    document.querySelectorAll('.said').forEach(place => fill(place));
}

/** Shows an error. The messages of our own errors already say what to do. */
export function showFailure(error: unknown, rest: string = '') {
    if (failedBy(error, 'disc/missing-files')) {
        const { sheet, names } = error.facts;
        return showNotice('bad', say(playerTexts.alsoNeeds, { sheet: nameOf(sheet), names: namesOf(names) }), playerTexts.openAllTogether);
    }
    const text = messageOf(error);
    const [, first, after] = /^(.*?[.!?])\s+(.*)$/s.exec(text) || ['', text, ''];
    return showNotice('bad', first, [after, rest].filter(it => it !== '').join(' '));
}

/** The maximum number of characters shown of a message: some messages contain lines of a stranger's cue sheet. */
const MOST_MESSAGE = 1000;

function errorWords(error: unknown) {
    if (failedBy(error, 'disc/missing-files')) {
        const { sheet, names } = error.facts;
        return `${format(playerTexts.alsoNeeds, { sheet, names: names.join(', ') })} ${playerTexts.openAllTogether}`;
    }
    if (failedBy(error, 'image-ended')) return playerTexts.fileIsShorter;
    if (failedBy(error, 'no-memory')) return playerTexts.noMemoryLeft;
    const other = error instanceof Error ? error.message : String(error);
    const message = error instanceof Fault ? remarkText(error) : other;
    return message.length > MOST_MESSAGE ? `${message.slice(0, MOST_MESSAGE)}…` : message;
}

export function messageOf(error: unknown) {
    return seen(errorWords(error));
}

/** The message of an error about files with these names, as parts of the page. It has a capital letter unless it begins with a name. */
export function messageParts(error: unknown, names: string[]) {
    const text = errorWords(error);
    const all = failedBy(error, 'disc/other-file') ? [...names, error.facts.name] : names;
    const begins = all.some(name => name !== '' && text.startsWith(name));
    return withNames(begins ? text : capital(text), all);
}

/** The message of an error with a capital letter. */
export function sentence(error: unknown) {
    return capital(messageOf(error));
}

export function isCancelled(error: unknown) {
    return failedBy(error, 'cancelled');
}

/**
 * The notice about a job that was cancelled or has failed.
 * @param failure what was not done
 * @param names of the files that the error may name
 */
export function failureNotice(error: unknown, failure: string, names: string[] = []) {
    return isCancelled(error) ? notice('plain', texts.discJobCancelled, failure) : notice('bad', failure, ...messageParts(error, names));
}

/** A command with a button that copies it. */
export function copyable(text: string) {
    const copy = copyButton('slim', () => text, 'Copy the command');
    return [element('p', { class: 'line-out' }, text), element('div', { class: 'row' }, copy)];
}
