// The frame around the panels: the tabs, the notes, and the keys that work everywhere.

import { PANELS, inflatedText, sha256Of, type App, type PanelName } from '../app/index.js';
import { ownData, pageSource } from '../player/index.js';
import { current, format, playerTexts, say } from '../texts/index.js';
import {
    byId, element, endMessages, endSavingNotices, escapeJob, fill, hashParts, keysIn, messageOf, mountMenus, oneTabStop, setAttribute,
    type Child,
} from '../ui/index.js';
import * as texts from '../texts/index.js';

// The notes that are opened from the bar and the footer: About, with what is proved, the keys, and the words.

export function mountHelp(app: App) {
    const { made } = app.parts;
    const name = `cdpatch ${app.calls.version()}`;
    fill(byId('version'), name);
    fill(byId('keys'), element('b', {}, texts.frameKeys), element('dl', { class: 'keys' }, ...texts.KEYS.flatMap(keyRow)));
    fill(byId('words'), element('b', {}, texts.frameWordsUsed), element('dl', { class: 'keys' }, ...wordRows()));
    fill(byId('about'), element('b', {}, name),
        ...paragraphs('cdpatch applies patches to raw CD images, helps to translate discs, and finds and repairs damaged sectors.',
            'This page is a single file. It makes no network connections, sends nothing, and works offline: save it where you like.',
            'Players see a patcher in English, Spanish, Brazilian Portuguese, French, German, or Italian. No native speaker has read the ' +
            'five translations yet.', 'Tested in Chromium 156, Firefox ESR 153, and WebKitGTK 2.50, the engine of Safari. Chrome and ' +
            'Edge write a patched image straight to the file that you choose; other browsers save it to the download folder.',
            ...made.length === 0 ? [] : [format('Made with {tools}. With the same sources these tools produce exactly the same file.',
                { tools: made.join(', ') })]),
        ownHash(app), whatIsProved(), notices());
    for (const note of document.querySelectorAll('[popover]')) {
        setAttribute(note, 'aria-label', note.children[0].textContent);
        note.prepend(closing(note));
    }
    if ('popover' in HTMLElement.prototype) keepTouches();
}

/** The button that closes a note, in the current language. */
function closing(note: Element) {
    const shut = element('button', { type: 'button', class: 'btn slim bare shut', popovertarget: note.id, popovertargetaction: 'hide' },
        playerTexts.close);
    note.addEventListener('beforetoggle', () => {
        fill(shut, playerTexts.close);
        setAttribute(shut, 'lang', current.tag);
    });
    return shut;
}

/** Makes a touch beside an open note close it without pressing anything there. */
function keepTouches() {
    let closes = false;
    document.addEventListener('pointerdown', ({ pointerType, target }) => {
        const note = document.querySelector(':popover-open');
        closes = pointerType === 'touch' && note !== null && !note.contains(target as Node);
    }, true);
    document.addEventListener('click', event => {
        if (!closes) return;
        closes = false;
        event.preventDefault();
        event.stopPropagation();
    }, true);
}

function paragraphs(...all: string[]) {
    return all.map(text => element('p', {}, text));
}

function keyRow([keys, does]: string[]) {
    if (keys === '') return [element('dt', { class: 'part' }, element('b', {}, does)), element('dd')];
    return [element('dt', {}, ...keysIn(keys)), element('dd', {}, does)];
}

/** The words of the page. Words that also have their own note come last, with the text of the note. */
function wordRows() {
    const notes = [...document.querySelectorAll('[popover][id^="term-"]')].map(note => [...note.children].map(it => it.textContent));
    return [...texts.WORDS, ...notes].flatMap(([name, text]) =>
        [element('dt', {}, element('b', {}, name)), element('dd', {}, text)]);
}

/**
 * The SHA-256 of this page, and how to check it. It is calculated when About is first opened. The file of a patcher has a different
 * SHA-256, so its players are asked to compare the programs.
 */
function ownHash(app: App) {
    const digits = element('span', { class: 'mono small', id: 'page-sha256' });
    const advice = element('span');
    byId('about').addEventListener('beforetoggle', () => {
        const isPatcher = ownData().trim() !== '';
        fill(advice, isPatcher ? playerTexts.playerHowToTrustIt : texts.framePageSaysItself);
        setAttribute(advice, 'lang', isPatcher ? current.tag : null);
    });
    byId('about').addEventListener('toggle', async () => {
        if (digits.textContent !== '') return;
        digits.textContent = '…';
        fill(digits, ...await ownDigits(app));
    });
    return element('p', {}, ...say('SHA-256 of this page (not counting a patcher’s patch): {digits}', { digits }), element('br'), advice);
}

async function ownDigits({ calls }: App): Promise<Child[]> {
    try {
        const sha256 = await sha256Of(new TextEncoder().encode(pageSource(calls)));
        return sha256 === '' ? ['not known: browsers calculate it only for a page opened from a disk or over https.'] : hashParts(sha256);
    } catch (error) {
        return [messageOf(error)];
    }
}

/** What is proved, and what is only tested. */
function whatIsProved() {
    return element('details', { id: 'proved' }, element('summary', {}, 'What is proved, and what is not'),
        ...paragraphs(texts.frameProvedCode, 'The module also reads scripts and tests Mode 1 sectors. JavaScript opens the files, moves ' +
            'the bytes, copies whole sectors, adds up the counts, and draws. Both are tested against the program cdpatch, byte for byte. ' +
            'You still have to trust the compiler and your browser.',
            'Before you see a script made from two images or from translations, or an undo script, the module has applied it, and the ' +
            'result was exactly as intended. The JavaScript tests Mode 2 sectors. That a sector in a data track has lost its sync field ' +
            'or mode byte is only its guess.'));
}

/** The third-party notices of the crates in the module. */
function notices() {
    const text = element('pre', { class: 'notices', tabindex: 0, 'aria-label': 'Notices' });
    const part = element('details', {}, element('summary', {}, 'Third-party notices'), text);
    part.addEventListener('toggle', async () => {
        if (text.textContent === '') text.textContent = await inflatedText(typeof JOINED === 'undefined' ? '' : JOINED.notices);
    });
    return part;
}

const HEADINGS: Record<PanelName, string> = { disc: texts.frameDiscTab, text: texts.frameTextTab, script: texts.frameScriptTab,
    publish: texts.framePublishTab };

export function mountFrame(app: App) {
    mountMenus();
    oneTabStop(byId('tabs'), '[role=tab]:not([hidden])', tab => app.showPanel(PANELS.find(name => tab.id === `tab-${name}`) || 'disc'));
    for (const name of PANELS) byId(`tab-${name}`).addEventListener('click', () => app.showPanel(name));
    const frame = { started: false, panel: app.panel };
    app.on('saved', endSavingNotices);
    app.on('closed', () => { frame.started = false; });
    for (const name of (['panel', 'image', 'plain', 'listed'] as const)) app.on(name, () => showPanels(app, frame));
    app.on('panel', () => panelComes(app, frame));
    byId('home').addEventListener('click', () => app.showPanel('disc'));
    document.addEventListener('keydown', pressed);
}

/**
 * Removes the messages of the previous panel, and scrolls to the top of the new one unless that is in view. If the previous panel had the
 * focus, the tab of the new one gets it.
 */
function panelComes({ panel }: App, frame: { panel: PanelName }) {
    if (panel === frame.panel) return;
    frame.panel = panel;
    endMessages();
    const part = byId(`panel-${panel}`);
    if (part.getBoundingClientRect().top < 0) part.scrollIntoView();
    if (document.activeElement?.closest('.panel[hidden]')) byId(`tab-${panel}`).focus({ preventScroll: true });
}

/**
 * Shows the chosen panel under its heading for screen readers. Without an open image, the list of files or the start, which has a heading
 * of its own, is shown instead of the Disc panel, and instead of any panel until there has been a script or an image.
 */
function showPanels(app: App, frame: { started: boolean }) {
    frame.started = frame.started || app.opened !== null || !app.script.isNew() || app.script.name !== '';
    const { started } = frame;
    const isListed = !byId('list').hidden;
    byId('start').hidden = app.image !== null || isListed || (started && app.panel !== 'disc');
    byId('heading').hidden = !byId('start').hidden;
    byId('heading').textContent = isListed && app.image === null ? texts.listTitle : HEADINGS[app.panel];
    byId('tabs').hidden = !started;
    byId('open-other').hidden = !started && !isListed;
    byId('disc-line').hidden = app.image === null;
    for (const name of PANELS) {
        const shown = started && name === app.panel && (name !== 'disc' || app.image !== null);
        byId(`panel-${name}`).hidden = !shown;
        setAttribute(byId(`tab-${name}`), 'aria-selected', String(name === app.panel));
        byId(`tab-${name}`).tabIndex = name === app.panel ? 0 : -1;
        byId(`tab-${name}`).hidden = !isUseful(app, name);
    }
}

/** Whether a panel has anything to do with what is open. An ordinary file has only texts, and the script beside it if there is one. */
function isUseful({ plain, script }: App, name: PanelName) {
    return plain === null || name === 'text' || (name === 'script' && !(script.isNew() && script.name === ''));
}

function pressed(event: KeyboardEvent) {
    if (event.defaultPrevented) return;
    if (event.key === 'Escape' && !isNoteOpen() && escapeJob(document.activeElement)) event.preventDefault();
    if (event.key === 'F6') {
        event.preventDefault();
        focusNextCard(event.shiftKey ? -1 : 1);
    }
}

/** Whether a note is open. A browser without popovers does not know the selector. */
function isNoteOpen() {
    return 'popover' in HTMLElement.prototype && document.querySelector(':popover-open') !== null;
}

/** Moves the focus to the first control of the next card, or of the previous one. */
function focusNextCard(step: number) {
    const cards = ([...document.querySelectorAll('#bar, main .jobs, main .card, main .drop, footer')] as HTMLElement[])
        .filter(card => card.offsetParent !== null && firstStop(card) !== null);
    const at = cards.findIndex(card => card.contains(document.activeElement));
    const next = cards[(at + step + cards.length) % cards.length];
    const stop = next && firstStop(next);
    if (stop) stop.focus();
}

function firstStop(card: HTMLElement): HTMLElement | null {
    const stops = [...card.querySelectorAll('button, input, select, textarea, a[href], [tabindex="0"]')] as HTMLElement[];
    return stops.find(it => it.tabIndex >= 0 && it.offsetParent !== null) || null;
}
