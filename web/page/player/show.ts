// Shows a patcher as players see it, until they open it in the full page.

import { kindOfFile } from '../../core/disc/views.js';
import { isScript } from '../../core/script/views.js';
import type { App } from '../app/index.js';
import { changeBase, fileReader } from '../open/index.js';
import { LANGUAGES, current, format, knownLanguage, playerTexts as texts, say, setLanguage } from '../texts/index.js';
import type { Language } from '../texts/language.js';
import {
    button, byId, clearNotices, element, fill, messageArea, nameOf, notice, refuseWhileSaving, seenTitle, sentence, setAttribute,
    showNotice, stemOf, type Child,
} from '../ui/index.js';
import { comparedWithPage, ownData, pageSource, readPatcherText, type PatcherData } from './patcher.js';
import { Player } from './player.js';

/** A note on the file of the patcher, and a function that goes back to the panel that showed it, or null. */
type PlayerHow = { note: () => Child, back: (() => void) | null };

/** Shows the frame of the full page, which is in English, or of a patcher. */
function showFrame(language: Language, isPatcher: boolean) {
    setLanguage(language, isPatcher);
    document.documentElement.lang = current.tag;
    document.body.classList.toggle('player', isPatcher);
    (byId('home').lastChild as Text).data = isPatcher ? texts.playerPatcherMadeWith : 'cdpatch';
    fill(byId('skip'), texts.playerSkipToPanel);
    fill(byId('open-about'), texts.playerAbout);
}

/** The list of the languages, each by its own name. */
function languageChoice(use: (language: Language) => void) {
    const choice: HTMLSelectElement = element('select', { class: 'slim', id: 'player-language', change: () =>
        use(choice.value as Language) },
        ...LANGUAGES.map(([value, label]) => element('option', { value, lang: value }, label)));
    return choice;
}

/** Gives the focus to the main button of a place. */
function focusMain(place: HTMLElement) {
    const main: HTMLElement | null = place.querySelector('.btn.main');
    if (main) main.focus({ preventScroll: true });
}

/** Opens the script of a patcher in the panels. */
function openScript(app: App, data: PatcherData) {
    app.workOn(data);
    app.setScript(data.script, `${stemOf(data.title) || 'script'}.txt`, true);
}

/** Shows a patcher as players see it, in place of the panels. The language is the author's choice, or else the browser's. */
export function showPlayer(app: App, data: PatcherData, how: PlayerHow) {
    const place = byId('player');
    const before = document.activeElement as HTMLElement;
    const player = new Player(app, data);
    const giveBack = app.serve({ open: files => player.open(files), dropSays: () => [texts.playerDropToBeChecked] });
    const refused = messageArea();
    const leave = async (full: boolean) => {
        // A save in the panels continues meanwhile, and can be cancelled only there.
        if ((full || player.saving) && refuseWhileSaving(app, [], refused)) return undefined;
        player.stop();
        giveBack();
        showFrame('en', false);
        document.title = 'cdpatch';
        fill(place);
        if (!full && how.back) {
            how.back();
            return before.focus();
        }
        if (how.back === null) openScript(app, data);
        app.showPanel('script');
        byId('tab-script').focus({ preventScroll: true });
        if (player.files.length > 0) await app.open(player.files);
        return player.base !== null && app.image && app.image.base !== player.base ? changeBase(app, player.base) : undefined;
    };
    const choice = languageChoice(language => use(language));
    const use = (language: Language) => {
        showFrame(language, true);
        choice.value = language;
        setAttribute(choice, 'aria-label', texts.playerLanguage);
        const back = how.back && button('slim', () => void leave(false), texts.playerBackToPublish);
        fill(place, back, choice, how.note(), ...player.parts(), element('p', { class: 'row center' },
            button('slim bare away', () => void leave(true), texts.playerOpenInFullCdpatch)), refused);
    };
    use(data.language || knownLanguage(navigator.languages));
    document.title = seenTitle(data.title);
    focusMain(place);
    window.scrollTo(0, 0);
}

// Opens patchers: this page, if data follow its last tag, or a file that is dropped on it.

type Compared = ReturnType<typeof comparedWithPage>;

const LARGEST_PATCHER = 1 << 28;
/** How many bytes of a file are searched for the marks of a page, if its name is not that of one. */
const PAGE_START = 1 << 16;
const PAGE_NAME = /\.(?:[xsd]?html?|xht|svgz?|mht|mhtml|xml)$/i;
const PAGE_MARK = /<script\b|<!doctype html|<html\b|<plaintext hidden id="data">/i;
/** Kinds of files that no browser opens as a page, whatever they contain. */
const IMAGES = ['raw', 'iso', 'subchannels', 'wave'];

export async function mountPatchers(app: App) {
    app.addTaker(file => takePatcher(app, file));
    await wholeDocument();
    const text = ownData();
    if (text.trim() === '') return;
    setLanguage(knownLanguage(navigator.languages));
    try {
        showPlayer(app, await readPatcherText(app.calls, text), { note: () => null, back: null });
    } catch (error) {
        showNotice('bad', texts.playerPatcherUnusable, format(texts.playerGetPatcherAgain, { fault: sentence(error) }));
        setLanguage('en', false);
    }
}

/** Waits until the browser has loaded all of this page: the data of a patcher follow the script, and arrive later. */
async function wholeDocument() {
    if (document.readyState !== 'loading') return;
    showNotice('plain', texts.playerPageStillLoading, texts.playerOpensIfPatcher);
    await new Promise(done => document.addEventListener('DOMContentLoaded', done, { once: true }));
    clearNotices();
}

/** Accepts a file that is a page, and returns whether it is one. A patcher is compared with this page, and only its data are read. */
async function takePatcher(app: App, file: File) {
    if (!await isPage(app, file)) return false;
    if (refuseWhileSaving(app, [file.name])) return true;
    const compared = file.size > LARGEST_PATCHER ? null : comparedWithPage(new Uint8Array(await file.arrayBuffer()), pageSource(app.calls));
    if (compared === null) showNotice('bad', say(texts.playerNotThisCdpatch, { name: nameOf(file.name) }), texts.playerPageButNoPatcher);
    else if (compared.text.trim() === '') sayWithoutPatch(compared, nameOf(file.name));
    else await showCompared(app, compared, file);
    return true;
}

async function isPage(app: App, file: File) {
    if (PAGE_NAME.test(file.name)) return true;
    const bytes = new Uint8Array(await file.slice(0, PAGE_START).arrayBuffer());
    const text = new TextDecoder('latin1').decode(bytes).replaceAll('\0', '');
    return PAGE_MARK.test(text) && !isScript(app.calls, bytes) && !IMAGES.includes(await kindOfFile(app.calls, fileReader(file)));
}

/** @param name of the file */
function sayWithoutPatch({ same, text }: NonNullable<Compared>, name: HTMLElement) {
    if (same && text === '\n') return showNotice('good', say(texts.playerThisVeryPage, { name }), texts.playerHoldsNoPatch);
    if (same) return showNotice('warn', say(texts.playerThisPageAndSpace, { name }), texts.playerHoldsNoPatch);
    return showNotice('warn', say(texts.playerNotThisCdpatch, { name }),
        `${texts.playerOtherVersionOrChanged} ${texts.playerHoldsNoPatch}`);
}

async function showCompared(app: App, { same, text }: NonNullable<Compared>, file: File) {
    const name = nameOf(file.name);
    try {
        const data = await readPatcherText(app.calls, text);
        const note = () => same ? notice('good', say(texts.playerThisCdpatch, { name }),
            `${texts.playerOnlyPatchRead} ${texts.playerComparisonSaysNothing}`)
            : notice('warn', say(texts.playerNotThisCdpatch, { name }),
                `${texts.playerOtherVersionOrChanged} ${texts.playerOnlyPatchReadHere}`);
        showPlayer(app, data, { note: () => element('div', { id: 'compared' }, note()), back: null });
    } catch (error) {
        showNotice('bad', say(texts.playerPatcherFileUnusable, { name }), `${sentence(error)}.`);
    }
}
