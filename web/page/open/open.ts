// Opens files, and uses each according to its kind.

import { readBytes } from '../../core/bytes.js';
import { knownFiles, openKnown, sheetsOf, type Disc, type DiscFile, type KnownFile, type Sheet } from '../../core/disc/views.js';
import { encodingOf, textOfFile } from '../../core/encodings/views.js';
import { Fault, failedBy } from '../../core/faults.js';
import { MOST_SCRIPT_BYTES, SECTOR_KIND, SECTOR_SIZE, sectorCount } from '../../core/module/index.js';
import { isMeantAsScript, isScript, modelInParts } from '../../core/script/views.js';
import { OpenedTrack, commonPart, isConvertible, isSameRange, openPlainFile, openTrack, trackBeside } from '../../core/tasks/index.js';
import { isLong, type Aim, type App, type Image, type PairJob, type Taken } from '../app/index.js';
import { format, playerTexts, remarkText, say } from '../texts/index.js';
import {
    askUser, button, byId, copyable, element, endMessages, fill, messageParts, nameOf, namesOf, nextTurn, refuseWhileSaving, showFailure,
    showNotice, type Child,
} from '../ui/index.js';
import { exampleFile, mountChoosing } from './choosing.js';
import { countedAs, discFileOf, fileOf, fileReader, isSameFile, readImage } from './reading.js';
import * as texts from '../texts/index.js';

// Recognises several discs among files that are opened together. They are listed.

/** As many discs can be opened at once: an image, and a second one. */
const MOST_OPENED = 2;

/** Those of some files that the readings of a cue sheet may name. The core chooses among them. */
export function filesNamedBy<T extends { name: string }>(readings: Sheet[], files: T[]) {
    const last = (path: string) => path.replace(/^.*[/\\]/, '').toLowerCase();
    const named = new Set(readings.flatMap(it => it.files.map(({ name }) => last(name))));
    return files.filter(({ name }) => named.has(name.toLowerCase()));
}

/**
 * Whether files are several cue sheets, or more discs than can be opened. A disc is a cue sheet with its files, or an image without one.
 * Also returns whether they are two images that are opened together. Throws a Fault, `cue`.
 */
function discsAmong(files: KnownFile[]) {
    const sheets = files.flatMap(({ kind, sheet }) => kind === 'cue' && sheet !== null ? [sheet] : []);
    const named = sheets.length === 1 ? filesNamedBy(sheetsOf(sheets[0]), files.map(({ file }) => file)) : [];
    const images = files.filter(({ file, kind }) => ['raw', 'audio'].includes(kind) && !named.includes(file));
    return { areMany: sheets.length > 1 || sheets.length + images.length > MOST_OPENED,
        areTwo: files.length === 2 && files.every(({ kind }) => kind === 'raw') };
}

// Asks what to do with a second image. Before the answer, only its kind is read.

/** Asks what to do with a second image, unless the aim already says it, and does it. */
async function takeSecond(app: App, given: Image, aim: Aim) {
    const { image } = app;
    if (image === null) return;
    const second = countedAs(given, trackBeside(image.opened, given.opened));
    const words = whyNoPair(image, second);
    const isAimed = (aim === 'repair' || aim === 'compare') && words.length === 0;
    const answer = isAimed ? aim : await askFor(app, image, second, words);
    if (answer === '' || app.image !== image || refuseWhileSaving(app, [second.name])) return;
    if (answer === 'instead') readImage(app, given, () => app.showPanel('disc'));
    else if (answer === 'swap') swapImages(app, second);
    else {
        app.showPanel('disc');
        app.setSecond(second, answer);
    }
}

/** Opens a second image in place of the open one, and repairs it from that one. */
export function swapImages(app: App, second: Image) {
    const { image } = app;
    readImage(app, second, () => {
        app.showPanel('disc');
        app.setSecond(image, 'repair');
    });
}

function askFor({ survey }: App, image: Image, second: Image, words: Child[]) {
    const jobs: [PairJob | 'swap' | 'instead', Child[]][] =
        [['repair', say('Repair the open {name} with this file', { name: nameOf(image.name) })],
        ['swap', say(texts.openRepairOtherFrom, { name: nameOf(second.name), other: nameOf(image.name) })],
        ['compare', [texts.openCompareIt]], ['instead', [texts.openItInstead]]];
    const isDamaged = survey !== null && survey.verdict !== null && survey.verdict.canRepair;
    const { from, to } = commonPart(image, second);
    const isUntested = survey !== null && survey.over && survey.marks.tested() === 0; // so that it can neither be repaired nor repair
    const canRepair = from < to && !isSameImage(image, second) && !isUntested;
    const isPossible = { repair: canRepair, swap: canRepair, compare: isSameRange(image, second), instead: true };
    const possible = jobs.filter(([job]) => isPossible[job]);
    const other = isPossible.compare ? 'compare' : 'instead';
    const main = isPossible.repair && isDamaged ? 'repair' : other;
    return askUser(say('What do you want to do with {name}?', { name: nameOf(second.name) }), words, possible, main);
}

/** Whether two images are the same file, opened twice. */
function isSameImage(image: Image, second: Image) {
    const [file, other] = [image, second].map(({ reader }) => fileOf(reader));
    return Boolean(file && other && isSameFile(file, other));
}

/** The reasons why a second image does not match; none if it can be another dump of the disc. */
function whyNoPair(image: Image, second: Image): Child[] {
    if (isSameImage(image, second)) return ['This is the image that is already open.'];
    if (isSameRange(image, second)) return [];
    const { from, to, later } = commonPart(image, second);
    const name = nameOf(image.name);
    const more = second.sectors - image.sectors;
    if (from === to) return say(texts.openIsAnotherPart, { name });
    const sectors = more > 0 ? 'It has {n} sector more than {name}.|It has {n} sectors more than {name}.'
        : 'It has {n} sector fewer than {name}.|It has {n} sectors fewer than {name}.';
    const length = more === 0 ? 'The bytes after its last sector differ from those of {name}.' : sectors;
    const shift = later > 0
        ? 'It is shifted: it begins {n} sector later than {name}.|It is shifted: it begins {n} sectors later than {name}.'
        : 'It is shifted: it begins {n} sector earlier than {name}.|It is shifted: it begins {n} sectors earlier than {name}.';
    return [...say(later === 0 ? length : shift, { name, n: Math.abs(later || more) }),
        ' A repair uses the blocks that both images have. A comparison needs two images with the same blocks.'];
}

const SCRIPT_START = 1 << 16;

/** The kinds of files that may be those of a game. */
const PLAIN = ['unknown', 'text'];

/** A file whose use waits for an image. */
type Waiting = Taken & { name: string };

export function mountOpening(app: App) {
    const waiting: Waiting[] = [];
    app.serve({ open: (files, aim) => openFiles(app, files, aim, waiting) });
    mountChoosing(app);
    const example = element('button', { type: 'button', class: 'plain-link', id: 'open-example',
        click: () => app.open([exampleFile(app.calls)]) }, 'try it with a small example disc');
    fill(byId('example'), ...say('or {example} that has some damage and the Japanese text {text}',
        { example, text: element('span', { lang: 'ja' }, 'スタート') }));
}

/** @param waiting files that were opened before an image */
async function openFiles(app: App, files: File[], aim: Aim, waiting: Waiting[]) {
    if (files.length === 0) return;
    endMessages();
    const { services, image } = app;
    const known: KnownFile[] = [];
    try {
        const kinds: string[] = [];
        const earlier = new Set(waiting);
        for (const file of files) kinds.push(await takenAs(app, file, waiting));
        const others = files.filter((_, i) => kinds[i] === '');
        // A patcher among them is now shown in place of the panels, and gets the image.
        if (app.services !== services) return await app.open(others);
        known.push(...await knownFiles(app.calls, others.map(discFileOf)));
        const { sheet, second } = others.length === 0 ? NOTHING : await openImages(app, others, known);
        showNext(app, aim, kinds.includes('script'), image === null);
        sayLeftOut(known, sheet);
        if (second !== null) await takeSecond(app, second, aim);
        await useWaiting(app, waiting);
        if (waiting.some(it => !earlier.has(it))) sayWaiting(app, waiting);
    } catch (error) {
        showOpeningFailure(app, files, known, error);
    }
    return undefined;
}

/** Uses the files that need not wait any more. A list of known dumps reports itself what it waits for. */
async function useWaiting(app: App, waiting: Waiting[]) {
    const ready = waiting.filter(it => app.opened !== null || !it.needsImage);
    for (const it of ready) {
        waiting.splice(waiting.indexOf(it), 1);
        await it.use();
    }
}

/** Reports which files wait for an image. */
function sayWaiting(app: App, waiting: Waiting[]) {
    const names = namesOf(waiting.map(({ name }) => name));
    const n = waiting.length;
    showNotice('plain', say('{names}: open the disc image that it is for.|{names}: open the disc image that they are for.', { names, n }),
        format('It is used as soon as the image is open.|They are used as soon as the image is open.', { n }),
        element('div', { class: 'row' }, button('slim', () => app.choose(''), texts.scriptOpenTheImage)));
}

/**
 * Shows the panel with the next step: for a script and its image the check, else the step of a job.
 * @param script whether a script was opened
 * @param image whether the image, if there is one, was opened now
 */
function showNext(app: App, aim: Aim, script: boolean, image: boolean) {
    if (app.image === null || !(script || image)) return;
    if (aim === 'translate') {
        app.showPanel('text');
        byId('find-text').focus();
    } else if (['', 'play'].includes(aim) && (script || !app.script.isNew())) app.checkScript();
    else if (aim === 'play') app.showPanel('script');
    else {
        app.showPanel('disc');
        byId('map').focus();
    }
}

/** Accepts a file that is not an image. Returns whether it is a script or something other than an image, or '' if it may be an image. */
async function takenAs(app: App, file: File, waiting: Waiting[]): Promise<'script' | 'other' | ''> {
    for (const take of app.takers) {
        const taken = await take(file);
        const again = waiting.findIndex(({ name }) => name === file.name);
        if (taken && again >= 0) waiting.splice(again, 1);
        if (taken instanceof Object) waiting.push({ ...taken, name: file.name });
        if (taken) return 'other';
    }
    const start = file.size > MOST_SCRIPT_BYTES ? new Uint8Array(0) : await fileReader(file).read(0, SCRIPT_START);
    // A file that begins with a sector is not a text, and reading it as one takes long.
    if (start.length >= SECTOR_SIZE && app.calls.kind(start.subarray(0, SECTOR_SIZE)) !== SECTOR_KIND.NOSYNC) return '';
    const text = new TextEncoder().encode(textOfFile(start));
    if (!isScript(app.calls, text) && !isMeantAsScript(app.calls, text)) return '';
    // The program does not read a text with a byte order mark, so that the text in the editor is not in a file yet.
    const marked = MARKS.find(({ bytes }) => bytes.every((byte, i) => byte === start[i]));
    const whole = textOfFile(await readBytes(fileReader(file), 0, file.size));
    const known = isLong(whole) ? null : await modelInParts(app.calls, whole, nextTurn);
    await nextTurn();
    encodingOf(app.encoding)?.text(new Uint8Array(0)); // building its table takes as long as drawing lines with their texts
    await nextTurn();
    app.setScript(whole, file.name, !marked, known);
    app.showPanel('script');
    if (marked) {
        showNotice('warn', say('This file is {encoding}, which the command cdpatch cannot read: {name}',
            { encoding: marked.name, name: nameOf(file.name) }),
            'This page can read it.', element('div', { class: 'row' }, button('slim', () => {
                endMessages();
                app.services.saveScript();
            }, 'Save it as plain UTF-8')));
    }
    return 'script';
}

/** The byte order marks by which editors mark the encoding of a text. */
const MARKS = [{ name: 'UTF-8 with a byte order mark (BOM)', bytes: [0xEF, 0xBB, 0xBF] }, { name: 'UTF-16', bytes: [0xFF, 0xFE] },
    { name: 'UTF-16', bytes: [0xFE, 0xFF] }];

/** The result if no image was opened from a cue sheet, nor as a second one. */
const NOTHING = { sheet: null as Image | null, second: null as Image | null };

/**
 * Opens an image, or two. Returns a single image as `sheet`, since it may come from a cue sheet, and the image beside the open one as
 * `second`.
 * @param known the same files
 */
async function openImages(app: App, files: File[], known: KnownFile[]) {
    const names = files.map(file => file.name);
    if (refuseWhileSaving(app, names)) return NOTHING;
    if (app.plain !== null) throw new Fault('disc/own', { sentence: format('{name} is open. Save and close it first.',
        { name: app.plain.name }) });
    const different = new Set(names.map(name => name.toLowerCase())).size;
    if (different < names.length) throw new Fault('disc/own', { sentence: 'Two of these files have the same name. Open only one.' });
    const { areMany, areTwo: two } = discsAmong(known);
    if (areMany) {
        app.services.list(files);
        return NOTHING;
    }
    if (two && app.image !== null) {
        const [one, other] = names;
        throw new Fault('disc/own', { sentence: format('An image is open already: {name}. Open one more, {one} or {other}, to compare it.',
            { name: app.image.name, one, other }) });
    }
    const images = [];
    for (const group of two ? known.map(it => [it]) : [known]) images.push(imageOfTrack(await openKnown(app.calls, group), null));
    const sheet = two ? null : images[0];
    if (app.image === null) readImage(app, images.shift() || null);
    return { sheet, second: images[0] || null };
}

/** Reports which files were left out, since the cue sheet that was opened does not name them, and what to do with those of other kinds. */
function sayLeftOut(files: KnownFile[], image: Image | null) {
    if (image === null || image.from === '') return;
    const taken = [image.from, ...image.disc.files.map(({ name }) => name)];
    const left = files.filter(({ file }) => !taken.includes(file.name));
    if (left.length === 0) return;
    const advices = left.filter(({ kind }) => !['raw', 'audio', 'cue', ...PLAIN].includes(kind)).map(({ file: { name }, kind }) =>
        element('p', {}, remarkText({ code: 'disc/other-file', facts: { name, kind } })));
    showNotice('warn', say(playerTexts.notOpened, { names: namesOf(left.map(({ file }) => file.name)) }),
        ...say('The cue sheet does not name it: {sheet}.|The cue sheet does not name them: {sheet}.',
            { n: left.length, sheet: nameOf(image.from) }), ...advices);
}

/**
 * The image that contains a track of a disc: the track of the given number, or the first with data; on an audio disc, the first that is
 * open.
 * @param renamed those of its files that were saved patched, with their new names
 */
export function imageOfTrack(disc: Disc, number: number | null, renamed: Map<string, string> = new Map()): Image {
    const audio = number === null ? audioTrack(disc) : null;
    const opened = audio === null ? openTrack(disc, { track: number }) : new OpenedTrack(disc, audio);
    const { image, part, track } = opened;
    const { sheet, sheetText } = disc;
    return { ...image, opened, part, from: sheet || '', sheet: sheetText, disc, number: track.number, sha1: '', crc32: '', renamed };
}

/** The first track with bytes of a disc that has no data, to be inspected; null for other discs. */
function audioTrack({ files, tracks }: Disc) {
    const track = tracks.find(it => it.file >= 0 && it.sectors !== null);
    if (!track || tracks.some(it => it.image !== null || !['', 'AUDIO'].includes(it.type))) return null;
    const { name, reader } = files[track.file];
    const image = { name, reader, base: 0, addressed: null, sectors: sectorCount(reader.size), tail: reader.size % SECTOR_SIZE };
    return { ...track, image, part: image };
}

/**
 * Reports why files were not opened, and how to convert one of them to a raw image: here, or a CHD by a command.
 * @param known those of them that may be images, as far as they were read
 */
function showOpeningFailure(app: App, files: File[], known: KnownFile[], error: unknown) {
    const other = failedBy(error, 'disc') ? known.find(({ kind }) => kind === 'chd' || isConvertible(kind)) : undefined;
    if (other && isConvertible(other.kind)) return app.services.convert(other.file, other.kind);
    if (other) {
        const { name } = other.file;
        return showNotice('bad', say('A compressed image (CHD), which cdpatch cannot read: {name}', { name: nameOf(name) }),
            'Convert it to a raw image first, in a terminal. Then open the new .cue and .bin here.', ...commandFor(name));
    }
    if (failedBy(error, 'disc/missing-files')) return showFailure(error);
    const names = [...files.map(file => file.name), app.opened ? app.opened.name : ''];
    const [plain] = failedBy(error, 'disc/other-file') && known.length === 1 ? known.filter(({ kind }) => PLAIN.includes(kind)) : [];
    if (plain) {
        return showNotice('plain', say('{name} is not a disc image.', { name: nameOf(plain.file.name) }),
            'To open a disc, choose a raw image, 2352 bytes per sector, or its cue sheet.',
            translateRow(app, plain.file));
    }
    return showNotice('bad', playerTexts.openNotOpenedYet, ...messageParts(error, names));
}

/** The button that opens an ordinary file for the translation of its texts. */
function translateRow(app: App, file: DiscFile) {
    const open = async () => {
        await app.services.close();
        if (app.opened !== null) return;
        endMessages();
        app.openPlain({ ...file, opened: openPlainFile(file) });
        app.showPanel('text');
    };
    const label = app.opened === null ? 'Translate the texts in this file' : 'Close the disc, and translate the texts in this file';
    return element('div', { class: 'row' }, button('slim', open, label));
}

/** The command that converts a CHD to a raw image. It contains the file's name only if every shell reads that as nothing but a name. */
function commandFor(name: string) {
    const plain = /^[\p{L}\p{N}_(][\p{L}\p{N} ._()[\]-]*$/u.test(name);
    return [!plain && element('p', {}, 'Rename it to disc.chd before that: a terminal may read a part of its name as a command.'),
        ...copyable(`chdman extractcd -i "${plain ? name : 'disc.chd'}" -o disc.cue -ob disc.bin`)];
}
