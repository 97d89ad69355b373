// The line about the open image above every panel. On the Disc panel it also has the verdict, or the progress of reading.

import { sheetOf, type Lack } from '../../core/disc/views.js';
import { LAST_BASE, SECTOR_SIZE } from '../../core/module/index.js';
import { endsEarlyByGaps, type Finding, type Verdict } from '../../core/tasks/index.js';
import { verdictText } from '../../sentences/index.js';
import { mode2Note, type App, type Image, type RunningJob, type Surveyed } from '../app/index.js';
import { dumpWords, otherBase, placesOf } from '../disc/index.js';
import { askToClose, changeBase, imageOfTrack, readImage } from '../open/index.js';
import { counted, format, playerTexts, say } from '../texts/index.js';
import {
    button, byId, capital, copyButton, element, fill, jobEnd, keyed, lostByClosing, megabytesDone, moreButton, nameOf, namesOf,
    refuseWhileSaving, seen, shownName, term, timeLeft, verdictLine, type Child, type Tone,
} from '../ui/index.js';
import * as texts from '../texts/index.js';

// Closes the open image or file, and discards all work on it.

/**
 * Closes the open image or ordinary file. If work would be lost, asks the user first, and offers to save it. Then asks about what is left.
 */
async function closeImage(app: App): Promise<void> {
    const { opened } = app;
    if (opened === null || refuseWhileSaving(app)) return undefined;
    const lost = lostByClosing();
    const answer = lost.length === 0 ? 'close' : await askToClose(opened.name, lost);
    if (answer === '' || app.opened !== opened) return undefined;
    if (answer === 'save') {
        for (const { save } of lost) await save?.();
        return app.opened === opened ? closeImage(app) : undefined;
    }
    app.close();
    return byId('open-files').focus();
}

// Describes the tracks of a disc, including audio tracks.

const MOST_NAMES = 3;

/**
 * The tracks in the cue sheet of an image, for example '1 data track, 1 audio track (t2.bin, not opened for editing)'.
 * @param image from a cue sheet
 */
function tracksInWords({ name, sheet, disc }: Image): Child[] {
    const { tracks, points, files } = sheetOf(sheet);
    const isAudio = ({ type }: { type: string }) => type === 'AUDIO' || type === 'CDG';
    const audio = tracks.filter(isAudio);
    const data = format('{n} data track|{n} data tracks', { n: tracks.length - audio.length });
    if (audio.length === 0) return [data];
    const own = audio.flatMap(track => points.filter(it => it.track === track && it.index === 1).map(it => files[it.file].name));
    const last = (path: string) => path.replace(/^.*[/\\]/, '').toLowerCase();
    const others = [...new Set(own)].filter(it => last(it) !== last(name));
    const few = namesOf(others.slice(0, MOST_NAMES));
    const more = others.length - MOST_NAMES;
    const missing = disc.tracks.some(({ file }) => file < 0);
    const absent = others.length === 1 ? '{names}, which is missing' : '{names}, not all of them here';
    const state = missing ? absent : '{names}, not opened for editing';
    const where = others.length === 0 ? 'in the same file'
        : say(state, { names: more > 0 ? say('{names} and {n} more', { names: few, n: more }) : few });
    return [tracks.length > audio.length && `${data}, `, ...say('{n} audio track ({where})|{n} audio tracks ({where})',
        { n: audio.length, where })];
}

// The verdict on the open image, with the next steps, or the progress of reading it.

/** The verdict, or the progress of reading. */
function leadOf(app: App): Child[] {
    const { survey, image } = app;
    if (survey === null || image === null) return [];
    if (survey.over && survey.known < image.sectors) {
        const percent = Math.floor(100 * survey.known / image.sectors);
        return [element('b', { class: 'warn-ink' }, format('Stopped at {percent} %.', { percent })),
            button('slim', () => readImage(app, { ...image }), 'Read it again')];
    }
    if (!survey.over) return progressOf(app, image, survey);
    if (survey.verdict === null) return [];
    const { tone, sentence, rest, buttons } = verdictOn(app, image, survey, survey.verdict);
    const gaps = survey.verdict.findings.flatMap(it => it.code === 'gap' ? it.gaps : []);
    const more = [rest, ...survey.lacks.map(lack => lackWords(lack, gaps))].filter(it => it !== '');
    const words = more.length > 0 && element('p', { class: 'small' }, ...more.flatMap(it => [it, ' ']));
    return [element('div', { class: 'stack tight' }, verdictLine(tone, sentence), words), element('div', { class: 'row' }, ...buttons)];
}

/** Says that a volume continues after the end of the image. `gaps` are the places before which sectors are missing or extra. */
function lackWords(lack: Lack, gaps: Finding['gaps']) {
    const { missing, file, isSure } = lack;
    const [first, last] = [String(missing.first), String(missing.last)];
    const looks = { class: isSure ? 'bad-ink' : 'warn-ink' };
    if (endsEarlyByGaps(lack, gaps)) return element('span', looks, format(
        'The volume continues to block {last}, and the image does not, because the sectors after the missing ones are at earlier blocks.',
        { last }));
    if (file !== '') return element('span', looks, ...say(
        'The image ends before block {first}, inside {file}. Its volume continues to block {last}.', { first, last, file: nameOf(file) }));
    return element('span', looks, isSure ? format(
        'The image ends before block {first}. Its volume continues to block {last}, and the sheet has one track.', { first, last })
        : format('The volume continues to block {last}: either the image is cut short, or the volume also counts other tracks or a pause.',
        { last }));
}

function percentOf({ known, mode2 }: Surveyed) {
    return Math.floor(100 * known / Math.max(mode2.length, 1));
}

function progressOf(app: App, { sectors, reader }: Image, survey: Surveyed): Child[] {
    const { known, began } = survey;
    const part = sectors === 0 ? 1 : known / sectors;
    const seconds = (performance.now() - began) / 1000;
    const bar = element('i');
    bar.style.width = `${100 * part}%`;
    const percent = percentOf(survey);
    const done = known * SECTOR_SIZE;
    const values = { 'aria-valuemin': 0, 'aria-valuemax': 100, 'aria-valuenow': percent };
    return [element('b', {}, format('Reading the disc: {percent} %', { percent })),
        element('div', { class: 'progress', role: 'progressbar', 'aria-label': texts.imageReadingDisc, ...values }, bar),
        element('p', { class: 'facts' }, ...megabytesDone(done, reader.size, done / Math.max(seconds, 0.001)),
            part > 0 && timeLeft(Math.ceil(seconds / part - seconds))),
        jobEnd(() => app.reading.abort(), false)];
}

const TONES: Record<Verdict['level'], Tone> = { damage: 'bad', doubt: 'warn', sound: 'good', nothing: 'warn' };

/** The verdict in one sentence, more about it, and buttons for the next step. The main button is first. */
function verdictOn(app: App, image: Image, { marks }: Surveyed, verdict: Verdict): { tone: Tone, sentence: string, rest: string,
    buttons: Child[] } {
    const { level, total, canRepair } = verdict;
    const base = otherBase({ base: image.base, addressed: image.opened.byAddresses.image.addressed }, marks);
    if (base !== null) return otherBaseVerdict(app, image, base, marks.damaged());
    const tone = TONES[level];
    if (level === 'nothing') return { tone, sentence: texts.imageNoModeOne, rest: texts.imageCanBeLookedAt, buttons: [] };
    const first = () => app.goTo(image.base + placesOf(marks)[0].first, -1, true);
    const isMode1 = marks.mode1() > 0 && marks.damaged() > 0;
    // What needs no other dump comes first.
    const correct = isMode1 && app.second === null && button('main', () => app.correctAll(), texts.imageCorrectFromParity);
    const looks = isMode1 ? '' : 'main';
    const repair = canRepair && app.second === null && button(looks, () => app.choose('repair'), texts.imageRepairFromOther);
    const goThere = marks.findings() > 0 && total > 0 && button('', first, 'Go to the first finding');
    return { tone, sentence: `${capital(verdictText(verdict))}.`, rest: mode2Note(marks),
        buttons: [correct, repair, goThere, ...level === 'sound' ? nextSteps(app) : []] };
}

/** The buttons for what comes next on a disc without damage. */
function nextSteps(app: App): Child[] {
    const find = () => {
        app.showPanel('text');
        byId('find-text').focus();
    };
    return [button('', find, 'Find a text'), app.second === null && button('', () => app.choose('compare'), texts.imageCompareWith),
        button('', () => app.choose('play'), 'Apply a patch…')];
}

/** The verdict if the base is probably wrong, and a button that sets it. `base` is the probable base. */
function otherBaseVerdict(app: App, image: Image, base: number, damaged: number): ReturnType<typeof verdictOn> {
    const probably = format('Judging by the addresses, the base is probably {base}, not {own}.',
        { base: String(base), own: String(image.base) });
    return { tone: 'warn', sentence: 'No Mode 1 sector has the address expected for its block.',
        rest: damaged > 0 ? `${probably} ${format('{n} sector is damaged.|{n} sectors are damaged.', { n: damaged })}` : probably,
        buttons: [button('main', () => changeBase(app, base), format('Set the base to {base}', { base: String(base) }))] };
}

/**
 * Notes how much of the disc was read among the running jobs. Returns the job, or null when the reading has ended.
 * @param place of the bar
 */
function readingJob(app: App, job: RunningJob | null, place: Element) {
    const { survey } = app;
    if (survey === null || survey.over) {
        app.endJob(job);
        return null;
    }
    const reading = job || app.beginJob({ name: texts.imageReadingDisc, place });
    app.noteJob(reading, percentOf(survey));
    return reading;
}

export function mountDiscLine(app: App) {
    const line = byId('disc-line');
    const top = element('div', { class: 'disc-line' });
    const lead = element('div', { class: 'lead' });
    line.append(lead, top);
    app.serve({ close: () => closeImage(app) });
    const drawn = { waiting: 0, hashed: 0, changing: false, isOpen: false, redraw: () => {},
        reading: null as RunningJob | null };
    const draw = () => {
        drawn.waiting = 0;
        lead.hidden = app.panel !== 'disc';
        drawn.reading = readingJob(app, drawn.reading, lead);
        if (app.image === null) return;
        top.classList.toggle('open', drawn.isOpen);
        if (!drawn.changing) fill(top, ...keptParts(app.image.name, facts(app, app.image, drawn)));
        fill(lead, ...keptParts('lead', leadOf(app)));
        drawCounts(app);
    };
    const soon = () => { drawn.waiting = drawn.waiting || requestAnimationFrame(draw); };
    drawn.redraw = soon;
    for (const name of (['survey', 'surveyed', 'dumps', 'panel', 'second'] as const)) app.on(name, soon);
    app.on('image', () => {
        document.title = app.image === null ? 'cdpatch' : `cdpatch: ${shownName(app.image.name)}`;
        Object.assign(drawn, { hashed: 0, changing: false });
        soon();
    });
    app.on('hash', done => {
        drawn.hashed = Number(done);
        const waits = line.querySelector('.sha-wait');
        if (waits && app.image && app.image.sha1 === '') waits.textContent = shaWaits(app.image, drawn, (waits.textContent || '').length);
        else soon();
    });
}

/** Gives parts a key, so that their elements are kept when they are redrawn. */
function keptParts(name: string, parts: Child[]) {
    return parts.map((part, i) => part instanceof Element ? keyed(`${name} ${i}`, part) : part);
}

function drawCounts({ survey }: App) {
    const findings = survey?.verdict?.total ?? survey?.marks.findings() ?? 0;
    const count = byId('count-disc');
    count.hidden = findings === 0;
    const number = counted(findings);
    fill(count, ...say('{n} finding|{n} findings', { n: findings }).map(part =>
        part === '' || part === number ? part : element('span', { class: 'hide' }, part)));
}

/** The facts of the open image, and a menu. On a phone all but the name are folded, and a press shows them. */
function facts(app: App, image: Image, drawn: { hashed: number, changing: boolean, isOpen: boolean, redraw: () => void }): Child[] {
    const { survey, panel } = app;
    const cell = (name: string, ...value: Child[]) => element('div', {}, element('dt', {}, name),
        element('dd', {}, ...value));
    const isMoved = image.base !== 0 || (survey !== null && survey.marks.isElsewhere());
    const change = button('slim bare tiny change next', () => askBase(app, drawn), 'Change');
    const own = isMoved ? [cell(texts.frameWordBase, term('base', String(image.base)), ' ', change)] : [];
    const hash = cell('SHA-1', ...shaOf(image, drawn, panel === 'disc' ? 40 : 12));
    hash.className = 'hash';
    own.push(hash);
    const more = moreButton(`slim tiny${isMoved ? '' : ' next'}`, 'image', 'More about the image', () => [
        !isMoved && { label: 'Set the base…', press: () => askBase(app, drawn) },
        { label: 'Close the image', press: () => void closeImage(app) }]);
    const unfold = button('slim bare tiny unfold', () => {
        drawn.isOpen = !drawn.isOpen;
        drawn.redraw();
    }, 'Details');
    unfold.setAttribute('aria-expanded', String(drawn.isOpen));
    const name = element('div', { class: 'row' }, element('p', { class: 'name' }, nameOf(image.name)), unfold);
    return [element('div', { class: 'row' }, name, dumpWords(app, image), ...imageParts(app, image)),
        element('dl', { class: 'fact' }, ...own), more];
}

function imageParts(app: App, image: Image): Child[] {
    const sheet = element('span', { class: 'mono' }, nameOf(image.from));
    const from = image.from === '' ? [] : [' · ', ...say('from {sheet}: {tracks}', { sheet, tracks: tracksInWords(image) })];
    const tracks = image.disc.tracks.filter(track => track.image !== null);
    const size = format('{size} bytes · {n} sector|{size} bytes · {n} sectors', { size: image.reader.size, n: image.sectors });
    return [element('p', { class: 'small quiet num fact' }, size,
        image.tail > 0 && ` · ${format('incomplete last sector of {n} byte|incomplete last sector of {n} bytes', { n: image.tail })}`,
        ...from), tracks.length > 1 && trackChoice(app, image)];
}

/** A choice among the data tracks of a disc. */
function trackChoice(app: App, image: Image) {
    const chosen = async ({ target }: { target: HTMLSelectElement }) => {
        const other = imageOfTrack(image.disc, Number(target.value), image.renamed);
        target.value = String(image.number); // until the other one is open
        await readImage(app, other);
    };
    const choice = element('select', { class: 'slim', change: chosen });
    for (const { number, type, image: own } of image.disc.tracks) {
        if (own === null) continue;
        choice.append(element('option', { value: number, selected: number === image.number }, format('track {number}, {type}', { number,
            type })));
    }
    return element('label', { class: 'row small quiet fact' }, ...say('Data track {choice}', { choice }));
}

/** A placeholder with the length of a hash, so that nothing moves when the hash is known. */
function shaWaits({ reader }: Image, { hashed }: { hashed: number }, length: number) {
    const percent = reader.size === 0 ? 0 : Math.floor(100 * hashed / reader.size);
    const words = hashed < 0 ? texts.imageHashNotKnown : `(${format(playerTexts.inPercent, { n: percent })})`;
    return words.padEnd(length).replace(/ /g, '\u00a0');
}

/** @param length the number of digits shown */
function shaOf(image: Image, drawn: { hashed: number }, length: number): Child[] {
    const { sha1, crc32 } = image;
    const [looks, shown, copies] = sha1 === '' ? ['quiet sha-wait', shaWaits(image, drawn, length), ' unseen']
        : ['sha1', length < sha1.length ? `${sha1.slice(0, length)}…` : sha1, ''];
    const all = format('{name}\nsize {size}\nCRC-32 {crc32}\nSHA-1 {sha1}\n',
        { name: seen(image.name), size: String(image.reader.size), crc32, sha1 });
    return [element('span', { class: `mono ${looks}` }, shown), ' ',
        copyButton(`slim bare tiny${copies}`, () => all, texts.copy, ' all hashes')];
}

/** Asks for a new base, in place of the facts. */
function askBase(app: App, drawn: { changing: boolean, redraw: () => void }) {
    if (app.image === null) return;
    drawn.changing = true;
    const limits = { min: 0, max: LAST_BASE, step: 1, required: true };
    const input = element('input', { type: 'number', id: 'base', class: 'num', value: app.image.base, ...limits });
    const close = () => {
        drawn.changing = false;
        drawn.redraw();
    };
    const form = element('form', { class: 'row', submit: (event: Event) => {
        event.preventDefault();
        close();
        changeBase(app, Number(input.value));
    } }, element('label', { for: 'base' }, 'The block of the first sector'), input, element('button', { class: 'btn slim main' }, 'Set'),
    button('slim bare', close, playerTexts.cancel), element('p', { class: 'small quiet' }, texts.frameBaseMeans));
    fill(byId('disc-line').querySelector('.disc-line') as Element, form);
    input.focus();
}
