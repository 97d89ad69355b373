// The fault of a sector in words: first the program's line, then what it means.

import { sameBytes } from '../../core/bytes.js';
import { RECORD, RECORD_SIZE, SECTOR_KIND, SECTOR_SIZE, USER_SIZE, type Calls } from '../../core/module/index.js';
import { firstLinesOf, lineText, userPlace } from '../../core/script/views.js';
import {
    FIELDS, USER_OFFSET, addressIn, addressOf, addressText, findingOf, isDamagedMode2, isSoundMode2, surveyRange,
} from '../../core/sectors/views.js';
import { correctionOf, shiftAt, type Correction } from '../../core/tasks/index.js';
import { MARK, lookOfKind, mode2Finding, mode2Verdict, type App, type ScriptLines, type Surveyed } from '../app/index.js';
import { repairOf } from '../second/index.js';
import { format, say } from '../texts/index.js';
import { announce, button, element, hexOf, keyed, nameOf, setDisabled, term, type Child } from '../ui/index.js';
import { byteOfCodes, type crossingsOf } from './places.js';
import * as texts from '../texts/index.js';

// Describes a sector in words: its kind, and its finding as the program prints it.

/** The finding in a sector, or '': for Mode 1 the text that `cdpatch audit` prints after its block. */
export function findingAt(calls: Calls, { block, records, mode2 }: Surveyed, sector: number) {
    const record = records.subarray(sector * RECORD_SIZE, (sector + 1) * RECORD_SIZE);
    return findingOf(calls, block + sector, record) || mode2Finding(mode2[sector]);
}

/** Describes a sector in words: its kind, its finding, and the text of `audit` for the finding. */
export function sectorWords(app: App, survey: Surveyed, sector: number) {
    if (sector >= survey.known) return { kind: 'not read yet', finding: '', codes: '', bad: false, damaged: false };
    const { name, words: kind = name } = lookOfKind(survey.records[sector * RECORD_SIZE + RECORD.KIND]);
    const mark = survey.marks.marks[sector];
    const codes = mark === MARK.LOST ? texts.discLostInTrack : findingAt(app.calls, survey, sector);
    const damaged = mark === MARK.EDC || mark === MARK.PARITY;
    const finding = damaged ? format('damaged: {codes}', { codes }) : codes;
    return { kind, finding, codes, bad: codes !== '', damaged: damaged || mark === MARK.LOST };
}

/** How many blocks later a sector of the open image is by the addresses of its track. */
function shiftOfSector({ survey }: App, block: number) {
    return survey === null ? 0 : shiftAt(survey.tracks, survey.block, block);
}

/** The address that the sector of a block must have, or '' if there is none. */
export function addressWords(app: App, block: number) {
    const address = addressOf(app.calls, block + shiftOfSector(app, block));
    return address === null ? '' : addressText(address);
}

/** Where bytes of a sector are, in words, with an explanation of `offset`. */
function placeWords(first: number, last: number = first): Child[] {
    return placeParts(first, last, term('offset', texts.sectorOffsetWord));
}

/** Where bytes of a sector are, in a text. */
function placeText(first: number, last: number = first) {
    return placeParts(first, last, texts.sectorOffsetWord).join('');
}

/** @param offset the word */
function placeParts(first: number, last: number, offset: Child): Child[] {
    const isUser = first >= USER_OFFSET && last < USER_OFFSET + USER_SIZE;
    const [from, to] = [first, last].map(at => String(isUser ? at - USER_OFFSET : at));
    const at = last > first ? format('{first} to {last}', { first: from, last: to }) : from;
    return isUser ? say(texts.sectorOffsetIs, { offset, at }) : [format(texts.sectorByteOfSector, { at })];
}

// Offers to correct a damaged sector from its own parity. It is never done unasked, since damage may be deliberate.

/** Says which bytes P and Q give, and which EDC confirms them. */
function correctionWords({ old, fresh }: Correction) {
    const places = [...old.keys()].filter(at => old[at] !== fresh[at]);
    const [first, last] = [places[0], places[places.length - 1]];
    const place = placeText(first, last);
    const [digits, before] = [fresh, old].map(it => hexOf(it.subarray(first, first + 1)));
    const bytes = places.length === 1 ? format(texts.sectorByteOfCodes, { fresh: digits, old: before, place })
        : format('P and Q give {n} other bytes, {place}. The EDC then matches.', { n: places.length, place });
    const edc = hexOf(old.subarray(FIELDS.edc, FIELDS.zeros)).replace(/..(?=.)/g, '$& ');
    return element('p', {}, `${bytes} ${format('It is the EDC that was read, {edc}, and all of P and Q match too.', { edc })}`);
}

/** The button that corrects a sector, the one that corrects all, and a note on lines of the script. */
function correctionOffer(app: App, block: number, correction: Correction) {
    const first = firstLineOf(app.script, block, correction.lines);
    const conflict = first > 0 ? 0 : conflictingLine(app.script, block, correction);
    const isOff = first > 0 || conflict > 0;
    const correct = button('slim main', () => !isOff && addCorrection(app, block, correction),
        first > 0 ? 'The correction is in the script' : 'Correct it');
    setDisabled(correct, isOff);
    const words = conflict > 0 ? format(
        'Line {line} of the script expects bytes that a correction would change: remove that line before you correct this sector.',
        { line: String(conflict) })
        : addedWords(first, correction.lines.length);
    const done = first > 0 && [element('b', { class: 'good-ink' },
        'Corrected in the script, but not in this file: apply the script and save the image.'), ' '];
    const open = first > 0 && button('slim', () => app.goToLine(first - 1), texts.discOpenScriptPanel);
    const why = first > 0 && correction.lines.length > 1 &&
        ' Only after a rebuild can a damaged sector be patched. The lines after it write the bytes that its EDC confirmed, so no damage ' +
        'is hidden.';
    return { isInScript: first > 0, note: words !== '' && element('p', {}, ...done || [], words, why),
        buttons: [correct, correctAllButton(app), ...open ? [open] : []] };
}

function correctAllButton(app: App) {
    return button('slim', () => app.correctAll(), 'Correct all from parity…');
}

/** Says which lines of the script correct a sector; '' if none do. `first` is the number of the first one, or 0. */
function addedWords(first: number, count: number) {
    if (first === 0) return '';
    const [from, last] = [first, first + count - 1].map(String);
    return count === 1 ? format('Line {line} of the script corrects this sector from its own parity.', { line: last }) : format(
        'Lines {first} to {last} of the script correct this sector from its own parity.', { first: from, last });
}

/** Adds the lines that correct a sector, before all other lines of it. */
function addCorrection(app: App, block: number, { lines }: Correction) {
    const { rebuilds, writes } = firstLinesOf(app.script, block);
    const own = [rebuilds, writes].filter(number => number > 0);
    app.addLines(lines, '', own.length === 0 ? 0 : Math.min(...own));
    const first = firstLineOf(app.script, block, lines);
    announce(addedWords(first, lines.length) || format(texts.sectorInTheScript, { line: lines[0] }));
}

/** The number of the first of these lines, if the script has all of them one after the other, else 0. */
function firstLineOf(script: ScriptLines, block: number, lines: string[]) {
    const starts = script.linesNear(block, block).filter(({ text }) => text === lines[0]);
    const found = starts.find(({ number }) => lines.every((text, i) => script.lines[number - 1 + i]?.text === text));
    return found ? found.number : 0;
}

/**
 * The number of a line that would be refused after a correction, which changes its old bytes, or 0. A line that expects the corrected bytes
 * matches only then.
 */
function conflictingLine(script: ScriptLines, block: number, correction: Correction) {
    const start = userPlace({ block, offset: 0 });
    const conflicts = script.linesWriting({ block, offset: 0, size: USER_SIZE }).filter(({ number }) => {
        const patch = script.patchAt(number - 1);
        if (patch === null || patch.old === null) return false;
        const from = userPlace(patch) - start;
        const [first, end] = [Math.max(from, 0), Math.min(from + patch.size, USER_SIZE)];
        const [before, after] = [correction.old, correction.fresh].map(it => it.subarray(USER_OFFSET + first, USER_OFFSET + end));
        return !sameBytes(before, after) && !sameBytes(patch.old.subarray(first - from, end - from), after);
    });
    const [lowest = 0] = conflicts.map(({ number }) => number).sort((a, b) => a - b);
    return lowest;
}

type Crossings = ReturnType<typeof crossingsOf>;

/**
 * The notice over a sector.
 * @param sector as it is in the file
 * @param found in a Mode 1 sector, null for other kinds
 */
export function sectorFault(app: App, block: number, sector: Uint8Array, found: Crossings | null) {
    if (found === null) return otherKind(app, block, sector);
    const record = surveyRange(app.calls, sector, block, { shift: shiftOfSector(app, block) }).records;
    const line = new TextDecoder().decode(app.calls.auditLine(block, record)).trimEnd();
    const [edc, zeros, parity] = [record[RECORD.EDC] > 0, record[RECORD.ZEROS] > 0, record[RECORD.P] + record[RECORD.Q] > 0];
    if (!edc && !zeros && !parity) {
        return line !== '' ? elsewhere(app, block, sector, line)
            : element('div', { class: 'say good thin' }, element('b', {}, texts.sectorIsSound), 'Its EDC and parity match.');
    }
    const correction = correctionOf(app.calls, block, sector);
    const sentences = [
        edc && say('The {edc} does not match the bytes before it.', { edc: term('edc', texts.sectorEdcField) }),
        zeros && ['The eight bytes after the EDC are not all zero.'],
        parity && crossingWords(found, edc, correction === null),
        correction === null && edc && (hintWords(app, sector, found) ||
            [parity ? 'Its own parity cannot correct that: a column or diagonal corrects only one byte.'
                : 'P and Q match, so they show no wrong byte.']),
        record[RECORD.ADDRESS] > 0 && say('The header has the address {address}, not that of the block.',
            { address: addressText(addressIn(sector, 0)) }),
    ].flatMap(it => it ? [...it, ' '] : []);
    return keyed(`damage of ${block}`, element('div', { class: `say ${edc ? 'bad' : 'warn'} thin` },
        element('b', {}, ...say(edc ? 'The data of this sector are damaged. {line}'
            : 'The user data match their EDC. The damage is elsewhere in this sector. {line}', { line: mono(line) })),
        ...sentences, correction && correctionWords(correction), ...remedies(app, block, correction)));
}

/** @param text of the program or of a script */
function mono(text: string) {
    return element('span', { class: 'mono' }, text);
}

/**
 * @param either whether the EDC does not match, too
 * @param explained whether `offset` is explained, which is a Tab stop
 */
function crossingWords({ crossings, ...counts }: Crossings, either: boolean, explained: boolean): Child[] {
    const codes = format(either ? '{columns} of {ofColumns} P columns (p={columns}) and {diagonals} of {ofDiagonals} Q diagonals \
(q={diagonals}) do not match either'
        : '{columns} of {ofColumns} P columns (p={columns}) and {diagonals} of {ofDiagonals} Q diagonals (q={diagonals}) do not match',
        counts);
    const count = crossings.length;
    if (count === 0) return say('{codes}; they have no byte in common.', { codes });
    const place = (explained ? placeWords : placeText)(crossings[0], crossings[count - 1]);
    return count > 1 ? say('{codes}; they cross at the {count} outlined bytes, {place}: the wrong ones are probably among these.',
        { codes, count: String(count), place }) : say('{codes}; they cross at the outlined byte, {place}: it is probably the wrong one.',
        { codes,
        place });
}

/** The byte that P and Q give for a sector that is not corrected. It is in the header or in the EDC field. */
function hintWords(app: App, sector: Uint8Array, found: Crossings): Child[] | null {
    const hint = byteOfCodes(app.calls, sector, found);
    if (hint === null) return null;
    const [fresh, old] = [Uint8Array.of(hint.fresh), sector.subarray(hint.at, hint.at + 1)].map(hexOf);
    return [...say(texts.sectorByteOfCodes, { place: placeWords(hint.at), fresh, old }), ' ', texts.sectorNeverCorrected];
}

/** The remedies for a damaged sector. A rebuild destroys the EDC that would confirm a correction, so it comes last. */
function remedies(app: App, block: number, correction: Correction | null) {
    const copies = repairOf(app, block);
    if (copies === 'taken' || copies === 'doubtful') return [soundCopy(app, copies)];
    const offer = correction && correctionOffer(app, block, correction);
    const own = offer === null ? [] : offer.buttons;
    const note = offer && offer.note;
    const row = (...others: HTMLElement[]) => element('div', { class: 'row' }, ...own, ...others);
    const repair = offer === null || app.second !== null ? [repairButton(app, offer === null)] : []; // else it is only over the panel
    const second = noCopy(app, copies);
    if (offer !== null && offer.isInScript) return [second, row(...repair), note];
    const rebuild = rebuildOffer(app, block);
    return [second, row(...repair, rebuild.button), note, ...rebuild.words];
}

/** The button that adds a rebuild of a sector, and what a rebuild does. */
function rebuildOffer(app: App, block: number) {
    const message = rebuildWords(app, block);
    const verb = () => ({ verb: mono('rebuild') });
    const rebuild = button('slim', () => addRebuild(app, block),
        element('span', {}, ...say(message === '' ? 'Add {verb} to the script' : '{verb} is in the script', verb())));
    setDisabled(rebuild, message !== '');
    return { button: rebuild, words: [message !== '' && element('p', {}, message),
        element('p', { class: 'small quiet' }, ...say(
            '{verb} makes the sector valid with its present bytes. If these are wrong, it hides the damage for good.', verb()))] };
}

/** The message that the second image has a sound copy of a sector. */
function soundCopy({ second }: App, copies: 'taken' | 'doubtful') {
    const name = second && nameOf(second.name);
    const doubt = copies === 'doubtful' && 'But its data and EDC are different: compare the two first. Perhaps it is another release.';
    return element('p', {}, element('b', { class: copies === 'taken' ? 'good-ink' : 'warn-ink' },
        ...say('{name} has a sound copy, which will be used.', { name }), ' '), doubt);
}

/** The message that a repair from the second image leaves a sector as it is. */
function noCopy({ second }: App, copies: ReturnType<typeof repairOf>) {
    return copies === 'none' && second !== null && element('p', {},
        ...say('{name} has no sound copy of it.', { name: nameOf(second.name) }), ' ');
}

/**
 * The button for a repair: from the second image, if it is only compared with so far, else from an image to be chosen.
 * @param isMain whether it is the main one
 */
function repairButton(app: App, isMain: boolean = true) {
    const { second, repair } = app;
    const looks = isMain ? 'slim main' : 'slim';
    if (second === null || repair !== null) return button(looks, () => app.choose('repair'), texts.imageRepairFromOther);
    const words = say('Repair from {name}', { name: nameOf(second.name) });
    return button(looks, () => app.setSecond(second, 'repair'), element('span', {}, ...words));
}

/** The message that a line of the script rebuilds a sector before any other line writes in it, or ''. */
function rebuildWords({ script }: App, block: number) {
    const { rebuilds, writes } = firstLinesOf(script, block);
    if (rebuilds === 0 || (writes > 0 && writes < rebuilds)) return '';
    return format(writes > 0 ? 'Line {line} is {patch} now, before the other patches of this sector.' : 'Line {line} is {patch} now.',
        { line: String(rebuilds),
        patch: rebuildLine(block) });
}

function rebuildLine(block: number) {
    return lineText(lines => lines.rebuild(block));
}

/** Adds a line that rebuilds a sector, before the lines that write in it, which would be refused without it. */
function addRebuild(app: App, block: number) {
    if (rebuildWords(app, block) !== '') return;
    app.addLines([rebuildLine(block)], '', firstLinesOf(app.script, block).writes);
    announce(rebuildWords(app, block) || format(texts.sectorInTheScript, { line: rebuildLine(block) }));
}

function elsewhere(app: App, block: number, sector: Uint8Array, line: string) {
    const [has, wants] = [addressText(addressIn(sector, 0)), addressWords(app, block)];
    return element('div', { class: 'say warn thin' }, element('b', {},
        ...say('This sector is sound, but it has a wrong address. {line}', { line: mono(line) })),
        ...say('Its header says {has}, and block {block} has {wants}.', { has, block: String(block), wants }), ' ',
        ...say('The sector itself is not damaged. Perhaps sectors before it are missing or extra, or the {base} is wrong.', { base: term(
            'base', 'base') }));
}

function otherKind(app: App, block: number, sector: Uint8Array) {
    const { survey } = app;
    const lost = survey !== null && survey.marks.marks[block - survey.block] === MARK.LOST;
    const noSync = app.calls.kind(sector.subarray(0, SECTOR_SIZE)) === SECTOR_KIND.NOSYNC;
    const copies = repairOf(app, block);
    const found = survey === null ? 0 : survey.mode2[block - survey.block];
    const isMode2 = app.calls.kind(sector.subarray(0, SECTOR_SIZE)) === SECTOR_KIND.MODE2;
    if (!lost && isMode2) return mode2Sector(app, block, found, copies);
    if (!lost) {
        return element('div', { class: 'say thin' }, element('b', {}, noSync ? 'This sector has no sync field.'
            : 'This is not a Mode 1 sector.'),
            noSync && 'It is audio or an unknown format. ', texts.sectorOnlyLookedAt);
    }
    return element('div', { class: 'say bad thin' }, element('b', {}, noSync ? 'This sector has no sync field, but its track is data.'
        : 'This sector does not have the mode of its track.'),
        correctionOf(app.calls, block, sector) === null
            ? 'It has probably lost its sync field or mode byte. A patch cannot repair that, but a whole sector from another dump can.'
            : 'Only its sync field is lost: the EDC confirms the rest. A patch cannot repair that, but “Correct all from parity…” can. ',
        correctionOf(app.calls, block, sector) !== null && element('div', { class: 'row' }, correctAllButton(app)),
        ...copies === 'taken' || copies === 'doubtful' ? [soundCopy(app, copies)]
            : [noCopy(app, copies), element('div', { class: 'row' }, repairButton(app))]);
}

/** @param found a sum of MODE2 */
function mode2Sector(app: App, block: number, found: number, copies: ReturnType<typeof repairOf>) {
    const isTaken = copies === 'taken' || copies === 'doubtful';
    const isBad = isDamagedMode2(found);
    const tone = isSoundMode2(found) ? 'good' : '';
    return element('div', { class: `say ${isBad ? 'bad' : tone} thin` }, element('b', {}, mode2Verdict(found)),
        ` ${texts.sectorOnlyLookedAt}`, isTaken && soundCopy(app, copies),
        isBad && !isTaken && noCopy(app, copies), isBad && !isTaken && element('div', { class: 'row' }, repairButton(app)));
}
