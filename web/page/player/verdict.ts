// Judges a player's image for a patcher: the right disc, another dump that the patch matches or does not match, an image that is already
// patched, or one that cannot be judged by the patch.

import { sheetOf, type Disc, type DiscImage } from '../../core/disc/views.js';
import { Fault } from '../../core/faults.js';
import { RESULT, SECTOR_SIZE, USER_SIZE } from '../../core/module/index.js';
import { oldBytesOf, wordsOn } from '../../core/script/views.js';
import { wrongRuns, type Run } from '../../core/sectors/views.js';
import {
    CollectedSurvey, foundInFile, openTrack, shiftInFile, surveyedWith, verdictOf, type Finding, type OpenedTrack,
} from '../../core/tasks/index.js';
import { sha1Of, type App } from '../app/index.js';
import { isPatched, listedNames, tryWork, type PatchWork } from '../save/index.js';
import { format, playerTexts as texts, say } from '../texts/index.js';
import { element, verdictLine, type Child } from '../ui/index.js';
import type { PatcherData } from './patcher.js';

// The verdict on a player's image in words, with its reasons.

/** For each verdict, its tone, and the key of its text. */
const VERDICTS = {
    right: ['good', 'playerRightDisc'],
    fits: ['warn', 'playerOtherDumpFits'],
    hurt: ['bad', 'playerMatchesButDamaged'],
    unknown: ['warn', 'playerCannotTell'],
    other: ['bad', 'playerOtherDumpFitsNot'],
    damaged: ['bad', 'playerDumpDamaged'],
    patched: ['good', 'playerImageIsPatched'],
    changed: ['warn', 'playerPlacesHoldNewBytes'],
} as const;

/** For each result, the keys of why places refuse their patch, and of what that suggests. */
const VERDICT_REASONS = [
    [RESULT.DIFFERS, 'playerHoldOtherBytes', 'playerOtherReleaseProbably'],
    [RESULT.DAMAGED, 'playerAreDamaged', 'playerTryAnotherDump'],
    [RESULT.NOT_MODE1, 'playerHoldNoData', 'playerOtherTrackOrDisc'],
    [RESULT.NO_BLOCK, 'playerNotInThisImage', 'playerOtherTrackOrCut'],
] as const;

/** For each finding that may stop the game, the key of its text. */
const DAMAGE = {
    damaged: 'playerSectorsOfImageDamaged',
    lost: 'playerSectorsLost',
    gap: 'playerSectorsMissing',
    short: 'playerFileProbablyCut',
    cut: 'playerFileProbablyCut',
} as const;

/**
 * A verdict as a paragraph, and its tone.
 * @param id if it is a status for screen readers
 */
export function verdictWords(verdict: Verdict, id: string | null = null) {
    const [tone, key] = VERDICTS[verdict];
    return { tone, words: verdictLine(tone, texts[key], id) };
}

/**
 * Why a patch does not match.
 * @param refused the results of the refused ones
 * @param advices the advice for each result, in place of the one for players
 */
export function reasonsOf(patches: number, refused: number[], advices: Record<number, string> = {}) {
    const places = format(texts.playerPlacesOfPatch, { n: patches });
    return VERDICT_REASONS.flatMap(([result, words, advice]) => {
        const count = refused.filter(it => it === result).length;
        return count === 0 ? [] : [`${format(texts[words], { n: count, places })} ${advices[result] ?? texts[advice]}`.trimEnd()];
    });
}

/** For each finding, the result of patches that it explains. */
const EXPLAINED: Partial<Record<Finding['code'], number>> = { gap: RESULT.DIFFERS, lost: RESULT.NOT_MODE1,
    short: RESULT.NO_BLOCK };

/**
 * Why the patch does not match a player's image. An image with an older version of the patch has the same size and kinds of sectors.
 * @param size of the image
 * @param wanted the size of the author's
 */
export function refusalForPlayer({ patches, refused, findings }: Pick<Judged, 'patches' | 'refused' | 'findings'>, size: number,
    wanted: number) {
    const explained = findings.flatMap(({ code }) => EXPLAINED[code] || []);
    const isOlder = size === wanted && explained.length === 0 && refused.every(it => it === RESULT.DIFFERS);
    const advices = Object.fromEntries([...explained, ...findings.some(isDamage) ? [RESULT.DAMAGED] : []].map(it => [it, '']));
    return [...reasonsOf(patches, refused, advices), ...isOlder ? [texts.playerOlderPatchPerhaps] : [], ...damageWords(findings)];
}

/** How many of the places that could be compared match in an unknown image: all of them, or it would be a different one. */
function comparedWords({ patches, without }: Pick<Judged, 'patches' | 'without'>) {
    if (without === 0) return format(texts.playerPlacesMatchRestUnknown, { n: patches });
    const places = format(texts.playerPlacesOfPatch, { n: patches });
    const match = without === patches ? '' : `${format(texts.playerSomePlacesMatch, { n: patches - without, places })} `;
    return `${match}${format(texts.playerNamesNoOldBytes, { n: without, changes: format(texts.playerPatchCount, { n: patches }) })}`;
}

/** What is damaged, lost, or missing in an image, and what that means for the game. */
function damageWords(findings: Finding[]): string[] {
    const words = findings.filter(isDamage).map(({ code, count }) => format(texts[DAMAGE[code as keyof typeof DAMAGE]], { n: count }));
    return words.length === 0 ? [] : [...new Set(words), texts.playerDamageMayStopGame, texts.playerTryAnotherDump];
}

function isDamage({ code }: Finding) {
    return code in DAMAGE;
}

/** A strip of the disc that shows where the damage is, and the files in which it is; nothing without damage. */
export function damageParts({ damage: { runs, sectors, files } }: Pick<Judged, 'damage'>): Child[] {
    if (runs.length === 0) return [];
    const strip = element('div', { class: 'strip', role: 'img', 'aria-label': texts.playerWhereDamageIs });
    for (const { first, last } of runs) {
        const mark = element('i');
        mark.style.left = `${Math.min(100 * first / sectors, 99)}%`;
        mark.style.width = `${100 * (last - first + 1) / sectors}%`;
        strip.append(mark);
    }
    const named = say(texts.playerDamageIsIn, { files: listedNames(files) });
    return [strip, files.length > 0 && element('p', { class: 'small' }, ...named)];
}

/**
 * Whether the image has music, according to the author's cue sheet.
 * @param isInAny whether the music may also be in the other files of the sheet
 */
export function hasMusic({ cue, name }: Pick<PatcherData, 'cue' | 'name'>, isInAny: boolean = false) {
    if (cue === '') return false;
    const { files, points } = sheetOf(cue);
    return points.some(({ track: { type }, file }) => type === 'AUDIO' && (isInAny || files[file].name === name));
}

/**
 * The text under the verdict on an image that is neither refused nor recognised by its SHA-1.
 * @param size of the image
 * @param data the author's image and cue sheet
 * @param isPart whether the image lacks the author's music on purpose
 */
export function reasonForPlayer({ findings, ...judged }: Judged, size: number, data: Pick<PatcherData, 'image' | 'cue' | 'name'>,
    isPart: boolean = false) {
    const { verdict, patches } = judged;
    const { size: wanted } = data.image;
    const cut = size < wanted && !isPart ? [texts.playerFileProbablyCut] : [];
    const sizes = size === wanted ? [] : [format(texts.playerSizesDiffer, { n: size, wanted }), ...cut];
    const isShifted = hasMusic(data);
    const reasons: Record<string, string[]> = {
        fits: [format(texts.playerPlacesMatch, { n: patches }), isShifted ? texts.playerMusicShiftedPerhaps : texts.playerRestDiffers],
        hurt: [format(texts.playerPlacesMatch, { n: patches }), ...damageWords(findings)],
        unknown: [comparedWords(judged), ...sizes, ...damageWords(findings)],
        changed: [texts.playerNotAuthorsResult, ...sizes],
    };
    return reasons[verdict] ? element('p', {}, [...new Set(reasons[verdict])].join(' ')) : null;
}

/**
 * Only the SHA-1 decides `right` and `patched`. Any other image `fits` if it is as long as the author's and all patches name their old
 * bytes, which match; it is `hurt` if it fits and is damaged elsewhere; if it is of a different size, or some patches name none, it is
 * `unknown`. In one that is `changed`, all places already have their new bytes.
 */
type Verdict = 'right' | 'fits' | 'hurt' | 'unknown' | 'other' | 'damaged' | 'patched' | 'changed';
/** The sectors of an image that are damaged or lost, or next to a gap, from 0 on; how many it has; and the files in which they are. */
type Damage = { runs: Run[], sectors: number, files: string[] };
/**
 * A verdict; the SHA-1 of the image, '' if it was not needed; how many patches there are, and how many of them are `without` old bytes; the
 * results of the `refused` ones, and the program's `words` for the first of them; the `findings` of the survey of an image that its SHA-1
 * does not recognise, which are those of all interfaces, and where its `damage` is; and the `work` to be done.
 */
export type Judged = { verdict: Verdict, sha1: string, patches: number, without: number, refused: number[], words: string,
    findings: Finding[], damage: Damage, work: PatchWork };
type JudgeWatch = { signal: { aborted: boolean }, progress: (done: number, all: number) => void };

/** The data track whose image has the given size, or the first data track. Throws a Fault for a music track. */
export function trackOfSize(disc: Disc, size: number) {
    const [file] = disc.files;
    if (disc.sheet === null && disc.tracks[0].image === null) {
        throw new Fault('disc/own', { sentence: format(texts.playerIsMusicTrack, { name: file.name }) });
    }
    const track = disc.tracks.find(it => it.image !== null && it.image.reader.size === size);
    return openTrack(disc, { track: track && track.number });
}

/**
 * Judges the image of a track. The patches are tried first, reading only their sectors, so that a mismatch is reported at once; then it is
 * hashed.
 */
export async function judgeImage(app: App, data: PatcherData, opened: OpenedTrack, watch: JudgeWatch): Promise<Judged> {
    const { image } = opened;
    const { reader } = image;
    const hash = () => sha1Of(app.parts, reader, watch.signal, done => watch.progress(done, reader.size));
    const early = addressedBase(image, data.base) === data.base ? '' : await hash();
    const base = [data.image.sha1, data.result].includes(early) ? data.base : addressedBase(image, data.base);
    const work = { reader, base, script: data.script, carry: data.carry };
    const { outcomes } = await tryWork(app, work, { signal: watch.signal });
    const refused = outcomes.filter(it => it.result !== RESULT.OK);
    const words = refused.length === 0 ? '' : wordsOn(app.calls.outcomeLine(1, refused[0].result, refused[0].block, refused[0].offset), 1);
    const { without } = oldBytesOf(app.calls, data.script);
    const judged = { sha1: '', patches: outcomes.length, without, refused: refused.map(it => it.result), words, findings: [],
        damage: { runs: [], sectors: image.sectors, files: [] }, work };
    const areDamaged = judged.refused.every(it => it === RESULT.DAMAGED);
    if (refused.length > 0 && !await isPatched(app, work)) {
        return { ...judged, ...await surveyed(app, opened, watch), verdict: areDamaged ? 'damaged' : 'other' };
    }
    const sha1 = early || await hash();
    if (sha1 === data.image.sha1) return { ...judged, sha1, verdict: 'right' };
    if (sha1 === data.result) return { ...judged, sha1, verdict: 'patched' };
    if (refused.length > 0 || await isPatched(app, work)) return { ...judged, sha1, verdict: 'changed' };
    const found = await surveyed(app, opened, watch);
    const fit = found.findings.some(isDamage) ? 'hurt' : 'fits';
    return { ...judged, sha1, ...found, verdict: without === 0 && reader.size === data.image.size ? fit : 'unknown' };
}

/** The findings in an image, and where they are. */
async function surveyed({ pool }: App, opened: OpenedTrack, { signal, progress }: JudgeWatch) {
    const { reader, base, tail, sectors } = opened.image;
    const tracks = surveyedWith(opened);
    const survey = new CollectedSurvey(base);
    for (const track of tracks) {
        const counting = (done: number) => progress(Math.min((track.before + done) * SECTOR_SIZE, reader.size), reader.size);
        const how = { shift: shiftInFile(track, base), mode2: true };
        const watch = { base: base + track.before, signal, progress: counting };
        await pool.share('survey', [track.image.reader], how, watch, range => survey.add(range));
    }
    const surveys = await foundInFile(tracks, survey.whole());
    const { findings } = verdictOf({ surveys, tail });
    const hurt = surveys.flatMap(it => [...it.lost, ...wrongRuns(it.survey, it.mode2Found).damaged]);
    const gaps = surveys.flatMap(it => it.gaps.map(({ first, last, isAtStart }) => isAtStart ? last + 1 : first));
    const ends = findings.some(({ code }) => code === 'short' || code === 'cut') ? [base + sectors - 1] : [];
    const runs = [...hurt, ...[...gaps, ...ends].map(block => ({ first: block, last: block }))].slice(0, MOST_SHOWN);
    // After a gap, the blocks are not those of the volume.
    const files = gaps.length > 0 ? [] : await filesWith(opened, hurt);
    return { findings, damage: { runs: runs.map(({ first, last }) => ({ first: first - base, last: last - base })), sectors, files } };
}

/** The most places that the strip shows. */
const MOST_SHOWN = 1000;

/** The paths of the files that have sectors of runs; none if the image has no volume. */
async function filesWith(opened: OpenedTrack, runs: Run[]) {
    const files = await opened.contents().then(it => it.files, () => []);
    const hasSome = (first: number, end: number) => runs.some(run => run.first < end && run.last >= first);
    return files.filter(({ block, size }) => hasSome(block, block + Math.ceil(size / USER_SIZE))).map(({ path }) => path);
}

/** The base given by the addresses of an image, or the base of the author's if they give none. */
function addressedBase({ addressed, base }: DiscImage, other: number) {
    return addressed === null || addressed < 0 ? other : base;
}
