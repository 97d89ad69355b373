// The mark of each sector on the map: its kind, or the finding in it.

import { RECORD, RECORD_SIZE, SECTOR_KIND, USER_SIZE } from '../../core/module/index.js';
import { MODE2, isDamagedMode2, isTestedMode2, type Run } from '../../core/sectors/views.js';
import { format } from '../texts/index.js';
import * as texts from '../texts/index.js';

// Describes in words which Mode 2 sectors were tested, and what was found in one.

/** That Mode 2 sectors cannot be patched; '' if there are none. */
export function mode2Note({ modeTwo }: SurveyMarks) {
    return modeTwo === 0 ? '' : texts.imageModeTwoNotPatched;
}

/** The finding in a Mode 2 sector, or ''. `found` is a sum of MODE2. */
export function mode2Finding(found: number) {
    const has = (flag: number) => (found & flag) !== 0;
    return [has(MODE2.ADDRESS) && texts.otherAddress, has(MODE2.SUBHEADER) && 'the two copies of the subheader differ', has(MODE2.EDC) &&
        'the EDC does not match',
        has(MODE2.PARITY) && 'the parity does not match'].filter(it => it).join(', ');
}

/** What the test of a Mode 2 sector says. `found` is a sum of MODE2. */
export function mode2Verdict(found: number) {
    if (isDamagedMode2(found)) return format('This Mode 2 sector is damaged: {what}.', { what: mode2Finding(found) });
    const tested = isTestedMode2(found) ? texts.sectorIsSound : 'This Mode 2 sector was not tested: it has no codes that show damage.';
    return (found & MODE2.ADDRESS) === 0 ? tested : `${tested} The address in its header is not that of its block.`;
}

/** The marks of sectors on the map. If sectors share a pixel, the greatest mark is shown. */
export const MARK = Object.freeze({
    UNREAD: 0, MODE1: 1, NOSYNC: 2, MODE2: 3, MODE0: 4, OTHER: 5, ADDRESS: 6, PARITY: 7, LOST: 8, EDC: 9,
});

/**
 * How a mark is shown. Legends and tables use `name`; a single sector uses `words`, if there are any. `colour` is a CSS property, and
 * `letter` is shown in the loupe. A `loud` mark is a finding, at least two pixels wide and high.
 */
export type Look = { mark: number, name: string, words?: string, colour: string, letter: string, loud: boolean };

/** The data of a map: a mark for each sector from `base` on, of which the first `known` are read; how marks are shown; and their counts. */
export type MapModel = { base: number, marks: Uint8Array, known: number, looks: Look[], counts: Uint32Array };

export const SURVEY_LOOKS: Look[] = [
    { mark: MARK.MODE1, name: 'Mode 1', colour: '--k-mode1', letter: '', loud: false },
    { mark: MARK.NOSYNC, name: 'audio, no sync', words: 'no sync field: audio, or an unknown format', colour: '--k-nosync', letter: '',
        loud: false },
    { mark: MARK.MODE2, name: 'Mode 2', colour: '--k-mode2', letter: '', loud: false },
    { mark: MARK.MODE0, name: 'Mode 0', colour: '--k-mode0', letter: '', loud: false },
    { mark: MARK.OTHER, name: 'other mode', words: 'unknown mode', colour: '--k-other', letter: '', loud: false },
    { mark: MARK.EDC, name: 'data damaged', colour: '--f-edc', letter: 'E', loud: true },
    { mark: MARK.PARITY, name: 'parity only', colour: '--f-parity', letter: 'P', loud: true },
    { mark: MARK.ADDRESS, name: texts.otherAddress, colour: '--f-address', letter: 'A', loud: true },
    { mark: MARK.LOST, name: 'sync or mode lost', colour: '--f-lost', letter: 'S', loud: true },
];

const MARK_OF_KIND: Record<number, number> = {
    [SECTOR_KIND.NOSYNC]: MARK.NOSYNC, [SECTOR_KIND.MODE0]: MARK.MODE0, [SECTOR_KIND.MODE1]: MARK.MODE1,
    [SECTOR_KIND.MODE2]: MARK.MODE2, [SECTOR_KIND.OTHER]: MARK.OTHER,
};

/** Returns how a mark of a survey is shown. */
export function lookOf(mark: number) {
    return SURVEY_LOOKS.find(look => look.mark === mark) as Look;
}

/** Returns how sectors of a kind without findings are shown. */
export function lookOfKind(kind: number) {
    return lookOf(MARK_OF_KIND[kind]);
}

function markOf(records: Uint8Array, at: number) {
    if (records[at + RECORD.EDC] !== 0) return MARK.EDC;
    if ((records[at + RECORD.ZEROS] | records[at + RECORD.P] | records[at + RECORD.Q]) !== 0) return MARK.PARITY;
    if (records[at + RECORD.ADDRESS] !== 0) return MARK.ADDRESS;
    return MARK_OF_KIND[records[at + RECORD.KIND]];
}

/** The mark of a Mode 2 sector with these findings. `found` is a sum of MODE2. */
function markOfMode2(found: number) {
    if ((found & (MODE2.EDC | MODE2.SUBHEADER)) !== 0) return MARK.EDC;
    if ((found & MODE2.PARITY) !== 0) return MARK.PARITY;
    return (found & MODE2.ADDRESS) !== 0 ? MARK.ADDRESS : MARK.MODE2;
}

/** The marks of a survey, to which its records are added as they are read. */
export class SurveyMarks {
    counts = new Uint32Array(SURVEY_LOOKS.length + 1);
    known = 0;
    /** How many Mode 1 and Mode 2 sectors have a wrong address, whatever else was found in them. */
    elsewhere = 0;
    /** The numbers of Mode 1 sectors, of Mode 2 sectors, and of tested Mode 2 sectors. Mode 2 is counted when all is read. */
    modeOne = 0;
    modeTwo = 0;
    testedModeTwo = 0;
    looks = SURVEY_LOOKS;
    /** The blocks that have lost their sync field or mode, known when all is read. */
    lost: Run[] = [];
    marks;

    /** @param count how many sectors the image has */
    constructor(readonly base: number, count: number) {
        this.marks = new Uint8Array(count);
    }

    /**
     * Adds the marks of the sectors that have become known.
     * @param records of the whole image
     * @param known how many sectors are known
     */
    add(records: Uint8Array, known: number) {
        for (let i = this.known; i < known; i++) {
            const mark = markOf(records, i * RECORD_SIZE);
            this.marks[i] = mark;
            this.counts[mark] += 1;
            this.elsewhere += records[i * RECORD_SIZE + RECORD.ADDRESS];
            this.modeOne += Number(records[i * RECORD_SIZE + RECORD.KIND] === SECTOR_KIND.MODE1);
        }
        this.known = known;
    }

    /** @param found the settled findings in the Mode 2 sectors, known when all is read */
    addMode2(found: Uint8Array) {
        this.modeTwo = this.counts[MARK.MODE2];
        for (let i = 0; i < this.known; i++) {
            this.testedModeTwo += Number(isTestedMode2(found[i]));
            this.elsewhere += Number((found[i] & MODE2.ADDRESS) !== 0);
            if (isDamagedMode2(found[i]) || (found[i] & MODE2.ADDRESS) !== 0) this.mark(i, markOfMode2(found[i]));
        }
    }

    mark(i: number, mark: number) {
        this.counts[this.marks[i]] -= 1;
        this.counts[mark] += 1;
        this.marks[i] = mark;
    }

    /** @param lost blocks that have lost their sync field or mode */
    lose(lost: Run[]) {
        this.lost = lost;
        for (const { first, last } of lost) {
            for (let i = first - this.base; i <= last - this.base; i++) this.mark(i, MARK.LOST);
        }
    }

    /** How many sectors of Mode 1 there are so far, whatever was found in them. */
    mode1() {
        return this.modeOne;
    }

    /** How many sectors have codes that were tested so far: those of Mode 1, and those of Mode 2 when all is read. */
    tested() {
        return this.modeOne + this.testedModeTwo;
    }

    /** Whether there are Mode 1 or Mode 2 sectors, and none has the address of its block. */
    isElsewhere() {
        const all = this.modeOne + this.modeTwo;
        return all > 0 && this.elsewhere === all;
    }

    damaged() {
        return this.counts[MARK.PARITY] + this.counts[MARK.EDC];
    }

    /** How many sectors have a finding. */
    findings() {
        return this.damaged() + this.counts[MARK.ADDRESS] + this.counts[MARK.LOST];
    }
}

/** The shade of each Mode 1 sector on the map, 0 or 1, which changes where a file begins or ends. */
export function shadesOf(files: { block: number, size: number }[], { base, marks }: { base: number, marks: Uint8Array }) {
    const edges = new Set(files.flatMap(({ block, size }) => size > 0 ? [block, block + Math.ceil(size / USER_SIZE)] : []));
    let shade = 0;
    return marks.map((_, i) => {
        shade ^= Number(edges.has(base + i));
        return shade;
    });
}

/**
 * The next or previous sector with a loud mark, or -1.
 * @param step 1 or -1
 */
export function nextFinding({ marks, looks }: MapModel, from: number, step: number) {
    const loud = loudMarks(looks);
    for (let i = from + step; i >= 0 && i < marks.length; i += step) {
        if (loud[marks[i]]) return i;
    }
    return -1;
}

/**
 * The place where the next or previous run of one kind begins, or -1. A finding does not end a run.
 * @param step 1 or -1
 */
export function nextRun({ marks, looks }: MapModel, from: number, step: number) {
    const loud = loudMarks(looks);
    const begins = (i: number) => !loud[marks[i]] && !loud[marks[i - 1]] && marks[i] !== marks[i - 1];
    for (let i = from + step; i > 0 && i < marks.length; i += step) {
        if (begins(i)) return i;
    }
    return step < 0 && from > 0 ? 0 : -1;
}

export function loudMarks(looks: Look[]) {
    const loud = new Uint8Array(16);
    for (const look of looks) loud[look.mark] = Number(look.loud);
    return loud;
}
