// Corrects texts in tables whose records have equal distances: a record is a text, the filling of its field, and often numbers.

import { readTo, type Candidate } from './candidates.js';
import type { Scores } from './scores.js';

/** The record distance, and at which column which texts begin. */
export type Table = { distance: number, column: number, members: number[] };
/** The filling of a record's field, and its bounds. */
export type Filled = { filling: number[], from: number, to: number };

/** Of this many texts on each side of one in a table, at least LEAST_IN_COLUMN begin a multiple of the record distance away. */
const NEIGHBOURS = 6;
const LEAST_IN_COLUMN = 3;

/** The fewest bytes between the texts of two records. */
const LEAST_BETWEEN = 3;

/** The least and the greatest distance of records; the fewest texts of a table; and the most records from one text to the next. */
const LEAST_DISTANCE = 6;
const MOST_DISTANCE = 1024;
const LEAST_RECORDS = 5;
const MOST_MISSING = 16;

/** How many bytes from the column of its table a text may seem to begin. */
const OFF = 6;

/** The fewest units of a filling that end the text of a field. */
const LEAST_FILLED = 2;

/** Fillings of fields; in UTF-16 each is a character. Numbers after a text are often 00 or FF themselves, but seldom spaces. */
const BLANKS = [[0x20], [0x81, 0x40], [0xA1, 0xA1]];
const NUMBERS = [[0x00], [0xFF]];

/**
 * Corrects texts in tables: each begins at the column of its record, and ends in its field.
 * @param texts in order
 */
export function withRecords(bytes: Uint8Array, texts: Candidate[]) {
    const all = [...texts];
    for (const table of tablesOf(texts)) fitTable(bytes, all, table);
    return all;
}

/** The distance that divides the most distances between neighbours around a text; 0 if there is none. */
function distanceAt(distances: Int32Array, i: number) {
    const from = Math.max(i - NEIGHBOURS, 0);
    const to = Math.min(i + NEIGHBOURS, distances.length);
    let best = 0;
    let most = LEAST_IN_COLUMN - 1;
    for (let k = from; k < to; k++) {
        const distance = distances[k];
        if (distance === 0 || distance === best) continue;
        let count = 0;
        for (let j = from; j < to; j++) count += Number(distances[j] > 0 && distances[j] % distance === 0);
        if (count < most || (count === most && distance < best)) continue;
        best = distance;
        most = count;
    }
    return best;
}

/** The distance from each text to the next one, 0 if they cannot be in two records. */
function distancesOf(texts: Candidate[]) {
    return Int32Array.from({ length: Math.max(texts.length - 1, 0) }, (_, i) => {
        const distance = texts[i + 1].from - texts[i].from;
        const isApart = texts[i + 1].start - texts[i].end >= LEAST_BETWEEN;
        return isApart && distance >= LEAST_DISTANCE && distance <= MOST_DISTANCE ? distance : 0;
    });
}

/** Whether a text begins at the same column as others around it. */
function isInColumn(texts: Candidate[], i: number, distance: number) {
    let count = 0;
    for (let k = Math.max(i - NEIGHBOURS, 0); k <= Math.min(i + NEIGHBOURS, texts.length - 1); k++) {
        count += Number(k !== i && texts[k].scores === texts[i].scores && (texts[k].from - texts[i].from) % distance === 0);
    }
    return count >= LEAST_IN_COLUMN;
}

/** The tables among texts. */
function tablesOf(texts: Candidate[]) {
    const tables: Table[] = [];
    const distances = distancesOf(texts);
    texts.forEach(({ from }, i) => {
        const distance = distanceAt(distances, i);
        if (distance === 0 || !isInColumn(texts, i, distance)) return;
        const last = tables[tables.length - 1];
        const goesOn = last && last.distance === distance && from % distance === last.column &&
            from - texts[last.members[last.members.length - 1]].from <= MOST_MISSING * distance;
        if (goesOn) last.members.push(i);
        else tables.push({ distance, column: from % distance, members: [i] });
    });
    return tables.filter(({ members }) => members.length >= LEAST_RECORDS);
}

/** Changes the texts of a table so that they begin and end where its fields do. */
function fitTable(bytes: Uint8Array, texts: Candidate[], { distance, column, members }: Table) {
    const own = members.map(i => ({ ...texts[i], start: texts[i].from }));
    const records = own.map(it => ({ it, filled: filledIn(bytes, it, distance) }));
    const filling = usualFilling(records.flatMap(({ filled }) => filled || []));
    if (filling === null) return;
    const field = mostOften(records.flatMap(({ it, filled }) => filled && filled.filling === filling ? filled.to - it.start : []));
    if (field >= distance) return;
    const longest = own.reduce((most, { start, to }) => to - start <= field ? Math.max(most, to - start) : most, 0);
    const unit = own[0].scores.wide ? 2 : 1;
    const room = NUMBERS.includes(filling) ? Math.min(field, longest + unit) : field;
    for (let i = members[0]; i <= members[members.length - 1]; i++) {
        const low = i > 0 ? texts[i - 1].end : 0;
        const start = columnNear(bytes, texts[i], low, distance, column);
        if (start >= 0 && texts[i].scores === own[0].scores) texts[i] = fitted(bytes, texts[i], start, { filling, field, room });
    }
}

/** The most frequent number; the least of several equally frequent ones. */
function mostOften(numbers: number[]) {
    const counts: Map<number, number> = new Map();
    for (const it of numbers) counts.set(it, (counts.get(it) || 0) + 1);
    const [[number]] = [...counts].sort(([a, many], [b, more]) => more - many || a - b);
    return number;
}

/** The true beginning of a text, at the column of its table, or -1 if it is not in that column. `low` is where the text before it ends. */
function columnNear(bytes: Uint8Array, { start, end, scores }: Candidate, low: number, distance: number, column: number) {
    const after = (column - start % distance + distance) % distance;
    if (after <= OFF && start + after < end) return start + after;
    const before = start + after - distance;
    return start - before <= OFF && before >= low && readTo(scores, bytes, before, start) === start ? before : -1;
}

function fitted(bytes: Uint8Array, text: Candidate, start: number,
    { filling, field, room }: { filling: number[], field: number, room: number }) {
    const own = { ...text, start, from: Math.max(start, text.from) };
    const filled = filledBy(bytes, own, field, filling);
    const isFilled = filled !== null && BLANKS.includes(filling) && filled.from >= Math.min(text.to, start + field);
    const last = text.end > start + field ? Math.min(text.to, start + field) : text.end;
    const end = isFilled ? Math.min(text.end, filled.from) : last;
    const isSame = start === text.start && end === text.end;
    return { ...own, end, to: Math.min(text.to, end), text: isSame ? text.text : '', limit: start + room, isField: true };
}

/** The first filling of a record's field after its text, or null. */
function filledIn(bytes: Uint8Array, text: Candidate, distance: number) {
    let first: Filled | null = null;
    for (const filling of [...BLANKS, ...NUMBERS]) {
        const filled = filledBy(bytes, text, distance, filling);
        if (filled !== null && (first === null || filled.from < first.from)) first = filled;
    }
    return first;
}

/** Where a record has a filling, with enough units to end the text; or null. */
function filledBy(bytes: Uint8Array, { start, to, scores }: Candidate, distance: number, filling: number[]): Filled | null {
    const unit = unitOf(scores, filling);
    const limit = Math.min(start + distance, bytes.length);
    const isUnit = (at: number) => at + unit.length <= limit && unit.every((byte, k) => bytes[at + k] === byte);
    let from = Math.min(to, limit);
    const step = scores.wide ? 2 : 1;
    while (from < limit && !isTwice(isUnit, from, unit.length)) from += step;
    if (from >= limit) return null;
    let end = from;
    while (isUnit(end)) end += unit.length;
    return { filling, from, to: end };
}

function isTwice(isUnit: (at: number) => boolean, from: number, length: number) {
    for (let k = 0; k < LEAST_FILLED; k++) if (!isUnit(from + k * length)) return false;
    return true;
}

/** The bytes of one unit of a filling. */
function unitOf({ wide, encoding }: Scores, filling: number[]) {
    if (!wide) return filling;
    if (NUMBERS.includes(filling)) return [filling[0], filling[0]];
    return Array.from(encoding.units(filling.length === 1 ? ' ' : '\u3000')[0][0]);
}

/** The most frequent filling, or null if too few records have it. */
function usualFilling(all: Filled[]) {
    const counts = [...BLANKS, ...NUMBERS].map(filling => ({ filling, count: all.filter(it => it.filling === filling).length }));
    const [{ filling, count }] = counts.sort((a, b) => b.count - a.count);
    return count >= LEAST_RECORDS ? filling : null;
}
