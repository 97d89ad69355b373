// Finds the tables of pointers to the texts of some files, without knowing the format of the files.

import { letOthersIn, type Signal } from '../turns.js';
import { Differences, type Hit, type Run, type Searched, type TextStarts } from './run.js';
import { LEAST_ADDRESS, placesOf, type PointerTable } from './tables.js';
import { runsIn } from './search.js';

/** The fewest different texts of a table, by its width; of one in another file; and of these, how many are met at their first bytes. */
const LEAST_TEXTS = new Map([[2, 6], [3, 6], [4, 5]]);
const LEAST_ELSEWHERE = 8;
const LEAST_FIRSTS = 4;

/** How many more a table needs whose pointers are farther apart than two of them: there are many such rows of numbers in any file. */
const MORE_IF_APART = 3;

/** The least share of a table's numbers that are pointers; and of these, the least share that lead to first bytes. */
const SHARE_OF_HITS = 0.75;
const SHARE_OF_FIRSTS = 0.3;
const SHARE_ELSEWHERE = 0.5;

/** A table is refused if more than this share of its texts have pointers of a different form, or with a different base. */
const MOST_CLAIMED = 0.3;

/** How much a table of wider pointers is preferred: a narrower one has only a part of their bytes. */
const WEIGHTS = new Map([[2, 1], [3, 1.1], [4, 1.25]]);

/** How much a table is preferred whose texts are near, by their path: a disc may have copies of a file, each with pointers of its own. */
const NEARNESS = 0.1;

/** Single pointers with numbers that are frequent count only if this many are at equal distances. */
const LEAST_IN_PART = 4;

/** Single pointers at most this many bytes apart are rows of one table if their distances are equal. */
const MOST_APART = 64;

/** A run with what decides whether it is a table. */
class Candidate {
    distinct; firsts; weight;

    constructor(readonly run: Run, { path }: Searched) {
        this.distinct = new Set(run.hits.map(({ text }) => text)).size;
        this.firsts = run.hits.filter(({ isFirst }) => isFirst).length;
        const own = `${path}\n`.split('');
        const shared = own.findIndex((it, i) => it !== `${run.texts.path}\n`[i]);
        const nearness = (shared < 0 ? own.length : shared) / own.length;
        this.weight = this.distinct * (WEIGHTS.get(run.form.width) || 1) * (1 + NEARNESS * nearness);
    }

    isTable(file: Searched) {
        const { hits, distance, form, texts } = this.run;
        if (hits.length === 0) return false;
        if (distance === 0) return this.distinct >= LEAST_FIRSTS;
        const count = (hits[hits.length - 1].at - hits[0].at) / distance + 1;
        const isElsewhere = texts !== file.own;
        const least = isElsewhere ? LEAST_ELSEWHERE : LEAST_TEXTS.get(form.width) || LEAST_ELSEWHERE;
        const share = isElsewhere ? SHARE_ELSEWHERE : SHARE_OF_FIRSTS;
        const more = distance > 2 * form.width ? MORE_IF_APART : 0;
        return this.distinct >= least + more && this.firsts >= LEAST_FIRSTS && hits.length >= SHARE_OF_HITS * count
            && this.firsts >= share * hits.length;
    }
}

/** The tables of a file, the best first: none over another one. */
class Tables {
    /** The form of the pointers to a place in a file. */
    claims = new Map<string, string>();
    tables: PointerTable[] = [];
    taken; first;

    constructor(readonly file: Searched) {
        this.taken = new Uint8Array(file.bytes.length);
        this.first = file.first ?? 0;
    }

    add({ run }: Candidate) {
        const { form, texts, distance } = run;
        const isSmall = -baseInFile(run) < LEAST_ADDRESS;
        const parts = distance > 0 ? this.freeParts(run)
            : partsOf(run.hits.filter(({ at }) => !this.isTaken(at, form.width)), form.width)
                .filter(part => !isSmall || part.hits.length >= LEAST_IN_PART);
        const hits = parts.flatMap(part => part.hits);
        if (hits.length < LEAST_FIRSTS) return;
        const claim = [form.width, form.big, baseInFile(run), form.own, form.mask].join();
        const keys = [...new Set(hits.map(({ target }) => `${target + texts.offset} ${texts.path}`))];
        const claimed = keys.filter(key => (this.claims.get(key) ?? claim) !== claim);
        if (claimed.length > MOST_CLAIMED * keys.length) return;
        for (const key of keys) if (!this.claims.has(key)) this.claims.set(key, claim);
        for (const part of parts) {
            const table = this.tableOf(run, part);
            for (const at of placesOf(table)) this.taken.fill(1, at - this.first, at - this.first + form.width);
            this.tables.push(table);
        }
    }

    /** The parts of a run between the numbers of other tables. */
    freeParts({ hits, distance, form: { width } }: Run) {
        const parts: { hits: Hit[], distance: number }[] = [];
        let next = -1;
        for (const hit of hits) {
            let isFree = next >= 0;
            for (let at = next; isFree && at <= hit.at; at += distance) isFree = !this.isTaken(at, width);
            if (isFree) parts[parts.length - 1].hits.push(hit);
            else if (!this.isTaken(hit.at, width)) parts.push({ hits: [hit], distance });
            next = this.isTaken(hit.at, width) ? -1 : hit.at + distance;
        }
        return parts;
    }

    isTaken(at: number, width: number) {
        return this.taken[at] === 1 || this.taken[at + width - 1] === 1;
    }

    tableOf(run: Run, { hits, distance }: { hits: Hit[], distance: number }): PointerTable {
        const [first, last] = [hits[0].at, hits[hits.length - 1].at];
        const begins = hits.filter(({ isFirst }) => isFirst).length;
        const [at, count] = [this.first + first, (last - first) / distance + 1];
        return { ...run.form, base: baseInFile(run), path: this.file.path, at, count, distance, texts: run.texts.path, begins };
    }
}

/** The base of a run that counts from the beginning of the file of its texts. */
function baseInFile({ form: { base, own }, texts }: Run) {
    return own ? base : base + texts.offset;
}

/**
 * Single pointers as tables with equal distances.
 * @param hits in order
 */
function partsOf(hits: Hit[], width: number) {
    const parts: { hits: Hit[], distance: number }[] = [];
    for (const hit of hits) {
        const part = parts[parts.length - 1];
        const apart = part === undefined ? Infinity : hit.at - part.hits[part.hits.length - 1].at;
        if (apart < width) continue;
        if (part !== undefined && apart <= MOST_APART && (part.hits.length === 1 || part.distance === apart)) {
            part.hits.push(hit);
            part.distance = apart;
        } else {
            parts.push({ hits: [hit], distance: width });
        }
    }
    return parts;
}

/**
 * Finds the tables of pointers in some files, in their order. Throws a Fault, `cancelled`, and what `searched` throws.
 * @param texts of the files with texts
 * @param searched the files that may have pointers
 */
export async function findPointerTables(texts: TextStarts[], searched: AsyncIterable<Searched>, signal?: Signal): Promise<PointerTable[]> {
    const differences = new Differences(texts.reduce((sum, { count }) => sum + count, 0));
    for (const some of texts) await differences.add(some, signal);
    const found: PointerTable[] = [];
    for await (const file of searched) {
        await letOthersIn(signal);
        const tables = new Tables(file);
        const candidates = (await runsIn(file, differences, signal)).map(run => new Candidate(run, file)).filter(it => it.isTable(file));
        const hasMask = ({ run }: Candidate) => Number(run.form.mask !== undefined);
        candidates.sort((a, b) => b.weight - a.weight || b.firsts - a.firsts || hasMask(a) - hasMask(b)
            || a.run.form.unit - b.run.form.unit || a.run.distance - b.run.distance);
        for (const candidate of candidates) {
            await letOthersIn(signal);
            tables.add(candidate);
        }
        found.push(...tables.tables.sort((a, b) => a.at - b.at));
    }
    return found;
}
