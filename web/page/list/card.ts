// The card with the list of several files: what was found in each, in the columns of `cdscript scan`.

import { bytesOfLines, type Reader } from '../../core/bytes.js';
import { KnownDumps, isSheetName } from '../../core/disc/views.js';
import { cancelled } from '../../core/faults.js';
import {
    COLUMN, CollectedSurvey, examineFile, listedColumns, type FileSummary, type FindingCode, type SurveyedTrack, type Verdict,
} from '../../core/tasks/index.js';
import { sentenceOf } from '../../sentences/index.js';
import { Summing, jobAt, type App } from '../app/index.js';
import { dumpWords } from '../disc/index.js';
import { discFileOf, fileOf, filesNamedBy, unlessEnded } from '../open/index.js';
import { downloadBytes } from '../save/index.js';
import { format, listTrackMissing, playerTexts, remarkText } from '../texts/index.js';
import {
    announce, button, byId, capital, countsRow, crossButton, element, endMessages, fill, focusAgain, hashParts, isCancelled, messageOf,
    moreButton, nameOf, notice, oneTabStop, sentence,
} from '../ui/index.js';
import * as texts from '../texts/index.js';

// Examines files one after the other, as `cdscript scan` does: surveys and hashes each image, and reads it once.

/**
 * What was found in a file, null if it could not be examined, and why not (`fault`). `files` are opened to look at it: with its cue sheet.
 */
type Examined = { name: string, files: File[], summary: FileSummary | null, fault: string };
/** Cancels the examination, receives the number of bytes that were examined, and receives each result. */
type Watch = { signal: AbortSignal, progress: (done: number) => void, take: (examined: Examined) => void };

/**
 * Examines files, cue sheets first, so that the files that they name are not examined twice. A file that cannot be read does not stop the
 * others. Throws a Fault, `cancelled`.
 * @param files whose names are different
 */
async function examineFiles(app: App, files: File[], needsMd5: boolean, { signal, progress, take }: Watch) {
    const ordered = [...files].sort((a, b) => Number(isSheetName(b.name)) - Number(isSheetName(a.name)));
    /** The bytes of each file that were read. */
    const bytes: Map<string, number> = new Map();
    const note = (name: string, count: number) => {
        bytes.set(name, count);
        if (!signal.aborted) progress([...bytes.values()].reduce((sum, it) => sum + it, 0));
    };
    /** The files that were examined. */
    const done: Set<string> = new Set();
    for (const file of ordered) {
        if (done.has(file.name)) continue;
        const results = await examined(app, file, files, { signal, note, needsMd5, isDone: name => done.has(name) }).catch(error => {
            if (isCancelled(error)) throw error;
            return [{ name: file.name, files: [file], summary: null, fault: capital(messageOf(error)) }];
        });
        if (signal.aborted) throw cancelled();
        results.forEach(it => {
            done.add(it.name);
            take(it);
        });
        done.add(file.name);
        note(file.name, file.size);
    }
}

/**
 * The results for an image, or for the files of a cue sheet.
 * @param files among which are those that a sheet names
 */
async function examined(app: App, file: File, files: File[],
    { signal, note, needsMd5, isDone }: { signal: AbortSignal, note: (name: string, count: number) => void, needsMd5: boolean,
    isDone: (name: string) => boolean }): Promise<Examined[]> {
    const { name } = file;
    const opened = [file];
    const { summaries, missing } = await examineFile(app.calls, discFileOf(file), {
        siblings: async (_, readings) => {
            opened.push(...filesNamedBy(readings, files));
            return opened.slice(1).map(discFileOf);
        },
        read: (own, tracks) => surveyedAndHashed(app, own.reader, tracks, { signal, needsMd5, progress: bytes => note(own.name, bytes) }),
        changeOf: ({ reader }) => changeOf(reader),
        whatIs: kind => sentenceOf({ code: 'kind/what', facts: { kind } }), isDone,
    });
    return [
        ...missing.map(({ number }) => ({ name, files: [], summary: null, fault: format(listTrackMissing, { number: String(number) }) })),
        ...summaries.map(summary => ({ name: summary.name, files: opened, summary, fault: '' })),
    ];
}

/** The time at which the file of a reader was changed; '' if the browser does not know it. */
function changeOf(reader: Reader) {
    const { lastModified = NaN } = fileOf(reader) || {};
    return Number.isNaN(lastModified) ? '' : new Date(lastModified).toISOString();
}

/**
 * Surveys the tracks of a file, and hashes it. Throws a Fault, `cancelled`, and what the reader throws.
 * @param how `progress` receives the number of bytes that were hashed
 */
async function surveyedAndHashed(app: App, reader: Reader, tracks: SurveyedTrack[],
    { signal, needsMd5, progress }: { signal: AbortSignal, needsMd5: boolean, progress: (done: number) => void }) {
    const sums = new Summing(app, reader, progress, needsMd5);
    try {
        const surveys = [];
        for (const { image: { base, sectors }, shift, before } of tracks) {
            const collected = new CollectedSurvey(base);
            await sums.read({ base, signal }, answer => collected.add(answer), shift, { before, sectors });
            surveys.push(collected.whole());
        }
        if (tracks.length === 0) await sums.read({ signal });
        return { surveys, hashes: await sums.end() };
    } finally {
        sums.close();
    }
}

/** The name of the file in which a list is saved. */
const SAVED_AS = 'list.tsv';

/** The tag of each kind of finding, and its tone: some do not show damage. */
const TAGS: Record<FindingCode, [`${string}{n}${string}`, 'bad' | 'warn']> = {
    damaged: ['{n} damaged', 'bad'],
    lost: ['{n} lost', 'bad'],
    short: ['{n} block missing at the end|{n} blocks missing at the end', 'bad'],
    cut: ['{n} incomplete sector|{n} incomplete sectors', 'bad'],
    gap: ['sectors missing or extra at {n} place|sectors missing or extra at {n} places', 'bad'],
    missing: ['{n} track missing|{n} tracks missing', 'bad'],
    untested: ['{n} not tested', 'warn'],
    unread: ['{n} track not read|{n} tracks not read', 'warn'],
    address: ['{n} wrong address|{n} wrong addresses', 'warn'],
};

/** The list of files, which is shown with the panel Disc until it is closed. */
class FileList {
    found: Examined[] = [];
    part = byId('list');
    job = element('div', { class: 'stack' });
    counts = element('div');
    rows = element('tbody');

    constructor(readonly app: App) {
        const head = element('tr', {}, element('th', {}, texts.textColumnFile), element('th', {}, capital(texts.discSectorsLabel)),
            element('th', {}, 'Findings'), element('th', {}, 'SHA-1'), element('th', {}, 'DAT'));
        const table = element('div', { class: 'scroll fit' },
            element('table', { 'aria-label': texts.listTitle }, element('thead', {}, head), this.rows));
        oneTabStop(table, 'tbody button');
        fill(this.part, element('header', {}, element('h2', {}, texts.listTitle),
            button('slim', () => app.choose(''), 'Open more files…'),
            moreButton('slim', 'list', texts.listMore, () => [
                { label: texts.textCopyAsTable, copies: () => new TextDecoder().decode(this.bytes()) },
                { label: texts.listSave, press: () => downloadBytes([this.bytes()], SAVED_AS) }]),
            crossButton(playerTexts.close, () => this.close())),
        element('div', { class: 'pad stack' }, this.job, this.counts), table);
        app.on('dumps', () => this.draw());
        app.on('panel', () => this.show());
    }

    show() {
        this.part.hidden = this.found.length === 0 && this.job.childElementCount === 0 || this.app.panel !== 'disc';
        this.app.notify('listed');
    }

    /** The lists of known dumps in one, null if there is none. */
    known() {
        const { dumps } = this.app;
        if (dumps.length < 2) return dumps[0] || null;
        const all = new KnownDumps();
        dumps.forEach(it => all.addAll(it));
        return all;
    }

    /** The columns of a file. Hashes that no list of known dumps needs are left out. */
    columns(file: FileSummary, known: KnownDumps | null) {
        const { sha1, crc32, md5 } = file.hashes;
        const needs = known ? known.needs : { crc32: false, md5: false };
        const hashes = { sha1, crc32: needs.crc32 ? crc32 : '', md5: needs.md5 ? md5 : '' };
        return listedColumns({ ...file, hashes }, known, file.name, sentenceOf);
    }

    /** The lines as `cdscript scan` prints them. */
    bytes() {
        const known = this.known();
        return bytesOfLines(this.found.flatMap(({ summary }) => summary ? this.columns(summary, known).join('\t') : []));
    }

    close() {
        this.app.endJobAt(this.job);
        this.found = [];
        fill(this.job);
        this.show();
        focusAgain(null);
    }

    /** Examines files, and lists them with earlier ones, in place of those of the same name. */
    async examine(files: File[]) {
        const all = files.reduce((sum, { size }) => sum + size, 0);
        const names = new Set(files.map(({ name }) => name));
        const earlier = this.found.filter(({ name }) => !names.has(name));
        const countOf = (found: Examined[]) => new Set(found.map(({ name }) => name)).size;
        const count = files.length + countOf(earlier);
        const words = () => format('{done} of {n} file was examined.|{done} of {n} files were examined.',
            { done: countOf(this.found), n: count });
        await jobAt(this.app, this.job, {
            name: 'Examining the files', replaces: true, run: (bar, signal) => {
                this.found = earlier;
                this.draw();
                this.app.showPanel('disc');
                this.part.scrollIntoView({ block: 'nearest' });
                const needsMd5 = this.known()?.needs.md5 === true;
                const take = (it: Examined) => this.add(it, signal);
                return unlessEnded(signal, examineFiles(this.app, files, needsMd5, { signal, progress: done => bar.at(done, all), take }));
            },
            done: () => announce(words()),
            failed: error => fill(this.job, isCancelled(error) ? notice('plain', texts.discJobCancelled, words())
                : notice('bad', sentence(error))),
        });
    }

    /** @param signal of its examination */
    add(examined: Examined, signal: AbortSignal) {
        if (signal.aborted) return;
        this.found.push(examined);
        this.rows.append(this.row(examined));
        this.drawCounts();
    }

    draw() {
        fill(this.rows, ...this.found.map(it => this.row(it)));
        this.drawCounts();
        this.show();
    }

    drawCounts() {
        const counts = { sound: 0, wrong: 0, untested: 0, other: 0, fault: 0 };
        for (const { summary } of this.found) counts[summary ? resultOf(summary) : 'fault'] += 1;
        const shown: [number, string, string][] = [[counts.sound, 'without findings', 'good-ink'],
            [counts.wrong, 'with findings', 'bad-ink'],
            [counts.untested, 'not tested', ''], [counts.other, format('not an image|not images', { n: counts.other }), ''],
            [counts.fault, 'not examined', 'bad-ink']];
        fill(this.counts, countsRow(shown.filter(([count]) => count > 0)));
    }

    row({ name, files, summary, fault }: Examined) {
        const open = element('button', { type: 'button', class: 'plain-link', title: 'Open it', click: () => this.app.open(files) },
            nameOf(name));
        if (summary === null) {
            return element('tr', {}, element('td', {}, nameOf(name)), element('td', { class: 'wide bad-ink', colspan: 4 }, fault));
        }
        const { kind, size, hashes, verdict } = summary;
        const kinds = this.columns(summary, null)[COLUMN.KINDS];
        const what = kind === 'image' ? [element('td', {}, open), element('td', { class: 'report' }, kinds.replace(/,/g, ', '))]
            : [element('td', {}, nameOf(name)), element('td', {}, remarkText({ code: 'kind/what', facts: { kind } }))];
        return element('tr', {}, ...what,
            element('td', {}, ...findingTags(verdict)),
            element('td', { class: 'mono small wide' }, ...hashParts(hashes.sha1)),
            element('td', {}, dumpWords(this.app, { name, reader: { size }, ...hashes })));
    }
}

/** A tag for each kind of finding in a file. */
function findingTags({ level, findings }: Verdict) {
    if (findings.length === 0) return [level === 'sound' ? 'none' : '–'];
    return findings.flatMap(({ code, count }) => {
        const [words, tone] = TAGS[code];
        return [element('span', { class: `tag ${tone}` }, format(words, { n: count })), ' '];
    });
}

/** What the verdict on a file says of it. A file that was not tested is not sound. */
function resultOf({ kind, verdict: { level } }: FileSummary) {
    if (kind !== 'image') return 'other';
    if (level === 'nothing') return 'untested';
    return level === 'sound' ? 'sound' : 'wrong';
}

export function mountList(app: App) {
    const list = new FileList(app);
    app.serve({ list: files => {
        endMessages();
        void list.examine(files);
    } });
}
