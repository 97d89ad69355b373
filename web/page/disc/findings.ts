// The card under the map: findings grouped into places, files, and details: runs of one kind, or the output of the program.

import { KnownDumps, beginsLikeDat } from '../../core/disc/views.js';
import { auditText, kindRuns, listText } from '../../core/sectors/views.js';
import { shiftInFile } from '../../core/tasks/index.js';
import { MARK, lookOf, lookOfKind, type App, type Surveyed } from '../app/index.js';
import { fileReader } from '../open/index.js';
import { downloadText } from '../save/index.js';
import { counted, format, say } from '../texts/index.js';
import {
    button, byId, copyButton, element, fill, keyed, messageOf, nameOf, oneTabStop, seen, setAttribute, showNotice, term,
} from '../ui/index.js';
import { FilesList } from './files_list.js';
import { placeGuess, placeWords, placesOf, type Place } from './places.js';
import { addressWords, findingAt } from './sector_fault.js';
import * as texts from '../texts/index.js';

// Lists of known dumps (DAT, Logiqx XML), by which the disc is identified. A list is kept as long as the page is open.

/** Bytes of a list that are read at a time. */
const READ_STEP = 1 << 20;

export function mountDumps(app: App) {
    app.addTaker(file => takeList(app, file));
}

async function* piecesOf(file: File) {
    const reader = fileReader(file);
    for (let at = 0; at < file.size; at += READ_STEP) yield await reader.read(at, READ_STEP);
}

/** Accepts a list of known dumps, and reports it. Returns false if the file is not one by its name and its first bytes. */
async function takeList(app: App, file: File) {
    if (!/\.(dat|xml)$/i.test(file.name)) return false;
    if (!beginsLikeDat(await fileReader(file).read(0, 64))) return false;
    try {
        const known = new KnownDumps();
        await known.add(piecesOf(file));
        app.addDumps(known);
        const use = () => {
            const others = byId('list').hidden ? 'Open a disc image, to see whether it is one of them.'
                : 'The images of the list are looked up in it.';
            const next = app.image === null ? others : 'The open image is looked up in it.';
            showNotice('good', say(texts.discFileLoaded, { name: nameOf(file.name) }),
                `${format('It lists {n} known dump.|It lists {n} known dumps.', { n: known.dumps.size })} ${next}`);
        };
        return { needsImage: false, use };
    } catch (error) {
        const use = () => showNotice('bad', say('This DAT cannot be read: {name}', { name: nameOf(file.name) }),
            messageOf(error));
        return { needsImage: false, use };
    }
}

/** The result of looking up an image in the lists; null if there is no list, or as long as its SHA-1 is not known. */
export function dumpWords({ dumps }: App, { name: own, reader, sha1, crc32, md5 = '' }: { name: string, reader: { size: number },
    sha1: string, crc32: string, md5?: string }) {
    if (dumps.length === 0 || sha1 === '') return null;
    const found = dumps.flatMap(known => known.find(reader.size, { sha1, crc32, md5 }, own) || []);
    if (found.length === 0) {
        const names = dumps.flatMap(known => known.namesOfSize(reader.size));
        const name = seen(names.includes(own) ? own : names[0] || '');
        const words = names.length > 0 ? format('same size as {name}, but different bytes: damaged or patched?', { name })
            : 'not in the DAT';
        return element('span', { class: 'tag warn' }, words);
    }
    const [{ name, isBad }] = found;
    const words = isBad ? 'known as a bad dump: {name}' : 'verified: {name}';
    return element('span', { class: `tag ${isBad ? 'bad' : 'good'} dump` }, format(words, { name: seen(name) }));
}

type FindingsTab = 'findings' | 'files' | 'details';
/** A table of runs, or the output of a command. */
type Detail = 'runs' | 'audit' | 'list' | 'files';

/** The command that prints each detail as a text; `runs` are shown as a table, too. */
const COMMANDS = { runs: 'cdpatch list', audit: 'cdpatch audit', list: 'cdpatch list', files: 'cdscript files' };

const MOST_ROWS = 400;
const MOST_TEXT_LINES = 3000;

/** @param colour a CSS property */
function dotOf(colour: string) {
    const dot = element('span', { class: 'dot' });
    dot.style.background = `var(${colour})`;
    return dot;
}

export class Findings {
    tab: FindingsTab = 'findings';
    detail: Detail = 'runs';
    /** The first sectors of the places that are open. */
    opened = new Set<number>();
    tabs = element('div', { class: 'seg', role: 'tablist', 'aria-label': 'Findings, files, details' });
    body = element('div', { class: 'scroll fit', id: 'findings-body', role: 'tabpanel' });
    foot = element('p', { class: 'foot' });
    isOld = false;
    files; tools; part;

    constructor(readonly app: App) {
        this.files = new FilesList(app);
        const choice = element('select', { class: 'slim', 'aria-label': 'Which details',
            change: ({ target }) => this.chooseDetail(target.value) },
            ...Object.entries(COMMANDS).map(([name, command]) => element('option', { value: name }, name === 'runs'
                ? texts.discRunsOfSectors : format(texts.discWhatProgramPrints, { command }))));
        this.tools = element('div', { class: 'row pad details' }, choice, element('span', { class: 'row to-end' },
            copyButton('slim bare', () => this.report(), texts.copy, ' the report'),
            button('slim bare', () => downloadText(this.report(), `${COMMANDS[this.detail].replace(/^.* /, '')}.txt`),
                texts.discSaveReport)));
        this.part = element('section', { class: 'card', id: 'findings', 'aria-label': 'Findings, files, and details' },
            element('header', {}, this.tabs), this.files.tools, this.tools, this.body, this.foot);
        oneTabStop(this.tabs, '[role=tab]', tab => this.choose(tab.dataset.tab as FindingsTab));
        oneTabStop(this.body, 'tbody button');
        this.body.addEventListener('click', event => this.clicked(event.target as HTMLElement));
        for (const name of (['script', 'panel'] as const)) app.on(name, () => this.noteScript(name === 'script'));
    }

    /** @param changed whether the script has changed. What it does with the files is drawn again only when it is visible. */
    noteScript(changed: boolean) {
        this.isOld = this.isOld || changed;
        if (!this.isOld || this.app.panel !== 'disc') return;
        this.isOld = false;
        this.files.noteScript();
        if (this.shown() === 'files') this.draw();
    }

    choose(tab: FindingsTab) {
        this.tab = tab;
        this.draw();
    }

    /** The tab that is shown. Without findings it is Files in place of Findings: the page says over the panel that there are none. */
    shown() {
        const { survey } = this.app;
        return this.tab === 'findings' && survey !== null && survey.marks.findings() === 0 ? 'files' : this.tab;
    }

    chooseDetail(detail: Detail) {
        this.detail = detail;
        this.draw();
    }

    /** The output of the command of the chosen detail. */
    report() {
        const { survey, image, calls } = this.app;
        if (survey === null || image === null) return '';
        if (this.detail === 'files') return this.files.text();
        const report = this.detail === 'audit' ? auditText : listText;
        return new TextDecoder().decode(report(calls, survey, image.tail).text);
    }

    draw() {
        const { survey } = this.app;
        this.part.hidden = survey === null || survey.ended === 0 || survey.known === 0;
        if (survey === null || this.part.hidden) return;
        this.drawTabs(survey.marks.findings());
        this.files.tools.hidden = this.shown() !== 'files';
        this.tools.hidden = this.shown() !== 'details';
        const drawn = { findings: () => this.drawFindings(survey), files: () => this.drawFiles(),
            details: () => this.detail === 'runs' ? this.drawRuns([...kindRuns(survey)]) : this.drawText(this.detail) };
        drawn[this.shown()]();
    }

    drawTabs(findings: number) {
        const all: [FindingsTab, string, string][] = [['files', texts.discFilesTab, this.files.count()], ['details', 'Details',
            '']];
        if (findings > 0) all.unshift(['findings', texts.discFindingsTab, counted(findings)]);
        const [shown] = all.filter(([name]) => name === this.shown());
        setAttribute(this.body, 'aria-label', shown[1]);
        fill(this.tabs, ...all.map(([name, label, count]) => keyed(name, element('button', {
            type: 'button', role: 'tab', 'data-tab': name, 'aria-selected': String(name === this.shown()), 'aria-controls': 'findings-body',
            click: () => this.choose(name),
        }, label, count !== '' && element('span', { class: 'num' }, ` ${count}`)))));
    }

    drawFindings(survey: Surveyed) {
        const head = element('tr', {}, element('th', {}, term('block', 'Blocks')),
            element('th', { class: 'n' }, texts.discSectorsColumn), element('th', {}, 'What'),
            element('th', {}, 'Looks like'));
        const rows = placesOf(survey.marks).flatMap(place => this.placeRows(survey, place));
        this.fillTable('findings', texts.discFindingsTab, head, rows);
        fill(this.foot,
            element('span', {}, '“Looks like” is a guess from the spacing of the damaged sectors. The other columns are facts.'));
    }

    /** Shows a table with a label. If it was already shown, the focus or a press in it is not interrupted. */
    fillTable(name: string, label: string, head: HTMLElement, rows: HTMLElement[]) {
        fill(this.body, keyed(name, element('table', { 'aria-label': label }, element('thead', {}, head), element('tbody', {}, ...rows))));
    }

    placeRows(survey: Surveyed, place: Place) {
        const open = this.opened.has(place.first);
        const [first, last] = [survey.block + place.first, survey.block + place.last];
        const { mark, words } = placeWords(place);
        const range = first === last ? String(first) : `${first}–${last}`;
        const fold = element('button', { type: 'button', class: 'fold', 'aria-expanded': String(open), 'data-place': place.first },
            open ? '▾ ' : '▸ ', range);
        const row = element('tr', {}, element('td', { class: 'num nowrap' }, fold),
            element('td', { class: 'n', 'data-l': texts.discSectorsLabel }, counted(place.sectors.length)),
            element('td', {}, dotOf(lookOf(mark).colour), words),
            element('td', { class: 'wide' }, placeGuess(place, survey.marks.isElsewhere(), survey.known)));
        return open ? [row, ...this.sectorRows(survey, place)] : [row];
    }

    /** The rows of a place, one for each finding. Adjacent sectors that have lost their sync field or mode share a row. */
    sectorRows(survey: Surveyed, { sectors }: Place) {
        const rows = [];
        for (let i = 0; i < sectors.length && rows.length < MOST_ROWS; i++) {
            const from = sectors[i];
            const lost = survey.marks.marks[from] === MARK.LOST;
            while (lost && sectors[i + 1] === sectors[i] + 1 && survey.marks.marks[sectors[i + 1]] === MARK.LOST) i += 1;
            const block = survey.block + from;
            const range = from === sectors[i] ? String(block) : `${block}–${survey.block + sectors[i]}`;
            const here = this.app.place.block >= block && this.app.place.block <= survey.block + sectors[i];
            const open = element('button', { type: 'button', class: 'fold', 'data-block': block }, range);
            const words = lost ? texts.discLostInTrack : findingAt(this.app.calls, survey, from);
            rows.push(element('tr', { class: 'sub', 'aria-selected': here ? 'true' : null }, element('td', { class: 'nowrap' }, open),
                element('td'), element('td', { colspan: 2 }, words)));
        }
        const left = sectors.length - rows.length;
        if (rows.length === MOST_ROWS && left > 0) {
            rows.push(element('tr', { class: 'sub' }, element('td', { colspan: 4 },
                format('and {n} more (all are under “Details”)', { n: left }))));
        }
        return rows;
    }

    /** @param looked whether the files of the open image were looked for */
    takeFiles(looked: boolean) {
        this.files.take(looked);
        this.draw();
    }

    drawFiles() {
        this.files.draw();
        fill(this.body, this.files.part);
        fill(this.foot, this.files.all.length > 0 && element('span', {}, 'The files of the disc’s ISO 9660 volume.'));
    }

    drawRuns(runs: { first: number, last: number, kind: number }[]) {
        const head = element('tr', {}, element('th', {}, term('block', 'Blocks')),
            element('th', { class: 'n' }, texts.discSectorsColumn), element('th', {}, 'Kind'),
            element('th', {}, 'Begins at'));
        const rows = runs.slice(0, MOST_ROWS).map(({ first, last, kind }) => element('tr', {},
            element('td', { class: 'num nowrap' }, element('button', { type: 'button', class: 'fold', 'data-block': first },
                first === last ? String(first) : `${first}–${last}`)),
            element('td', { class: 'n', 'data-l': texts.discSectorsLabel }, counted(last - first + 1)),
            element('td', {}, ...this.kindWords(first, kind)),
            element('td', { class: 'num', 'data-l': 'begins at' }, addressWords(this.app, first))));
        this.fillTable('runs', texts.discRunsOfSectors, head, rows);
        const left = runs.length - rows.length;
        fill(this.foot, element('span', {}, left > 0 && `${format('and {n} more (all are in the output of cdpatch list).', { n: left })} `,
            'A run is a series of neighbouring sectors of one kind. Begins at: minutes, seconds, frames of 1/75 second.'));
    }

    /**
     * The kind of a run as shown on the map, where lost sectors have the same mark whatever their kind.
     * @param first block of the run
     */
    kindWords(first: number, kind: number) {
        const { survey } = this.app;
        const lost = survey !== null && survey.marks.marks[first - survey.block] === MARK.LOST;
        const { name, colour } = lost ? lookOf(MARK.LOST) : lookOfKind(kind);
        return [dotOf(colour), name];
    }

    drawText(detail: 'audit' | 'list' | 'files') {
        const text = this.report();
        const lines = text.split('\n');
        const shown = lines.slice(0, MOST_TEXT_LINES).join('\n');
        const more = lines.length - 1 - MOST_TEXT_LINES;
        const command = COMMANDS[detail];
        const label = format(texts.discWhatProgramPrints, { command });
        fill(this.body, element('pre', { class: 'report', tabindex: 0, 'aria-label': label },
            text === '' && detail === 'files' ? this.files.noneText() : shown,
            more > 0 && `\n${format('… {n} more line: Copy and Save have all|… {n} more lines: Copy and Save have all', { n: more })}`));
        const { survey } = this.app;
        const isExact = detail !== 'audit' || survey === null || survey.tracks.every(track => shiftInFile(track, survey.block) === 0);
        fill(this.foot, element('span', {}, isExact ? format('Exactly what the command {command} prints.', { command })
            : 'Exactly what the command cdpatch prints, except for addresses: cdpatch counts from block 0, and this image begins before ' +
                'block 0.'));
    }

    /** @param target in a row; a click anywhere in it acts like a click on its button */
    clicked(target: HTMLElement) {
        const fold = target.closest('tbody tr')?.querySelector('.fold') as HTMLElement | null | undefined;
        if (!fold) return;
        if (!fold.contains(target)) return void fold.click();
        const { block, place } = fold.dataset;
        if (block !== undefined) this.app.goTo(Number(block));
        if (place === undefined) return;
        const first = Number(place);
        if (!this.opened.delete(first)) this.opened.add(first);
        this.draw();
        const drawn = this.body.querySelector(`[data-place="${first}"]`) as HTMLElement | null;
        if (drawn) drawn.focus();
    }

    /** Marks the row of the chosen sector. */
    drawPlace() {
        for (const open of (this.body.querySelectorAll('tr.sub [data-block]') as NodeListOf<HTMLElement>)) {
            const row = open.closest('tr') as Element;
            row.setAttribute('aria-selected', String(Number(open.dataset.block) === this.app.place.block));
        }
    }
}
