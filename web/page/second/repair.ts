// Repairs the open image from its own parity and from a second image, and shows the plan before anything is saved.

import { readBytes, type Piece } from '../../core/bytes.js';
import { SECTOR_SIZE, type Calls } from '../../core/module/index.js';
import { pieceReader } from '../../core/readers/views.js';
import { blocksIn, findingOf, firstBlocks, runsWithout, testMode2, type Run } from '../../core/sectors/views.js';
import { isSameRange, repairTrack, verdictOfRepair, type Refusal, type Repair, type Shift } from '../../core/tasks/index.js';
import { blocksText, verdictText } from '../../sentences/index.js';
import { mode2Finding, type App, type Image } from '../app/index.js';
import { swapImages } from '../open/index.js';
import { isPatched, patchedName } from '../save/index.js';
import { counted, format, say } from '../texts/index.js';
import { button, capital, countsRow, element, fill, nameOf, notice, refuseWhileSaving, tableCard, term, type Child } from '../ui/index.js';
import { writeScript } from './compare.js';
import { PairJob, fileSayer, repairMarks, sectorOfSecond } from './pair_job.js';
import { RepairSaver } from './repair_save.js';
import * as texts from '../texts/index.js';

// The table of the sectors that a repair leaves damaged, with the findings in both images.

/**
 * A sector that is not repaired, with the findings in both images. `same`: whether both hold the same bytes, null if the second image does
 * not have the block.
 */
type DamageRow = { block: number, here: string, there: string, file: string, same: boolean | null };

const MOST_ROWS = 200;

async function tableOfDamage(app: App, unrepaired: Run[]) {
    const rows = await rowsOf(app, firstBlocks(unrepaired, MOST_ROWS));
    if (rows.length === 0) return null;
    const count = blocksIn(unrepaired);
    const cells = rows.map(({ block, here, there, file }) => element('tr', {},
        element('td', { class: 'n', 'data-l': texts.discBlockLabel },
            button('slim bare tiny', () => app.goTo(block, -1, true), String(block))),
        element('td', { class: 'mono small', 'data-l': 'here' }, here),
        element('td', { class: 'mono small', 'data-l': 'there' }, there), element('td', { class: 'mono small wide' },
            file)));
    const head = element('tr', {}, element('th', { class: 'n' }, term('block', texts.textColumnBlock)), element('th', {},
        'Here'),
        element('th', {}, 'In the second image'), element('th', {}, texts.textColumnFile));
    const text = rows.map(({ block, here, there, file }) => `${block}\t${here}\t${there}\t${file}\n`).join('');
    return tableCard(format('Without a sound copy: {n}', { n: count }), head, cells, text, footOf(rows, count - rows.length));
}

async function rowsOf(app: App, blocks: number[]) {
    const { calls, image, files } = app;
    const rows: DamageRow[] = [];
    const fileOf = fileSayer(files);
    if (image === null) return rows;
    for (const block of blocks) {
        const old = await readBytes(image.reader, (block - image.base) * SECTOR_SIZE, SECTOR_SIZE);
        const other = await sectorOfSecond(app, block);
        const [here, there] = [old, other].map(sector => sector === null ? 'not there'
            : wordsOf(calls, block, sector));
        const same = other === null ? null : old.every((it, i) => it === other[i]);
        rows.push({ block, here, there, file: fileOf(block), same });
    }
    return rows;
}

function wordsOf(calls: Calls, block: number, sector: Uint8Array) {
    const record = calls.survey(sector, block);
    const [found] = testMode2(calls, sector, record, block);
    return findingOf(calls, block, record) || mode2Finding(found) || 'not Mode 1';
}

/** The text under the rows. It compares only blocks that the second image has. `left` is the number of blocks without a row. */
function footOf(rows: DamageRow[], left: number) {
    const more = left > 0 ? `${format('and {n} more block.|and {n} more blocks.', { n: left })} ` : '';
    const same = rows.filter(row => row.same).map(row => row.block);
    const several = same.length < 4 ? format(same.length === 1 ? 'block {blocks}' : 'blocks {blocks}', { blocks: same.join(', ') })
        : format('{n} of these blocks', { n: same.length });
    if (same.length > 0) return `${more}${format(
        'In {blocks} both images hold the same bytes: perhaps the damage is on the disc itself, or on purpose.',
        { blocks: several })} A third dump would show it.`;
    const isPart = rows.some(row => row.same === null);
    return more + (isPart ? 'The second image has no sound copy of these blocks.' : 'The images differ in each of these blocks.');
}

// The texts about a repair: how many sectors it repairs and how many stay damaged, or why it is refused.

const MOST_RUNS_NAMED = 8;

function refusedWords({ same: [n] }: Repair, refused: Refusal, { name }: Image) {
    if (refused.why === 'untested') return notice('bad', say(
        '{name} has no sector whose codes can show damage, so it cannot be repaired. Nothing was copied.', { name: nameOf(name) }));
    if (refused.why === 'apart') return notice('bad', say(texts.openIsAnotherPart, { name: nameOf(name) }));
    if (refused.shift !== null) return shiftedWords(refused.shift, name);
    const { sound, untested, common: all } = refused;
    const same = format('{n} of {all} sectors are the same in both.', { n, all });
    const sectors = [sound > 0 && format('{n} sector is sound in both and differs|{n} sectors are sound in both and differ', { n: sound }),
        untested > 0 && format('{n} sector was not tested and differs|{n} sectors were not tested and differ',
            { n: untested })].filter(Boolean).join(', ');
    return notice('bad', texts.secondPatchedOrOther, `${same} `,
        format('{sectors}: more than one in a hundred. Nothing was copied.', { sectors }));
}

/** @param name of the open image */
function shiftedWords({ by, first, isOther }: Shift, name: string) {
    const n = Math.abs(by);
    const why = format(by > 0 ? '{n} sector before it is missing|{n} sectors before it are missing'
        : '{n} sector before it is too many|{n} sectors before it are too many', { n });
    const image = isOther ? ['The second image'] : nameOf(name);
    const parts = { image, sectors: format(texts.textCountOfSectors, { n }), block: String(first) };
    return notice('bad', say('{image} is shifted by {sectors} from block {block} on.', parts), format(
        'Its addresses show it: {why}. Nothing was copied.', { why }));
}

/**
 * Says that nothing is repaired. Of an image without damage it also says how many sectors differ, so that nobody thinks that both images
 * are the same.
 * @param damaged the number of sectors that stay damaged
 * @param otherJobs the buttons of the jobs that are offered instead
 */
function nothingWords(repair: Repair, damaged: number, { name }: Image, otherJobs: Child[]) {
    const { same: [same], ranges: [{ common, beyond }] } = repair;
    const row = element('div', { class: 'row' }, ...otherJobs);
    if (damaged > 0) return notice('plain', 'This dump cannot repair anything here.',
        'None of the sectors damaged here has a sound copy with the right address there.', row);
    const all = blocksIn(common);
    const isWhole = beyond.length === 0 && verdictOfRepair(repair).findings.length === 0;
    return notice(same < all ? 'warn' : 'plain',
        say(isWhole ? 'No damage was found in {name}, so there is nothing to repair.' : 'No damaged sector was found in {name}.',
            { name: nameOf(name) }),
        format('{n} of {all} sectors differs between the two images.|{n} of {all} sectors differ between the two images.',
            { n: all - same, all }), row);
}

/**
 * Says what the open image lacks at its end, which a repair does not change, and which blocks only the second image has.
 * @param otherJobs the buttons of the jobs that are offered to include these blocks
 */
function endWords(repair: Repair, { name }: Image, otherJobs: Child[]) {
    const { ranges: [{ beyond }] } = repair;
    const verdict = verdictOfRepair(repair);
    const lacks = verdict.findings.length > 0 && `${capital(verdictText(verdict))}.`;
    if (beyond.length === 0) return lacks && notice('warn', lacks, 'A repair does not change this.');
    const only = element('span', {}, ...say('Only {name} has {blocks}. To include them, repair it from this image.',
        { name: nameOf(name), blocks: blocksText(beyond) }));
    const row = element('div', { class: 'row' }, ...otherJobs);
    return lacks ? notice('warn', lacks, only, row) : notice('plain', only, row);
}

/** Warns about copies that nothing in the replaced sector confirms. A sector that was not read could confirm none, but the others do. */
function doubtWords({ doubtful, unread, unlike, different: [different = 0] }: Repair): Child[] {
    const others = runsWithout(doubtful, unread);
    const isOther = others.length > 0 || different > 0 || unlike.length > 0;
    const look = (runs: Run[]) => format('Perhaps the second image is another release of the disc: look at {blocks} first.',
        { blocks: blocksText(runs, MOST_RUNS_NAMED) });
    return [others.length > 0 && notice('warn', format(
        'Nothing confirms {n} copy: data and EDC here are different.|Nothing confirms {n} copies: data and EDC here are different.',
        { n: blocksIn(others) }), look(others)),
    unread.length > 0 && isOther && notice('warn', notReadText(unread), look(unread))];
}

function notReadText(unread: Run[]) {
    return format(
        '{n} sector was not read here, and cannot confirm its copy.|{n} sectors were not read here, and cannot confirm their copies.',
        { n: blocksIn(unread) });
}

/** What confirms the copies: the rest of the sector or, if it was not read, the other sectors. */
function copiesText({ taken, doubtful, unread, unlike, different: [different], same: [same], ranges: [{ common }] }: Repair) {
    const n = blocksIn(taken) - blocksIn(doubtful);
    const isSame = different === 0 && unlike.length === 0 && format(
        'It is probably the same disc: {n} of {all} compared sectors are equal, and none is sound in both but different.',
        { n: same, all: blocksIn(common) });
    return [n > 0 && format('{n} copy agrees with what is left of the sector.|{n} copies agree with what is left of the sectors.', { n }),
        unread.length > 0 && notReadText(unread), unread.length > 0 && isSame].filter(Boolean).join(' ');
}

/** A part of the plan: its sectors, where they come from, what confirms them, and their blocks. */
function planRow(runs: Run[], looks: string, title: Child[], ...words: Child[]) {
    return runs.length > 0 && element('li', {}, element('b', { class: looks }, counted(blocksIn(runs))), element('div', {},
        element('b', {}, ...title), element('p', { class: 'small quiet' }, ...words),
        element('details', {}, element('summary', {}, 'Show the blocks'),
            element('p', { class: 'mono small' }, blocksText(runs, MOST_ROWS)))));
}

/** The plan: what parity confirms, what the second image has, and what is left. */
function planOf(app: App, repair: Repair, unrepaired: Run[], second: Image | null) {
    const left = second === null
        ? planRow(unrepaired, 'bad-ink', ['Not corrected'], 'Another dump can have a sound copy. ',
            button('slim', () => app.choose('repair'), texts.imageRepairFromOther))
        : planRow(unrepaired, 'bad-ink', ['Without a sound copy'],
            'A third dump can have a sound copy: save the repaired image, open it, and repair it from that dump.');
    return element('ul', { class: 'plan' },
        planRow(repair.corrected, 'good-ink', ['By their own parity'], 'The EDC that was read confirms each. No other dump is needed.'),
        second !== null && planRow(repair.taken, 'good-ink', say('From {name}', { name: nameOf(second.name) }), copiesText(repair)),
        left);
}

/**
 * The result of a repair, in words.
 * @param otherJobs the buttons of the jobs that are offered if nothing is repaired, or if the second image has more blocks
 */
function foundWords(app: App, { repair, unrepaired }: Found, image: Image, second: Image | null, otherJobs: Child[]): Child[] {
    const { unlike, different: [different = 0], tails: [tail = false], ranges: [range] } = repair;
    const { missing, beyond } = range || { missing: [], beyond: [] };
    const untested = blocksIn(repair.untested);
    const isLonger = beyond.length > 0;
    const [repaired, damaged] = [[...repair.corrected, ...repair.taken], unrepaired].map(blocksIn);
    const tally = countsRow([[repaired, texts.secondCanBeRepaired, repaired > 0 ? 'good-ink' : ''],
        [damaged, texts.secondHaveNoCopy, damaged > 0 ? 'bad-ink' : ''],
        ...second === null ? [] : [[different, 'sound in both, but different', ''] as [number, string, string]]]);
    return [tally, planOf(app, repair, unrepaired, second),
        missing.length > 0 && notice('plain', format('The second image does not have {blocks}.', { blocks: blocksText(missing) }),
            'These stay as they are here.'),
        second !== null && endWords(repair, second, isLonger ? otherJobs : []),
        second !== null && repaired === 0 && nothingWords(repair, damaged, image, isLonger ? [] : otherJobs),
        ...doubtWords(repair),
        different > 0 && notice('warn', format('{n} sector is sound in both, and differs.|{n} sectors are sound in both, and differ.',
            { n: different }), 'Perhaps it is another release of the disc. What differs stays as it is here.'),
        unlike.length > 0 && notice('warn', format('{n} sector was not tested, and differs.|{n} sectors were not tested, and differ.',
            { n: blocksIn(unlike) }), 'Nothing in audio, or in Mode 2 without codes, would show damage. What differs stays as it is here.'),
        tail && notice('warn', texts.secondTailsDiffer, 'They stay as they are here.'),
        element('p', { class: 'small quiet' }, untested > 0 && `${format('{n} sector was not tested: nothing in it would show damage.|\
{n} sectors were not tested: nothing in them would show damage.', { n: untested })} `,
            'Only sectors that are damaged or lost here are written. Your file stays as it is. ' +
            'Damage may be deliberate: some copy protections need it.')];
}

// The note that patches of the script are not in an image that a repair or a correction saves.

export class WithoutScript {
    part = element('p', { class: 'small quiet', hidden: true }, texts.correctWithoutScript);
    made: { image: Image, pieces: Piece[] } | null = null;
    number = 0;

    constructor(readonly app: App) {
        for (const name of (['script', 'panel'] as const)) app.on(name, () => void this.draw());
    }

    forget() {
        this.made = null;
        this.part.hidden = true;
    }

    /**
     * @param image the open one
     * @param pieces of the image to be saved
     */
    show(image: Image, pieces: Piece[]) {
        this.made = { image, pieces };
        void this.draw();
    }

    async draw() {
        if (this.made === null || this.app.panel !== 'disc') return;
        const number = ++this.number;
        const isLacking = await this.isLacking(this.made);
        if (number === this.number && this.made !== null) this.part.hidden = !isLacking;
    }

    /** Whether the script has patches other than those that the image to be saved already holds, such as the corrections of its sectors. */
    async isLacking({ image, pieces }: { image: Image, pieces: Piece[] }) {
        const { script } = this.app;
        if (script.patches === 0 && script.faults === 0 && !script.long) return false;
        const work = { reader: pieceReader(image.reader, pieces), base: image.base, script: script.text() };
        return !await isPatched(this.app, work).catch(() => false); // a faulty script may have any patches
    }
}

/** The repair, the pieces of the repaired image, and the blocks that are damaged or lost in it. */
type Found = { repair: Repair, pieces: Piece[], unrepaired: Run[] };

/** How many sectors a repair writes. */
function repairedBlocks({ corrected, taken }: Repair) {
    return blocksIn(corrected) + blocksIn(taken);
}

export class SecondRepair extends PairJob {
    found; drawn; saver; without;

    constructor(app: App, changed: () => void) {
        super(app, changed);
        this.found = null as Found | null;
        this.drawn = 0;
        this.saver = new RepairSaver(app, this.place, 'repaired-sha1');
        this.without = new WithoutScript(app);
        app.on('surveyed', () => this.draw());
        app.on('files', () => void this.drawTable());
    }

    forget() {
        this.saver.forget();
        this.without.forget();
        this.found = null;
        super.forget();
    }

    async begin() {
        const { app, app: { image, second } } = this;
        if (this.begun || image === null) return;
        const pieces: Piece[] = [];
        const take = (piece: Piece) => void pieces.push(piece);
        const dumps = second === null ? [] : [second.opened];
        await this.once(watch => repairTrack(app, image.opened, dumps, take, { ...watch, parity: true }), async repair => {
            const unrepaired = repair.refused ? [] : [...repair.damaged, ...repair.lost].sort((a, b) => a.first - b.first);
            this.found = { repair, pieces, unrepaired };
            this.draw();
            if (second !== null) app.setRepair(repair);
            await this.drawTable();
        });
    }

    /** Shows the result, on the map too. If the repair is refused, only the reason is shown. */
    draw() {
        const { found, app: { image, second, survey } } = this;
        if (found === null || image === null || survey === null) return;
        const { repair, unrepaired } = found;
        this.marks = repair.refused ? null : repairMarks(survey.marks, [...repair.corrected, ...repair.taken], unrepaired);
        const jobs = second === null ? [] : this.otherJobs(image, second, found);
        const words = repair.refused ? [refusedWords(repair, repair.refused, image)]
            : [...foundWords(this.app, found, image, second, jobs), this.buttons(image, found), this.place];
        fill(this.body, ...words);
        this.changed();
    }

    /**
     * The buttons that compare the images, if the open one has no damage, and that repair the second image from the open one. The latter is
     * the main button if only the second image has some blocks, and nothing is repaired.
     */
    otherJobs(image: Image, second: Image, { repair, unrepaired }: Found) {
        const isBest = repair.ranges[0].beyond.length > 0 && repairedBlocks(repair) === 0;
        const label = element('span', {}, ...say(texts.openRepairOtherFrom, { name: nameOf(second.name), other: nameOf(image.name) }));
        return [unrepaired.length === 0 && isSameRange(image, second) &&
            button('main', () => this.app.setSecond(second, 'compare'), texts.openCompareIt),
        button(isBest ? 'main' : 'away', () => !refuseWhileSaving(this.app, [second.name]) && swapImages(this.app, second), label)];
    }

    /** The button that saves the repaired image, with a note if patches of the script are not in it; null if nothing was repaired. */
    buttons(image: Image, { repair, pieces, unrepaired }: Found) {
        if (repairedBlocks(repair) === 0) return null;
        const save = () => void this.saver.save(pieces, repairedBlocks(repair), unrepaired, this.app.second, repair.doubtful);
        this.without.show(image, pieces);
        return element('div', { class: 'stack' }, this.without.part,
            element('div', { class: 'row' }, button('main', save, texts.secondSaveRepaired)));
    }

    actions() {
        const { found, app: { image } } = this;
        if (found === null || image === null || found.repair.refused || repairedBlocks(found.repair) === 0) return [];
        return [{ label: texts.secondWriteRepairAsScript, press: () => void this.writeScript(image, found) }];
    }

    writeScript(image: Image, { pieces }: Found) {
        const fresh = pieceReader(image.reader, pieces);
        const name = patchedName(image.name, 'repair', '.txt');
        return writeScript(this.app, this.place, { image, fresh, goal: texts.secondTheRepairedImage, name, skipMode2: true });
    }

    /** Lists the sectors that are not repaired, and lists them again as soon as the files are known. */
    async drawTable() {
        const { found } = this;
        if (found === null) return;
        const number = ++this.drawn;
        const table = this.app.second === null ? null : await tableOfDamage(this.app, found.unrepaired);
        if (this.found === found && number === this.drawn) fill(this.table, table);
    }
}
