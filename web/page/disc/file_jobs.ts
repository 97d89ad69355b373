// Extracts the chosen file of the disc, replaces it, or removes the lines that replace it from the script.

import { readBytes } from '../../core/bytes.js';
import { Fault } from '../../core/faults.js';
import type { FileEntry, VolumeFiles } from '../../core/iso/views.js';
import { RESULT, SECTOR_SIZE } from '../../core/module/index.js';
import { pieceReader } from '../../core/readers/views.js';
import { linesMade, type UserRange } from '../../core/script/views.js';
import { blocksIn } from '../../core/sectors/views.js';
import { applyInMemory, extractFile, patchedExtents, placesOfFile, replaceFile } from '../../core/tasks/index.js';
import { ownFault } from '../../sentences/index.js';
import { ReplacedFiles, jobAt, linesIn, linesReplacing, scriptOfLines, type App, type Image } from '../app/index.js';
import { fileReader } from '../open/index.js';
import { downloadBytes } from '../save/index.js';
import { format, remarkText, say } from '../texts/index.js';
import { announce, button, element, failureNotice, fill, keyed, nameOf, notice, seen, stemOf, type Child } from '../ui/index.js';
import type { Listed } from './files_list.js';
import * as texts from '../texts/index.js';

// A file of the disc as the script patches it.

/**
 * A file as the script patches it, to be extracted. `refused` is the number of lines that write in it but do not match. Throws what the
 * reader throws.
 * @param names of its volume
 * @param entries of the file
 */
async function patchedFile({ calls, script }: App, opened: Image['opened'], names: VolumeFiles, entries: FileEntry[]) {
    const read = await scriptOfLines(script, linesIn(script, placesOfFile(names, entries)));
    const { pieces, outcomes } = await applyInMemory({ calls }, opened.part, read, { carry: true });
    const part = { ...opened.part, reader: pieceReader(opened.part.reader, pieces) };
    const fresh = await patchedExtents(entries, block => readBytes(part.reader, (block - part.base) * SECTOR_SIZE, SECTOR_SIZE));
    const refused = outcomes.filter(({ result }) => result !== RESULT.OK).length;
    return { opened: { part, contents: () => opened.contents() }, entries: fresh, refused };
}

/** The most runs of sectors in a message. */
const MOST_RUNS = 8;

export class FileJobs {
    chosen: Listed | null = null;
    isPatched = false;
    replaced = new ReplacedFiles();
    input: HTMLInputElement;
    actions = element('div', { class: 'row' });
    job = element('div', { class: 'stack' });
    message = element('div', { role: 'status' });
    parts;

    constructor(readonly app: App) {
        this.input = element('input', { type: 'file', class: 'hide', tabindex: -1, 'aria-label': 'The new file',
            change: () => void this.replace() });
        this.parts = [this.actions, this.job, this.message, this.input];
    }

    /** Removes the message about the last job. */
    forget() {
        fill(this.message);
    }

    /**
     * @param isPatched whether the script writes in it
     * @param isAny whether there are files to be chosen
     */
    draw(chosen: Listed | null, isPatched: boolean, isAny: boolean) {
        this.chosen = chosen;
        this.isPatched = isPatched;
        if (chosen === null) return fill(this.actions, isAny && element('p', { class: 'small quiet' },
            'Select a file to see its first sector and to save or replace it.'));
        return fill(this.actions, element('b', { class: 'mono' }, nameOf(chosen.path)),
            keyed('extract', button('slim', () => this.extract(chosen, false), 'Extract…')),
            isPatched && keyed('patched', button('slim', () => this.extract(chosen, true), 'Extract as patched…')),
            keyed('replace', button('slim', () => this.input.click(), 'Replace…')),
            isPatched && keyed('back', button('slim', () => this.takeBack(chosen), 'Undo the replacement')));
    }

    /**
     * Runs a job with the chosen file, shows its progress, and reports the result.
     * @param name of the job
     * @param failure the message if it fails
     */
    work(name: string, failure: string, job: (image: Image,
        watch: { signal: AbortSignal, progress: (done: number, all: number) => void }) => Promise<Child>) {
        const { app } = this;
        const { image } = app;
        if (image === null) return undefined;
        return jobAt(app, this.job, {
            name, of: 'image', run: (bar, signal) => {
                fill(this.message);
                return job(image, { signal, progress: bar.sectors });
            },
            done: message => fill(this.message, message),
            failed: error => fill(this.message, failureNotice(error, failure, [image.name])),
        });
    }

    /** @param isPatched whether the script patches it first */
    extract(file: Listed, isPatched: boolean) {
        return this.work('Reading the file', 'No file was saved.', async ({ opened }, watch) => {
            const { app, app: { files } } = this;
            const pieces: Blob[] = [];
            const take = (bytes: Uint8Array) => void pieces.push(new Blob([bytes]));
            const source = isPatched && files !== null ? await patchedFile(app, opened, files, file.entries)
                : { opened, entries: file.entries, refused: 0 };
            const others = await extractFile(app, source.opened, source.entries, take, watch);
            const name = stemOf(file.path.replace(/^.*\//, '')) || 'file.bin';
            downloadBytes(pieces, name);
            const doubt = others.length > 0 && format('{n} of its sectors is not Mode 1, so its contents may be wrong.|\
{n} of its sectors are not Mode 1, so its contents may be wrong.', { n: blocksIn(others) });
            const refused = source.refused > 0 && format(
                '{n} line that does not match is left out.|{n} lines that do not match are left out.', { n: source.refused });
            return notice(doubt || refused ? 'warn' : 'good', say(texts.discFileSaved, { name: nameOf(name) }), doubt, refused,
                !isPatched && this.isPatched && element('p', {}, 'This is the file on the disc, without the patches of the script.'));
        });
    }

    /** Removes the lines of the script that replace a file, or part of it. */
    takeBack({ path, entries }: Listed) {
        return this.work(texts.discMakingLines, texts.discNothingAdded, async (image, { signal }) => {
            const { app, app: { files, script } } = this;
            const places = files === null ? [] : placesOfFile(files, entries);
            const earlier = await linesReplacing(script, image, places, signal);
            const removed = app.changeScript(lines => this.replaced.replace(lines, image.reader, path, [], earlier));
            const [other, ...more] = linesIn(app.script, places);
            const stays = other !== undefined && format(
                'Line {line} still writes in this file.|{n} lines still write in this file. The first is line {line}.',
                { n: more.length + 1, line: String(other.number) });
            const gone = format(texts.discEarlierLinesGone, { n: removed });
            announce(stays ? `${gone} ${stays}` : gone);
            return notice(stays ? 'warn' : 'good', gone, stays, stays && element('div', { class: 'row' }, this.goToLine(other.number)));
        });
    }

    /** @param number of a line that writes in the file */
    goToLine(number: number) {
        return button('slim', () => this.app.goToLine(number - 1), format(texts.scriptGoToLine, { line: String(number) }));
    }

    async replace(): Promise<void> {
        const fresh = (this.input.files || [])[0];
        this.input.value = '';
        const { chosen, app: { files } } = this;
        if (!fresh || chosen === null || files === null) return;
        await this.work(texts.discMakingLines, texts.discNothingAdded, async (image, watch) => {
            const { app, app: { script } } = this;
            const made = await replaceFile(app, image.opened, { entries: chosen.entries, newFile: fileReader(fresh) }, watch);
            if (made.script === null) throw new Fault('script/left', { runs: made.left, image: image.part.name, most: MOST_RUNS });
            if (made.script.long) throw ownFault('The script would be longer than cdpatch accepts. Use cdscript replace-file instead.');
            const places = placesOfFile(files, chosen.entries);
            const earlier = await linesReplacing(script, image, places, watch.signal);
            const incoming = linesMade(made.script);
            const removed = app.changeScript(lines => this.replaced.replace(lines, image.reader, chosen.path, incoming, earlier));
            return this.addedWords(chosen, fresh.size, incoming, { removed, places, sharing: made.sharing });
        });
    }

    /**
     * Reports the lines that replace a file, and the earlier lines that did.
     * @param size of the new file
     * @param incoming the lines
     * @param found how many earlier lines were removed, the places of the file, and the other files that have some of its blocks
     */
    addedWords({ path, size: before }: Listed, size: number, incoming: string[],
        { removed, places, sharing }: { removed: number, places: UserRange[], sharing: string[] }) {
        const { app } = this;
        const fresh = new Set(incoming);
        const others = linesIn(app.script, places).filter(({ text }) => !fresh.has(text));
        const shared = sharing.slice(0, MOST_RUNS).map(other =>
            `${remarkText({ code: 'replace/shared-blocks', facts: { path: seen(path), other: seen(other) } })}.`);
        const words = [removed > 0 && format(texts.discEarlierLinesGone, { n: removed }),
            others.length > 0 && format('Line {line} writes in this file too, so it will not be exactly the new one.|{n} other lines write \
in this file too, the first is line {line}, so it will not be exactly the new one.', { n: others.length, line: String(others[0].number) }),
                ...shared]
            .flatMap(it => it || []);
        const rest = words.map(text => element('p', {}, text));
        const changes = removed > 0 ? rest : [texts.discNothingAdded, ...rest];
        if (incoming.length === 0) return notice('plain', texts.discNewFileIsSame, ...changes);
        const head = format(texts.discLinesAdded, { n: incoming.length });
        announce([head, ...words].join(' '));
        const length = size === before ? [] : say(
            '{name}: {before} bytes, now {after}. The directory gets the new length, and the rest of the file’s sectors becomes 00.',
            { name: nameOf(path), before, after: size });
        const go = others.length > 0 && this.goToLine(others[0].number);
        return notice(others.length + sharing.length > 0 ? 'warn' : 'good', head, ...length, ...rest,
            element('div', { class: 'row' }, go, button('slim', () => app.showPanel('script'), texts.discOpenScriptPanel)));
    }
}
