// The panel Text: finds texts, lists the hits, and adds lines to the script that replace them.

import { filledUp, replaceBytes } from '../../core/tasks/index.js';
import { jobAt, mode2Note, type App } from '../app/index.js';
import { format, say } from '../texts/index.js';
import {
    announce, button, element, failureNotice, fill, hexOf, isCancelled, messageArea, messageOf, notice, sentence, showMessageAt, term,
} from '../ui/index.js';
import { AroundCard, HitsCard, readAround, type Search } from './hits_card.js';
import {
    SearchJob, bindEncodings, chosenEncoding, encodingLabel, findField, linesForAll, refusalOf, rememberSearch, showExample, tableTaker,
    takeTable, textLines,
} from './search.js';
import { ReplaceCard } from './replace_card.js';
import { TextsTable } from './texts_table.js';
import type { Hit } from '../../core/texts/views.js';
import type { Encoding } from '../../core/encodings/views.js';
import * as texts from '../texts/index.js';

export class TextPanel {
    found: Search | null = null;
    chosen = -1;
    adding = false;
    choice = element('select', { id: 'find-encoding' });
    hint = element('p', { class: 'small quiet hint' });
    state = messageArea();
    search; field; searched; table; hits; replace; around; texts; results;

    constructor(readonly app: App, panel: HTMLElement) {
        this.search = new SearchJob(app);
        const [field, searched] = findField(() => this.drawAsked(), () => void this.find());
        this.field = field;
        this.searched = searched;
        bindEncodings(app, this.choice);
        this.table = element('input', { type: 'file', class: 'hide', tabindex: -1, accept: '.tbl,.txt', 'aria-label': 'A table to load',
            change: () => this.load() });
        this.hits = new HitsCard(app, index => {
            fill(this.replace.message);
            this.choose(index);
        });
        this.replace = new ReplaceCard(app, { add: (hit, fresh, old) => this.alone(() => this.add(hit, fresh, old)),
            addAll: (fresh, byte) => this.alone(() => this.addAll(fresh, byte)), skip: () => this.next(),
            choose: index => this.choose(index) });
        this.around = new AroundCard(app);
        this.texts = new TextsTable(app);
        this.results = element('div', { class: 'two even', hidden: true }, element('div', { class: 'side' }, this.hits.card),
            element('div', { class: 'side' }, this.replace.card, this.around.card));
        panel.append(this.texts.plainCard.card, this.askCard(), this.state, this.texts.left.part, this.results, this.texts.known.card,
            this.texts.moving.card.card, this.table);
        app.addTaker(tableTaker(app, words => fill(this.state, words)));
        this.listen();
        this.drawHint();
    }

    listen() {
        const { app } = this;
        app.on('image', () => {
            this.search.end();
            this.forget();
        });
        app.on('script', () => fill(this.replace.message));
        for (const name of (['image', 'surveyed'] as const)) app.on(name, () => this.drawHint());
        app.on('encoding', () => {
            this.drawAsked();
            this.replace.draw();
            this.hits.forgetContexts();
            this.drawHits();
        });
        for (const name of (['script', 'files', 'panel'] as const)) app.on(name, () => this.drawHits());
    }

    askCard() {
        const label = (target: string, text: string) => element('label', { for: target }, text);
        const asked = element('div', {}, label('find-text', 'Find this text'), this.field);
        const find = button('main', () => this.find(), texts.textFindText);
        this.texts.plainCard.hides.push(asked, find, this.hint);
        const encoding = element('div', {}, label('find-encoding', 'Encoding'), this.choice);
        return element('section', { class: 'card pad stack tight', 'aria-label': texts.textFindText }, element('div', { class: 'ask' },
            asked, encoding, button('', () => this.table.click(), 'Load a .tbl file…'), find),
        this.hint, this.search.place, this.texts.part, this.searched);
    }

    /** Shows the bytes of the search text, or why it has none. */
    drawHint() {
        showExample(this.field, chosenEncoding(this.app).hasCharacters);
        if (this.field.value === '') return fill(this.hint,
            ...say('Searches the {data} of every sector, including text that runs over into the next one.', { data: term('user', 'data') }),
                ' ',
            this.app.survey && mode2Note(this.app.survey.marks));
        try {
            const bytes = chosenEncoding(this.app).units(this.field.value).map(([usual]) => hexOf(usual).replace(/..(?=.)/g, '$& '));
            this.field.setAttribute('aria-invalid', 'false');
            const shown = element('span', { class: 'mono' }, bytes.slice(0, 24).join(' '));
            return fill(this.hint, ...say('{n} byte: {bytes}|{n} bytes: {bytes}', { n: bytes.join(' ').split(' ').length, bytes: shown }),
                bytes.length > 24 ? '…' : '');
        } catch (error) {
            this.field.setAttribute('aria-invalid', 'true');
            return fill(this.hint, element('b', { class: 'bad-ink' }, messageOf(error)));
        }
    }

    /** Shows the hits only while they belong to the entered text and the chosen encoding. */
    drawAsked() {
        this.drawHint();
        if (!this.search.running && !this.adding) fill(this.state);
        this.drawResults();
    }

    drawResults() {
        this.results.hidden = this.found === null || !(this.adding || this.isAsked(this.found));
    }

    /** Whether a search was for the entered text in the chosen encoding. Hits of bytes can be read in any encoding. */
    isAsked({ text, encoding }: { text: string, encoding: Encoding }) {
        return this.field.value === text && (!encoding.hasCharacters || encoding === chosenEncoding(this.app));
    }

    forget() {
        this.found = null;
        this.results.hidden = true;
        this.replace.show(null);
        fill(this.state);
    }

    async find() {
        const { app } = this;
        const { image } = app;
        const query = { text: this.field.value, encoding: chosenEncoding(app) };
        if (query.text === '') return this.field.focus();
        if (image === null) return fill(this.state, notice('warn', texts.textNoImageIsOpen, texts.textOpenDiscFirst));
        if (this.field.getAttribute('aria-invalid') === 'true') return this.field.focus();
        if (this.adding) return fill(this.state, notice('warn', 'The script is still being updated.',
            'Search again when that has finished, or cancel it first.'));
        this.forget();
        rememberSearch(this.searched, query.text);
        try {
            const found = await this.search.find(image, query);
            if (found !== null) await this.take(found);
        } catch (error) {
            fill(this.state, isCancelled(error) ? notice('plain', texts.discJobCancelled, 'The search did not finish.')
                : notice('bad', messageOf(error)));
        }
        return undefined;
    }

    async take(found: Search) {
        const { app } = this;
        fill(this.state);
        if (!this.isAsked(found)) return;
        if (found.count === 0) {
            fill(this.state, notice('plain', format('No hit in {encoding}.', { encoding: encodingLabel(app.encoding) }),
                format('All user data ({sectors}) were searched.',
                    { sectors: format(texts.textCountOfSectors, { n: found.image.sectors }) }), ' ',
                texts.textAnotherEncoding));
            announce('No hit.');
            return;
        }
        this.found = found;
        this.results.hidden = false;
        this.hits.take(found);
        announce(format(texts.textHitsFound, { n: found.count }));
        this.chosen = -1;
        await this.next();
        this.replace.input.focus();
    }

    /** Redraws the hits after a change, for example of the script or the files. */
    drawHits() {
        if (this.found === null || this.app.panel !== 'text') return;
        this.hits.draw();
        const { target } = this.replace;
        if (target !== null) this.replace.show({ ...target, ...this.writtenOf(target.hit, this.found) });
    }

    /** The number of hits that the script does not write, and the line of the script that writes `hit`, or 0. */
    writtenOf(hit: Hit, { hits }: Search) {
        const { script } = this.app;
        return { left: hits.filter(it => script.lineAt(it) === 0).length, line: script.lineAt(hit) };
    }

    /** Shows a hit in the card that replaces it. */
    async choose(index: number) {
        const { app, found } = this;
        const { image } = app;
        if (found === null || image === null || index < 0) return;
        this.chosen = index;
        this.hits.chosen = index;
        const hit = found.hits[index];
        const around = await readAround(image.opened, hit);
        const old = around.bytes.slice(around.at, around.at + hit.size);
        const refusal = await refusalOf(app.calls, found.image, hit, old);
        if (this.found !== found || this.chosen !== index) return;
        this.hits.draw();
        this.replace.show({ image: found.image, hit, number: index + 1, of: found.count, old, refusal, ...this.writtenOf(hit, found) });
        this.around.show(hit, around);
    }

    /** Goes to the next hit that the script does not write. */
    async next() {
        const { found } = this;
        if (found === null) return;
        const count = found.hits.length;
        for (let k = 1; k <= count; k++) {
            const index = (this.chosen + k) % count;
            if (this.app.script.lineAt(found.hits[index]) > 0) continue;
            await this.choose(index);
            return;
        }
        await this.choose(this.chosen < 0 ? 0 : this.chosen);
        showMessageAt(this.replace.message, notice('good', texts.textAllHitsInScript, texts.textCheckToTest));
    }

    /** @param job that generates lines; only one runs at a time */
    async alone(job: () => Promise<void>) {
        if (this.adding) return;
        this.adding = true;
        await job().finally(() => { this.adding = false; });
        this.drawResults();
    }

    async add(hit: Hit, fresh: Uint8Array, old: Uint8Array) {
        const { app, found } = this;
        if (found === null) return;
        try {
            app.addLines(textLines(await replaceBytes(app.calls, found.image, hit, old, fresh)));
            const { left, line } = this.writtenOf(hit, found);
            const head = line > 0 ? format('Added to the script as line {line}.', { line: String(line) }) : 'Added to the script.';
            await this.replace.changed(notice('good', head, left === 0 && `${texts.textAllHitsInScript} ${texts.textCheckToTest}`));
        } catch (error) {
            showMessageAt(this.replace.message, notice('bad', texts.discNothingAdded, sentence(error)));
        }
    }

    /** Adds lines for each hit that the script does not write, and lists the hits that cannot be replaced. */
    async addAll(fresh: Uint8Array, filling: Uint8Array | null) {
        const { app, found } = this;
        const { image } = app;
        if (found === null || image === null) return;
        await jobAt(app, this.replace.job, {
            name: texts.discMakingLines, noun: 'hits', of: 'image', run: (bar, signal) => {
                const hits = found.hits.filter(hit => app.script.lineAt(hit) === 0);
                const places = { image: found.image, encoding: chosenEncoding(app), hits };
                return linesForAll(app, image.opened, places, size => filledUp(fresh, size, filling), { signal, progress: bar.things });
            },
            done: made => this.found === found && this.addedAll(made),
            failed: error => showMessageAt(this.replace.message, failureNotice(error, texts.discNothingAdded)),
        });
    }

    async addedAll({ lines, left }: Awaited<ReturnType<typeof linesForAll>>) {
        const rest = left.length === 0 ? texts.textCheckToTest
            : format('{n} hit not replaced: {why}|{n} hits not replaced: {why}',
                { n: left.length, why: left.slice(0, 5).join('; ') + (left.length > 5 ? '; …' : '.') });
        const words = notice(left.length > 0 ? 'warn' : 'good', format(texts.discLinesAdded, { n: lines.length }), rest);
        if (lines.length === 0) return showMessageAt(this.replace.message, words);
        this.app.addLines(lines);
        return this.replace.changed(words);
    }

    async load() {
        const file = (this.table.files || [])[0];
        this.table.value = '';
        if (file) fill(this.state, notice(...await takeTable(this.app, file)));
    }
}
