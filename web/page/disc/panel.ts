// The panel Disc: the map and the findings on the left, a sector on the right.

import { filesAt } from '../../core/iso/views.js';
import { shadesOf, type App, type Look, type MapModel } from '../app/index.js';
import { SecondCard } from '../second/index.js';
import { counted, format } from '../texts/index.js';
import { button, element, fill, oneTabStop, shownName } from '../ui/index.js';
import { Findings, mountDumps } from './findings.js';
import { DiscMap } from './map.js';
import { SectorCard } from './sector_card.js';
import { addressWords, sectorWords } from './sector_fault.js';
import * as texts from '../texts/index.js';

// The legend of the map. A pressed entry shows only its mark on the map.

class Legend {
    /** The name of the pressed entry, whose sectors alone are shown, or ''. */
    alone = '';
    shown = '';
    part = element('div', { class: 'legend', role: 'group', 'aria-label': 'Legend: select an entry to show only that kind' });
    /** A button that names the pressed entry, and releases it. */
    only = element('span');

    /** @param changed called when a different entry is pressed, or none */
    constructor(readonly changed: () => void) {
        oneTabStop(this.part, 'button');
    }

    /** Releases the pressed entry. */
    forget() {
        this.alone = '';
    }

    /**
     * Shows the entries of a model, and returns the only mark to be drawn, or -1 for all. Findings with a count of 0 are shown only until
     * all sectors are read. If the model does not have the pressed entry, all marks are drawn.
     */
    show({ looks, counts, known, marks }: MapModel) {
        const shown = looks.filter(look => counts[look.mark] > 0 || (look.loud && known < marks.length));
        const pressed = shown.find(look => look.name === this.alone);
        if (!pressed) this.forget();
        const names = shown.map(look => look.name).join();
        if (names !== this.shown) this.make(shown);
        this.shown = names;
        const entries = this.part.querySelectorAll('button');
        shown.forEach((look, i) => {
            fill(entries[i].querySelector('.n') as Element, counted(counts[look.mark]));
            entries[i].setAttribute('aria-pressed', String(look === pressed));
        });
        this.only.hidden = !pressed;
        if (!pressed) fill(this.only);
        else {
            const show = format('only {name} shown ×', { name: pressed.name });
            fill(this.only, button('slim', () => this.release(pressed.name), show));
        }
        return pressed ? pressed.mark : -1;
    }

    make(looks: Look[]) {
        const entries = looks.map(look => {
            const dot = element('span', { class: 'dot' });
            dot.style.background = `var(${look.colour})`;
            const letter = look.letter === '' ? [] : [element('b', {}, look.letter), '\u00A0'];
            return element('button', { type: 'button', 'aria-pressed': 'false', click: () => this.press(look.name) },
                dot, ...letter, look.name, element('span', { class: 'n' }));
        });
        const loud = looks.findIndex(look => look.loud);
        const before = loud < 0 ? entries.length : loud;
        fill(this.part, ...entries.slice(0, before), element('span', { class: 'break' }), ...entries.slice(before));
    }

    /** @param name of the pressed entry, which gets the focus */
    release(name: string) {
        const entry = this.part.querySelector('[aria-pressed=true]') as HTMLElement | null;
        this.press(name);
        if (entry) entry.focus();
    }

    /** @param name of an entry */
    press(name: string) {
        this.alone = this.alone === name ? '' : name;
        this.changed();
    }
}

export function mountDisc(app: App, panel: HTMLElement) {
    const disc = new DiscPanel(app);
    panel.append(disc.part);
    for (const name of (['survey', 'panel'] as const)) app.on(name, () => disc.drawMap());
    app.on('surveyed', () => disc.findings.draw());
    app.on('files', () => disc.takeFiles());
    app.on('image', () => disc.begin());
    app.on('place', ({ show, wasHidden }) => disc.drawPlace(show, wasHidden));
    app.on('second', job => disc.second.begin(job));
    app.on('correct', () => {
        disc.closeSector();
        disc.second.plan();
    });
    mountDumps(app);
}

class DiscPanel {
    words = element('span', { class: 'row' });
    map; legend; findings; sector; steps; below; card; left; second; right; part;

    constructor(readonly app: App) {
        this.map = new DiscMap({
            spoken: sector => spokenOf(app, sector),
            tip: sector => tipOf(app, sector),
            choose: (sector, how) => this.choose(sector, how.focus),
            goTo: () => this.sector.ask(),
        });
        this.legend = new Legend(() => this.drawMap());
        this.findings = new Findings(app);
        this.sector = new SectorCard(app);
        this.steps = element('span', { class: 'row' }, button('slim', () => this.map.chooseFinding(-1), '◂ Previous finding'),
            button('slim', () => this.map.chooseFinding(1), 'Next finding ▸'));
        this.below = button('slim below', () => this.sector.scrollTo(), 'Open the sector ▾');
        const header = element('header', {}, element('h2', { id: 'map-title' }, texts.discMapOfDisc), this.legend.only);
        this.card = element('section', { class: 'card', 'aria-labelledby': 'map-title' }, header,
            element('div', { class: 'legend-row' }, this.legend.part, this.map.per), this.map.part,
            element('div', { class: 'readout' }, this.words, this.steps, this.below));
        this.left = element('div', { class: 'side' }, this.card, this.findings.part);
        this.second = new SecondCard(app, () => this.drawMap());
        this.right = element('div', { class: 'side' }, this.second.part, this.sector.part);
        this.part = element('div', { class: 'disc-grid' }, this.left, this.right);
    }

    /** Resets the panel after a different image was opened, or none. */
    begin() {
        this.map.show(null);
        this.map.shades = new Uint8Array(0);
        this.legend.forget();
        this.sector.close();
        this.findings.opened.clear();
        this.findings.takeFiles(false);
    }

    /** Shows where files begin on the map, and opens the first file's sector of a disc without findings, if no other one is open. */
    takeFiles() {
        const { files, survey, second, place } = this.app;
        this.findings.takeFiles(true);
        if (files === null || survey === null) return;
        this.map.shades = shadesOf(files.files, survey.marks);
        this.drawMap();
        const first = files.files.find(({ block, size }) => size > 0 && block >= survey.block && block < survey.block + survey.known);
        if (first && place.block < 0 && second === null && survey.marks.findings() === 0) this.app.goTo(first.block);
    }

    closeSector() {
        this.sector.close();
        this.drawMap();
    }

    drawMap() {
        const { survey } = this.app;
        if (survey === null) return;
        const model = this.second.model() || survey.marks;
        const alone = this.legend.show(model);
        this.map.show(model, alone);
        this.map.per.hidden = alone >= 0;
        const isAsked = this.sector.part.contains(document.activeElement); // the user may type a block while a second image is read
        this.sector.part.hidden = !this.second.part.hidden && this.app.place.block < 0 && !isAsked;
        this.drawReadout();
    }

    /**
     * @param wanted whether the place is scrolled to. From a list of the panel, the focus does not follow.
     * @param wasHidden whether the panel was hidden before, so that the focus was elsewhere
     */
    drawPlace(wanted: boolean, wasHidden: boolean) {
        const { survey, place } = this.app;
        if (survey === null || place.block < 0) return;
        this.map.moveTo(place.block - survey.block);
        this.sector.part.hidden = false;
        this.findings.drawPlace();
        this.sector.draw(true, wanted);
        if (wasHidden || (wanted && !this.part.contains(document.activeElement))) this.sector.focus();
        this.drawReadout();
    }

    /** Shows in words what is known of the chosen sector. */
    drawReadout() {
        const { app } = this;
        const { survey, place } = app;
        this.steps.hidden = survey === null || survey.marks.findings() === 0;
        this.words.hidden = this.below.hidden = survey === null || place.block < 0;
        if (survey === null || place.block < 0) return fill(this.words);
        const { kind, finding, bad } = sectorWords(app, survey, place.block - survey.block);
        const file = fileWords(app, place.block);
        return fill(this.words, element('b', {}, blockWords(place.block)),
            element('span', {}, addressWords(app, place.block)), element('span', {}, kind),
            finding !== '' && element('span', { class: bad ? 'bad-ink' : null }, finding),
            file !== '' && element('span', { class: 'small' }, file));
    }

    /** Shows a sector that was chosen on the map. The focus stays on the map unless `focus` is set. */
    choose(sector: number, focus: boolean) {
        const { survey } = this.app;
        if (survey === null) return;
        this.app.goTo(survey.block + sector);
        if (focus) this.sector.focus();
    }
}

/** The text of a sector for screen readers. */
function spokenOf(app: App, sector: number) {
    if (app.survey === null) return '';
    const { kind, finding } = sectorWords(app, app.survey, sector);
    const block = String(app.survey.block + sector);
    return finding === '' ? format('Block {block}, {kind}', { block, kind })
        : format('Block {block}, {kind}, {finding}', { block, kind, finding });
}

function blockWords(block: number) {
    return format('Block {block}', { block: String(block) });
}

/** The file that has the first user byte of a sector, in words, or ''. */
function fileWords({ files }: App, block: number) {
    const [file] = files === null ? [] : filesAt(files.files, block, 0);
    return file ? format('file {name}', { name: shownName(file.path) }) : '';
}

function tipOf(app: App, sector: number) {
    const { survey } = app;
    if (survey === null) return [''];
    const block = survey.block + sector;
    const { kind, finding, codes, damaged } = sectorWords(app, survey, sector);
    const file = fileWords(app, block);
    const found = damaged ? 'damaged' : finding;
    return [`${blockWords(block)} · ${finding === '' ? kind : found}`,
        [...damaged ? [codes] : [], format('address {address}', { address: addressWords(app, block) })].join(' · '),
        ...file === '' ? [] : [file]];
}
