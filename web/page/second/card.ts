// The card of a repair, with a second image or without one, and of the comparison with a second image.

import { isSameRange } from '../../core/tasks/index.js';
import { countedAs, readImage } from '../open/index.js';
import { playerTexts, say } from '../texts/index.js';
import {
    button, byId, crossButton, element, fill, focusAgain, isCancelled, keyed, messageArea, moreButton, nameOf, notice, oneTabStop,
    refuseWhileSaving, sayBusy, sentence, setAttribute,
} from '../ui/index.js';
import { SecondCompare } from './compare.js';
import { SecondRepair } from './repair.js';
import type { App, PairJob as Job } from '../app/index.js';
import * as texts from '../texts/index.js';

export class SecondCard {
    tab: Job = 'repair';
    title = element('h2', { id: 'second-title' });
    tabs = element('div', { class: 'seg', role: 'tablist', 'aria-label': 'What to do with the second image' });
    message = messageArea();
    body = element('div', { class: 'stack', role: 'tabpanel', id: 'second-body', tabindex: -1 });
    table = element('div');
    jobs; part;

    /** @param changed is called when the map has to be redrawn */
    constructor(readonly app: App, readonly changed: () => void) {
        this.jobs = { repair: new SecondRepair(app, changed), compare: new SecondCompare(app, changed) };
        oneTabStop(this.tabs, '[role=tab]', tab => this.choose(tab.dataset.tab as Job));
        const more = moreButton('slim away', 'second', 'More about the repair or the second image', () => [...this.jobs[this.tab].actions(),
            ...app.second === null ? [] : [{ label: texts.openItInstead, press: () => this.openInstead() }]]);
        const card = element('section', { class: 'card', 'aria-labelledby': 'second-title' },
            element('header', { class: 'one-line' }, this.title, more, crossButton(playerTexts.close, () => this.close())),
            element('div', { class: 'pad stack' }, this.message, this.tabs, this.body));
        this.part = element('div', { class: 'side', hidden: true }, card, this.table);
    }

    /** The marks of the map if it shows both images, else null. */
    model() {
        return this.part.hidden ? null : this.jobs[this.tab].model();
    }

    close() {
        if (refuseWhileSaving(this.app, [], this.message)) return;
        this.app.setSecond(null);
        focusAgain(byId('map'));
    }

    /** Opens the second image in place of the open image. The script is kept. */
    openInstead() {
        const { second } = this.app;
        if (second === null || refuseWhileSaving(this.app, [], this.message)) return;
        readImage(this.app, countedAs(second, second.opened.byAddresses), () => focusAgain(byId('map')));
    }

    /** Begins the repair that the open image and, if there is one, the second image allow. */
    plan() {
        const { place } = this.jobs.repair;
        if (this.app.jobAt(place) === undefined) this.begin('repair', true);
        else sayBusy(place);
    }

    /**
     * Starts again after the second image was replaced or closed. The focus goes to the job, so that its result is next to it.
     * @param isPlan whether a repair is wanted without a second image too
     */
    begin(job: Job, isPlan: boolean = false) {
        const { image, second } = this.app;
        this.app.endPairing();
        this.jobs.repair.forget();
        this.jobs.compare.forget();
        this.part.hidden = image === null || (second === null && !isPlan);
        if (!this.part.hidden) {
            fill(this.title, ...second === null ? ['Repair'] : say('Second image: {name}', { name: element('span', { class: 'plain' },
                nameOf(second.name)) }));
            this.choose(job);
            this.body.focus({ preventScroll: true });
            requestAnimationFrame(() => this.part.scrollIntoView({ block: 'nearest' }));
        }
        this.changed();
    }

    choose(tab: Job) {
        if (this.part.hidden) return;
        this.tab = tab;
        this.drawTabs();
        const job = this.jobs[tab];
        fill(this.body, job.body);
        fill(this.table, job.table);
        this.changed();
        job.begin().catch(error => this.failed(error, job.body));
    }

    /** @param body of the job */
    failed(error: unknown, body: Element) {
        const again = element('div', { class: 'row' }, button('', () => this.choose(this.tab), texts.secondBeginAgain));
        const why = isCancelled(error) ? element('p', {}, texts.discJobCancelled) : notice('bad', sentence(error),
            texts.secondNothingFoundOut);
        fill(body, why, again);
    }

    drawTabs() {
        const names: [Job, string][] = [['repair', texts.secondRepairFromIt], ['compare', texts.openCompareIt]];
        const { image, second } = this.app;
        // A script cannot change the length of an image or move sectors, so images of different ranges are not compared.
        if (image === null || second === null || !isSameRange(image, second)) names.pop();
        this.tabs.hidden = names.length === 1;
        const repair = second === null ? 'Repair' : texts.secondRepairFromIt;
        setAttribute(this.body, 'aria-label', this.tab === 'repair' ? repair : texts.openCompareIt);
        fill(this.tabs, ...names.map(([tab, label]) => keyed(tab, element('button', {
            type: 'button', role: 'tab', 'data-tab': tab, 'aria-selected': String(tab === this.tab), 'aria-controls': 'second-body',
            click: () => this.choose(tab),
        }, label))));
    }
}
