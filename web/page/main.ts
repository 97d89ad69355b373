// Entry point of the page: creates the app, mounts its panels, and starts it.

import { Calls, hasVectors } from '../core/module/index.js';
import { App, mountJobs, packedParts, poolOf, type Parts } from './app/index.js';
import { mountDisc } from './disc/index.js';
import { mountList } from './list/index.js';
import { mountOpening } from './open/index.js';
import { mountPatchers } from './player/index.js';
import { PublishPanel } from './publish/index.js';
import { mountConversion } from './save/index.js';
import { ScriptPanel } from './script/index.js';
import { mountDiscLine, mountFrame, mountHelp } from './shell/index.js';
import { TextPanel } from './text/index.js';
import { fill } from './ui/dom.js';
import { byId, element, isCancelled, showFailure } from './ui/index.js';
import * as texts from './texts/index.js';
import './worker.js';

export async function startPage(awaited: Promise<Parts>) {
    // In a frame, another page could trick the user into pressing buttons unseen.
    if (window.top !== window) return refuse('cdpatch does not run inside another page.', 'Open the file cdpatch.html itself.');
    if (!hasVectors()) return refuse(texts.frameHasNotStarted,
        'Your browser has no WebAssembly SIMD. Chromium 91, Firefox 89, Safari 16.4, and later versions have it, unless the processor ' +
        'has no SSE4.1 or the browser’s compilers are switched off.');
    const parts = await awaited;
    const app = new App(new Calls(parts.module), poolOf(parts), parts);
    mountJobs(app);
    mountFrame(app);
    mountHelp(app);
    mountOpening(app);
    mountConversion(app);
    mountDiscLine(app);
    mountDisc(app, byId('panel-disc'));
    mountList(app);
    new TextPanel(app, byId('panel-text'));
    new ScriptPanel(app, byId('panel-script'));
    new PublishPanel(app, byId('panel-publish'));
    window.addEventListener('unhandledrejection', ({ reason }) => { if (!isCancelled(reason)) showFailure(reason); });
    window.addEventListener('error', ({ error }) => { if (error) showFailure(error); });
    byId('not-started').remove();
    byId('start').hidden = false;
    byId('open-files').focus();
    await mountPatchers(app);
    return app;
}

/** Says why the page does not start. */
function refuse(what: string, why: string) {
    fill(byId('not-started'), element('b', {}, what), why);
    return null;
}

if (typeof JOINED !== 'undefined' && JOINED.script !== '') startPage(packedParts());
