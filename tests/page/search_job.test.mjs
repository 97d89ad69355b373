// The page's search is the core's: it finds a text that crosses two extents of a file.

import assert from 'node:assert/strict';
import { test } from 'node:test';
import { localPool } from '../core/pools.mjs';
import { TEXT, openedDisc } from '../core/opened.mjs';
import { withDocument } from './document.mjs';
import { calls, core, page } from './page.mjs';

const { findText } = await core('tasks/find.js');
const { encodingOf } = await core('encodings/encodings.js');

test('the page finds what the task finds, in the order of the files', async t => {
    withDocument(t);
    const { SearchJob } = await page('text/search.js');
    const { App } = await page('app/state.js');
    const { opened } = await openedDisc();
    const app = new App(calls, localPool(), null);
    const encoding = encodingOf('UTF-8');
    const { count, hits, image } = await new SearchJob(app).find({ opened }, { text: TEXT, encoding });
    const { best } = await findText(app, opened, { text: TEXT, encodings: [encoding], limit: 10 });
    assert.deepEqual([count, hits], [2, best.hits]);
    assert.equal(image, (await opened.contents()).part);
});
