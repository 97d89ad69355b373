// Checks a packed page of the small `web` of tests/tools/pack.sh: `node packed_page.mjs module|notices|worker|own PAGE FILE` starts its script
// as a browser does, and fails unless the page has the content that it was packed from. FILE is the module or the notices.

import assert from 'node:assert/strict';
import { readFileSync } from 'node:fs';
import { createContext, runInContext } from 'node:vm';
import { gunzipSync } from 'node:zlib';

const [part, name, file] = process.argv.slice(2);
const page = readFileSync(name, 'utf8');
const [, loader] = /<script>(.*?)<\/script>/s.exec(page);
const [, style] = /<style>(.*?)<\/style>/s.exec(page);
const [, policy] = /<meta http-equiv="Content-Security-Policy" content="(.*?)">/.exec(page);
const joined = await new Promise(started => {
    const document = { currentScript: { textContent: loader }, createElement: () => ({ remove: () => {} }) };
    const context = createContext({ document, atob, Blob, Response, window: { DecompressionStream } });
    document.head = { append: script => {
        document.currentScript = script;
        runInContext(script.textContent, context);
        started(context.joined);
    } };
    runInContext(loader, context);
});
const inflated = text => gunzipSync(Buffer.from(text, 'base64'));

const PARTS = {
    module: () => assert.deepEqual(inflated(joined.module), readFileSync(file)),
    notices: () => assert.deepEqual(inflated(joined.notices), readFileSync(file)),
    worker: () => {
        const answers = [];
        const self = { postMessage: answer => answers.push(...answer) };
        runInContext(joined.script, createContext({ self }));
        self.onmessage({ data: 4 });
        assert.deepEqual(answers, [7]);
    },
    own: () => {
        const { html: [before, toStyle, toScript, after], policy: [begins, ends], ...own } = JSON.parse(inflated(joined.own));
        assert.equal([before, policy, toStyle, style, toScript, joined.loader, after].join(''), page);
        assert.ok(policy.startsWith(`${begins}sha256-`) && policy.endsWith(`=${ends}`));
        assert.equal(own.style.size, Buffer.byteLength(style));
        assert.match(own.made.join(), /^esbuild [0-9.]+,zlib [0-9.]+$/);
    },
};
PARTS[part]();
