// Patchers: the format of their data, how strictly it is read, and the comparison of a file with the page.

import assert from 'node:assert/strict';
import { createHash } from 'node:crypto';
import { test } from 'node:test';
import { deflateSync, inflateSync } from 'node:zlib';
import { calls, core, page } from './page.mjs';

const { base64Of, comparedWithPage, patcherText, readPatcherText, headFault } = await page('player/patcher.js');
const { bytesOfBase64 } = await page('app/pool.js');
const { MOST_SCRIPT_BYTES } = await core('module/records.js');

const data = {
    title: 'Starlit Detective <img src=x onerror=alert(1)>', author: 'Team', note: 'line\n</plaintext>\n日本語', name: 'Starlit (English).bin',
    cue: '', carry: false, base: 0, image: { size: 2352, sha1: '0'.repeat(40) }, result: 'f'.repeat(40), script: 'cdpatch 1\nset 0 0 41\n# \u3042\n',
};
const text = await patcherText(calls, data);

/** The text of data packed by other software. */
function packed(bytes, more = {}) {
    const deflated = deflateSync(bytes);
    const sum = more.sum ?? createHash('sha1').update(deflated).digest('hex');
    return `\ncdpatch-data 1 ${more.size ?? deflated.length} ${sum}\n${deflated.toString('base64')}\n`;
}

const { script, ...head } = data;
const plain = Buffer.from(`${JSON.stringify(head)}\n${script}`);

test('what is written is read, and another program reads it as it is described', async () => {
    assert.deepEqual(await readPatcherText(calls, `\n${text}`), data);
    const [, size, sum, coded] = /^cdpatch-data 1 (\d+) (\w+)\n(.*)\n$/.exec(text);
    const bytes = Buffer.from(coded, 'base64');
    assert.equal(bytes.length, Number(size));
    assert.equal(createHash('sha1').update(bytes).digest('hex'), sum);
    assert.deepEqual(inflateSync(bytes), plain);
    assert.deepEqual(await readPatcherText(calls, packed(plain)), data);
});

test('a language is read and written if it is one of those of the page, and may be missing', async () => {
    const chosen = { ...data, language: 'pt-BR' };
    assert.deepEqual(await readPatcherText(calls, `\n${await patcherText(calls, chosen)}`), chosen);
    assert.equal('language' in await readPatcherText(calls, `\n${text}`), false);
    for (const language of ['', 'xx', 'pt', 'DE', 'toString', null, ['de'], 1, undefined]) {
        assert.equal(headFault({ ...head, language }), 'the data has a wrong language', String(language));
    }
    assert.equal(headFault({ ...head, languages: 'de' }), 'the data does not have the expected fields');
});

test('a patcher that came over plain http is read, where a browser has no digest', async () => {
    const known = Object.getOwnPropertyDescriptor(globalThis, 'crypto');
    Object.defineProperty(globalThis, 'crypto', { value: undefined, configurable: true });
    try {
        assert.deepEqual(await readPatcherText(calls, `\n${await patcherText(calls, data)}`), data);
    } finally {
        Object.defineProperty(globalThis, 'crypto', known);
    }
});

test('the checksum is the SHA-1 of others, also of data that are hashed in pieces', async () => {
    const noise = createHash('sha1').update('seed').digest('hex');
    const long = { ...data, script: Array.from({ length: 60000 }, (_, i) => createHash('sha1').update(noise + i).digest('base64')).join('\n') };
    const [, size, sum, coded] = /^cdpatch-data 1 (\d+) (\w+)\n(.*)\n$/.exec(await patcherText(calls, long));
    assert.ok(Number(size) > 1 << 20);
    assert.equal(sum, createHash('sha1').update(Buffer.from(coded, 'base64')).digest('hex'));
});

test('nothing in the data is a letter of markup', () => {
    assert.match(text, /^cdpatch-data 1 \d+ [0-9a-f]{40}\n[A-Za-z0-9+/]+={0,2}\n$/);
});

test('each cut of the data is refused', async () => {
    for (let end = 0; end < text.length; end++) await assert.rejects(readPatcherText(calls, `\n${text.slice(0, end)}`), `cut at ${end}`);
});

test('each changed letter of the data is refused', async () => {
    for (let at = 0; at < text.length; at++) {
        const other = text[at] === '1' ? '2' : '1';
        await assert.rejects(readPatcherText(calls, `\n${text.slice(0, at)}${other}${text.slice(at + 1)}`), `changed at ${at}`);
    }
});

test('what follows the data, or stands before them, is refused', async () => {
    for (const wrong of [`\n${text}x`, `\n${text}\n`, `${text}`, `\n\n${text}`, `\n${text.replace('\n', '\r\n')}`, `\n ${text}`]) {
        await assert.rejects(readPatcherText(calls, wrong), { message: /form/ });
    }
});

test('data that are too long are refused while they are inflated', async () => {
    const bomb = Buffer.concat([Buffer.from(`${JSON.stringify(head)}\n`), Buffer.alloc(MOST_SCRIPT_BYTES + (5 << 20), 10)]);
    await assert.rejects(readPatcherText(calls, packed(bomb)), { message: 'the data are too long' });
});

test('what a browser inflates at once is little', async () => {
    const { DecompressionStream } = globalThis;
    const sizes = [];
    globalThis.DecompressionStream = class {
        constructor(kind) {
            const counting = new TransformStream({ transform(piece, to) { sizes.push(piece.length); to.enqueue(piece); } });
            return { writable: counting.writable, readable: counting.readable.pipeThrough(new DecompressionStream(kind)) };
        }
    };
    try {
        const noise = Array.from({ length: 4000 }, (_, i) => createHash('sha1').update(`${i}`).digest('base64')).join('\n');
        const long = Buffer.from(`${JSON.stringify(head)}\n${noise}`);
        assert.equal((await readPatcherText(calls, packed(long))).script, noise);
    } finally {
        globalThis.DecompressionStream = DecompressionStream;
    }
    assert.ok(sizes.length > 20 && Math.max(...sizes) <= 4096, String(sizes));
});

test('data without a right head are refused', async () => {
    const wrong = [
        Buffer.from('no json\n'), Buffer.from('{}\n'), Buffer.from(JSON.stringify(head)), Buffer.from(`[]\n${script}`), Buffer.from('null\n'),
        Buffer.from(`${JSON.stringify({ ...head, more: 1 })}\n`), Buffer.from(`${JSON.stringify({ ...head, title: ['x'] })}\n`),
    ];
    for (const bytes of wrong) await assert.rejects(readPatcherText(calls, packed(bytes)), { code: 'patcher' }, bytes.toString());
    await assert.rejects(readPatcherText(calls, packed(plain, { size: 5 })), { message: 'the data are incomplete' });
    const notDeflated = Buffer.from('not deflated');
    const sum = createHash('sha1').update(notDeflated).digest('hex');
    await assert.rejects(readPatcherText(calls, `\ncdpatch-data 1 12 ${sum}\n${notDeflated.toString('base64')}\n`), { message: /unpacked/ });
});

test('each member of a head has its form', () => {
    assert.equal(headFault(head), '');
    const wrong = {
        title: ['', ' ', 'x'.repeat(201), 5, '\u200b', '\u2060\u200d \u00ad', '\u3164', '\u2800', '\u0301'], author: ['x'.repeat(201), null], note: ['x'.repeat(20001)], cue: [1],
        name: ['', '.', '..', 'a/b.bin', 'a\\b.bin', 'c:d', 'a\nb', 'a?b', '<x>'], carry: [0, 'true', null], base: [-1, 0.5, '0', 449850],
        image: [null, {}, { size: -1, sha1: head.image.sha1 }, { size: 2352, sha1: 'F'.repeat(40) }, { ...head.image, more: 1 }],
        result: ['', 'f'.repeat(39), 'g'.repeat(40), null],
    };
    for (const [name, values] of Object.entries(wrong)) {
        for (const value of values) assert.notEqual(headFault({ ...head, [name]: value }), '', `${name} ${JSON.stringify(value)}`);
    }
});

test('data with a wrong head are not written', async () => {
    await assert.rejects(patcherText(calls, { ...data, title: '' }), { message: /title/ });
    await assert.rejects(patcherText(calls, { ...data, name: 'Play the game.html' }), { message: /name of the patched image/ });
});

test('base64 is that of others, of any length', () => {
    for (let size = 0; size < 70; size++) {
        const bytes = Uint8Array.from({ length: size }, (_, i) => i * 37);
        assert.equal(base64Of(bytes), Buffer.from(bytes).toString('base64'));
        assert.deepEqual(bytesOfBase64(base64Of(bytes)), bytes);
    }
    const large = new Uint8Array(100000).fill(7);
    assert.equal(base64Of(large), Buffer.from(large).toString('base64'));
});

test('a patcher of this page is the page and data, and any other page is not the same', async () => {
    const source = '<!doctype html>\n<script>"\\n<plaintext hidden id=\\"data\\">\\n"</script>\n<plaintext hidden id="data">\n';
    const bytes = string => new TextEncoder().encode(string);
    const compared = comparedWithPage(bytes(source + text), source);
    assert.equal(compared.same, true);
    assert.deepEqual(await readPatcherText(calls, compared.text), data);
    assert.deepEqual(comparedWithPage(bytes(source), source), { same: true, text: '\n' });
    const other = source.replace('doctype', 'DOCTYPE');
    assert.equal(comparedWithPage(bytes(other + text), source).same, false);
    assert.deepEqual(await readPatcherText(calls, comparedWithPage(bytes(other + text), source).text), data);
    assert.equal(comparedWithPage(bytes('<html>'), source), null);
});

test('data with the line ends of other systems are read, as a browser reads them', async () => {
    const source = '<!doctype html>\n<plaintext hidden id="data">\n';
    const bytes = string => new TextEncoder().encode(string);
    for (const end of ['\r\n', '\r']) {
        const ends = string => string.replaceAll('\n', end);
        for (const [file, same] of [[source + ends(text), true], [ends(source + text), false]]) {
            const compared = comparedWithPage(bytes(file), source);
            assert.equal(compared.same, same);
            assert.deepEqual(await readPatcherText(calls, compared.text), data);
        }
    }
});

test('white space after the page is no part of it', () => {
    const source = '<!doctype html>\n<plaintext hidden id="data">\n';
    for (const more of [' ', '\n', '\r']) assert.notEqual(comparedWithPage(new TextEncoder().encode(source + more), source).text, '\n');
});
