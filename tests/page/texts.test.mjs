// Names, numbers, and elements inserted into the page's texts.

import assert from 'node:assert/strict';
import { cpSync, mkdtempSync, readFileSync, readdirSync, rmSync, writeFileSync } from 'node:fs';
import { tmpdir } from 'node:os';
import { join } from 'node:path';
import { test } from 'node:test';
import { page, pageFile } from './page.mjs';

const { say, format } = await page('texts/say.js');

test('names take their places in any order, and numbers are written as counts', () => {
    assert.equal(format('{b} before {a}', { a: 'x', b: 1329 }), '1,329 before x');
    assert.equal(format('nothing'), 'nothing');
    const part = { a: 'part' };
    assert.deepEqual(say('It is {part}, {n} times.', { part, n: 2000 }), ['It is ', part, ', ', '2,000', ' times.']);
    assert.deepEqual(say('{parts}', { parts: [part, null] }), ['', part, null, '']);
});

test('the form of a text follows from its number', () => {
    const forms = '{n} sector is damaged|{n} sectors are damaged';
    assert.deepEqual([0, 1, 2, 1000].map(n => format(forms, { n })),
        ['0 sectors are damaged', '1 sector is damaged', '2 sectors are damaged', '1,000 sectors are damaged']);
    assert.equal(format('a b|c', { n: 'x' }), 'a b');
});

test('each form of another language stands at its place, whatever the engine names first', async context => {
    const place = mkdtempSync(join(tmpdir(), 'texts-'));
    context.after(() => rmSync(place, { recursive: true }));
    for (const name of ['page/texts', 'sentences', 'core']) cpSync(pageFile(join('..', name)), join(place, name), { recursive: true });
    writeFileSync(join(place, 'package.json'), '{"type": "module"}');
    const texts = join(place, 'page/texts');
    const english = readFileSync(join(texts, 'english.js'), 'utf8');
    writeFileSync(join(texts, 'english.js'), english.replace('en-GB', 'ru'));
    const russian = await import(join(texts, 'say.js'));
    const forms = [1, 3, 5, 21, 1.5].map(n => russian.format('{n} one|{n} few|{n} many|{n} other', { n }));
    assert.deepEqual(forms, ['1 one', '3 few', '5 many', '21 one', '1,5 other']);
});

test('a label that TRANSLATE names, in bold, is one of the page', () => {
    const files = readdirSync(pageFile('.'), { recursive: true }).filter(it => it.endsWith('.js'));
    const strings = files.flatMap(it => [...readFileSync(pageFile(it), 'utf8').matchAll(/(["'`])((?:\\.|(?!\1).)*)\1/g)]);
    const labels = new Set(strings.map(([, , it]) => it.replace(/(?: \(.*|: \$\{.*| \{n\}|…)$/, '')));
    const guide = readFileSync(new URL('../../docs/TRANSLATE.md', import.meta.url), 'utf8');
    const named = Array.from(guide.matchAll(/\*\*([^*]+)\*\*/g), ([, it]) => it.replace(/\s+/g, ' ').replace(/(?: \d+|…)$/, ''));
    assert.notEqual(named.length, 0);
    assert.deepEqual(named.filter(it => !labels.has(it)), []);
});
