// The languages of the page of a patcher: their texts have the same keys, names in braces, and the forms that their counts need.

import assert from 'node:assert/strict';
import { test } from 'node:test';
import { page } from './page.mjs';

const { ENGLISH: texts } = await page('texts/player/english.js');
const { LANGUAGES, knownLanguage, playerTexts, setLanguage } = await page('texts/language.js');
const { counted, format, remarkText } = await page('texts/say.js');
const { ENGLISH: sentences, KINDS } = await page('../sentences/english.js');

const OTHERS = LANGUAGES.map(([tag]) => tag).filter(tag => tag !== 'en');

/** What a function returns while the page is in a language. */
const inLanguage = (tag, run) => {
    setLanguage(tag);
    try {
        return run();
    } finally {
        setLanguage('en', false);
    }
};
const textsOf = tag => inLanguage(tag, () => ({ ...playerTexts }));
const namesIn = text => [...new Set(text.match(/\{\w+\}/g) || [])].sort();
const keysOf = it => Object.keys(it).sort();

test('each language has each text, and none is empty', async () => {
    for (const tag of OTHERS) {
        const [own] = Object.values(await page(`texts/player/${tag.toLowerCase().replace('-', '_')}.js`));
        assert.deepEqual(keysOf(own), keysOf(texts), tag);
        assert.deepEqual(Object.entries(own).filter(([, text]) => typeof text === 'string' && text.trim() === ''), [], tag);
    }
});

test('a translation inserts what the English text inserts', () => {
    for (const tag of OTHERS) {
        for (const [key, text] of Object.entries(textsOf(tag))) {
            if (key !== 'sentences') assert.deepEqual(namesIn(text), namesIn(texts[key]), `${tag}: ${key}`);
        }
    }
});

test('a text in several forms has the forms that the counts of its language need', () => {
    for (const [tag] of LANGUAGES) {
        const counts = new Intl.PluralRules(tag);
        const needed = new Set(Array.from({ length: 1000 }, (_, n) => counts.select(n))).size;
        for (const [key, text] of Object.entries(textsOf(tag))) {
            if (key === 'sentences') continue;
            const isFormed = texts[key].includes('|');
            assert.equal(text.split('|').length, isFormed ? needed : 1, `${tag}: ${key}`);
            // The last form is for most numbers, and inserts all that the text inserts.
            assert.deepEqual(namesIn(text.split('|').at(-1)), namesIn(text), `${tag}: ${key}`);
        }
    }
});

test('no text begins or ends with a space, except where the English one does', () => {
    const edges = text => [text.startsWith(' '), text.endsWith(' '), /…$/.test(text), /[.?!]$/.test(text)];
    for (const tag of OTHERS) {
        for (const [key, text] of Object.entries(textsOf(tag))) {
            if (key !== 'sentences') assert.deepEqual(edges(text), edges(texts[key]), `${tag}: ${key}`);
        }
    }
});

test('the failures that a player can see have sentences in each language, with the same facts', () => {
    const kinds = Object.keys(KINDS).filter(kind => !['raw', 'audio', 'cue', 'iso', 'subchannels'].includes(kind));
    const codes = [...Object.keys(sentences).filter(code => code.startsWith('cue/')), 'disc/two-sheets', 'disc/no-image', 'disc/no-data',
        'disc/sector-size', ...kinds.map(kind => `disc/other-file/${kind}`)];
    for (const tag of OTHERS) {
        assert.deepEqual(keysOf(textsOf(tag).sentences), [...codes].sort(), tag);
        for (const each of codes) {
            const [, kind] = each.split('disc/other-file/');
            const code = kind === undefined ? each : 'disc/other-file';
            const facts = kind === undefined ? {} : { kind };
            for (const name of ['line', 'track', 'name', 'size', 'one', 'other', 'most', 'type', 'before', 'index', 'time']) facts[name] = `<${name}>`;
            const said = inLanguage(tag, () => remarkText({ code, facts }));
            const found = text => [...new Set(text.match(/<\w+>/g) || [])].sort();
            assert.notEqual(said, remarkText({ code, facts }), `${tag}: ${each}`);
            assert.deepEqual(found(said), found(remarkText({ code, facts })), `${tag}: ${each}`);
            assert.doesNotMatch(said, /[{}]|undefined/, `${tag}: ${each}`);
        }
    }
});

test('a player is told which file to choose, and sees no command of a program; an author sees it', () => {
    const said = kind => remarkText({ code: 'disc/other-file', facts: { name: 'FILE', kind } });
    const commands = kind => said(kind).match(/`|chdman|unecm|toc2cue|cdscript|cdpatch|docs|terminal/g) || [];
    // A player's ISO image, or one with subchannels, is converted, and gets no such sentence.
    const kinds = Object.keys(KINDS).filter(kind => !['iso', 'subchannels'].includes(kind));
    for (const [tag] of LANGUAGES) {
        for (const kind of kinds) assert.deepEqual(inLanguage(tag, () => commands(kind)), [], `${tag}: ${kind}`);
        for (const kind of ['chd', 'ecm', 'toc']) assert.match(inLanguage(tag, () => said(kind)), /\bBIN\b/, `${tag}: ${kind}`);
    }
    assert.deepEqual(['chd', 'ecm', 'toc'].map(kind => commands(kind)[1]), ['chdman', 'unecm', 'toc2cue']);
});

test('a failure without a translation is said in English', () => {
    const remark = { code: 'image-ended', facts: { at: 1000 } };
    assert.equal(inLanguage('es', () => remarkText(remark)), 'the image ends at byte 1000');
});

test('the language of a patcher decides the forms and the numbers', () => {
    assert.deepEqual([1, 2].map(n => format(playerTexts.playerPlacesOfPatch, { n })), ['1 place to patch', '2 places to patch']);
    assert.deepEqual(inLanguage('fr', () => [0, 1, 2].map(n => format(playerTexts.playerPlacesOfPatch, { n }))), ['0 endroit à modifier', '1 endroit à modifier', '2 endroits à modifier']);
    assert.deepEqual(['en', 'de', 'pt-BR'].map(tag => inLanguage(tag, () => counted(1234567))), ['1,234,567', '1.234.567', '1.234.567']);
});

test('the first language that a player prefers is used in any regional variety', () => {
    const due = { 'de-AT': 'de', 'es-419': 'es', pt: 'pt-BR', 'PT-pt': 'pt-BR', 'ja fr': 'fr', 'en-US de': 'en', ja: 'en', 'fil frr': 'en', '': 'en' };
    for (const [preferred, language] of Object.entries(due)) assert.equal(knownLanguage(preferred.split(' ')), language, preferred);
    assert.equal(knownLanguage([]), 'en');
});
