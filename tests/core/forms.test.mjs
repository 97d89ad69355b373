// The forms in which the core's files can be joined to one function.

import assert from 'node:assert/strict';
import { readFileSync, readdirSync } from 'node:fs';
import { join } from 'node:path';
import { test } from 'node:test';
import { top } from './common.mjs';

const folder = process.env.CORE ?? join(top, 'out/web/core');
const filesIn = (below = '') => readdirSync(join(folder, below), { withFileTypes: true }).flatMap(({ name }) => {
    if (name.endsWith('.js')) return [below + name];
    return name.includes('.') ? [] : filesIn(`${below}${name}/`);
});
const files = filesIn();
/** The lines of a file, with each import in one line. */
const linesOf = name => readFileSync(join(folder, name), 'utf8').replace(/^(import|export) \{\n([^}]*)\n\}/gm,
    (_, word, names) => `${word} { ${names.trim().split(/,\s*/).join(', ')} }`).split('\n');
const DECLARED = /^(?:export )?(?:async )?(?:function\*?|class|const|let) (\w+|[[{])/;

test('imports are lines, and what is declared has one name in all files', () => {
    assert.ok(files.length >= 7);
    const names = new Map();
    for (const file of files) {
        for (const line of linesOf(file)) {
            if (/^import\b/.test(line)) assert.match(line, /^import \{ \w+(, \w+)* \} from ["']\.\.?\/(\.\.\/)?(\w+\/)?\w+\.js["'];$/, file);
            if (/^export \{/.test(line)) assert.match(line, /^export \{ \w+(, \w+)* \} from ["']\.\.?\/(\w+\/)?\w+\.js["'];$/, file);
            else if (/^export\b/.test(line)) assert.match(line, /^export (async function\*?|function\*?|class|const) \w/, file);
            const [, name] = line.match(DECLARED) ?? [];
            if (name === undefined) continue;
            assert.match(name, /^\w/, `${file}: ${line}`);
            assert.equal(names.get(name), undefined, `${name} is in ${names.get(name)} and in ${file}`);
            names.set(name, file);
        }
    }
});

test('the files name no page and no node', () => {
    for (const file of files) {
        for (const line of linesOf(file)) assert.doesNotMatch(line, /\b(window|document|self|process|Buffer|require)\b *[.([]/, file);
    }
});
