// Translations of several people: PO files, with the tools of gettext and git, and checks without an image.

import assert from 'node:assert/strict';
import { spawnSync } from 'node:child_process';
import { join } from 'node:path';
import { test } from 'node:test';
import { command, inDirectory, program, read, run, sameFile, tool, top, write } from './common.mjs';

const python = (room, ...words) => String(tool('python3', ['-B', join(top, 'tests/lib/po_disc.py'), ...words], { cwd: room }));
const lacking = ['msgfmt', 'genisoimage', 'git'].find(name => spawnSync(name, ['--version']).error);
const skip = lacking === undefined ? false : `no ${lacking}`;

/** Creates the disc of a version, `1.iso` and `1.bin`, and exports its texts as `1.po`. */
async function makeVersion(room, version) {
    python(room, 'files', version, `files${version}`);
    tool('genisoimage', ['-quiet', '-R', '-o', `${version}.iso`, `files${version}`], { cwd: room });
    assert.equal((await run(['raw', `${version}.iso`, `${version}.bin`], { cwd: room })).status, 0);
    assert.equal((await run(['texts', `${version}.bin`, '--po', '-o', `${version}.po`], { cwd: room })).status, 0);
}

/** The script of lists, and what was said beside it. */
async function scriptOf(room, image, ...lists) {
    const { status, out, errors } = await run(['replace', image, ...lists.flatMap(it => ['--list', it])], { cwd: room });
    assert.equal(status, 0, errors);
    return { script: out, errors };
}

/** Asserts that a script writes what an independent program does with the catalog of a PO file. Returns the number of its places. */
async function samePatched(room, version, script, po) {
    write(room, { script });
    tool(program, ['apply', `${version}.bin`, 'script', `${po}.bin`], { cwd: room });
    tool('msgfmt', ['-o', `${po}.mo`, po], { cwd: room });
    const count = Number(python(room, 'patch', version, `${version}.iso`, `${po}.mo`, `${po}.iso`));
    assert.equal((await run(['raw', `${po}.iso`, `${po}.due`], { cwd: room })).status, 0);
    sameFile(read(room, `${po}.bin`), read(room, `${po}.due`), po);
    return count;
}

/** Translates all texts of the first version by two people, whose work git merges to `all.po`. */
async function translated(room) {
    await makeVersion(room, '1');
    const git = (...words) => tool('git', ['-c', 'user.name=A', '-c', 'user.email=a@example.invalid', ...words], { cwd: room });
    git('init', '-q', '-b', 'main');
    write(room, { 'all.po': read(room, '1.po') });
    git('add', 'all.po');
    git('commit', '-q', '-m', 'export');
    for (const part of ['0', '1']) {
        git('checkout', '-q', '-b', `part${part}`, 'main');
        python(room, 'translate', '1.po', `part${part}.po`, part);
        write(room, { 'all.po': read(room, `part${part}.po`) });
        git('commit', '-q', '-a', '-m', `part ${part}`);
    }
    git('merge', '-q', 'part0');
}

test('two translators merge their PO files with git, and each byte of the image is right', { skip }, () => inDirectory(async room => {
    await translated(room);
    tool('msgfmt', ['-c', '-o', 'all.mo', 'all.po'], { cwd: room });
    const checked = await run(['replace', '--check', 'all.po'], { cwd: room });
    assert.deepEqual([checked.status, checked.out.replace(/\d+ left/, 'N left')], [0, 'texts N left out 0 not tested 0 fuzzy 0\n']);
    const { script } = await scriptOf(room, '1.bin', 'all.po');
    assert.ok(await samePatched(room, '1', script, 'all.po') >= 295);
    const cat = [['--no-wrap'], ['-w', '40'], ['-s'], ['-F'], ['-E']];
    for (const words of cat) {
        write(room, { 'cat.po': tool('msgcat', [...words, 'all.po'], { cwd: room }) });
        assert.equal((await scriptOf(room, '1.bin', 'cat.po')).script, script, words.join(' '));
    }
    assert.equal((await scriptOf(room, '1.bin', 'part0.po', 'part1.po')).script, script);
    const again = await run(['texts', '1.bin', '--po', '--list', 'part1.po', '--list', 'part0.po'], { cwd: room });
    sameFile(again.bytes, read(room, 'all.po'), 'the texts with the new ones');
    const table = await run(['texts', '1.bin', '--list', 'all.po', '-o', 'all.tsv'], { cwd: room });
    assert.equal(table.status, 0);
    assert.equal((await scriptOf(room, '1.bin', 'all.tsv')).script, script);
}));

test('directories that were exported one by one are joined by msgcat', { skip }, () => inDirectory(async room => {
    await makeVersion(room, '1');
    const parts = ['/MSG.DAT', '/SUB', '/WIDE.DAT'];
    for (const [i, path] of parts.entries()) {
        await run(['texts', '1.bin', '--po', '--in', path, '-o', `in${i}`], { cwd: room });
        python(room, 'translate', `in${i}`, `in${i}.po`, '0', '1');
    }
    write(room, { 'all.po': tool('msgcat', parts.map((_, i) => `in${i}.po`), { cwd: room }) });
    const { script } = await scriptOf(room, '1.bin', 'all.po');
    assert.ok(await samePatched(room, '1', script, 'all.po') >= 295);
    assert.equal((await scriptOf(room, '1.bin', 'in0.po', 'in1.po', 'in2.po')).script, script);
}));

test('a new version of the disc gets the texts of the old one by msgmerge, and fuzzy entries are counted', { skip }, () => inDirectory(async room => {
    await translated(room);
    await makeVersion(room, '2');
    const ways = { 'merged.po': ['all.po', '2.po'], 'compendium.po': ['--compendium', 'all.po', '/dev/null', '2.po'], 'previous.po': ['--previous', '-w', '50', 'all.po', '2.po'],
        'exact.po': ['--no-fuzzy-matching', 'all.po', '2.po'] };
    const counts = [];
    for (const [name, words] of Object.entries(ways)) {
        tool('msgmerge', ['-q', '-o', name, ...words], { cwd: room });
        const { script, errors } = await scriptOf(room, '2.bin', name);
        const fuzzy = String(read(room, name)).split('\n#~')[0].match(/^#,.*\bfuzzy\b/gm) || [];
        assert.equal(/(\d+) fuzzy entr(y is|ies are) not applied/.exec(errors)?.[1] ?? '0', String(fuzzy.length), name);
        assert.equal(fuzzy.length > 0, name !== 'exact.po', name);
        counts.push(await samePatched(room, '2', script, name));
    }
    assert.equal(new Set(counts).size, 1);
    assert.ok(counts[0] >= 290, counts.join());
}));

const ENTRY = '#. room 9 bytes, CP932\n#: 28+0\nmsgid "a"\nmsgstr "b"\n';
const entry = (text, fresh, ...before) => `${before.map(it => `#${it}\n`).join('')}msgid "${text}"\nmsgstr "${fresh}"\n\n`;

test('--check says which texts do not fit, without an image, and which it has not tested', () => inDirectory(async room => {
    const room4 = '. room 4 bytes, CP932';
    write(room, { good: entry('アイ', 'Go', room4, ': /A+0 28+26'), long: entry('アイ', 'Going', room4, ': 29+0 30+0'), letter: entry('アイ', 'é', room4, ': 31+0'),
        unknown: entry('アイ', 'Go', ': 32+0'), over: 'block,offset,room,encoding,text,new\n28,28,2,CP932,イ,x\n', fuzzy: entry('ア', 'A', ', fuzzy', ': 33+0'), bad: 'msgid "a\n', none: '' });
    for (const [lists, status, ...lines] of [
        [['good'], 0, 'texts 1 left out 0 not tested 0 fuzzy 0'],
        [['good', 'fuzzy'], 0, 'texts 1 left out 0 not tested 0 fuzzy 1'],
        [['long'], 1, 'line 3 (29+0): the new text has 5 bytes in CP932, and there is room for 4: 1 too many',
            'line 3 (30+0): the new text has 5 bytes in CP932, and there is room for 4: 1 too many', 'texts 2 left out 2 not tested 0 fuzzy 0'],
        [['good', 'letter'], 1, "letter: line 3 (31+0): CP932 cannot encode 'é' (U+00E9), character 1 of the text", 'texts 2 left out 1 not tested 0 fuzzy 0'],
        [['unknown'], 1, 'texts 1 left out 0 not tested 1 fuzzy 0'],
        [['good', 'over'], 1, 'over: row 2: it overlaps the text of good: line 3 (28+26)', 'texts 2 left out 1 not tested 0 fuzzy 0'],
        [['good', 'good'], 0, 'texts 1 left out 0 not tested 0 fuzzy 0'],
        [['bad'], 2, ''], [['none'], 2, ''], [['good', 'missing'], 2, ''], [[], 2, ''],
    ]) {
        const done = await run(['replace', '--check', ...lists], { cwd: room });
        assert.deepEqual([done.status, done.out], [status, lines.map(line => line && `${line}\n`).join('')], `${lists.join()}: ${done.errors}`);
    }
    const fuzzy = await run(['replace', '--check', 'good', 'fuzzy'], { cwd: room });
    assert.match(fuzzy.errors, /^cdscript: 1 fuzzy entry is not applied$/m);
    assert.match((await run(['replace', '--check', 'good', 'bad'], { cwd: room })).errors, /^cdscript: bad: line 1 of the list is not a line of a PO file/);
    const named = await run(['replace', '--check', 'unknown', '--encoding', 'CP932'], { cwd: room });
    assert.deepEqual([named.status, named.out], [1, 'texts 1 left out 0 not tested 1 fuzzy 0\n']);
}));

// Bytes. Only the files of the gate would exceed the memory if they were kept.
const LARGE = process.env.GATE ? 100e6 : 10e6;

/** Large PO files, and what `replace --check` says of them last. */
const LONG_FILES = {
    comments: [`${ENTRY}${'# a comment\n'.repeat(LARGE / 12)}`, 0, 'texts 1 left out 0 not tested 0 fuzzy 0'],
    extracted: [`${ENTRY}#. room 9 bytes, CP932\n${'#. a\n'.repeat(LARGE / 5)}#: 29+0\nmsgid "a"\nmsgstr "b"\n`, 0, 'texts 2 left out 0 not tested 0 fuzzy 0'],
    string: [`${ENTRY}msgid "${'a'.repeat(LARGE)}`, 2, 'line 5 of the list has more than 524288 characters'],
    strings: [`${ENTRY}#: 29+0\nmsgid "x"\nmsgstr ""\n${'"ab"\n'.repeat(LARGE / 5)}`, 1, 'line 6 (29+0): a text has more than 65536 characters'],
    escapes: [`${ENTRY}#: 29+0\nmsgid "x"\nmsgstr ""\n${`"${'\\n'.repeat(2e5)}"\n`.repeat(250)}`, 1, 'line 6 (29+0): a text has more than 65536 characters'],
    'references on one line': [`${ENTRY}#:${' 1+1'.repeat(1e6)}\nmsgid "x"\nmsgstr "y"\n`, 2, 'line 5 of the list has more than 524288 characters'],
    references: [`${ENTRY}${'#: 1+1 1+1 1+1 1+1 1+1 1+1 1+1 1+1 1+1 1+1 1+1 1+1\n'.repeat(2e6)}msgid "x"\nmsgstr "y"\n`, 2, 'has more than 1000000 references'],
};

test('a large PO file is read in bounded memory', () => inDirectory(room => {
    for (const [name, [list, status, message]] of Object.entries(LONG_FILES)) {
        write(room, { list });
        const done = spawnSync(process.execPath, ['--max-old-space-size=600', command, 'replace', '--check', 'list'], { cwd: room, encoding: 'utf8', maxBuffer: 1 << 26 });
        assert.deepEqual([done.status, `${done.stdout}${done.stderr}`.includes(message)], [status, true], `${name}: ${done.stdout}${done.stderr}`);
    }
}));

test('characters that only new texts have are listed once, with their first rows', () => inDirectory(async room => {
    write(room, { list: entry('アイA', 'AZé', '. room 9 bytes, UTF-8', ': 28+0') + entry('アイ', 'éア', '. room 9 bytes, UTF-8', ': 29+0') });
    const { errors } = await run(['replace', '--check', 'list'], { cwd: room });
    assert.equal(errors, 'cdscript: 2 characters are in no old text: Z é. Does the font of the game have them?\n');
}));
