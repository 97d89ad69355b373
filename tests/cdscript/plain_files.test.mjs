// Files that are not images: `texts`, `find`, and `replace` with --file.

import assert from 'node:assert/strict';
import { spawnSync } from 'node:child_process';
import { mkdirSync, truncateSync } from 'node:fs';
import { join } from 'node:path';
import { test } from 'node:test';
import { fileURLToPath } from 'node:url';
import { command, inDirectory, read, run, runProcess, sameFile, vectors, write } from './common.mjs';

const preload = fileURLToPath(new URL('./measure.cjs', import.meta.url));

/** CP932 of はじめから and of おわり. */
const [START, END] = ['82CD82B682DF82A982E7', '82A882ED82E8'].map(digits => Buffer.from(digits, 'hex'));

/** A file with the first word at 100 and over the border of a sector, and the last one at its end. */
function fileOf(size) {
    const file = Buffer.alloc(size, 0);
    [100, 2040].forEach(at => START.copy(file, at));
    END.copy(file, size - END.length);
    return file;
}

/** The messages of a job without the one about new characters. */
const messages = ({ errors }) => errors.replace(/^cdscript: \d+ characters? \w+ in no old text.*\n/m, '');

const HEAD = 'block\toffset\tbytes\troom\tencoding\tfile\ttext\tnew';

test('a file is listed, searched, and copied with new texts, byte for byte', () => inDirectory(async room => {
    const file = fileOf(5000);
    write(room, { 'a.bin': file });
    const listed = await run(['texts', '--file', 'a.bin'], { cwd: room });
    const rows = ['-\t100\t10\t1939\tCP932\ta.bin+100\tはじめから\t', '-\t2040\t10\t2953\tCP932\ta.bin+2040\tはじめから\t', '-\t4994\t6\t6\tCP932\ta.bin+4994\tおわり\t'];
    assert.deepEqual([listed.status, listed.out, listed.errors], [0, `${[HEAD, ...rows].join('\n')}\n`, 'cdscript: texts 3\n']);
    const csv = await run(['texts', '--csv', '--file', 'a.bin'], { cwd: room });
    assert.equal(csv.out.split('\r\n')[2], '-,2040,10,2953,CP932,a.bin+2040,はじめから,');
    const found = await run(['find', '--file', 'a.bin', 'おわり'], { cwd: room });
    assert.deepEqual([found.status, found.out], [0, '-\t4994\t6\ta.bin+4994\t........................おわり\n']);
    write(room, { list: [HEAD, `${rows[0]}Start`, `${rows[1]}From the start`, `${rows[2]}End`, ''].join('\n') });
    const done = await run(['replace', '--file', 'a.bin', '--list', 'list', 'out.bin'], { cwd: room });
    assert.deepEqual([done.status, done.out, messages(done)], [0, '', '']);
    const due = Buffer.from(file);
    [[100, 'Start     '], [2040, 'From the start'], [4994, 'End   ']].forEach(([at, text]) => due.write(text, at));
    sameFile(read(room, 'out.bin'), due, 'the copy');
    sameFile(read(room, 'a.bin'), file, 'the file');
    const again = await run(['replace', '--file', 'a.bin', '--list', 'list', 'out.bin'], { cwd: room });
    assert.deepEqual([again.status, again.errors], [2, 'cdscript: cannot create out.bin: it already exists\n']);
    const piped = runProcess(['replace', '--file', '-', '--list', 'list', 'piped.bin'], { cwd: room, input: file });
    assert.equal(piped.status, 0, piped.errors);
    sameFile(read(room, 'piped.bin'), due, 'the copy of a pipe');
}));

/** Words of CP932, each followed by a byte. */
const ended = (words, end) => Buffer.concat([Buffer.alloc(40), ...words.flatMap(word => [word, Buffer.of(end)]), Buffer.alloc(40, 1)]);

test('the byte that ends texts is found and reported, or given with --end, and no new text replaces it', () => inDirectory(async room => {
    const words = ['96F2', '8C95', '8F8282C6', '82CD82B682DF82A982E7', '82A882ED82E8', '92CA82B7', '96BC914F', '90E791BA', '8CAE82CC', '93B9'].map(it => Buffer.from(`${it}82A2`, 'hex'));
    write(room, { 'a.bin': ended([...words, START, END, ...words], 0xFE), 'b.bin': Buffer.alloc(99, 1) });
    const listed = await run(['texts', '--file', 'a.bin'], { cwd: room });
    const rows = listed.out.split('\n').slice(1, -1);
    assert.equal(listed.errors, `cdscript: the texts of a.bin end with FE; --end selects a different byte\ncdscript: texts ${rows.length}\n`);
    assert.ok(rows.length > 20);
    assert.ok(rows.every(row => row.split('\t')[2] === row.split('\t')[3]));
    const given = await run(['texts', '--file', 'a.bin', '--end', 'fe'], { cwd: room });
    assert.deepEqual([given.out, given.errors], [listed.out, `cdscript: texts ${rows.length}\n`]);
    assert.notEqual((await run(['texts', '--file', 'a.bin', '--end', '00'], { cwd: room })).out, listed.out);
    write(room, { list: [HEAD, `${rows[0]}a`, ''].join('\n') });
    await run(['replace', '--file', 'a.bin', '--list', 'list', '--end', 'FE', '--fill', 'end', 'out.bin'], { cwd: room });
    const [at, size] = rows[0].split('\t').slice(1, 3).map(Number);
    assert.equal(read(room, 'out.bin').subarray(at, at + size + 1).toString('hex'), `61${'fe'.repeat(size)}`);
    const none = await run(['texts', '--file', 'b.bin'], { cwd: room });
    assert.match(none.errors, /texts 0\ncdscript: no Japanese text was found: .*--encoding/);
    const wrong = await run(['texts', '--file', 'a.bin', '--end', 'F'], { cwd: room });
    assert.deepEqual([wrong.status, wrong.errors], [2, "cdscript: --end needs two hexadecimal digits, such as FF, not 'F'\n"]);
}));

test('an unknown encoding in a row is an error of that row, and a character that it lacks has advice', () => inDirectory(async room => {
    write(room, { 'a.bin': fileOf(5000), list: `${HEAD}\n-\t100\t10\t10\tcp1259\t\tはじめから\tStart\n-\t4994\t6\t9\tCP932\t\tおわり\té\n` });
    const { status, errors } = await run(['replace', '--file', 'a.bin', '--list', 'list', 'out.bin'], { cwd: room });
    assert.equal(status, 2);
    assert.match(errors, /^cdscript: row 2: unknown encoding 'cp1259'; known encodings: hex, CP932, .*Windows-1252/m);
    assert.match(errors, /^cdscript: row 3: CP932 cannot encode .*\ncdscript: if the font .*character table \(--table\)/m);
    write(room, { list: Buffer.from('msgid ""\nmsgstr ""\n"Content-Type: text/plain; charset=CP932\\n"\n\n#: -+100\nmsgid "\x82\xCD"\nmsgstr "a"\n', 'latin1') });
    const po = await run(['replace', '--file', 'a.bin', '--list', 'list', 'out.bin'], { cwd: room });
    assert.deepEqual([po.status, po.errors], [2, 'cdscript: list: the list is not in UTF-8 or UTF-16; msgconv -t UTF-8 converts it\n']);
}));

test('rows that do not fit a file are named, and left out only if that is asked for', () => inDirectory(async room => {
    write(room, { 'a.bin': fileOf(5000), list: `${HEAD}\n-\t100\t10\t10\t\t\tはじめから\tStart\n-\t4994\t6\t9\t\t\tおわり\tThe end\n1\t4\t6\t6\t\t\tx\ty\n` });
    const words = ['replace', '--file', 'a.bin', '--list', 'list', 'out.bin'];
    const why = ['row 3: the new text has 7 bytes in CP932, and there is room for 6: 1 too many',
        'row 4: it has a block number, so its place is in an image, not in the file'].map(line => `cdscript: ${line}\n`).join('');
    const refused = await run(words, { cwd: room });
    assert.deepEqual([refused.status, messages(refused), read(room, 'out.bin')],
        [2, `${why}cdscript: 2 rows do not fit, so no file was written; use --partial to leave them out\n`, null]);
    const some = await run([...words, '--partial'], { cwd: room });
    assert.deepEqual([some.status, messages(some), read(room, 'out.bin').subarray(100, 110).toString()], [1, why, 'Start     ']);
    write(room, { list: `${HEAD}\n-\t100\t10\t10\t\t\tx\tStart\n` });
    const none = await run([...words.slice(0, -1), 'none.bin', '--partial'], { cwd: room });
    assert.deepEqual([none.status, read(room, 'none.bin')], [2, null]);
}));

test('what cannot be done with --file is refused', () => inDirectory(async room => {
    mkdirSync(join(room, 'directory'));
    write(room, { 'a.bin': fileOf(5000), 'empty.bin': '', list: `${HEAD}\n-\t100\t10\t10\t\t\tはじめから\tStart\n`, image: vectors, 'game.iso': Buffer.alloc(20 * 2048) });
    const iso = read(room, 'game.iso');
    iso.write('\x01CD001\x01', 16 * 2048, 'latin1');
    write(room, { 'game.iso': iso });
    for (const [words, status, message] of [
        [['texts', '--file', 'empty.bin'], 1, 'texts 0'],
        [['find', '--file', 'empty.bin', 'a'], 1, 'hits 0 printed 0'],
        [['replace', '--file', 'empty.bin', '--list', 'list', 'out'], 2, 'row 2: the file has only 0 bytes'],
        [['texts', '--file', 'directory'], 2, 'it is a directory'],
        [['texts', '--file', 'missing'], 2, 'there is no such file'],
        [['texts', '--file', 'a.bin', 'image'], 2, 'texts needs no other arguments'],
        [['find', '--file', 'a.bin', 'image', 'a'], 2, 'find needs TEXT'],
        [['texts', '--file', 'a.bin', '--in', '/A'], 2, '--file and --in cannot be used together'],
        [['texts', '--file', 'a.bin', '--base', '0'], 2, '--file and --base cannot be used together'],
        [['find', '--file', 'a.bin', 'a', '--track', '1'], 2, '--file and --track cannot be used together'],
        [['replace', '--file', 'a.bin', 'a', 'b'], 2, '--file needs --list'],
        [['replace', '--file', 'a.bin', '--list', 'list'], 2, 'replace needs OUT'],
        [['replace', '--file', 'a.bin', '--list', 'list', 'out', '-o', 'x'], 2, 'does not accept -o'],
        [['show', '--file', 'a.bin', '0'], 2, 'show has no option --file'],
        [['replace', 'image', '--list', 'list'], 2, 'row 2: its block is -, so its place is in a file that is not an image'],
        [['texts', 'game.iso'], 2, 'cdscript raw'],
    ]) {
        const done = await run(words, { cwd: room });
        assert.deepEqual([done.status, done.errors.includes(message)], [status, true], `${words.join(' ')}: ${done.errors}`);
        assert.equal(read(room, 'out'), null);
    }
}));

test('a large file is copied in little memory', () => inDirectory(async room => {
    write(room, { 'a.bin': START, list: `${HEAD}\n-\t0\t10\t10\t\t\tはじめから\tStart\n` });
    truncateSync(join(room, 'a.bin'), 300e6);
    const env = { ...process.env, MEASURED: join(room, 'measured') };
    const words = ['--require', preload, command, 'replace', '--file', 'a.bin', '--list', 'list', 'out.bin'];
    const { status, stderr } = spawnSync(process.execPath, words, { cwd: room, env });
    assert.equal(status, 0, String(stderr));
    assert.equal(read(room, 'out.bin').length, 300e6);
    const { memory } = JSON.parse(read(room, 'measured'));
    assert.ok(memory < 250, `${memory} MB`);
}));
