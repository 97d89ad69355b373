// Texts that are longer than their room: tables of pointers are found, texts move, and the game reads them at their new places.

import assert from 'node:assert/strict';
import { existsSync, readFileSync, readdirSync } from 'node:fs';
import { join } from 'node:path';
import { test } from 'node:test';
import { calls, core, decoded, diceOf, encoded, joinedPieces, readerOf } from './common.mjs';
import { linesOf, number } from './made_games.mjs';
import { localPool } from './pools.mjs';
import { discOf, pointedGames } from './pointed_games.mjs';

const { ListedSpans, PointedTexts, applyInMemory, exportTable, findPointers, importMoving, patchedTexts, textLines } = await core('tasks/index.js');
const { TextStarts, findPointerTables, pointerList, tablesOfList, placesOf } = await core('pointers/index.js');
const { checkMoved } = await core('tasks/moving_script.js');
const { openPointedFiles } = await core('tasks/moving_pointers.js');
const { Table, unitsOfCell } = await core('texts/index.js');
const { readScript } = await core('script/index.js');
const { ScriptModel } = await core('script/model.js');
const { filesOf, readerOfFile, wholeFile } = await core('iso/index.js');
const { joinedBytes, wholeOf } = await core('bytes.js');
const { usualBytes } = await core('encodings/encoding.js');
const { SEARCHED, encodingOf } = await core('encodings/encodings.js');

const SEEDS = process.env.GATE ? Array.from({ length: 12 }, (_, i) => 100 + i) : [5];
const engine = { calls, pool: localPool() };
const CP932 = encodingOf('CP932');
const bytesOfCell = cell => Buffer.from(usualBytes(unitsOfCell(CP932, cell)));

/** The rows of a disc's texts, and the list of its tables of pointers. */
async function listed(opened) {
    const spans = new ListedSpans();
    let text = '';
    for await (const piece of exportTable(engine, opened, { seen: some => spans.add(some) })) text += piece.text;
    const [names, ...rows] = [...new Table(text, '\t').rows()].map(({ cells }) => cells);
    const { text: pointers, count, unsearched } = await findPointers(opened, spans);
    const numbered = rows.map((cells, i) => ({ ...Object.fromEntries(names.map((name, k) => [name, cells[k]])), number: i + 2 }));
    return { rows: numbered.map(row => ({ ...row, bytes: Number(row.bytes), at: Number(row.file.split('+')[1]) })), pointers, count, unsearched };
}

const fileIn = text => ({ name: 'list.tsv', reader: readerOf(encoded(text)) });

/** Imports new texts for rows. */
async function moved(opened, rows, pointers, options = {}) {
    const names = ['block', 'offset', 'room', 'encoding', 'text', 'new'];
    const text = [names, ...rows.map(row => names.map(name => row[name] ?? ''))].map(cells => `${cells.join('\t')}\n`).join('');
    const how = { encodings: SEARCHED, isAsked: false, partial: true, isKept: () => false, ...options };
    return importMoving(engine, opened, { lists: [fileIn(text)], tables: await tablesOfList(readerOf(encoded(pointers))), ...how });
}

/** The files of a disc after a script. */
async function filesAfter(reader, opened, script) {
    const { image } = await opened.contents();
    const { pieces } = await applyInMemory({ calls }, image, await readScript(calls, script.pieces, script.long));
    const disc = readerOf(joinedPieces(await wholeOf(reader), pieces));
    const { files } = await filesOf(disc, 0);
    const contents = await Promise.all(files.map(it => wholeOf(readerOfFile({ reader: disc, base: 0 }, wholeFile([it])).reader)));
    return Object.fromEntries(files.map(({ path }, i) => [path.slice(1), Buffer.from(contents[i])]));
}

/** A new text for a row, with its codes at both ends; every third one is longer. */
function translated(i, { text, bytes }) {
    const [, before, inner, after] = /^((?:\{\w\w\})*)(.*?)((?:\{\w\w\})*)$/s.exec(text);
    const size = i % 3 === 0 ? Math.ceil(bytes * 1.4) : Math.max(3, Math.floor(bytes * 0.6));
    return inner === '' ? '' : `${before}${`${i}${'The quick brown fox '.repeat(99)}`.slice(0, size).trimEnd()}${after}`;
}

/** The rows in the texts of a game, with new texts. */
function withNewTexts(game, rows) {
    const olds = game.read(game.files);
    const spans = game.texts.map((first, i) => [first, first + olds[i].length]);
    const isOf = ({ file, at, bytes }) => file.startsWith(`/${game.file}+`) && spans.some(([first, end]) => at < end && at + bytes > first);
    return rows.map((row, i) => ({ ...row, new: isOf(row) ? translated(i, row) : '' }));
}

const withoutFilling = text => text.replace(/[ \x00\xFF]+$/, '').replace(/ +(?=[\x01-\x1F]|$)/g, '');

/** The texts of a game that its reader does not read as they are due, after some rows have changed. */
function misread(game, files, written) {
    const old = game.files[game.file];
    const [olds, now] = [game.read(game.files), game.read(files)];
    return game.texts.flatMap((first, i) => {
        const end = first + olds[i].length;
        let [due, at] = ['', first];
        for (const row of written.filter(it => it.at < end && it.at + it.bytes > first)) {
            due += decoded(old.subarray(at, row.at)) + decoded(bytesOfCell(row.new));
            at = row.at + row.bytes;
        }
        due = withoutFilling(due + decoded(old.subarray(at, Math.max(end, at))));
        const came = withoutFilling(decoded(now[i]));
        return came === due ? [] : [{ text: i, first, came, due }];
    });
}

/** How many bytes differ that belong neither to a true pointer nor to a text or what fills it. */
function differingElsewhere(game, files) {
    let count = 0;
    for (const [name, old] of Object.entries(game.files)) {
        const free = new Uint8Array(old.length);
        if (name === game.table) game.pointers.forEach(({ at }) => free.fill(1, at, at + game.width + (game.beside ?? 0)));
        const olds = game.read(game.files);
        if (name === game.file) {
            game.texts.forEach((first, i) => {
                let end = first + olds[i].length + 1;
                while (end < old.length && (old[end] === 0 || old[end] === 0xFF) && !game.texts.includes(end)) end += 1;
                free.fill(1, first, end);
            });
        }
        count += old.filter((byte, at) => free[at] === 0 && byte !== files[name][at]).length;
    }
    return count;
}

/** Finds the tables of a game, moves its texts, and reads the result as the game does. */
async function played(game) {
    const { reader, opened } = await discOf(game.files);
    const { rows, pointers, count } = await listed(opened);
    const tables = count > 0 ? await tablesOfList(readerOf(encoded(pointers))) : [];
    const places = new Set(tables.flatMap(table => placesOf(table).map(at => `${table.path.slice(1)}+${at}`)));
    const due = new Set(game.pointers.map(({ at }) => `${game.table}+${at}`));
    const found = [...due].filter(it => places.has(it)).length;
    const made = { tables, due: due.size, found, false: places.size - found, moved: 0, wrong: [], elsewhere: 0, left: [] };
    if (count === 0) return made;
    const news = withNewTexts(game, rows);
    const { script, left, ...more } = await moved(opened, news, pointers);
    const isLeft = new Set(left.map(({ text }) => text.number));
    const files = script === null ? game.files : await filesAfter(reader, opened, script);
    const wrong = misread(game, files, news.filter(row => row.new !== '' && !isLeft.has(row.number)));
    return { ...made, moved: more.moved.length, few: more.few, left, wrong, elsewhere: differingElsewhere(game, files) };
}

test('tables of pointers are found, texts move, and games read them; nothing else changes', async () => {
    const sums = { due: 0, found: 0, false: 0, moved: 0 };
    for (const seed of SEEDS) {
        for (const game of pointedGames(seed)) {
            const made = await played(game);
            const name = `${game.name}, seed ${seed}`;
            assert.deepEqual(made.wrong, [], name);
            assert.equal(made.elsewhere, 0, name);
            if (game.pointers.length === 0) assert.deepEqual(made.tables, [], name);
            if (!game.isMoving) assert.equal(made.moved, 0, name);
            for (const key of Object.keys(sums)) sums[key] += made[key];
        }
    }
    assert.ok(sums.found > 0.9 * sums.due, `${sums.found} of ${sums.due} pointers were found`);
    assert.ok(sums.false <= 0.002 * sums.due, `${sums.false} of ${sums.due} pointers are false`);
    assert.ok(sums.moved > 0.15 * sums.due, `${sums.moved} texts moved`);
});

/** A game whose name begins with these words. */
const gameNamed = name => pointedGames(5).find(it => it.name.startsWith(name));

/** The rows of a game with new texts, and its tables. */
async function prepared(game) {
    const { reader, opened } = await discOf(game.files);
    const { rows, pointers } = await listed(opened);
    return { reader, opened, pointers, rows: withNewTexts(game, rows) };
}

test('rows that are kept stay in place, and have to fit there', async () => {
    const game = gameNamed('16 bits from the texts');
    const { reader, opened, rows, pointers } = await prepared(game);
    const { number } = rows.filter(row => row.new.length > 9).find(row => bytesOfCell(row.new).length > Number(row.room));
    const kept = await moved(opened, rows, pointers, { isKept: row => row.number === number });
    assert.equal(kept.moved.some(({ facts }) => facts.text.number === number), false);
    const own = kept.left.filter(({ text }) => text.number === number);
    assert.deepEqual(own.map(({ why: { code, facts: { reason, why } } }) => [code, reason, why.code]), [['pointers/stays', 'kept', 'replace/no-room']]);
    // The texts before it have less room.
    assert.ok(kept.left.every(({ text, why }) => text.number === number || why.code === 'pointers/no-room'));
    const written = rows.filter(row => row.new !== '' && !kept.left.some(({ text }) => text.number === row.number));
    assert.deepEqual(misread(game, await filesAfter(reader, opened, kept.script), written), []);
    assert.equal((await moved(opened, rows, pointers, { isKept: row => row.number === number, partial: false })).script, null);
});

test('the longest texts are left out if not all fit, with the missing bytes, and all others go in', async () => {
    for (const name of ['32-bit addresses in records', '16 bits from the file']) {
        const game = gameNamed(name);
        const { reader, opened, rows, pointers } = await prepared(game);
        const news = rows.map(row => ({ ...row, new: row.new === '' ? '' : `${row.new}${'x'.repeat(37 * row.number % 60)}` }));
        const { left, moved: { length: movedCount }, script } = await moved(opened, news, pointers);
        const isLeft = row => left.some(({ text }) => text.number === row.number);
        const growthOf = row => bytesOfCell(row.new).length - row.bytes;
        const written = news.filter(row => row.new !== '' && !isLeft(row));
        assert.ok(left.length > 2 && left.every(({ why: { code, facts } }) => code === 'pointers/no-room' && facts.path === '/TEXT.BIN' && facts.missing > 50));
        assert.ok(movedCount > 5 && Math.max(...written.map(growthOf)) <= Math.min(...news.filter(isLeft).map(growthOf)) + 3, name);
        assert.deepEqual(misread(game, await filesAfter(reader, opened, script), written), []);
    }
});

test('a text in place is one patch, and the number of patches is known before the script is made', async () => {
    const { opened, rows, pointers } = await prepared(gameNamed('16 bits from the file'));
    const news = rows.filter(row => row.new !== '');
    const counts = [];
    const counted = count => counts.push(count);
    // The old texts have these characters too, so not all of their bytes change.
    const inPlace = news.map(row => ({ ...row, new: row.text.replace(/。/g, '、') })).filter(row => row.new !== row.text);
    const { script: short } = await moved(opened, inPlace, pointers, { counted });
    const { script: long } = await moved(opened, news, pointers, { counted });
    assert.deepEqual([short.patches, counts], [inPlace.length, [short.patches, long.patches]]);
});

test('texts use a range that a person names as free, and nothing else in it changes', async () => {
    for (const name of ['16 bits from the file', '32 bits in any order']) {
        const { files, ...game } = gameNamed(name);
        const filled = { ...game, files: { 'TEXT.BIN': Buffer.concat([files['TEXT.BIN'], Buffer.alloc(4096 - files['TEXT.BIN'].length % 2048, 0x77)]) } };
        const end = Math.max(...game.texts.map(at => files['TEXT.BIN'].indexOf(0, at))) + 1;
        const { reader, opened, rows, pointers } = await prepared(filled);
        const news = rows.map((row, i) => ({ ...row, new: row.new === '' ? '' : `${row.new}${i % 3 === 0 ? 'x'.repeat(40) : ''}` }));
        const { left } = await moved(opened, news, pointers);
        assert.ok(left.some(({ why }) => why.code === 'pointers/no-room'), name);
        const free = `/TEXT.BIN\t${end}\t${filled.files['TEXT.BIN'].length - end - 1}\t\tfree\t\t\t\t\t\n`;
        const made = await moved(opened, news, pointers + free);
        const now = await filesAfter(reader, opened, made.script);
        assert.deepEqual([made.left.filter(({ why }) => why.code === 'pointers/no-room'), now['TEXT.BIN'].at(-1), now['TEXT.BIN'].at(-2)], [[], 0x77, 0x77]);
        const written = news.filter(row => row.new !== '' && !made.left.some(({ text }) => text.number === row.number));
        assert.deepEqual(misread(filled, now, written), []);
    }
});

test('a text goes to the free end of the last sector, and the directory has the new length', async () => {
    const game = gameNamed('32-bit addresses in records');
    const { reader, opened, rows, pointers } = await prepared(game);
    const [long] = rows.filter(row => row.new !== '');
    const { script, moved: [{ facts }], left } = await moved(opened, [{ ...long, new: 'x'.repeat(long.bytes + 40) }], pointers);
    const files = await filesAfter(reader, opened, script);
    const { length } = game.files['TEXT.BIN'];
    assert.deepEqual([left, facts.to, files['TEXT.BIN'].length], [[], Math.ceil(length / 4) * 4, facts.to + long.bytes + 41]);
    assert.deepEqual(misread(game, files, [{ ...long, new: 'x'.repeat(long.bytes + 40) }]), []);
});

test('equal texts of a table without an order have one place', async () => {
    const game = gameNamed('32 bits in any order');
    const { reader, opened, rows, pointers } = await prepared(game);
    const size = Math.max(...rows.map(({ room }) => Number(room))) + 1;
    // A text with codes before it is not equal.
    const same = rows.map(row => ({ ...row, new: row.new !== '' && game.texts.includes(row.at) ? 'x'.repeat(size) : '' }));
    const { script, left, moved: all } = await moved(opened, same, pointers);
    assert.ok(left.every(({ why }) => why.facts.reason === 'doubtful') && all.length > 8);
    assert.equal(new Set(all.map(({ facts }) => facts.to)).size, 1);
    const written = same.filter(row => row.new !== '' && !left.some(({ text }) => text.number === row.number));
    assert.deepEqual(misread(game, await filesAfter(reader, opened, script), written), []);
});

test('a range is not free if an unlisted text, a pointer, or a row is in it', async () => {
    // Words of a single character are not rows. In a table without an order they stay.
    const game = gameNamed('short words in any order');
    const { reader, opened, rows, pointers } = await prepared(game);
    const short = game.texts.filter(first => !rows.some(({ at }) => at === first));
    assert.ok(short.length > 5);
    const { script } = await moved(opened, rows, pointers);
    const files = await filesAfter(reader, opened, script);
    for (const first of short) assert.deepEqual(files[game.file].subarray(first, first + 3), game.files[game.file].subarray(first, first + 3));
    // A row that begins within a pointer is left out, and the pointer stays.
    for (const name of ['letters in the pointers', 'letters in the pointers, the greatest']) {
        const { left } = await played(gameNamed(name));
        for (const { why } of left) assert.ok(['pointers/overlap', 'pointers/stays'].includes(why.code), why.code);
    }
    const [head, line] = pointers.split('\n');
    const cells = line.split('\t');
    const [some] = rows.filter(row => row.new !== '');
    const over = [head, line, [cells[0], some.at, 1, 2, ...cells.slice(4)].join('\t')].join('\n');
    const { left } = await moved(opened, [some], over);
    assert.deepEqual(left.map(({ why }) => why.code), ['pointers/overlap']);
});

test('a text with a number beside a table that leads to it stays', async () => {
    const game = gameNamed('two tables');
    const { reader, opened, rows, pointers } = await prepared(game);
    const [head, line] = pointers.split('\n');
    const cells = line.split('\t');
    const last = Number(cells[2]) - 1;
    const cut = [head, [...cells.slice(0, 2), last, ...cells.slice(3)].join('\t')].join('\n');
    const { script, left } = await moved(opened, rows, cut);
    assert.ok(left.some(({ why }) => why.facts.reason === 'doubtful'));
    const isLeft = new Set(left.map(({ text }) => text.number));
    const files = script === null ? game.files : await filesAfter(reader, opened, script);
    assert.deepEqual(misread(game, files, rows.filter(row => row.new !== '' && !isLeft.has(row.number))), []);
});

test('a list of tables is read as it is written, with corrections, or refused', async () => {
    const form = { width: 2, big: false, base: 0, own: false, unit: 1 };
    const tables = [{ ...form, path: '/A', at: 4, count: 9, distance: 2, texts: '/A', begins: 8 },
        { ...form, path: '/B', at: 0, count: 1, distance: 12, texts: '/A', begins: 0, width: 4, big: true, base: -0x06004000, unit: 4 },
        ...[0, 2, -2].map(base => ({ ...form, path: '/C', at: 0, count: 3, distance: 3, texts: '/C', begins: 3, width: 3, own: true, base }))];
    const text = pointerList(tables);
    assert.deepEqual(await tablesOfList(readerOf(encoded(text))), tables.map((table, i) => ({ ...table, row: i + 2 })));
    const csv = 'texts,file,offset,count,distance,width,order,base,unit\n\n/A,/B,0x10,2,4,32,BIG,-16,1\n';
    assert.deepEqual(await tablesOfList(readerOf(encoded(csv))),
        [{ row: 3, path: '/B', texts: '/A', at: 16, count: 2, distance: 4, width: 4, big: true, base: -16, own: false, unit: 1, begins: 0 }]);
    const cell = (column, value) => text.split('\n').map((line, i) => i !== 1 ? line
        : line.split('\t').map((it, k) => text.split('\n')[0].split('\t')[k] === column ? value : it).join('\t')).join('\n');
    const more = [{ ...tables[0], unit: 2048, mask: 0x7FFF, row: 2 }, { ...tables[0], count: 0, width: 1, distance: 1, begins: 0, free: 4096, row: 3 }];
    assert.deepEqual(await tablesOfList(readerOf(encoded(pointerList(more)))), more.map((it, i) => i === 0 ? it : { ...it, at: 4 }));
    await assert.rejects(tablesOfList(readerOf(encoded(pointerList([{ ...more[0], mask: 0x7FF0 }])))), { code: 'pointers/cell' });
    const wrong = [['width', '8'], ['order', 'middle'], ['base', 'x'], ['base', ''], ['base', 'self2'], ['unit', '3'], ['count', '0'], ['count', '99999999'],
        ['offset', '-1'], ['distance', '1'], ['begins', 'x']];
    for (const [column, value] of wrong) {
        await assert.rejects(tablesOfList(readerOf(encoded(cell(column, value)))), { code: 'pointers/cell', facts: { row: 2, column, cell: value } });
    }
    await assert.rejects(tablesOfList(readerOf(encoded('file\toffset\n'))), { code: 'pointers/no-column' });
    assert.deepEqual(await tablesOfList(readerOf(encoded(text.split('\n')[0]))), []);
    await assert.rejects(tablesOfList({ size: 1 << 25, read: null }), { code: 'pointers/too-large' });
    const many = `${text.split('\n')[0]}\n${'/A\t0\t262144\t2\t16\tlittle\t0\t1\t/A\t0\n'.repeat(2)}`;
    await assert.rejects(tablesOfList(readerOf(encoded(many))), { code: 'pointers/too-many' });
});

test('tables that do not belong to the disc are refused, and so are lists without new texts; Cancel ends the work', async () => {
    const { opened, rows, pointers } = await prepared(gameNamed('16 bits from the file'));
    const [head, line] = pointers.split('\n');
    const [, at, count, ...more] = line.split('\t');
    const withLine = cells => [head, line, cells.join('\t')].join('\n');
    const refused = [[withLine(['/NONE', at, count, ...more]), 'pointers/no-file'], [withLine(['/TEXT.BIN', 9e6, 1, ...more]), 'pointers/after-file'],
        [withLine(['/TEXT.BIN', Number(at) + 1, 1, ...more]), 'pointers/over'], [`${head}\n${line}\n${line}`, 'pointers/over']];
    for (const [text, code] of refused) await assert.rejects(moved(opened, rows, text), { code });
    await assert.rejects(moved(opened, rows.map(row => ({ ...row, new: '' })), pointers), { code: 'list/no-new-text' });
    const stopped = { signal: { aborted: true } };
    const spans = new ListedSpans();
    await assert.rejects(findPointers(opened, spans, stopped), { code: 'cancelled' });
});

test('a script that is not as it was planned is refused before it is written', async () => {
    const game = gameNamed('16 bits from the texts');
    const { reader, opened, rows, pointers } = await prepared(game);
    const made = await moved(opened, rows, pointers);
    const files = await openPointedFiles(opened, await tablesOfList(readerOf(encoded(pointers))));
    const [file] = files.files;
    const now = (await filesAfter(reader, opened, made.script))[game.file];
    const movable = made.moved.map(({ facts: { from, to } }) => ({ first: from, after: from + 2, bytes: now.subarray(to, now.indexOf(0, to) + 1), pointers: file.leadingTo(from, from + 1), rows: [], lengths: [] }));
    const places = made.moved.map(({ facts: { to } }) => to);
    const planned = (texts, places_, free) => ({
        files, inPlace: free.map(([first, after]) => ({ file, first, after })),
        layouts: [{ file, texts: { movable: texts }, layout: { places: new Map(texts.map((it, i) => [it, places_[i]])), left: [], end: 0, missing: 0 } }],
    });
    const check = plan => checkMoved(calls, opened, made.script, plan);
    const all = [[0, file.size]];
    await check(planned(movable, places, all));
    const wrong = {
        'a text is elsewhere': planned(movable, places.map((it, i) => i === 0 ? it + 1 : it), all), 'a pointer moved that no text has': planned(movable.slice(1), places.slice(1), all),
        'a text is different': planned(movable.map((it, i) => i === 0 ? { ...it, bytes: Uint8Array.from(it.bytes, byte => byte ^ 1) } : it), places, all),
        'a byte elsewhere differs': planned(movable, places, []),
    };
    for (const [name, plan] of Object.entries(wrong)) await assert.rejects(check(plan), { code: 'pointers/unproved' }, name);
});

test('each copy of a file has its own pointers, in itself or in the file beside it', async () => {
    const copied = async (name, ...files) => {
        const { files: { 'TEXT.BIN': texts, 'TEXT.TBL': table } } = gameNamed(name);
        const { opened } = await discOf(Object.fromEntries(files.map(it => [it, it.endsWith('.TBL') ? table : texts])));
        return (await tablesOfList(readerOf(encoded((await listed(opened)).pointers)))).map(it => [it.path, it.texts]);
    };
    const files = ['COPY.BIN', 'TEXT.BIN', 'TEXT.BIN2'];
    assert.deepEqual(await copied('16 bits from the texts', ...files), files.map(it => [`/${it}`, `/${it}`]));
    assert.deepEqual(await copied('a table in another file', 'COPY.BIN', 'COPY.TBL', 'TEXT.BIN', 'TEXT.TBL'),
        [['/COPY.TBL', '/COPY.BIN'], ['/TEXT.TBL', '/TEXT.BIN']]);
});

test('a text with fewer pointers than both its neighbours is named', async () => {
    const game = gameNamed('two tables');
    const { opened, rows, pointers } = await prepared(game);
    const [head, line] = pointers.split('\n');
    const [path, at, , ...more] = line.split('\t');
    const texts = game.pointers.length / 2;
    // A person has listed all first pointers, and of the second ones those of the texts 2 and 4.
    const parts = [[0, texts], [2 * texts - 1 - 4, 1], [2 * texts - 1 - 2, 1]];
    const list = [head, ...parts.map(([first, count]) => [path, Number(at) + 2 * first, count, ...more].join('\t'))].join('\n');
    // The text 2 grows and moves the text 3, which the short text 4 leaves room.
    const [grown, few, short] = [2, 3, 4].map(i => rows.find(row => row.at >= game.texts[i]));
    const news = new Map([[grown, 'x'.repeat(grown.bytes + 9)], [few, 'y'], [short, 'z']]);
    const made = await moved(opened, rows.map(row => ({ ...row, new: news.get(row) ?? '' })), list);
    assert.deepEqual([made.few.map(({ facts: { text, pointers: own, beside } }) => [text.number, own, beside]), made.left], [[[few.number, 1, 2]], []]);
});

/** How many bytes the search of a disc for pointers reads, and how many sectors it counts. */
async function costOf(files, names) {
    const { reader, opened } = await discOf(files, names);
    const { rows } = await listed(opened);
    const spans = new ListedSpans();
    spans.add(rows);
    const { read } = reader;
    let bytes = 0;
    reader.read = (at, size, ...more) => {
        bytes += size;
        return read.call(reader, at, size, ...more);
    };
    let sectors = 0;
    const { count } = await findPointers(opened, spans, { progress: (_, all) => { sectors = all; } });
    return { bytes, sectors, count };
}

test('the same bytes are searched once for pointers, whatever names them', async () => {
    const { files } = gameNamed('16 bits from the file');
    const names = Array.from({ length: 20 }, (_, i) => `NAME${i}.BIN`);
    const once = await costOf(files, []);
    assert.ok(once.bytes > 0 && once.sectors > 0 && once.count > 0);
    assert.deepEqual(await costOf(files, names), once);
});

test('files that are too large are not searched for pointers, and one of them is named', async () => {
    const { files } = gameNamed('16 bits from the file');
    const unsearchedOf = async others => {
        const { opened } = await discOf({ ...files, ...others });
        return (await listed(opened)).unsearched;
    };
    assert.equal(await unsearchedOf({ 'MAIN.DAT': new Uint8Array(1 << 20), 'MAIN.EXE': new Uint8Array(1 << 22) }), null);
    const others = { 'FILM.STR': new Uint8Array(5 << 20), 'MAIN.EXE': new Uint8Array((1 << 22) + 1), 'MAIN.DAT': new Uint8Array((1 << 20) + 1) };
    assert.deepEqual(await unsearchedOf(others), { code: 'pointers/unsearched', facts: { path: '/MAIN.DAT', size: (1 << 20) + 1, more: 2 } });
});

test('a program has pointers to only some of the texts of a file', async () => {
    const { files: { 'TEXT.BIN': bytes }, texts } = gameNamed('16 bits from the file');
    const some = texts.filter((_, i) => i % 4 < 2);
    const program = Buffer.concat([Buffer.alloc(1 << 20, 0x4E), ...some.map(at => number(4, at)), Buffer.alloc(3000, 0x4E)]);
    const { pointers } = await listed((await discOf({ 'TEXT.BIN': bytes, 'MAIN.EXE': program })).opened);
    const [{ path, at, count, begins }] = (await tablesOfList(readerOf(encoded(pointers)))).filter(table => table.path === '/MAIN.EXE');
    assert.deepEqual([path, at, count, begins > count / 2], ['/MAIN.EXE', 1 << 20, some.length, true]);
});

test('a text into which a number leads like the pointers of its table is named', async () => {
    const game = gameNamed('32-bit addresses, the greatest byte first');
    const bytes = Buffer.from(game.files['TEXT.BIN']);
    bytes.writeUInt32BE(0x06004000 + game.texts[5] + 6, 8);
    const { opened, rows, pointers } = await prepared({ ...game, files: { 'TEXT.BIN': bytes } });
    const [row] = rows.filter(({ at, bytes: size }) => at <= game.texts[5] + 6 && at + size > game.texts[5] + 6);
    const news = rows.map(it => ({ ...it, new: it.new === '' ? '' : it.new.slice(0, 4) }));
    const { few } = await moved(opened, news, pointers);
    assert.deepEqual(few.map(({ code, facts: { text } }) => [code, text.number]), [['pointers/inside', row.number]]);
});

test('a file that is too large as a whole is searched around its texts', async () => {
    const { files: { 'TEXT.BIN': bytes } } = gameNamed('16 bits from the texts');
    const { rows, pointers } = await listed((await discOf({ 'TEXT.BIN': bytes })).opened);
    const before = (1 << 25) + 6;
    const { opened } = await discOf({ 'TEXT.BIN': Buffer.concat([Buffer.alloc(before), bytes]) });
    const spans = new ListedSpans();
    spans.add(rows.map(row => ({ ...row, file: `/TEXT.BIN+${row.at + before}` })));
    const { text, unsearched } = await findPointers(opened, spans);
    const [due, found] = await Promise.all([pointers, text].map(it => tablesOfList(readerOf(encoded(it)))));
    assert.deepEqual([found, unsearched], [due.map(table => ({ ...table, at: table.at + before, base: table.base + before })), null]);
});

/** After this many turns the search is cancelled. */
const TURNS = 12;

test('other tasks get turns within a tenth of a second while a large file is searched, and Cancel ends it', async () => {
    const dice = diceOf(3);
    const bytes = Uint8Array.from({ length: 1 << 20 }, () => dice(256));
    const texts = Array.from({ length: 2000 }, (_, i) => ({ first: 100 * i + dice(50), after: 100 * i + 60 }));
    const starts = new TextStarts('/A', bytes, texts);
    const signal = { aborted: false };
    // Time of a processor, since this machine may have other work.
    const gaps = [];
    let last = process.cpuUsage();
    const timer = setInterval(() => {
        const { user, system } = process.cpuUsage(last);
        gaps.push((user + system) / 1000);
        last = process.cpuUsage();
        signal.aborted = gaps.length === TURNS;
    }, 1);
    await assert.rejects(findPointerTables([starts], (async function* () { yield { path: '/A', bytes, own: starts }; })(), signal), { code: 'cancelled' });
    clearInterval(timer);
    assert.deepEqual([gaps.length, gaps.filter(gap => gap > 100)], [TURNS, []]);
});

/** The MO files of this machine, or made ones. */
function moFiles() {
    const folder = '/usr/share/locale/ja/LC_MESSAGES';
    const found = existsSync(folder) ? readdirSync(folder).filter(name => name.endsWith('.mo')).map(name => readFileSync(join(folder, name))) : [];
    // Those of revision 1 also have texts in parts, whose lengths are beside the pointers.
    const usable = found.filter(it => it.length > 2000 && it.length < 60000 && it.readUInt32LE(4) === 0);
    return usable.length > 0 ? usable.slice(0, process.env.GATE ? 20 : 2) : [madeMo(7), madeMo(8)];
}

/** An MO file as msgfmt writes it, with Japanese texts in UTF-8. */
function madeMo(seed) {
    const news = linesOf(diceOf(seed), 60).map(line => Buffer.from(line));
    const olds = news.map((_, i) => Buffer.from(`message ${String(i).padStart(3, '0')}`));
    const count = news.length;
    let at = 28 + 16 * count;
    const table = all => Buffer.concat(all.map(text => {
        const entry = Buffer.concat([number(4, text.length), number(4, at)]);
        at += text.length + 1;
        return entry;
    }));
    const head = [0x950412DE, 0, count, 28, 28 + 8 * count, 0, 28 + 16 * count].map(it => number(4, it));
    return Buffer.concat([...head, table(olds), table(news), ...[...olds, ...news].flatMap(text => [text, Buffer.of(0)])]);
}

test('the tables of MO files are found, and their texts move, with the lengths beside the pointers', async () => {
    const sums = { named: 0, found: 0, false: 0 };
    for (const bytes of moFiles()) {
        const { opened, reader } = await discOf({ 'A.MO': bytes });
        const { rows, pointers, count } = await listed(opened);
        const places = count === 0 ? [] : (await tablesOfList(readerOf(encoded(pointers)))).flatMap(placesOf);
        const [all, first] = [bytes.readUInt32LE(8), bytes.readUInt32LE(16)];
        const [own, other] = [first, bytes.readUInt32LE(12)].map(from => Array.from({ length: all }, (_, i) => from + 8 * i + 4));
        const named = own.filter(at => rows.some(row => row.at === bytes.readUInt32LE(at)));
        const found = named.filter(at => places.includes(at));
        sums.named += named.length;
        sums.found += found.length;
        sums.false += places.filter(at => !own.includes(at) && !other.includes(at)).length;
        const news = rows.map(row => ({ ...row, new: row.text.length > 3 && row.encoding === 'UTF-8' ? `${row.text}!` : '' }));
        if (places.length === 0 || news.every(row => row.new === '')) continue;
        const made = await moved(opened, news, pointers);
        assert.equal(made.left.every(({ why }) => why.code.startsWith('pointers/')), true);
        if (made.script === null) continue;
        const now = (await filesAfter(opened.reader ?? reader, opened, made.script))['A.MO'];
        const isLeft = new Set(made.left.map(({ text }) => text.number));
        for (const at of own) {
            const [place, size] = [now.readUInt32LE(at), now.readUInt32LE(at - 4)];
            const row = news.find(it => it.at === bytes.readUInt32LE(at));
            if (row === undefined || row.new === '' || row.new.includes('{') || isLeft.has(row.number)) continue;
            assert.deepEqual([now.subarray(place, place + size).toString().trimEnd(), now[place + size]], [row.new, 0]);
        }
    }
    assert.ok(sums.found >= 0.9 * sums.named && sums.false <= 0.01 * sums.found, JSON.stringify(sums));
});

test('a list of the texts has those that moved: each is read where its pointer leads on the patched disc', async () => {
    for (const name of ['16 bits from the file', '16 bits from the table, the greatest byte first, even', 'two tables', '32-bit addresses in records', 'a table in another file',
        'in pools of code', '16 bits from the pointer']) {
        const game = gameNamed(name);
        const { reader, opened, rows, pointers } = await prepared(game);
        const { script, left, moved: all } = await moved(opened, rows, pointers);
        assert.ok(all.length > 3, name);
        const { image } = await opened.contents();
        const { pieces } = await applyInMemory({ calls }, image, await readScript(calls, script.pieces, script.long));
        const patched = readerOf(joinedPieces(await wholeOf(reader), pieces));
        const model = new ScriptModel(calls, decoded(joinedBytes(script.pieces)));
        const tables = await tablesOfList(readerOf(encoded(pointers)));
        const pointed = new PointedTexts(await openPointedFiles(opened, tables));
        const listed = rows.map(row => ({ ...row, block: Number(row.block), offset: Number(row.offset), bytes: Number(row.bytes), room: Number(row.room) }));
        const lines = await textLines(opened, model, { pointed: [pointed], listed, own: SEARCHED[0] });
        const freshOf = await patchedTexts(opened, patched, { lines, pointed });
        const isLeft = new Set(left.map(({ text }) => text.number));
        for (const [i, row] of rows.entries()) {
            const due = row.new === '' || isLeft.has(row.number) ? '' : row.new;
            assert.equal((await freshOf(listed[i])).trimEnd(), due.trimEnd(), `${name}, row ${row.number}`);
        }
        // All lines of the script belong to texts, and no other bytes do.
        for (const line of model.lines) if (line.patch !== null) assert.ok(lines.isOfMoved(line), `${name}: ${line.text}`);
        assert.equal(lines.isMoved(20 * 2048 + game.files[game.file].length - 1), game.table !== game.file, name);
        assert.equal(lines.isMoved(16 * 2048), false, name);
    }
});
