// Whole sets: `scan --dat` counts the games of DATs, and gives cue sheets that a DAT lists a line. Every line and count is computed here from
// how the collection was made.

import assert from 'node:assert/strict';
import { createHash } from 'node:crypto';
import { mkdirSync, unlinkSync, utimesSync } from 'node:fs';
import { join } from 'node:path';
import { test } from 'node:test';
import { damaged, imageOf, inDirectory, read, run, runProcess, write } from './common.mjs';

const shaOf = bytes => createHash('sha1').update(bytes).digest('hex');
const sheetOf = names => names.map((name, i) => `FILE "${name}" BINARY\r\n  TRACK 0${i + 1} MODE1/2352\r\n    INDEX 01 00:00:00\r\n`).join('');
const linesIn = text => text.toString().split('\n').filter(Boolean);

/** Images of two sizes for each game. No two are alike. */
const images = count => inDirectory(room => {
    const whole = imageOf(room, 60);
    return Array.from({ length: count }, (_, i) => [20, 30].map(size => damaged(whole.subarray(0, 2352 * size), 0, [1, 16 + i])));
});

/** What each kind of game changes in its files, and whether its sheet and tracks are still those of the DAT; null if it is not there. */
const KINDS = {
    sound: () => ({ there: [1, 1, 1] }),
    damaged: (files, [, two]) => {
        files[two] = damaged(files[two], 0, [5, 99]);
        return { there: [1, 1, 0] };
    },
    cut: (files, [one]) => {
        files[one] = files[one].subarray(0, -1000);
        return { there: [1, 0, 1] };
    },
    'wrong name': (files, [one, two], sheet) => {
        files[`${one}x.bin`] = files[one];
        files[sheet] = files[sheet].toString().replace(one, `${one}x.bin`);
        delete files[one];
        return { there: [0, 1, 1] };
    },
    'other sheet': (files, names, sheet) => {
        files[sheet] = files[sheet].toString().replaceAll('\r', '');
        return { there: [0, 1, 1] };
    },
    'renamed sheet': (files, names, sheet) => {
        files[`my ${sheet}`] = files[sheet];
        delete files[sheet];
        return { there: [1, 1, 1] };
    },
    'no sheet': (files, names, sheet) => {
        delete files[sheet];
        return { there: [0, 1, 1] };
    },
    'sheet only': (files, names) => {
        names.forEach(name => delete files[name]);
        return { there: [1, 0, 0], fault: true };
    },
    'in part': (files, [, two]) => {
        delete files[two];
        return { there: [1, 1, 0], fault: true };
    },
    missing: files => {
        Object.keys(files).forEach(name => delete files[name]);
        return { there: [0, 0, 0] };
    },
    duplicate: (files, [one]) => {
        files[`${one} copy.bin`] = files[one];
        return { there: [1, 1, 1] };
    },
    'bad dump': () => ({ there: [1, 1, 1], bad: true }),
};

/**
 * Writes a collection with a game of each kind, and its DAT. Returns the due verdict of the DAT on each file, the games by their states, and
 * whether a sheet has a fault.
 */
async function writeGames(room) {
    const kinds = Object.keys(KINDS);
    const made = await images(kinds.length);
    const [roms, said, states, faults] = [[], new Map(), { whole: [], inPart: [], missing: [] }, []];
    const known = new Map();
    const all = {};
    kinds.forEach((kind, i) => {
        const [sheet, ...names] = [`${kind}.cue`, `${kind} 1.bin`, `${kind} 2.bin`];
        const files = Object.fromEntries([[sheet, Buffer.from(sheetOf(names))], ...names.map((name, k) => [name, made[i][k]])]);
        const listed = { ...files };
        const { there, bad = false, fault = false } = KINDS[kind](files, names, sheet);
        const entries = Object.entries(listed).map(([name, bytes]) => {
            known.set(shaOf(bytes), [name, bad]);
            return `<rom name="${name}" size="${bytes.length}" sha1="${shaOf(bytes)}"${bad ? ' status="baddump"' : ''}/>`;
        });
        roms.push(`<game name="Game &amp; ${kind}">${entries.join('')}<rom name="x" size="9" status="nodump"/></game>`);
        const lacks = [sheet, ...names].filter((_, k) => !there[k]);
        states[lacks.length === 0 ? 'whole' : lacks.length === 3 ? 'missing' : 'inPart'].push({ game: `Game & ${kind}`, files: 3, missing: lacks });
        if (fault) faults.push(kind);
        Object.assign(all, files);
    });
    const extra = { 'own.cue': sheetOf(['own.bin']), 'own.bin': imageOf(room, 33) };
    Object.assign(all, extra);
    for (const [name, bytes] of Object.entries(all)) {
        const [dump, bad] = known.get(shaOf(Buffer.from(bytes))) || [];
        if (name === 'own.cue') continue; // no entry has its name or its bytes
        said.set(`set/${name}`, dump === undefined ? 'not in the DAT' : `${bad ? 'known as a bad dump:' : 'verified'} ${dump}`);
    }
    mkdirSync(join(room, 'set'));
    write(join(room, 'set'), all);
    write(room, { 'a.dat': `<datafile><header><name>X</name></header>${roms.join('\n')}<machine name="Last"><rom name="l" size="5" sha1="${shaOf('l')}"/></machine></datafile>` });
    states.missing.push({ game: 'Last', files: 1, missing: ['l'] });
    return { said, states, faults };
}

const countsOf = ({ whole, inPart, missing }) => `games: complete ${whole.length}, incomplete ${inPart.length}, missing ${missing.length}`;

/** The verdicts in lines, by the names. */
const saidIn = lines => new Map(lines.map(line => line.split('\t')).map(row => [row[0], row[6]]));

/** The last lines of messages. */
function summaryOf({ states, said }) {
    const values = [...said.values()];
    const counted = ['verified', 'known', 'not'].map(word => values.filter(it => it.startsWith(word)).length);
    return [countsOf(states), `verified ${counted[0]}, known as bad ${counted[1]}, not in the DAT ${counted[2]}`].map(it => `cdscript: ${it}`);
}

test('each file, sheet, and game of a collection has its verdict, in text and in JSON', () => inDirectory(async room => {
    const made = await writeGames(room);
    const { said, states } = made;
    const due = [...said].sort(([a], [b]) => a < b ? -1 : 1);
    const done = await run(['scan', 'set', '--dat', 'a.dat'], { cwd: room });
    assert.deepEqual([done.status, [...saidIn(linesIn(done.out))]], [1, due]);
    assert.deepEqual(linesIn(done.errors).slice(-2), summaryOf(made));
    assert.ok([...saidIn(linesIn(done.out)).keys()].every((name, i) => !name.endsWith('.cue') || linesIn(done.out)[i].split('\t').slice(1, 5).join() === 'none: a cue sheet,-,-,-'));
    const listed = await run(['scan', 'set', '--dat', 'a.dat', '--missing'], { cwd: room });
    assert.deepEqual(linesIn(listed.errors).filter(line => / (missing|incomplete): /.test(line)), [
        ...states.missing.map(({ game }) => `cdscript: missing: ${game}`),
        ...states.inPart.map(({ game, missing }) => `cdscript: incomplete: ${game} lacks ${missing[0]}${missing.length > 1 ? `, and ${missing.length - 1} more` : ''}`)]);
    for (const words of [[], ['--missing']]) {
        const objects = linesIn(runProcess(['scan', 'set', '--dat', 'a.dat', '--json', ...words], { cwd: room }).out).map(line => JSON.parse(line));
        const { whole, inPart, missing } = states;
        const counts = { kind: 'games', whole: whole.length, inPart: inPart.length, missing: missing.length };
        assert.deepEqual(objects.pop(), words.length > 0 ? { ...counts, games: [...missing, ...inPart] } : counts);
        assert.deepEqual(objects.map(({ name, dat }) => [name, dat.verdict]), due.map(([name, words]) => [name, { v: 'verified', k: 'bad', n: 'unknown' }[words[0]]]));
        for (const { dat } of objects) assert.equal(dat.game, dat.name && `Game & ${dat.name.replace(/( \d)?\.\w+$/, '')}`);
    }
    assert.equal((await run(['scan', 'set', '--missing'], { cwd: room })).errors.split('\n')[0], 'cdscript: --missing needs --dat');
}));

test('a list that is continued says the same of sheets and games', () => inDirectory(async room => {
    const made = await writeGames(room);
    const [scan, list] = [words => run(['scan', 'set', '--resume', 'list', ...words], { cwd: room }), () => [...saidIn(linesIn(read(room, 'list')))]];
    await scan([]);
    assert.deepEqual(list().filter(([name]) => name.endsWith('.cue')), []);
    const due = [...made.said].sort(([a], [b]) => a < b ? -1 : 1);
    for (let i = 0; i < 2; i++) {
        const { status, errors } = await scan(['--dat', 'a.dat']);
        assert.deepEqual([status, list(), linesIn(errors).slice(-2), linesIn(errors).filter(it => it.includes(' names ')).length],
            [1, due, summaryOf(made), made.faults.length], errors);
    }
    // A sheet that changes gets a new line; a file that is gone keeps its line, and its game is no longer whole.
    write(join(room, 'set'), { 'sound.cue': read(join(room, 'set'), 'sound.cue').toString().replaceAll('\r', '') });
    utimesSync(join(room, 'set', 'sound.cue'), 1e9, 1e9);
    unlinkSync(join(room, 'set', 'duplicate 2.bin'));
    const { errors } = await scan(['--dat', 'a.dat']);
    const { whole, inPart, missing } = made.states;
    assert.equal(linesIn(errors).at(-2), `cdscript: games: complete ${whole.length - 2}, incomplete ${inPart.length + 2}, missing ${missing.length}`);
    assert.deepEqual(list(), due.map(([name, words]) => [name, name === 'set/sound.cue' ? 'not in the DAT' : words]));
}));
