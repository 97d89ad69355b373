// The document with the new texts of a disc, and the lines that are generated from it, after random changes of both.

import assert from 'node:assert/strict';
import { test } from 'node:test';
import { calls, core, diceOf, encoded, readerOf } from './common.mjs';
import { localPool } from './pools.mjs';

const { Translation, applyScript, generate, listTexts, noteGenerated, openTrack, patchedTexts, textLines, validScript, withGenerated } =
    await core('tasks/index.js');
const { PatchedReader, ScriptModel } = await core('script/views.js');
const { openDisc } = await core('disc/disc.js');
const { encodingOf } = await core('encodings/encodings.js');

const engine = { calls, pool: localPool() };
const encoding = encodingOf('Windows-1252');
const options = { encodings: [encoding], isAsked: true };

/** Texts at the ends of blocks, some of which go on in the next one. */
const [COUNT, EACH, ROOM] = [60, 10, 40];
const user = new Uint8Array(26 * 2048);
for (let i = 0; i < COUNT; i++) {
    user.set(encoded(`Old sentence ${i} of the game.`), (20 + Math.floor(i / EACH)) * 2048 + 2048 - EACH * ROOM + (i % EACH) * ROOM);
}
const opened = openTrack(await openDisc(calls, [{ name: 'game.bin', reader: readerOf(calls.encodeBlocks(0, user)) }]));
const { part } = await opened.contents();
const found = [];
for await (const some of listTexts(engine, opened, { encoding: encoding.name })) found.push(...some);
assert.equal(found.length, COUNT);

/** The end of each seventh text as a text of its own, which overlaps it. */
const INNER = 'of the game.';
const inner = found.filter((_, i) => i % 7 === 3).map(it => {
    const at = it.text.indexOf(INNER);
    return { ...it, offset: it.offset + at, text: INNER, bytes: it.bytes - at, room: it.room - at };
});
const listed = [...found, ...inner];

function documentOf(some) {
    const document = new Translation(part, options);
    document.list(some, options);
    return document;
}

test('a script takes no more patches than the module accepts: the texts beyond say so, and a text that has a line can be changed', async () => {
    const document = documentOf(found);
    const places = [...document.places.values()];
    const script = new ScriptModel(calls, `cdpatch 1\n${'rebuild 7\n'.repeat(65530)}`);
    const put = async (some, fresh) => {
        document.change(some.map(place => ({ place, fresh })));
        const made = await generate(engine, opened, document, script);
        script.readText(withGenerated(made).join('\n'));
        noteGenerated(document, made, script);
    };
    const isFull = ({ why }) => why !== null && why.code === 'script/full';
    await put(places, 'New');
    assert.deepEqual([script.patches, script.tooMany, places.map(isFull)], [65535, false, places.map((_, i) => i >= 5)]);
    await put(places.slice(0, 6), 'Newer');
    assert.deepEqual([script.patches, places.slice(0, 6).map(isFull)], [65535, [false, false, false, false, false, true]]);
    await put([places[0]], '');
    await put([places[5]], 'Newest');
    assert.deepEqual([script.patches, isFull(places[5]), document.linesAt(script, places[5]).own.length], [65535, false, 1]);
});

test('a step that is withdrawn leaves the texts that were changed after it, and cannot be redone', () => {
    const document = documentOf(found);
    const [one, other] = document.places.values();
    document.change([{ place: one, fresh: 'Old' }]);
    document.change([{ place: one, fresh: 'New' }, { place: other, fresh: 'New' }]);
    const step = document.done[1];
    document.change([{ place: other, fresh: 'Later' }]);
    assert.deepEqual(document.withdraw(step), [one]);
    assert.deepEqual([one.fresh, other.fresh, document.done.length], ['Old', 'Later', 2]);
    assert.deepEqual(document.withdraw(step), []);
});

test('texts that are listed again keep their new texts, and those that the script lacks also if they are not listed', async () => {
    const document = documentOf(found);
    const script = new ScriptModel(calls, 'cdpatch 1\n');
    const [one, other] = document.all;
    document.change([{ place: one, fresh: 'New' }, { place: other, fresh: 'Far too long a text for the room that there is' }]);
    const made = await generate(engine, opened, document, script);
    script.readText(withGenerated(made).join('\n'));
    noteGenerated(document, made, script);
    assert.deepEqual(document.left, [other]);
    document.list(found.slice(5).map(it => ({ ...it })), options);
    assert.deepEqual([document.others, document.left, document.all.length], [[other], [other], COUNT - 4]);
    document.list(found.map(it => ({ ...it })), options);
    assert.deepEqual([document.all[0].fresh, document.all[1], document.left], ['', other, [other]], 'what is in the script is read again');
    const texts = await patchedTexts(opened, new PatchedReader(calls, opened.image, script), { own: encoding,
        lines: await textLines(opened, script, { pointed: [], listed: [], own: encoding }) });
    await document.read(script, texts, {});
    assert.equal(document.all[0].fresh, 'New');
});

test('with another base all texts are at other blocks, and keep their new texts', () => {
    const document = documentOf(found.map(it => ({ ...it })));
    const [{ listed: { block } }] = document.all;
    document.change([{ place: document.all[0], fresh: 'New' }]);
    document.rebase({ ...part, base: part.base + 150 });
    const [{ listed, ranges, fresh }] = document.all;
    assert.deepEqual([listed.block, ranges[0].block, fresh], [block + 150, block + 150, 'New']);
    assert.equal(document.at({ ...listed, isInFile: false }), document.all[0]);
});

test('empty texts that are equal to others are found with the new texts of these, if they are the same', () => {
    const document = documentOf(found.slice(0, 6).map((it, i) => ({ ...it, text: i % 2 ? 'Yes' : 'No' })));
    const [no, yes, , other] = document.all;
    document.change([{ place: no, fresh: 'Non' }, { place: yes, fresh: 'Oui' }, { place: other, fresh: 'Si' }]);
    assert.deepEqual([...document.emptyLike([no, yes, other])], [[document.all[2], 'Non'], [document.all[4], 'Non']]);
});

/** A line that no text may take over. */
const isForeign = ({ text }) => /^fill|58595A585958$/.test(text);

/** A document, its script, and the new texts that it must have. */
class Storm {
    constructor(seed) {
        this.dice = diceOf(seed);
        this.document = documentOf(listed);
        this.script = new ScriptModel(calls, 'cdpatch 1\n');
        this.places = [...this.document.places.values()];
        /** A few that overlap, so that both of a pair are often changed. */
        this.overlapping = inner.slice(0, 3).flatMap(it => this.document.meeting({ ...it, size: it.bytes }));
        this.wanted = new Map(this.places.map(place => [place, '']));
        this.earlier = [];
    }

    any(list) {
        return list[this.dice(list.length)];
    }

    edit(text) {
        this.earlier.push(this.script.text());
        this.script.readText(text);
    }

    async textOf() {
        const lines = await textLines(opened, this.script, { pointed: [], listed: [], own: encoding });
        return patchedTexts(opened, new PatchedReader(calls, opened.image, this.script), { lines, own: encoding });
    }

    /** Puts the texts that are due into the script, as the page does. */
    async generate() {
        const { document, script } = this;
        while (document.due.size > 0) {
            if (script.lines !== document.seen) await document.read(script, await this.textOf(), {});
            const made = await generate(engine, opened, document, script);
            if (made.removed.size + made.instead.size + made.end.length > 0) this.edit(withGenerated(made).join('\n'));
            noteGenerated(document, made, script);
        }
    }

    /** Reads what was changed in the script: from now on that is wanted. */
    async read() {
        await this.document.read(this.script, await this.textOf(), {});
        await this.generate();
        this.takeOver();
    }

    takeOver() {
        for (const place of this.places) this.wanted.set(place, place.fresh);
    }

    change(place, fresh) {
        this.document.change([{ place, fresh }]);
        this.wanted.set(place, fresh);
    }

    /** Types one text, or two before lines are generated. */
    async type() {
        const texts = ['', `New ${this.dice(99)}`, `A text of some length ${this.dice(9)}`, 'Far too long a text for the room that there is'];
        const places = this.any([this.places, this.overlapping]);
        for (let i = this.dice(2); i >= 0; i--) this.change(this.any(places), this.any(texts));
        await this.generate();
    }

    async turnBack() {
        this.document.turnBack(this.any(['undo', 'undo', 'redo']));
        await this.generate();
        this.takeOver();
    }

    /** Changes or removes a line by hand. A text that is typed after that, and before the line is read, must not be lost. */
    async editLine() {
        const lines = this.script.lines.filter(({ patch }) => patch !== null);
        if (lines.length === 0) return;
        const line = this.any(lines);
        const { number, text } = line;
        const typed = this.any([null, this.any(this.places), this.document.ownerOf(line)]);
        const texts = this.script.lines.map(line => line.text);
        texts.splice(number - 1, 1, ...this.dice(2) ? [] : [text.replace(/^(set \d+ \d+) [0-9A-F]{4}/, '$1 4845')]);
        this.edit(texts.join('\n'));
        if (typed !== null) {
            this.document.change([{ place: typed, fresh: 'Later' }]);
            await this.generate();
            assert.equal(typed.fresh, 'Later');
        }
        await this.read();
    }

    /** Adds a line of another origin, which begins before a text. */
    async addForeign() {
        const { block, offset, room } = this.any(found);
        if (this.script.linesWriting({ block, offset: offset - 3, size: room + 3 }).length === 0) {
            const line = this.dice(2) ? `fill ${block} ${offset - 2} 6 2A` : `set ${block} ${offset - 3} 58595A585958`;
            this.edit(`${this.script.text().trimEnd()}\n${line}\n`);
        }
        await this.read();
    }

    async undoInScript() {
        const text = this.earlier.pop();
        if (text !== undefined) this.script.readText(text);
        await this.read();
    }

    /** Compares the document with the patched disc. */
    async compare() {
        const script = await validScript(calls, [encoded(this.script.text())]);
        const { outcomes } = await applyScript(engine, opened.image, script, { carry: false });
        assert.equal([...outcomes].filter(({ result }) => result !== 0).length, 0, this.script.text());
        const textOf = await this.textOf();
        for (const place of this.places) {
            assert.equal(place.fresh, this.wanted.get(place));
            const { own, others } = this.document.linesAt(this.script, place);
            if (place.why?.code === 'list/line-across') assert.notEqual(others.length, 0, 'the line is gone');
            // A text around one with lines of its own reads as these say.
            if (place.why === null && (others.length === 0 || own.length > 0)) assert.equal(await textOf(place.listed), place.fresh);
        }
    }
}

const STEPS = ['type', 'type', 'type', 'type', 'type', 'turnBack', 'editLine', 'editLine', 'addForeign', 'undoInScript'];

for (let seed = 1; seed <= 60; seed++) {
    test(`after random changes the script has the texts of the document, and others' lines: seed ${seed}`, async () => {
        const storm = new Storm(seed);
        for (let i = 0; i < 20; i++) {
            const step = storm.any(STEPS);
            const foreign = storm.script.lines.filter(isForeign).map(({ text }) => text).join();
            await storm[step]();
            if (step === 'type' || step === 'turnBack') assert.equal(storm.script.lines.filter(isForeign).map(({ text }) => text).join(), foreign);
            await storm.compare();
        }
    });
}
