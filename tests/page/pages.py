"""Operates the page in tests: opens files, presses buttons, replaces the file picker by a stub, and builds patchers."""

import base64
import json
import time
import unittest
import zlib
from collections.abc import Callable
from pathlib import Path
from typing import Any

import chromium
import common
import discs
from keys import Keys

NO_PICKER = 'delete window.showSaveFilePicker'
CLIPBOARD = 'navigator.clipboard.writeText = async text => { globalThis.copied = text; };'

# A save-file picker that writes to memory. `failing` is the index of the write that fails, or -1. After `hold`, writes wait for `release`;
# after `pickLater`, the picker waits for `pick`.
PICKER = '''
globalThis.chosen = { writes: [], state: 'none', failing: -1, held: null, begun: 0, own: null, removed: false, asked: 0,
    picked: null,
    pickLater() { this.picked = new Promise(done => { this.pick = done; }); },
    hold() { this.held = new Promise(done => { this.release = done; }); },
    async bytes() {
        const bytes = new Uint8Array(this.writes.reduce((size, { position, data }) => Math.max(size, position + (data.size ?? data.length)), 0));
        for (const { position, data } of this.writes) bytes.set(new Uint8Array(await new Blob([data]).arrayBuffer()), position);
        return bytes;
    } };
globalThis.showSaveFilePicker = async ({ suggestedName }) => {
    chosen.asked += 1;
    await chosen.picked;
    if (chosen.none) throw new DOMException('nothing was chosen', 'AbortError');
    return {
        name: suggestedName,
        getFile: async () => chosen.gone && chosen.state === 'closed' ? Promise.reject(new DOMException('gone', 'NotFoundError')) : chosen.own || new File(chosen.state === 'closed' ? [await chosen.bytes()] : [], suggestedName),
        remove: async () => { chosen.removed = true; },
        createWritable: async () => ({
            async write(write) {
                chosen.begun += 1;
                await chosen.held;
                if (chosen.writes.length === chosen.failing) throw new DOMException('no room', 'QuotaExceededError');
                chosen.writes.push({ ...write, data: write.data.slice() });
            },
            async close() {
                if (chosen.failing === 'close') throw new DOMException('no room', 'QuotaExceededError');
                chosen.state = 'closed';
            },
            async abort() { chosen.state = 'aborted'; },
        }),
    };
};
'''

# Makes the first `held` reads of at least `least` bytes wait for `openGate`.
GATE = '''const { arrayBuffer, stream } = Blob.prototype;
const gate = new Promise(done => { globalThis.openGate = done; });
Object.assign(globalThis, { held: Infinity, least: 0, reads: 0 });
async function passed(size) {
    globalThis.reads += Number(size >= globalThis.least);
    if (size >= globalThis.least && globalThis.reads <= globalThis.held) await gate;
}
Blob.prototype.arrayBuffer = async function () {
    await passed(this.size);
    return arrayBuffer.call(this);
};
Blob.prototype.stream = function () {
    const [{ size }, made] = [this, stream.call(this)];
    const { getReader } = made;
    made.getReader = (...how) => {
        const reader = getReader.apply(made, how);
        const { read } = reader;
        reader.read = (...views) => passed(size).then(() => read.apply(reader, views));
        return reader;
    };
    return made;
};'''

# Holds the messages that give files to workers until `letGo`, which posts that many, or all of them and all later ones.
HELD = '''const { postMessage } = Worker.prototype; Object.assign(globalThis, { waiting: [], holds: true });
Worker.prototype.postMessage = function (...given) {
    const post = () => postMessage.apply(this, given);
    if (holds && given[0].pieces) waiting.push(post);
    else post();
};
globalThis.letGo = (count = Infinity) => {
    globalThis.holds = count < Infinity;
    waiting.splice(0, count).forEach(post => post());
};'''

# Holds timers of so many milliseconds until `endTimers`: a slow machine may look at what they end too late.
HELD_TIMERS = '''const { setTimeout, clearTimeout } = globalThis, [time] = arguments, calls = new Map();
globalThis.setTimeout = (call, wait, ...given) => {
    const id = setTimeout(wait === time ? () => {} : call, wait, ...given);
    if (wait === time) calls.set(id, () => call(...given));
    return id;
};
globalThis.clearTimeout = id => {
    calls.delete(id);
    clearTimeout(id);
};
globalThis.endTimers = () => {
    const ended = [...calls.values()];
    calls.clear();
    ended.forEach(call => call());
};'''

# By how many pixels the first matching element is outside the window.
UNSEEN = '''const { top, bottom, left, right } = document.querySelector(arguments[0]).getBoundingClientRect();
    return Math.max(bottom - innerHeight, -top, right - innerWidth, -left)'''

BUTTON = '''return [...document.querySelectorAll('button, summary')].find(it =>
    it.checkVisibility() && it.innerText.trim().startsWith(arguments[0]))'''

# The label of the panel Script's visible button that applies the script and saves.
SAVE = '''return [...document.querySelectorAll('#panel-script .side button')].find(it =>
    it.checkVisibility() && /^(Apply and save|Save with the)/.test(it.innerText.trim()))?.innerText'''


class PageTest(unittest.TestCase):
    """Tests in one window of Chromium; the page is opened again for each test."""
    stub = NO_PICKER
    browser: chromium.Chromium

    def setUp(self) -> None:
        self.browser = chromium.shared(self.stub)
        self.browser.open(common.PAGE)
        self.browser.wait('#start h1')
        self.browser.attempts()

    def tearDown(self) -> None:
        self.browser.size(1280)

    def open_files(self, *files: Path) -> None:
        self.browser.give('#files', files)

    def open_image(self, file: Path) -> None:
        """Opens an image and waits until it has been read completely."""
        self.open_files(file)
        self.browser.wait('#disc-line', file.name)
        self.wait_for_hash()

    def open_texts(self, image: bytes) -> Path:
        """Opens an image as game.bin, and the panel Text."""
        path = discs.written(game=image)['game']
        self.open_image(path)
        self.browser.click('#tab-text')
        return path

    def show_texts(self) -> None:
        """Shows all texts in their table."""
        self.press('Show all texts')
        self.browser.wait('.all-texts tbody input')

    def open_table(self, image: bytes) -> Path:
        """Opens an image as game.bin, and the table of its texts."""
        path = self.open_texts(image)
        self.show_texts()
        return path

    def field(self, number: int) -> str:
        """The field of a row of this table, from 1."""
        return f'.all-texts tbody tr[aria-rowindex="{number + 1}"] input'

    def type_in_row(self, number: int, text: str) -> None:
        self.browser.click(self.field(number))
        self.browser.press(text, Keys.ENTER)

    def save_list(self, label: str) -> None:
        """Presses this table's button Save, without moving the focus, and chooses a form."""
        self.browser.run('document.querySelector("[aria-labelledby=all-texts-title] header > .btn:last-child").click()')
        self.browser.answer(label)

    def saved_list(self, form: str, name: str) -> Path:
        """Saves this table with the typed texts as a list."""
        self.save_list({'csv': 'A table for spreadsheets (CSV)', 'tsv': 'A table with tabs (TSV)', 'po': 'A PO file for PO editors'}[form])
        path = self.browser.downloaded(f'{name}.{form}')
        common.waited(path.read_bytes, 'the list is empty')
        return path.rename(common.folder('list') / f'mine.{form}')

    def wait_for_hash(self) -> None:
        """Waits until an image has been read completely. A phone folds its hash."""
        if not self.browser.awaited("document.querySelector('#disc-line .sha1') !== null"):
            raise AssertionError('the image has no hash')

    def open_script(self, file: Path) -> None:
        self.open_files(file)
        self.browser.wait('#panel-script header', file.name)

    def open_both(self, image: bytes, script: str) -> dict[str, Path]:
        """Opens an image as game.bin, then a script as english.txt."""
        files = discs.written(game=image, english=script)
        self.open_image(files['game'])
        self.open_script(files['english'])
        return files

    def written_page(self, data: bytes, name: str = 'starlit.html') -> Path:
        """Writes a page to a file."""
        path = common.folder('patcher') / name
        path.write_bytes(data)
        return path

    def open_patcher(self, data: bytes) -> None:
        self.browser.open(self.written_page(data))

    def go_to(self, block: int) -> None:
        """Opens a sector by the keyboard."""
        self.browser.send('#map', 'g')
        self.browser.type('#go-to', f'{block}\n')
        self.browser.wait('#sector-title', f'block {block}')

    def go_into(self, block: int) -> None:
        """Opens a sector by the keyboard, and moves the focus to its bytes."""
        self.go_to(block)
        self.browser.send('#map', Keys.ENTER)
        self.wait_for_focus('.hex')

    def edit(self, *keys: str, held: str = '') -> None:
        """Presses keys in the script editor."""
        self.browser.click('#tab-script')
        self.browser.click('.editor textarea')
        self.browser.press(*keys, held=held)

    def find(self, text: str = 'スタート') -> None:
        """Searches for a text with the button."""
        self.browser.click('#tab-text')
        self.browser.type('#find-text', text)
        self.press('Find')
        self.browser.wait('#panel-text .hits tbody mark')

    def is_gone(self, css: str) -> None:
        """Waits until no matching element is visible."""
        hidden = '[...document.querySelectorAll(given[0])].every(it => !it.checkVisibility())'
        self.assertTrue(self.browser.awaited(hidden, css), f'{css} stays')

    def sees(self, expected: Any, ask: Callable[[], Any] | str) -> None:
        """Waits until `ask`, or a script in the browser, returns this: what an action changes may be drawn later."""
        look = (lambda: self.browser.run(ask)) if isinstance(ask, str) else ask
        found = look()
        for _ in range(int(10 * common.PATIENCE)):
            if found == expected:
                return
            time.sleep(0.1)
            found = look()
        self.assertEqual(found, expected)

    def wait_for_focus(self, css: str) -> None:
        self.assertTrue(self.browser.awaited('document.activeElement.matches(given[0])', css), f'{css} has no focus')

    def begins(self, button: str = '') -> None:
        """Presses a button that saves, by default the one of the panel Script, and waits until a write is held."""
        self.browser.run('chosen.hold()')
        if button:
            self.press(button)
        else:
            self.press_save()
        common.waited(lambda: self.browser.run('return chosen.begun > 0'), 'nothing is written')

    def press(self, text: str) -> None:
        """Presses the first visible button whose label begins with this text, as soon as it is not off."""
        self.browser.click_found(f'(it => {{ it?.scrollIntoView({{ block: "center" }}); return it; }})((function () {{ {BUTTON} }})(...given))', text)

    def press_off(self, text: str) -> None:
        """Clicks the same button although it is off."""
        self.assertTrue(self.is_off(text))
        self.browser.run(f'(function () {{ {BUTTON} }})(...arguments).click()', text)

    def press_in(self, menu: str, item: str) -> None:
        """Opens a menu by its key, unless it is open, and presses its item whose label begins with this text."""
        if not self.browser.run('return document.querySelector(arguments[0])?.ariaExpanded === "true"', f'[data-menu={menu}]'):
            self.browser.click(f'[data-menu={menu}]')
        self.browser.click_found("[...document.querySelectorAll('#menu:not([hidden]) button')].find(it => it.innerText.trim().startsWith(given[0]))", item)

    def planned(self) -> dict[str, tuple[int, str]]:
        """The parts of the plan of a repair: the number of sectors of each, and their blocks."""
        rows = self.browser.run("""return [...document.querySelectorAll('.plan li')].map(it =>
            [...it.querySelectorAll(':scope > b, :scope > div > b, details p')].map(part => part.textContent))""")
        return {name: (int(count), blocks) for count, name, blocks in rows}

    def press_save(self) -> None:
        """Presses the button of the panel Script that applies the script and saves, under either of its labels."""
        self.press(str(common.waited(lambda: self.browser.run(SAVE), 'nothing saves')))

    def is_off(self, text: str) -> bool:
        said = self.browser.awaited(f'(it => it && `off: ${{it.getAttribute("aria-disabled")}}`)((function () {{ {BUTTON} }})(...given))', text)
        self.assertIsNotNone(said, f'no button {text}')
        return str(said) == 'off: true'

    def focused(self) -> str:
        """The card that has the focus, and the control in it."""
        return str(self.browser.run('const it = document.activeElement, card = it.closest(".card, .steps");'
                                    'return `${card ? card.getAttribute("aria-label") || card.className : ""}: ${it.innerText}`'))

    def rows(self) -> list[str]:
        """The lines that the editor draws, with their remarks."""
        script = '''return [...document.querySelectorAll('.editor li:not(.why)')].map(it => {
            const area = it.querySelector('textarea');
            return [it.querySelector('.ln').innerText, area ? area.value : it.querySelector('.src').innerText,
                it.querySelector('.out').innerText].join('|') })'''
        return list(self.browser.run(script))

    def script_text(self) -> str:
        """The script as the page saves it."""
        self.press('Save…')
        if self.browser.run('return !document.querySelector("#menu").hidden'):
            self.press(common.text('scriptSaveScript'))
        name = self.browser.text('#panel-script header h2')
        path = self.browser.downloaded('script.txt' if name == 'New script' else name)
        text = path.read_text()
        path.unlink()
        return text

    def save_undo(self) -> None:
        """Saves the undo script."""
        self.press_in('save', common.text('scriptUndoScript'))

    def chosen_bytes(self) -> bytes:
        """The bytes written to the chosen file."""
        script = '''const bytes = await chosen.bytes();
            let text = '';
            for (let at = 0; at < bytes.length; at += 8192) text += String.fromCharCode(...bytes.subarray(at, at + 8192));
            return btoa(text)'''
        return base64.b64decode(self.browser.run(script))


def applied(image: Path, script: Path, *options: str) -> tuple[int, str, bytes]:
    """The program's output and the file that it writes."""
    out = common.folder('out') / 'out.bin'
    status, text = common.run_program('apply', *options, image, script, out)
    return status, text, out.read_bytes()


def result(script: str = '', *options: str) -> bytes:
    """The game after a script, by default the author's, was applied."""
    files = discs.written(game=discs.game(), script=script or discs.script())
    return applied(files['game'], files['script'], *options)[2]


def patcher(image: bytes, made: bytes, script: str, **other: Any) -> bytes:
    """Builds a patcher as its format is described: the page, a line with version, size, and SHA-1, and deflated data in base64."""
    head = {'title': 'Starlit Detective in English', 'author': 'Team Comet', 'note': 'All menus.\nChapter 1.', 'name': 'Starlit (English).bin',
            'cue': '', 'carry': False, 'base': 0, 'image': {'size': len(image), 'sha1': common.sha1(image)}, 'result': common.sha1(made)}
    packed = zlib.compress(json.dumps({**head, **other}).encode() + b'\n' + script.encode())
    text = f'cdpatch-data 1 {len(packed)} {common.sha1(packed)}\n{base64.b64encode(packed).decode()}\n'
    return common.PAGE.read_bytes() + text.encode()
