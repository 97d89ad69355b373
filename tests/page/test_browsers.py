"""Firefox and WebKit, once each: opening the page from file://, audit, apply, a patcher, the decoding of pairs of bytes, and lists."""

import os
import unittest
from pathlib import Path

import common
import decoders
import discs
import marionette
import webkit
from pages import NO_PICKER, applied, patcher
from test_list import collection, scanned

Browser = marionette.Firefox | webkit.WebKit


class Browsers(unittest.TestCase):
    def press(self, browser: Browser, text: str) -> None:
        script = 'const it = [...document.querySelectorAll("button:not([aria-disabled=true])")].find(it => it.offsetParent !== null && ' \
                 'it.innerText.trim().startsWith(arguments[0])); if (it) it.click(); return it !== undefined'
        common.waited(lambda: bool(browser.run(script, text)), f'no button {text}')

    def whole(self, browser: Browser) -> None:
        """Opens an image, audits it, and applies a script; then plays a patcher."""
        self.addCleanup(browser.quit)
        files = discs.written(game=discs.scratched(), other=discs.game(), english=discs.refused())
        out = applied(files['game'], files['english'])[2]
        browser.open(common.PAGE)
        browser.run(NO_PICKER)
        browser.give('#files', [files['game']])
        browser.wait('#disc-line', 'game.bin')
        browser.wait('#count-disc', '1')
        self.press(browser, 'Details')
        browser.run("const choice = document.querySelector('#findings select'); choice.value = 'audit'; choice.dispatchEvent(new Event('change'))")
        _, audit = common.run_program('audit', files['game'])
        common.waited(lambda: audit.strip() in str(browser.run('return document.querySelector("#panel-disc").innerText')), audit)
        browser.give('#files', [files['english']])
        browser.wait('#panel-script .say', 'english.txt: 4 of 8 patches match game.bin, 3 do not.')
        browser.give('#files', [files['other']])
        browser.wait('#sheet h2', 'other.bin')
        self.press(browser, 'Cancel')
        self.press(browser, 'Save with the other 5 patches')
        self.assertEqual(browser.downloaded('game (patched).bin').read_bytes(), out)
        self.assertEqual(decoders.differing(browser.run), [])
        self.convert(browser)
        self.play(browser)

    def convert(self, browser: Browser) -> None:
        """Converts an ISO image to a raw image."""
        game, path = discs.game(), common.folder('iso') / 'game.iso'
        path.write_bytes(b''.join(game[at + 16:at + 2064] for at in range(0, len(game), common.SECTOR_SIZE)))
        browser.give('#files', [path])
        self.press(browser, 'Convert and save')
        self.assertEqual(browser.downloaded('game (raw).bin').read_bytes(), game)

    def play(self, browser: Browser) -> None:
        files = discs.written(game=discs.game(), english=discs.script())
        out = applied(files['game'], files['english'])[2]
        path: Path = common.folder('patcher') / 'patcher.html'
        path.write_bytes(patcher(discs.game(), out, discs.script()))
        browser.run('addEventListener("beforeunload", event => event.stopImmediatePropagation(), true)')
        browser.open(path)
        browser.run(NO_PICKER)
        browser.wait('#player h1', 'Starlit Detective in English')
        browser.give('#player-files', [files['game']])
        browser.wait('#verdict', common.text('playerRightDisc'))
        self.press(browser, 'Patch and save')
        self.assertEqual(browser.downloaded('Starlit (English).bin').read_bytes(), out)

    def lists(self, browser: Browser) -> None:
        """Opens many files at once, and saves their list."""
        self.addCleanup(browser.quit)
        paths = collection()
        for path in paths.values():
            os.utime(path, (0, 1_600_000_000))  # WebKit gives the times of files in whole seconds
        browser.open(common.PAGE)
        browser.run(NO_PICKER)
        browser.give('#files', [*paths.values()])
        browser.wait('#list .tally', 'without findings')
        browser.wait('#announced', 'were examined')
        self.press(browser, '⋯')
        self.press(browser, common.text('listSave'))
        saved = browser.downloaded('list.tsv').read_bytes().decode()
        self.assertEqual(sorted(saved.splitlines(keepends=True)), scanned(paths))

    @common.needs('firefox-esr', 'firefox-esr')
    def test_firefox_lists_files_as_scan_does(self) -> None:
        self.lists(marionette.Firefox())

    @webkit.needs_webkit
    def test_webkit_lists_files_as_scan_does(self) -> None:
        self.lists(webkit.WebKit())

    @common.needs('firefox-esr', 'firefox-esr')
    def test_firefox_opens_audits_applies_and_plays(self) -> None:
        self.whole(marionette.Firefox())

    @common.needs('firefox-esr', 'firefox-esr')
    def test_firefox_does_not_hold_the_images_in_memory_that_it_saves(self) -> None:
        browser = marionette.Firefox()
        self.addCleanup(browser.quit)
        files = discs.written(long=discs.long_disc() * 3, script='cdpatch 1\n' + ''.join(f'fill {at} 0 4 01\n' for at in range(200, 60000, 1000)))
        browser.open(common.PAGE)
        browser.run(NO_PICKER)
        browser.give('#files', [files['long']])
        browser.wait('#disc-line .sha1')
        browser.give('#files', [files['script']])
        browser.wait('#panel-script .verdict')
        before = browser.memory()
        for _ in range(2):
            self.press(browser, 'Save with the other')
            browser.downloaded('long (patched).bin').unlink()
            self.press(browser, 'Back to Check')
        self.assertLess(browser.memory() - before, 100e6)

    @webkit.needs_webkit
    def test_webkit_opens_audits_applies_and_plays(self) -> None:
        self.whole(webkit.WebKit())
