"""Tests the harness in Chromium, with a page of its own. The tests of the page need all that the harness does in other browsers."""

import unittest
from pathlib import Path

import chromium
import common

HTML = '''<!doctype html><meta charset="utf-8"><meta name="viewport" content="width=device-width, initial-scale=1"><title>harness</title>
<input type="file" id="choose" multiple aria-label="Files"><button id="save">Save</button><input id="nameless">
<style>body { margin: 0 }</style><p id="got">nothing</p><div id="field" style="width: 800px; height: 200px">Drop here</div>
<script>
const list = async files => {
    const rows = await Promise.all([...files].map(async it => `${it.name}:${await it.text()}`));
    document.querySelector('#got').textContent = rows.join(' ');
};
choose.onchange = () => list(choose.files);
addEventListener('dragover', event => event.preventDefault());
addEventListener('drop', event => { event.preventDefault(); list(event.dataTransfer.files); });
save.onclick = () => {
    const link = document.createElement('a');
    link.download = 'saved.bin';
    link.href = URL.createObjectURL(new Blob(['saved bytes']));
    link.click();
};
</script>'''


def files() -> tuple[Path, list[Path]]:
    """Writes the page and two files."""
    place = common.folder('harness')
    page = place / 'harness.html'
    page.write_text(HTML)
    chosen = [place / 'one.txt', place / 'two.txt']
    for path in chosen:
        path.write_text(path.stem.upper())
    return page, chosen


class Harness(unittest.TestCase):
    def test_chromium_takes_files_and_saves(self) -> None:
        browser = chromium.shared()
        page, chosen = files()
        browser.open(page)
        browser.give('#choose', chosen)
        browser.wait('#got', 'one.txt:ONE two.txt:TWO')
        browser.click('#save')
        self.assertEqual(browser.downloaded('saved.bin').read_bytes(), b'saved bytes')
        browser.open(page)
        browser.drop('#field', chosen)
        browser.wait('#got', 'one.txt:ONE two.txt:TWO')
        self.assertEqual(browser.attempts(), [])
        self.assertEqual(browser.nameless(), ['textbox'])
        self.assertEqual(browser.tab_stops(), ['choose', 'save', 'nameless'])

    def test_chromium_serves_pictures_of_every_width_and_scheme(self) -> None:
        browser = chromium.shared()
        page, _ = files()
        browser.open(page)
        paths = browser.pictures(page.parent, 'state')
        self.assertEqual([path.read_bytes()[16:20] for path in paths], [w.to_bytes(4, 'big') for w in (360, 360, 900, 900, 1280, 1280)])
        self.assertEqual((browser.wider(900), browser.wider(600)), (0, 200))

    def test_chromium_sees_what_does_not_fit_its_window(self) -> None:
        browser = chromium.shared()
        page = common.folder('harness') / 'misfits.html'
        page.write_text('<!doctype html><meta name="viewport" content="width=device-width, initial-scale=1"><body style="margin: 0">'
                        '<button style="position: absolute; left: 500px; width: 200px">Far</button>'
                        '<button style="width: 90px">One</button><button style="margin-left: -40px">Two</button><footer>End</footer>'
                        '<p style="position: absolute; top: 950px; height: 50px; margin: 0">Below</p>')
        browser.open(page)
        over = ['goes on 100 below its footer', 'One lies over Two']
        self.assertEqual(browser.misfits(900), {900: over})
        self.assertEqual(browser.misfits(600), {600: [over[0], 'is 100 too wide', 'cut: Far', over[1]]})

    def test_chromium_presses_a_button_as_soon_as_it_is_not_off(self) -> None:
        browser = chromium.shared()
        browser.open(files()[0])
        for off in ('disabled', 'aria-disabled'):
            browser.run('const [off] = arguments; save.setAttribute(off, "true"); setTimeout(() => save.removeAttribute(off), 300)', off)
            browser.click('#save')
            self.assertFalse(browser.run('return save.hasAttribute(arguments[0])', off), off)

    def test_chromium_sees_what_a_page_tries_to_reach(self) -> None:
        browser = chromium.shared()
        page, _ = files()
        tries = {'fetch': 'fetch("http://127.0.0.1:9/fetch").catch(() => 0)', 'image': 'new Image().src = "http://127.0.0.1:9/image"',
                 'navigation': 'location = "http://127.0.0.1:9/navigation"', 'RTCPeerConnection': 'new RTCPeerConnection()',
                 'socket': 'new WebSocket("ws://127.0.0.1:9/socket")', 'beacon': 'navigator.sendBeacon("http://127.0.0.1:9/beacon")'}
        browser.open(page)
        self.assertEqual(browser.attempts(), [])
        # An attempt may be logged while the next one runs, so each has its own name.
        for name, script in tries.items():
            with self.subTest(name):
                browser.open(page)
                browser.run(script)
                common.waited(lambda: any(name in it for it in browser.attempts()), f'{name} was not seen')
