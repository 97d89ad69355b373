"""Files that a browser really writes: the page from a loopback server saves to its origin's private files."""

from typing import Any

import chromium
import common
import discs
from pages import PageTest, applied

# The chosen file. If writes are held, those after the first wait for `release`.
PICKER = '''
globalThis.chosen = { held: null, writes: 0, hold() { this.held = new Promise(done => { this.release = done; }); } };
globalThis.showSaveFilePicker = async () => {
    const place = await navigator.storage.getDirectory();
    const file = await place.getFileHandle('out.bin', { create: true });
    return {
        name: 'out.bin', getFile: () => file.getFile(), remove: () => file.remove(),
        async createWritable() {
            const sink = await file.createWritable();
            return {
                async write(write) { if (chosen.writes++ > 0) await chosen.held; return sink.write(write); },
                close: () => sink.close(), abort: () => sink.abort(),
            };
        },
    };
};'''

NAMES = '''const place = await navigator.storage.getDirectory(), names = [];
    for await (const name of place.keys()) names.push(name);'''


class PrivateFilesTest(PageTest):
    stub = PICKER
    server: common.Server

    @classmethod
    def setUpClass(cls) -> None:
        cls.server = common.Server(common.PAGE.parent)

    @classmethod
    def tearDownClass(cls) -> None:
        cls.server.close()

    def setUp(self) -> None:
        self.browser = chromium.shared(self.stub)
        self.browser.open(f'{self.server.url}/{common.PAGE.name}')
        self.browser.wait('#start h1')
        self.run_here('for (const name of names) await place.removeEntry(name)')

    def run_here(self, script: str) -> Any:
        """Runs a script that can access the origin's private files."""
        return self.browser.run(f'return (async () => {{ {NAMES} {script} }})()')

    def kept(self) -> list[str]:
        return list(self.run_here('return names'))


class SavedFiles(PrivateFilesTest):
    def setUp(self) -> None:
        super().setUp()
        self.files = discs.written(long=discs.long_disc(), script=discs.script() + 'set 9000 0 41\nset 12000 5 42\nset 18500 0 43\n')
        self.open_image(self.files['long'])
        self.open_script(self.files['script'])

    @common.in_check
    def test_a_file_of_the_browser_has_what_the_program_writes(self) -> None:
        self.press('Apply and save')
        self.browser.wait('#panel-script .say.good', 'Saved: out.bin')
        self.browser.wait('#saved-sha1', common.sha1(applied(self.files['long'], self.files['script'])[2]))
        self.assertEqual(self.kept(), ['out.bin'])

    def test_an_image_that_shrinks_leaves_no_file_of_the_browser(self) -> None:
        self.browser.run('chosen.hold()')
        self.press('Apply and save')
        common.waited(lambda: self.browser.run('return chosen.writes > 1'), 'one write at most')
        with self.files['long'].open('r+b') as file:
            file.truncate(20_000_000)
        self.browser.run('chosen.release()')
        self.browser.wait('#panel-script .say.bad', 'This file cannot be read any more: long.bin. Was it moved or changed')
        self.assertIn(common.text('saveNoImageKept'), self.browser.text('#panel-script .side'))
        self.assertEqual(self.kept(), [])


def cut(image: bytes, first: int, end: int, after: bytes = b'') -> bytes:
    """Some bytes of each sector of an image, and bytes after them."""
    return b''.join(image[at + first:at + end] + after for at in range(0, len(image), common.SECTOR_SIZE))


CONVERT = 'Convert and save'
SIZE = "return (await (await place.getFileHandle('out.bin')).getFile()).size"
SHA1 = '''const file = await (await place.getFileHandle('out.bin')).getFile();
    const digest = new Uint8Array(await crypto.subtle.digest('SHA-1', await file.arrayBuffer()));
    return [...digest].map(byte => byte.toString(16).padStart(2, '0')).join('')'''


class Conversions(PrivateFilesTest):
    def offered(self, name: str, data: bytes, what: str) -> None:
        """Opens a file that is not a raw image."""
        path = common.folder('other') / name
        path.write_bytes(data)
        self.open_files(path)
        self.browser.wait('#start-message .say.bad', f'{name} is {what}.')

    def test_each_kind_is_converted_to_the_raw_image_that_it_was_made_from(self) -> None:
        game, mode2 = discs.game(), discs.mode2(700)
        cases = {'game.iso': (cut(game, 16, 2064), game, 'an ISO image, 2048 bytes per sector'),
                 'game.img': (cut(game, 0, 2352, bytes(96)), game, 'an image of 2448 bytes per sector, with subchannels'),
                 'video.bin': (cut(mode2, 16, 2352), mode2, 'an image of 2336 bytes per sector, Mode 2 without sync fields and headers')}
        for name, (data, due, what) in cases.items():
            with self.subTest(name):
                self.setUp()
                self.offered(name, data, what)
                self.press(CONVERT)
                self.browser.wait('#start-message .say.good', 'Saved: out.bin')
                self.assertEqual(self.run_here(SHA1), common.sha1(due))
                self.press('Open the new image')
                self.browser.wait('#disc-line .name', 'out.bin')
                self.browser.wait('#disc-line .lead', 'are sound')

    def test_a_cancelled_conversion_leaves_no_file(self) -> None:
        self.offered('long.iso', cut(discs.long_disc(), 16, 2064), 'an ISO image, 2048 bytes per sector')
        self.browser.run('chosen.hold()')
        self.press(CONVERT)
        common.waited(lambda: self.browser.run('return chosen.writes > 1'), 'one write at most')
        self.open_files(discs.written(game=discs.game())['game'])
        self.browser.wait('#start-message', common.text('imageBeingSaved'))
        self.press('Cancel')
        self.browser.run('chosen.release()')
        self.browser.wait('#start-message', common.text('saveNoImageKept'))
        self.assertEqual(self.kept(), [])
        self.press(CONVERT)
        self.browser.wait('#start-message .say.good', 'Saved: out.bin')
        self.assertEqual(self.run_here(SIZE), discs.SCRATCHED_SECTORS * common.SECTOR_SIZE)

    def test_a_file_that_is_cut_is_not_converted(self) -> None:
        self.offered('cut.iso', cut(discs.game(), 16, 2064) + b'x', 'an ISO image, 2048 bytes per sector')
        self.press(CONVERT)
        self.browser.wait('#start-message', 'which is not a multiple of 2048')
        common.waited(lambda: self.kept() == [], 'a file is left')


class Downloads(PageTest):
    @common.in_check
    def test_a_browser_without_a_dialog_for_files_downloads_the_raw_image(self) -> None:
        path = common.folder('other') / 'game.iso'
        path.write_bytes(cut(discs.game(), 16, 2064))
        self.open_files(path)
        self.press(CONVERT)
        self.assertEqual(self.browser.downloaded('game (raw).bin').read_bytes(), discs.game())
        self.browser.wait('#start-message .say.good', 'Your browser is saving game (raw).bin')
        self.assertTrue(self.browser.asks_before_leaving())
        self.press('The download is complete')
        self.browser.wait('#start-message .say.good', 'Saved: game (raw).bin')
        self.assertFalse(self.browser.asks_before_leaving())
