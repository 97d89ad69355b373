"""The panel Disc: opening, the map, findings, the program's texts, a sector, and typing into it."""

import math
import random
import subprocess
import zipfile
import zlib
from pathlib import Path

import chromium
import common
import discs
from common import SECTOR_SIZE, TOP, Server, damaged, folder, image_of, run_program, sector, sha1, waited
from keys import Keys
from pages import CLIPBOARD, HELD, UNSEEN, PageTest
from sector import SYNC

VERDICT = '#disc-line .lead'
SECTORS = len(discs.game()) // SECTOR_SIZE

# Counts the bytes of files that the page reads or has its workers read.
READ = '''globalThis.bytesRead = 0;
const { arrayBuffer } = Blob.prototype, { read } = ReadableStreamDefaultReader.prototype, { postMessage } = Worker.prototype;
Blob.prototype.arrayBuffer = function () {
    bytesRead += this.size;
    return arrayBuffer.call(this);
};
ReadableStreamDefaultReader.prototype.read = async function () {
    const came = await read.call(this);
    bytesRead += came.value?.length ?? 0;
    return came;
};
Worker.prototype.postMessage = function (message, ...given) {
    bytesRead += (message.pieces ?? []).reduce((sum, { file, size }) => sum + (file ? size : 0), 0);
    return postMessage.call(this, message, ...given);
};'''

# Delays reads of single sectors, by which the page looks for files, once findings are shown.
HELD_SECTORS = '''const { arrayBuffer } = Blob.prototype, gate = new Promise(done => { globalThis.openGate = done; });
Blob.prototype.arrayBuffer = async function () {
    if (this.size === 2352 && document.querySelector('#findings tbody td')) await gate;
    return arrayBuffer.call(this);
};'''


def scratched(tail: bytes = b'') -> bytes:
    """The game with nine damaged sectors, one with a wrong address, two without a sync field, and then some audio and a tail."""
    image = bytearray(discs.game())
    for block in range(30, 66, 4):
        for at in range(3):
            image[block * SECTOR_SIZE + 300 + at] ^= 0x5A + at
    image[90 * SECTOR_SIZE:91 * SECTOR_SIZE] = sector(3000, b'elsewhere')
    for block in (100, 101):
        image[block * SECTOR_SIZE:block * SECTOR_SIZE + 12] = bytes(12)
    dice = random.Random(3)
    return bytes(image) + dice.randbytes(40 * SECTOR_SIZE) + tail


def file_of(data: bytes, name: str = 'game.bin') -> Path:
    path = folder('disc') / name
    path.write_bytes(data)
    return path

# Presses Ctrl+Shift+Z in the focused element.
CONTROL_SHIFT_Z = '''document.activeElement.dispatchEvent(new KeyboardEvent('keydown',
    { key: 'Z', ctrlKey: true, shiftKey: true, bubbles: true, cancelable: true }))'''

class Disc(PageTest):
    stub = ''

    def opened(self, *paths: Path) -> chromium.Chromium:
        """Opens these files in the new page, and waits until they have been read."""
        browser = self.browser
        browser.give('#files', paths)
        browser.wait(f'{VERDICT} .verdict')
        return browser

    def place(self) -> str:
        return str(self.browser.run("return document.querySelector('#map').getAttribute('aria-valuetext')"))

    def at(self) -> int:
        return int(self.browser.run("return document.querySelector('#map').getAttribute('aria-valuenow')"))

    def typed_script(self) -> str:
        """Saves the script of the panel Script, and returns it."""
        self.browser.click('#tab-script')
        return self.script_text()

    # ---- opening

    def test_an_image_that_begins_before_block_0_is_not_said_to_be_audited_to_the_byte(self) -> None:
        browser = self.opened(file_of(bytes(150 * SECTOR_SIZE) + discs.game()))
        browser.click('#findings [data-tab=details]')
        browser.choose('#findings select', 'audit')
        browser.wait('#findings', 'cdpatch counts from block 0')
        browser.choose('#findings select', 'list')
        browser.wait('#findings', 'Exactly what the command cdpatch list prints')

    @common.in_check
    def test_it_opens_by_the_button_from_a_file_and_sends_nothing(self) -> None:
        image = scratched()
        browser = self.opened(file_of(image))
        self.assertEqual(browser.text(VERDICT).split('.')[0], f'9 of {SECTORS - 2} data sectors are damaged; '
                         '2 data sectors are lost; 1 sector has a wrong address')
        browser.wait('.sha1', sha1(image))
        self.assertEqual(browser.attempts(), [])

    def test_it_opens_by_a_drop_from_a_server_and_asks_it_for_nothing_more(self) -> None:
        server = Server(common.PAGE.parent)
        self.addCleanup(server.close)
        browser = self.browser
        browser.open(f'{server.url}/{common.PAGE.name}')
        browser.wait('#open-files')
        browser.drop('#drop', [file_of(discs.game())])
        browser.wait(VERDICT, f'All {SECTORS} data sectors are sound')
        browser.wait('.sha1', sha1(discs.game()))
        self.assertEqual(browser.attempts(), [])
        self.assertEqual([line for line in server.requests if common.PAGE.name not in line], [])

    @common.in_check
    def test_a_cue_sheet_is_opened_with_its_bins(self) -> None:
        place = folder('cue')
        first, music, second = (place / f'game (Track {number}).bin' for number in (1, 2, 3))
        first.write_bytes(discs.game())
        music.write_bytes(random.Random(4).randbytes(500 * SECTOR_SIZE))
        second.write_bytes(image_of([b'second', b'track'] * 40, base=680 + 150))
        sheet = place / 'game.cue'
        sheet.write_text(discs.sheet_of(**{first.stem: discs.DATA, music.stem: 'AUDIO', second.stem: discs.DATA}))
        browser = self.opened(sheet, music, second, first)
        self.assertIn('game.cue', browser.text('#disc-line'))
        self.assertEqual(browser.text('#disc-line .name'), first.name)
        browser.choose('#disc-line select', '3')
        browser.wait('#disc-line .name', second.name)
        browser.wait(VERDICT, 'All 80 data sectors are sound')
        self.assertEqual(browser.text('#disc-line dl dd').split()[0], '830')

    def test_a_cut_image_says_where_its_volume_goes_on(self) -> None:
        image = discs.game()
        cut = discs.first_block() + 1
        browser = self.opened(file_of(image[:cut * SECTOR_SIZE], 'cut.bin'))
        self.assertIn(f'The image ends before block {cut}, inside /DATA/MSG00.DAT. Its volume continues to block', browser.text(VERDICT))

    def test_a_cue_sheet_by_itself_says_what_to_open(self) -> None:
        place = folder('cue')
        sheet = place / 'game.cue'
        sheet.write_text(discs.sheet_of(**{'game (Track 1)': discs.DATA, 'game (Track 2)': 'AUDIO'}))
        self.browser.give('#files', [sheet])
        self.browser.wait('.say.bad', 'game.cue also needs game (Track 1).bin, game (Track 2).bin.')
        self.assertIn('game (Track 1).bin, game (Track 2).bin', self.browser.text('.say.bad'))

    def test_what_is_no_raw_image_is_named_with_what_to_do(self) -> None:
        place = folder('others')
        with zipfile.ZipFile(place / 'game.zip', 'w') as packed:
            packed.writestr('game.bin', b'x' * 5000)
        iso = b''.join(discs.game()[at + 16:at + 2064] for at in range(0, len(discs.game()), SECTOR_SIZE))
        others = {'game.chd': (b'MComprHD' + bytes(5000), 'chdman extractcd -i "game.chd"'), 'game.iso': (iso, 'an ISO image'),
                  'game.zip': ((place / 'game.zip').read_bytes(), 'an archive'), 'game.ecm': (b'ECM\0' + bytes(99), 'unecm'),
                  'game.ppf': (b'PPF30\x02', 'a patch of a different tool'),
                  'game.txt': (b'hello', 'choose a raw image'), 'game.bin': (b'', 'an empty file')}
        browser = self.browser
        for name, (data, words) in others.items():
            with self.subTest(name):
                browser.give('#files', [file_of(data, name)])
                browser.wait('#start-message .say', words)
                self.assertIn(name, browser.text('#start-message .say'))
                self.assertEqual(browser.run("return document.querySelector('#start').hidden"), False)

    def test_a_cue_sheet_says_which_files_it_does_not_name(self) -> None:
        sheet = folder('cue') / 'game.cue'
        sheet.write_text(discs.sheet_of(game=discs.DATA))
        browser = self.opened(sheet, file_of(discs.game()), file_of(scratched(), 'other.bin'))
        browser.wait('#messages', 'Not opened: other.bin.')
        self.assertIn('The cue sheet does not name it: game.cue.', browser.text('#messages'))
        self.assertNotIn('is a', browser.text('#messages'))
        self.setUp()
        browser = self.opened(sheet, file_of(discs.game()), file_of(b'PPF30\x02', 'game.ppf'))
        browser.wait('#messages', 'game.ppf is a patch of a different tool')
        self.assertEqual(browser.text('#disc-line .name'), 'game.bin')

    def test_a_packed_image_beside_a_script_has_a_command_that_any_shell_takes(self) -> None:
        browser = self.browser
        browser.give('#files', [file_of(b'cdpatch 1\n', 'a.txt'), file_of(b'MComprHD' + bytes(5000), "it's $HOME.chd")])
        browser.wait('.say.bad', "A compressed image (CHD), which cdpatch cannot read: it's $HOME.chd")
        command = browser.text('.say.bad .line-out')
        words = subprocess.run(['sh', '-c', f'printf "%s\\n" {command}'], stdout=subprocess.PIPE, check=True).stdout.decode().splitlines()
        self.assertEqual(words, ['chdman', 'extractcd', '-i', 'disc.chd', '-o', 'disc.cue', '-ob', 'disc.bin'])

    def test_an_image_of_audio_is_shown(self) -> None:
        audio = random.Random(4).randbytes(500 * SECTOR_SIZE)
        sheet = file_of(discs.sheet_of(game='AUDIO').encode(), 'game.cue')
        for sheets in ((), (sheet,)):
            with self.subTest(sheets=len(sheets)):
                self.setUp()
                browser = self.opened(file_of(audio), *sheets)
                browser.wait(VERDICT, common.text('imageNoModeOne'))
                browser.wait(VERDICT, common.text('imageCanBeLookedAt'))
                browser.wait('.sha1', sha1(audio))
                browser.send('#map', Keys.END)
                waited(lambda: self.place() == 'Block 499, no sync field: audio, or an unknown format', self.place())

    def test_damage_in_sectors_of_mode_2_is_shown(self) -> None:
        image = discs.changed(discs.mode2(40), (7, 500), (9, 2200), (11, 14))
        image = image[:20 * SECTOR_SIZE + 16] + bytes(SECTOR_SIZE - 16) + image[21 * SECTOR_SIZE:]
        browser = self.browser
        browser.give('#files', [file_of(image)])
        browser.wait(VERDICT, '2 of 39 data sectors are damaged; 1 sector has a wrong address; 1 sector has no codes that show damage.')
        self.assertIn('You can view and repair Mode 2 sectors, but not patch them.', browser.text(VERDICT))
        for block, words in ((7, 'damaged: the EDC does not match, the parity does not match'), (9, 'damaged: the parity does not match'),
                             (11, 'The address in its header is not that of its block'), (12, 'This sector is sound'), (20, 'was not tested')):
            self.go_to(block)
            browser.wait('.say.thin', words)

    def test_more_images_than_one_beside_the_open_one_are_refused(self) -> None:
        browser = self.opened(file_of(discs.game()))
        browser.give('#files', [file_of(scratched(), 'a.bin'), file_of(discs.game(), 'b.bin')])
        browser.wait('.say.bad', 'An image is open already: game.bin.')
        self.assertIn('Open one more, a.bin or b.bin, to compare it.', browser.text('.say.bad'))
        self.assertEqual(browser.text('#disc-line .name'), 'game.bin')

    def test_workers_that_can_read_no_file_are_given_bytes(self) -> None:
        image = scratched() * 120
        browser = self.opened(file_of(image))
        browser.wait(VERDICT, '1,080 of 21,600 data sectors are damaged')
        browser.run('''const real = Worker.prototype.postMessage; globalThis.posted = { files: 0, bytes: 0 };
            Worker.prototype.postMessage = function (message, ...given) {
                const pieces = message.pieces?.map(piece => piece.file ? { ...piece, file: new Blob() } : piece);
                if (pieces) posted[pieces[0].file ? 'files' : 'bytes'] += 1;
                real.call(this, pieces ? { ...message, pieces } : message, ...given);
            }''')
        browser.click('#tab-text')
        browser.type('#find-text', 'スタート')
        browser.press(Keys.ENTER)
        browser.wait('#panel-text .hits tbody mark')
        files, bytes_given = browser.run('return [posted.files, posted.bytes]')
        self.assertGreaterEqual(bytes_given, math.ceil(len(image) / SECTOR_SIZE / 1024))
        self.assertTrue(0 < files < bytes_given, files)

    def test_all_hashes_are_copied(self) -> None:
        browser = self.opened(file_of(discs.game()))
        browser.wait('.sha1', sha1(discs.game()))
        browser.run(CLIPBOARD)
        self.press('Copy')
        lines = ['game.bin', f'size {len(discs.game())}', f'CRC-32 {zlib.crc32(discs.game()):08x}', f'SHA-1 {sha1(discs.game())}', '']
        self.sees('\n'.join(lines), 'return globalThis.copied')

    def test_an_image_is_opened_without_the_characters_of_an_encoding(self) -> None:
        self.browser.run('''globalThis.labels = [];
            const { TextDecoder } = globalThis;
            globalThis.TextDecoder = function (label, ...given) {
                labels.push(label);
                return new TextDecoder(label, ...given);
            }''')
        self.open_image(file_of(scratched()))
        self.assertNotIn('shift_jis', self.browser.run('return labels'))

    def test_the_style_is_that_of_the_sources(self) -> None:
        """Compares the rules of the packed page, which esbuild has minified, with those of the source."""
        rules = '''const source = new CSSStyleSheet(); source.replaceSync(arguments[0]);
            const text = rule => rule.cssText.replace(/,\\s+/g, ',');
            return [source, document.styleSheets[0]].map(sheet => [...sheet.cssRules].map(text))'''
        source, joined = self.browser.run(rules, (TOP / 'web/page/style.css').read_text(encoding='utf-8'))
        self.assertGreater(len(source), 100)
        self.assertEqual(joined, source)

    def test_two_files_of_one_name_are_refused(self) -> None:
        browser = self.browser
        browser.give('#files', [file_of(discs.game()), file_of(scratched())])
        browser.wait('.say.bad', 'Two of these files have the same name')

    def test_a_file_that_is_gone_is_said(self) -> None:
        path = file_of(discs.game())
        browser = self.opened(path)
        browser.wait('.sha1', sha1(discs.game()))
        path.write_bytes(bytes(100))
        browser.send('#map', Keys.END)
        browser.wait('.say.bad', 'cannot be read any more')
        self.assertIn('game.bin', browser.text('.say.bad'))

    @common.in_check
    def test_the_example_disc_opens(self) -> None:
        browser = self.browser
        browser.click('#open-example')
        browser.wait(VERDICT, '16 of 270 data sectors are damaged')
        browser.wait('#findings', 'a scratch: every 9th sector')
        browser.click('#findings [data-tab=files]')
        browser.wait('#findings .files tbody', 'PICTURES.DAT')

    def test_no_panel_is_wider_than_a_phone(self) -> None:
        browser = self.browser
        browser.click('#open-example')
        browser.wait('.sha1')
        for panel in ('disc', 'text', 'script', 'publish'):
            browser.click(f'#tab-{panel}')
            self.assertLessEqual(browser.wider(320), 0, panel)

    def test_another_base_is_offered_if_no_sector_has_the_address_of_its_block(self) -> None:
        browser = self.opened(discs.written(game=discs.scratched())['game'])
        browser.wait('#disc-line .lead button', 'Repair from another dump')
        browser.wait('.sha1', sha1(discs.scratched()))
        self.press_in('image', 'Set the base')
        browser.type('#base', '100')
        browser.press(Keys.ENTER)
        browser.wait('#disc-line .lead', 'the base is probably 0, not 100. 1 sector is damaged.')
        self.assertEqual(browser.run('return document.activeElement.innerText'), 'Change')
        self.assertNotIn('copy protection', browser.text('#findings'))
        browser.run("document.querySelector('#disc-line .lead .main').click()")
        browser.wait('#disc-line .lead', f'1 of {len(discs.game()) // 2352} data sectors')

    def test_reading_can_be_cancelled_and_begun_again(self) -> None:
        browser = self.browser
        browser.run(HELD)
        browser.give('#files', [file_of(discs.game() * 120)])
        browser.wait(VERDICT, 'Reading the disc')
        browser.press(Keys.ESCAPE)
        browser.run("document.querySelector('#disc-line .lead button').focus()")
        browser.wait(VERDICT, 'Reading the disc')
        browser.press(Keys.ESCAPE)
        browser.wait(VERDICT, 'Stopped at')
        browser.run('letGo()')
        browser.wait('#disc-line .sha-wait', 'not\u00a0known')
        browser.click('#tab-publish')
        browser.wait('#panel-publish', 'Your image was not read to its end.')
        self.assertNotIn('Calculating the SHA-1', browser.text('#panel-publish'))
        browser.click('#tab-disc')
        browser.click(f'{VERDICT} button')
        browser.wait(VERDICT, 'missing or extra in 119 places')

    def test_an_image_is_read_once_for_its_map_and_its_hashes(self) -> None:
        browser = self.browser
        image = scratched() * 120 + b'tail'
        browser.run(READ)
        browser.give('#files', [file_of(image)])
        browser.wait('.sha1', sha1(image))
        browser.wait(VERDICT, 'damaged')
        self.assertTrue(len(image) <= browser.run('return bytesRead') < 1.1 * len(image))

    def test_the_line_of_the_disc_keeps_its_controls_while_it_is_read(self) -> None:
        browser = self.browser
        browser.run(HELD)
        browser.give('#files', [file_of(discs.game() * 120)])
        browser.wait(VERDICT, 'Reading the disc')
        shown = browser.text(VERDICT)
        browser.run("globalThis.kept = ['.lead .btn', '[data-menu=image]'].map(it => document.querySelector(`#disc-line ${it}`)); kept[1].focus()")
        waited(lambda: browser.run('return waiting.length') >= 4, 'nothing is read')
        browser.run('letGo(4)')
        waited(lambda: browser.text(VERDICT) != shown, 'the disc is not read')
        self.assertEqual(browser.run('return kept.map(it => it.isConnected)'), [True, True])
        more = browser.hold('document.querySelector("#disc-line [data-menu=image]")')
        browser.run('letGo()')
        browser.wait('#disc-line .sha1')
        self.assertTrue(browser.run('return document.activeElement === kept[1]'))
        browser.mouse('Released', more)
        self.press('Set the base')
        browser.wait('#disc-line #base')

    # ---- the map

    def test_the_keys_of_the_map(self) -> None:
        browser = self.opened(file_of(scratched()))
        self.assertEqual(browser.run('return document.activeElement.id'), 'map')
        last = SECTORS + 39
        for keys, block in ((Keys.HOME, 0), (Keys.ARROW_RIGHT, 1), ('n', 30), ('n', 34), ('p', 30), (Keys.END, last), ('r', last),
                            (Keys.PAGE_UP, 0), ('r', SECTORS), (Keys.ARROW_LEFT, SECTORS - 1), (Keys.PAGE_DOWN, last), ('p', 101)):
            browser.press(keys)
            self.assertEqual(self.at(), block, keys)
        self.assertEqual(self.place(), 'Block 101, no sync field: audio, or an unknown format, in a data track: sync field or mode byte lost')
        shown = browser.run("return [...document.querySelectorAll('.loupe li')].map(it => Number(it.dataset.sector))")
        first = 101 - len(shown) // 2
        self.assertEqual(shown, [*range(first, first + len(shown))])
        browser.press('R')
        self.assertEqual(self.at(), 0)
        browser.press('n')
        self.assertEqual(self.place(), 'Block 30, Mode 1, damaged: edc p=3 q=3')
        browser.press('g')
        self.sees('go-to', 'return document.activeElement.id')
        browser.type('#go-to', '90\n')
        browser.wait('#sector-title', 'block 90')
        self.assertIn('address', self.place())

    @common.in_check
    def test_up_and_down_move_by_a_row(self) -> None:
        browser = self.opened(file_of(discs.game()))
        browser.press(Keys.HOME, Keys.ARROW_DOWN)
        row = self.at()
        width, cell = browser.run("const map = document.querySelector('#map'); return [map.width, map.width / map.clientWidth]")
        self.assertEqual(cell, 1)
        self.assertEqual(width % row, 0)
        browser.press(Keys.ARROW_DOWN, Keys.ARROW_UP)
        self.assertEqual(self.at(), row)

    def pixels(self, colour: str) -> list[list[int]]:
        """The pixels of the map that have a colour of the style."""
        found: list[list[int]] = self.browser.run('''const map = document.querySelector('#map');
            const colour = getComputedStyle(document.documentElement).getPropertyValue(arguments[0]).trim();
            const want = [1, 3, 5].map(at => parseInt(colour.slice(at, at + 2), 16));
            const { data } = map.getContext('2d').getImageData(0, 0, map.width, map.height);
            const found = [];
            for (let i = 0; i < data.length; i += 4) {
                if (want.every((it, k) => it === data[i + k])) found.push([i / 4 % map.width, Math.floor(i / 4 / map.width)]);
            }
            return found;''', colour)
        return found

    def test_one_bad_sector_among_many_is_seen_and_met_by_a_click(self) -> None:
        block = 17000
        self.browser.size(360)
        other = SYNC + bytes([0, 2, 0, 0]) + bytes(SECTOR_SIZE - 16)
        image = other * block + damaged(sector(block, b'bad'), 0) + other * 8000
        browser = self.opened(file_of(image))
        browser.wait('#map')
        waited(lambda: self.pixels('--f-edc'), 'no finding on the map')
        bad = self.pixels('--f-edc')
        (left, top), (right, bottom) = bad[0], bad[-1]
        self.assertEqual([right - left, bottom - top, len(bad)], [1, 1, 4])
        for x, y in bad:
            browser.press('g')
            browser.type('#go-to', '5\n')
            browser.run('''const map = document.querySelector('#map'), box = map.getBoundingClientRect();
                const place = { clientX: box.left + arguments[0] + 0.5, clientY: box.top + arguments[1] + 0.5 };
                map.dispatchEvent(new MouseEvent('click', place))''', x, y)
            self.assertEqual(self.at(), block)
            browser.send('#map', Keys.HOME)

    @common.in_check
    def test_the_legend_shows_one_kind_alone(self) -> None:
        browser = self.opened(file_of(scratched()))
        browser.wait('.legend')
        waited(lambda: self.pixels('--k-mode1'), 'no Mode 1 on the map')
        entry = "const it = [...document.querySelectorAll('.legend button')].find(it => it.innerText.includes('data damaged'));"
        browser.run(f'{entry} it.click()')
        waited(lambda: not self.pixels('--k-mode1'), 'Mode 1 is on the map still')
        self.assertNotEqual(self.pixels('--f-edc'), [])
        self.assertEqual(browser.run(f"{entry} return it.getAttribute('aria-pressed')"), 'true')
        browser.run(f'{entry} it.click()')
        waited(lambda: self.pixels('--k-mode1'), 'Mode 1 does not come back')
        browser.run(f'{entry} it.click()')
        self.press('only data damaged shown')
        waited(lambda: self.pixels('--k-mode1'), 'Mode 1 does not come back')
        self.assertIn('data damaged', browser.run('return document.activeElement.innerText'))
        self.assertNotIn('shown', browser.text('#panel-disc header'))

    def test_files_have_two_shades_by_turns(self) -> None:
        for shown in (False, True):
            browser = self.opened(file_of(discs.game() if shown else image_of([b'no volume'] * 30)))
            browser.wait('.sha1')
            waited(lambda: bool(self.pixels('--k-shade')) == shown and self.pixels('--k-mode1'), f'another shade: {not shown}')
            self.assertEqual('two shades' in browser.text('#panel-disc .legend-row'), shown)
            self.setUp()

    def test_a_sound_disc_begins_with_the_sector_of_its_first_file(self) -> None:
        image = file_of(discs.game())
        first = int(common.cdscript_prints('files', image).split()[0])
        browser = self.opened(image)
        browser.wait('#sector-title', f'block {first}')
        browser.wait('.hex .line')
        self.assertEqual(self.at(), first)
        self.assertFalse(browser.run("return document.activeElement.matches('.hex')"))
        self.setUp()
        self.opened(file_of(scratched())).wait('.sha1')
        browser.wait('#sector-title', common.text('sectorNoSectorOpen'))

    def test_a_button_under_the_map_leads_to_the_sector_where_it_is_below(self) -> None:
        browser = self.opened(file_of(discs.game()))
        browser.wait('.hex .line')
        for width, height in ((360, 740), (900, 900)):
            browser.size(width, height)
            browser.run('scrollTo(0, 0)')
            self.press('Open the sector')
            self.wait_for_focus('.hex')
            self.assertLessEqual(browser.run(UNSEEN, '#sector-title'), 0)
        browser.size(1280)
        waited(lambda: not browser.run("return document.querySelector('.below').checkVisibility()"), 'the button stays')

    def test_the_byte_that_p_and_q_give_is_named(self) -> None:
        block = discs.first_block()
        old, fresh = discs.game()[block * SECTOR_SIZE + 16 + 74], discs.changed(discs.game(), (block, 16 + 74))[block * SECTOR_SIZE + 16 + 74]
        browser = self.opened(file_of(discs.changed(discs.game(), (block, 16 + 74))))
        self.go_to(block)
        browser.wait('#panel-disc .say.bad', f'P and Q give {old:02X} in place of {fresh:02X} at offset 74. The EDC then matches.')
        self.assertTrue(browser.run('return document.querySelector("#count-script").hidden'))

    # ---- findings and texts

    @common.in_check
    def test_findings_are_grouped_into_places_that_open(self) -> None:
        image = bytearray(SYNC + bytes([0, 2, 0, 0]) + bytes(SECTOR_SIZE - 16)) * 2000
        for block in (10, 400, 1090, 1800):
            image[block * SECTOR_SIZE:(block + 1) * SECTOR_SIZE] = sector(block, b'')
            image[block * SECTOR_SIZE + 2100] ^= 1
        browser = self.opened(file_of(bytes(image)))
        folds = "return [...document.querySelectorAll('#findings tbody .fold')].map(it => it.innerText)"
        rows = waited(lambda: browser.run(folds), 'no places')
        self.assertEqual(rows, ['▸ 10–1090', '▸ 1800'])
        browser.click('#findings .fold')
        browser.wait('#findings tr.sub', 'p=1 q=1')
        blocks = browser.run("return [...document.querySelectorAll('#findings tr.sub .fold')].map(it => it.innerText)")
        self.assertEqual(blocks, ['10', '400', '1090'])
        browser.run("document.querySelectorAll('#findings tr.sub .fold')[1].click()")
        browser.wait('#sector-title', 'block 400')
        browser.wait('.say.thin', 'The user data match their EDC')

    @common.in_check
    def test_the_texts_are_the_programs_to_the_byte(self) -> None:
        path = file_of(scratched(b'tail'))
        browser = self.opened(path)
        browser.click('#findings [data-tab=details]')
        for detail, name in (('runs', 'list'), ('list', 'list'), ('audit', 'audit')):
            browser.choose('#findings select', detail)
            self.press('Save…')
            saved = browser.downloaded(f'{name}.txt')
            self.assertEqual(saved.read_text(), run_program(name, path)[1])
            saved.unlink()
        self.assertEqual(browser.text('#findings pre').rstrip('\n'), run_program('audit', path)[1].rstrip('\n'))

    def test_all_of_a_row_does_what_its_button_does(self) -> None:
        browser = self.opened(file_of(scratched()))
        browser.click('#findings tbody tr:nth-child(1) td:nth-child(4)')
        browser.wait('#findings tr.sub')
        browser.click('#findings tr.sub td:nth-child(3)')
        browser.wait('#sector-title', f"block {browser.text('#findings tr.sub .fold')}")
        for tab in ('details', 'files'):
            browser.click(f'#findings [data-tab={tab}]')
            browser.click('#findings tbody tr:last-child td:last-child')
            if tab == 'details':
                browser.wait('#sector-title', f"block {browser.text('#findings tbody tr:last-child .fold').partition('–')[0]}")
        browser.wait('#findings tbody tr:last-child[aria-selected=true]')

    def test_a_press_on_a_finding_goes_on_when_the_files_are_found(self) -> None:
        browser = self.browser
        browser.run(HELD_SECTORS)
        self.opened(file_of(scratched()))
        row = browser.hold('document.querySelector("#findings tbody td:nth-child(4)")')
        browser.run('document.querySelector("#findings .fold").focus(); openGate()')
        browser.wait('#findings [data-tab=files]', 'Files 3')
        self.assertEqual(browser.run('return document.activeElement.className'), 'fold')
        browser.mouse('Released', row)
        browser.wait('#findings tr.sub')

    # ---- a sector

    def test_a_sector_is_shown_in_hex_and_in_an_encoding(self) -> None:
        image = discs.game()
        browser = self.opened(file_of(image))
        block = discs.first_block()
        self.go_to(block)
        digits = browser.run("return [...document.querySelectorAll('.hex i[data-at]')].map(it => it.innerText).join('')")
        self.assertEqual(bytes.fromhex(digits), image[block * SECTOR_SIZE:(block + 1) * SECTOR_SIZE])
        self.assertIn('スタート', browser.text('.hex'))
        browser.wait('#panel-disc .foot', 'file /DATA/MSG00.DAT at 0')
        browser.choose('#panel-disc .side + .side select', 'UTF-16BE')
        waited(lambda: 'スタート' not in browser.text('.hex'), 'the encoding stays')

    def test_the_bytes_are_outlined_where_broken_columns_and_diagonals_cross(self) -> None:
        browser = self.opened(file_of(damaged(discs.game(), 50, 75)))
        browser.press('n')
        browser.wait('.say.bad', 'edc p=1 q=1')
        outlined = browser.run("return [...document.querySelectorAll('.hex i.sus')].map(it => Number(it.dataset.at))")
        self.assertEqual(outlined, [16 + 75])
        self.assertIn('1 of 86 P columns (p=1) and 1 of 52 Q diagonals (q=1) do not match either; they cross at the outlined byte, offset 75: '
                      'it is probably the wrong one.', browser.text('.say.bad'))

    @common.in_check
    def test_typed_bytes_become_lines_of_the_script_that_the_program_applies(self) -> None:
        image = discs.game()
        path = file_of(image)
        browser = self.opened(path)
        self.go_into(60)
        browser.press(Keys.ARROW_DOWN, 'c', '0', 'f', 'f')
        browser.press(Keys.ARROW_LEFT, '1', '2')
        browser.press(Keys.ARROW_DOWN, '3', '4')
        old = image[60 * SECTOR_SIZE + 16:]
        lines = ['cdpatch 1', f'set 60 16 C012 was {old[16:18].hex().upper()}', f'set 60 34 34 was {old[34:35].hex().upper()}', '']
        changed = "return [...document.querySelectorAll('.hex i.new')].map(it => Number(it.dataset.at)).filter(at => at < 2064)"
        waited(lambda: browser.run(changed) == [32, 33, 50], 'three changed bytes')
        script = self.typed_script()
        self.assertEqual(script, '\n'.join(lines))
        (path.parent / 'script.txt').write_text(script)
        self.assertEqual(run_program('apply', path, path.parent / 'script.txt', path.parent / 'new.bin')[0], 0)
        fresh = (path.parent / 'new.bin').read_bytes()[60 * SECTOR_SIZE + 16:]
        self.assertEqual(fresh[16:18].hex() + fresh[34:35].hex(), 'c01234')

    def wait_for_changed(self, *places: int) -> None:
        changed = "return [...document.querySelectorAll('.hex i.new')].map(it => Number(it.dataset.at)).filter(at => at < 2064)"
        waited(lambda: self.browser.run(changed) == [*places], f'changed bytes: {places}')

    def test_bytes_that_were_typed_are_taken_back_one_by_one(self) -> None:
        browser = self.opened(file_of(discs.game()))
        self.go_into(60)
        browser.press('c', '0', 'f', 'f', Keys.ARROW_DOWN, '3', '4', '5')
        browser.press('z', held=Keys.CONTROL)
        for left in ([16, 17], [16]):
            browser.press('z', held=Keys.CONTROL)
            self.wait_for_changed(*left)
        browser.press('e', 'e')
        browser.wait('#announced', 'In the script: set 60 0 C0EE was')
        turns: list[tuple[str, list[int]]] = [('z', [16]), ('y', [16, 17]), ('z', [16]), ('z', [])]
        for way, due in turns:
            browser.press(way, held=Keys.CONTROL)
            self.wait_for_changed(*due)
        browser.press('z', held=Keys.CONTROL)
        browser.wait('#announced', 'The last change to the script was not typed here.')
        for left in ([16], [16, 17]):
            browser.run(CONTROL_SHIFT_Z)
            self.wait_for_changed(*left)
        browser.press('y', held=Keys.CONTROL)
        browser.wait('#announced', 'There are no bytes to redo.')

    def test_undo_leads_to_the_sector_of_its_bytes(self) -> None:
        browser = self.opened(file_of(discs.game()))
        self.go_into(60)
        browser.press('c', '0')
        self.go_into(61)
        browser.press('z', held=Keys.CONTROL)
        browser.wait('#sector-title', '60')
        browser.wait('#panel-disc .foot', 'offset 0')

    def test_a_byte_that_is_typed_twice_keeps_what_was_there_first(self) -> None:
        image = discs.game()
        browser = self.opened(file_of(image))
        self.go_into(61)
        browser.press('a', 'a', Keys.ARROW_LEFT, 'b', 'b')
        old = image[61 * SECTOR_SIZE + 16]
        self.assertEqual(self.typed_script(), f'cdpatch 1\nset 61 0 BB was {old:02X}\n')

    def test_a_damaged_sector_says_what_becomes_of_typed_bytes(self) -> None:
        browser = self.opened(file_of(damaged(discs.game(), 50, 75)))
        browser.press('n')
        browser.wait('.foot', 'This sector is damaged: Check refuses the patch, unless damaged sectors are patched too (carry)')
        self.go_to(60)
        waited(lambda: 'This sector is damaged' not in browser.text('.foot'), 'a sound sector is called damaged')

    def test_parity_cannot_be_typed_over(self) -> None:
        browser = self.opened(file_of(discs.game()))
        browser.send('#map', Keys.ENTER)
        self.press('Fields of the sector')
        browser.run("[...document.querySelectorAll('.fields button')].find(it => it.innerText.startsWith('P parity')).click()")
        browser.send('.hex', '00')
        self.sees(True, lambda: 'Only the user data' in browser.text('#announced'))
        self.sees(True, "return document.querySelector('#count-script').hidden")

    # ---- for everyone

    def test_every_control_has_a_name_and_groups_are_one_stop(self) -> None:
        browser = self.opened(file_of(scratched()))
        browser.press('n')
        browser.wait('.say.bad', 'edc')
        browser.click('#findings .fold')
        self.assertEqual(browser.nameless(), [])
        self.setUp()
        self.opened(file_of(scratched()))
        browser.wait('#findings table')
        browser.run("document.querySelector('.skip').focus()")
        stops = browser.tab_stops()
        self.assertLess(stops.index('map'), 13, stops)
        self.assertLess(len(stops), 26, stops)
        for width in (360, 480, 620, 760, 900, 1180, 1366, 1600):
            self.assertLessEqual(browser.wider(width), 0, width)

    def test_f6_goes_from_card_to_card(self) -> None:
        browser = self.opened(file_of(scratched()))
        browser.wait('#findings')
        where = "const card = document.activeElement.closest('.card, #bar, footer'); return card ? card.innerText.slice(0, 12) : 'none'"
        seen = []
        for _ in range(7):
            browser.press(Keys.F6)
            seen.append(browser.run(where))
        self.assertEqual(len(set(seen)), 6, seen)
        self.assertEqual(seen[6], seen[0])
