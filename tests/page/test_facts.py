"""The page is right about counts, names, and places, and shows what was asked for."""

import random
import subprocess
from pathlib import Path

import common
import discs
from keys import Keys
from pages import GATE, HELD, NO_PICKER, PageTest

# Delays reading the open image's volume descriptor, at sector 16, until `openFiles`.
LATE_FILES = '''const { slice, arrayBuffer } = Blob.prototype, held = new WeakSet();
const open = new Promise(done => { globalThis.openFiles = done; });
Blob.prototype.slice = function (from, ...given) {
    const part = slice.call(this, from, ...given);
    if (from === 16 * 2352 && !document.querySelector('#disc-line').hidden) held.add(part);
    return part;
};
Blob.prototype.arrayBuffer = async function () {
    if (held.has(this)) await open;
    return arrayBuffer.call(this);
};'''


def with_lost(image: bytes, block: int) -> bytes:
    """An image with one sector that has lost its sync field."""
    return image[:block * 2352] + bytes(12) + image[block * 2352 + 12:]


class Facts(PageTest):
    stub = NO_PICKER

    def pair(self, first: bytes, second: bytes) -> dict[str, Path]:
        files = discs.written(first=first, second=second)
        self.open_image(files['first'])
        self.open_files(files['second'])
        self.browser.answer()
        self.browser.wait('#second-title', 'second.bin')
        return files

    def tally(self) -> list[str]:
        self.browser.wait('#second-body .tally')
        return list(self.browser.run('return [...document.querySelectorAll("#second-body .tally b")].map(it => it.innerText)'))

    def legend(self) -> str:
        return self.browser.text('.legend')

    # ---- two images

    def test_a_refused_repair_counts_nothing_as_repairable(self) -> None:
        other = common.image_of([b'%d other' % block for block in range(len(discs.game()) // 2352)])
        self.pair(common.damaged(discs.game(), 40), other)
        self.browser.wait('#second-body .say.bad', 'Nothing was copied.')
        self.assertEqual(self.browser.run('return document.querySelectorAll("#second-body .tally").length'), 0)
        self.assertNotIn('can be repaired', self.legend())
        self.browser.wait('.legend', 'data damaged')

    def test_a_count_of_none_is_not_green(self) -> None:
        image = common.damaged(discs.game(), 40, common.IN_EDC)
        self.pair(image, image)
        self.assertEqual(self.tally(), ['0', '1', '0'])
        self.assertEqual(self.browser.run('return document.querySelectorAll("#second-body .good-ink").length'), 0)

    def test_a_sector_that_is_lost_in_both_dumps_cannot_be_repaired(self) -> None:
        image = discs.game()
        for block in (40, 60, 90):
            image = common.damaged(image, block, common.IN_EDC)
        image = with_lost(image, 90)
        self.pair(image, image)
        self.assertEqual(self.tally(), ['0', '3', '0'])
        self.browser.wait('[aria-label="Without a sound copy: 3"]', '90')
        self.assertEqual(self.browser.text('#count-disc').split()[0], '3')

    def test_sectors_of_files_are_lost_at_an_edge_too_as_scan_counts_them(self) -> None:
        image = discs.game()
        first = discs.first_block() + 1
        file = discs.written(cut=image[:first * 2352] + bytes(len(image) - first * 2352))['cut']
        ran = subprocess.run([common.cdscript(), 'scan', file], check=False, stdout=subprocess.PIPE, stderr=subprocess.DEVNULL)
        findings = int(ran.stdout.split(b'\t')[3])
        self.assertGreater(findings, 1)
        self.open_image(file)
        self.assertEqual(self.browser.text('#count-disc').split()[0], str(findings))
        self.browser.wait('#findings tbody', f'{findings} × sync or mode lost')

    def test_sectors_that_are_not_tested_and_differ_are_counted(self) -> None:
        audio = bytes(range(1, 50)) * 48 * 400
        files = discs.written(first=discs.game() + audio, second=discs.game() + audio[:2352 * 9] + bytes(7) + audio[2352 * 9 + 7:])
        self.open_image(files['first'])
        self.open_files(files['second'])
        self.browser.answer('Repair the open first.bin with this file')
        self.assertEqual(self.tally(), ['0', '0', '0'])
        self.browser.wait('#second-body .say.warn', '1 sector was not tested, and differs.')

    def test_the_open_image_is_known_as_its_own_second_one(self) -> None:
        file = discs.written(game=common.damaged(discs.game(), 40))['game']
        self.open_image(file)
        self.open_files(file)
        self.browser.wait('#sheet', 'This is the image that is already open.')

    def test_a_file_that_is_listed_late_is_named_all_the_same(self) -> None:
        image = common.damaged(discs.game(), discs.first_block(), common.IN_EDC)
        files = discs.written(first=image, second=image)
        self.browser.run(LATE_FILES)
        self.open_files(files['first'], files['second'])
        self.browser.answer('Repair the open first.bin with this file')
        # The end of the volume, which the result names, is not known without its files.
        self.browser.wait('#second-body .progress')
        self.browser.run('openFiles()')
        self.browser.wait('[aria-label="Without a sound copy: 1"] td', str(discs.first_block()))
        self.browser.wait('[aria-label="Without a sound copy: 1"]', '/DATA/MSG00.DAT')

    # ---- texts

    def search(self, image: bytes, text: str, encoding: str = 'CP932') -> None:
        self.open_image(discs.written(texts=image)['texts'])
        self.browser.click('#tab-text')
        self.browser.choose('#find-encoding', encoding)
        self.browser.type('#find-text', text)
        self.browser.press(Keys.ENTER)
        self.browser.wait('#panel-text .hits tbody mark')

    def test_a_tag_stands_once_at_a_hit(self) -> None:
        self.search(common.image_of([b'\0' + '殻z'.encode('cp932') * 90]), 'kz')
        loaded = 'return [...document.querySelectorAll(".hits .ctx")].every(it => it.innerText !== "…")'
        common.waited(lambda: self.browser.run(loaded), 'no context')
        tags = self.browser.run('return [...document.querySelectorAll(".hits tbody tr")].map(it => it.querySelectorAll(".tag.warn").length)')
        self.assertEqual(tags, [1] * 90)

    def test_many_hits_are_one_tab_stop(self) -> None:
        self.search(discs.many_texts(), 'スタート')
        self.browser.wait('#panel-text .hits tbody tr:nth-child(200)', 'スタート')
        stops = 'return [...document.querySelectorAll(".hits tbody button")].filter(it => it.tabIndex === 0).map(it => it.innerText.trim())'
        common.waited(lambda: len(self.browser.run(stops)) == 1, str(self.browser.run(stops)[:5]))
        self.browser.run('document.querySelector(".hits tbody tr:nth-child(3) button").focus()')
        self.browser.press(Keys.ARROW_DOWN, Keys.ENTER)
        self.browser.wait('#panel-text .side h2', 'Replace: block 0 offset 78')

    def test_what_is_before_a_hit_does_not_run_into_it(self) -> None:
        self.search(common.image_of([b'.' * 37 + b'\x83' + '選択して'.encode('cp932') + b'\0']), '選択して')
        marks = 'return [...document.querySelectorAll(".hex.around .t mark")].map(it => it.innerText).join("")'
        common.waited(lambda: self.browser.run(marks) == '選択して', str(self.browser.run(marks)))

    def test_a_character_of_private_use_is_shown_as_a_point(self) -> None:
        self.search(common.image_of([b'..\xF0\x40\xF0\x41ABC']), 'ABC')
        self.browser.wait('.hits .ctx', '··ABC')
        self.browser.wait('.hex.around .t', '··ABC')
        private = 'return /[\\ue000-\\uf8ff]/.test(document.querySelector("#panel-text").innerText)'
        self.assertFalse(self.browser.run(private))

    def test_a_sector_that_is_opened_from_another_panel_has_the_focus(self) -> None:
        self.search(discs.game(), 'スタート')
        self.press('Open the sector')
        self.browser.wait('#sector-title', f'block {discs.first_block()}')
        self.wait_for_focus('.hex')

    # ---- a disc

    def test_g_asks_for_a_block_while_a_second_image_is_open(self) -> None:
        game = common.damaged(discs.game(), 30)  # a sound disc opens a sector
        files = discs.written(first=game, second=game)
        self.open_image(files['first'])
        self.browser.run(HELD)
        self.open_files(files['second'])
        self.browser.answer('Compare')
        self.browser.wait('#second-body .progress')
        self.browser.send('#map', 'g')
        self.wait_for_focus('#go-to')
        self.browser.run('letGo()')
        self.browser.wait('#second-body .say.good')
        self.browser.press('7', Keys.ENTER)
        self.browser.wait('#sector-title', 'block 7')

    def test_a_block_that_is_being_typed_stays_while_the_sector_is_drawn_anew(self) -> None:
        self.open_image(discs.written(game=discs.game())['game'])
        self.go_to(20)
        self.browser.run(GATE)
        self.browser.send('#map', Keys.ARROW_RIGHT, 'g', '7')
        self.browser.run('openGate()')
        self.browser.wait('#sector-title', 'block 21')
        self.browser.press(Keys.ENTER)
        self.browser.wait('#sector-title', 'block 7')

    def test_a_block_that_is_not_there_is_said_to_all(self) -> None:
        self.open_image(discs.written(game=discs.game())['game'])
        for number in ('99999', ''):
            self.browser.type('#go-to', f'{number}\n')
            self.browser.wait('#panel-disc .say.bad', f'The blocks of this image are 0 to {len(discs.game()) // 2352 - 1}.')
            self.browser.type('#go-to', '5\n')
            self.browser.wait('#sector-title', 'block 5')
            self.is_gone('#panel-disc .say.bad')

    def test_what_is_sound_is_said_once_and_only_if_something_was_tested(self) -> None:
        for image, green in ((random.Random(4).randbytes(400 * 2352), 0), (discs.game(), 1)):
            self.setUp()
            self.open_image(discs.written(image=image)['image'])
            self.browser.wait('#disc-line .lead', 'sector')
            self.assertEqual(self.browser.run('return document.querySelectorAll("#disc-line .good-ink").length'), green)
            self.browser.wait('#findings [data-tab=files]')
            text = self.browser.text('#disc-line') + self.browser.text('#findings')
            self.assertEqual([word for word in ('inding', 'no tail', 'Base') if word in text], [])
            self.assertNotIn('damaged', self.legend())
            self.assertFalse(self.browser.run('return [...document.querySelectorAll("#disc-line dd")].some(it => it.innerText === "0")'))

    def test_a_sector_that_has_lost_its_sync_is_called_so_in_runs_too(self) -> None:
        self.open_image(discs.written(lost=with_lost(discs.game(), 90))['lost'])
        self.browser.click('#findings [data-tab=details]')
        self.browser.wait('#findings tbody tr:nth-child(2)', 'sync or mode lost')
        self.assertNotIn('audio', self.browser.text('#findings tbody'))

    # ---- scripts

    def test_what_is_meant_as_a_script_goes_to_the_editor(self) -> None:
        lines = f'set {discs.first_block()} 0 41\n'
        whole = f'cdpatch 1\n{lines}'
        self.open_image(discs.written(game=discs.game())['game'])
        given = {'nohead': lines.encode(), 'comment': f'# mine\n{lines}'.encode(), 'later': f'cdpatch 9\n{lines}'.encode(),
                 'capitals': f'CDPATCH 1\n{lines}'.encode(), 'mark': b'\xef\xbb\xbf' + whole.encode(), 'utf16': whole.encode('utf-16')}
        mends = {'nohead': 'Add it', 'comment': 'Add it', 'later': 'Change it to “cdpatch 2”', 'capitals': 'Change it to “cdpatch 1”', 'mark': 'Save it as plain UTF-8',
                 'utf16': 'Save it as plain UTF-8'}
        for name, data in given.items():
            with self.subTest(name):
                path = common.folder('scripts') / f'{name}.txt'
                path.write_bytes(data)
                self.open_files(path)
                self.browser.wait('#panel-script header', path.name)
                self.assertTrue(any(lines.strip() in row for row in self.rows()), self.rows())
                if name in ('mark', 'utf16'):
                    self.browser.wait('#messages .say.warn', 'which the command cdpatch cannot read: ')
                    self.browser.wait('#panel-script header .tag.warn', 'not saved')
                else:
                    self.browser.wait('.editor', 'A script begins with the line')
                self.press(mends[name])
                self.browser.wait('#panel-script header .tag:not(.bad)', '1 patch, script version')
                if name in ('mark', 'utf16'):
                    saved = self.browser.downloaded(path.name)
                    self.assertEqual(common.waited(saved.read_bytes, 'the script is empty'), whole.encode())
                    self.assertNotIn('not saved', self.browser.text('#panel-script header'))
                self.browser.click('#tab-disc')

    def test_a_text_that_is_no_script_is_none(self) -> None:
        for data in (b'Set the table, and the rest.\n', b'settle 1 2\n', b'hello\nset 1 2 3\n', '\ufeffFILE "game.bin" BINARY\n'.encode()):
            path = common.folder('texts') / 'text.txt'
            path.write_bytes(data)
            self.setUp()
            self.open_files(path)
            self.browser.wait('#start-message .say', 'is not a disc image')

    def test_a_patcher_is_said_to_have_the_name_that_it_has(self) -> None:
        self.open_image(discs.written(game=discs.game())['game'])
        self.open_script(discs.written(english=discs.named())['english'])
        self.browser.click('#tab-publish')
        self.browser.type('#patcher-title', 'Long Ago: English')
        self.browser.wait('#panel-publish', 'all match')
        self.wait_for_hash()
        self.press('Save as a patcher')
        self.browser.wait('#panel-publish .say.good', 'Saved: Long Ago English.html')
        self.browser.downloaded('Long Ago English.html')

    def test_lines_that_are_made_are_counted_in_hits(self) -> None:
        self.search(discs.many_texts(), 'スタート')
        self.browser.type('#new-text', 'Start')
        self.browser.run(GATE)
        self.press('Replace all')
        self.browser.wait('#panel-text .facts', '0 of 400 hits')
        self.browser.run('openGate()')
