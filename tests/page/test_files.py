"""The tab Files of the panel Disc, compared with cdscript: listed, saved, and replaced files, and the tracks of a cue sheet."""

from pathlib import Path

import common
import discs
from pages import GATE, PageTest, applied

MESSAGES = '/DATA/MSG00.DAT'
SHOWN = "return [...document.querySelectorAll('#findings .files tbody tr')].map(row => [...row.cells].map(it => it.innerText.trim()).join(' '))"
STOPS = "return document.querySelectorAll('#findings-body [tabindex=\"0\"], #findings-body tbody button:not([tabindex])').length"


def many() -> bytes:
    """An image of 420 files."""
    return common.image_of(common.iso_of({f'DIR{i // 100}/FILE{i:03}.DAT': b'file %d' % i for i in range(420)}))


class Files(PageTest):
    def begin(self, image: bytes) -> Path:
        """Opens an image and shows its files."""
        path = discs.written(game=image)['game']
        self.open_image(path)
        self.browser.click('#findings [data-tab=files]')
        self.browser.wait('#findings .files tbody button')
        return path

    def shown(self) -> list[str]:
        return list(self.browser.run(SHOWN))

    def sort(self, column: str) -> None:
        """Presses the heading of a column."""
        self.browser.click_found('[...document.querySelectorAll(".files th button")].find(it => it.innerText.startsWith(given[0]))', column)

    def names(self) -> list[str]:
        return [row.split(' ')[0] for row in self.shown()]

    def choose(self, name: str) -> None:
        """Selects a file by its row."""
        self.press(name)
        self.browser.wait('#findings .row b', name)

    def give(self, data: bytes) -> Path:
        """Replaces the selected file."""
        path = common.folder('fresh') / 'fresh.dat'
        path.write_bytes(data)
        self.browser.give('#findings input[type=file]', [path])
        return path

    def script_of(self, image: Path, fresh: Path) -> str:
        """The lines that cdscript prints."""
        return common.cdscript_prints('replace-file', image, MESSAGES, fresh)

    def test_the_files_are_those_that_cdscript_lists(self) -> None:
        image = self.begin(discs.game())
        printed = common.cdscript_prints('files', image)
        rows = [line.split('\t') for line in printed.splitlines()]
        self.sort('Block')
        self.assertEqual(self.shown(), [f'{path} {int(size):,} {block}' for block, size, path in rows])
        self.assertEqual(self.browser.text('#findings [data-tab=files]'), f'Files {len(rows)}')
        self.browser.click('#findings [data-tab=details]')
        self.browser.choose('#findings select', 'files')
        self.press('Save…')
        self.assertEqual(common.waited(self.browser.downloaded('files.txt').read_text, 'the list is empty'), printed)

    def test_a_press_on_a_file_opens_its_sector(self) -> None:
        self.begin(discs.game())
        self.choose(MESSAGES)
        self.browser.wait('#sector-title', f'block {discs.first_block()}')
        self.browser.wait('.disc-grid .foot', f'file {MESSAGES} at 0')
        self.assertEqual(self.browser.run('return document.activeElement.innerText'), MESSAGES)

    def test_some_hundred_rows_of_many_files_stand_there_and_stay(self) -> None:
        image = self.begin(many())
        printed = common.cdscript_prints('files', image)
        names = [line.split('\t')[2] for line in printed.splitlines()]
        self.sort('Block')
        self.assertEqual(self.browser.text('#findings [data-tab=files]'), 'Files 420')
        self.assertEqual(len(self.shown()), 200)
        self.assertEqual(self.browser.run(STOPS), 1)
        self.browser.run("document.querySelector('#findings .files tbody tr:nth-child(3)').mine = true")
        self.choose(names[1])
        self.sees(True, "return document.querySelector('#findings .files tbody tr:nth-child(3)').mine")
        self.press('Next')
        self.assertEqual([row.split(' ')[0] for row in self.shown()], names[200:400])
        self.sees(True, lambda: '201–400 of 420' in self.browser.text('#findings'))
        self.browser.type('#files-filter', 'dir4/file41')
        self.assertEqual([row.split(' ')[0] for row in self.shown()], [name for name in names if '/DIR4/FILE41' in name])
        self.browser.type('#files-filter', 'nothing')
        self.assertEqual(self.shown(), ['No matching files.'])

    def test_a_press_on_a_heading_sorts_the_files_and_another_one_turns_them_round(self) -> None:
        image = self.begin(discs.game())
        rows = [line.split('\t') for line in common.cdscript_prints('files', image).splitlines()]
        for column, key in (('Bytes', lambda row: int(row[1])), ('Block', lambda row: int(row[0]))):
            for is_down, order in ((False, 'ascending'), (True, 'descending')):
                self.sort(column)
                self.assertEqual(self.names(), [row[2] for row in sorted(rows, key=key, reverse=is_down)])
                self.assertEqual(self.browser.run('return document.querySelector(".files [aria-sort]").ariaSort'), order)
        self.assertTrue(self.browser.run('return document.activeElement.innerText.startsWith("Block")'))

    def test_folders_are_listed_by_name_and_a_press_opens_or_closes_one(self) -> None:
        folders = [f'DIR{i}' for i in range(5)]
        self.begin(many())
        self.assertEqual(self.shown(), [f'▸ /{name}/ {100 if name != "DIR4" else 20} files' for name in folders])
        self.press('▸ /DIR4/')
        files = [f'/DIR4/FILE{i}.DAT' for i in range(400, 420)]
        self.assertEqual(self.names()[5:], files)
        self.sees('Findings, files, and details: ▾ /DIR4/', self.focused)
        self.sort('Name')
        self.assertEqual(self.names()[1:21], files[::-1])
        self.press('▾ /DIR4/')
        self.assertEqual(len(self.shown()), 5)
        self.browser.type('#files-filter', 'file015')
        self.assertEqual([row.rsplit(' ', 2)[0] for row in self.shown()], ['▾ /DIR0/', '/DIR0/FILE015.DAT'])
        self.setUp()
        self.begin(discs.game())
        self.assertEqual(self.names(), ['▾', '/README.TXT', '▾', MESSAGES, '/DATA/STAGE.DAT'])

    def test_a_file_that_the_script_writes_in_is_marked_until_it_is_taken_back(self) -> None:
        self.begin(discs.game())
        self.choose(MESSAGES)
        self.give(discs.messages()[:1500])
        self.browser.wait('#findings .say.good', 'bytes, now 1,500')
        before = f'{len(discs.messages()):,}'
        self.browser.wait('.files [aria-selected=true]', f'{before} → 1,500')
        marked = "return [...document.querySelectorAll('.files .tag')].map(it => `${it.closest('tr').querySelector('bdi').innerText} ${it.innerText}`)"
        self.assertEqual(self.browser.run(marked), [f'{MESSAGES} in the script'])
        self.press('Extract as patched')
        self.browser.wait('#findings .say.good', 'Saved: MSG00.DAT')
        saved = self.browser.downloaded('MSG00.DAT')
        self.assertEqual(common.waited(saved.read_bytes, 'the file is empty'), discs.messages()[:1500])
        saved.unlink()
        self.press('Undo the replacement')
        self.browser.wait('#findings .say.good', 'earlier lines for this file were removed.')
        self.assertEqual(self.browser.run(marked), [])
        self.assertNotIn('→', self.browser.text('.files [aria-selected=true]'))
        self.assertEqual(self.browser.run('return document.activeElement.innerText'), 'Extract…')
        self.assertTrue(self.browser.run('return document.querySelector("#count-script").hidden'))

    def test_lines_that_do_more_than_replace_a_file_stay_when_it_is_taken_back(self) -> None:
        block = discs.first_block()
        self.begin(discs.game())
        self.open_script(discs.written(mine=f'cdpatch 1\nset {block} 0 41 was {discs.START[:1].hex()}\nfill {block} 9 2 00\nset {block} 4 41 was FF\n')['mine'])
        self.browser.click('#tab-disc')
        self.choose(MESSAGES)
        self.press('Extract as patched')
        self.browser.wait('#findings .say.warn', '1 line that does not match is left out.')
        expected = b'A' + discs.messages()[1:9] + bytes(2) + discs.messages()[11:]
        self.assertEqual(common.waited(self.browser.downloaded('MSG00.DAT').read_bytes, 'the file is empty'), expected)
        self.press('Undo the replacement')
        self.browser.wait('#findings .say.warn', '1 earlier line for this file was removed.')
        self.assertIn('2 lines still write in this file. The first is line 2.', self.browser.text('#findings .say.warn'))
        self.press('Go to line 2')
        self.browser.wait('#panel-script')

    @common.in_check
    def test_a_file_is_saved_as_it_is_on_the_disc(self) -> None:
        self.begin(discs.game())
        self.choose(MESSAGES)
        self.press('Extract')
        self.browser.wait('#findings .say.good', 'Saved: MSG00.DAT')
        self.assertEqual(common.waited(self.browser.downloaded('MSG00.DAT').read_bytes, 'the file is empty'), discs.messages())

    def test_a_file_of_the_same_or_another_length_is_replaced_as_by_cdscript(self) -> None:
        long = discs.messages().replace(discs.START, b'Start   ')
        shorter = f'{MESSAGES}: {len(long):,} bytes, now 1,500. The directory gets the new length, and the rest of the file’s sectors becomes 00.'
        for fresh, said in ((long, ''), (long[:1500], shorter), (long + b'more', ' bytes, now ')):
            with self.subTest(size=len(fresh)):
                self.setUp()
                image = self.begin(discs.game())
                self.choose(MESSAGES)
                path = self.give(fresh)
                self.browser.wait('#findings .say.good', 'added to the script.')
                self.assertIn(said, self.browser.text('#findings .say.good'))
                self.press('Open Script')
                self.assertEqual(self.script_text(), self.script_of(image, path))
        self.press('Apply and save')
        saved = self.browser.downloaded('game (patched).bin').read_bytes()
        self.assertEqual(saved, applied(image, discs.written(script=self.script_of(image, path))['script'])[2])

    @common.in_check
    def test_a_file_that_is_replaced_once_more_has_the_lines_of_the_last_one_only(self) -> None:
        image = self.begin(discs.game())
        self.choose(MESSAGES)
        self.give(discs.messages()[:1500])
        self.browser.wait('#findings .say.good', 'bytes, now 1,500')
        path = self.give(discs.messages().replace(discs.START, b'Start   '))
        self.browser.wait('#findings .say.good', 'earlier line')
        self.press('Open Script')
        self.assertEqual(self.script_text(), self.script_of(image, path))
        self.browser.click('#tab-disc')
        self.give(discs.messages())
        self.browser.wait('#findings .say', common.text('discNewFileIsSame'))
        self.assertIn('earlier line', self.browser.text('#findings .say'))

    def test_a_file_that_is_replaced_in_a_later_session_has_the_lines_of_that_one_only(self) -> None:
        image = self.begin(discs.game())
        self.choose(MESSAGES)
        first = self.give(discs.messages()[:1500])
        self.browser.wait('#findings .say.good', 'bytes, now 1,500')
        saved = discs.written(session=self.script_of(image, first))['session']
        self.setUp()
        self.open_files(image, saved)
        self.browser.wait('#panel-script .say.good', 'match')
        self.browser.click('#tab-disc')
        self.browser.click('#findings [data-tab=files]')
        self.choose(MESSAGES)
        self.press('Extract')
        self.browser.wait('#findings .say.good', 'This is the file on the disc, without the patches of the script.')
        path = self.give(discs.messages().replace(discs.START, b'Start   ')[:1400])
        self.browser.wait('#findings .say.good', 'earlier line')
        self.press('Open Script')
        self.assertEqual(self.script_text(), self.script_of(image, path))
        self.open_script(discs.written(mine=f'cdpatch 1\nfill {discs.first_block()} 9 2 00\n')['mine'])
        self.browser.click('#tab-disc')
        self.give(discs.messages()[:1300])
        self.browser.wait('#findings .say.warn', 'Line 2 writes in this file too, so it will not be exactly the new one.')
        self.press('Go to line 2')
        self.browser.wait('#panel-script')

    def test_what_cannot_be_replaced_is_said(self) -> None:
        self.begin(discs.scratched())
        self.choose(MESSAGES)
        for data, why in ((bytes(5000), 'room for 4096, but the new file has 5000'), (discs.messages().replace(b'.', b'-'), 'is damaged in block')):
            self.give(data)
            self.browser.wait('#findings .say.bad', why)
            self.assertIn(common.text('discNothingAdded'), self.browser.text('#findings .say.bad'))
        self.setUp()
        self.begin(discs.game())
        self.choose(MESSAGES)
        self.give(discs.messages())
        self.browser.wait('#findings .say', common.text('discNewFileIsSame'))
        self.assertTrue(self.browser.run('return document.querySelector("#count-script").hidden'))

    def test_cancel_ends_the_reading_of_a_file(self) -> None:
        self.begin(discs.game())
        self.choose(MESSAGES)
        self.browser.run(GATE)
        self.browser.run('Worker.prototype.postMessage = () => {}')
        self.press('Extract')
        self.browser.wait('#findings .progress')
        self.press('Cancel')
        self.browser.run('openGate()')
        self.browser.wait('#findings .say', 'No file was saved.')
        self.assertEqual(list(self.browser.downloads.iterdir()), [])

    def test_a_disc_without_files_says_so(self) -> None:
        path = discs.written(plain=common.image_of([b'no volume'] * 30))['plain']
        self.open_image(path)
        self.browser.click('#findings [data-tab=files]')
        self.browser.wait('#findings .files', 'No ISO 9660 file system was found')
        self.assertNotIn('volume', self.browser.text('#findings .foot'))

    def test_all_tracks_of_a_cue_sheet_are_named(self) -> None:
        files = discs.written(t1=discs.game(), t2=bytes(2352 * 300), t3=bytes(2352 * 300))
        sheet = files['t1'].with_name('disc.cue')
        kinds = {'t1': 'MODE1/2352', 't2': 'AUDIO', 't3': 'AUDIO'}

        def named(*names: str) -> str:
            return ''.join(f'FILE "{name}.bin" BINARY\n  TRACK 0{i + 1} {kinds[name]}\n    INDEX 01 00:00:00\n' for i, name in enumerate(names))

        one_file = 'FILE "t1.bin" BINARY\n  TRACK 01 MODE1/2352\n    INDEX 01 00:00:00\n  TRACK 02 AUDIO\n    INDEX 01 00:02:00\n'
        cases = ((named('t1', 't2'), ['t1', 't2'], '1 data track, 1 audio track (t2.bin, not opened for editing)'),
                 (named('t1', 't2'), ['t1'], '1 data track, 1 audio track (t2.bin, which is missing)'),
                 (named('t1', 't2', 't3'), ['t1', 't2', 't3'], '1 data track, 2 audio tracks (t2.bin, t3.bin, not opened for editing)'),
                 (one_file, ['t1'], '1 data track, 1 audio track (in the same file)'), (named('t1'), ['t1'], 'from disc.cue: 1 data track'))
        for text, given, said in cases:
            with self.subTest(said):
                self.setUp()
                sheet.write_text(text)
                self.open_files(sheet, *[files[name] for name in given])
                self.browser.wait('#disc-line', said)
