"""What the table of texts lists: names in records, lines, the texts of one file. All of it is compared with cdscript."""

import subprocess
from pathlib import Path

import common
import discs
import pointed
from event_files import event_file
from keys import Keys
from pages import PageTest
from states import SENTENCES

NAMES = ['やくそう', 'どくけしそう', '', 'はがねのつるぎ', 'キメラのつばさ']
LINES = ['＃はじまりの村', '「ようこそ、旅の方。', 'wait 30', 'ここは小さな村です。」', 'end']
EVERY, LENGTH, SKIP = 24, 16, 6


def records(encoding: str = 'cp932', filler: bytes = b'\0') -> bytes:
    """A file with names in records of 24 bytes, after 6 other bytes."""
    fields = [name.encode(encoding) for name in NAMES]
    return b'\1\2\3\4\5\6' + b''.join(field + filler * ((LENGTH - len(field)) // len(filler)) + b'\x20\0\x81\x40\0\0%c\0' % i for i, field in enumerate(fields))


def disc(table: bytes, **more: bytes) -> bytes:
    """An image with sentences, names, and lines."""
    texts = b'\0'.join(text.encode('cp932') for text in SENTENCES * 3) + b'\0'
    files = {'DATA/MSG00.DAT': texts, 'DATA/NAMES.DAT': table, 'EVENT.TXT': '\r\n'.join([*LINES, '']).encode('cp932')}
    return common.image_of(common.iso_of({**files, **more}))


class NamesTable(PageTest):
    def begin(self, image: bytes) -> Path:
        path = self.open_texts(image)
        self.browser.click('.what-to-list summary')
        return path

    def list_names(self, path: str = '/DATA/NAMES.DAT', **numbers: int) -> None:
        """Fills in the controls for names in records."""
        self.browser.choose('#list-kind', 'names')
        self.browser.type('#list-file', path)
        for name, number in {'every': EVERY, 'length': LENGTH, 'skip': SKIP, **numbers}.items():
            self.browser.type(f'#list-{name}', str(number))

    def options(self, path: str = '/DATA/NAMES.DAT', **numbers: int) -> list[str]:
        """The same for cdscript."""
        given = {'in': path, 'every': EVERY, 'length': LENGTH, 'skip': SKIP, **numbers}
        return [word for name, value in given.items() for word in (f'--{name}', str(value))]

    def saved(self, item: str, name: str) -> str:
        """The list that an item of the menu Export saves."""
        self.press_in('export', item)
        path = self.browser.downloaded(name)
        text = common.waited(path.read_bytes, 'the list is empty').decode()
        path.unlink()
        return str(text)

    def same_list(self, image: Path, *options: str, what: str = 'texts') -> str:
        """Compares the exported lists with those of cdscript, and returns the table."""
        table = common.cdscript_prints('texts', '--csv', *options, image)
        self.assertEqual(self.saved('Export a table', f'game ({what}).csv'), table)
        self.assertEqual(self.saved('Export PO', f'game ({what}).po'), common.cdscript_prints('texts', '--po', *options, image))
        return table

    def old_texts(self) -> list[str]:
        return list(self.browser.run("return Array.from(document.querySelectorAll('.all-texts tbody .old'), it => it.innerText)"))

    def same_script(self, image: Path, table: Path) -> None:
        """Compares the script of the page with the one that cdscript makes from a list."""
        self.browser.click('#tab-script')
        written = common.cdscript_prints('replace', image, '--list', table)
        self.assertEqual(sorted(self.script_text().splitlines()), sorted(written.splitlines()))
        self.browser.click('#tab-text')

    def test_names_are_listed_typed_saved_and_imported_as_cdscript_does_it(self) -> None:
        for filler in (b'\xFF', b'\x81\x40'):
            image = self.begin(disc(records(filler=filler)))
            self.list_names()
            self.browser.wait('.what-to-list summary', 'names in records of 24 bytes, only in /DATA/NAMES.DAT')
            self.same_list(image, *self.options(), what='names')
            self.browser.wait('#panel-text .say.good', 'The names read best in Shift-JIS')
            self.show_texts()
            self.assertEqual(self.old_texts(), [name or f'{{{filler.hex().upper()}}}' for name in NAMES])
            for number, name in ((1, 'Medicinal herb 1'), (2, 'Antidote'), (3, 'Empty record'), (5, 'Wing')):
                self.type_in_row(number, name)
            self.browser.wait('#count-script', '4')
            self.browser.wait('#panel-text .meter', '4 of 5 done')
            mine = self.saved_list('tsv', 'game (names)')
            self.assertEqual(mine.read_text(), common.cdscript_prints('texts', *self.options(), '--list', mine, image))
            for form in ('csv', 'po'):
                self.assertEqual(self.saved_list(form, 'game (names)').read_bytes().decode(), common.cdscript_prints('texts', f'--{form}', *self.options(), '--list', mine, image))
            self.same_script(image, mine)
            # The script gives the new texts again, to the exported list and to the table.
            self.assertEqual(self.saved('Export a table', 'game (names).csv'), common.cdscript_prints('texts', '--csv', *self.options(), '--list', mine, image))
            self.browser.wait('#panel-text .say.good', 'It has 4 translations.')
            self.press('Show all texts')
            self.wait_for_focus('#all-texts-title')
            self.browser.wait('#panel-text .meter', '4 of 5 done')
            self.setUp()
            self.begin(image.read_bytes())
            self.browser.give('#panel-text input[accept^=".tsv"]', [mine])
            self.browser.wait('#panel-text .say.good', '4 lines added to the script.')
            self.same_script(image, mine)
            self.setUp()

    def test_the_encoding_and_the_byte_that_ends_texts_are_known_to_the_list_of_names(self) -> None:
        image = self.begin(disc(records('euc-jp', b'\xFE')))
        self.browser.choose('#find-encoding', 'CP866')
        self.list_names()
        self.browser.type('#texts-end', 'FE')
        self.same_list(image, *self.options(), '--encoding', 'CP866', '--end', 'FE', what='names')
        self.browser.choose('#find-encoding', 'CP932')
        table = self.same_list(image, *self.options(), '--end', 'FE', what='names')
        self.assertIn(',EUC-JP,/DATA/NAMES.DAT+6,やくそう,,{FE}', table)
        tbl = image.with_name('kana.tbl')
        tbl.write_text(''.join(f'{0xA1 + i:02X}={chr(0x3041 + i)}\n' for i in range(80)))
        self.browser.give('[aria-label="A table to load"]', [tbl])
        self.browser.wait('#panel-text .say.good', 'Loaded: kana.tbl')
        self.browser.type('#list-limit', '2')
        self.same_list(image, *self.options(limit=2), '--table', str(tbl), '--end', 'FE', what='names')
        self.browser.choose('#find-encoding', 'CP932')
        self.browser.type('#list-limit', '')
        self.press('Show all texts')
        self.browser.wait('#panel-text .say', 'The names read best in EUC-JP')
        self.type_in_row(1, 'Herb')
        self.browser.wait('#count-script', '1')
        mine = self.saved_list('csv', 'game (names)')
        self.browser.click('#tab-script')
        written = common.cdscript_prints('replace', image, '--list', mine, '--end', 'FE')
        self.assertEqual(self.script_text(), written)
        self.browser.click('#tab-text')
        self.assertEqual(self.saved('Export a table', 'game (names).csv'), mine.read_bytes().decode())

    def test_names_and_lines_are_in_the_script_at_once_though_other_texts_may_move(self) -> None:
        self.begin(disc(records(), **{'EVENT0.DAT': event_file(0)}))
        self.press('Show all texts')
        self.press('Find pointers')
        self.browser.wait('#let-move:enabled')
        self.browser.click('#let-move')
        self.list_names()
        self.press('Show all texts')
        self.browser.wait('#panel-text .meter', '0 of 5 done')
        self.wait_for_focus('#all-texts-title')
        self.type_in_row(4, 'Sword')
        self.type_in_row(5, 'Wing')
        self.browser.wait('#panel-text .meter', '2 of 5 done')
        self.browser.wait('#count-script', '2')
        self.browser.choose('#list-kind', 'lines')
        self.browser.type('#list-file', 'EVENT.TXT')
        self.press('Show all texts')
        self.browser.wait('#panel-text .meter', '0 of 3 done')
        self.type_in_row(2, 'Welcome.')
        self.browser.wait('#count-script', '3')
        self.browser.wait('#panel-text .meter', '1 of 3 done')

    @common.in_check
    def test_lines_are_listed_as_cdscript_lists_them(self) -> None:
        image = self.begin(disc(records()))
        self.browser.choose('#list-kind', 'lines')
        self.same_list(image, '--lines')
        self.browser.type('#list-file', 'EVENT.TXT')
        table = self.same_list(image, '--lines', '--in', 'EVENT.TXT')
        self.assertEqual([line.split(',')[6] for line in table.splitlines()[1:]], [line for line in LINES if not line.isascii()])
        self.show_texts()
        self.type_in_row(2, 'Welcome.')
        self.browser.wait('#count-script', '1')
        self.same_script(image, self.saved_list('csv', 'game (texts)'))

    def test_only_the_texts_of_a_file_or_directory_are_listed(self) -> None:
        image = self.begin(disc(records(), **{f'DATA/MANY/F{i:04}.DAT': b'%d' % i for i in range(2000)}))
        offered = "return Array.from(document.querySelector('#list-file').list.options, it => it.value)"
        self.assertEqual([line.split('\t')[2] for line in common.cdscript_prints('files', image).splitlines()], self.browser.run(offered))
        everything = self.same_list(image)
        for path in ('/DATA/MSG00.DAT', 'DATA', 'EVENT.TXT'):
            self.browser.type('#list-file', path)
            self.browser.wait('.what-to-list summary', f'texts, only in {path}')
            self.assertLess(len(self.same_list(image, '--in', path)), len(everything))
        self.browser.type('#list-file', 'DATA/NONE.DAT')
        self.press('Show all texts')
        self.browser.wait('#panel-text .say.bad', 'No file or directory DATA/NONE.DAT on the disc')

    def test_a_number_that_is_missing_or_wrong_is_asked_for(self) -> None:
        self.begin(disc(records()))
        self.browser.choose('#list-kind', 'names')
        for field, value, says in (('', '', 'Choose the file that contains the names'), ('file', 'DATA', 'The disc has no file DATA.'),
                                   ('file', '/DATA/NAMES.DAT', 'Bytes from one record to the next: type a number from 1 to 1,048,576.'),
                                   ('every', '15', 'Bytes of each name: type a number from 1 to 4,096.'),
                                   ('length', '16', 'at least as many bytes as the name has: 16.'), ('every', '16', ''),
                                   ('skip', '-1', 'Bytes before the first record: type a number from 0 to ')):
            if field:
                self.browser.type(f'#list-{field}', value)
            self.press('Show all texts')
            if says:
                self.browser.wait('#panel-text .say.bad', says)
            else:
                self.browser.wait('.all-texts tbody input')

    def test_all_is_done_by_keyboard_and_in_a_narrow_window(self) -> None:
        image = self.begin(disc(records()))
        self.browser.click('.what-to-list summary')
        self.browser.size(360)
        self.browser.send('.what-to-list summary', Keys.ENTER, Keys.TAB, 'n', Keys.TAB, '/DATA/NAMES.DAT', Keys.TAB, '24', Keys.TAB, '16', Keys.TAB, '6')
        self.browser.wait('.what-to-list summary', 'names in records of 24 bytes, only in /DATA/NAMES.DAT')
        self.assertEqual(self.browser.run('return document.documentElement.scrollWidth'), 360)
        self.assertEqual(self.saved('Export a table', 'game (names).csv'), common.cdscript_prints('texts', '--csv', *self.options(), image))
        self.show_texts()
        self.assertEqual(self.browser.run('return document.documentElement.scrollWidth'), 360)
        self.assertEqual(self.browser.attempts(), [])


class PlainFile(PageTest):
    def open_plain(self, data: bytes, name: str = 'items.dat') -> Path:
        """Opens an ordinary file, and the table of its texts."""
        path = common.folder('plain') / name
        path.write_bytes(data)
        self.open_files(path)
        self.browser.wait('#start-message .say.plain', f'{name} is not a disc image.')
        self.press('Translate the texts in this file')
        self.browser.wait('#plain-title', name)
        self.assertEqual(self.browser.run('return [...document.querySelectorAll("#tabs [role=tab]")].filter(it => it.checkVisibility()).map(it => it.id)'), ['tab-text'])
        return path

    def printed(self, path: Path, *options: str | Path) -> str:
        """The list that cdscript prints in the directory of the file."""
        words: list[str | Path] = [common.cdscript(), 'texts', '--file', path.name, *options]
        return subprocess.run(words, cwd=path.parent, check=True, stdout=subprocess.PIPE, stderr=subprocess.DEVNULL).stdout.decode()

    def replaced(self, path: Path, table: Path) -> bytes:
        """The file that cdscript writes for a list."""
        out = common.folder('out') / 'out'
        words: list[str | Path] = [common.cdscript(), 'replace', '--partial', '--file', path, '--list', table, out]
        subprocess.run(words, check=False, stdout=subprocess.DEVNULL, stderr=subprocess.DEVNULL)
        return out.read_bytes()

    def saved_file(self, name: str = 'items (patched).dat') -> bytes:
        self.press('Save the translated file')
        path = self.browser.downloaded(name)
        data = bytes(common.waited(path.read_bytes, 'the file is empty'))
        path.unlink()
        return data

    @common.in_check
    def test_the_texts_of_a_file_without_an_image_are_translated_as_cdscript_does_it(self) -> None:
        data = b'\1\2\3' + b'\0'.join(text.encode('cp932') for text in SENTENCES * 3) + b'\0'
        path = self.open_plain(data)
        self.assertNotIn('sector', self.browser.run('return document.body.innerText'))
        self.show_texts()
        for number, text in ((1, 'The game starts.'), (2, 'much too long ' * 9), (3, 'Locked.')):
            self.type_in_row(number, text)
        self.browser.wait('#panel-text [aria-pressed]:nth-child(3)', 'Do not fit 1')
        self.browser.wait('#panel-text .meter', '2 of 4 done')
        self.assertTrue(self.browser.asks_before_leaving())
        made = self.saved_file()
        self.browser.wait('#panel-text .say.warn', 'Saved: items (patched).dat')
        self.browser.wait('#panel-text .say.warn', '3 translations do not fit, and are not in it: 3 too long.')
        self.press('Close')
        self.browser.wait('#sheet', common.text('textTypedNotInFile'))
        self.browser.press(Keys.ESCAPE)
        mine = self.saved_list('tsv', 'items (texts)')
        self.assertFalse(self.browser.asks_before_leaving())
        self.assertEqual(mine.read_text(), self.printed(path, '--list', mine))
        for form in ('csv', 'po'):
            self.assertEqual(self.saved_list(form, 'items (texts)').read_bytes().decode(), self.printed(path, f'--{form}', '--list', mine))
        self.assertEqual(made, self.replaced(path, mine))
        self.assertEqual((len(made), made[:3], b'Locked.' in made), (len(data), data[:3], True))
        # The list is imported again, and a text is removed.
        self.setUp()
        self.open_plain(data)
        self.browser.give('#panel-text input[accept^=".tsv"]', [mine])
        self.browser.wait('#panel-text .say.warn', '6 new texts are ready to be saved in the file.')
        self.browser.wait('#panel-text .say.warn', '6 translations fit. 3 translations do not fit: 3 too long.')
        self.browser.wait('#panel-text .meter', '2 of 4 done')
        self.assertEqual(self.saved_file(), made)
        self.browser.type('.all-texts tbody tr[aria-rowindex="4"] input', '')
        self.browser.press(Keys.ENTER)
        self.browser.wait('#panel-text .meter', '1 of 4 done')
        self.assertNotIn(b'Locked.', self.saved_file())
        self.assertEqual(self.browser.attempts(), [])

    def test_names_and_lines_of_a_file_without_an_image_are_listed(self) -> None:
        path = self.open_plain(records())
        self.browser.click('.what-to-list summary')
        self.browser.choose('#list-kind', 'names')
        words = []
        for name, number in {'every': EVERY, 'length': LENGTH, 'skip': SKIP}.items():
            self.browser.type(f'#list-{name}', str(number))
            words += [f'--{name}', str(number)]
        self.show_texts()
        self.type_in_row(1, 'Herb')
        self.browser.wait('#panel-text .meter', '1 of 5 done')
        mine = self.saved_list('csv', 'items (names)')
        self.assertEqual(mine.read_bytes().decode(), self.printed(path, '--csv', *words, '--list', mine))
        self.assertEqual(self.saved_file(), self.replaced(path, mine))
        self.browser.choose('#list-kind', 'lines')
        self.press_in('export', 'Export a table')
        exported = self.browser.downloaded('items (texts).csv')
        kept = self.printed(path, '--csv', '--lines', '--list', mine)
        self.assertEqual(common.waited(exported.read_bytes, 'the table is empty').decode(), kept)

    def test_new_texts_of_a_file_are_not_lost_when_it_is_closed_or_an_image_is_opened(self) -> None:
        path = self.open_plain(b'\0'.join(text.encode('cp932') for text in SENTENCES * 3) + b'\0')
        self.show_texts()
        self.type_in_row(1, 'The game starts.')
        self.browser.wait('#panel-text .meter', '1 of 4 done')
        self.open_files(discs.written(game=discs.game())['game'])
        self.browser.wait('#messages .say.bad', 'items.dat is open. Save and close it first.')
        self.press('Close')
        self.browser.wait('#sheet', common.text('textPlainNotSaved'))
        self.browser.answer('Save and close')
        made = self.browser.downloaded('items (patched).dat')
        self.browser.wait('#start h1')
        self.assertEqual(len(common.waited(made.read_bytes, 'the file is empty')), path.stat().st_size)
        # With an open image the button closes that first.
        self.open_image(discs.written(game=discs.game())['game'])
        self.open_files(path)
        self.press('Close the disc, and translate')
        self.browser.wait('#plain-title', 'items.dat')
        self.assertFalse(self.browser.run('return document.querySelector("#disc-line").checkVisibility()'))
