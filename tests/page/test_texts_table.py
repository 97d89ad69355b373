"""The table of a disc's texts, compared with cdscript, and the lists of known dumps that name a disc."""

import csv
import zlib
from pathlib import Path

import common
import discs
from keys import Keys
from pages import GATE, PageTest, applied
from states import SENTENCES, dat_of, spoken_texts, with_new


class TextsTable(PageTest):
    def printed(self, image: Path) -> str:
        """The table that cdscript prints."""
        return common.cdscript_prints('texts', image)

    def table(self, image: Path, fresh: dict[int, str]) -> Path:
        """Writes that table with new texts in the rows of these numbers, from 2."""
        path = common.folder('table') / 'mine.tsv'
        path.write_text(with_new(self.printed(image), fresh))
        return path

    def give(self, table: Path) -> None:
        self.browser.give('#panel-text input[accept^=".tsv"]', [table])

    def test_the_table_is_what_cdscript_prints(self) -> None:
        image = self.open_texts(spoken_texts())
        self.press_in('export', 'Export a table')
        self.browser.wait('#panel-text .say.good', 'Saved: game (texts).csv')
        saved = common.waited(self.browser.downloaded('game (texts).csv').read_bytes, 'the table is empty').decode()
        self.assertEqual(saved, common.cdscript_prints('texts', '--csv', image))
        self.assertIn(f"It has {len(saved.splitlines()) - 1} rows, one for each place of a text.", self.browser.text('#panel-text .say.good'))
        self.assertGreater(len(saved.splitlines()), len(SENTENCES))
        self.assertEqual(self.browser.attempts(), [])

    def test_english_is_listed_only_with_its_encoding_or_table_as_is_said_beside_the_buttons(self) -> None:
        ascii_text = b'Start of the game'
        image = self.open_texts(spoken_texts())
        self.assertIn(ascii_text, image.read_bytes())
        self.browser.wait('#panel-text .texts-table + p', 'For English and other European languages choose Windows-1252')
        self.press_in('export', 'Export a table')
        saved = self.browser.downloaded('game (texts).csv')
        self.assertNotIn(ascii_text, common.waited(saved.read_bytes, 'the table is empty'))
        saved.unlink()
        self.browser.choose('#find-encoding', 'Windows-1252')
        self.press_in('export', 'Export a table')
        self.assertIn(ascii_text, common.waited(self.browser.downloaded('game (texts).csv').read_bytes, 'the table is empty'))
        saved.unlink()
        tbl = image.with_name('ascii.tbl')
        tbl.write_text(''.join(f'{code:02X}={chr(code)}\n' for code in range(0x20, 0x7F)))
        self.browser.give('[aria-label="A table to load"]', [tbl])
        self.browser.wait('#panel-text .say.good', 'Loaded: ascii.tbl')
        self.press_in('export', 'Export a table')
        self.assertIn(ascii_text, common.waited(self.browser.downloaded('game (texts).csv').read_bytes, 'the table is empty'))

    def test_the_byte_that_ends_texts_is_that_of_the_field(self) -> None:
        image = self.open_texts(spoken_texts())
        self.browser.type('#texts-end', '0A')
        self.press_in('export', 'Export a table')
        self.browser.wait('#panel-text .say.good', 'Saved: game (texts).csv')
        saved = common.waited(self.browser.downloaded('game (texts).csv').read_bytes, 'the table is empty').decode()
        self.assertEqual(saved, common.cdscript_prints('texts', '--csv', '--end', '0A', image))

    @common.in_check
    def test_new_texts_become_the_lines_that_cdscript_writes(self) -> None:
        image = self.open_texts(spoken_texts())
        table = self.table(image, {2: 'The game starts.', 3: 'Save?', 5: 'The end.'})
        self.give(table)
        self.browser.wait('#panel-text .say.good', '3 lines added to the script.')
        self.browser.wait('#panel-text .say.good', 'All 3 translations fit.')
        self.browser.wait('#panel-text .say.good', ' characters are in no old text: S T a')
        written = common.cdscript_prints('replace', image, '--list', table)
        self.press('Open Script')
        self.browser.wait('#panel-script .say.good', '3 patches, which all match game.bin')
        self.assertEqual(self.script_text(), written)
        self.press('Apply and save')
        self.assertEqual(self.browser.downloaded('game (patched).bin').read_bytes(), applied(image, discs.written(script=written)['script'])[2])

    def test_a_po_file_has_the_new_texts_of_the_script_and_gives_them_again(self) -> None:
        image = self.open_texts(spoken_texts(1))
        table = self.table(image, {2: 'The game starts.', 3: 'Save?'})
        self.give(table)
        self.browser.wait('#panel-text .say.good', '2 lines added to the script.')
        self.press('Open Script')
        script = self.script_text()
        self.browser.click('#tab-text')
        self.press_in('export', 'Export PO')
        self.browser.wait('#panel-text .say.good', 'Saved: game (texts).po')
        self.assertIn('It has 2 translations.', self.browser.text('#panel-text .say.good'))
        saved = common.waited(self.browser.downloaded('game (texts).po').read_bytes, 'the PO file is empty').decode()
        self.assertEqual(saved, common.cdscript_prints('texts', '--po', '--list', table, image))
        self.setUp()
        self.open_texts(spoken_texts(1))
        mine = common.folder('po') / 'mine.po'
        mine.write_text(saved)
        self.give(mine)
        self.browser.wait('#panel-text .say.good', '2 lines added to the script.')
        self.press('Open Script')
        self.assertEqual(self.script_text(), script)

    def test_a_table_that_is_opened_before_its_image_waits_for_it(self) -> None:
        image = discs.written(game=spoken_texts())['game']
        table, tbl, dat = self.table(image, {2: 'The game starts.', 3: 'Save?'}), image.with_name('game.tbl'), image.with_name('redump.dat')
        tbl.write_text('10=あ\n11=い\n')
        dat.write_text(dat_of(('Game.bin', spoken_texts(), '')))
        self.browser.drop('#drop', [table, dat, image])
        self.browser.wait('#panel-text .say.good', '2 lines added to the script.')
        self.setUp()
        self.open_files(table)
        self.browser.wait('#start-message .say', 'mine.tsv: open the disc image that it is for.')
        self.browser.wait('#start-message .btn', 'Open the image…')
        self.open_files(image)
        self.browser.wait('#panel-text .say.good', '2 lines added to the script.')
        self.setUp()
        self.open_files(tbl)
        self.browser.wait('#start-message .say', 'game.tbl: open the disc image that it is for.')
        self.open_files(image)
        self.browser.wait('#panel-text .say.good', 'Loaded: game.tbl')
        self.setUp()
        self.browser.drop('#drop', [dat, image])
        self.browser.wait('#messages .say.good', 'The open image is looked up in it.')

    def test_codes_that_new_texts_leave_out_are_counted(self) -> None:
        text = '勇者は{0D}{0A}村人と{0D}{0A}話した。長い旅がはじまる。{0A}次の朝'
        data = b'\0'.join(text.replace('{0D}', '\r').replace('{0A}', '\n').encode('cp932') for _ in range(3)) + b'\0'
        image = self.open_texts(common.image_of([b'', data]))
        rows = [f'1\t{number * (len(data) // 3)}\t{text}\tHero{{0D0A}}talked {number}' for number in range(3)]
        table = image.with_name('mine.tsv')
        table.write_text('\n'.join(['block\toffset\ttext\tnew', *rows, '']))
        self.give(table)
        self.browser.wait('#panel-text .say.warn', 'All 3 translations fit.')
        said = self.browser.text('#panel-text .say.warn')
        for words in ('Translations leave out {0D} 3 times: rows 2, 3, 4.', 'Translations leave out {0A} 6 times: rows 2, 3, 4.'):
            self.assertIn(words, said)

    def test_many_rows_leave_the_page_free(self) -> None:
        """Checks that no task takes most of the time."""
        texts, rows = [], ['block\toffset\troom\tencoding\ttext\tnew']
        for number in range(6000):
            rows.append(f'{number // 64}\t{number % 64 * 32}\t31\tCP932\tゲームを始める{number:05}\tStart {number}')
            texts.append(f'ゲームを始める{number:05}'.encode('cp932').ljust(32, b'\0'))
        blocks = [b''.join(texts[at:at + 64]) for at in range(0, len(texts), 64)]
        image = self.open_texts(common.image_of(blocks))
        table = image.with_name('mine.tsv')
        table.write_text('\n'.join([*rows, '']))
        self.browser.run("""Object.assign(globalThis, { begun: performance.now(), last: performance.now(), longest: 0 });
            setInterval(() => {
                [longest, last] = [Math.max(longest, performance.now() - last), performance.now()];
            })""")
        self.give(table)
        self.browser.wait('#panel-text .say.good', '6,000 lines added to the script.')
        self.assertLess(self.browser.run('return longest / (performance.now() - begun)'), 0.4)

    def test_a_corrected_table_takes_the_place_of_the_first_one(self) -> None:
        image = self.open_texts(spoken_texts())
        self.give(self.table(image, {2: 'The game starts.', 3: 'Save?'}))
        self.browser.wait('#panel-text .say.good', '2 lines added to the script.')
        self.press('Open Script')
        self.browser.click('.editor textarea')
        self.browser.press(Keys.HOME, held=Keys.CONTROL)
        self.browser.press('# mine', Keys.ENTER)
        self.browser.click('#tab-text')
        corrected = self.table(image, {2: 'The game begins.', 3: 'Save?', 5: 'The end.'})
        self.give(corrected)
        self.browser.wait('#panel-text .say.good', '1 line added to the script. 1 line replaced an earlier one. 1 line is unchanged.')
        self.press('Open Script')
        head, *lines = common.cdscript_prints('replace', image, '--list', corrected).splitlines()
        self.assertEqual(self.script_text().splitlines(), ['# mine', head, *lines])
        self.press('Check')
        self.browser.wait('#panel-script .say.good', '3 patches, which all match')

    def test_lines_whose_new_texts_are_gone_are_named_and_removed(self) -> None:
        image = self.open_texts(spoken_texts())
        self.give(self.table(image, {2: 'The game starts.', 3: 'Save?', 5: 'The end.', 6: 'Start!'}))
        self.browser.wait('#panel-text .say.good', '4 lines added to the script.')
        corrected = self.table(image, {2: 'The game begins.', 5: 'The end.'})
        self.give(corrected)
        self.browser.wait('#panel-text .say.warn', 'All 2 translations fit.')
        self.browser.wait('#panel-text .say.warn', 'The list has no new text for the lines 3, 5 of the script.')
        self.press('Remove from the script')
        self.browser.wait('#panel-text .say.good', 'Lines removed: 2. Ctrl+Z in the script brings them back.')
        self.press('Open Script')
        self.assertEqual(self.script_text(), common.cdscript_prints('replace', image, '--list', corrected))
        self.browser.click('.editor textarea')
        self.browser.press('z', held=Keys.CONTROL)
        self.browser.click('#tab-text')
        self.give(self.table(image, {}))
        self.browser.wait('#panel-text .say.warn', common.text('discNothingAdded'))
        self.browser.wait('#panel-text .say.warn', 'The list has no new text for the lines 2, 3, 4, 5 of the script.')
        # A row whose new text does not fit has one all the same, and so has a row whose place occurs again without a new text.
        mine = self.table(image, {2: 'The game begins.', 3: 'much too long ' * 9})
        mine.write_text(mine.read_text() + self.printed(image).splitlines()[1] + '\n')
        self.give(mine)
        self.browser.wait('#panel-text .say.warn', '1 translation fits. 1 translation does not fit: 1 too long.')
        self.browser.wait('#panel-text .say.warn', 'The list has no new text for the lines 4, 5 of the script.')

    @common.in_check
    def test_rows_that_do_not_fit_are_a_list_to_walk(self) -> None:
        image = self.open_texts(spoken_texts())
        rows = self.printed(image).splitlines()
        self.give(self.table(image, {2: 'The game starts.', 3: 'much too long ' * 9, 4: 'also too long ' * 9}))
        self.browser.wait('#panel-text .say.warn', '1 line added to the script.')
        self.browser.wait('#panel-text .say.warn', '1 translation fits. 2 translations do not fit: 2 too long.')
        self.browser.wait('#panel-text h2', '2 rows do not fit')
        cells = "return [...document.querySelectorAll('[aria-label=\"2 rows do not fit\"] tbody tr')].map(row => [...row.cells].map(it => it.innerText))"
        (number, place, _, why), other = self.browser.run(cells)
        block, offset = rows[2].split('\t')[:2]
        self.assertEqual((number, place, other[0]), ('3', f'{block}, {offset}', '4'))
        self.assertIn('and there is room for', why)
        stops = "return document.querySelectorAll('[aria-label=\"2 rows do not fit\"] tbody [tabindex=\"0\"]').length"
        self.assertEqual(self.browser.run(stops), 1)
        # The first row is selected from the beginning.
        self.browser.wait(f'[aria-label="The bytes around block {block} offset {offset}"]')
        block, offset = rows[3].split('\t')[:2]
        self.browser.click('[aria-label="2 rows do not fit"] tbody tr:nth-child(2) td:nth-child(4)')
        self.browser.wait(f'[aria-label="The bytes around block {block} offset {offset}"]')
        self.press('3')
        self.browser.wait('#panel-text h2', 'Correct row 3')

    def test_a_row_that_does_not_fit_is_corrected_where_it_is_listed(self) -> None:
        image = self.open_texts(spoken_texts())
        self.give(self.table(image, {2: 'The game starts.', 3: 'much too long ' * 9, 4: 'with a sign: é', 5: 'much too long ' * 9}))
        self.browser.wait('#panel-text .say.warn', '1 translation fits. 3 translations do not fit: 2 too long, 1 with a character that the encoding lacks.')
        self.browser.wait('#row-length', 'too many: there is room for')
        self.assertTrue(self.is_off('Add to the script'))
        self.browser.type('#row-text', 'Save?')
        self.browser.wait('#row-length', '5 bytes: there is room for')
        self.browser.press(Keys.ENTER)
        self.browser.wait('#panel-text h2', 'Correct row 4')
        self.browser.wait('#panel-text .say.good', '1 line added to the script.')
        self.wait_for_focus('#row-text')
        self.browser.wait('#row-length', 'é')
        self.press('Skip')
        self.browser.wait('#panel-text h2', 'Correct row 5')
        self.browser.type('#row-text', 'Too long.')
        self.press('Add to the script')
        self.browser.wait('#panel-text h2', '1 row does not fit')
        self.browser.wait('#panel-text h2', 'Correct row 4')
        self.browser.type('#row-text', 'No sign.')
        self.press('Add to the script')
        self.browser.wait('#panel-text .say.good', 'All translations are in the script now.')
        self.assertEqual(self.focused(), 'Find: Open Script')
        self.press('Open Script')
        corrected = self.table(image, {2: 'The game starts.', 3: 'Save?', 4: 'No sign.', 5: 'Too long.'})
        self.assertEqual(sorted(self.script_text().splitlines()), sorted(common.cdscript_prints('replace', image, '--list', corrected).splitlines()))

    def test_rows_that_do_not_fit_are_in_the_table_that_is_shown_after_the_import(self) -> None:
        image = self.open_texts(spoken_texts())
        self.give(self.table(image, {2: 'The game starts.', 3: 'much too long ' * 9}))
        self.browser.wait('#panel-text .say.warn', '1 translation does not fit: 1 too long.')
        self.press('Show all texts')
        self.browser.wait('#panel-text [aria-pressed]:nth-child(3)', 'Do not fit 1')
        field = '.all-texts tbody tr[aria-rowindex="3"] input'
        self.assertEqual(self.browser.run('return document.querySelector(arguments[0]).value', field), 'much too long ' * 9)
        # A text that is corrected in the table fits, and the list of the rows that do not fit ends.
        self.browser.type(field, 'Save?')
        self.browser.press(Keys.ENTER)
        self.browser.wait('#panel-text [aria-pressed]:nth-child(3)', 'Do not fit 0')
        common.waited(lambda: 'row does not fit' not in self.browser.text('#panel-text'), 'the row still does not fit')
        self.assertNotIn('does not fit', self.browser.text('#panel-text'))

    def test_equal_rows_are_corrected_together(self) -> None:
        places = [20 * i for i in range(5)]
        image = self.open_texts(common.image_of([b'', b''.join((discs.START if at else b'another').ljust(20, b'\0') for at in places)]))
        table = image.with_name('mine.tsv')
        rows = [f'1\t{at}\tスタート\tmuch too long for it\n' for at in places]
        table.write_text('block\toffset\ttext\tnew\n' + ''.join(rows) + '1\t100\tはじめ\tmuch too long for it\n')
        self.give(table)
        self.browser.wait('#panel-text h2', '6 rows do not fit')
        self.press('3')
        self.browser.wait('#panel-text h2', 'Correct row 3')
        self.browser.type('#row-text', 'Start')
        self.press('Only this row')
        self.browser.wait('#panel-text .say.good', '1 line added to the script.')
        self.browser.wait('#panel-text h2', '5 rows do not fit')
        self.browser.wait('#panel-text h2', 'Correct row 4')
        self.browser.type('#row-text', 'Begin')
        self.browser.wait('#panel-text button', 'Add for all 4 equal rows')
        self.browser.press(Keys.ENTER)
        self.browser.wait('#panel-text .say.warn', '3 lines added to the script.')
        self.browser.wait('#panel-text .say.warn', '1 equal row still does not fit:')
        self.browser.wait('#panel-text h2', '2 rows do not fit')
        self.browser.click('#tab-script')
        lines = [f"set 1 {at} {word.ljust(8).hex().upper()} was {discs.START.hex().upper()}"
                 for at, word in ((20, b'Start'), (40, b'Begin'), (60, b'Begin'), (80, b'Begin'))]
        self.assertEqual(sorted(self.script_text().splitlines()), sorted(['cdpatch 1', *lines]))

    def test_a_corrected_row_never_writes_over_the_text_of_another_row(self) -> None:
        image = self.open_texts(common.image_of([b'', 'はじめからスタート'.encode('cp932') + b'\0' * 20]))
        table = image.with_name('mine.tsv')
        table.write_text('block\toffset\ttext\tnew\n1\t0\tはじめからスタート\tmuch too long for it\n1\t10\tスタート\tStart\n')
        self.give(table)
        self.browser.wait('#panel-text .say.warn', '1 translation fits. 1 translation does not fit: 1 too long.')
        self.browser.wait('#panel-text h2', 'Correct row 2')
        self.browser.type('#row-text', 'From the start')
        self.press('Add to the script')
        self.browser.wait('#panel-text .say.bad', 'Line 2 of the script already writes here.')
        self.press('Open Script')
        self.assertEqual(self.script_text().splitlines(), ['cdpatch 1', f"set 1 10 {b'Start   '.hex().upper()} was {discs.START.hex().upper()}"])

    def test_the_rows_that_do_not_fit_are_saved_as_a_table_that_can_be_imported(self) -> None:
        image = self.open_texts(spoken_texts())
        self.give(self.table(image, {2: 'The game starts.', 3: 'much too "long", ' * 9, 5: 'also too long ' * 9}))
        self.browser.wait('#panel-text h2', '2 rows do not fit')
        self.press('Save…')
        saved = self.browser.downloaded('mine (do not fit).csv')
        rows = list(csv.DictReader(common.waited(lambda: saved.read_bytes().decode('utf-8-sig'), 'the table is empty').splitlines()))
        printed = self.printed(image).splitlines()
        names = printed[0].split('\t')
        for row, line in zip(rows, (printed[2], printed[4])):
            cells = dict(zip(names, line.split('\t')))
            self.assertEqual([row[it] for it in ('block', 'offset', 'room', 'encoding', 'text')], [cells[it] for it in ('block', 'offset', 'room', 'encoding', 'text')])
            self.assertIn('and there is room for', row['why'])
        self.assertEqual([row['new'] for row in rows], ['much too "long", ' * 9, 'also too long ' * 9])
        fresh = common.folder('corrected') / 'mine.csv'
        with fresh.open('w', newline='') as out:
            writer = csv.DictWriter(out, rows[0].keys())
            writer.writeheader()
            writer.writerows({**row, 'new': new} for row, new in zip(rows, ('Save?', 'The end.')))
        self.give(fresh)
        self.browser.wait('#panel-text .say.good', 'All 2 translations fit.')
        self.press('Open Script')
        corrected = self.table(image, {2: 'The game starts.', 3: 'Save?', 5: 'The end.'})
        self.assertEqual(self.script_text(), common.cdscript_prints('replace', image, '--list', corrected))

    def test_a_table_that_is_none_adds_nothing(self) -> None:
        image = self.open_texts(spoken_texts())
        wrong = common.folder('wrong') / 'mine.csv'
        empty = self.printed(image).replace('\t', ','), 'o row of the list has a translation'
        for text, why in (('a,b\n1,2\n', 'lacks the columns block, offset, text, new'), empty, ('', ''), empty):
            if text == '':
                self.show_texts()
                continue
            wrong.write_text(text)
            self.browser.drop('#panel-text', [wrong])
            self.browser.wait('#panel-text .say.bad', why)
            self.assertIn(common.text('discNothingAdded'), self.browser.text('#panel-text .say.bad'))
        self.assertTrue(self.browser.run('return document.querySelector("#count-script").hidden'))

    def test_cancel_ends_the_making_of_lines(self) -> None:
        image = self.open_texts(spoken_texts())
        table = self.table(image, {2: 'The game starts.'})
        self.browser.run(GATE)
        self.give(table)
        self.browser.wait('#panel-text .progress')
        self.press('Cancel')
        self.browser.run('openGate()')
        self.browser.wait('#panel-text .say', 'Cancelled.')
        self.assertTrue(self.browser.run('return document.querySelector("#count-script").hidden'))

    def test_cancel_ends_the_looking_for_texts(self) -> None:
        self.open_texts(spoken_texts())
        self.browser.run('Worker.prototype.postMessage = () => {}')
        self.press_in('export', 'Export a table')
        self.browser.wait('#panel-text .progress')
        self.press('Cancel')
        self.browser.wait('#panel-text .say', 'No list was saved.')
        self.assertEqual(list(self.browser.downloads.iterdir()), [])

    # ---- known dumps

    def open_list(self, text: str, name: str = 'games.dat') -> None:
        path = common.folder('dat') / name
        path.write_text(text)
        self.open_files(path)

    def test_a_list_of_known_dumps_names_the_disc(self) -> None:
        game, hurt = discs.game(), discs.scratched()
        files = discs.written(game=game, hurt=hurt, other=common.image_of([b'other'] * 20), same=game[:-1] + bytes([game[-1] ^ 1]))
        self.open_list(dat_of(('Starlit Detective (Japan).bin', game, ''), ('Hurt.bin', hurt, 'status="baddump"')))
        self.browser.wait('#start-message .say.good', 'It lists 2 known dumps.')
        for name, said in (('game', 'verified: Starlit Detective (Japan).bin'), ('hurt', 'known as a bad dump: Hurt.bin'),
                           ('same', 'but different bytes: damaged or patched?'), ('other', 'not in the DAT')):
            self.open_image(files[name])
            self.browser.wait('#disc-line .tag', said)
            for panel in ('text', 'disc'):
                self.browser.click(f'#tab-{panel}')
                self.browser.wait('#disc-line .tag', said)
            if name != 'other':
                self.setUp()
                self.open_list(dat_of(('Starlit Detective (Japan).bin', game, ''), ('Hurt.bin', hurt, 'status="baddump"')))
                self.browser.wait('#start-message .say.good')
        self.assertNotIn('the size of', self.browser.run("return document.querySelector('#disc-line .tag').innerText"))

    def test_a_list_in_UTF_16_without_sha1_names_the_disc_by_its_crc32(self) -> None:
        game = discs.game()
        rows = ''.join(f'<rom name="{name}" size="{len(game)}" crc="{zlib.crc32(game):08X}"/>' for name in ('Other.bin', 'game.bin'))
        path = common.folder('dat') / 'wide.dat'
        path.write_text(f'<?xml version="1.0" encoding="UTF-16"?><datafile>{rows}</datafile>', 'utf-16')
        self.open_files(path)
        self.browser.wait('#start-message .say.good', 'known dump')
        self.open_image(discs.written(game=game)['game'])
        self.browser.wait('#disc-line .tag.good', 'verified: game.bin')

    def test_a_list_that_is_opened_later_names_the_open_disc(self) -> None:
        self.open_image(discs.written(game=discs.game())['game'])
        self.assertFalse(self.browser.run("return document.querySelector('#disc-line .tag') !== null"))
        self.open_list(dat_of(('Starlit.bin', discs.game(), '')), 'games.xml')
        self.browser.wait('#disc-line .tag.good', 'verified: Starlit.bin')

    def test_a_list_that_is_cut_is_not_taken(self) -> None:
        self.open_image(discs.written(game=discs.game())['game'])
        self.open_list(dat_of(('Starlit.bin', discs.game(), ''))[:-8])
        self.browser.wait('#messages .say.bad', 'it is incomplete')
        self.assertFalse(self.browser.run("return document.querySelector('#disc-line .tag') !== null"))
