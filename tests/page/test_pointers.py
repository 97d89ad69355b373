"""The card Pointers in the panel Text: texts that are longer than their room move, and the script is the one that cdscript writes."""

import subprocess
from pathlib import Path

import common
import discs
import event_files
import pointed
from keys import Keys
from pages import GATE, PageTest, applied
from states import with_new

CARD = '[aria-labelledby=pointers-title]'
LONG = 'The hero found the herb in the tower of the north, and took it home to the castle'
TABLES = '''return [...document.querySelectorAll('.pointers tbody tr')].map(({ cells: [use, ...rest] }) =>
    [use.querySelector('input').checked, use.innerText.trim(), ...rest.map(it => it.innerText.trim())])'''
# The cells of a row of the table of texts: the new text, the remark on it, and its room.
ROW = '''const { cells } = document.querySelector(`.all-texts tbody tr[aria-rowindex="${arguments[0] + 1}"]`);
    return [cells[2].querySelector('input').value, cells[2].querySelector('p').innerText.trim(), cells[3].innerText.trim()]'''

# The milliseconds that the longest of 20 turns of 50 takes, which are more on a busy machine.
TURN = '''let longest = 0;
    for (let turn = 0; turn < 20; turn++) {
        const begun = performance.now();
        while (performance.now() < begun + 50);
        await new Promise(done => setTimeout(done));
        longest = Math.max(longest, performance.now() - begun);
    }
    return longest'''


class PointersPage(PageTest):
    def show(self) -> None:
        self.browser.click('#tab-text')
        self.show_texts()

    def find_tables(self) -> None:
        self.press('Find pointers')
        self.browser.wait('.pointers tbody input')
        self.browser.wait('#let-move:enabled')

    def let_move(self) -> None:
        self.browser.click('#let-move')
        self.browser.wait(f'{CARD} .btn.main', 'Make the script')

    def make(self, says: str = 'good') -> None:
        self.press('Make the script')
        self.browser.wait(f'{CARD} .say.{says}')

    def type_text(self, number: int, text: str) -> None:
        self.browser.type(self.field(number), '')
        self.browser.click(self.field(number))
        self.browser.press(text, Keys.ENTER)

    def row(self, number: int) -> list[str]:
        return list(self.browser.run(ROW, number))

    def becomes(self, number: int, column: int, text: str) -> None:
        """Waits until a cell of a row contains a text."""
        common.waited(lambda: text in self.row(number)[column], f'row {number} does not say {text}: {self.row(number)}')

    def tables(self, image: Path) -> Path:
        """The list of tables that cdscript writes."""
        room = common.folder('tables')
        common.cdscript_prints('texts', image, '-o', room / 'texts.tsv', '--pointers', room / 'pointers.tsv')
        return room / 'pointers.tsv'

    def list_of(self, image: Path, fresh: dict[int, str]) -> Path:
        """The list that cdscript writes, with new texts for the texts of these numbers, from 1."""
        path = common.folder('list') / 'mine.tsv'
        path.write_text(with_new(common.cdscript_prints('texts', image), {number + 1: text for number, text in fresh.items()}))
        return path

    def moved_by_cdscript(self, image: Path, fresh: dict[int, str]) -> str:
        """The script that cdscript writes for the texts that fit."""
        words: list[str | Path] = ['replace', image, '--list', self.list_of(image, fresh), '--pointers', self.tables(image), '--partial']
        ran = subprocess.run([common.cdscript(), *words], stdout=subprocess.PIPE, stderr=subprocess.DEVNULL, check=False)
        self.assertIn(ran.returncode, (0, 1))
        return ran.stdout.decode()

    def script_now(self) -> str:
        self.browser.click('#tab-script')
        return self.script_text()

    def has_lines_of_cdscript(self, image: Path, fresh: dict[int, str]) -> None:
        """Compares the lines of the script, of which those that stay the same keep their place."""
        self.assertEqual(sorted(self.script_now().split('\n')), sorted(self.moved_by_cdscript(image, fresh).split('\n')))

    def texts_after(self, image: Path, script: str, file: int = 0) -> list[str]:
        """The texts of an event file on the disc that a script has patched, as its game reads them."""
        status, _, data = applied(image, discs.written(script=script)['script'])
        self.assertEqual(status, 0)
        path = discs.written(patched=data)['patched']
        out = path.with_name('event')
        common.cdscript_prints('extract', path, f'/EVENT{file}.DAT', out)
        return event_files.texts_in(out.read_bytes())


class Pointers(PointersPage):
    def test_tables_are_listed_as_cdscript_lists_them_and_saved_and_opened_again(self) -> None:
        image = self.open_table(pointed.game(data=1_100_000))
        self.find_tables()
        form = '16 bits, little-endian, every 2 bytes, from 0x0'
        found = [[True, str(2 + i), f'/EVENT{i}.DAT, 2', '30', '30', form, f'/EVENT{i}.DAT'] for i in range(2)]
        self.assertEqual(self.browser.run(TABLES), found)
        self.browser.wait(f'{CARD} .say.good', 'Not searched for pointers: /MAIN.DAT (1.1 MB).')
        self.browser.click(f'{CARD} header .btn:last-of-type')
        saved = common.waited(self.browser.downloaded('game (pointers).tsv').read_text, 'the list is empty')
        self.assertEqual(saved, self.tables(image).read_text())
        # A table that is left out is not saved. A corrected list replaces the tables, and one of a different disc is refused.
        self.browser.click('.pointers tbody tr:first-child input')
        self.browser.downloaded('game (pointers).tsv').unlink()
        self.browser.click(f'{CARD} header .btn:last-of-type')
        head, _, second = saved.splitlines(keepends=True)
        self.assertEqual(common.waited(self.browser.downloaded('game (pointers).tsv').read_text, 'the list is empty'), head + second)
        room = common.folder('lists')
        for name, text in (('mine.tsv', saved.replace('\t30\t', '\t29\t', 1)), ('other.tsv', saved.replace('EVENT1', 'EVENT7')), ('faulty.tsv', 'file\n')):
            (room / name).write_text(text)
        self.browser.give(f'{CARD} [type=file]', [room / 'mine.tsv'])
        self.browser.wait('.pointers tbody td', '29')
        self.assertEqual(self.browser.run(TABLES)[0][:4], [True, '2', '/EVENT0.DAT, 2', '29'])
        self.browser.give(f'{CARD} [type=file]', [room / 'other.tsv'])
        self.browser.wait(f'{CARD} .say.bad', 'Row 3 of the list of pointers: the disc has no file /EVENT7.DAT')
        self.assertTrue(self.browser.run('return document.querySelector("#let-move").disabled'))
        self.browser.click('.pointers tbody tr:last-child input')
        common.waited(lambda: not self.browser.run('return document.querySelector("#let-move").disabled'), 'the switch stays off')
        self.browser.give(f'{CARD} [type=file]', [room / 'faulty.tsv'])
        self.browser.wait(f'{CARD} .say.bad', 'The first row of the list of pointers lacks the columns')
        self.assertEqual(len(self.browser.run(TABLES)), 2)

    def test_a_dropped_list_of_tables_is_opened_in_the_card_and_the_texts_are_listed_first(self) -> None:
        path = discs.written(game=pointed.game())['game']
        self.open_image(path)
        tables = self.tables(path)
        self.browser.drop('#main', [tables])
        self.browser.wait('.pointers tbody input')
        self.browser.wait('.all-texts tbody input')
        self.browser.wait(f'{CARD} .say.good', '2 tables with 60 pointers.')
        tables.write_text(tables.read_text().replace('\t30\t', '\t29\t', 1))
        self.browser.drop('#main', [tables])
        self.browser.wait('.pointers tbody td', '29')

    @common.in_check
    def test_longer_texts_move_and_the_script_is_that_of_cdscript(self) -> None:
        image = self.open_table(pointed.game())
        self.type_text(1, LONG)
        self.becomes(1, 1, 'too many.')
        self.find_tables()
        self.let_move()
        self.browser.wait(f'{CARD} [role=status]', '1 text is not in the script yet. Press Make the script.')
        self.becomes(1, 1, 'longer than its room, so it has to move. Not in the script yet.')
        self.type_text(2, 'A villager')
        self.becomes(2, 1, 'Not in the script yet.')
        self.browser.wait(f'{CARD} [role=status]', '2 texts are not in the script yet. Press Make the script.')
        self.make()
        said = self.browser.text(f'{CARD} .say.good')
        for words in ('All 2 translations fit.', '1 translation fits only because texts moved.'):
            self.assertIn(words, said)
        self.browser.wait(f'{CARD} .moved b', '1 text moved')
        self.browser.wait(f'{CARD} .moved li', 'Row 3: moved in /EVENT0.DAT from 100 to ')
        self.browser.wait('#panel-text .meter', '2 of 60 done')
        due = self.moved_by_cdscript(image, {1: LONG, 2: 'A villager'})
        self.assertEqual(self.script_now(), due)
        texts = self.texts_after(image, due)
        self.assertEqual(texts[:2], [LONG, 'A villager'])
        self.assertEqual(texts[2:], [event_files.text_of(0, i) for i in range(2, event_files.TEXTS)])
        # The script is generated again after a further text, as cdscript generates it from all texts.
        self.browser.click('#tab-text')
        self.becomes(1, 0, LONG)
        for number, text in ((5, f'{LONG} twice'), (2, '')):
            self.type_text(number, text)
        self.browser.wait(f'{CARD} [role=status]', '2 texts are not in the script yet. Press Make the script.')
        self.make()
        self.browser.wait(f'{CARD} [role=status]', 'The script has all texts of the table that fit.')
        self.has_lines_of_cdscript(image, {1: LONG, 5: f'{LONG} twice'})

    def test_with_the_switch_off_again_texts_are_in_place_and_those_that_do_not_fit_are_not_in_the_script(self) -> None:
        image = self.open_table(pointed.game())
        self.find_tables()
        self.let_move()
        for number, text in ((1, LONG), (2, 'A villager'), (5, 'The king')):
            self.type_text(number, text)
        self.make()
        self.browser.click('#let-move')
        self.browser.wait('#panel-text [aria-pressed]:nth-child(3)', 'Do not fit 1')
        self.becomes(1, 1, 'too many.')
        due = common.cdscript_prints('replace', image, '--list', self.list_of(image, {2: 'A villager', 5: 'The king'}))
        self.assertEqual(self.script_now(), due)
        self.browser.click('#tab-text')
        self.type_text(3, 'A wizard')
        self.browser.wait('#count-script', '3')
        self.assertTrue(self.browser.run(f'return !document.querySelector("{CARD} .btn.main").checkVisibility()'))

    def test_an_imported_list_makes_the_script_of_cdscript_and_names_what_does_not_fit(self) -> None:
        image = self.open_table(pointed.game())
        self.find_tables()
        self.let_move()
        fresh = {**{number: f'{LONG} {number}' for number in range(1, 25)}, 31: LONG, 32: 'The king'}
        self.browser.give('#panel-text input[accept^=".tsv"]', [self.list_of(image, fresh)])
        self.browser.wait('#panel-text .say.warn', '19 translations fit. 7 translations do not fit: ')
        said = self.browser.text('#panel-text .say.warn')
        self.assertRegex(said, r'The texts of /EVENT0\.DAT need \d+ bytes more than their room and the free end of the file\.')
        self.assertIn('18 translations fit only because texts moved.', said)
        self.browser.wait('#panel-text h2', '7 rows do not fit')
        self.has_lines_of_cdscript(image, fresh)
        # New texts of the table that a further list lacks stay.
        self.browser.click('#tab-text')
        self.browser.wait('#panel-text .meter', '19 of 60 done')
        self.browser.give('#panel-text input[accept^=".tsv"]', [self.list_of(image, {2: f'{LONG} again'})])
        self.browser.wait('#panel-text h2', '1 row does not fit')
        self.has_lines_of_cdscript(image, {**fresh, 2: f'{LONG} again'})

    def make_held(self) -> Path:
        """Presses Make the script for two texts, and holds the first read of their list."""
        image = self.open_table(pointed.game())
        self.find_tables()
        self.let_move()
        for number, text in ((1, LONG), (2, 'A villager')):
            self.type_text(number, text)
        self.browser.run(f'{GATE} globalThis.held = 1')
        self.press('Make the script')
        common.waited(lambda: self.browser.run('return reads > 0'), 'nothing is read')
        return image

    def test_make_the_script_waits_for_pointers_that_are_being_read(self) -> None:
        self.open_table(pointed.game())
        self.find_tables()
        self.let_move()
        self.type_text(1, LONG)
        self.browser.run(f'{GATE} globalThis.held = 1')
        self.browser.click('.pointers tbody tr:last-child input')
        common.waited(lambda: self.browser.run('return reads > 0'), 'nothing is read')
        self.press('Make the script')
        self.browser.run('openGate()')
        self.browser.wait(f'{CARD} [role=status]', common.text('textScriptHasAll'))
        self.assertIn('set ', self.script_now())

    def test_an_import_while_the_script_is_being_made_comes_after_it(self) -> None:
        image = self.make_held()
        fresh = {2: f'{LONG} again', 5: 'The king'}
        self.browser.give('#panel-text input[accept^=".tsv"]', [self.list_of(image, fresh)])
        self.assertIsNone(self.browser.awaited('document.querySelector("#panel-text .say.good")', seconds=3))
        self.browser.run('openGate()')
        self.browser.wait('#panel-text .say.good', 'All 3 translations fit.')
        self.becomes(5, 0, 'The king')
        self.has_lines_of_cdscript(image, {1: LONG, **fresh})

    def test_the_switch_that_is_turned_off_while_the_script_is_being_made_puts_the_texts_back_in_place(self) -> None:
        image = self.make_held()
        self.browser.click('#let-move')
        self.browser.run('openGate()')
        self.browser.wait('#panel-text [aria-pressed]:nth-child(3)', 'Do not fit 1')
        self.becomes(2, 2, '10 of')
        self.browser.wait('#count-script', '1')
        self.assertEqual(self.script_now(), common.cdscript_prints('replace', image, '--list', self.list_of(image, {2: 'A villager'})))

    def test_the_table_follows_a_script_that_moves_texts_and_so_does_that_of_another_day(self) -> None:
        image = self.open_table(pointed.game())
        self.find_tables()
        self.let_move()
        for number, text in ((1, LONG), (2, 'A villager')):
            self.type_text(number, text)
        self.make()
        self.becomes(1, 0, LONG)
        script, tables = self.script_now(), self.tables(image)
        self.browser.click('.editor textarea')
        self.browser.press('z', held=Keys.CONTROL)
        self.browser.click('#tab-text')
        self.browser.wait('#panel-text .meter', '0 of 60 done')
        self.becomes(1, 0, '')
        self.setUp()
        files = discs.written(game=pointed.game(), english=script)
        self.open_image(files['game'])
        self.open_script(files['english'])
        self.show()
        # Without the tables, a text in its old place would be written over those that have moved there.
        self.type_text(2, 'Old place')
        self.becomes(2, 1, 'of the script already writes here.')
        self.browser.give(f'{CARD} [type=file]', [tables])
        self.browser.wait('#let-move:checked')
        self.browser.wait(f'{CARD} .row [role=status]', 'The script already moves texts, so longer texts are allowed.')
        self.becomes(1, 0, LONG)
        # The typed text waits: the text of the script does not replace it.
        self.becomes(2, 0, 'Old place')
        self.browser.wait('#panel-text .meter', '1 of 60 done')
        self.type_text(2, 'A villager')
        self.type_text(3, 'A wizard')
        self.make()
        # Without the texts that are not moved any more, no line of the first script is left.
        self.has_lines_of_cdscript(image, {1: LONG, 2: 'A villager', 3: 'A wizard'})
        self.browser.click('#tab-text')
        self.type_text(1, 'Short')
        self.make()
        self.has_lines_of_cdscript(image, {1: 'Short', 2: 'A villager', 3: 'A wizard'})

    def test_typed_texts_that_wait_for_the_script_are_not_lost_silently(self) -> None:
        self.open_table(pointed.game())
        self.find_tables()
        self.let_move()
        self.type_text(1, LONG)
        self.browser.wait(f'{CARD} [role=status]', '1 text is not in the script yet. Press Make the script.')
        self.press('Show all texts')
        self.wait_for_focus('#all-texts-title')
        self.becomes(1, 0, LONG)
        self.browser.wait(f'{CARD} [role=status]', '1 text is not in the script yet. Press Make the script.')
        self.assertIn(common.text('textTypedAreLost'), self.asked_at_close())
        self.make()
        common.waited(lambda: common.text('textTypedAreLost') not in self.asked_at_close(), 'the typed text stays lost')

    def asked_at_close(self) -> str:
        """The question before the disc is closed."""
        self.press_in('image', 'Close the image')
        self.browser.wait('#sheet')
        asked = self.browser.text('#sheet')
        self.browser.answer('Cancel')
        return asked

    def is_ended_soon(self) -> bool:
        """Cancels the search for pointers. Returns whether that takes the time of two turns, and other tasks never waited for three."""
        turn = self.browser.run(TURN)
        self.browser.run('''globalThis.ended = undefined; globalThis.gaps = []; let last = performance.now();
            globalThis.beat = setInterval(() => { gaps.push(performance.now() - last); last = performance.now(); });''')
        self.press('Find pointers')
        self.browser.wait(f'{CARD} [role=progressbar]')
        self.assertTrue(self.browser.awaited('document.querySelector(given[0])?.getAttribute("aria-valuenow") > 4', f'{CARD} [role=progressbar]'))
        self.browser.run('''const bar = document.querySelector(`${arguments[0]} [role=progressbar]`), begun = performance.now();
            new MutationObserver(() => { if (!bar.isConnected) globalThis.ended ??= performance.now() - begun; }).observe(document.body, { childList: true, subtree: true });
            document.querySelector(`${arguments[0]} .job-end .btn`).click();''', CARD)
        self.browser.wait(f'{CARD} .say.plain', common.text('discJobCancelled'))
        ended, longest = self.browser.run('clearInterval(beat); return [ended, Math.max(...gaps)]')
        return bool(ended < 2 * turn and longest < 3 * turn)

    def test_cancel_ends_the_search_within_a_tenth_of_a_second(self) -> None:
        self.open_table(pointed.large_game())
        self.assertTrue(any(self.is_ended_soon() for _ in range(3)))
        self.assertEqual(self.browser.run(TABLES), [])

    def test_the_card_is_used_with_the_keyboard_and_fits_a_phone(self) -> None:
        self.open_table(pointed.game())
        self.find_tables()
        self.browser.run('document.querySelector(".pointers tbody input").focus()')
        self.browser.press(Keys.ARROW_DOWN)
        self.wait_for_focus('.pointers tbody tr:last-child input')
        self.browser.press(' ')
        self.sees([True, False], lambda: [row[0] for row in self.browser.run(TABLES)])
        self.browser.press(Keys.TAB)
        self.wait_for_focus('#let-move')
        self.browser.press(' ')
        self.browser.wait(f'{CARD} [role=status]', 'The script was not made with these tables yet.')
        self.browser.press(Keys.TAB)
        self.wait_for_focus(f'{CARD} .btn.main')
        self.browser.size(360)
        self.assertLessEqual(self.browser.run('return document.documentElement.scrollWidth'), 360)
        for css in ('.pointers tbody tr:last-child', '#let-move', f'{CARD} .btn.main'):
            left, right = self.browser.run('const { left, right } = document.querySelector(arguments[0]).getBoundingClientRect(); return [left, right]', css)
            self.assertTrue(0 <= left < right <= 360, css)


class NamesBesideTexts(PointersPage):
    """A script with names in records, made by cdscript, beside the list of all texts."""

    def begin_with_names(self, header: bytes) -> tuple[Path, str]:
        """Opens an image and the script of its names, and shows all texts."""
        path = discs.written(game=pointed.english_game(header))['game']
        layout = ['--every', '24', '--length', '16', '--skip', str(len(header)), '--in', 'ITEMS.DAT', '--encoding', 'Windows-1252']
        names = path.with_name('names.tsv')
        head, *rows = [line.split('\t') for line in common.cdscript_prints('texts', *layout, path).splitlines()]
        for row, fresh in zip(rows, pointed.ITEMS.values(), strict=True):
            row[head.index('new')] = fresh if header else fresh.lower()
        names.write_text(''.join('\t'.join(row) + '\n' for row in [head, *rows]))
        script = common.cdscript_prints('replace', path, '--list', names)
        self.has_names(path, script, header)
        self.open_image(path)
        self.open_script(discs.written(english=script)['english'])
        self.browser.click('#tab-text')
        self.browser.choose('#find-encoding', 'Windows-1252')
        self.show()
        return path, script

    def has_names(self, image: Path, script: str, header: bytes) -> None:
        """All lines of a script match, and the patched disc has the new names, byte for byte."""
        status, _, data = applied(image, discs.written(script=script)['script'])
        self.assertEqual(status, 0)
        patched = discs.written(patched=data)['patched']
        common.cdscript_prints('extract', patched, '/ITEMS.DAT', patched.with_name('items'))
        self.assertEqual(patched.with_name('items').read_bytes(), pointed.items_file([*pointed.ITEMS.values()], header))

    def test_make_the_script_leaves_the_lines_of_names_as_they_are(self) -> None:
        for header in (pointed.HEADER, b''):
            image, script = self.begin_with_names(header)
            self.find_tables()
            self.let_move()
            self.type_text(7, 'Le vieil homme du village numéro 1 m\'a donné une clef en or, et il a souri.')
            self.make()
            made = self.script_now()
            self.assertLess(set(script.splitlines()), set(made.splitlines()))
            self.has_names(image, made, header)
            # The texts are put back in place.
            self.browser.click('#tab-text')
            self.browser.click('#let-move')
            self.browser.wait('#panel-text [aria-pressed]:nth-child(3)', 'Do not fit 1')
            self.assertEqual(sorted(self.script_now().splitlines()), sorted(script.splitlines()))
            self.setUp()

    def test_a_list_that_is_exported_and_imported_unchanged_changes_nothing(self) -> None:
        for header in (pointed.HEADER, b''):
            for item, form in (('Export a table', 'csv'), ('Export PO', 'po')):
                image, script = self.begin_with_names(header)
                self.press_in('export', item)
                path = self.browser.downloaded(f'game (texts).{form}')
                common.waited(path.read_bytes, 'the list is empty')
                self.browser.give('#panel-text input[accept^=".tsv"]', [path.rename(common.folder('list') / path.name)])
                self.browser.wait('#panel-text .texts-table ~ * .say.good', '3 lines are unchanged.')
                self.assertEqual(self.script_now(), script)
                self.has_names(image, script, header)
                self.setUp()

    def test_a_new_text_over_a_longer_name_is_left_out_with_the_line_of_the_name(self) -> None:
        image, script = self.begin_with_names(b'')
        mine = image.with_name('mine.tsv')
        table = common.cdscript_prints('texts', '--encoding', 'Windows-1252', image)
        number = next(i for i, row in enumerate(table.splitlines(), 1) if '/ITEMS.DAT+24' in row)
        mine.write_text(with_new(table, {number: 'épée'}))
        self.browser.give('#panel-text input[accept^=".tsv"]', [mine])
        self.browser.wait('#panel-text .say.warn', '1 translation does not fit')
        self.browser.wait('#panel-text .two', 'of the script already writes here, and also before or after this text')
        self.assertEqual(self.script_now(), script)
