"""The table of all texts in the panel Text: what is typed in it is in the script at once, and nothing that is typed is lost."""

from pathlib import Path

import common
from keys import Keys
from pages import PageTest
from states import SENTENCES, spoken_texts, with_new

# The cells of the drawn rows: the file and places, the old text, the new one, the remark on it, and its room.
ROWS = '''return [...document.querySelectorAll('.all-texts tbody tr:not(.gap)')].map(({ cells: [file, old, fresh, room] }) =>
    [file.innerText.replace(/\\s+/g, ' ').trim(), old.innerText.trim(), fresh.querySelector('input').value, fresh.querySelector('p').innerText, room.innerText.trim()])'''

# Lets others run after each step of a loop, which then waits. `goOn` lets all loops go on, so many times, and calls a function before each.
STEPS = '''const later = setTimeout, waiting = [];
    let now = Date.now();
    Date.now = () => now += 1000;
    globalThis.setTimeout = (work, time = 0) => time > 0 ? later(work, time) : waiting.push(work);
    globalThis.goOn = async (times, first) => {
        for (let i = 0; i < times; i++) {
            first(i);
            waiting.splice(0).forEach(work => work());
            await new Promise(done => later(done));
        }
        globalThis.setTimeout = later;
        waiting.forEach(work => work());
    };'''


class TypedTexts(PageTest):
    def cells(self) -> list[list[str]]:
        return list(self.browser.run(ROWS))

    def row(self, number: int) -> list[str]:
        return self.cells()[number - 1]

    def becomes(self, number: int, column: int, text: str) -> None:
        """Waits until a cell contains a text."""
        common.waited(lambda: text in self.row(number)[column], f'row {number} does not say {text}')

    def written(self, image: Path, fresh: dict[str, str]) -> str:
        """The script that cdscript writes for new texts at all places of old ones."""
        rows = [line.split('\t') for line in common.cdscript_prints('texts', image).splitlines()]
        table = common.folder('table') / 'mine.tsv'
        table.write_text(with_new('\n'.join(map('\t'.join, rows)), {number + 1: fresh[row[6]] for number, row in enumerate(rows) if row[6] in fresh}))
        return common.cdscript_prints('replace', image, '--list', table)

    def same_lines(self, script: str) -> None:
        """Waits until the script of the page is another one whose lines may be in a different order."""
        self.browser.click('#tab-script')
        common.waited(lambda: sorted(row.split('|')[1] for row in self.rows()) == sorted(script.split('\n')), 'the script differs')
        self.assertEqual(sorted(self.script_text().splitlines()), sorted(script.splitlines()))

    @common.in_check
    def test_each_text_is_listed_once_and_a_typed_one_is_in_the_script_at_all_its_places(self) -> None:
        image = self.open_table(spoken_texts())
        self.assertEqual([(file, old, room) for file, old, _, _, room in self.cells()],
                         [('MSG00.DAT 6 times', text, f'0 of {len(text.encode("cp932"))}') for text in SENTENCES])
        self.browser.click(self.field(1))
        self.browser.press('The game starts.')
        self.becomes(1, 4, '16 of 34')
        self.assertEqual(self.row(1)[3], 'Enter puts it in all 6 places.')
        self.browser.press(Keys.ENTER)
        self.wait_for_focus(self.field(2))
        self.browser.press('Save?', Keys.ARROW_DOWN)
        self.wait_for_focus(self.field(3))
        self.browser.wait('#count-script', '12')
        self.same_lines(self.written(image, {SENTENCES[0]: 'The game starts.', SENTENCES[1]: 'Save?'}))

    def test_a_text_that_does_not_fit_is_counted_kept_and_lost_only_if_the_user_wants_it(self) -> None:
        self.open_table(spoken_texts())
        self.browser.click(self.field(2))
        self.browser.press('Save?', Keys.ENTER)
        self.becomes(2, 4, '5 of 38')
        self.browser.wait('#panel-text .meter', '1 of 4 done')
        self.browser.press(Keys.ARROW_UP, 'much too long ' * 4)
        self.sees(['18 bytes too many.', '56 of 38'], lambda: self.row(2)[3:])
        self.browser.press(Keys.ENTER)
        self.browser.wait('#panel-text [aria-pressed]:nth-child(3)', 'Do not fit 1')
        self.becomes(2, 3, f"18 bytes too many. {common.text('textScriptKeeps')}")
        self.browser.wait('#count-script', '6')
        self.press('Do not fit')
        self.assertEqual([cells[1] for cells in self.cells()], [SENTENCES[1]])
        self.press_in('image', 'Close the image')
        self.browser.wait('#sheet', common.text('textTypedAreLost'))
        self.browser.answer('Cancel')
        self.press('Undo')
        self.becomes(1, 2, 'Save?')
        self.browser.wait('#panel-text [aria-pressed]:nth-child(3)', 'Do not fit 0')
        self.press_in('image', 'Close the image')
        self.browser.wait('#sheet')
        self.assertNotIn(common.text('textTypedAreLost'), self.browser.text('#sheet'))

    def test_tab_goes_on_from_a_typed_text_and_the_keys_of_undo_take_it_back(self) -> None:
        self.open_table(spoken_texts())
        self.browser.click(self.field(2))
        self.browser.press('Save?', Keys.TAB)
        self.browser.wait('#count-script', '6')
        self.becomes(2, 4, '5 of 38')
        place = self.browser.run("return document.querySelector('#panel-text .foot .tiny').innerText")
        self.assertEqual(self.browser.run('return document.activeElement.innerText'), place)
        self.browser.click(self.field(2))
        self.browser.press('z', held=Keys.CONTROL)
        self.becomes(2, 4, '0 of 38')
        self.browser.wait('#panel-text .meter', '0 of 4 done')
        self.browser.press('y', held=Keys.CONTROL)
        self.becomes(2, 4, '5 of 38')
        self.browser.wait('#panel-text .meter', '1 of 4 done')

    def test_the_field_with_the_focus_is_in_the_window_with_its_remark(self) -> None:
        self.open_table(spoken_texts())
        self.browser.size(1280, 620)
        self.browser.click(self.field(1))
        for _ in range(3):
            self.browser.press('much too long ' * 4, Keys.ENTER)
            place = self.browser.run("const { bottom, top } = document.activeElement.closest('tr').getBoundingClientRect(); return [top, bottom, innerHeight]")
            self.assertTrue(0 <= place[0] and place[1] < place[2] + 1, place)

    def test_a_text_that_is_typed_while_the_script_is_read_again_stays(self) -> None:
        self.open_table(spoken_texts())
        self.browser.click('#tab-script')
        self.browser.click('.editor textarea')
        self.browser.press(Keys.END, Keys.ENTER)
        # The table begins to read the script, and then the text is typed, before anything was read.
        self.browser.run('''const field = document.querySelector(arguments[0]);
            document.querySelector('#tab-text').click();
            field.value = 'Go.';
            field.dispatchEvent(new Event('change'))''', self.field(1))
        self.browser.wait('#count-script', '6')
        self.becomes(1, 2, 'Go.')
        self.browser.wait('#panel-text .meter', '1 of 4 done')

    def test_an_undo_in_the_panel_script_while_a_text_is_being_put_into_the_script_is_read(self) -> None:
        self.open_table(spoken_texts())
        self.browser.click(self.field(1))
        self.browser.press('Go.', Keys.ENTER)
        self.browser.wait('#count-script', '6')
        self.becomes(1, 4, '3 of ')
        self.browser.click('#tab-script')
        # The text does not fit, so only the panel Script changes the script.
        self.browser.run('''const field = document.querySelector(arguments[0]);
            field.value = 'much too long '.repeat(4);
            field.dispatchEvent(new Event('change'));
            for (let i = 0; i < 9; i++) await null;
            const key = { key: 'z', ctrlKey: true, bubbles: true, cancelable: true };
            document.querySelector('.editor textarea').dispatchEvent(new KeyboardEvent('keydown', key));
            document.querySelector('#tab-text').click()''', self.field(2))
        self.browser.wait('#panel-text [aria-pressed]:nth-child(3)', 'Do not fit 1')
        common.waited(lambda: self.row(1)[2] == '', 'the table shows what the script does not have')

    def test_a_list_that_is_saved_while_an_import_is_read_does_not_take_it_back(self) -> None:
        image = self.open_table(spoken_texts())
        self.browser.click(self.field(1))
        self.browser.press('Go.', Keys.ENTER)
        self.browser.wait('#count-script', '6')
        table = common.folder('table') / 'other.tsv'
        rows = common.cdscript_prints('texts', image)
        table.write_text(with_new(rows, {number + 1: 'Away.' for number, row in enumerate(rows.splitlines()) if SENTENCES[0] in row}))
        self.browser.run(STEPS)
        self.browser.give('#panel-text input[accept^=".tsv"]', [table])
        # The list is saved at each step. No list is needed.
        self.browser.run('''const { createObjectURL } = URL;
            URL.createObjectURL = () => { throw new Error('none'); };
            await goOn(300, () => {
                document.querySelector('[aria-labelledby=all-texts-title] header > .btn:last-child').click();
                document.querySelector('#sheet .btn').click();
            });
            URL.createObjectURL = createObjectURL;''')
        self.becomes(1, 2, 'Away.')
        self.same_lines(self.written(image, {SENTENCES[0]: 'Away.'}))

    def test_a_text_that_is_typed_while_the_texts_are_listed_again_is_in_the_table_as_it_is_in_the_script(self) -> None:
        image = self.open_table(spoken_texts())
        self.browser.click(self.field(1))
        self.browser.press('G')
        self.browser.run(STEPS)
        self.browser.run('''[...document.querySelectorAll('button')].find(it => it.innerText === arguments[0]).click();
            await goOn(150, i => document.execCommand('insertText', false, i < 90 && i % 9 === 0 ? 'o' : ''))''', common.text('textShowAllTexts'))
        self.wait_for_focus('#all-texts-title')
        # What is saved is complete.
        self.save_list(common.text('textAsTsv'))
        self.browser.downloaded('game (texts).tsv')
        self.becomes(1, 2, 'Goo')
        self.browser.wait('#panel-text .meter', '1 of 4 done')
        self.same_lines(self.written(image, {SENTENCES[0]: self.row(1)[2]}))

    def test_undo_takes_an_import_back(self) -> None:
        image = self.open_table(spoken_texts())
        self.browser.click(self.field(1))
        self.browser.press('Go.', Keys.ENTER)
        self.becomes(1, 4, '3 of ')
        self.browser.wait('#count-script', '6')
        rows = common.cdscript_prints('texts', image)
        table = common.folder('table') / 'other.tsv'
        # The field of the second text has the focus.
        table.write_text(with_new(rows, {number + 1: 'Away.' for number, row in enumerate(rows.splitlines()) if SENTENCES[0] in row or SENTENCES[1] in row}))
        self.browser.give('#panel-text input[accept^=".tsv"]', [table])
        self.becomes(1, 2, 'Away.')
        self.becomes(2, 2, 'Away.')
        self.wait_for_focus(self.field(2))
        for text in ('Go.', ''):
            self.press('Undo')
            self.becomes(1, 2, text)
        self.browser.wait('#panel-text .meter', '0 of 4 done')

    def test_where_an_imported_text_does_not_fit_the_script_keeps_the_earlier_one_and_undo_takes_the_import_back(self) -> None:
        image = self.open_table(spoken_texts())
        self.type_in_row(2, 'Save?')
        self.browser.wait('#count-script', '6')
        rows = common.cdscript_prints('texts', image)
        table = common.folder('table') / 'other.tsv'
        table.write_text(with_new(rows, {number: 'much too long ' * 4 for number, row in enumerate(rows.splitlines(), 1)
                                         if SENTENCES[1] in row or SENTENCES[2] in row}))
        self.browser.give('#panel-text input[accept^=".tsv"]', [table])
        self.browser.wait('#panel-text [aria-pressed]:nth-child(3)', 'Do not fit 2')
        self.becomes(2, 3, f"18 bytes too many. {common.text('textScriptKeeps')}")
        self.assertNotIn(common.text('textScriptKeeps'), self.row(3)[3])
        self.press('Undo')
        self.browser.wait('#panel-text [aria-pressed]:nth-child(3)', 'Do not fit 0')
        self.becomes(2, 2, 'Save?')
        self.becomes(3, 2, '')
        self.same_lines(self.written(image, {SENTENCES[1]: 'Save?'}))

    def test_undo_and_redo_give_each_place_its_own_text_again(self) -> None:
        image = self.open_table(spoken_texts())
        rows = common.cdscript_prints('texts', image)
        places = [number for number, row in enumerate(rows.splitlines(), 1) if SENTENCES[0] in row]
        table = common.folder('table') / 'other.tsv'
        table.write_text(with_new(rows, {number: 'Two.' if number in places[-2:] else 'Away.' for number in places}))
        self.browser.give('#panel-text input[accept^=".tsv"]', [table])
        self.becomes(1, 3, 'In 4 of 6 places.')
        self.browser.type(self.field(1), 'Go.')
        self.browser.press(Keys.ENTER)
        self.browser.wait('#panel-text .meter', '1 of 4 done')
        for text in ('In 4 of 6 places.', ''):
            self.press('Undo')
            self.becomes(1, 3, text)
        self.becomes(1, 2, '')
        self.browser.click(self.field(1))
        self.browser.press('y', held=Keys.CONTROL)
        self.becomes(1, 3, 'In 4 of 6 places.')
        self.same_lines(common.cdscript_prints('replace', image, '--list', table))

    def test_a_text_that_does_not_fit_is_in_each_list_and_publish_says_so(self) -> None:
        self.open_table(spoken_texts())
        self.browser.click(self.field(1))
        self.browser.press('much too long ' * 4, Keys.ENTER)
        self.becomes(1, 3, 'too many.')
        self.press_in('export', 'Export a table')
        path = self.browser.downloaded('game (texts).csv')
        table = common.waited(path.read_text, 'the table is empty')
        self.assertEqual(sum('much too long' in row for row in table.splitlines()), 6)
        self.browser.click('#tab-publish')
        self.browser.wait('#panel-publish', '1 translation in the table of texts is not in the script.')
        self.browser.click('#tab-text')
        self.browser.click(self.field(2))
        self.browser.press('Save?', Keys.ENTER)
        self.browser.wait('#count-script', '6')
        self.browser.click('#tab-script')
        self.browser.wait('#panel-script .say.warn', '1 translation in the table of texts is not in the script.')
        self.press('Show the first one')
        common.waited(lambda: self.browser.run('return document.activeElement === document.querySelector(arguments[0])', self.field(1)),
                      'the text has no focus')

    def test_an_import_offers_its_translations_for_equal_texts_that_are_empty(self) -> None:
        image = self.open_table(spoken_texts())
        table = image.with_name('mine.tsv')
        table.write_text(with_new(common.cdscript_prints('texts', image), {2: 'The game starts.'}))
        self.browser.give('#panel-text input[accept^=".tsv"]', [table])
        self.browser.wait('#panel-text .say.good', '1 line added to the script.')
        self.press('Use them for 5 equal texts that are empty')
        self.browser.wait('#panel-text .say.good', '5 lines added to the script.')
        self.same_lines(self.written(image, {SENTENCES[0]: 'The game starts.'}))

    def test_typed_texts_that_do_not_fit_stay_if_the_texts_or_others_are_listed_again(self) -> None:
        text = b'\0'.join(it.encode('cp932') for it in SENTENCES) + b'\0'
        self.open_table(common.image_of(common.iso_of({'A.DAT': text, 'B.DAT': text.replace(SENTENCES[1].encode('cp932'), SENTENCES[3].encode('cp932'))})))
        long = 'much too long ' * 4
        self.browser.click(self.field(2))
        self.browser.press(long, Keys.ENTER)
        self.becomes(2, 3, 'too many.')
        self.press('Show all texts')
        self.browser.wait('#panel-text [aria-pressed]:nth-child(3)', 'Do not fit 1')
        self.becomes(2, 2, long)
        self.wait_for_focus('#all-texts-title')
        self.assertTrue(self.browser.asks_before_leaving())
        # In the other file the text does not occur.
        self.browser.click('.what-to-list summary')
        self.browser.type('#list-file', 'B.DAT')
        self.press('Show all texts')
        self.browser.wait('#panel-text .meter', '0 of 3 done')
        self.assertTrue(self.browser.asks_before_leaving())
        self.browser.type('#list-file', '')
        self.press('Show all texts')
        self.becomes(2, 2, long)

    def test_a_removed_text_is_removed_from_the_script(self) -> None:
        image = self.open_table(spoken_texts())
        for number, text in ((1, 'Start'), (2, 'Save?')):
            self.browser.click(self.field(number))
            self.browser.press(text, Keys.ENTER)
        self.browser.wait('#count-script', '12')
        self.browser.type(self.field(1), '')
        self.browser.press(Keys.ENTER)
        self.becomes(1, 4, '0 of 34')
        self.browser.wait('#count-script', '6')
        self.same_lines(self.written(image, {SENTENCES[1]: 'Save?'}))

    def test_the_table_follows_the_script_and_a_saved_list_gives_its_texts_again(self) -> None:
        image = self.open_table(spoken_texts())
        self.browser.click(self.field(1))
        self.browser.press('The game starts.', Keys.ENTER)
        self.browser.press('much too long ' * 4, Keys.ENTER)
        self.browser.wait('#panel-text [aria-pressed]:nth-child(3)', 'Do not fit 1')
        self.browser.wait('#count-script', '6')
        saved = {form: self.saved_list(form, 'game (texts)').read_bytes().decode() for form in ('csv', 'tsv', 'po')}
        mine = common.folder('table') / 'mine.tsv'
        mine.write_text(saved['tsv'])
        for form in ('csv', 'po'):
            self.assertEqual(saved[form], common.cdscript_prints('texts', f'--{form}', '--list', mine, image))
        self.assertEqual(saved['tsv'], common.cdscript_prints('texts', '--list', mine, image))
        self.assertEqual(saved['tsv'].count('much too long'), 6 * 4)
        # A list that is imported changes the table.
        mine.write_text(saved['tsv'].replace('The game starts.', 'Start!').replace('much too', 'also too'))
        self.browser.give('#panel-text input[accept^=".tsv"]', [mine])
        self.becomes(1, 2, 'Start!')
        self.becomes(1, 4, '6 of 34')
        self.becomes(2, 2, 'also too long ' * 4)
        # So does an edit of the script.
        self.browser.click('#tab-script')
        self.browser.click('.editor textarea')
        self.browser.press('z', held=Keys.CONTROL)
        self.browser.click('#tab-text')
        self.becomes(1, 2, 'The game starts.')

    def test_a_text_in_a_field_is_not_lost_and_a_saved_list_has_it(self) -> None:
        image = self.open_table(spoken_texts())
        self.browser.click(self.field(1))
        self.browser.press('The game starts.')
        self.sees(True, self.browser.asks_before_leaving)
        self.save_list(common.text('textAsTsv'))
        path = self.browser.downloaded('game (texts).tsv')
        saved = common.waited(path.read_bytes, 'the list is empty').decode()
        self.assertEqual(saved.count('The game starts.'), 6)
        self.browser.wait('#count-script', '6')
        mine = common.folder('table') / 'mine.tsv'
        mine.write_text(saved)
        self.assertEqual(saved, common.cdscript_prints('texts', '--list', mine, image))
        self.browser.wait('[aria-labelledby=all-texts-title] .say.good', 'Saved: game (texts).tsv')
        self.same_lines(self.written(image, {SENTENCES[0]: 'The game starts.'}))
        self.assertFalse(self.browser.asks_before_leaving())

    def test_a_list_that_was_not_saved_does_not_count_as_saved(self) -> None:
        self.open_table(spoken_texts())
        self.browser.click(self.field(1))
        self.browser.press('much too long ' * 4, Keys.ENTER)
        self.browser.wait('#panel-text [aria-pressed]:nth-child(3)', 'Do not fit 1')
        self.save_list('Cancel')
        self.sees(True, self.browser.asks_before_leaving)
        self.browser.run('globalThis.address = URL.createObjectURL; URL.createObjectURL = () => { throw new Error("no room for the list"); }')
        self.save_list(common.text('textAsCsv'))
        self.browser.wait('#panel-text .say.bad', 'No room for the list')
        self.assertTrue(self.browser.asks_before_leaving())
        self.press_in('image', 'Close the image')
        self.browser.wait('#sheet', common.text('textTypedAreLost'))
        self.browser.run('URL.createObjectURL = address')
        self.browser.answer('Save and close')
        self.browser.downloaded('game (texts).csv')
        self.browser.wait('#start h1')
        self.assertFalse(self.browser.asks_before_leaving())

    def test_words_are_found_and_replaced_in_the_new_texts_that_are_shown(self) -> None:
        image = self.open_table(spoken_texts())
        for number, text in ((1, 'The Hero starts.'), (2, 'Hero, save?'), (3, 'A door.')):
            self.browser.click(self.field(number))
            self.browser.press(text, Keys.ENTER)
        self.browser.wait('#count-script', '18')
        self.browser.type('#texts-find', 'Hero')
        self.assertEqual([cells[1] for cells in self.cells()], SENTENCES[:2])
        self.browser.type('#texts-others', 'Lady')
        self.press('Replace in all shown')
        self.browser.wait('#panel-text .say.good', 'Replaced in 2 new texts.')
        self.becomes(1, 2, 'The Lady starts.')
        self.browser.type('#texts-find', SENTENCES[3][:4])
        self.assertEqual([cells[1] for cells in self.cells()], [SENTENCES[3]])
        self.browser.wait('#panel-text .meter', '3 of 4 done')
        self.same_lines(self.written(image, {SENTENCES[0]: 'The Lady starts.', SENTENCES[1]: 'Lady, save?', SENTENCES[2]: 'A door.'}))
        self.browser.click('#tab-text')
        self.press('Undo')
        self.browser.wait('#panel-text .meter', '3 of 4 done')
        self.assertNotIn('Replaced in', self.browser.text('#panel-text'))
        self.same_lines(self.written(image, {SENTENCES[0]: 'The Hero starts.', SENTENCES[1]: 'Hero, save?', SENTENCES[2]: 'A door.'}))

    def test_only_the_rows_on_the_screen_are_drawn_and_the_row_that_is_typed_in_stays(self) -> None:
        count = 3000
        texts = [f'ゲームを始める場面{number:06}'.encode('cp932').ljust(32, b'\0') for number in range(count)]
        self.open_table(common.image_of([b''.join(texts[at:at + 64]) for at in range(0, count, 64)]))
        drawn = 'return document.querySelectorAll(".all-texts tbody input").length'
        self.assertLess(self.browser.run(drawn), 40)
        self.browser.click(self.field(3))
        self.browser.press('Half a te')
        for share, due in ((1, count), (0.5, count // 2), (0, 1)):
            self.browser.run('''const box = document.querySelector('.scroll.texts');
                box.scrollTop = (box.scrollHeight - box.clientHeight) * arguments[0];''', share)
            self.browser.wait(f'.all-texts tbody tr[aria-rowindex="{due + 1}"]')
            self.assertLess(self.browser.run(drawn), 40)
            seen = '''const { top, bottom } = document.querySelector(arguments[0]).getBoundingClientRect(), box = document.querySelector('.scroll.texts').getBoundingClientRect();
                return bottom > box.top && top < box.bottom'''
            self.assertTrue(self.browser.run(seen, f'.all-texts tbody tr[aria-rowindex="{due + 1}"]'), due)
        self.browser.press('xt', Keys.ENTER)
        self.becomes(3, 2, 'Half a text')
        self.wait_for_focus(self.field(4))
        # The keys reach each row, and each is visible then.
        self.browser.press(*[Keys.ARROW_DOWN] * 30)
        self.wait_for_focus(self.field(34))
        self.assertTrue(self.browser.run(seen, '.all-texts tbody :focus'))

    def test_codes_have_a_different_colour(self) -> None:
        text = '勇者は村人と\n話した。長い旅がはじまる。'
        self.open_table(common.image_of([b'', b'\0'.join(it.encode('cp932') for it in (text, SENTENCES[0], text, SENTENCES[0])) + b'\0']))
        colours = '''return [...document.querySelectorAll('.all-texts tbody .old')].map(it =>
            [it.innerText, ...Array.from(it.querySelectorAll('.code'), code => [code.innerText, getComputedStyle(code).color === getComputedStyle(it).color])])'''
        self.assertEqual(self.browser.run(colours), [[text.replace('\n', '{0A}'), ['{0A}', False]], [SENTENCES[0]]])
