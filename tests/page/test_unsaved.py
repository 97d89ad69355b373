"""Nothing is lost: only its own Cancel ends a job, an unsaved script stays unsaved, and a progress bar stays until its job ends."""

from pathlib import Path

import common
import discs
from keys import Keys
from pages import GATE, HELD, PICKER, PageTest, applied, patcher
from states import spoken_texts, with_new


def repairable() -> tuple[bytes, bytes]:
    """A dump with two damaged sectors, and an undamaged dump."""
    return common.damaged(common.damaged(discs.game(), 40), 60), discs.game()


class Unsaved(PageTest):
    stub = PICKER

    def state(self) -> str:
        return str(self.browser.run('return chosen.state'))

    def repairs(self) -> dict[str, Path]:
        """Opens two dumps, and starts saving the repaired one."""
        first, second = repairable()
        files = discs.written(first=first, second=second, third=common.damaged(second, 90))
        self.open_image(files['first'])
        self.open_files(files['second'])
        self.browser.answer('Repair the open first.bin with this file')
        self.browser.wait('.tally', 'can be repaired')
        self.begins('Save repaired image')
        return files

    def patches(self) -> dict[str, Path]:
        files = discs.written(game=discs.game(), english=discs.script(), other=common.damaged(discs.game(), 90))
        self.open_image(files['game'])
        self.open_script(files['english'])
        self.begins()
        return files

    def ends_well(self, due: bytes) -> None:
        """Lets the save end, and compares the bytes."""
        self.browser.run('chosen.release()')
        common.waited(lambda: self.state() in ('closed', 'aborted'), 'the save does not end')
        self.assertEqual(self.state(), 'closed')
        self.assertEqual(self.chosen_bytes(), due)
        self.assertFalse(self.browser.run('return chosen.removed'))

    def test_no_file_that_is_dropped_ends_the_saving_of_a_repaired_image(self) -> None:
        files = self.repairs()
        self.browser.drop('#main', [files['third']])
        self.browser.wait('#messages .say.warn', 'Not opened: third.bin.')
        self.browser.wait('#messages .say.warn', common.text('imageBeingSaved'))
        self.browser.wait('#second-title', 'second.bin')
        self.browser.wait('#second-body .progress')
        self.assertTrue(self.browser.asks_before_leaving())
        self.browser.click('#tab-text')
        self.browser.wait('#long-job [aria-label=Saving]', 'Saving')
        self.browser.click('#tab-disc')
        self.ends_well(discs.game())
        self.is_gone('#long-job')
        self.browser.wait('#second-body .say.good', 'Saved: first (repaired).bin')
        self.assertFalse(self.browser.asks_before_leaving())

    def test_no_button_ends_the_saving_of_a_repaired_image_but_its_own(self) -> None:
        self.repairs()
        self.press_in('image', 'Close the image')
        self.browser.wait('#messages .say.warn', common.text('imageBeingSaved'))
        self.browser.click('[aria-labelledby=second-title] header [aria-label=Close]')
        self.browser.wait('#panel-disc .said .say.warn', common.text('imageBeingSaved'))
        self.press_in('second', 'Open it instead')
        self.press_in('image', 'Set the base')
        self.browser.wait('#disc-line form', 'Set it only if a script or list numbers the blocks of this file differently.')
        self.press('Set')
        self.browser.wait('#disc-line .name', 'first.bin')
        self.browser.wait('#second-title', 'second.bin')
        self.browser.wait('#second-body .progress')
        self.ends_well(discs.game())

    def test_another_track_does_not_end_the_saving_of_a_repaired_image(self) -> None:
        first, second = repairable()
        files = discs.written(first=first, later=common.image_of([b'later'] * 300, base=900), second=second)
        cue = files['first'].with_name('disc.cue')
        cue.write_text(discs.sheet_of(first=discs.DATA, later=discs.DATA))
        self.open_files(cue, files['first'], files['later'])
        self.wait_for_hash()
        self.open_files(files['second'])
        self.browser.answer('Repair the open first.bin with this file')
        self.browser.wait('.tally', 'can be repaired')
        self.begins('Save repaired image')
        self.browser.choose('#disc-line select', '2')
        self.browser.wait('#messages .say.warn', common.text('imageBeingSaved'))
        self.assertEqual(self.browser.text('#disc-line .name'), 'first.bin')
        self.ends_well(discs.game())

    # ---- another image in place of the open one

    LONG = 'much too long ' * 4

    def type_texts(self) -> None:
        """Types one text that fits and one that does not, which is in no file and not in the script."""
        self.browser.click('#tab-text')
        self.show_texts()
        self.type_in_row(2, 'Save?')
        self.type_in_row(1, self.LONG)
        self.browser.wait('#panel-text [aria-pressed]:nth-child(3)', 'Do not fit 1')

    def is_asked(self, name: str, door: str) -> None:
        """Waits for the question. After Cancel, the image and its table are as before."""
        self.browser.wait('#sheet[open]', common.text('imageDiscardTexts'))
        self.browser.answer('Cancel')
        self.browser.wait('#disc-line .name', name)
        tab = self.browser.run('return document.querySelector("#tabs [aria-selected=true]").id')
        self.browser.click('#tab-text')
        self.browser.wait('#panel-text [aria-pressed]:nth-child(3)', 'Do not fit 1')
        self.assertEqual(self.browser.run('return document.querySelector(arguments[0]).value', self.field(1)), self.LONG, door)
        self.browser.click(f'#{tab}')

    def keeps_texts(self, door: str) -> None:
        """Checks that nothing is asked, and that the texts are still there."""
        self.browser.click('#tab-text')
        self.browser.wait('#panel-text [aria-pressed]:nth-child(3)', 'Do not fit 1')
        self.assertEqual(self.browser.run('return document.querySelector(arguments[0]).value', self.field(1)), self.LONG, door)
        self.assertEqual(self.browser.run('return document.querySelector(arguments[0]).value', self.field(2)), 'Save?', door)
        self.assertFalse(self.browser.run('return document.querySelector("#sheet")?.open === true'), door)

    @common.in_check
    def test_no_other_image_takes_the_place_of_typed_texts_without_a_question(self) -> None:
        image = spoken_texts()
        files = discs.written(first=image, later=common.image_of([b'later'] * 300, base=900), other=common.damaged(image, 30))
        cue = files['first'].with_name('disc.cue')
        cue.write_text(discs.sheet_of(first=discs.DATA, later=discs.DATA))
        self.open_files(cue, files['first'], files['later'])
        self.wait_for_hash()
        self.type_texts()
        for answer in ('Open it instead', 'Repair other.bin'):
            self.open_files(files['other'])
            self.browser.wait('#sheet', 'What do you want to do with other.bin?')
            self.browser.answer(answer)
            self.is_asked('first.bin', answer)
        self.open_files(files['other'])
        self.browser.answer('Compare')
        self.press_in('second', 'Open it instead')
        self.is_asked('first.bin', 'Open it instead on the card')
        self.browser.click('#tab-disc')
        self.browser.choose('#disc-line select', '2')
        self.is_asked('first.bin', 'another track')
        self.assertEqual(self.browser.run('return document.querySelector("#disc-line select").value'), '1')
        self.press_in('image', 'Set the base')
        self.browser.type('#base', '100')
        self.browser.press(Keys.ENTER)
        self.keeps_texts('Set the base')
        self.browser.click('#tab-script')
        self.press_save()
        self.press('Open the new image')
        self.is_asked('first.bin', 'Open the new image')
        # The button is still there.
        self.press('Open the new image')
        self.browser.wait('#sheet[open]', common.text('textTypedAreLost'))
        self.browser.answer('Save a list')
        saved = common.waited(self.browser.downloaded('first (texts).csv').read_text, 'the list is empty')
        self.assertIn(self.LONG, saved)
        self.browser.wait('#disc-line .name', 'first (patched).bin')

    def test_typed_texts_stay_when_an_image_is_read_again(self) -> None:
        self.browser.run(HELD)
        self.open_files(discs.written(game=spoken_texts())['game'])
        self.browser.wait('#disc-line .lead', 'Reading the disc')
        self.press('Cancel')
        self.browser.run('letGo()')
        self.browser.wait('#disc-line .lead', 'Stopped at')
        self.type_texts()
        self.browser.click('#tab-disc')
        self.press('Read it again')
        self.wait_for_hash()
        self.keeps_texts('Read it again')

    def test_a_cancelled_import_leaves_the_table_as_it_was(self) -> None:
        image = self.open_table(spoken_texts())
        table = image.with_name('mine.tsv')
        table.write_text(with_new(common.cdscript_prints('texts', image), {2: 'The game starts.', 3: 'Save?'}))
        # The image is read for the lines, after the list.
        self.browser.run(f'{GATE} least = 3000')
        self.browser.give('#panel-text input[accept^=".tsv"]', [table])
        self.browser.wait('#panel-text .progress')
        common.waited(lambda: self.browser.run('return reads > 0'), 'the image is not read')
        self.press('Cancel')
        self.browser.run('openGate()')
        self.browser.wait('#panel-text .say', 'Cancelled.')
        self.browser.wait('#panel-text .meter', '0 of 4 done')
        self.type_in_row(4, 'The end.')
        self.browser.wait('#count-script', '6')

    def test_a_second_press_does_not_save_twice(self) -> None:
        self.repairs()
        for _ in range(2):
            self.press('Save repaired image')
        self.press_in('second', 'Write the repair as a script')
        self.sees([1, 1], 'return [chosen.asked, document.querySelectorAll("#second-body .progress").length]')
        self.sees(True, self.browser.asks_before_leaving)
        self.ends_well(discs.game())

    def test_a_slow_choice_of_a_file_is_not_asked_for_twice(self) -> None:
        files = self.open_both(discs.game(), discs.script())
        self.browser.run('chosen.pickLater()')
        self.press_save()
        self.browser.wait('#panel-script .progress')
        self.browser.click('.editor textarea')
        self.browser.press(Keys.ENTER, held=Keys.CONTROL)
        self.open_files(discs.written(third=discs.scratched())['third'])
        self.browser.wait('#messages .say.warn', 'Not opened: third.bin.')
        self.assertEqual(self.browser.run('return chosen.asked'), 1)
        self.browser.run('chosen.pick()')
        self.browser.wait('#panel-script .say.good', 'Saved: game (patched).bin')
        self.assertEqual(self.chosen_bytes(), applied(files['game'], files['english'])[2])

    def test_escape_elsewhere_ends_no_saving(self) -> None:
        files = self.patches()
        self.browser.click('#tab-text')
        self.browser.click('#find-text')
        self.browser.press('a', Keys.ESCAPE)
        self.browser.click('#tab-disc')
        self.browser.send('#map', Keys.HOME, Keys.ENTER)
        self.wait_for_focus('.hex')
        self.browser.press(Keys.ESCAPE)
        self.browser.press(Keys.ESCAPE)
        self.edit(Keys.ESCAPE)
        self.browser.wait('#panel-script .progress')
        self.assertNotIn(common.text('endTheSaving'), self.browser.text('#panel-script'))
        self.ends_well(applied(files['game'], files['english'])[2])

    def test_escape_in_its_card_asks_before_it_ends_a_saving(self) -> None:
        files = self.patches()
        self.assertEqual(self.focused(), 'Check: Cancel')
        self.browser.press(Keys.ESCAPE)
        self.browser.wait('#panel-script .say.warn', common.text('endTheSaving'))
        self.assertEqual(self.focused(), 'Check: Keep saving')
        self.browser.press(Keys.ESCAPE)
        self.sees('Check: Cancel', self.focused)
        self.browser.press(Keys.ESCAPE)
        self.press('Keep saving')
        self.browser.wait('#panel-script .progress')
        self.ends_well(applied(files['game'], files['english'])[2])

    def test_escape_and_a_yes_end_a_saving(self) -> None:
        self.patches()
        self.browser.press(Keys.ESCAPE)
        self.press('Stop and discard')
        self.browser.run('chosen.release()')
        self.browser.wait('#panel-script .say', 'Cancelled.')
        self.assertEqual(self.browser.run('return [chosen.state, chosen.removed]'), ['aborted', True])

    def test_escape_elsewhere_does_not_stop_the_reading_of_a_disc(self) -> None:
        game = discs.written(game=discs.game() * 60)['game']
        self.browser.run(HELD)
        self.open_files(game)
        self.browser.wait('#disc-line .lead', 'Reading the disc')
        self.browser.click('#tab-text')
        self.browser.click('#find-text')
        self.browser.press(Keys.ESCAPE)
        self.browser.run('letGo()')
        self.browser.click('#tab-disc')
        self.browser.wait('#disc-line .lead', 'Sectors are missing or extra in 59 places')
        self.wait_for_hash()

    def test_no_patcher_is_opened_and_none_is_left_while_an_image_is_saved(self) -> None:
        files = self.patches()
        made = applied(files['game'], files['english'])[2]
        page = self.written_page(patcher(discs.game(), made, discs.script()))
        self.browser.drop('#main', [page])
        self.browser.wait('#messages .say.warn', 'Not opened: starlit.html.')
        self.ends_well(made)
        self.browser.run('Object.assign(chosen, { writes: [], state: "none", begun: 0 })')
        self.browser.open(page)
        self.browser.give('#player-files', [files['game']])
        self.browser.wait('#verdict', 'right disc')
        self.begins('Patch and save')
        self.press('Open this in the full cdpatch')
        self.browser.wait('#player .say.warn', common.text('imageBeingSaved'))
        self.ends_well(made)
        self.browser.wait('#saved', 'Saved:')

    def test_one_comes_back_from_the_player_to_a_save_that_runs(self) -> None:
        files = self.patches()
        made = applied(files['game'], files['english'])[2]
        self.browser.click('#tab-publish')
        self.browser.type('#patcher-title', 'Mine')
        self.press('Preview as a player')
        self.browser.wait('#player h1', 'Mine')
        self.press('Back to Publish')
        self.browser.wait('#patcher-title')
        self.browser.click('#tab-script')
        self.browser.wait('#panel-script .job-end button', 'Cancel')
        self.ends_well(made)

    def test_a_script_that_was_only_shown_to_players_is_in_no_file(self) -> None:
        self.open_image(discs.written(game=discs.game())['game'])
        self.edit(Keys.ARROW_DOWN, f'set {discs.first_block()} 0 41')
        self.browser.click('#tab-publish')
        self.browser.type('#patcher-title', 'Mine')
        self.browser.wait('#panel-publish', 'cdpatch cannot tell whether the patch of the script matches game.bin.')
        self.press('Preview as a player')
        self.browser.wait('#player h1', 'Mine')
        self.press('Open this in the full cdpatch')
        self.browser.wait('#panel-script header .tag.warn', 'not saved')
        self.assertTrue(self.browser.asks_before_leaving())
        self.script_text()
        self.assertTrue(self.browser.asks_before_leaving(), 'the texts of Publish are in no patcher')

    def test_a_script_that_is_taken_back_does_not_take_the_panels_with_it(self) -> None:
        self.open_script(discs.written(english=discs.script())['english'])
        self.browser.click('.editor textarea')
        self.browser.press('z', held=Keys.CONTROL)
        self.browser.wait('#panel-script header h2', 'New script')
        self.browser.click('#tab-text')
        self.browser.wait('#panel-text')
        self.edit('y', held=Keys.CONTROL)
        self.browser.wait('#panel-script header h2', 'english.txt')

    def test_an_undo_script_has_the_name_of_its_own_script(self) -> None:
        files = discs.written(game=discs.game(), english=discs.script(), other='cdpatch 1\nrebuild 3\n')
        self.open_image(files['game'])
        self.open_script(files['english'])
        self.browser.run(GATE)
        self.save_undo()
        self.browser.wait('#panel-script .progress')
        self.browser.run('held = 0')
        self.open_script(files['other'])
        self.browser.wait('#panel-script header h2', 'other.txt')
        self.browser.wait('#panel-script .progress')
        self.assertEqual(self.browser.run('return document.querySelectorAll("#messages .progress").length'), 0)
        self.browser.run('openGate()')
        undo = self.browser.downloaded('english (undo).txt')
        self.browser.wait('#panel-script .said .say.good', 'Saved: english (undo).txt')
        _, _, patched = applied(files['game'], files['english'])
        self.assertEqual(applied(discs.written(patched=patched)['patched'], undo)[2], discs.game())
        self.is_gone('#panel-script .progress')

    def test_20000_patches_are_saved_as_the_program_saves_them_whatever_is_done_meanwhile(self) -> None:
        lines = [f'fill {block} {block % 2000} 8 {block % 256:02X}\n' for block in range(200, 18200)] + [f'rebuild {at}\n' for at in range(10, 2010)]
        files = discs.written(scratches=discs.scratches(), many='cdpatch 1\n' + ''.join(lines), other=discs.game())
        self.open_image(files['scratches'])
        self.open_script(files['many'])
        self.browser.run('chosen.pickLater()')
        self.press_save()
        self.browser.wait('#panel-script .progress')
        self.browser.run('chosen.hold(); chosen.pick()')
        self.browser.click('#tab-text')
        self.browser.drop('#main', [files['other']])
        self.browser.wait('#messages .say', 'Not opened: other.bin')
        self.browser.click('#find-text')
        self.browser.press('a', Keys.ESCAPE)
        self.browser.run('chosen.release()')
        self.browser.click('#tab-script')
        self.browser.wait('#panel-script .say', 'Saved: scratches (patched).bin')
        self.browser.wait('#saved-sha1', common.sha1(applied(files['scratches'], files['many'])[2]))

    def test_lines_that_are_being_made_keep_their_bar(self) -> None:
        self.open_image(discs.written(many=discs.many_texts())['many'])
        self.find()
        self.browser.wait('#panel-text .hits tbody tr:nth-child(200)', 'スタート')
        self.browser.type('#new-text', 'Start')
        self.browser.run(GATE)
        self.press('Replace all')
        self.browser.wait('#panel-text .facts', ' of 400 hits')
        self.assertNotIn('MB', self.browser.text('#panel-text .facts'))
        self.browser.click('#find-text')
        self.browser.press('x', Keys.ENTER)
        self.browser.wait('#panel-text .progress')
        self.browser.wait('#panel-text .say.warn', 'The script is still being updated.')
        self.browser.run('openGate()')
        self.browser.wait('#count-script', '400')

    @common.in_check
    def test_a_search_ends_with_its_image(self) -> None:
        files = discs.written(game=discs.game(), other=discs.scratched())
        self.open_image(files['game'])
        self.open_files(files['other'])
        self.browser.answer('Compare')
        self.browser.wait('#second-title', 'other.bin')
        self.browser.click('#tab-text')
        self.browser.run('''const post = Worker.prototype.postMessage; globalThis.late = [];
            Worker.prototype.postMessage = function (...given) { if (given[0].job === 'find') late.push(() => post.apply(this, given)); else post.apply(this, given); };''')
        self.browser.type('#find-text', 'スタート')
        self.press('Find')
        self.browser.wait('#panel-text .progress')
        self.browser.click('#tab-disc')
        self.press_in('second', 'Open it instead')
        self.browser.wait('#disc-line .name', 'other.bin')
        self.browser.click('#tab-text')
        self.browser.run('late.forEach(it => it())')
        self.wait_for_hash()
        self.assertEqual(self.browser.text('#panel-text .say'), '')
        self.assertEqual(self.browser.run('return [document.querySelectorAll("#panel-text .progress").length, document.querySelector("#panel-text .hits")?.checkVisibility() ?? false]'), [0, False])
