"""A message appears beside the pressed button, is visible on a phone, and ends with its panel. Copy buttons confirm; notes open."""

import common
import discs
from chromium import WIDTHS
from keys import Keys
from pages import CLIPBOARD, GATE, HELD_TIMERS, UNSEEN, PageTest
from states import spoken_texts, with_new

# The numbers of the words with a note that are visible now, among all such words.
WORDS = '''return [...document.querySelectorAll('.term')].flatMap((it, i) => it.checkVisibility() && !it.closest('[popover]') ? i : [])'''
# Opens the note of a word, and measures how far it is from the word and outside the window.
OPENED = '''const [number] = arguments, word = document.querySelectorAll('.term')[number];
    word.scrollIntoView({ block: 'end' });
    word.click();
    await new Promise(requestAnimationFrame);
    const [note, box] = [document.querySelector(':popover-open').getBoundingClientRect(), word.getBoundingClientRect()];
    document.querySelector(':popover-open').hidePopover();
    const far = Math.max(note.top - box.bottom, box.top - note.bottom, note.left - box.right, box.left - note.right);
    return [far, Math.max(-note.top, -note.left, note.bottom - innerHeight, note.right - innerWidth)];'''


class Messages(PageTest):
    def is_seen(self, css: str, words: str) -> None:
        self.browser.wait(css, words)
        self.assertLessEqual(self.browser.run(UNSEEN, css), 0, words)

    # ---- where, and how long

    def search(self, image: bytes) -> None:
        self.open_image(discs.written(texts=image)['texts'])
        self.find()
        self.browser.type('#new-text', 'Start')

    def test_how_many_lines_were_added_is_said_in_the_replace_card(self) -> None:
        for width in WIDTHS:
            self.browser.size(width)
            self.setUp()
            self.search(discs.many_texts(1))
            self.press('Replace all')
            self.is_seen('[aria-label=Replace] .say.good', '100 lines added to the script.')
        self.browser.click('#tab-script')
        self.browser.click('#tab-text')
        self.is_gone('#panel-text .say.good')

    def test_what_was_refused_of_all_hits_is_said_in_the_replace_card(self) -> None:
        self.browser.size(360)
        self.search(discs.scratched())
        self.press('Replace all')
        self.is_seen('[aria-label=Replace] .say.warn', 'is damaged: repair it first')

    def test_a_text_that_was_replaced_on_a_phone_is_said_and_undone(self) -> None:
        self.browser.size(360, 740)
        self.search(discs.game())
        self.press('Replace')
        self.is_seen('[aria-label=Replace] .say.good', 'Added to the script as line 2.')
        self.browser.wait('[aria-label=Replace]', 'hit 2 of 5')
        self.press('Undo')
        self.is_seen('[aria-label=Replace] .say', 'The script is as it was before.')
        self.browser.wait('[aria-label=Replace]', 'hit 1 of 5')
        self.wait_for_focus('#new-text')
        self.is_gone('#count-script')

    def test_an_undo_ends_with_the_next_change_of_the_script(self) -> None:
        self.search(spoken_texts())
        self.press('Replace')
        self.browser.wait('[aria-label=Replace] .say', 'Undo')
        table = common.folder('table') / 'texts.tsv'
        table.write_text(with_new(common.cdscript_prints('texts', discs.written(texts=spoken_texts())['texts']), {3: 'Save?'}))
        self.browser.give('#panel-text input[accept^=".tsv"]', [table])
        self.browser.wait('#panel-text .say.good', 'The translation fits.')
        self.is_gone('[aria-label=Replace] .say.good')

    def test_an_undo_script_is_said_in_its_card(self) -> None:
        files = discs.written(game=discs.game(), english=discs.script())
        self.browser.size(360)
        self.open_image(files['game'])
        self.open_script(files['english'])
        self.save_undo()
        self.is_seen('[aria-label=Script] .say.good', 'Saved: english (undo).txt')
        self.browser.click('#tab-disc')
        self.browser.click('#tab-script')
        self.is_gone('[aria-label=Script] .say.good')

    def test_what_is_said_over_a_panel_ends_with_it(self) -> None:
        self.open_image(discs.written(game=discs.game())['game'])
        path = common.folder('zip') / 'game.zip'
        path.write_bytes(b'PK\3\4' + bytes(3000))
        self.open_files(path)
        self.browser.wait('#messages .say.bad', 'Not opened.')
        self.browser.click('#tab-disc')
        self.browser.wait('#messages .say.bad', 'Not opened.')
        self.browser.click('#tab-text')
        self.is_gone('#messages .say')

    # ---- copying

    def copies(self, css: str, label: str, begins: str) -> None:
        """Presses a copy button, which confirms and then gets its label back, even if it is drawn again meanwhile."""
        self.browser.wait(css)
        box = 'const { x, y, width, height } = document.querySelector(arguments[0]).getBoundingClientRect(); return [x + scrollX, y + scrollY, width, height]'
        self.browser.run('copied = ""')
        before = self.browser.run(box, css)
        self.browser.click(css)
        self.browser.wait(css, 'Copied')
        self.assertEqual(self.browser.run(box, css), before, f'{css} moves')
        self.assertTrue(self.browser.run('return copied').startswith(begins), css)
        self.assertEqual(self.browser.text('#announced'), 'Copied')
        self.browser.run('endTimers()')
        common.waited(lambda: self.browser.text(css).split('\n')[0].strip() == label, f'{css} says it still')

    def test_each_copy_button_says_so_for_a_moment(self) -> None:
        image = common.damaged(discs.game(), discs.first_block() + 1, common.IN_EDC)
        files = discs.written(game=image, other=image, english=discs.script())
        packed = files['game'].with_suffix('.chd')
        packed.write_bytes(b'MComprHD' + bytes(5000))
        self.browser.run(CLIPBOARD + HELD_TIMERS, 2000)
        self.open_files(packed)
        self.copies('#start-message [data-copies]', 'Copy the command', 'chdman ')
        self.open_image(files['game'])
        self.copies('#disc-line [data-copies]', 'Copy', 'game.bin\nsize ')
        self.browser.click('#findings [data-tab=details]')
        self.browser.choose('#findings select', 'audit')
        self.copies('#findings [data-copies]', 'Copy', f'{discs.first_block() + 1} ')
        self.open_files(files['other'])
        self.browser.answer('Repair')
        self.browser.wait('[aria-label="Without a sound copy: 1"]')
        self.copies('[aria-label="Without a sound copy: 1"] [data-copies]', 'Copy', f'{discs.first_block() + 1}\t')
        self.open_files(files['english'])
        self.browser.wait('#panel-script .side .verdict')
        self.press_in('save', 'Output of cdpatch check')
        self.browser.wait('#panel-script .log', 'applied')
        self.copies('[aria-label=Log] [data-copies]', 'Copy', 'line 4: applied')
        self.find()
        self.copies('[aria-label=Hits] [data-copies]', 'Copy as a table', 'block\toffset\tfile\ttext\n')

    def test_a_copy_button_that_is_drawn_anew_says_it_too(self) -> None:
        self.open_image(discs.written(game=discs.game())['game'])
        self.browser.run(CLIPBOARD + HELD_TIMERS, 2000)
        self.browser.click('#disc-line [data-copies]')
        self.browser.wait('#disc-line [data-copies]', 'Copied')
        self.browser.click('#tab-text')
        self.browser.wait('#disc-line .hash [data-copies]', 'Copied')

    def test_what_cannot_be_copied_is_not_said_to_be(self) -> None:
        self.open_image(discs.written(game=discs.game())['game'])
        self.browser.run('navigator.clipboard.writeText = async () => { throw new Error("no"); }; document.execCommand = () => false;' + HELD_TIMERS, 2000)
        self.browser.click('#disc-line [data-copies]')
        self.browser.wait('#disc-line [data-copies]', 'Not copied')

    # ---- notes

    @common.in_check
    def test_a_note_opens_beside_its_word(self) -> None:
        self.open_both(discs.scratched(), discs.refused())
        self.browser.wait('#panel-script .verdict')
        self.browser.click('#tab-disc')
        self.press('Next finding')
        self.browser.wait('#sector-title .term')
        for width in WIDTHS:
            self.browser.size(width)
            for panel in ('disc', 'text', 'script'):
                self.browser.click(f'#tab-{panel}')
                words = self.browser.run(WORDS)
                self.assertGreater(len(words), 0)
                for number in words:
                    far, out = self.browser.run(OPENED, number)
                    self.assertLessEqual(far, 12, (width, panel, number))
                    self.assertLessEqual(out, 0, (width, panel, number))

    def test_the_focus_comes_back_when_what_had_it_is_closed(self) -> None:
        focused = 'const { id, tagName } = document.activeElement; return id || tagName'
        self.open_files(discs.written(junk=b'PK\3\4' + bytes(99))['junk'])
        self.browser.wait('#start-message .say')
        self.browser.run("document.querySelector('#start-message button:last-child').focus()")
        self.browser.press(Keys.ENTER)
        self.sees('open-files', focused)
        files = discs.written(game=discs.scratched(), other=discs.game())
        self.open_image(files['game'])
        self.open_files(files['other'])
        self.browser.answer('Compare')
        self.browser.wait('#second-body .tally')
        self.browser.run("document.querySelector('[aria-labelledby=second-title] header button:last-child').focus()")
        self.browser.press(Keys.ENTER)
        self.sees('map', focused)

    def test_a_notice_over_the_panel_is_closed_at_its_right_end(self) -> None:
        self.open_image(discs.written(game=discs.game())['game'])
        for width in WIDTHS:
            self.browser.size(width)
            self.open_files(discs.written(junk=b'PK\3\4' + bytes(99))['junk'])
            self.is_seen('#messages .say', 'Not opened.')
            self.assertEqual(self.browser.run('return document.querySelectorAll("#messages .say").length'), 1)
            beside = '''const [say, cross] = ['.say', '.cross'].map(it => document.querySelector(`#messages ${it}`).getBoundingClientRect());
                return say.right - cross.right + Math.abs(cross.top - say.top)'''
            self.assertLess(self.browser.run(beside), 24)
            self.browser.click('#messages .cross')
            self.is_gone('#messages .say')

    @common.in_check
    def test_a_long_job_is_shown_in_the_bar_on_every_panel(self) -> None:
        self.browser.run(f'{GATE} globalThis.least = 400000;')
        self.open_files(discs.written(game=discs.game())['game'])
        for panel in ('text', 'script', 'publish', 'disc'):
            self.browser.click(f'#tab-{panel}')
            self.browser.wait('#long-job [aria-label="Reading the disc"]', 'Reading the disc 0 %')
        self.browser.run('openGate()')
        self.wait_for_hash()
        self.is_gone('#long-job')

    def test_the_bar_shows_the_job_that_the_visible_panel_does_not_show(self) -> None:
        self.browser.run(f'{GATE} globalThis.least = 400000;')
        self.open_files(discs.written(game=discs.game())['game'])
        self.browser.click('#tab-text')
        self.browser.run('Worker.prototype.postMessage = () => {}')
        self.press_in('export', 'Export a table')
        self.browser.wait('#panel-text .progress')
        self.browser.wait('#long-job [aria-label="Reading the disc"]')
        self.browser.click('#tab-disc')
        self.browser.wait(f'#long-job [aria-label="{common.text("textLookingForTexts")}"]')
        self.assertNotIn('Reading the disc', self.browser.text('#long-job'))
        self.browser.click('#tab-script')
        self.browser.wait('#long-job [aria-label="Reading the disc"]')
        self.browser.wait(f'#long-job [aria-label="{common.text("textLookingForTexts")}"]')
        self.browser.run('openGate()')

    def test_a_job_that_is_asked_for_while_another_one_runs_is_refused_with_words(self) -> None:
        self.open_texts(discs.game())
        self.browser.run(GATE)
        self.browser.run('Worker.prototype.postMessage = () => {}')
        self.press_in('export', 'Export a table')
        self.browser.wait('#panel-text .progress')
        self.press_in('export', 'Export a table')
        self.browser.wait('#panel-text .is-busy', 'Another job is running here. Wait until it has finished, or cancel it first.')
        self.press('Cancel')
        self.browser.run('openGate()')
        common.waited(lambda: self.browser.run("return document.querySelector('.is-busy') === null"), 'a job that has ended runs')
