"""Accessibility: where the focus goes after a redraw and after a dialog or a note closes, and jobs by keyboard alone. tests/page/test_states.py
tests the rest."""

from collections.abc import Callable

import discs
from common import in_check, waited
from keys import Keys
from pages import BUTTON, HELD, HELD_TIMERS, UNSEEN
from states import States

# The element that has the focus, by its name for screen readers.
HAS_FOCUS = 'const it = document.activeElement; return it === document.body ? "" : it.id || it.innerText.replace(/\\s+/g, " ").trim()'


# The point where a finger presses a job of the first screen, beside the note.
BESIDE = '''const { bottom } = document.querySelector('[data-aim=play]').getBoundingClientRect(), note = document.querySelector(':popover-open');
    scrollBy(0, bottom - note.getBoundingClientRect().top + 20);
    const { left, top } = document.querySelector('[data-aim=play]').getBoundingClientRect();
    return [left + 40, top + 20]'''


# How far the first matching element is below the top of the window, in whole pixels.
TOP = 'return Math.round(document.querySelector(arguments[0]).getBoundingClientRect().top)'


# Counts how often the line under the bytes is spoken.
WATCHED = '''globalThis.spokenLines = 0;
    new MutationObserver(() => { spokenLines += 1; }).observe(document.querySelector('#panel-disc .card > div > [aria-live=polite]'), { childList: true })'''


class Access(States):
    def has_focus(self) -> str:
        return str(self.browser.run(HAS_FOCUS))

    def press_by_key(self, label: str) -> None:
        """Presses the first button whose label begins with this text, by the keyboard."""
        self.browser.run(f'const it = (() => {{ {BUTTON} }})(); it.focus()', label)
        self.browser.press(Keys.ENTER)

    def reach(self, label: str, *keys: str) -> None:
        """Presses Tab until a control has the focus whose id or label begins with this text, and then other keys."""
        for _ in range(60):
            self.browser.press(Keys.TAB)
            names = self.browser.run("return document.activeElement.matches('body') ? [] : [document.activeElement.id, document.activeElement.innerText.trim()]")
            if any(name.startswith(label) for name in names):
                return self.browser.press(*keys)
        raise AssertionError(f'Tab does not reach {label}')

    @in_check
    def test_a_text_is_translated_by_the_keyboard_alone(self) -> None:
        self.begin(discs.game())
        self.reach('tab-disc', Keys.ARROW_RIGHT)
        self.browser.wait('#panel-text')
        self.reach('find-text', 'スタート', Keys.ENTER)
        self.wait_for_focus('#new-text')
        self.browser.press('Start', Keys.ENTER)
        self.browser.wait('.hits', 'in the script, line 2')
        self.reach('tab-text', Keys.ARROW_RIGHT)
        self.browser.wait('#panel-script')
        self.reach('Check', Keys.ENTER)
        self.browser.wait('#panel-script .side', 'match')
        self.reach('Apply and save', Keys.ENTER)
        self.browser.wait('#panel-script .side', 'Saved: ')
        self.assertIn(b'Start', self.chosen_bytes()[discs.first_block() * 2352:][:2352])

    def test_dumps_are_compared_and_repaired_by_the_keyboard_alone(self) -> None:
        self.to_second_asked()
        self.reach('Compare', Keys.ENTER)
        self.browser.wait('#second-body .tally', 'differs')
        self.reach('▾ /DATA/MSG00.DAT', Keys.ENTER)
        waited(lambda: self.has_focus().startswith('▸ /DATA/MSG00.DAT'), 'the file is not closed, or has lost the focus')
        self.reach('Compare', Keys.ARROW_LEFT)
        self.browser.wait('.tally', 'can be repaired')
        self.reach('Save repaired image', Keys.ENTER)
        self.browser.wait('#second-body .say.good', 'Saved: ')
        self.assertEqual(self.chosen_bytes(), discs.game())

    def test_the_focus_goes_to_the_job_of_a_second_image_and_stays_where_it_is_moved(self) -> None:
        for moved in (False, True):
            self.setUp()
            self.to_second_asked()
            self.browser.run(HELD)
            self.browser.press(Keys.ENTER)
            self.browser.wait('#second-body .progress')
            self.wait_for_focus('#second-body')
            if moved:
                self.browser.focus('#map')
            self.browser.run('letGo()')
            self.browser.wait('.tally', 'can be repaired')
            self.assertEqual(self.has_focus(), 'map' if moved else 'second-body')
        self.setUp()
        self.to_second_repair()
        labels: list[str] = []
        while not labels or labels[-1] == 'Show the blocks':
            self.browser.press(Keys.TAB)
            labels.append(self.has_focus())
        self.assertEqual(labels[-1], 'Save repaired image…')

    @in_check
    def test_a_menu_is_used_by_the_keyboard_and_gives_the_focus_back(self) -> None:
        self.to_disc_menu()
        state = 'const it = document.activeElement; return [it.dataset.menu, it.ariaExpanded, document.querySelector("#menu").hidden]'
        self.assertEqual(self.has_focus(), '☐ Offsets in hexadecimal')
        for keys, due in ((Keys.ARROW_DOWN, 'Copy as hex'), (Keys.END, 'Copy as text'), (Keys.ARROW_DOWN, '☐ Offsets in hexadecimal')):
            self.browser.press(keys)
            self.assertEqual(self.has_focus().split(' Copied')[0], due)
        self.browser.press(Keys.ESCAPE)
        self.sees(['sector', 'false', True], state)
        self.browser.press(Keys.ENTER, Keys.ENTER)
        self.sees(['sector', 'false', True], state)
        self.browser.press(Keys.ENTER, Keys.TAB)
        self.sees(True, 'return document.querySelector("#menu").hidden && !document.activeElement.matches("#menu *, [data-menu], body")')
        self.browser.click('[data-menu=sector]')
        self.browser.click('#sector-title')
        self.sees(True, 'return document.querySelector("#menu").hidden')

    def test_the_first_finding_and_the_field_to_find_a_text_get_the_focus(self) -> None:
        self.begin(discs.scratched())
        self.press('Go to the first finding')
        self.wait_for_focus('.hex')
        self.setUp()
        self.begin(discs.game())
        self.press('Find a text')
        self.wait_for_focus('#find-text')

    def test_the_line_under_the_bytes_is_spoken_after_a_pause(self) -> None:
        self.begin(discs.game())
        self.browser.click('#tab-disc')
        self.go_into(discs.first_block())
        spoken = "return document.querySelector('#panel-disc .card > div > [aria-live=polite]').textContent"
        waited(lambda: 'offset 0' in self.browser.run(spoken), 'the line is not spoken')
        self.browser.run(WATCHED)
        self.browser.run(HELD_TIMERS, 1000)
        self.browser.press(*[Keys.ARROW_RIGHT] * 6)
        self.browser.wait('#panel-disc .foot', 'offset 6')
        self.browser.run('endTimers()')
        self.assertIn('offset 6', self.browser.run(spoken))
        self.assertEqual(self.browser.run('return spokenLines'), 1)
        self.assertEqual(self.browser.run("return document.querySelector('#panel-disc .foot').closest('[aria-live]')"), None)

    def test_a_file_is_extracted_by_the_keyboard_alone(self) -> None:
        self.begin(discs.game())
        self.reach('▾ /', Keys.ARROW_DOWN, Keys.ENTER)
        self.browser.wait('#findings .row b', '/README.TXT')
        self.reach('Extract', Keys.ENTER)
        self.browser.wait('#findings .say.good', 'Saved: README.TXT')
        self.browser.downloaded('README.TXT').unlink()

    def test_a_patcher_is_used_by_the_keyboard_alone(self) -> None:
        self.to_player_right()
        self.reach('Patch and save', Keys.ENTER)
        self.browser.wait('#saved', 'Saved:')

    def test_a_button_that_disappears_keeps_the_focus_on_its_part(self) -> None:
        files = discs.written(game=discs.game(), english=discs.script(), refused=discs.refused(), fault='cdpatch 1\nset 3 2105 41\n')
        self.open_image(files['game'])
        self.open_script(files['fault'])
        self.press_by_key('Block ')
        self.wait_for_focus('.editor textarea')
        self.browser.press(Keys.END, *' # typed')
        self.open_files(files['refused'])
        self.browser.wait('#messages .say', 'Bring it back')
        self.press_by_key('Bring it back')
        self.wait_for_focus('.editor textarea')
        self.to_player_right()
        self.press_by_key('Open this in the full cdpatch')
        self.wait_for_focus('#tab-script')

    def test_the_focus_stays_on_what_is_shown(self) -> None:
        self.begin(discs.game())
        self.search('スタート')
        self.browser.wait('#panel-text .hits mark')
        self.browser.type('#new-text', 'Start')
        self.browser.press(Keys.ENTER)
        self.browser.wait('.hits', 'in the script, line 2')
        self.assertEqual(self.has_focus(), 'new-text')

    def test_the_focus_goes_back_when_a_sheet_closes(self) -> None:
        self.to_close_asked()
        self.browser.press(Keys.ESCAPE)
        ends: list[Callable[[], None]] = [lambda: self.browser.press(Keys.ESCAPE), lambda: self.browser.answer('Cancel')]
        for end in ends:
            self.press_by_key('⋯')
            self.browser.press(Keys.ARROW_DOWN, Keys.ENTER)
            self.browser.wait('#sheet', 'Close it anyway')
            end()
            waited(lambda: self.has_focus() == '⋯', 'the focus does not go back')

    def test_the_focus_stays_in_a_sheet_while_it_asks(self) -> None:
        self.to_second_asked()
        main, swap = 'Repair the open Hoshizora Tantei (Japan).bin with this file', 'Repair Hoshizora Tantei (Japan) (Alt).bin from Hoshizora Tantei (Japan).bin'
        self.assertEqual(self.has_focus(), main)
        self.assertEqual(self.browser.tab_stops(8), [swap, 'Compare', 'Open it instead', 'Cancel', main])

    def test_the_focus_goes_back_to_the_word_when_its_note_closes(self) -> None:
        self.begin(discs.game(), discs.script())
        self.browser.click('#tab-disc')
        for css in ('#panel-disc .term', '[popovertarget=keys]', '[popovertarget=about]'):
            self.browser.run('document.querySelector(arguments[0]).focus()', css)
            label = self.has_focus()
            self.browser.press(Keys.ENTER)
            self.browser.wait(':popover-open')
            self.browser.press(Keys.ESCAPE)
            self.sees(False, 'return document.querySelector(":popover-open") !== null')
            self.assertEqual(self.has_focus(), label)

    def test_a_note_has_a_button_that_closes_it(self) -> None:
        for width in (360, 1280):
            self.browser.size(width, 740)
            for name in ('about', 'keys', 'words'):
                self.browser.click(f'[popovertarget={name}]:not([popovertargetaction])')
                self.browser.click(f'#{name} .shut')
                self.sees(False, 'return document.querySelector(":popover-open") !== null')

    def test_a_finger_beside_a_note_closes_it_and_presses_nothing(self) -> None:
        browser = self.browser
        browser.run('globalThis.asked = 0; HTMLInputElement.prototype.click = () => { asked += 1; }')
        browser.size(360, 740)
        browser.click('[popovertarget=about]')
        beside = browser.run(BESIDE)
        for asked in (0, 1):
            browser.touch(beside)
            waited(lambda: not browser.run('return document.querySelector(":popover-open") !== null'), 'the note stays')
            waited(lambda: browser.run('return asked') == asked, f'the job is pressed, and not {asked} times')

    def test_a_panel_begins_at_its_top_on_a_phone(self) -> None:
        browser = self.browser
        self.to_disc_replaced()
        browser.size(360, 740)
        self.press('Open Script')
        self.wait_for_focus('#tab-script')
        self.assertIn(browser.run(TOP, '#panel-script'), range(370))
        self.find()
        self.press('Open the sector')
        self.wait_for_focus('.hex')
        self.assertLessEqual(browser.run(UNSEEN, '.hex i.at'), 0)
