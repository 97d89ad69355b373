"""The page asks about a second image before reading it, closes the open image on request, and says during a drag what a drop will do."""

from pathlib import Path

import common
import discs
from chromium import WIDTHS
from keys import Keys
from pages import HELD_TIMERS, PICKER, UNSEEN, PageTest, patcher

# Counts the bytes of `other.bin` that the page reads itself, and the pieces of it that workers are given.
WATCHED = '''Object.assign(globalThis, { bytes: 0, pieces: 0 });
const { slice } = Blob.prototype, { postMessage } = Worker.prototype;
Blob.prototype.slice = function (from, to, ...given) {
    if (this.name === 'other.bin') bytes += Math.min(to, this.size) - from;
    return slice.call(this, from, to, ...given);
};
Worker.prototype.postMessage = function (message, ...given) {
    pieces += Number(Boolean(message.pieces?.some(it => it.file?.name === 'other.bin')));
    postMessage.call(this, message, ...given);
};'''


class SecondChoice(PageTest):
    stub = PICKER

    def begin(self, first: bytes, second: bytes) -> dict[str, Path]:
        files = discs.written(game=first, other=second, english=discs.script())
        self.open_image(files['game'])
        return files

    def is_asked(self) -> bool:
        return bool(self.browser.run('return document.querySelector("#sheet").open'))

    def buttons(self) -> list[str]:
        self.browser.wait('#sheet', 'Cancel')
        return list(self.browser.run('return [...document.querySelectorAll("#sheet button")].map(it => it.innerText)'))

    # ---- a second image

    def test_a_second_image_is_read_only_after_the_question(self) -> None:
        files = self.begin(discs.game() * 60, discs.game() * 60)
        self.browser.run(WATCHED)
        self.browser.drop('#main', [files['other']])
        self.assertEqual(self.buttons(), ['Repair the open game.bin with this file', 'Repair other.bin from game.bin', 'Compare', 'Open it instead', 'Cancel'])
        self.assertEqual(self.browser.text('#sheet h2'), 'What do you want to do with other.bin?')
        self.assertLess(self.browser.run('return bytes'), 2_000_000)
        self.assertEqual(self.browser.run('return pieces'), 0)
        self.browser.answer('Compare')
        common.waited(lambda: self.browser.run('return pieces > 0'), 'nothing of it is read')

    @common.in_check
    def test_each_answer_does_what_it_says(self) -> None:
        files = self.begin(common.damaged(discs.game(), 40), discs.game())
        self.open_files(files['other'])
        self.browser.answer('Cancel')
        self.open_files(files['other'])
        self.browser.wait('#sheet', 'Compare')
        self.browser.press(Keys.ESCAPE)
        common.waited(lambda: not self.is_asked(), 'Escape closes no sheet')
        self.assertFalse(self.browser.run('return document.querySelector("#second-title").checkVisibility()'))
        for answer, tab in (('Repair', 'repair'), ('Compare', 'compare')):
            self.open_files(files['other'])
            self.browser.answer(answer)
            self.browser.wait('#second-body .tally', 'repaired' if tab == 'repair' else 'differ')
            self.browser.wait(f'[data-tab={tab}][aria-selected=true]')
        self.open_files(files['other'])
        self.browser.answer('Open it instead')
        self.browser.wait('#disc-line .name', 'other.bin')
        self.assertFalse(self.browser.run('return document.querySelector("#second-title").checkVisibility()'))

    def test_of_two_images_the_first_is_open_and_the_second_asked_about(self) -> None:
        files = discs.written(first=discs.game(), second=discs.scratched(), third=discs.game())
        self.browser.drop('#drop', [files['first'], files['second']])
        self.browser.wait('#disc-line .name', 'first.bin')
        self.assertEqual(self.buttons()[0], 'Repair the open first.bin with this file')
        self.browser.drop('#main', [files['third']])
        self.browser.wait('#sheet', 'What do you want to do with third.bin?')
        self.browser.answer('Cancel')
        self.assertFalse(self.is_asked())

    def test_who_repairs_from_another_dump_has_said_what_it_is_for(self) -> None:
        files = self.begin(common.damaged(discs.game(), 40), discs.game())
        self.browser.run('HTMLInputElement.prototype.click = function () {}')
        self.press('Repair from another dump')
        self.open_files(files['other'])
        self.browser.wait('#second-body .tally', 'can be repaired')
        self.assertFalse(self.is_asked())
        self.assertNotIn('Repair from another dump', self.browser.text('#disc-line'))
        # If no file was chosen, the page asks about the next one.
        self.setUp()
        self.open_image(files['game'])
        self.browser.run('HTMLInputElement.prototype.click = function () {}')
        self.press('Repair from another dump')
        self.browser.run('document.querySelector("#files").dispatchEvent(new Event("cancel"))')
        self.browser.drop('#main', [files['other']])
        self.assertEqual(self.buttons()[0], 'Repair the open game.bin with this file')

    def test_an_image_that_was_chosen_to_compare_with_is_compared_at_once(self) -> None:
        files = self.begin(discs.game(), common.damaged(discs.game(), 40))
        self.browser.run('HTMLInputElement.prototype.click = function () {}')
        self.press(common.text('imageCompareWith'))
        self.open_files(files['other'])
        self.browser.wait('#second-body .tally', 'differ')
        self.browser.wait('[data-tab=compare][aria-selected=true]')
        self.assertFalse(self.is_asked())

    # ---- closing

    def close(self) -> None:
        self.press_in('image', 'Close the image')

    def test_a_closed_image_leads_back_to_the_start(self) -> None:
        files = self.begin(discs.game(), discs.game())
        self.open_script(files['english'])
        self.browser.wait('#panel-script .say.good', 'patches match')
        self.close()
        self.browser.wait('#start h1')
        self.assertFalse(self.is_asked())
        for part in ('#tabs', '#disc-line', '#panel-script', '#panel-disc'):
            self.assertFalse(self.browser.run('return document.querySelector(arguments[0]).checkVisibility()', part), part)
        self.assertEqual(self.browser.run('return document.activeElement.id'), 'open-files')
        self.open_image(files['other'])
        self.browser.wait('#disc-line .name', 'other.bin')
        self.browser.click('#tab-script')
        self.browser.wait('#panel-script header', 'New script')

    def test_unsaved_work_is_asked_about_before_an_image_is_closed(self) -> None:
        self.begin(discs.game(), discs.game())
        self.edit(Keys.ARROW_DOWN, 'rebuild 1')
        self.browser.click('#tab-publish')
        self.browser.type('#patcher-title', 'Mine')
        self.close()
        self.browser.wait('#sheet', 'Your script is not saved. Your entries under Publish have not been saved in a patcher yet.')
        self.assertEqual(self.buttons(), ['Save and close', 'Close it anyway', 'Cancel'])
        self.browser.answer('Cancel')
        self.browser.wait('#disc-line .name', 'game.bin')
        self.assertTrue(self.browser.asks_before_leaving())
        self.close()
        self.browser.answer('Close it anyway')
        self.browser.wait('#start h1')
        self.assertFalse(self.browser.asks_before_leaving())

    def test_a_script_is_saved_before_its_image_is_closed(self) -> None:
        self.begin(discs.game(), discs.game())
        self.edit(Keys.ARROW_DOWN, 'rebuild 1')
        self.close()
        self.browser.answer('Save and close')
        self.browser.wait('#start h1')
        saved = self.browser.downloaded('script.txt')
        self.assertEqual(common.waited(saved.read_text, 'the script is empty'), 'cdpatch 1\nrebuild 1')
        self.assertFalse(self.browser.asks_before_leaving())

    def test_what_is_not_saved_with_the_script_is_asked_about(self) -> None:
        self.begin(discs.game(), discs.game())
        self.edit(Keys.ARROW_DOWN, 'rebuild 1')
        self.browser.click('#tab-publish')
        self.browser.type('#patcher-title', 'Mine')
        self.close()
        self.browser.answer('Save and close')
        self.browser.downloaded('script.txt')
        common.waited(lambda: self.buttons() == ['Close it anyway', 'Cancel'], 'the script is offered again')
        self.assertNotIn('script', self.browser.text('#sheet'))
        self.browser.answer('Close it anyway')
        self.browser.wait('#start h1')

    def test_an_image_is_not_closed_while_it_is_saved(self) -> None:
        files = self.begin(discs.game(), discs.game())
        self.open_script(files['english'])
        self.begins()
        self.close()
        self.browser.wait('#messages .say.warn', common.text('imageBeingSaved'))
        self.browser.run('chosen.release()')
        common.waited(lambda: self.browser.run('return chosen.state === "closed"'), 'the save does not end')

    # ---- dragging

    def drag(self, kind: str, files: list[Path]) -> None:
        data = {'items': [], 'files': list(map(str, files)), 'dragOperationsMask': 1}
        self.browser.cdp('Input.dispatchDragEvent', type=kind, x=300, y=300, data=data)

    def says(self, words: str, file: Path) -> None:
        self.browser.run(HELD_TIMERS, 1000)
        for width in WIDTHS:
            self.browser.size(width)
            for kind in ('dragEnter', 'dragOver'):
                self.drag(kind, [file])
            self.browser.wait('#drop-says', words)
            self.assertLessEqual(self.browser.run(UNSEEN, '#drop-says'), 0, width)
            self.drag('dragCancel', [file])
            self.browser.run('endTimers()')
            self.assertTrue(self.browser.run('return document.querySelector("#drop-says").hidden'), 'it says it still')

    def test_what_a_drop_does_is_said_before_it(self) -> None:
        files = discs.written(game=discs.game(), other=discs.scratched(), english=discs.script())
        self.says('Drop it to open it: a disc image, its patch, or both.', files['game'])
        self.open_image(files['game'])
        self.says('An image: you can repair game.bin from it, compare the two, or open it instead.', files['other'])
        self.says('A script: it is opened and checked.', files['english'])
        self.open_script(files['english'])
        self.says('A script: it is opened in place of the one that is open, and checked.', files['english'])
        self.browser.wait('#panel-script .say.good')
        self.begins()
        self.says('An image is being saved. Nothing else can be opened until that is done.', files['other'])
        self.browser.run('chosen.release()')
        self.open_patcher(patcher(discs.game(), discs.game(), discs.script()))
        self.browser.wait('#player h1')
        self.says('Drop your disc image: it is checked, and not changed.', files['game'])
