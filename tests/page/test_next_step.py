"""The next step: a script and its image are checked at once, and the result is visible together with the button that saves."""

from pathlib import Path

import common
import discs
from chromium import WIDTHS
from pages import GATE, UNSEEN, PageTest, applied
from sector import SYNC
from states import another

SAID = '#panel-script .say'
ALL_FIT = 'english.txt: 4 of 6 patches match game.bin, 2 have no old bytes to compare.'


# The labels of the main buttons beside the editor.
MAIN = 'return [...document.querySelectorAll("#panel-script .side .main")].map(it => it.innerText)'


class NextStep(PageTest):
    def sign(self) -> str:
        """The picture of the verdict that Check gives."""
        return str(self.browser.run('return document.querySelector("#panel-script .verdict use").getAttribute("href")'))

    def files(self) -> dict[str, Path]:
        return discs.written(game=discs.game(), scratched=discs.scratched(), english=discs.script(), refused=discs.refused())

    @common.in_check
    def test_an_image_and_its_script_are_checked_at_once(self) -> None:
        files = self.files()
        for names in (('game', 'english'), ('english', 'game')):
            self.setUp()
            self.browser.drop('#drop', [files[name] for name in names])
            self.browser.wait(f'{SAID}.good', ALL_FIT)
            self.assertEqual(self.focused(), 'Check: Apply and save…')
        self.press('Apply and save')
        self.assertEqual(self.browser.downloaded('game (patched).bin').read_bytes(), applied(files['game'], files['english'])[2])

    def test_a_script_that_is_dropped_on_an_open_image_is_checked_at_once(self) -> None:
        files = self.files()
        self.open_image(files['game'])
        self.browser.drop('#main', [files['english']])
        self.browser.wait(f'{SAID}.good', ALL_FIT)
        self.browser.click('#tab-disc')
        self.browser.drop('#main', [files['refused']])
        self.browser.wait(f'{SAID}.warn', 'refused.txt: 4 of 8 patches match game.bin, 2 do not.')

    def test_a_script_that_is_opened_is_read_drawn_and_checked_in_turns_of_their_own(self) -> None:
        files = self.files()
        self.open_image(files['game'])
        self.browser.run("""globalThis.turns = [];
            const { setTimeout } = globalThis;
            const seen = () => {
                const [name, bar] = ['header', '.side .progress'].map(css => document.querySelector(`#panel-script ${css}`));
                return `${name.textContent.includes('english.txt') ? 'drawn' : 'read'}${bar ? ', checked' : ''}`;
            };
            globalThis.setTimeout = (call, wait, ...given) => setTimeout(() => {
                if (wait === undefined) turns.push(seen());
                call();
            }, wait, ...given)""")
        self.open_script(files['english'])
        self.browser.wait(f'{SAID}.good', ALL_FIT)
        turns = self.browser.run('return turns')
        self.assertEqual(turns[:4], ['read', 'read', 'drawn', 'drawn, checked'])
        self.assertEqual({*turns[4:]}, {'drawn, checked'})

    def test_the_characters_of_an_encoding_are_there_before_lines_are_drawn_with_their_texts(self) -> None:
        self.browser.run("""globalThis.drawn = [];
            const { TextDecoder } = globalThis;
            globalThis.TextDecoder = function (label, ...given) {
                const name = document.querySelector('#panel-script header').textContent;
                if (label === 'shift_jis') drawn.push(name.includes('english.txt'));
                return new TextDecoder(label, ...given);
            }""")
        self.open_script(self.files()['english'])
        self.assertEqual({*self.browser.run('return drawn')}, {False})

    def test_an_image_that_is_opened_for_a_script_is_checked_at_once(self) -> None:
        files = self.files()
        self.browser.drop('#drop', [files['english']])
        self.browser.wait('#panel-script .side', 'Open the image that this script patches.')
        self.open_files(files['game'])
        self.browser.wait(f'{SAID}.good', ALL_FIT)

    def test_how_many_changes_fit_is_said(self) -> None:
        files = {**self.files(), **discs.written(one='cdpatch 1\nrebuild 1\n', none='cdpatch 1\nset 9999 0 41\n')}
        self.open_image(files['scratched'])
        for name, said in (('refused', 'refused.txt: 4 of 8 patches match scratched.bin, 3 do not.'), ('one', 'cdpatch cannot tell whether the patch of one.txt matches scratched.bin.'),
                           ('none', 'none.txt: 1 patch, which does not match scratched.bin.')):
            self.open_files(files[name])
            self.browser.wait(SAID, said)
            self.assertIn(said, self.browser.text('#announced'))

    def test_why_no_change_fits_is_said_and_nothing_is_offered_to_be_saved(self) -> None:
        audio = SYNC[::-1] * 196
        files = discs.written(game=common.damaged(discs.game(), 60) + audio, hurt='cdpatch 1\nset 60 0 41 was 00\n', far='cdpatch 1\nset 9999 0 41\n',
                              sound=f'cdpatch 1\nset {len(discs.game()) // 2352} 0 41\n', other='cdpatch 1\nset 61 0 4141 was 9F9F\n',
                              some='cdpatch 1\nset 60 0 41\nset 61 0 42\nset 61 1 4343 was 9F9F\nset 61 9 41 was 00\n')
        self.open_image(files['game'])
        for name, why in (('hurt', '1 of 1 place to patch is damaged. Repair the image first, or tick “Patch damaged sectors too”.'),
                          ('far', '1 of 1 place to patch is not in this image. Another track, or another base?'),
                          ('sound', '1 of 1 place to patch is not in a Mode 1 sector here. Only Mode 1 sectors are patched.'),
                          ('other', '1 of 1 place to patch contains different bytes. Another release, another disc, or another base?')):
            self.open_script(files[name])
            self.browser.wait(f'{SAID}.bad', why)
            shown = self.browser.text('#panel-script .side')
            for words in ('Apply and save', 'Saves a new image', *([] if name == 'other' else ['Another release'])):
                self.assertNotIn(words, shown)
        self.open_script(files['some'])
        for row, why in enumerate(('1 of 4 places to patch contains different bytes.', '1 of 4 places to patch is damaged. Repair the image first'), 1):
            self.browser.wait(f'{SAID}.warn .reasons li:nth-child({row})', why)
        self.browser.wait(f'{SAID}.warn', 'A new image can be saved without those patches.')
        self.browser.wait(f'{SAID}.warn .btn', 'Save with the other 2 patches…')

    def test_a_script_of_which_nothing_shows_that_it_fits_is_not_presented_as_one_that_does(self) -> None:
        files = discs.written(other=another(), game=discs.game(), english=discs.script(), refused=discs.refused(),
                              unnamed='cdpatch 1\nfill 20 0 4 20\nrebuild 21\n', few='cdpatch 1\nfill 20 0 4 20\nset 99999 0 41\n')
        cases = [('other', 'english', 'bad', 'None of the 4 patches of english.txt that can be checked matches other.bin.', 'Save with the other 2 patches…', 'Go to line 4'),
                 ('other', 'unnamed', 'warn', 'cdpatch cannot tell whether the 2 patches of unnamed.txt match other.bin.', 'Apply and save…', 'Check again'),
                 ('other', 'few', 'warn', 'cdpatch cannot tell whether the 2 patches of few.txt match other.bin.', 'Save with the other patch…', 'Go to line 3'),
                 ('game', 'refused', 'warn', 'refused.txt: 4 of 8 patches match game.bin, 2 do not.', 'Save with the other 6 patches…', 'Go to line 11')]
        for image, script, tone, words, save, focused in cases:
            with self.subTest(script):
                self.setUp()
                self.browser.drop('#drop', [files[image], files[script]])
                self.browser.wait(f'{SAID}.{tone}', words)
                self.browser.wait(f'{SAID}.{tone} .btn:not(.main)', save)
                self.assertEqual(self.focused(), f'Check: {focused}')
                self.assertEqual(self.browser.run(MAIN), [it for it in [focused] if it.startswith('Go to line')])
                self.assertEqual(self.sign(), {'warn': '#icon-warn', 'bad': '#icon-cross'}[tone])
                if image == 'other':
                    self.assertNotIn('good-ink', self.browser.run("return document.querySelector('#panel-script .side').innerHTML"))

    def test_an_image_that_holds_all_that_the_script_writes_is_called_patched(self) -> None:
        files = self.files()
        patched = discs.written(patched=applied(files['game'], files['english'])[2])['patched']
        self.browser.drop('#drop', [patched, files['english']])
        self.browser.wait(f'{SAID}.good', 'patched.bin is patched already.')
        self.assertIn('It already contains what all 6 patches of english.txt write.', self.browser.text(f'{SAID}.good'))
        self.assertNotIn('Apply and save', self.browser.text('#panel-script .side'))
        self.assertEqual((self.browser.run(MAIN), self.sign()), ([], '#icon-tick'))
        self.assertIn('is patched already', self.browser.text('#announced'))

    def test_what_was_found_and_its_button_are_seen_at_every_width(self) -> None:
        files = self.files()
        for width in WIDTHS:
            self.browser.size(width)
            self.setUp()
            self.browser.drop('#drop', [files['game'], files['english']])
            self.browser.wait(f'{SAID}.good', ALL_FIT)
            self.assertLessEqual(self.browser.run(UNSEEN, f'{SAID}.good .btn'), 0, width)
            self.press('Apply and save')
            self.wait_for_saved()
            self.assertLessEqual(self.browser.run(UNSEEN, '#panel-script .side .say'), 0, width)

    def wait_for_saved(self) -> None:
        """Waits until the image was saved and its hashes are known."""
        saved = self.browser.downloaded('game (patched).bin')
        self.browser.wait('#saved-sha1', common.sha1(saved.read_bytes()))
        saved.unlink()

    def test_after_a_disc_was_saved_its_cue_sheet_is_next(self) -> None:
        files = self.files()
        sheet, image = files['game'].with_suffix('.cue'), files['game']
        cases: list[tuple[list[Path], dict[str, str]]] = [([image], {}), ([sheet, image], {}), ([sheet, image], {'song': 'AUDIO'})]
        for names, more in cases:
            with self.subTest(names=len(names), more=more):
                sheet.write_text(discs.sheet_of(game=discs.DATA, **more))
                self.setUp()
                self.browser.drop('#drop', [*names, files['english']])
                self.browser.wait(f'{SAID}.good', ALL_FIT)
                self.press('Apply and save')
                self.wait_for_saved()
                side = self.browser.text('#panel-script .side')
                self.assertIn('Your emulator opens a cue sheet', side)
                self.assertEqual('It is for a disc of one track.' in side, sheet not in names)
                self.assertEqual('Copy this file to the same folder too, because the cue sheet needs it: song.bin.' in side, more != {})
                self.assertEqual(self.browser.run("return document.querySelector('#panel-script .side .stack > .row .btn').innerText"), 'Save a cue sheet…')
                self.press('Save a cue sheet')
                saved = self.browser.downloaded('game (patched).cue')
                common.waited(lambda: saved.read_text() == discs.sheet_of(**{'game (patched)': discs.DATA, **more}), 'another cue sheet')
                self.browser.wait('#panel-script .side', 'Saved. Now open game (patched).cue in your emulator.')
                self.assertEqual(self.focused(), 'Check: Save a cue sheet…')

    def test_after_a_disc_that_may_have_more_tracks_was_saved_no_cue_sheet_is_made_up(self) -> None:
        music = bytes(range(1, 253)) * 28 * 20
        files = discs.written(game=discs.game() + music, english=discs.script())
        self.browser.drop('#drop', [files['game'], files['english']])
        self.browser.wait(f'{SAID}.good', ALL_FIT)
        self.press('Apply and save')
        self.wait_for_saved()
        side = self.browser.text('#panel-script .side')
        self.assertIn('it still names that image.', side)
        self.assertNotIn('cue sheet', side)
        self.assertEqual(self.browser.run("return document.querySelector('#panel-script .side .stack > .row .btn').innerText"), 'Open the new image')
        self.assertEqual(self.focused(), 'Check: Back to Check')

    def test_a_script_is_checked_after_the_check_of_another(self) -> None:
        files = self.files()
        self.open_image(files['game'])
        self.browser.run(f'{GATE} held = 0')
        self.open_script(files['refused'])
        self.browser.wait(SAID, 'refused.txt: 4 of 8 patches match game.bin')
        self.browser.run('Object.assign(globalThis, { reads: 0, held: Infinity, least: 0 })')
        self.press('Check again')
        self.browser.wait('#panel-script .side .progress')
        common.waited(lambda: self.browser.run('return reads') > 0, 'nothing is read')
        self.browser.run('held = 0')
        self.open_script(files['english'])
        # The check of the second script is requested when the script is drawn, some turns later.
        self.browser.run('await new Promise(done => setTimeout(done, 500)); openGate()')
        self.browser.wait(f'{SAID}.good', ALL_FIT)
