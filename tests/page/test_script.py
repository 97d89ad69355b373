"""The panel Script, compared with the program: typing, faults, Check, Apply and save, and the undo script."""

import zlib
from pathlib import Path

import common
import discs
from keys import Keys
from messages import MESSAGES
from pages import BUTTON, GATE, PICKER, PageTest, applied

# Counts the characters that the page encodes, the texts it decodes, the elements it creates, and the pieces of files it reads.
COUNTED = '''globalThis.counted = {};
const count = (owner, name, key, size) => {
    const real = owner[name];
    owner[name] = function (...given) {
        counted[key] += size(...given);
        return real.apply(this, given);
    };
};
count(TextEncoder.prototype, 'encode', 'characters', text => text.length);
count(TextDecoder.prototype, 'decode', 'texts', () => 1);
count(Document.prototype, 'createElement', 'elements', () => 1);
count(Blob.prototype, 'arrayBuffer', 'sectors', () => 1);'''


class Script(PageTest):
    @common.in_check
    def test_check_says_what_the_program_prints(self) -> None:
        files = self.open_both(discs.scratched(), discs.refused())
        self.press('Check')
        self.browser.wait('#panel-script .verdict', 'do not')
        _, text = common.run_program('check', files['game'], files['english'])
        self.assertEqual(self.browser.run('return document.querySelector("pre.log").textContent'), text)
        self.assertNotIn('status', self.browser.text('#panel-script .side'))
        lines = files['english'].read_text().splitlines()
        said = {}
        for line in text.split('\n')[:-2]:
            where, outcome = line.split(': ', 1)
            is_compared = ' was ' in lines[int(where.split()[1]) - 1]
            said[where] = outcome.replace('applied', 'matches' if is_compared else 'not compared')
        shown = {f"line {row.split('|')[0]}": row.split('|')[2] for row in self.rows() if row.split('|')[2]}
        self.assertEqual(shown, said)
        self.assertIn('english.txt: 4 of 8 patches match game.bin, 3 do not.', self.browser.text('#panel-script .side'))

    def texts(self) -> list[str]:
        """The texts that the drawn lines of the editor set."""
        return list(self.browser.run("return [...document.querySelectorAll('.editor .texts')].map(it => it.textContent)"))

    def test_each_line_has_its_old_and_its_new_text_beside_it(self) -> None:
        files = discs.written(game=discs.game(), english=discs.script() + f'set {discs.first_block()} 600 4142\n')
        self.open_image(files['game'])
        self.open_script(files['english'])
        self.assertEqual(self.texts(), ['', '', '', 'スタート → Start␣␣␣', 'つづきから → Continue␣␣', 'はじめから → New game␣␣', '設定 → Set.', '', '',
                                        ' → AB', ''])
        for width, below in ((1280, False), (360, True)):
            self.browser.size(width)
            tops = 'return [".src", ".texts"].map(it => Math.round(document.querySelector(`.editor [data-line="4"] ${it}`).getBoundingClientRect().top))'
            common.waited(lambda: (lambda it: it[1] > it[0])(self.browser.run(tops)) == below, f'at {width} the texts stand elsewhere')
        for encoding, text in (('EUC-JP', ' → Start␣␣␣'), ('hex', '')):
            self.browser.click('#tab-text')
            self.browser.choose('#find-encoding', encoding)
            self.browser.click('#tab-script')
            self.assertEqual(self.texts()[3][-len(text):] if text else self.texts()[3], text, encoding)
            self.assertNotIn('スタート', self.texts()[3])

    def test_a_line_fits_or_does_not_before_it_is_saved(self) -> None:
        self.open_both(discs.game(), discs.refused())
        self.press('Check')
        self.browser.wait('#panel-script .verdict', '4 of 8 patches match game.bin, 2 do not.')
        words = [row.split('|')[2] for row in self.rows() if row.split('|')[2]]
        self.assertEqual([it.split(':')[0] for it in words], ['matches'] * 4 + ['not compared'] * 2 + ['refused'] * 2)
        shown = self.browser.text('#panel-script .two')
        for word in ('applied', 'status'):
            self.assertNotIn(word, shown)
        self.press_in('save', 'Output of cdpatch check (dry run: nothing is saved)')
        self.browser.wait('pre.log', 'refused 2')
        self.wait_for_focus('pre.log')
        self.press('Check again')
        self.browser.wait('pre.log', 'refused 2')
        self.press('Go to line')
        self.browser.wait('.explain', f'It is refused: old bytes differ at block {discs.first_block()} offset 600.')
        self.press('line 12')
        self.browser.wait('.explain', 'It is refused: no block 99999')

    @common.in_check
    def test_apply_saves_what_the_program_writes(self) -> None:
        files = self.open_both(discs.scratched() + b'tail', discs.refused())
        self.press_save()
        saved = self.browser.downloaded('game (patched).bin')
        status, text, out = applied(files['game'], files['english'])
        self.assertEqual(saved.read_bytes(), out)
        self.browser.wait('#panel-script .side', 'without 3 of 8 patches')
        self.assertEqual(self.browser.run('return document.querySelector("pre.log").textContent'), text)
        self.press_in('save', 'Output of cdpatch apply')
        self.browser.wait('[aria-label=Log] h2', 'Output of cdpatch apply')
        self.browser.click('[aria-label=Log] [aria-label=Close]')
        self.is_gone('pre.log')
        self.assertEqual(self.focused().split('\n')[0], 'Script: Save…')
        self.browser.wait('#saved-sha1', common.sha1(out))
        self.assertEqual(self.browser.text('#saved-crc32'), f'{zlib.crc32(out):08x}')
        one_line = 'return document.querySelector("#saved-sha1").offsetHeight === document.querySelector("#saved-crc32").offsetHeight'
        self.assertTrue(self.browser.run(one_line))
        self.press('Open the new image')
        self.browser.wait('#disc-line .name', 'game (patched).bin')
        self.browser.wait('#disc-line .sha1', common.sha1(out))
        self.assertEqual((status, self.browser.attempts()), (1, []))

    def test_one_cue_sheet_names_each_track_that_was_saved(self) -> None:
        files = discs.written(first=common.image_of([b'first'] * 20), music=bytes(range(256)) * 2352, last=common.image_of([b'last'] * 20, 500),
                              both='cdpatch 1\nset 3 0 46 was 66\nset 503 0 4C was 6C\n')
        sheet = files['both'].with_name('game.cue')
        sheet.write_text(discs.sheet_of(first=discs.DATA, music='AUDIO', last=discs.DATA))
        self.open_files(sheet, *[files[name] for name in ('first', 'music', 'last')])
        self.wait_for_hash()
        self.open_script(files['both'])
        self.press_save()
        self.browser.downloaded('first (patched).bin')
        self.browser.choose('#disc-line select', '3')
        self.browser.wait('#disc-line .name', 'last.bin')
        self.press_save()
        self.browser.downloaded('last (patched).bin')
        self.browser.wait('#panel-script .side', 'The cue sheet also names files that you saved before: first (patched).bin')
        self.press('Save a cue sheet')
        saved = self.browser.downloaded('game (patched).cue')
        wanted = sheet.read_text().replace('first.bin', 'first (patched).bin').replace('last.bin', 'last (patched).bin')
        self.assertEqual(common.waited(saved.read_text, 'the cue sheet is empty'), wanted)

    def test_carry_patches_damaged_sectors_too(self) -> None:
        box = "return document.querySelector('#panel-script input[type=checkbox]') !== null"
        self.open_both(discs.game(), discs.script())
        self.press('Check')
        self.browser.wait('#panel-script .verdict', 'match')
        self.assertFalse(self.browser.run(box), 'carry is offered for a sound image')
        self.setUp()
        files = self.open_both(discs.scratched(), discs.script())
        self.press('Check')
        self.browser.wait('#panel-script .verdict', ', 1 does not.')
        self.browser.click('#panel-script input[type=checkbox]')
        self.press_save()
        saved = self.browser.downloaded('game (patched).bin')
        status, _, out = applied(files['game'], files['english'], '--carry')
        self.assertEqual((status, saved.read_bytes()), (0, out))

    def test_a_saved_file_that_is_dropped_again_is_checked(self) -> None:
        files = self.open_both(discs.game(), discs.script())
        self.press_save()
        saved = self.browser.downloaded('game (patched).bin')
        self.browser.wait('#saved-sha1', common.sha1(saved.read_bytes()))
        self.browser.drop('#panel-script', [saved])
        self.browser.wait('#panel-script .say', 'Correct: game (patched).bin')
        self.assertNotIn('Keep this page open', self.browser.text('#panel-script .side'))
        saved.write_bytes(saved.read_bytes()[:-1])
        self.browser.drop('#panel-script', [saved])
        self.browser.wait('#panel-script .say', 'saving did not finish')
        saved.write_bytes(applied(files['game'], files['english'])[2])
        self.browser.drop('#panel-script', [saved])
        self.press('Open it')
        self.browser.answer('Compare')
        self.browser.wait('#second-title', 'game (patched).bin')

    def test_a_download_that_is_complete_is_not_asked_about(self) -> None:
        self.open_both(discs.game(), discs.script())
        self.press_save()
        self.browser.downloaded('game (patched).bin').unlink()
        self.browser.wait('#panel-script .side h2', 'Saving by your browser')
        self.assertTrue(self.browser.asks_before_leaving())
        self.press('The download is complete')
        self.browser.wait('#panel-script .say.good', 'Saved: game (patched).bin')
        self.assertFalse(self.browser.asks_before_leaving())

    def test_what_was_saved_makes_way_for_check_if_the_script_changes(self) -> None:
        files = discs.written(game=discs.game(), english=discs.script(), other='cdpatch 1\nrebuild 1\n')
        self.open_image(files['game'])
        self.open_script(files['english'])
        for typed in (False, True):
            self.press_save()
            self.browser.downloaded('game (patched).bin').unlink()
            self.browser.wait('#panel-script .side h2', 'Saving by your browser')
            if typed:
                self.browser.click('.editor textarea')
                self.browser.press('# ')
            else:
                self.open_script(files['other'])
            self.browser.wait('#panel-script .side h2', 'Check')

    def test_a_saved_file_is_not_judged_before_the_sum_of_the_image_is_known(self) -> None:
        self.open_both(discs.game(), discs.script())
        self.browser.run(f'{GATE} Object.assign(globalThis, {{ held: 1, least: {len(discs.game())} }})')
        self.press_save()
        self.browser.drop('#panel-script', [self.browser.downloaded('game (patched).bin')])
        common.waited(lambda: self.browser.run('return globalThis.reads') == 2, 'the dropped file is not read')
        self.browser.run('openGate()')
        self.browser.wait('#panel-script [role=status] .say', 'Correct: game (patched).bin')

    @common.in_check
    def test_a_fault_is_said_in_the_words_of_the_program_with_help(self) -> None:
        script = 'cdpatch 1\nset 26 0 537 was 8358\nset 26 2105 41 was 42\nreplace 26 0 41\n'
        files = discs.written(game=discs.game(), faulty=script)
        self.open_image(files['game'])
        self.open_script(files['faulty'])
        faults = [MESSAGES[name] for name in ('bad_hex', 'bad_offset', 'unknown_verb')]
        self.assertEqual([row.split('|')[2] for row in self.rows()], ['', *faults, ''])
        _, text = common.run_program('check', files['game'], files['faulty'])
        self.assertIn(faults[0], text)
        self.assertIn('An odd number of digits: 3. Two digits make one byte.', self.browser.text('.editor'))
        self.assertIn('3 lines have an error', self.browser.text('#panel-script .side'))
        self.assertIn('The lines are 2, 3 and 4.', self.browser.text('#panel-script .side'))
        self.assertTrue(self.is_off('Check') and self.is_off('Apply and save'))
        self.press('Block 27 offset 57?')
        self.browser.wait('#panel-script header .tag', '2 errors')
        self.assertIn('set 27 57 41 was 42', self.script_text())

    def test_a_line_that_needs_version_2_mends_the_head_line(self) -> None:
        self.open_script(discs.written(old='# mine\ncdpatch 1\nrebuild 1\naddress 7 00:02:07\n')['old'])
        self.press('Change it to “cdpatch 2”')
        self.browser.wait('#panel-script header .tag:not(.bad)', '2 patches, script version 2')
        self.assertEqual(self.script_text(), '# mine\ncdpatch 2\nrebuild 1\naddress 7 00:02:07\n')

    @common.in_check
    def test_keys_edit_lines_and_undo_takes_back(self) -> None:
        self.open_image(discs.written(game=discs.game())['game'])
        self.edit(Keys.ARROW_DOWN, 'rebuild 1', Keys.ENTER, 'rebuild 2', Keys.ENTER, '# end')
        self.sees(['cdpatch 1', 'rebuild 1', 'rebuild 2', '# end'], lambda: [row.split('|')[1] for row in self.rows()])
        self.browser.press(Keys.HOME, Keys.BACKSPACE)
        self.sees(['rebuild 2# end'], lambda: [row.split('|')[1] for row in self.rows()][2:])
        self.browser.press('z', held=Keys.CONTROL)
        self.sees(['rebuild 2', '# end'], lambda: [row.split('|')[1] for row in self.rows()][2:])
        self.browser.press(Keys.ARROW_UP, Keys.ARROW_UP, held=Keys.SHIFT)
        self.browser.press(Keys.DELETE)
        self.sees(['# end'], lambda: [row.split('|')[1] for row in self.rows()])
        self.browser.press('z', held=Keys.CONTROL)
        self.browser.press(Keys.ENTER, held=Keys.CONTROL)
        self.browser.wait('#panel-script .say.warn', 'cdpatch cannot tell whether the 2 patches')
        self.assertEqual(self.script_text(), 'cdpatch 1\nrebuild 1\nrebuild 2\n# end')

    def type_script(self) -> None:
        """Types a script of one patch."""
        self.edit(Keys.ARROW_DOWN, 'rebuild 1')

    def test_a_script_that_is_opened_does_not_lose_the_one_before_it(self) -> None:
        files = discs.written(game=discs.game(), english=discs.script())
        self.open_image(files['game'])
        self.type_script()
        self.open_script(files['english'])
        self.browser.wait('#messages .say.warn', common.text('scriptReplacedYours'))
        self.press('Bring it back')
        self.sees(['cdpatch 1', 'rebuild 1'], lambda: [row.split('|')[1] for row in self.rows()])
        self.sees('New script', lambda: self.browser.text('#panel-script header h2'))
        self.browser.click('.editor textarea')
        self.browser.press('y', held=Keys.CONTROL)
        self.browser.wait('#panel-script header h2', 'english.txt')
        self.browser.press('z', held=Keys.CONTROL)
        self.assertEqual(self.script_text(), 'cdpatch 1\nrebuild 1')

    def test_a_script_in_no_file_is_not_left_unasked(self) -> None:
        self.open_image(discs.written(game=discs.game())['game'])
        self.assertFalse(self.browser.asks_before_leaving())
        self.type_script()
        self.assertTrue(self.browser.asks_before_leaving())
        self.browser.wait('#panel-script header .tag.warn', 'not saved')
        self.browser.press('s', held=Keys.CONTROL)
        self.assertEqual(self.browser.downloaded('script.txt').read_text(), 'cdpatch 1\nrebuild 1')
        self.assertFalse(self.browser.asks_before_leaving())
        self.assertNotIn('not saved', self.browser.text('#panel-script header'))

    def test_the_focus_stays_in_the_card_that_works(self) -> None:
        self.open_both(discs.scratched(), discs.script())
        self.browser.wait('#panel-script .verdict')
        for name, shown, then in (('Check', '#panel-script .verdict', 'Check: Go to line'), ('Save with the', '#saved-sha1', 'Check: Save a cue sheet')):
            self.browser.run(f'{BUTTON}.focus()', name)
            self.browser.press(Keys.ENTER)
            self.browser.wait(shown)
            common.waited(lambda: self.focused().startswith(then), f'{self.focused()} has the focus')
        self.press('Back to Check')
        self.browser.run('document.querySelector("#panel-script input[type=checkbox]").focus()')
        self.browser.press(' ')
        self.sees('checkbox', 'return document.activeElement.type')

    def test_f8_goes_from_one_wrong_line_to_the_next(self) -> None:
        self.open_script(discs.written(faulty='cdpatch 1\nrebuild x\n# note\nrebuild 2\nrebuild y\n')['faulty'])
        self.browser.click('.editor textarea')
        where = []
        for held in ('', '', '', Keys.SHIFT):
            self.browser.press(Keys.F8, held=held)
            where.append(self.browser.run('return document.activeElement.getAttribute("aria-label")').split(':')[0])
        self.assertEqual(where, [f'Script, line {i} of 6' for i in (2, 5, 2, 5)])

    def test_the_line_with_the_caret_is_explained(self) -> None:
        self.open_both(discs.game(), discs.script())
        self.browser.click('.editor textarea')
        self.browser.press(Keys.ARROW_DOWN, Keys.ARROW_DOWN, Keys.ARROW_DOWN)
        self.browser.wait('.explain', f'Line 4: write 8 bytes at offset 0 of block {discs.first_block()}, in /DATA/MSG00.DAT')
        self.browser.wait('.explain', 'Start␣␣␣')
        self.browser.wait('.explain', 'スタート')

    def test_only_visible_lines_of_65535_are_drawn(self) -> None:
        script = 'cdpatch 1\n' + ''.join(f'set {i} 0 {"4A" * (4096 if i == 9 else 8)}\n' for i in range(65535))
        self.open_script(discs.written(large=script)['large'])
        self.browser.wait('#panel-script header .tag', '65,535 patches')
        self.assertLess(len(self.rows()), 80)
        self.browser.click('.editor textarea')
        self.browser.press(Keys.END, held=Keys.CONTROL)
        self.sees(['65536', 'set 65534 0 4A4A4A4A4A4A4A4A'], lambda: self.rows()[-2].split('|')[:2])
        self.browser.press('rebuild 7')
        self.browser.wait('#panel-script header .tag', 'more than 65,535 patches')
        self.assertEqual(self.rows()[-1], '65537|rebuild 7|more than 65535 patches')
        self.assertEqual(self.browser.attempts(), [])

    def test_a_key_in_65535_lines_asks_about_its_own_line_alone(self) -> None:
        """Counts what the page exchanges with the module, the elements it creates, and the pieces of the image it reads."""
        files = discs.written(game=discs.game(), large='cdpatch 1\n' + ''.join(f'set {i % 180} {i % 2048} 4A was 4B\n' for i in range(65535)))
        self.open_image(files['game'])
        self.open_script(files['large'])
        self.browser.wait('#panel-script header .tag', '65,535 patches')
        self.press('Check')
        self.browser.wait('#panel-script .verdict', 'do not')
        self.browser.click('.editor textarea')
        self.browser.press(Keys.HOME, Keys.ARROW_DOWN)
        self.browser.run(COUNTED)
        # The first key ends the results of Check for all lines; the third makes the line faulty, and the last one mends it.
        for digits in ('4A', '4C', '4', '4D'):
            counts = self.browser.run('''const area = document.querySelector('.editor textarea');
                Object.assign(counted, { characters: 0, texts: 0, elements: 0, sectors: 0 });
                area.value = `set 7 8 ${arguments[0]}`;
                area.dispatchEvent(new Event('input'));
                return counted''', digits)
            self.assertLess(counts['characters'], 300, digits)
            self.assertLess(counts['texts'], 300, digits)
            self.assertLess(counts['elements'], 1000, digits)
            self.assertEqual(counts['sectors'], 0, digits)
        self.browser.wait('#panel-script header .tag', '65,535 patches')

    def test_a_key_reads_no_sector_that_is_not_shown(self) -> None:
        files = discs.written(game=discs.game(), english=discs.script())
        block = discs.first_block()
        self.open_image(files['game'])
        self.go_to(block)
        self.open_script(files['english'])
        self.browser.wait('#panel-script .say.good', 'patches match')
        self.browser.run(f'{GATE} globalThis.held = 0')
        self.browser.click('.editor textarea')
        self.browser.press(Keys.END, held=Keys.CONTROL)
        self.browser.press(f'set {block} 1 41', Keys.ENTER, '# end')
        self.assertEqual(self.browser.run('return globalThis.reads'), 0)
        self.browser.click('#tab-disc')
        shown = 'return [16, 17].map(at => document.querySelector(`.hex i[data-at="${at}"]`).innerText)'
        common.waited(lambda: self.browser.run(shown) == ['53', '41'], 'the sector is that of another script')

    def test_in_firefox_the_address_of_an_image_is_forgotten_when_the_next_is_saved(self) -> None:
        files = self.open_both(discs.game(), discs.script())
        self.browser.run('''Object.assign(globalThis, { mozInnerScreenX: 0, made: [], forgotten: [] });
            const { createObjectURL, revokeObjectURL } = URL;
            URL.createObjectURL = it => { made.push(createObjectURL(it)); return made.at(-1); };
            URL.revokeObjectURL = it => { forgotten.push(made.indexOf(it)); return revokeObjectURL(it); };''')
        for due in ([], [0], [0, 1]):
            self.press_save()
            saved = self.browser.downloaded('game (patched).bin')
            self.assertEqual(saved.read_bytes(), applied(files['game'], files['english'])[2])
            saved.unlink()
            self.assertEqual(self.browser.run('return forgotten'), due)
            self.press('Back to Check')

    def test_a_script_with_too_many_patches_has_one_message_and_no_button(self) -> None:
        image = discs.written(game=discs.game())['game']
        for others in (0, 100000):
            script = discs.written(long='cdpatch 1\n' + 'rebuild 3\n' * 65536 + '#\n' * others)['long']
            for opened in ((script,), (script, image)):
                with self.subTest(others=others, opened=len(opened)):
                    self.browser.open(common.PAGE)
                    self.browser.wait('#start h1')
                    self.open_files(*opened)
                    self.browser.wait('#panel-script .side', 'Apply it with cdscript apply --long.')
                    said = self.browser.run('return [...document.querySelectorAll("#panel-script :is(.say.bad, .say.warn)")].map(it => it.innerText)')
                    self.assertEqual(len(said), 1, said)
                    self.assertEqual(self.browser.run('return [...document.querySelectorAll("#panel-script .side .btn")].length'), 0)
                    self.assertEqual(self.browser.text('#panel-script header .tag.bad'), 'more than 65,535 patches')
                    self.browser.press(Keys.CONTROL + Keys.ENTER)
                    self.assertFalse(self.browser.run('return document.querySelector("#panel-script .progress") !== null'))

    def test_others_get_their_turn_while_a_long_script_is_opened(self) -> None:
        path = discs.written(long='cdpatch 1\n' + 'rebuild 3\n' * 20000)['long']
        self.browser.run('''globalThis.turns = 0;
            const { setTimeout } = globalThis;
            globalThis.setTimeout = (call, wait, ...given) => {
                globalThis.turns += Number(wait === undefined);
                return setTimeout(call, wait, ...given);
            }''')
        self.open_script(path)
        self.assertGreaterEqual(self.browser.run('return turns'), 4)

    def test_the_undo_script_of_carried_damage_says_that_it_wants_carry(self) -> None:
        files = self.open_both(discs.scratched(), discs.script())
        self.browser.click('#panel-script input[type=checkbox]')
        self.save_undo()
        self.browser.wait('#panel-script .said .say', 'Apply it with carry, like this script.')
        undo = self.browser.downloaded('english (undo).txt')
        _, _, patched = applied(files['game'], files['english'], '--carry')
        status, _, again = applied(discs.written(patched=patched)['patched'], undo, '--carry')
        self.assertEqual((status, again), (0, discs.scratched()))

    def test_an_undo_script_can_be_cancelled(self) -> None:
        self.open_both(discs.game(), discs.script())
        self.browser.run(GATE)
        self.save_undo()
        self.browser.wait('#panel-script .progress')
        self.press('Cancel')
        self.browser.run('openGate()')
        self.browser.wait('#panel-script .said .say', 'No undo script was made.')
        self.assertEqual(list(self.browser.downloads.iterdir()), [])

    @common.in_check
    def test_the_undo_script_can_be_made_of_an_image_that_is_opened_later(self) -> None:
        files = discs.written(game=discs.game(), english=discs.script())
        self.open_script(files['english'])
        self.press('Save…')
        self.browser.downloaded('english.txt').unlink()
        self.open_image(files['game'])
        self.browser.click('#tab-script')
        self.save_undo()
        self.browser.downloaded('english (undo).txt')
        self.assertEqual(self.focused().split('\n')[0], 'Script: Save…')

    def test_the_head_of_the_script_is_one_row(self) -> None:
        files = discs.written(game=discs.game(), english=discs.script())
        path = files['english'].rename(files['english'].with_name('Starlit Detective (English).txt'))
        self.open_image(files['game'])
        self.open_script(path)
        self.edit(Keys.END, ' ')
        self.browser.wait('#panel-script header .tag', 'not saved')
        middles = self.browser.run('''return [...document.querySelectorAll('[aria-label=Script] > header > *')].map(it => {
            const { top, bottom } = it.getBoundingClientRect();
            return (top + bottom) / 2 })''')
        self.assertLess(max(middles) - min(middles), 8)

    def test_a_file_that_shrinks_saves_nothing(self) -> None:
        files = self.open_both(discs.game(), discs.script())
        self.browser.wait('#panel-script .say.good', 'patches match')
        files['game'].write_bytes(discs.game()[:100000])
        self.press_save()
        self.browser.wait('#panel-script .say.bad', 'cannot be read any more')
        self.assertIn(common.text('saveNoImageKept'), self.browser.text('#panel-script .side'))
        self.assertEqual(list(self.browser.downloads.glob('game*')), [])

    def test_a_base_that_is_not_0_is_that_of_the_image(self) -> None:
        image = common.image_of([b'one', b'two', b'three'], 1000)
        files = discs.written(track=image, later='cdpatch 1\nset 1001 0 54574F was 74776F\nrebuild 5\n')
        self.open_image(files['track'])
        self.open_script(files['later'])
        self.press('Check')
        self.browser.wait('#panel-script .verdict', ', 1 does not.')
        _, text = common.run_program('check', '--base', '1000', files['track'], files['later'])
        self.assertEqual(self.browser.run('return document.querySelector("pre.log").textContent'), text)

    def test_a_script_of_its_head_line_alone_is_shown(self) -> None:
        self.open_files(discs.written(head='cdpatch 1\n')['head'])
        self.browser.wait('#panel-script header h2', 'head.txt')
        self.browser.wait('#panel-script h2', 'No patches yet')


class Streaming(PageTest):
    stub = PICKER

    def begin(self, copies: int = 1) -> dict[str, Path]:
        """Opens a game, or consecutive copies of it, and its script."""
        files = discs.written(game=discs.game() * copies, english=discs.script())
        self.open_image(files['game'])
        self.open_script(files['english'])
        return files

    @common.in_check
    def test_what_is_streamed_is_what_the_program_writes(self) -> None:
        files = self.begin()
        self.press_save()
        self.browser.wait('#panel-script .say.good', 'Saved: game (patched).bin')
        self.assertEqual(self.browser.run('return chosen.state'), 'closed')
        self.assertEqual(self.chosen_bytes(), applied(files['game'], files['english'])[2])

    def test_the_file_is_asked_for_at_the_click(self) -> None:
        self.begin()
        self.browser.wait('#panel-script .say.good', 'patches match')
        script = f'{BUTTON.replace("return", "const it =", 1)}; it.click(); return chosen.asked'
        self.assertEqual(self.browser.run(script, 'Apply and save'), 1)

    def test_nothing_is_saved_if_every_patch_is_refused(self) -> None:
        self.open_image(discs.written(game=discs.game())['game'])
        self.edit(Keys.ARROW_DOWN, 'set 99999 0 41')
        self.press('Apply and save')
        self.browser.wait('#panel-script .side .say.bad', common.text('scriptNothingToSave'))
        self.assertEqual(self.browser.run('return [chosen.asked, chosen.state]'), [0, 'none'])
        self.edit(Keys.ENTER, 'rebuild 20')
        self.press('Apply and save')
        self.browser.wait('#panel-script .say.warn', 'Saved: game (patched).bin, without 1 of 2 patches')

    def test_a_saved_file_that_cannot_be_read_again_is_saved_all_the_same(self) -> None:
        self.begin()
        self.browser.run('chosen.gone = true')
        self.press_save()
        self.browser.wait('#panel-script .say.good', 'Saved: game (patched).bin')
        self.browser.wait('#saved-sha1', 'not available')

    def test_a_failure_at_each_write_keeps_no_image(self) -> None:
        self.begin(40)
        self.press_save()
        self.browser.wait('#panel-script .say.good', 'Saved: ')
        count = int(self.browser.run('return chosen.writes.length'))
        self.assertGreater(count, 1)
        for failing in [*range(count), 'close']:
            self.press('Back')
            self.browser.run('Object.assign(chosen, { writes: [], state: "none", failing: arguments[0], removed: false })', failing)
            self.press_save()
            self.browser.wait('#panel-script .say.bad', 'The disk is full')
            self.assertIn(common.text('saveNoImageKept'), self.browser.text('#panel-script .side'))
            self.assertEqual(self.browser.run('return [chosen.state, chosen.removed]'), ['aborted', True], f'write {failing}')

    @common.in_check
    def test_cancel_in_the_middle_keeps_no_image(self) -> None:
        self.begin()
        self.begins()
        self.press('Cancel')
        self.browser.run('chosen.release()')
        self.browser.wait('#panel-script .say', 'Cancelled.')
        self.assertIn(common.text('saveNoImageKept'), self.browser.text('#panel-script .side'))
        self.assertEqual(self.browser.run('return [chosen.state, chosen.removed]'), ['aborted', True])

    def test_the_open_image_is_never_written_over(self) -> None:
        game = self.begin()['game']
        self.browser.run("document.body.insertAdjacentElement('beforeend', Object.assign(document.createElement('input'), { type: 'file', id: 'own' }))")
        self.browser.give('#own', [game])
        self.browser.run('chosen.own = document.querySelector("#own").files[0]')
        self.press_save()
        self.browser.wait('#panel-script .say.bad', 'is the open image itself')
        self.assertEqual(self.browser.run('return [chosen.state, chosen.writes.length]'), ['none', 0])

    def test_who_chooses_no_file_is_back_at_check(self) -> None:
        self.begin()
        self.browser.run('chosen.none = true')
        self.press_save()
        common.waited(lambda: self.browser.run('return chosen.asked') == 1, 'nobody was asked')
        self.browser.wait('#panel-script .side h2', 'Check')
        self.assertEqual(self.browser.run('return chosen.state'), 'none')
