"""A second image: repair from it, compare with it, or open it instead. Saved files are compared with the program's output."""

import math
import random
from pathlib import Path

import discs
from common import SECTOR_SIZE, damaged, image_of, in_check, run_program, sector, sha1, text, waited
from keys import Keys
from pages import PageTest

AUDIO = random.Random(8).randbytes(30 * SECTOR_SIZE)
SECTORS = len(discs.game()) // SECTOR_SIZE + 30
BUTTON = "[...document.querySelectorAll('#panel-disc button')].find(it => it.checkVisibility() && it.innerText.startsWith(arguments[0]))"


def with_faults(*faults: tuple[int, int]) -> bytes:
    """The game, followed by audio, with a wrong byte at each of these block offsets."""
    image = discs.game()
    for block, offset in faults:
        image = damaged(image, block, offset)
    return image + AUDIO


def torn(image: bytes, *blocks: int, by: int = 0x55) -> bytes:
    """Changes more bytes of these blocks than their own parity corrects."""
    made = bytearray(image)
    for block in blocks:
        for at in range(500, 800):
            made[block * SECTOR_SIZE + at] ^= by
    return bytes(made)


def audited(path: Path) -> set[int]:
    """The blocks that the program's audit lists."""
    return {int(line.split()[0]) for line in run_program('audit', path)[1].splitlines()[:-1]}


class Second(PageTest):
    def open_two(self, first: bytes, second: bytes) -> dict[str, Path]:
        """Writes two files, game.bin and other.bin, and opens one after the other."""
        files = discs.written(game=first, other=second)
        self.open_files(files['game'])
        self.browser.wait('#disc-line .lead', 'sector')
        self.open_files(files['other'])
        return files

    def pair(self, first: bytes, second: bytes, shown: tuple[str, str] = ('#second-title', 'other.bin')) -> Path:
        """Opens two files, and presses the main button of the dialog. Returns the first file."""
        files = self.open_two(first, second)
        self.browser.answer()
        self.browser.wait(*shown)
        return files['game']

    def press(self, text: str) -> None:
        """Clicks a button of the panel as soon as it is there and not off."""
        clicked = f'(it => it && it.getAttribute("aria-disabled") !== "true" && (it.click(), true))((function () {{ return {BUTTON} }})(...given))'
        self.assertTrue(self.browser.awaited(clicked, text), f'no button {text}')

    def tally(self) -> list[int]:
        self.browser.wait('.tally')
        counts = self.browser.run("return [...document.querySelectorAll('.tally b')].map(it => it.innerText)")
        return [int(count.replace(',', '')) for count in counts]

    def legend(self, name: str) -> int:
        script = '''return [...document.querySelectorAll('.legend button')].find(it => it.innerText.includes(arguments[0]))
            .querySelector('.n').innerText'''
        return int(self.browser.run(script, name).replace(',', ''))

    def pressed_entries(self) -> list[str]:
        return list(self.browser.run("return [...document.querySelectorAll('.legend button[aria-pressed=true]')].map(it => it.innerText)"))

    def test_an_entry_of_the_legend_is_pressed_only_as_long_as_its_map_is_shown(self) -> None:
        files = discs.written(game=with_faults((40, 9)), other=with_faults((60, 9)), plain=image_of([b'%d' % block for block in range(40)]))
        for entry, answer in (('data damaged', 'Compare'), ('Mode 1', 'Repair the open game.bin'), ('no sync', 'Open it instead')):
            with self.subTest(answer):
                self.setUp()
                self.open_image(files['game'])
                self.browser.run("[...document.querySelectorAll('.legend button')].find(it => it.innerText.includes(arguments[0])).click()", entry)
                self.assertIn(entry, self.pressed_entries()[0])
                self.open_files(files['plain' if answer == 'Open it instead' else 'other'])
                self.browser.answer(answer)
                if answer == 'Open it instead':
                    self.browser.wait('#disc-line .lead', 'All 40 data sectors are sound')
                else:
                    self.browser.wait('.tally')
                waited(lambda: self.pressed_entries() == [], 'an entry is pressed')
                self.browser.click('#tab-script')
                self.open_files(discs.written(one='cdpatch 1\nrebuild 1\n')['one'])
                self.browser.wait('#panel-script .side .say', ' match')

    @in_check
    def test_a_repair_takes_what_is_damaged_here_and_sound_there_and_nothing_else(self) -> None:
        first = bytearray(torn(with_faults((40, 9)), 60, 80))
        first[100 * SECTOR_SIZE:100 * SECTOR_SIZE + 12] = bytes(12)
        second = torn(with_faults((90, 7)), 60, by=0xAA)
        path = self.pair(bytes(first), second)
        self.assertEqual(self.tally(), [3, 1, 0])
        self.assertEqual(self.planned(), {'By their own parity': (2, 'blocks 40 and 100'), 'From other.bin': (1, 'block 80'), 'Without a sound copy': (1, 'block 60')})
        self.assertEqual([self.legend('can be repaired'), self.legend('without a sound copy')], [3, 1])
        self.assertIn(f'{len(AUDIO) // SECTOR_SIZE} sectors were not tested: nothing in them would show damage.', self.browser.text('#second-body'))
        self.press('Save repaired image')
        saved = self.browser.downloaded('game (repaired).bin')
        self.browser.wait('#second-body .say', '0.5\u00a0MB. Keep this page open')
        self.browser.wait('#second-body .say.warn', '3 sectors repaired. 1 is still damaged: block 60.')
        self.assertTrue(self.browser.asks_before_leaving())
        due = bytearray(first)
        for block in (40, 80, 100):
            due[block * SECTOR_SIZE:(block + 1) * SECTOR_SIZE] = second[block * SECTOR_SIZE:(block + 1) * SECTOR_SIZE]
        self.assertEqual(saved.read_bytes(), bytes(due))
        self.assertEqual(audited(saved), {60})
        self.browser.wait('#repaired-sha1', sha1(bytes(due)))
        self.press('The download is complete')
        self.browser.wait('#second-body .say.warn', 'Saved: game (repaired).bin')
        self.assertFalse(self.browser.asks_before_leaving())
        saved.unlink()
        self.browser.wait('[aria-label="Without a sound copy: 1"]', '60')
        self.press('Open the new image')
        self.browser.wait('#disc-line .name', 'game (repaired).bin')

    def sees_swapped(self) -> None:
        """Checks that the second image is being repaired from the one that was open."""
        self.browser.wait('#disc-line .name', 'other.bin')
        self.browser.wait('#second-title', 'game.bin')
        self.browser.wait('.tally', 'can be repaired')
        waited(lambda: self.tally() == [1, 0, 0], 'another image is repaired')

    def test_two_images_are_taken_the_other_way_round_if_the_second_is_to_be_repaired(self) -> None:
        self.open_files(*discs.written(game=with_faults(), other=with_faults((40, 9))).values())
        self.browser.answer('Repair other.bin from game.bin')
        self.sees_swapped()

    def test_where_nothing_is_to_be_repaired_the_other_image_may_be(self) -> None:
        self.pair(with_faults(), with_faults((40, 9)))
        self.press('Repair from it')
        self.press('Repair other.bin from game.bin')
        self.sees_swapped()

    def test_a_sound_image_is_not_taken_for_the_same_as_one_that_differs(self) -> None:
        files = discs.written(game=with_faults(), other=with_faults((40, 9)), copy=with_faults())
        for name, count in (('other', f'1 of {SECTORS} sectors differs between the two images.'), ('copy', f'0 of {SECTORS} sectors differ')):
            with self.subTest(name):
                self.setUp()
                self.browser.run('HTMLInputElement.prototype.click = () => {}; document.querySelector("[data-aim=repair]").click()')
                self.open_files(files['game'], files[name])
                self.browser.wait('#second-body .say', 'No damage was found in game.bin, so there is nothing to repair.')
                self.browser.wait('#second-body .say', count)
                self.assertEqual(self.browser.run('return [...document.querySelectorAll("#second-body .main")].map(it => it.innerText)'), ['Compare'])
        self.browser.click('#second-body .main')
        self.browser.wait('#second-body .say.good', text('secondBothSameBytes'))

    def test_after_a_repair_its_cue_sheet_can_be_saved(self) -> None:
        name = 'game (repaired).cue'
        cases: list[dict[str, str]] = [{}, {'game': discs.DATA}, {'game': discs.DATA, 'song': 'AUDIO'}]
        for tracks in cases:
            with self.subTest(tracks):
                self.setUp()
                files = discs.written(game=damaged(discs.game(), 40), other=discs.game(), song=AUDIO)
                sheet = files['game'].with_suffix('.cue')
                sheet.write_text(discs.sheet_of(**tracks))
                self.open_files(files['game'], *[sheet] if tracks else [], *[files[stem] for stem in tracks if stem == 'song'])
                self.browser.wait('#disc-line .lead', 'sector')
                self.open_files(files['other'])
                self.browser.answer()
                self.press('Save repaired image')
                self.press(text('saveCueSheet'))
                saved = self.browser.downloaded(name)
                due = {'game (repaired)' if stem == 'game' else stem: kind for stem, kind in (tracks or cases[1]).items()}
                self.assertEqual(saved.read_text(), discs.sheet_of(**due))
                self.browser.wait('#second-body', f'Saved. Now open {name} in your emulator.')
                saved.unlink()
                self.press('The download is complete')
                self.press('Open the new image')
                self.browser.wait('#disc-line .name', 'game (repaired).bin')
                self.wait_for_hash()
                # A cue sheet with other files is not opened: the page does not have them any more.
                self.assertEqual(f'from {name}' in self.browser.text('#disc-line'), len(tracks) == 1)

    def test_a_sector_whose_data_and_edc_are_others_is_named(self) -> None:
        empty = bytearray(with_faults((40, 9), (40, 2048), (60, 9)))
        empty[80 * SECTOR_SIZE:81 * SECTOR_SIZE] = bytes(SECTOR_SIZE)
        self.pair(bytes(empty), with_faults())
        self.browser.wait('#second-body .say.warn', 'look at block 40 first')
        self.browser.wait('#second-body .say.warn', '1 sector was not read here')
        self.press('Save repaired image')
        self.browser.wait('#second-body .say.warn', '3 sectors repaired. Nothing confirms the copies of 2 sectors: blocks 40 and 80.')
        self.browser.downloaded('game (repaired).bin').unlink()

    def test_a_sector_that_was_not_read_does_not_make_the_other_dump_another_release(self) -> None:
        game = discs.game()
        unread = game[:80 * SECTOR_SIZE] + b'\x55' * SECTOR_SIZE + game[81 * SECTOR_SIZE:]
        self.pair(unread, game)
        count = len(game) // SECTOR_SIZE
        self.browser.wait('#second-body', f'It is probably the same disc: {count - 1} of {count} compared sectors are equal')
        self.assertNotIn('another release', self.browser.text('#second-body'))

    @in_check
    def test_a_repair_as_a_script_gives_the_same_image(self) -> None:
        first, second = with_faults((40, 9), (60, 9)), with_faults()
        path = self.pair(first, second)
        self.browser.wait('.tally', 'can be repaired')
        self.press_in('second', 'Write the repair as a script')
        self.press('Save the script')
        script = self.browser.downloaded('game (repair).txt')
        out = path.parent / 'repaired.bin'
        self.assertEqual(run_program('apply', '--carry', path, script, out)[0], 0)
        self.assertEqual(out.read_bytes(), second)
        script.unlink()

    def test_a_repair_takes_sectors_of_mode_2_and_a_script_leaves_them_out(self) -> None:
        second = image_of([b'%d' % block for block in range(60)]) + discs.mode2(40, 60)
        first = discs.changed(second, (40, 500), (70, 500), (71, 5))
        files = discs.written(game=first, other=second)
        self.open_image(files['game'])
        self.open_files(files['other'])
        self.browser.answer()
        self.assertEqual(self.tally(), [3, 0, 0])
        self.press_in('second', 'Write the repair as a script')
        self.browser.wait('#second-body .say.warn', '2 Mode 2 sectors are left out: a script changes only Mode 1.')
        self.press('Save the script')
        script = self.browser.downloaded('game (repair).txt')
        out = files['game'].parent / 'repaired.bin'
        self.assertEqual(run_program('apply', files['game'], script, out)[0], 0)
        self.assertEqual(out.read_bytes(), discs.changed(second, (70, 500), (71, 5)))
        script.unlink()

    def test_another_disc_is_not_taken_for_a_dump_of_the_same(self) -> None:
        other = b''.join(sector(block, b'%d other' % block) for block in range(SECTORS - 30)) + AUDIO
        self.pair(with_faults((40, 9)), other)
        self.browser.wait('#second-body .say.bad', 'One of the images is patched, shifted, or of a different disc or release.')
        self.browser.wait('#second-body .say.bad', f'30 of {SECTORS} sectors are the same in both. {SECTORS - 31} sectors are sound in both and differ')
        self.assertFalse(self.browser.run(f'return Boolean({BUTTON})', 'Save repaired image'))

    def test_an_image_of_which_most_is_the_same_may_be_patched_or_another_release(self) -> None:
        second = with_faults()[:-40 * SECTOR_SIZE] + b''.join(sector(block, b'%d other' % block) for block in range(SECTORS - 40, SECTORS - 30)) + AUDIO
        self.pair(with_faults((40, 9)), second)
        self.browser.wait('#second-body .say.bad', text('secondPatchedOrOther'))
        said = f'{SECTORS - 11} of {SECTORS} sectors are the same in both. 10 sectors are sound in both and differ'
        self.browser.wait('#second-body .say.bad', said)

    def sees_what_differs(self, first: bytes, second: bytes, block: int) -> None:
        """Opens the sector of a row, and checks that different bytes are marked, with those of the second image beside them."""
        self.press(str(block))
        self.browser.wait('#sector-title', f'block {block}')
        differ = [at for at in range(SECTOR_SIZE) if first[block * SECTOR_SIZE + at] != second[block * SECTOR_SIZE + at]]
        marked = "return [...document.querySelectorAll('.hex i.dif')].map(it => Number(it.dataset.at))"
        waited(lambda: self.browser.run(marked) == differ, 'other bytes are marked')
        values = "return [...document.querySelectorAll('.hex .second i')].map(it => it.textContent).join('')"
        self.assertEqual(self.browser.run(values), ''.join(f'{second[block * SECTOR_SIZE + at]:02X}' for at in differ))
        top = "return document.querySelector('.hex').getBoundingClientRect().top"
        self.assertLess(self.browser.run(top), self.browser.run('return innerHeight'))

    @in_check
    def test_a_comparison_is_a_script_that_the_program_applies(self) -> None:
        first = with_faults()
        second = bytearray(first)
        for block in (20, 21, 70):
            user = bytearray(first[block * SECTOR_SIZE + 16:][:2048])
            user[5:9] = b'new!'
            second[block * SECTOR_SIZE:(block + 1) * SECTOR_SIZE] = sector(block, bytes(user))
        path = self.pair(first, bytes(second))
        self.browser.wait('#second-body .tally')
        self.assertEqual(self.tally(), [3, 0, 0])
        self.sees_what_differs(first, bytes(second), 70)
        self.assertEqual(self.legend('differ'), 3)
        self.browser.wait('[aria-label="Bytes that differ, by field"]', '70')
        self.browser.wait('#second-body p', 'The script turns game.bin into other.bin.')
        self.press('Save the script')
        script = self.browser.downloaded('other (changes).txt')
        self.browser.wait('#second-body .say.good', 'The script has 3 patches.')
        self.browser.wait('#second-body .say.good', 'Saved: other (changes).txt')
        out = path.parent / 'new.bin'
        self.assertEqual(run_program('apply', path, script, out)[0], 0)
        self.assertEqual(out.read_bytes(), bytes(second))
        self.press('Open in Script')
        self.browser.wait('#panel-script .say.good', 'other (changes).txt: 3 patches, which all match game.bin.')
        self.assertNotIn('not saved', self.browser.text('#panel-script'))
        script.unlink()

    def test_the_script_of_a_comparison_says_its_base(self) -> None:
        users = [b'%d' % block for block in range(40)]
        self.pair(image_of(users, 1000), image_of([b'new', *users[1:]], 1000))
        self.press('Save the script')
        script = self.browser.downloaded('other (changes).txt')
        self.assertRegex(script.read_text(), '^cdpatch 1\n# base 1000\nset 1000 0 ')
        self.press('Open in Script')
        self.browser.wait('#panel-script .say.good', 'other (changes).txt: 1 patch, which matches game.bin.')
        script.unlink()

    def test_a_base_that_is_set_by_hand_is_that_of_the_second_image_too(self) -> None:
        users = [b'%d' % block for block in range(40)]
        for first in (0, 1000):
            with self.subTest(first):
                self.setUp()
                files = discs.written(game=image_of(users), other=image_of([b'new', *users[1:]], first))
                self.open_image(files['game'])
                self.browser.wait('.sha1', sha1(files['game'].read_bytes()))
                self.press_in('image', 'Set the base')
                self.browser.type('#base', '1000')
                self.browser.press(Keys.ENTER)
                self.browser.wait('#disc-line .lead', 'the base is probably 0, not 1000.')
                self.open_files(files['other'])
                self.browser.answer('Compare')
                self.browser.wait('.tally')
                self.assertEqual(self.tally()[0], 1 if first == 0 else 40)
                self.press_in('second', 'Open it instead')
                self.browser.wait('#disc-line .name', 'other.bin')
                self.browser.wait('#disc-line .lead', 'All 40 data sectors are sound')

    def test_a_comparison_names_the_file_of_each_block(self) -> None:
        first = with_faults() + AUDIO * 14
        root = int.from_bytes(first[16 * SECTOR_SIZE + 16 + 158:][:4], 'little')
        due = {16: 'volume descriptor', root: 'in a directory', discs.first_block(): '/DATA/MSG00.DAT'}
        due.update((SECTORS + block, 'in no file') for block in range(14 * 30))
        second = bytearray(first)
        for block in due:
            second[block * SECTOR_SIZE + 2000] ^= 1
        self.pair(first, bytes(second))
        rows = """return [...document.querySelectorAll('[aria-label="Bytes that differ, by field"] tbody tr')].map(it => it.lastChild.innerText.trim())"""
        files = ['volume descriptor 1 sector', 'in a directory 1 sector', '/DATA/MSG00.DAT 1 sector', 'in no file 420 sectors']
        waited(lambda: self.browser.run(rows) == [f'▸ {name}' for name in files], f'other files are named: {self.browser.run(rows)[:9]}')
        self.press_in('differences', 'Save the list')
        saved = self.browser.downloaded('other (differences).txt')
        self.assertEqual(saved.read_text(), ''.join(f'{block}\t0\t1\t0\t0\t{file}\n' for block, file in due.items()))
        saved.unlink()
        self.press('▸ in no file')
        self.sees(['▾ in no file 420 sectors', *['in no file'] * 400], lambda: self.browser.run(rows)[3:])
        self.browser.wait('[aria-label="Bytes that differ, by field"] .foot', 'and 20 more blocks.')
        self.press('▾ in no file')
        self.sees(4, lambda: len(self.browser.run(rows)))
        self.press('▸ in a directory')
        self.press(str(root))
        self.browser.wait('#sector-title', f'block {root}')

    def test_findings_and_files_stay_beside_the_second_image(self) -> None:
        self.pair(with_faults((40, 9)), with_faults())
        self.browser.wait('.tally', 'can be repaired')
        self.browser.click('#findings .fold')
        self.browser.wait('#findings tr.sub', '40')
        self.press('Compare')
        self.browser.wait('.tally', 'sector differs')
        self.browser.click('#findings [data-tab=files]')
        self.browser.wait('#findings .files', '/DATA/MSG00.DAT')
        self.browser.size(360)
        tops = "return ['#map', '#second-title', '#findings', '#sector-title'].map(css => document.querySelector(css).getBoundingClientRect().top)"
        self.press('40')
        self.browser.wait('#sector-title', 'block 40')
        self.assertEqual(self.browser.run(tops), sorted(self.browser.run(tops)))

    def test_damage_of_the_second_is_named_and_left_out_only_if_asked(self) -> None:
        other = with_faults((33, 5), (44, 5))
        other = other[:50 * SECTOR_SIZE] + sector(50, b'other') + other[51 * SECTOR_SIZE:]
        self.pair(with_faults(), other)
        self.assertEqual(self.tally(), [3, 0, 2])
        tagged = "return [...document.querySelectorAll('[aria-label^=Bytes] .tag')].map(it => [it.parentElement.matches(':last-child'), it.innerText])"
        waited(lambda: self.browser.run(tagged) == [[True, 'damaged in the second']] * 2, 'the tag is not in the column of files')
        self.press('Open in Script')
        self.browser.wait('#second-body .say.bad', 'the second image is damaged in blocks 33 and 44')
        self.browser.wait('#second-body .say.bad', 'Leave these 2 out')
        self.assertEqual([*self.browser.downloads.iterdir()], [])
        self.browser.run(f'{BUTTON}.focus()', 'Save the script without the 2 damaged sectors')
        self.browser.press(Keys.ENTER)
        self.browser.wait('#second-body .say.warn', 'gives other.bin, except for blocks 33 and 44, which it leaves as they are.')
        # A second Enter does not press `Open it instead`.
        self.assertFalse(self.browser.run('return document.activeElement.matches(".away, body")'))
        self.browser.press(Keys.ENTER)
        self.sees('game.bin', lambda: self.browser.text('#disc-line .name'))
        self.sees('Second image: other.bin', lambda: self.browser.text('#second-title'))
        script = self.browser.downloaded('other (changes).txt')
        self.assertEqual([line.split()[:2] for line in script.read_text().splitlines()], [['cdpatch', '1'], ['set', '50']])
        script.unlink()
        # The second Enter may have begun a job.
        self.is_gone('#second-body .progress')
        self.press('Open in Script')
        self.press('Leave these 2 out')
        self.browser.wait('#panel-script .say.good', 'other (changes).txt: 1 patch, which matches game.bin.')

    def test_damage_is_not_left_out_if_nothing_else_differs(self) -> None:
        self.pair(with_faults(), with_faults((33, 5), (44, 5)))
        self.press('Save the script')
        self.browser.wait('#second-body .say.bad', 'Without these blocks the script would have no patches.')
        self.assertNotIn('Leave', self.browser.text('#second-body'))

    def test_one_damaged_sector_of_the_second_is_one_in_the_message(self) -> None:
        self.pair(with_faults(), with_faults((33, 5)))
        self.press('Save the script')
        self.browser.wait('#second-body .say.bad', 'Its wrong bytes would get a correct EDC')

    def test_patches_of_the_script_are_not_in_a_repaired_image(self) -> None:
        note = 'The new image does not have the patches of the script'
        self.pair(with_faults((40, 9)), with_faults(), ('.tally', 'can be repaired'))
        self.assertNotIn(note, self.browser.text('#second-body'))
        self.edit(Keys.ARROW_DOWN, 'set 20 0 41')
        self.browser.click('#tab-disc')
        self.browser.wait('#second-body', note)

    def test_a_tail_that_differs_is_said(self) -> None:
        image = with_faults()
        self.pair(image + b'tail', image + b'tall')
        self.browser.wait('#second-body .say.warn', text('secondTailsDiffer'))
        self.browser.wait('#second-body .say.good', 'Both images are the same, sector for sector.')
        self.press('Repair from it')
        self.browser.wait('#second-body .say.warn', text('secondTailsDiffer'))

    def test_audio_that_differs_is_no_script(self) -> None:
        self.pair(with_faults(), discs.game() + AUDIO[:-1] + bytes([AUDIO[-1] ^ 1]))
        self.assertEqual(self.tally(), [1, 1, 0])
        self.press('Save the script')
        self.browser.wait('#second-body .say.bad', f'nosync in block {SECTORS - 1}, and a script changes only mode1')

    def test_another_length_can_be_repaired_from_and_not_compared(self) -> None:
        image = with_faults()
        files = discs.written(game=image, more=image + AUDIO[:2 * SECTOR_SIZE], fewer=image[:-7 * SECTOR_SIZE], tail=image + b'tail', later=image[SECTOR_SIZE:])
        self.open_files(files['game'])
        self.browser.wait('#disc-line .lead', 'sector')
        for name, words in {'more': 'It has 2 sectors more than game.bin', 'fewer': 'It has 7 sectors fewer than game.bin',
                            'tail': 'The bytes after its last sector differ from those of game.bin',
                            'later': 'It is shifted: it begins 1 sector later than game.bin'}.items():
            self.open_files(files[name])
            self.browser.wait('#sheet', f'{words}. A repair uses the blocks that both images have.')
            buttons = self.browser.run('return [...document.querySelectorAll("#sheet button")].map(it => it.innerText)')
            self.assertEqual(buttons, ['Repair the open game.bin with this file', f'Repair {name}.bin from game.bin', 'Open it instead', 'Cancel'])
            self.browser.answer('Cancel')
        self.open_files(files['more'])
        self.browser.answer('Open it instead')
        self.browser.wait('#disc-line .name', 'more.bin')
        self.assertFalse(self.browser.run("return document.querySelector('#second-title').checkVisibility()"))

    def test_of_a_cut_image_it_is_said_that_the_other_dump_has_the_missing_blocks(self) -> None:
        game, end = discs.game(), SECTORS - 30
        cut = game[:-20 * SECTOR_SIZE - 1000]
        self.open_two(cut, game)
        self.browser.answer('Repair the open game.bin with this file')
        self.browser.wait('#second-body .say.warn', 'The last sector is incomplete.')
        self.browser.wait('#second-body .say.warn', f'Only other.bin has blocks {end - 21} to {end - 1}. To include them, repair it from this image.')
        self.browser.wait('#second-body .say.plain', 'No damaged sector was found in game.bin.')
        mains = self.browser.run('return [...document.querySelectorAll("#second-body .main")].map(it => it.innerText)')
        self.assertEqual(mains, ['Repair other.bin from game.bin'])
        self.browser.click('#second-body .main')
        self.browser.wait('#second-title', 'game.bin')
        self.browser.wait('#second-body .say.plain', f'The second image does not have blocks {end - 21} to {end - 1}.')

    def test_a_dump_that_begins_and_ends_elsewhere_repairs_what_it_has(self) -> None:
        end = SECTORS - 30 - 20
        first = torn(with_faults(), 40, 60, end + 5)
        self.pair(first, torn(with_faults(), 60)[3 * SECTOR_SIZE:end * SECTOR_SIZE], ('.tally', 'can be repaired'))
        self.assertEqual(self.tally(), [1, 2, 0])
        self.browser.wait('#second-body .say.plain', f'The second image does not have blocks 0 to 2 and {end} to {SECTORS - 1}.')
        self.assertTrue(self.browser.run('return document.querySelector("[data-tab=compare]") === null'))
        self.browser.wait('[aria-label="Without a sound copy: 2"]', 'not there')
        self.browser.wait('[aria-label="Without a sound copy: 2"]', 'In block 60 both images hold the same bytes')
        self.press('Save repaired image')
        saved = self.browser.downloaded('game (repaired).bin')
        waited(lambda: saved.read_bytes() == torn(with_faults(), 60, end + 5), 'the repaired image')
        saved.unlink()
        self.sees_second(40, 'other.bin has a sound copy, which will be used.')

    def sees_second(self, block: int, words: str) -> None:
        """Opens a sector, and waits for this message about it."""
        self.go_to(block)
        self.browser.wait('#panel-disc .say', words)

    def test_a_damaged_sector_says_what_becomes_of_it(self) -> None:
        first = bytearray(torn(with_faults((80, 2048), (100, 9)), 40, 60, 80))
        first[100 * SECTOR_SIZE:100 * SECTOR_SIZE + 12] = bytes(12)
        self.pair(bytes(first), torn(with_faults(), 60, by=0xAA), ('.tally', 'can be repaired'))
        for block, words in ((40, 'other.bin has a sound copy, which will be used.'), (60, 'other.bin has no sound copy of it.'),
                             (80, 'But its data and EDC are different'), (100, 'other.bin has a sound copy, which will be used.')):
            self.sees_second(block, words)
            shown = self.browser.run(f'return Boolean({BUTTON})', 'Repair from another dump')
            self.assertEqual(shown, block == 60, block)

    def test_a_damaged_sector_leads_to_the_repair_if_the_second_image_is_compared(self) -> None:
        self.open_two(torn(with_faults(), 40), with_faults())
        self.browser.answer('Compare')
        self.browser.wait('.tally', 'sector differs')
        self.press('40')
        self.press('Repair from other.bin')
        self.browser.wait('.tally', 'can be repaired')
        self.browser.wait('#panel-disc .say', 'other.bin has a sound copy, which will be used.')

    def test_a_dump_with_sectors_missing_is_said_to_be_shifted(self) -> None:
        image = with_faults((40, 9))
        missing = with_faults()[:100 * SECTOR_SIZE] + with_faults()[102 * SECTOR_SIZE:] + AUDIO[:2 * SECTOR_SIZE]
        self.pair(image, missing)
        self.browser.wait('#second-body .say.bad', 'The second image is shifted by 2 sectors from block 100 on.')
        self.browser.wait('#second-body .say.bad', '2 sectors before it are missing. Nothing was copied.')

    def test_an_image_of_another_part_of_the_disc_can_only_be_opened_instead(self) -> None:
        users = [b'%d' % block for block in range(40)]
        self.open_two(image_of(users), image_of(users, 1000))
        self.browser.wait('#sheet', 'It is a different part of the disc from game.bin.')
        self.assertEqual(self.browser.run('return [...document.querySelectorAll("#sheet button")].map(it => it.innerText)'), ['Open it instead', 'Cancel'])
        self.assertEqual(self.browser.run('return document.querySelector("#sheet .main").innerText'), 'Open it instead')

    def test_every_control_has_a_name_and_nothing_is_sent(self) -> None:
        self.pair(torn(with_faults((30, 9)), 40, 60), torn(with_faults(), 60, by=0xAA))
        self.browser.wait('[aria-label="Without a sound copy: 1"]')
        self.assertEqual(self.browser.nameless(), [])
        for width in (360, 620, 900, 1180, 1600):
            self.assertLessEqual(self.browser.wider(width), 0, width)
        self.assertEqual(self.browser.attempts(), [])

    def test_what_is_compared_ends_with_the_second_image(self) -> None:
        browser = self.browser
        files = discs.written(game=discs.game() * 120, other=discs.game() * 120)
        self.open_files(files['game'])
        browser.wait('#disc-line .lead', 'Sectors are missing or extra in 119 places')
        browser.run('''const post = Worker.prototype.postMessage; Object.assign(globalThis, { late: [], ranges: 0 });
            Worker.prototype.postMessage = function (...given) {
                globalThis.ranges += Number(Boolean(given[0].pieces));
                if (given[0].pieces && late) late.push(() => post.apply(this, given));
                else post.apply(this, given);
            }''')
        self.open_files(files['other'])
        browser.answer('Compare')
        browser.wait('#second-body .progress')
        waited(lambda: browser.run('return ranges > 0'), 'nothing is compared')
        self.browser.run('document.querySelector("[aria-labelledby=second-title] header button:last-child").click()')
        begun = browser.run('const [first] = [late]; late = null; first.forEach(it => it()); return first.length')
        browser.click('#tab-text')
        browser.type('#find-text', 'no such text')
        browser.press(Keys.ENTER)
        browser.wait('#panel-text .say', 'No hit')
        found = math.ceil(120 * (SECTORS - 30) / 1024)
        self.assertLessEqual(browser.run('return ranges') - found, begun + 1)
