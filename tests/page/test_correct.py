"""The correction of damaged sectors from their own parity: of one sector by lines of the script, and of all in a saved image. The results are
compared with those of `cdscript merge --parity` and `cdpatch apply`."""

import random
import subprocess
from pathlib import Path

import chromium
import common
import discs
from common import SECTOR_SIZE, damaged, sha1, text, waited
from keys import Keys
from pages import HELD, PICKER, UNSEEN, PageTest, applied

# The visible buttons of the card of a sector, in order, with a mark for those that are off.
OFFERED = '''return [...document.querySelectorAll('#panel-disc .say.thin .btn')].filter(it => it.checkVisibility())
    .map(it => it.innerText.trim() + (it.getAttribute('aria-disabled') === 'true' ? ' (off)' : ''))'''

REPAIR, REBUILD = 'Repair from another dump…', 'Add rebuild to the script'
CORRECT, ALL = 'Correct it', 'Correct all from parity…'
DONE, OPEN = 'The correction is in the script (off)', 'Open Script'


def harmed(image: bytes, block: int, *places: int) -> bytes:
    """Changes these bytes of a sector, counted from its beginning."""
    made = bytearray(image)
    for at in places:
        made[block * SECTOR_SIZE + at] ^= 0x5A + at % 3
    return bytes(made)


def spread(count: int, seed: int) -> list[int]:
    """Places of wrong bytes in user data, Intermediate field, P, and Q."""
    return random.Random(seed).sample([*range(16, 2064), *range(2068, SECTOR_SIZE)], count)


def merged(image: Path) -> tuple[str, bytes]:
    """The output of `cdscript merge --parity` without another dump, and the image that it writes."""
    out = common.folder('merged') / 'out.bin'
    ran = subprocess.run([common.cdscript(), 'merge', '--parity', image, out], stdout=subprocess.PIPE, stderr=subprocess.DEVNULL, check=False)
    return ran.stdout.decode(), out.read_bytes()


def worn() -> bytes:
    """The game with sectors that parity corrects (20, 21, 40, 60), and others that it does not (80: 200 bytes, 81: EDC, 82: header)."""
    image = harmed(discs.game(), 20, 16 + 484)
    image = harmed(image, 21, *spread(16, 1))
    image = harmed(image, 40, 2100)  # in P
    image = harmed(image, 60, *range(900, 980))
    image = harmed(image, 80, *range(500, 700))
    return harmed(harmed(image, 81, 2065), 82, 14)


class Correct(PageTest):
    stub = PICKER

    def sector_of(self, block: int, image: bytes) -> Path:
        """Opens an image and the card of one of its sectors. Returns the path of the image."""
        path = discs.written(game=image)['game']
        self.open_image(path)
        self.go_to(block)
        self.browser.wait('#panel-disc .say.thin')
        return path

    def offered(self) -> list[str]:
        return list(self.browser.run(OFFERED))

    def waits_for(self, *buttons: str) -> None:
        waited(lambda: self.offered() == [*buttons], f'other buttons: {self.offered()}')

    def corrects_alone(self, block: int, image: bytes) -> str:
        """Opens a damaged sector, corrects it, and compares the patched image with the undamaged one and the command's. Returns the script."""
        path = self.sector_of(block, image)
        self.waits_for(CORRECT, ALL, REBUILD)
        self.press(CORRECT)
        self.waits_for(DONE, ALL, OPEN)
        changed = "return [...document.querySelectorAll('.hex i.new')].map(it => Number(it.dataset.at))"
        places = [at for at in range(SECTOR_SIZE) if image[block * SECTOR_SIZE + at] != discs.game()[block * SECTOR_SIZE + at]]
        waited(lambda: self.browser.run(changed) == places, 'other bytes are shown as changed')
        self.browser.click('#tab-script')
        script = self.script_text()
        self.press_save()
        self.browser.wait('#panel-script .say.good', 'Saved: ')
        self.assertEqual(self.chosen_bytes(), discs.game())
        self.assertEqual((merged(path)[1], applied(path, discs.written(script=script)['script'])[2]), (discs.game(), discs.game()))
        return script

    def test_a_wrong_byte_is_corrected_by_lines_of_the_script(self) -> None:
        block, image = 60, harmed(discs.game(), 60, 16 + 484)
        sector, wrong = (it[block * SECTOR_SIZE:(block + 1) * SECTOR_SIZE] for it in (discs.game(), image))
        old, fresh = (f'{it[16 + 484]:02X}' for it in (wrong, sector))
        script = self.corrects_alone(block, image)
        self.assertEqual(script, f'cdpatch 1\nrebuild {block}\nset {block} 484 {fresh} was {old}\n')
        self.browser.click('#tab-disc')
        said = self.browser.text('#panel-disc .say.bad')
        self.assertIn(f'P and Q give {fresh} in place of {old} at offset 484. The EDC then matches. '
                      f'It is the EDC that was read, {sector[2064:2068].hex(" ").upper()}, and all of P and Q match too.', said)
        self.assertIn('Lines 2 to 3 of the script correct this sector from its own parity.', said)
        self.assertIn('Corrected in the script, but not in this file', said)
        self.assertIn('Only after a rebuild can a damaged sector be patched.', said)
        self.press(OPEN)
        self.browser.wait('#panel-script .explain', 'Line 2')

    def test_sixteen_wrong_bytes_are_corrected(self) -> None:
        places = sorted(spread(16, 7))
        script = self.corrects_alone(60, harmed(discs.game(), 60, *places))
        self.assertIn('\nset 60 ', script)
        self.browser.click('#tab-disc')
        self.browser.wait('#panel-disc .say.bad', f'P and Q give 16 other bytes, byte {places[0]} to {places[-1]} of the sector. The EDC then matches.')

    def test_damage_of_the_parity_alone_is_corrected(self) -> None:
        self.assertEqual(self.corrects_alone(60, harmed(discs.game(), 60, 2100, 2300)), 'cdpatch 1\nrebuild 60\n')
        self.browser.click('#tab-disc')
        self.browser.wait('#panel-disc .say.warn', 'Line 2 of the script corrects this sector from its own parity.')

    def test_nothing_is_corrected_without_being_asked(self) -> None:
        self.sector_of(60, worn())
        self.waits_for(CORRECT, ALL, REBUILD)
        self.assertTrue(self.browser.run('return document.querySelector("#count-script").hidden'))
        self.assertFalse(self.browser.run('return document.querySelector("#second-title").checkVisibility()'))

    def test_a_sector_that_parity_cannot_correct_has_no_such_offer(self) -> None:
        self.sector_of(80, worn())
        self.waits_for(REPAIR, REBUILD)
        for block, at in ((81, 'byte 2065'), (82, 'byte 14')):
            self.go_to(block)
            self.browser.wait('#panel-disc .say.bad', f'at {at} of the sector.')
            self.assertIn(text('sectorNeverCorrected'), self.browser.text('#panel-disc .say.bad'))
            self.waits_for(REPAIR, REBUILD)
        self.go_to(70)
        self.browser.wait('#panel-disc .say.good', 'This sector is sound.')
        self.waits_for()

    def test_a_correction_comes_before_the_patches_of_its_sector(self) -> None:
        path = self.sector_of(60, damaged(discs.game(), 60, 1000))
        self.browser.wait('.hex .line')
        self.browser.send('.hex', Keys.ARROW_RIGHT, 'c', '0')
        waited(lambda: self.browser.text('#count-script').startswith('1'), 'no line in the script')
        self.press(CORRECT)
        self.browser.wait('#panel-disc .say.bad', 'Lines 2 to 3 of the script correct this sector from its own parity.')
        self.assertEqual(self.browser.text('#announced'), 'Lines 2 to 3 of the script correct this sector from its own parity.')
        self.assertEqual(self.focused().split(': ')[1], 'The correction is in the script')
        self.browser.click('#tab-script')
        script = self.script_text()
        old, other = (discs.game()[60 * SECTOR_SIZE + 16 + at] for at in (1000, 1001))
        self.assertEqual(script, f'cdpatch 1\nrebuild 60\nset 60 1000 {old:02X} was {old ^ 0x55:02X}\nset 60 1001 C0 was {other:02X}\n')
        self.assertEqual(applied(path, discs.written(script=script)['script'])[:2], (0, ''.join(f'line {n}: applied\n' for n in (2, 3, 4)) + 'applied 3 refused 0\n'))
        self.edit('z', held=Keys.CONTROL)
        self.browser.click('#tab-disc')
        self.waits_for(CORRECT, ALL, REBUILD)

    def test_a_line_that_expects_a_wrong_byte_has_to_be_removed_first(self) -> None:
        self.sector_of(60, damaged(discs.game(), 60, 1000))
        self.browser.wait('.hex .line')
        self.browser.send('.hex', 'c', '0')
        self.browser.wait('#panel-disc .say.bad', 'Line 2 of the script expects bytes that a correction would change')
        self.waits_for(f'{CORRECT} (off)', ALL, REBUILD)
        self.press_off(CORRECT)
        self.sees(True, lambda: self.browser.text('#count-script').startswith('1'))

    def test_a_line_that_expects_the_corrected_byte_does_not_hinder_a_correction(self) -> None:
        image = damaged(discs.game(), 60, 1000)
        at = 60 * SECTOR_SIZE + 16
        right = discs.game()[at + 999:at + 1002].hex().upper()
        line = f'set 60 999 010203 was {right}\n'
        self.sector_of(60, image)
        self.open_script(discs.written(script=f'cdpatch 1\n{line}')['script'])
        self.browser.click('#tab-disc')
        self.waits_for(CORRECT, ALL, REBUILD)
        self.press(CORRECT)
        self.browser.wait('#panel-disc .say.bad', 'Lines 2 to 3 of the script correct this sector from its own parity.')
        self.browser.click('#tab-script')
        script = self.script_text()
        self.assertEqual(script, f'cdpatch 1\nrebuild 60\nset 60 1000 {right[2:4]} was {int(right[2:4], 16) ^ 0x55:02X}\n{line}')
        made = applied(discs.written(game=image)['game'], discs.written(script=script)['script'])
        due = applied(discs.written(whole=discs.game())['whole'], discs.written(alone=f'cdpatch 1\n{line}')['alone'])
        self.assertEqual((made[0], made[2]), (0, due[2]))

    # ---- all sectors

    def all_counted(self) -> list[int]:
        self.browser.wait('#second-body .tally')
        return [int(it) for it in self.browser.run('return [...document.querySelectorAll("#second-body .tally b")].map(it => it.innerText)')]

    @common.in_check
    def test_all_sectors_are_counted_before_a_corrected_image_is_saved(self) -> None:
        path = self.sector_of(60, worn())
        self.press(ALL)
        self.assertEqual(self.all_counted(), [4, 3])
        self.assertEqual(self.planned(), {'By their own parity': (4, 'blocks 20 to 21, 40 and 60'), 'Not corrected': (3, 'blocks 80 to 82')})
        self.assertEqual(self.browser.run('return chosen.asked'), 0)
        self.press('Save repaired image')
        self.browser.wait('#second-body .say.warn', 'Saved: game (repaired).bin')
        self.browser.wait('#second-body .say.warn', '4 sectors repaired. 3 are still damaged: blocks 80 to 82.')
        lines, due = merged(path)
        self.assertEqual([line for line in lines.splitlines() if line.endswith('from its own parity')],
                         [f'{it} from its own parity' for it in ('20-21', '40-40', '60-60')])
        self.assertEqual(self.chosen_bytes(), due)
        self.browser.wait('#repaired-sha1', sha1(due))
        self.assertTrue(self.browser.run('return document.querySelector("#count-script").hidden'))
        self.press('Open the new image')
        self.browser.wait('#disc-line .name', 'game (repaired).bin')
        self.is_gone('#second-title')

    def test_all_corrections_as_a_script_give_the_same_image(self) -> None:
        path = discs.written(game=worn())['game']
        self.open_image(path)
        self.press(text('imageCorrectFromParity'))
        self.all_counted()
        self.press_in('second', text('secondWriteRepairAsScript'))
        self.browser.wait('#second-body .say.good', 'Verified: applied to game.bin it gives exactly the repaired image.')
        self.press('Open in Script')
        self.browser.wait('#panel-script .side .say', 'match')
        script = self.script_text()
        self.assertEqual(applied(path, discs.written(script=script)['script'])[2], merged(path)[1])

    def test_the_patches_of_the_script_are_not_in_the_corrected_image(self) -> None:
        path = self.sector_of(60, worn())
        self.open_script(discs.written(english='cdpatch 1\nset 90 0 4142\n')['english'])
        self.browser.click('#tab-disc')
        self.press(ALL)
        self.browser.wait('#second-body', text('correctWithoutScript'))
        self.press('Save repaired image')
        self.browser.wait('#second-body .say.warn', 'Saved: ')
        self.assertEqual(self.chosen_bytes(), merged(path)[1])
        self.press('Open the new image')
        self.browser.wait('#disc-line .name', 'game (repaired).bin')
        self.assertTrue(self.browser.text('#count-script').startswith('1'))

    def test_only_patches_that_the_corrected_image_lacks_are_mentioned(self) -> None:
        self.sector_of(60, worn())
        self.press(CORRECT)
        self.waits_for(DONE, ALL, OPEN)
        self.press(ALL)
        self.all_counted()
        self.assertNotIn(text('correctWithoutScript'), self.browser.text('#second-body'))
        self.open_script(discs.written(english='cdpatch 1\nset 90 0 4142\n')['english'])
        self.browser.click('#tab-disc')
        self.browser.wait('#second-body', text('correctWithoutScript'))

    def test_the_first_finding_is_shown_from_its_heading_on(self) -> None:
        self.open_image(discs.written(game=worn())['game'])
        self.browser.size(360, 740)
        self.press('Go to the first')
        self.browser.wait('#panel-disc .say.thin', 'P and Q')
        waited(lambda: self.browser.run(UNSEEN, '#sector-title') <= 0, 'the heading is not in view')

    def test_the_correction_of_all_is_cancelled(self) -> None:
        self.sector_of(60, worn())
        self.browser.run(HELD)
        self.press(ALL)
        self.browser.wait('#second-body .progress')
        self.press('Cancel')
        self.browser.wait('#second-body', 'Cancelled.')
        self.assertFalse(self.browser.run('return document.querySelector("#second-body .tally") !== null'))
        self.browser.run('letGo()')
        self.press('Start over')
        self.assertEqual(self.all_counted(), [4, 3])

    def test_while_a_corrected_image_is_saved_nothing_is_closed(self) -> None:
        self.sector_of(60, worn())
        self.press(ALL)
        self.all_counted()
        self.begins('Save repaired image')
        self.assertTrue(self.browser.asks_before_leaving())
        self.browser.run('document.querySelector("[aria-labelledby=second-title] header [aria-label=Close]").click()')
        self.browser.wait('[aria-labelledby=second-title] .while-saving', text('imageBeingSaved'))
        self.go_to(20)
        self.press(ALL)
        self.browser.wait('#second-body .is-busy')
        self.browser.run('chosen.release()')
        self.browser.wait('#second-body .say.warn', 'Saved: ')
        self.assertFalse(self.browser.asks_before_leaving())
        self.browser.run('document.querySelector("[aria-labelledby=second-title] header [aria-label=Close]").click()')
        self.is_gone('#second-title')

    def test_a_closed_image_ends_the_correction(self) -> None:
        self.sector_of(60, worn())
        self.browser.run(HELD)
        self.press(ALL)
        self.browser.wait('#second-body .progress')
        self.press_in('image', 'Close the image')
        self.browser.wait('#start h1')
        self.browser.run('letGo()')
        self.open_image(discs.written(other=discs.game())['other'])
        self.is_gone('#second-title')

    # ---- a second image, and everyone

    def test_a_correction_comes_before_a_sound_copy_and_the_plan_uses_it(self) -> None:
        image = harmed(harmed(damaged(discs.game(), 40), 50, *range(500, 800)), 60, *range(500, 800))
        other = bytearray(damaged(discs.game(), 60, 500))
        other[40 * SECTOR_SIZE:41 * SECTOR_SIZE] = common.sector(40, b'another release')
        files = discs.written(game=image, other=bytes(other))
        self.open_image(files['game'])
        self.open_files(files['other'])
        self.browser.answer()
        self.browser.wait('.tally', 'can be repaired')
        self.assertEqual(self.planned(), {'By their own parity': (1, 'block 40'), 'From other.bin': (1, 'block 50'), 'Without a sound copy': (1, 'block 60')})
        self.assertNotIn('Nothing confirms', self.browser.text('#second-body'))
        self.go_to(40)
        self.waits_for(CORRECT, ALL, REPAIR, REBUILD)
        self.assertNotIn('other.bin', self.browser.text('#panel-disc .say.thin'))
        for block, words in ((50, 'other.bin has a sound copy, which will be used.'), (60, 'other.bin has no sound copy of it.')):
            self.go_to(block)
            self.browser.wait('#panel-disc .say.thin', words)

    def test_a_sync_field_is_restored_with_all_others_and_by_no_patch(self) -> None:
        image = harmed(harmed(harmed(discs.game(), 40, 3, 7), 60, 5), 60, 900)
        path = self.sector_of(40, image)
        self.browser.wait('#panel-disc .say.bad', 'Only its sync field is lost: the EDC confirms the rest.')
        self.waits_for(ALL, REPAIR)
        self.press(ALL)
        self.assertEqual(self.all_counted(), [1, 1])
        self.press('Save repaired image')
        self.browser.wait('#second-body .say.warn', 'Saved: ')
        due = harmed(harmed(discs.game(), 60, 5), 60, 900)
        self.assertEqual((self.chosen_bytes(), merged(path)[1]), (due, due))

    def tab_to(self, label: str) -> None:
        for _ in range(60):
            self.browser.press(Keys.TAB)
            if self.browser.run('return document.activeElement.innerText') == label:
                return
        self.fail(f'Tab does not reach {label}')

    def test_it_is_done_by_the_keyboard_and_on_a_phone(self) -> None:
        browser: chromium.Chromium = self.browser
        self.sector_of(60, worn())
        browser.size(360, 740)
        self.assertLessEqual(browser.wider(360), 0)
        browser.send('#go-to', '')
        self.tab_to(ALL)
        browser.press(Keys.ENTER)
        self.assertEqual(self.all_counted(), [4, 3])
        self.wait_for_focus('#second-body')
        self.assertLessEqual(browser.run(UNSEEN, '#second-title'), 0)
        for width in (360, 620, 900, 1180):
            self.assertLessEqual(browser.wider(width), 0, width)
        self.assertEqual(browser.nameless(), [])
        self.tab_to(text('secondSaveRepaired'))
        self.assertEqual(browser.attempts(), [])
