"""Publish, and the patcher as players see it: its bytes, the four verdicts, the saved files, and hostile or broken patchers."""

import base64
import json
import re
import zlib
from typing import Any

import common
import discs
from common import SECTOR_SIZE
from pages import GATE, PICKER, UNSEEN, PageTest, applied, patcher, result

CUE = discs.sheet_of(game=discs.DATA)
HOSTILE = '<img src=x onerror=alert(1)>'

# Adds a style to the page as a browser extension does, before or after the page's own.
FOREIGN = '''const it = document.createElement('style');
    it.textContent = 'body { filter: invert(1) }';
    document.head[arguments[0]](it)'''


# Notes whether the focus scrolls to a step of the player.
FOCUSING = '''globalThis.scrolling = false;
    const { focus } = HTMLElement.prototype;
    HTMLElement.prototype.focus = function (how) {
        scrolling ||= this.matches('.step') && !how?.preventScroll;
        return focus.call(this, how);
    }'''


def data_of(saved: bytes) -> dict[str, Any]:
    """The data after the page in a patcher."""
    packed = saved[len(common.PAGE.read_bytes()):].split(b'\n')[1]
    head, script = zlib.decompress(base64.b64decode(packed)).split(b'\n', 1)
    return {**json.loads(head), 'script': script.decode()}


class Publish(PageTest):
    def publish(self, *files: str) -> None:
        """Opens the game with a script, and types the title."""
        paths = discs.written(game=discs.game(), english=discs.script())
        cue = paths['game'].with_suffix('.cue')
        cue.write_text(CUE)
        self.open_files(*([cue] if files else []), paths['game'])
        self.wait_for_hash()
        self.open_script(paths['english'])
        self.browser.click('#tab-publish')
        self.browser.wait('#panel-publish', 'english.txt: 4 of 6 patches match game.bin, 2 have no old bytes to compare.')
        self.browser.type('#patcher-title', HOSTILE)

    @common.in_check
    def test_a_patcher_is_the_page_byte_for_byte_and_data_after_it(self) -> None:
        self.publish()
        self.browser.type('#patcher-note', 'All menus.')
        self.press('Save as a patcher')
        saved = self.browser.downloaded('img src=x onerror=alert(1).html').read_bytes()
        page = common.PAGE.read_bytes()
        self.assertEqual(saved[:len(page)], page)
        self.assertEqual(saved[len(page):len(page) + 15], b'cdpatch-data 1 ')
        self.assertEqual(set(saved[len(page):]) & set(b'<>&"\''), set())
        self.browser.wait('#panel-publish .say.good', 'Saved: img src=x onerror=alert(1).html')
        self.assertEqual(self.browser.attempts(), [])

    @common.in_check
    def test_the_published_copy_is_a_player_with_a_cue_sheet(self) -> None:
        self.publish('cue')
        self.browser.type('#patcher-name', 'Starlit.bin')
        self.press('Save as a patcher')
        saved = self.browser.downloaded('img src=x onerror=alert(1).html')
        self.browser.open(saved)
        self.browser.wait('#player h1', HOSTILE)
        self.browser.give('#player-files', [discs.written(game=discs.game())['game']])
        self.browser.wait('#verdict', common.text('playerRightDisc'))
        self.assertIn('6 patches. The new file needs 0.4\u00a0MB of space.', self.browser.text('#player'))
        self.press('Patch and save')
        self.assertEqual(self.browser.downloaded('Starlit.bin').read_bytes(), result())
        self.browser.wait('#player', 'It is exactly the image that the author made: the SHA-1 is the same.')
        self.press('Save the cue sheet')
        sheet = self.browser.downloaded('Starlit.cue')
        self.assertEqual(common.waited(sheet.read_text, 'the cue sheet is empty'), CUE.replace('game.bin', 'Starlit.bin'))
        self.assertEqual(self.browser.run('return document.images.length'), 0)
        self.assertEqual(self.browser.attempts(), [])

    def test_the_language_is_in_the_patcher_only_if_the_author_chose_one(self) -> None:
        self.publish()
        name = 'img src=x onerror=alert(1).html'
        self.press('Save as a patcher')
        self.assertNotIn('language', data_of(self.browser.downloaded(name).read_bytes()))
        self.browser.run('const it = document.querySelector("#patcher-language"); it.value = "fr"; it.dispatchEvent(new Event("change"))')
        self.press('Preview as a player')
        self.browser.wait('#player .step.now', common.text('playerYourDisc', 'fr'))
        self.assertEqual(self.browser.run('return document.activeElement.innerText'), common.text('playerChooseTheImage', 'fr'))
        self.press(common.text('playerBackToPublish', 'fr'))
        self.browser.wait('#panel-publish h2', 'A patcher for your players')
        self.assertEqual(self.browser.run('return document.activeElement.innerText'), 'Preview as a player')
        (self.browser.downloads / name).unlink()
        self.press('Save as a patcher')
        saved = self.browser.downloaded(name)
        self.assertEqual(data_of(saved.read_bytes())['language'], 'fr')
        self.browser.open(saved)
        self.press(common.text('playerOpenInFullCdpatch', 'fr'))
        self.sees('fr', 'return document.querySelector("#patcher-language").value')

    def fields(self) -> list[str]:
        """What is in the fields of the title, the author, and the note."""
        return [str(self.browser.run(f"return document.querySelector('#patcher-{name}').value")) for name in ('title', 'author', 'note')]

    def test_the_title_the_author_and_the_note_are_kept_in_the_script(self) -> None:
        paths = discs.written(game=discs.game(), english=discs.script(), other=discs.named())
        typed = ['Starlit', 'Team Comet, é', 'All menus.\n\n  Chapter 1: 星空']
        self.open_image(paths['game'])
        self.open_script(paths['english'])
        self.browser.click('#tab-publish')
        for name, text in zip(('title', 'author', 'note'), typed):
            self.browser.type(f'#patcher-{name}', text)
        self.press('Keep these in the script')
        self.browser.wait('#panel-publish .say.good', 'are comments of the script now')
        self.browser.click('#tab-script')
        kept = self.script_text()
        head, *lines = discs.script().splitlines(keepends=True)
        comments = ['title: Starlit', 'by: Team Comet, é', 'note: All menus.', 'note:', 'note:   Chapter 1: 星空']
        self.assertEqual(kept, head + ''.join(f'# patcher {it}\n' for it in comments) + ''.join(lines))
        self.press('Check')
        self.browser.wait('#panel-script .verdict', '4 of 6 patches match')
        self.setUp()
        self.open_image(paths['game'])
        paths['english'].write_text(kept)
        self.open_script(paths['english'])
        self.browser.click('#tab-publish')
        self.assertEqual(self.fields(), typed)
        # The entries of a script end with it, and what was typed stays.
        self.open_script(paths['other'])
        self.assertEqual(self.fields(), ['', '', ''])
        self.browser.click('#tab-publish')
        self.browser.type('#patcher-title', 'Mine')
        self.open_script(paths['english'])
        self.assertEqual(self.fields(), ['Mine', '', ''])

    def test_the_size_of_the_patcher_is_shown_before_it_is_saved(self) -> None:
        self.publish()
        self.browser.wait('#panel-publish', ' KB.')
        [said] = re.findall('About ([0-9,]+) KB', self.browser.text('#panel-publish'))
        self.press('Save as a patcher')
        saved = self.browser.downloaded('img src=x onerror=alert(1).html').read_bytes()
        self.assertAlmostEqual(int(said.replace(',', '')), len(saved) / 1000, delta=1)

    def test_publishing_makes_no_slice_for_each_patch(self) -> None:
        script = 'cdpatch 1\n' + ''.join(f'fill {block} 0 1 41\n' for block in range(200, 19000, 12))
        files = discs.written(long=discs.long_disc(), script=script)
        self.open_image(files['long'])
        self.open_script(files['script'])
        self.browser.run('''globalThis.slices = 0;
            const { slice } = Blob.prototype;
            Blob.prototype.slice = function (...given) { globalThis.slices += 1; return slice.apply(this, given); }''')
        self.browser.click('#tab-publish')
        self.browser.wait('#panel-publish', 'cdpatch cannot tell whether the 1,567 patches of script.txt match long.bin.')
        self.browser.type('#patcher-title', 'Title')
        self.press('Save as a patcher')
        saved = self.browser.downloaded('Title.html').read_bytes()
        self.assertLess(self.browser.run('return slices'), 200)
        self.assertEqual(data_of(saved)['result'], common.sha1(applied(files['long'], files['script'])[2]))

    def test_a_patcher_has_the_script_that_was_tried(self) -> None:
        self.publish()
        self.browser.run(GATE)
        self.press('Save as a patcher')
        self.browser.wait('#panel-publish .progress')
        self.press('Save as a patcher')
        self.edit('# later')
        self.browser.run('openGate()')
        saved = self.browser.downloaded('img src=x onerror=alert(1).html').read_bytes()
        self.assertEqual(data_of(saved)['script'], discs.script())
        self.assertEqual([it.name for it in self.browser.downloads.iterdir()], ['img src=x onerror=alert(1).html'])

    def refuses_changed(self, change: str, *given: str) -> None:
        """Checks that a page changed by a script saves no patcher, and says why."""
        self.publish()
        self.browser.run(change, *given)
        self.press('Save as a patcher')
        self.browser.wait('#panel-publish .say.bad', 'Something in this browser has changed this page')
        self.assertEqual(list(self.browser.downloads.iterdir()), [])

    def test_a_style_that_is_put_before_the_pages_own_lets_nothing_be_published_and_the_page_says_why(self) -> None:
        self.refuses_changed(FOREIGN, 'prepend')
        self.browser.wait('#panel-publish .say.bad', 'No patcher was saved.')

    def test_a_policy_that_is_put_before_the_pages_own_lets_nothing_be_published(self) -> None:
        self.refuses_changed('const it = document.createElement("meta"); it.httpEquiv = "Content-Security-Policy"; document.head.prepend(it)')

    def test_a_style_that_was_changed_is_not_published(self) -> None:
        self.refuses_changed('document.querySelector("style").append(" ")')

    def test_a_style_that_is_put_after_the_pages_own_is_in_no_patcher(self) -> None:
        self.publish()
        self.browser.run(FOREIGN, 'append')
        self.press('Save as a patcher')
        saved = self.browser.downloaded('img src=x onerror=alert(1).html').read_bytes()
        page = common.PAGE.read_bytes()
        self.assertEqual(saved[:len(page)], page)

    def test_it_is_refused_while_a_patch_is_refused(self) -> None:
        self.open_both(discs.game(), discs.refused())
        self.browser.click('#tab-publish')
        self.browser.wait('#panel-publish', 'english.txt: 4 of 8 patches match game.bin, 2 do not.')
        self.browser.type('#patcher-title', 'Title')
        self.assertTrue(self.is_off('Save as a patcher') and self.is_off('Preview as a player'))
        self.press('Go to line 11')
        label = 'return document.activeElement.getAttribute("aria-label")'
        self.sees(True, lambda: 'Script, line 11 of 13' in self.browser.run(label))

    def test_no_licence_is_said_above_the_button(self) -> None:
        self.publish()
        said = '' if (common.TOP / 'LICENSE').exists() else 'The publisher of this copy of cdpatch, which the patcher contains, has not given a licence yet: ' \
            'try it, but do not publish it before there is a release with a licence.'
        self.assertEqual(self.browser.text('#no-licence'), said)
        tops = "return ['#no-licence', '.btn.main'].map(css => document.querySelector(`#panel-publish ${css}`)?.getBoundingClientRect().top ?? 0)"
        self.assertEqual(self.browser.run(tops), sorted(self.browser.run(tops)))
        self.assertIn('The old bytes come from the game (32 bytes).', self.browser.text('#panel-publish'))

    def test_an_author_sees_it_as_a_player_and_goes_back(self) -> None:
        self.publish()
        self.press('Preview as a player')
        self.browser.wait('#player h1', HOSTILE)
        self.press('Back to Publish')
        self.browser.wait('#panel-publish h2', 'A patcher for your players')
        self.assertEqual(self.browser.text('#home'), 'cdpatch')


class Player(PageTest):
    def play(self, image: bytes, script: str = '', **other: object) -> None:
        """Opens a patcher and gives it an image."""
        self.open_patcher(patcher(discs.game(), result(), script or discs.script(), **other))
        self.browser.drop('#player', [discs.written(mine=image)['mine']])

    @common.in_check
    def test_the_right_disc(self) -> None:
        self.play(discs.game())
        self.browser.wait('#verdict', common.text('playerRightDisc'))
        self.assertEqual(self.browser.run('return document.activeElement.innerText'), 'Patch and save…')
        self.press('Patch and save')
        self.assertEqual(self.browser.downloaded('Starlit (English).bin').read_bytes(), result())
        self.browser.wait('#player', 'the SHA-1 is the same')
        self.browser.wait('#player', '0.4\u00a0MB. Keep this page open until the download is complete.')

    def test_another_dump_that_the_patch_fits(self) -> None:
        other = bytearray(discs.game())
        other[150 * SECTOR_SIZE:151 * SECTOR_SIZE] = common.sector(150, b'another release')
        self.saves_other(bytes(other), 'This is a different dump, but the patch matches it.', 'Patch and save')
        self.assertIn('All 4 places match. The rest of the disc differs from the author’s.', self.browser.text('#player'))

    def test_for_a_damaged_dump_another_one_is_the_main_choice_and_patching_it_the_second(self) -> None:
        other = common.damaged(common.damaged(discs.game(), 30), discs.first_block() + 20)
        self.play(other, discs.named())
        self.browser.wait('#verdict', common.text('playerMatchesButDamaged'))
        said = self.browser.text('#player .say.bad')
        for words in ('All 4 places match. 2 sectors of your image are damaged. This may stop the game.', 'Damaged: /DATA/STAGE.DAT', 'The damage stays in the new file.'):
            self.assertIn(words, said)
        self.assertEqual(self.browser.run("return [...document.querySelectorAll('#player .btn.main')].map(it => it.innerText)"), ['Choose another image…'])
        marks = self.browser.run("return [...document.querySelectorAll('#player .strip i')].map(it => parseFloat(it.style.left))")
        sectors = len(other) // SECTOR_SIZE
        self.assertEqual([round(at * sectors / 100) for at in marks], [30, discs.first_block() + 20])
        self.saves_other(other, common.text('playerMatchesButDamaged'), 'Patch anyway')
        self.browser.wait('#player .step.done', '2 sectors of your image are damaged.')

    def saves_other(self, other: bytes, verdict: str, label: str) -> None:
        """Gives the patcher another dump, and compares what it saves with what the program writes."""
        self.play(other, discs.named())
        self.browser.wait('#verdict', verdict)
        self.press(label)
        files = discs.written(other=other, english=discs.named())
        self.assertEqual(self.browser.downloaded('Starlit (English).bin').read_bytes(), applied(files['other'], files['english'])[2])
        self.assertNotIn('the SHA-1 is the same', self.browser.text('#player'))

    @common.in_check
    def test_another_dump_that_the_patch_does_not_fit(self) -> None:
        block = discs.first_block()
        user = bytearray(discs.game()[block * 2352 + 16:block * 2352 + 2064])
        user[0:2] = b'XX'
        other = discs.game()[:block * 2352] + common.sector(block, bytes(user)) + discs.game()[(block + 1) * 2352:]
        self.play(other)
        self.browser.wait('#verdict', 'This is a different dump, and the patch does not match it.')
        self.assertIn('1 of 6 places to patch contains different bytes.', self.browser.text('#player'))
        self.assertIn(common.text('playerOlderPatchPerhaps'), self.browser.text('#player'))
        self.press('Details')
        self.browser.wait('.hashes', f'refused: old bytes differ at block {block} offset 0')
        self.assertEqual(list(self.browser.downloads.iterdir()), [])
        self.press('Save with the other 5 patches')
        files = discs.written(other=other, english=discs.script())
        self.assertEqual(self.browser.downloaded('Starlit (English).bin').read_bytes(), applied(files['other'], files['english'])[2])
        self.browser.wait('#player', f'1 patch left out. {common.text("playerGameMayStop")}')

    def test_the_warnings_about_an_image_stay_after_saving(self) -> None:
        self.play(discs.game()[:-2352 * 2], discs.named())
        self.browser.wait('#verdict', common.text('playerCannotTell'))
        self.press('Patch anyway')
        self.browser.wait('#saved')
        self.assertIn(common.text('playerFileProbablyCut'), self.browser.text('#player .step.done'))

    def test_a_damaged_dump_is_not_called_another_release(self) -> None:
        self.play(common.damaged(discs.game(), discs.first_block() + 1))
        self.browser.wait('#verdict', 'This dump is damaged where the patch needs to write.')
        self.assertIn('1 of 6 places to patch is damaged.', self.browser.text('#player'))
        self.assertNotIn('release', self.browser.text('#player'))

    def test_an_image_that_is_patched_already(self) -> None:
        self.play(result())
        self.browser.wait('#verdict', common.text('playerImageIsPatched'))
        self.assertIn('There is nothing to do.', self.browser.text('#player'))

    def test_an_image_that_is_patched_already_has_its_cue_sheet(self) -> None:
        self.open_patcher(patcher(discs.game(), result(), discs.script()))
        image = discs.written(mine=result())['mine']
        sheet = image.with_suffix('.cue')
        sheet.write_text(discs.sheet_of(mine=discs.DATA))
        self.browser.drop('#player', [sheet, image])
        self.browser.wait('#verdict', common.text('playerImageIsPatched'))
        self.press('Save the cue sheet')
        saved = self.browser.downloaded('mine.cue')
        self.assertEqual(common.waited(saved.read_text, 'the cue sheet is empty'), sheet.read_text())

    def saves_sheet(self, label: str, file: str) -> None:
        """Patches the image, and saves a cue sheet that names the patched image by its stem."""
        self.press('Patch and save')
        self.press(label)
        saved = self.browser.downloaded('Starlit (English).cue')
        sheet = discs.sheet_of(**{file: discs.DATA})
        common.waited(lambda: saved.read_text() == sheet, f'another cue sheet: {saved.read_text()}')
        saved.unlink()
        self.browser.wait('#player .step.now', 'Saved. Now open Starlit (English).cue in your emulator.')

    def test_without_a_cue_sheet_one_is_made_for_a_disc_of_one_track(self) -> None:
        self.play(discs.game())
        self.saves_sheet('Save a cue sheet', 'Starlit (English)')
        self.assertIn('if you have a .cue of the old image, it starts the old game', self.browser.text('#player .step.now'))

    def test_of_a_disc_with_music_no_cue_sheet_is_made_up(self) -> None:
        music = bytes(range(1, 253)) * 28 * 20
        files = discs.written(mine=discs.game() + music, script=discs.script())
        self.open_patcher(patcher(discs.game() + music, applied(files['mine'], files['script'])[2], discs.script()))
        self.browser.drop('#player', [files['mine']])
        self.browser.run(FOCUSING)
        self.press('Patch and save')
        self.browser.wait('#player .step.now', 'Open Starlit (English).bin in your emulator.')
        self.assertIn('if you have a .cue of the old image, it starts the old game', self.browser.text('#player .step.now'))
        self.assertNotIn('Save a cue sheet', self.browser.text('#player'))
        self.assertTrue(self.browser.run('return document.activeElement.matches(".step:last-child")'))
        self.assertFalse(self.browser.run('return scrolling'), 'the page jumps to the step before it is scrolled there')

    def test_a_player_may_choose_his_cue_sheet_after_the_image_was_saved(self) -> None:
        self.play(discs.game())
        self.press('Patch and save')
        self.browser.wait('#player .step.now', 'if you have a .cue of the old image, it starts the old game')
        place = common.folder('sheets')
        for name, text in (('other.cue', CUE), ('song.cue', 'REM a song\n'), ('noise.cue', '\0' * 5000)):
            (place / name).write_text(text)
            self.browser.give('#player-sheet', [place / name])
            self.browser.wait('#player .step.now .say.bad', f'This is not a cue sheet that names your image: {name}')
        tracks = 'FILE "{}" BINARY\n  TRACK 01 MODE1/2352\n    INDEX 01 00:00:00\nFILE "song.bin" BINARY\n  TRACK 02 AUDIO\n    INDEX 01 00:00:00\n'
        (place / 'mine.cue').write_text(tracks.format('MINE.bin'))
        self.browser.give('#player-sheet', [place / 'mine.cue'])
        self.browser.wait('#player .step.now', 'Copy this file to the same folder too, because the cue sheet needs it: song.bin.')
        self.assertNotIn('if you have a .cue of the old image', self.browser.text('#player'))
        self.assertEqual(self.browser.run('return document.activeElement.innerText'), 'Save the cue sheet…')
        self.press('Save the cue sheet')
        saved = self.browser.downloaded('Starlit (English).cue')
        common.waited(lambda: saved.read_text() == tracks.format('Starlit (English).bin'), 'another cue sheet')

    def test_a_cue_sheet_and_its_image_may_be_chosen_one_after_the_other(self) -> None:
        image = discs.written(mine=discs.game())['mine']
        sheet = image.with_suffix('.cue')
        sheet.write_text(discs.sheet_of(mine=discs.DATA))
        for first, then, said in ((sheet, image, '.say.bad'), (image, sheet, '#verdict')):
            self.open_patcher(patcher(discs.game(), result(), discs.script()))
            self.browser.drop('#player', [first])
            self.browser.wait(said)
            self.browser.run('document.querySelector(arguments[0]).remove()', said)
            self.browser.drop('#player', [then])
            self.browser.wait('#verdict', common.text('playerRightDisc'))
            self.saves_sheet('Save the cue sheet', 'Starlit (English)')

    def test_on_a_phone_the_last_step_comes_into_view(self) -> None:
        self.browser.size(360, 640)
        self.play(discs.game())
        self.press('Patch and save')
        self.browser.wait('#saved')
        # The page scrolls by whole pixels.
        common.waited(lambda: self.browser.run(UNSEEN, '#player .step:last-child') < 1, 'the last step is out of the window')

    def test_what_else_the_cue_sheet_names_is_to_be_copied(self) -> None:
        self.open_patcher(patcher(discs.game(), result(), discs.script()))
        image = discs.written(mine=result())['mine']
        sheet = image.with_suffix('.cue')
        sheet.write_text(discs.sheet_of(mine=discs.DATA, **{f'song {track}': 'AUDIO' for track in range(2, 9)}))
        self.browser.drop('#player', [sheet, image])
        self.browser.wait('#player .step.now', 'Save this one next to mine.bin.')
        self.browser.wait('#player .step.now', 'Copy these files to the same folder too, because the cue sheet needs them: song 2.bin, song 3.bin, song 4.bin, song 5.bin and 3 more files.')

    def test_a_renamed_image_is_to_be_chosen_without_its_cue_sheet(self) -> None:
        self.open_patcher(patcher(discs.game(), result(), discs.script()))
        image = discs.written(mine=discs.game())['mine']
        sheet = image.with_suffix('.cue')
        sheet.write_text(CUE)
        self.browser.drop('#player', [sheet, image])
        self.browser.wait('#player .say.bad', 'mine.cue names game.bin, not mine.bin.')
        self.browser.wait('#player .say.bad', common.text('playerRenamedWithoutSheet'))
        self.browser.drop('#player', [image])
        self.browser.wait('#verdict', common.text('playerRightDisc'))
        # A file that the sheet names was not renamed.
        sheet.write_text(discs.sheet_of(mine='AUDIO', game=discs.DATA))
        self.browser.drop('#player', [sheet, image])
        self.browser.wait('#player .say.bad', 'mine.cue also needs game.bin. Open them all together.')

    def other_forms(self) -> dict[str, bytes]:
        """The game as an ISO image, and as an image with subchannels."""
        sectors = [discs.game()[at:at + SECTOR_SIZE] for at in range(0, len(discs.game()), SECTOR_SIZE)]
        return {'mine.iso': b''.join(it[16:2064] for it in sectors), 'mine.img': b''.join(it + bytes(96) for it in sectors)}

    def give(self, name: str, data: bytes) -> None:
        path = common.folder('forms') / name
        path.write_bytes(data)
        self.browser.drop('#player', [path])

    def test_an_iso_image_or_one_with_subchannels_is_converted_while_it_is_read(self) -> None:
        for name, data in self.other_forms().items():
            self.open_patcher(patcher(discs.game(), result(), discs.script()))
            self.give(name, data)
            self.browser.wait('#verdict', common.text('playerRightDisc'))
            self.assertIn(common.text('playerFromIso' if name == 'mine.iso' else 'playerFromSubchannels'), self.browser.text('#player'))
            self.assertNotIn(common.text('playerIsoLacksMusic'), self.browser.text('#player'))
            self.saves_sheet('Save a cue sheet', 'Starlit (English)')
            # A cue sheet of the player's would describe other sectors.
            self.assertFalse(self.browser.run('return document.querySelector("#player-sheet") !== null'), name)
            self.assertIn('It is exactly the image that the author made: the SHA-1 is the same.', self.browser.text('#player'))
            saved = self.browser.downloaded('Starlit (English).bin')
            self.assertEqual(saved.read_bytes(), result())
            saved.unlink()

    def test_an_iso_image_is_judged_by_its_sectors(self) -> None:
        iso = self.other_forms()['mine.iso']
        self.open_patcher(patcher(discs.game(), result(discs.named()), discs.named()))
        for data, verdict in ((iso.replace(b'Start of', b'START OF'), 'playerOtherDumpFits'), (iso[:-1000], 'playerCannotTell'),
                              (b''.join(common.iso_of({'README.TXT': b'other'})).ljust(len(iso), b'x'), 'playerOtherDumpFitsNot')):
            self.give('mine.iso', data)
            self.browser.wait('#verdict', common.text(verdict))
        self.give('mine.iso', iso.ljust(2048 * 449851, b'x'))
        self.browser.wait('#player .say.bad', 'mine.iso is an image that is larger than a CD')

    def test_an_iso_image_lacks_the_music_of_the_authors_disc(self) -> None:
        music = 'FILE "Starlit (English).bin" BINARY\n  TRACK 01 MODE1/2352\n    INDEX 01 00:00:00\n'
        song = '  TRACK 02 AUDIO\n    INDEX 01 00:02:33\n'
        whole = discs.game() + bytes(range(250)) * SECTOR_SIZE
        self.open_patcher(patcher(whole, result(discs.named()), discs.named(), cue=music + song, name='Starlit (English).bin'))
        self.give('mine.iso', self.other_forms()['mine.iso'])
        self.browser.wait('#verdict', common.text('playerCannotTell'))
        self.assertIn(common.text('playerIsoLacksMusic'), self.browser.text('#player'))
        self.assertNotIn(common.text('playerFileProbablyCut'), self.browser.text('#player'))
        self.press('Patch anyway')
        self.press('Save a cue sheet')
        saved = self.browser.downloaded('Starlit (English).cue')
        common.waited(lambda: saved.read_text() == discs.sheet_of(**{'Starlit (English)': discs.DATA}), 'another cue sheet')
        # In a file of its own the music is no part of the image, but an ISO image still comes without it.
        self.open_patcher(patcher(discs.game(), result(), discs.script(), cue=music + song.replace('  T', 'FILE "song.bin" BINARY\n  T', 1)))
        self.give('mine.iso', self.other_forms()['mine.iso'])
        self.browser.wait('#verdict', common.text('playerRightDisc'))
        self.assertIn(common.text('playerIsoLacksMusic'), self.browser.text('#player'))

    def test_no_player_is_sent_to_a_command_of_cdpatch(self) -> None:
        self.open_patcher(patcher(discs.game(), result(), discs.script()))
        mode2 = discs.mode2(700)
        self.give('mine.bin', b''.join(mode2[at + 16:at + SECTOR_SIZE] for at in range(0, len(mode2), SECTOR_SIZE)))
        self.browser.wait('#player .say.bad', 'mine.bin is an image of 2336 bytes per sector: Mode 2, which no patch can change.')
        self.assertNotIn('cdscript', self.browser.text('#player .say.bad'))

    def test_music_is_not_taken_for_the_disc(self) -> None:
        self.play(bytes(range(1, 255)) * 2352)
        self.browser.wait('#player .say.bad', 'This is music; choose the data track: mine.bin')

    def test_patched_already_is_known_by_the_hash_too(self) -> None:
        script = f'cdpatch 1\nset {discs.first_block()} 0 5374617274202020\n'
        made = result(script)
        self.open_patcher(patcher(discs.game(), made, script))
        self.browser.drop('#player', [discs.written(made=made)['made']])
        self.browser.wait('#verdict', common.text('playerImageIsPatched'))

    def test_the_right_disc_is_patched_with_the_base_of_the_author(self) -> None:
        script = f'cdpatch 1\nset {discs.first_block() + 100} 0 41\n'
        made = result(script, '--base', '100')
        self.open_patcher(patcher(discs.game(), made, script, base=100))
        for image, said in ((discs.game(), common.text('playerRightDisc')), (made, common.text('playerImageIsPatched'))):
            self.browser.drop('#player', [discs.written(mine=image)['mine']])
            self.browser.wait('#verdict', said)

    def test_the_track_is_the_one_that_the_patch_was_made_for(self) -> None:
        self.open_patcher(patcher(discs.game(), result(), discs.script()))
        files = discs.written(first=common.image_of([b'first'] * 20), game=discs.game())
        sheet = files['game'].with_suffix('.cue')
        sheet.write_text(discs.sheet_of(**dict.fromkeys(files, discs.DATA)))
        self.browser.drop('#player', [sheet, *files.values()])
        self.browser.wait('#verdict', common.text('playerRightDisc'))

    def test_the_image_that_was_dropped_last_is_judged(self) -> None:
        self.open_patcher(patcher(discs.game(), result(), discs.script()))
        self.browser.run(f'{GATE} Object.assign(globalThis, {{ held: 1, least: {len(discs.game())} }})')
        files = discs.written(other=common.damaged(discs.game(), 150), mine=discs.game())
        self.browser.drop('#player', [files['other']])
        self.browser.wait('#player .progress')
        common.waited(lambda: self.browser.run('return globalThis.reads') == 1, 'the first image is not read')
        self.browser.drop('#player', [files['mine']])
        self.browser.wait('#verdict', common.text('playerRightDisc'))
        self.browser.run('openGate(); return new Promise(done => setTimeout(done, 500))')
        self.assertEqual(self.browser.text('#verdict'), common.text('playerRightDisc'))
        self.assertIn('mine.bin', self.browser.text('#player'))

    def test_a_result_that_is_not_the_authors_is_not_saved(self) -> None:
        self.play(discs.game(), result='0' * 40)
        self.browser.wait('#verdict', common.text('playerRightDisc'))
        self.press('Patch and save')
        self.browser.wait('#player .say.bad', 'The patched image is not the one that the author made')
        self.assertEqual(list(self.browser.downloads.iterdir()), [])

    @common.in_check
    def test_a_hostile_title_note_and_script_stay_texts(self) -> None:
        hostile = f'{HOSTILE}</plaintext><script>caught.push("ran")</script>'
        self.play(discs.game(), title=hostile, note=hostile, author=hostile, script=f'cdpatch 1\n# {hostile}\nrebuild 0\n')
        self.browser.wait('#player h1', hostile)
        self.press('Read the script')
        self.browser.wait('#player-script pre', f'# {hostile}')
        self.assertEqual(self.browser.run('return [document.images.length, document.scripts.length]'), [0, 1])
        self.assertEqual(self.browser.attempts(), [])

    def test_about_asks_a_player_to_compare_the_programs_and_not_the_sha256_of_the_file(self) -> None:
        self.browser.size(360, 640)
        for language in ('en', 'de'):
            self.open_patcher(patcher(discs.game(), result(), discs.script(), language=language))
            common.waited(lambda: self.browser.run('return document.querySelector("#about .shut") !== null'), 'no About')
            self.press(common.text('playerAbout', language))
            self.browser.wait('#about', common.text('playerHowToTrustIt', language))
            self.assertEqual(self.browser.text('#about .shut'), common.text('close', language))
            self.assertNotIn('another program', self.browser.text('#about'))
        self.browser.size(1280)
        self.browser.open(common.PAGE)
        common.waited(lambda: self.browser.run('return document.querySelector("#about .shut") !== null'), 'no About')
        self.press('About')
        self.browser.wait('#about', common.text('framePageSaysItself'))

    def test_a_cut_patcher_is_refused(self) -> None:
        self.open_patcher(patcher(discs.game(), result(), discs.script())[:-100])
        self.browser.wait('#messages .say.bad, #start-message .say.bad', 'This patcher does not work.')
        self.assertEqual(self.browser.text('#player'), '')

    def test_an_altered_program_does_not_start(self) -> None:
        data = patcher(discs.game(), result(), discs.script())
        self.open_patcher(data.replace(b"'use strict';", b"'use strict' ;", 1))
        self.browser.wait('#not-started', common.text('frameHasNotStarted'))
        self.assertEqual(self.browser.text('#player'), '')

    def test_a_patcher_that_is_dropped_on_ones_own_page_is_compared_with_it(self) -> None:
        good = patcher(discs.game(), result(), discs.script())
        for data, said in ((good, 'Exactly the program of this page, byte for byte: starlit.html'),
                           (good.replace(b'<title>', b'<title >', 1), 'Not the same program as this page: starlit.html')):
            self.browser.open(common.PAGE)
            self.browser.drop('#drop', [self.written_page(data)])
            self.browser.wait('#compared', said)
            self.browser.wait('#player h1', 'Starlit Detective in English')
            self.assertEqual(self.browser.run('return location.href'), common.PAGE.as_uri())
        self.browser.drop('#player', [discs.written(mine=discs.game())['mine']])
        self.browser.wait('#verdict', common.text('playerRightDisc'))

    def test_a_patcher_is_compared_with_the_page_also_if_a_style_is_put_before_its_own(self) -> None:
        self.browser.run(FOREIGN, 'prepend')
        self.browser.drop('#drop', [self.written_page(patcher(discs.game(), result(), discs.script()))])
        self.browser.wait('#compared', 'Exactly the program of this page, byte for byte: starlit.html')

    def test_the_full_page_opens_from_a_patcher(self) -> None:
        self.play(discs.game())
        self.browser.wait('#verdict', common.text('playerRightDisc'))
        self.press('Open this in the full cdpatch')
        self.browser.wait('#disc-line .name', 'mine.bin')
        self.browser.click('#tab-script')
        self.browser.wait('#panel-script header .tag', '6 patches, script version 1')
        self.browser.click('#tab-publish')
        fields = 'return ["title", "author", "note", "name"].map(it => document.querySelector(`#patcher-${it}`).value)'
        self.sees(['Starlit Detective in English', 'Team Comet', 'All menus.\nChapter 1.', 'Starlit (English).bin'], fields)
        self.sees(False, self.browser.asks_before_leaving)
        self.browser.type('#patcher-note', 'All of it.')
        self.sees(True, self.browser.asks_before_leaving)

    def republished(self) -> bytes:
        """The patcher that the full page saves again from the open one, for the same image."""
        self.press('Open this in the full cdpatch')
        self.browser.wait('#disc-line .name', 'mine.bin')
        self.wait_for_hash()
        self.browser.click('#tab-publish')
        self.browser.wait('#panel-publish .mark-row', ' match')
        self.press('Save as a patcher')
        return self.browser.downloaded('Starlit Detective in English.html').read_bytes()

    def test_a_patcher_with_a_base_of_its_own_is_published_again(self) -> None:
        script = f'cdpatch 1\nset {discs.first_block() + 100} 0 41\n'
        made = result(script, '--base', '100')
        self.open_patcher(patcher(discs.game(), made, script, base=100))
        self.browser.drop('#player', [discs.written(mine=discs.game())['mine']])
        self.browser.wait('#verdict', common.text('playerRightDisc'))
        self.assertEqual(data_of(self.republished())['base'], 100)

    def test_a_patcher_with_carry_is_published_again(self) -> None:
        image = common.damaged(discs.game(), discs.first_block() + 1)
        files = discs.written(image=image, script=discs.script())
        made = applied(files['image'], files['script'], '--carry')[2]
        self.open_patcher(patcher(image, made, discs.script(), carry=True))
        self.browser.drop('#player', [discs.written(mine=image)['mine']])
        self.browser.wait('#verdict', common.text('playerRightDisc'))
        data = data_of(self.republished())
        self.assertEqual([data['carry'], data['result']], [True, common.sha1(made)])


class Streamed(PageTest):
    stub = PICKER

    def test_what_is_dropped_while_an_image_is_saved_is_refused_by_name(self) -> None:
        self.open_patcher(patcher(discs.game(), result(), discs.script()))
        self.browser.give('#player-files', [discs.written(mine=discs.game())['mine']])
        self.browser.wait('#verdict', common.text('playerRightDisc'))
        self.begins('Patch and save')
        self.browser.wait('#player .progress')
        self.assertEqual(self.focused(), 'steps: Cancel')
        self.browser.drop('#player', [discs.written(other=discs.game())['other']])
        self.browser.wait('#messages .say.warn', 'Not opened: other.bin.')
        self.browser.run('chosen.release()')
        self.browser.wait('#saved', 'Saved: Starlit (English).bin')
        self.assertEqual(self.browser.text('#messages'), '')

    @common.in_check
    def test_a_player_streams_what_the_author_made_and_nothing_else(self) -> None:
        for wanted, state in ((common.sha1(result()), 'closed'), ('0' * 40, 'aborted')):
            self.open_patcher(patcher(discs.game(), result(), discs.script(), result=wanted))
            self.browser.give('#player-files', [discs.written(mine=discs.game())['mine']])
            self.browser.wait('#verdict', common.text('playerRightDisc'))
            self.press('Patch and save')
            common.waited(lambda: self.browser.run('return chosen.state') == state, f'not {state}')
            if state == 'closed':
                self.browser.wait('#saved', 'Saved: Starlit (English).bin')
                self.assertEqual(self.chosen_bytes(), result())
            else:
                self.browser.wait('#player .say.bad', 'is not the one that the author made')
