"""The states of the page, and how each is reached. The docstring of a method describes what is shown there."""

from collections.abc import Callable
from pathlib import Path
from typing import Any

import common
import discs
import pointed
from keys import Keys
from pages import PICKER, PageTest, applied, patcher

NAME = 'Hoshizora Tantei (Japan).bin'
FAULTY = ('cdpatch 1\n# Starlit Detective: English, version 1.2\n# title screen\nset {0} 26 537461727420202 was 8358835E815B8367\n'
          'set {0} 35 436F6E74 was 82C282C3\nset {0} 2105 5365742E was 90DD92E8\n# saving\nreplace {0} 85 5361766520\nset {0} 102 5965 was 82CD\n')
SENTENCES = ['ゲームをはじめからスタートします。', 'セーブしますか？それともつづけますか？', 'ドアは鍵がかかっている。だれかいるのか？', '星空探偵、登場。事件はまだ終わらない。']

# Delays reads of more than a megabyte by `slow` milliseconds. Workers cannot read, so the page reads for them.
SLOW = '''globalThis.slow = 4000;
const post = Worker.prototype.postMessage;
Worker.prototype.postMessage = function (message, ...given) {
    const pieces = message.pieces?.map(piece => piece.file ? { ...piece, file: new Blob() } : piece);
    post.call(this, pieces ? { ...message, pieces } : message, ...given);
};
const real = Blob.prototype.arrayBuffer;
Blob.prototype.arrayBuffer = async function () {
    globalThis.reads = (globalThis.reads || 0) + Number(this.size > 1e6);
    if (this.size > 1e6 && globalThis.reads > 12) await new Promise(done => setTimeout(done, globalThis.slow));
    return real.call(this);
};'''


def spoken_texts(times: int = 6) -> bytes:
    """An image of a volume with `times` times four sentences, each followed by a zero byte, which are recognised as texts."""
    data = b'\0'.join(text.encode('cp932') for text in SENTENCES * times) + b'\0'
    return common.image_of(common.iso_of({'DATA/MSG00.DAT': data, 'README.TXT': b'Start of the game\n' * 20}))


def with_new(table: str, fresh: dict[int, str]) -> str:
    """A table of texts with these new texts, by row numbers that start at 2."""
    rows = [line.split('\t') for line in table.splitlines()]
    for number, text in fresh.items():
        rows[number - 1][-1] = text
    return ''.join('\t'.join(row) + '\n' for row in rows)


def dat_of(*dumps: tuple[str, bytes, str]) -> str:
    """A list of known dumps (DAT), each with its name, its bytes, and additional attributes."""
    rows = ''.join(f'<game name="x"><rom name="{name}" size="{len(data)}" sha1="{common.sha1(data).upper()}" {more}/></game>' for name, data, more in dumps)
    return f'<?xml version="1.0"?><!-- a list --><!DOCTYPE datafile SYSTEM "x.dtd"><datafile>{rows}</datafile>'


def another() -> bytes:
    """A different release: as many blocks as the game, with different texts."""
    return common.image_of([bytes([i % 256]) * 2048 for i in range(len(discs.game()) // common.SECTOR_SIZE)])


class States(PageTest):
    """Each method `to_NAME` brings the page, as it is opened, into the state NAME. Those of a patcher are in the language of the class."""
    stub = PICKER
    language = 'en'

    def says(self, key: str) -> str:
        """The beginning of a text that players see."""
        return common.text(key, self.language).split('{')[0].rstrip('…')

    def place(self, **files: bytes | str) -> dict[str, Path]:
        """Writes files to a new directory. The image `game` gets the name of a dump."""
        paths = discs.written(**files)
        if 'game' in paths:
            paths['game'] = paths['game'].rename(paths['game'].with_name(NAME))
        return paths

    def sheet(self, files: dict[str, Path]) -> Path:
        """Writes a cue sheet for the image `game`."""
        cue = files['game'].with_suffix('.cue')
        cue.write_text(discs.sheet_of(**{NAME.removesuffix('.bin'): discs.DATA}))
        return cue

    def begin(self, image: bytes, script: str = '') -> dict[str, Path]:
        """Opens an image and a script."""
        files = self.place(game=image, english=script or '\n')
        self.open_image(files['game'])
        if script:
            self.open_script(files['english'])
            self.browser.wait('#panel-script .side .say')
        return files

    # ---- the first screen

    @common.in_check
    def to_start(self) -> None:
        """Three jobs, and below them the place to drop files."""

    def to_start_job(self) -> None:
        """A job is selected: the place to drop files lists those that it needs."""
        self.browser.run('HTMLInputElement.prototype.click = function () {}')
        self.press('Apply a patch')
        self.browser.wait('#wanted', 'together with its patch')

    def to_start_refused(self) -> None:
        """A file that cannot be opened: its format, and what to do about it."""
        path = common.folder('chd') / 'Hoshizora Tantei.chd'
        path.write_bytes(b'MComprHD' + bytes(5000))
        self.open_files(path)
        self.browser.wait('#start-message', 'A compressed image (CHD)')

    def to_start_converted(self) -> None:
        """A file that the page can convert to a raw image."""
        path = common.folder('iso') / 'Hoshizora Tantei.iso'
        path.write_bytes(bytes(0x8001) + b'CD001'.ljust(2047 + 2048 * 9))
        self.open_files(path)
        self.browser.wait('#start-message', 'an ISO image')

    def to_start_list(self) -> None:
        """A list of known dumps is open."""
        self.open_files(self.dumps())
        self.browser.wait('#start-message .say.good', 'known dump')

    def dumps(self) -> Path:
        path = common.folder('dat') / 'Hoshizora.dat'
        path.write_text(dat_of((NAME, discs.game(), '')))
        return path

    @common.in_check
    def to_list(self) -> None:
        """Several images at once: what was found in each."""
        files = self.place(game=discs.game(), scratched=discs.scratched(), video=discs.mode2(60), music=bytes(range(7, 249)) * 2352, gone=b'no image')
        self.open_files(self.dumps(), *files.values())
        self.browser.wait('#announced', 'were examined')

    # ---- a disc

    @common.in_check
    def to_disc(self) -> None:
        """The example disc, completely read: the verdict, the map, and the findings."""
        self.browser.click('#open-example')
        self.wait_for_hash()
        self.browser.wait('#panel-disc')

    def to_disc_reading(self) -> None:
        """A disc that is being read: unread parts of the map are hatched."""
        self.browser.run(SLOW)
        self.open_files(self.place(game=discs.scratches())['game'])
        self.browser.wait('#disc-line .lead', 'Reading the disc')
        self.browser.wait('.legend')

    def to_disc_damaged(self) -> None:
        """A damaged disc: its damaged places, one of them expanded, and a damaged sector."""
        self.begin(discs.scratches())
        self.press('Next finding')
        self.browser.wait('#sector-title', 'block')
        self.browser.click('#findings .fold')

    def to_disc_correctable(self) -> None:
        """A damaged sector that its own parity corrects."""
        self.begin(discs.scratched())
        self.go_to(discs.first_block() + 1)
        self.browser.wait('#panel-disc .say.bad', 'Correct it')

    def to_disc_corrected(self) -> None:
        """The lines of the script correct a sector."""
        self.to_disc_correctable()
        self.press('Correct it')
        self.browser.wait('#panel-disc .say.bad', 'correct this sector from its own parity')

    def to_disc_corrected_all(self) -> None:
        """The damaged sectors that their own parity corrects have been counted, and a corrected image has been saved."""
        self.begin(common.damaged(discs.changed(discs.game(), (20, 2065)), discs.first_block() + 1))
        self.go_to(discs.first_block() + 1)
        self.press('Correct all from parity')
        self.browser.wait('#second-body .tally', 'without a sound copy')
        self.press('Save repaired image')
        self.browser.wait('#second-body .say.warn', 'Saved: ')
        self.browser.wait('#repaired-sha1', common.sha1(self.chosen_bytes()))

    def to_disc_runs(self) -> None:
        """The runs of sectors of one kind."""
        self.details('runs')

    def to_disc_text(self) -> None:
        """The report as the program prints it."""
        self.details('audit')

    def details(self, detail: str) -> None:
        self.begin(discs.scratched())
        self.browser.click('#findings [data-tab=details]')
        self.browser.choose('#findings select', detail)

    def to_disc_menu(self) -> None:
        """The menu of a sector, with a setting and the copies of the selected bytes."""
        self.begin(discs.scratched())
        self.press('Next finding')
        self.browser.wait('#sector-title', 'block')
        self.browser.click('[data-menu=sector]')
        self.browser.wait('#menu', 'Copy as hex')

    def to_disc_files(self) -> None:
        """The files of the disc, with one selected and its sector open."""
        self.begin(discs.game())
        self.browser.click('#findings [data-tab=files]')
        self.press('/DATA/MSG00.DAT')
        self.browser.wait('#findings .row b', '/DATA/MSG00.DAT')
        self.browser.wait('#sector-title', 'block')

    def to_disc_replaced(self) -> None:
        """A file was replaced by one of a different length, with the number of lines."""
        self.to_disc_files()
        path = common.folder('fresh') / 'fresh.dat'
        path.write_bytes(discs.messages()[:1500])
        self.browser.give('#findings input[type=file]', [path])
        self.browser.wait('#findings .say.good', 'added to the script.')

    def to_disc_tracks(self) -> None:
        """A disc of three tracks, one of which is missing."""
        files = self.place(game=discs.game(), t2=bytes(2352 * 300))
        sheet = files['t2'].with_name('Hoshizora Tantei (Japan).cue')
        sheet.write_text(discs.sheet_of(**{'Hoshizora Tantei (Japan)': discs.DATA, 't2': 'AUDIO', 'Hoshizora Tantei (Japan) (Track 3)': 'AUDIO'}))
        self.open_files(sheet, files['game'], files['t2'])
        self.wait_for_hash()
        self.browser.wait('#disc-line', '2 audio tracks')

    def to_disc_known(self) -> None:
        """A dump that a list of known dumps verifies."""
        self.begin(discs.game())
        self.open_files(self.dumps())
        self.browser.wait('#disc-line .tag.good', 'verified')

    # ---- a second image

    def pair(self, first: bytes, second: bytes, answer: str = '') -> None:
        """Opens two images and answers the question what the second one is for."""
        files = self.begin(first)
        other = files['game'].with_name('Hoshizora Tantei (Japan) (Alt).bin')
        other.write_bytes(second)
        self.open_files(other)
        self.browser.wait('#sheet', 'Cancel')
        if answer:
            self.browser.answer(answer)

    def to_second_asked(self) -> None:
        """A second image: the page asks what it is for before reading it."""
        self.pair(discs.scratched(), discs.game())

    def to_second_longer(self) -> None:
        """The same question for an image of a different length."""
        self.pair(discs.scratched(), discs.game() + bytes(2352))

    def to_second_repair(self) -> None:
        """The sectors that a repair would copy, also on the map, and those that it cannot repair."""
        self.pair(discs.scratches(), discs.scratches(other=True), 'Repair')
        self.browser.wait('.tally', 'can be repaired')
        self.browser.wait('[aria-label^="Without a sound copy"]')

    def to_second_saved(self) -> None:
        """A repaired image has been saved."""
        self.pair(discs.scratched(), discs.game(), 'Repair')
        self.press('Save repaired image')
        self.browser.wait('#second-body .say.good', 'Saved: ')
        self.browser.wait('#repaired-sha1', common.sha1(discs.game()))

    @common.in_check
    def to_second_compare(self) -> None:
        """The differences of two images, by fields."""
        self.pair(discs.scratched(), discs.game(), 'Compare')
        self.browser.wait('#second-body .tally', 'differs')

    def to_second_script(self) -> None:
        """Two images that differ in damage: before making a script, the page says that damage is left out."""
        self.pair(discs.scratches(), discs.scratches(other=True), 'Compare')
        self.browser.wait('#second-body .tally', 'differ')
        self.press('Open in Script')
        self.browser.wait('#second-body .say.bad')

    def to_close_asked(self) -> None:
        """The image is being closed although unsaved work would be lost."""
        self.begin(discs.game())
        self.edit(Keys.ARROW_DOWN, 'rebuild 1')
        self.press_in('image', 'Close the image')
        self.browser.wait('#sheet', 'Close it anyway')

    # ---- the script

    def to_script_none(self) -> None:
        """No patch yet: three ways to create the first one."""
        self.begin(discs.game())
        self.browser.click('#tab-script')

    def to_script_alone(self) -> None:
        """A script without its image, and the button that opens the image."""
        self.open_script(self.place(english=discs.script())['english'])
        self.browser.wait('#panel-script .side', 'Open the image')

    @common.in_check
    def to_script_fits(self) -> None:
        """An image and its script were dropped together: all changes fit, and the button that saves."""
        files = self.place(game=discs.game(), english=discs.named())
        self.open_files(files['game'], files['english'])
        self.browser.wait('#panel-script .say.good', 'which all match')
        self.wait_for_hash()

    def to_script_refused(self) -> None:
        """Some changes do not fit: which ones, why, and where to go."""
        self.begin(discs.scratched(), discs.refused())
        self.browser.wait('#panel-script .verdict', 'do not')
        self.press('Go to line')
        self.browser.wait('.explain', 'It is refused')

    def to_script_saving(self) -> None:
        """The patched image is being saved."""
        self.begin(discs.scratched(), discs.refused())
        self.begins()
        self.browser.wait('#panel-script .progress')

    def to_script_saved(self) -> None:
        """The patched image has been saved, and its hashes are known."""
        self.begin(discs.scratched(), discs.refused())
        self.press_save()
        self.browser.wait('#panel-script .say.warn', 'Saved: ')
        self.browser.wait('#saved-sha1', common.sha1(self.chosen_bytes()))

    def to_script_cue(self) -> None:
        """The patched image of a cue sheet has been saved: the cue sheet for the emulator is next."""
        files = self.place(game=discs.game(), english=discs.script())
        self.open_files(self.sheet(files), files['game'], files['english'])
        self.browser.wait('#panel-script .say.good', 'patches match')
        self.wait_for_hash()
        self.press_save()
        self.browser.wait('#panel-script .side', 'Your emulator opens a cue sheet')
        self.browser.wait('#saved-sha1', common.sha1(self.chosen_bytes()))

    def to_script_undo(self) -> None:
        """The undo script has been saved, as the card of the script says."""
        self.begin(discs.game(), discs.script())
        self.save_undo()
        self.browser.wait('[aria-label=Script] .say.good', 'Saved: ')

    def to_script_faults(self) -> None:
        """A script with faults: below each faulty line the remedy, and a button that applies it."""
        self.begin(discs.game(), FAULTY.format(discs.first_block()))

    def marked(self, data: bytes, says: str) -> None:
        files = self.begin(discs.game())
        path = files['game'].with_name('english.txt')
        path.write_bytes(data)
        self.open_files(path)
        self.browser.wait('#panel-script .editor, #messages', says)

    def to_script_head(self) -> None:
        """A script without its head line, which one press adds."""
        self.marked(discs.script().replace('cdpatch 1\n', '').encode(), 'Add it')

    def to_script_version(self) -> None:
        """A script of an unknown version."""
        self.marked(discs.script().replace('cdpatch 1', 'cdpatch 9').encode(), 'Change it to “cdpatch 2”')

    def to_script_marked(self) -> None:
        """A script in UTF-16: it has been read, and one press saves it as UTF-8."""
        self.marked(discs.script().encode('utf-16'), 'Save it as plain UTF-8')

    # ---- texts

    def search(self, text: str) -> None:
        self.browser.click('#tab-text')
        self.browser.click('#find-text')
        self.browser.press(text, Keys.ENTER)

    def to_text(self) -> None:
        """Before a search: what to type, and the table of all texts."""
        self.begin(discs.game())
        self.browser.click('#tab-text')

    @common.in_check
    def to_text_hits(self) -> None:
        """The hits of a text, one of them about to be replaced, and the bytes around it."""
        self.begin(discs.game(), discs.script())
        self.search('スタート')
        self.wait_for_focus('#new-text')
        self.browser.press('Start')

    def to_text_long(self) -> None:
        """A new text that is too long, with the excess length."""
        self.to_text_hits()
        self.browser.press(' game')

    def to_text_added(self) -> None:
        """All hits were replaced, as the message beside the button says."""
        self.begin(discs.many_texts(1))
        self.search('スタート')
        self.wait_for_focus('#new-text')
        self.browser.press('Start')
        self.press('Replace all')
        self.browser.wait('[aria-label=Replace] .say.good', '100 lines added to the script.')

    def to_text_none(self) -> None:
        """No hit: the encodings that were searched, and other possible reasons."""
        self.begin(discs.game())
        self.search('存在しない')
        self.browser.wait('#panel-text .say', 'No hit')

    def table(self, fresh: dict[int, str]) -> Path:
        """Opens an image and imports the table of its texts, with new texts in the rows of these numbers."""
        image = self.begin(spoken_texts())['game']
        self.browser.click('#tab-text')
        self.import_table(image, fresh)
        return image

    def import_table(self, image: Path, fresh: dict[int, str]) -> None:
        path = image.with_name('texts.tsv')
        path.write_text(with_new(common.cdscript_prints('texts', image), fresh))
        self.browser.give('#panel-text input[accept^=".tsv"]', [path])

    def to_texts_saved(self) -> None:
        """The texts of the disc have been saved as a table."""
        self.begin(spoken_texts())
        self.browser.click('#tab-text')
        self.press_in('export', 'Export a table')
        self.browser.wait('#panel-text .say.good', 'Saved: ')

    def to_texts_typed(self) -> None:
        """All texts of the disc in the table: one is translated, one does not fit, and one is being typed."""
        self.begin(spoken_texts())
        self.browser.click('#tab-text')
        self.press('Show all texts')
        self.browser.wait('.all-texts tbody input')
        self.browser.click('.all-texts tbody tr[aria-rowindex="2"] input')
        self.browser.press('The game starts.', Keys.ENTER, 'much too long ' * 4, Keys.ENTER)
        self.browser.wait('#panel-text [aria-pressed]:nth-child(3)', 'Do not fit 1')
        self.browser.press('It is lo')

    def to_texts_taken(self) -> None:
        """A table was imported, and all of its texts fit."""
        self.table({2: 'The game starts.', 3: 'Save?', 5: 'The end.'})
        self.browser.wait('#panel-text .say.good', 'All 3 translations fit.')

    def to_texts_left(self) -> None:
        """A table with rows that do not fit: each with its place and the reason."""
        self.table({2: 'Start a new game.', 3: 'Do you want to save first, or go on playing?', 4: 'The door is locked. Is there anybody inside?',
                    5: 'Enter the detective. The case goes on.'})
        self.browser.wait('#panel-text h2', '2 rows do not fit')
        self.press('3')
        self.browser.wait('#panel-text .hex.around')

    def to_texts_withdrawn(self) -> None:
        """A table that lacks the new texts of lines from an earlier table."""
        image = self.table({2: 'The game starts.', 3: 'Save?'})
        self.browser.wait('#panel-text .say.good', 'All 2 translations fit.')
        self.import_table(image, {2: 'The game starts.'})
        self.browser.wait('#panel-text .say.warn', 'The list has no new text for line 3 of the script.')

    def pointers(self) -> None:
        """Opens a disc whose texts have pointers, and finds these."""
        self.begin(pointed.game())
        self.browser.click('#tab-text')
        self.press('Show all texts')
        self.browser.wait('.all-texts tbody input')
        self.press('Find pointers')
        self.browser.wait('#let-move:enabled')

    def to_text_pointers(self) -> None:
        """The tables of pointers to the texts of a disc, all of which are used."""
        self.pointers()
        self.browser.run('document.querySelector("#pointers-title").scrollIntoView()')

    def to_text_moved(self) -> None:
        """A text that is longer than its room has moved, and a different one waits for the script."""
        self.pointers()
        self.browser.click('#let-move')
        self.browser.click('.all-texts tbody tr[aria-rowindex="2"] input')
        self.browser.press('The hero found the herb in the tower of the north, and took it home.', Keys.ENTER)
        self.browser.press('A villager', Keys.ENTER)
        self.press('Make the script')
        self.browser.wait('[aria-labelledby=pointers-title] .say.good')
        self.browser.click('.all-texts tbody tr[aria-rowindex="4"] input')
        self.browser.press('A knight', Keys.ENTER)
        self.browser.wait('[aria-labelledby=pointers-title] .moved li')

    # ---- publishing, and the page of a patcher

    @common.in_check
    def to_publish(self) -> None:
        """The conditions for saving a patcher: those that are met, and those that are not."""
        files = self.place(game=discs.game(), english=discs.named())
        self.open_files(self.sheet(files), files['game'], files['english'])
        self.browser.wait('#panel-script .say.good', 'which all match')
        self.wait_for_hash()
        self.browser.click('#tab-publish')
        self.browser.type('#patcher-title', 'Starlit Detective in English')
        self.browser.type('#patcher-author', 'Team Comet, version 1.2')
        self.browser.type('#patcher-note', 'All menus and chapters 1 to 3 are in English.\nWorks with the Japanese first print (two rings on the label).')
        self.browser.wait('#panel-publish', 'which all match')

    def play(self, image: bytes | None, verdict: str = '', script: str = '', with_sheet: bool = True) -> None:
        """Opens a patcher for the game, gives it an image, with or without its cue sheet, and waits for the text of this key."""
        files = self.place(game=discs.game(), english=script or discs.script())
        made = applied(files['game'], files['english'])[2]
        cue = self.sheet(files)
        path = files['game'].with_name('starlit.html')
        chosen = {} if self.language == 'en' else {'language': self.language}
        path.write_bytes(patcher(discs.game(), made, script or discs.script(), **chosen, author='Team Comet · version 1.2',
                                 note='All menus and chapters 1 to 3 are in English. Chapter 4 follows in spring.\n\nYou need the Japanese first '
                                      'print (two rings on the label). Start the game as usual; your saved games keep working.'))
        self.browser.open(path)
        self.browser.wait('#player h1')
        if image is None:
            return
        files['game'].write_bytes(image)
        self.browser.give('#player-files', [*[cue] * with_sheet, files['game']])
        self.browser.wait('#verdict', self.says(verdict))

    def to_player(self) -> None:
        """A patcher as its player finds it."""
        self.play(None)

    @common.in_check
    def to_player_right(self) -> None:
        """The right disc."""
        self.play(discs.game(), 'playerRightDisc')

    def to_player_fits(self) -> None:
        """A different dump, which the patch fits."""
        other = bytearray(discs.game())
        other[150 * common.SECTOR_SIZE:151 * common.SECTOR_SIZE] = common.sector(150, b'another release')
        self.play(bytes(other), 'playerOtherDumpFits', discs.named())

    def to_player_damaged(self) -> None:
        """A dump that the patch fits, with damage elsewhere: where it is, and another dump as the main choice."""
        at = 40 * common.SECTOR_SIZE
        self.play(common.damaged(discs.game()[:at] + bytes(6 * common.SECTOR_SIZE) + discs.game()[at + 6 * common.SECTOR_SIZE:], 150),
                  'playerMatchesButDamaged', discs.named())

    def to_player_iso(self) -> None:
        """The right disc as an ISO image."""
        game = discs.game()
        self.play(b''.join(game[at + 16:at + 2064] for at in range(0, len(game), common.SECTOR_SIZE)), 'playerRightDisc', with_sheet=False)

    def to_player_unknown(self) -> None:
        """A different dump, for which nothing shows whether the patch fits."""
        self.play(common.damaged(discs.game(), 150), 'playerCannotTell')

    def to_player_other(self) -> None:
        """A different disc, which the patch does not fit."""
        self.play(another(), 'playerOtherDumpFitsNot')

    def to_player_patched(self) -> None:
        """A disc that is already patched."""
        files = self.place(game=discs.game(), english=discs.script())
        self.play(applied(files['game'], files['english'])[2], 'playerImageIsPatched')

    def to_player_saving(self) -> None:
        """The patched image is being saved."""
        self.to_player_right()
        self.begins(self.says('playerPatchAndSave'))
        self.browser.wait('#player .progress')

    def to_player_done(self) -> None:
        """The patched disc has been saved, and the cue sheet is the last step."""
        self.to_player_right()
        self.press(self.says('playerPatchAndSave'))
        self.browser.wait('#saved', self.says('saveSaved'))

    def to_player_sheet(self) -> None:
        """The patched disc has been saved without a cue sheet: one can be created, or chosen now."""
        self.play(discs.game(), 'playerRightDisc', with_sheet=False)
        self.press(self.says('playerPatchAndSave'))
        self.browser.wait('#saved', self.says('saveSaved'))

    # ---- notes

    def to_note_word(self) -> None:
        """The note of a word, beside the word."""
        self.begin(discs.game(), discs.script())
        self.browser.click('#tab-disc')
        self.browser.click('#panel-disc .term')
        self.browser.wait('#term-block')

    def note(self, name: str) -> None:
        self.browser.run(f"document.querySelector('[popovertarget={name}]').click()")
        self.browser.wait(f'#{name}')

    def to_note_keys(self) -> None:
        """The note with all keys."""
        self.note('keys')

    def to_note_words(self) -> None:
        """The note with all words that have notes."""
        self.note('words')

    def to_note_about(self) -> None:
        """The note about this page, with its hash."""
        self.note('about')

    def to_note_proved(self) -> None:
        """The note on what is proved and what is not."""
        self.note('about')
        self.browser.click('#proved summary')


def each_state(kind: type[States], judge: Callable[[Any, str], None], part: str = '') -> None:
    """Adds to a class a test for each state whose name begins with `part`, with the marks of that state."""
    for name, state in all_states().items():
        if name.startswith(part):
            def test(self: States, name: str = name) -> None:
                judge(self, name)
            vars(test).update(vars(state))
            setattr(kind, f'test_{name}', test)


def all_states() -> dict[str, Callable[[States], None]]:
    """All states by name, in the order of the page."""
    return {name.removeprefix('to_'): method for name, method in vars(States).items() if name.startswith('to_')}
