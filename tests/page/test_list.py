"""Several images at once give the list that `cdscript scan` prints, line by line. An image of it is opened by its name."""

import hashlib
import os
import subprocess
import zlib
from pathlib import Path

import common
import discs
from pages import CLIPBOARD, GATE, NO_PICKER, PageTest
from states import dat_of

# The cells of the row of a file.
CELLS = '''const row = [...document.querySelectorAll('#list tbody tr')].find(it => it.cells[0].innerText === arguments[0]);
    return row ? [...row.cells].map(it => it.innerText) : []'''

# The numbers above the table, by their names.
TALLY = '''return Object.fromEntries([...document.querySelectorAll('#list .tally div')].map(it => it.innerText.split('\\n').reverse()))'''

# Presses Cancel. Returns the message that the list has then, at once.
CANCELLED = '''const list = document.querySelector('#list');
    [...list.querySelectorAll('button')].find(it => it.innerText === 'Cancel').click();
    await new Promise(requestAnimationFrame);
    return list.querySelector('.say')?.innerText'''


def collection() -> dict[str, Path]:
    """Images of all kinds in one directory, with cue sheets for some, and files that are not images. Their times are whole milliseconds."""
    game, audio = discs.game(), bytes(range(7, 249)) * 486
    place = common.folder('list')
    kinds = {'Game (Japan) (Track 1).bin': discs.DATA, 'Game (Japan) (Track 2).bin': 'AUDIO', 'Game (Japan) (Track 3).bin': 'AUDIO'}
    files = {'mode1.bin': game, 'mode2.bin': discs.mode2(40), 'audio.bin': audio[:2352 * 30], 'cut.bin': game[:-1000], 'hurt.bin': common.damaged(game, 40),
             'moved.bin': discs.changed(game, (30, 13)), 'data.iso': b''.join(common.iso_of({'A.TXT': b'a'})), 'empty.bin': b'', 'notes': b'no image',
             'mixed.bin': game + audio[:2352 * 5], 'hurt mode2.bin': discs.changed(discs.mode2(50), (7, 900)), 'tab\tname.bin': game[:2352 * 20],
             **dict(zip(kinds, (game, audio[:2352 * 9], audio[:2352 * 8]))),
             'Game (Japan).cue': discs.sheet_of(**{name[:-4]: kind for name, kind in kinds.items()}).encode()}
    paths = {}
    for number, (name, data) in enumerate(files.items()):
        paths[name] = place / name
        paths[name].write_bytes(data)
        whole(paths[name], number)
    return paths


def whole(path: Path, number: int = 0) -> None:
    """Sets the time of a file. Browsers cut off fractions of milliseconds, and node rounds them."""
    os.utime(path, (0, 1_600_000_000 + number * 86_401.25))


def dat_for(paths: dict[str, Path]) -> str:
    """A list of known dumps, one of which is bad."""
    by_name = {name: path.read_bytes() for name, path in paths.items()}
    return dat_of(('Game (Japan).bin', by_name['mode1.bin'], ''), ('PS.bin', by_name['mode2.bin'], ''), ('Bad.bin', by_name['hurt.bin'], 'status="baddump"'))


def scanned(paths: dict[str, Path], *options: str | Path) -> list[str]:
    """The lines that `cdscript scan` prints for files of one directory, sorted."""
    place = next(iter(paths.values())).parent
    ran = subprocess.run([common.cdscript(), 'scan', *options, '--', *paths], cwd=place, check=False, stdout=subprocess.PIPE, stderr=subprocess.DEVNULL)
    return sorted(ran.stdout.decode().splitlines(keepends=True))


class Lists(PageTest):
    stub = NO_PICKER

    def list_files(self, *files: Path) -> None:
        """Opens files, and waits until they are listed."""
        self.open_files(*files)
        self.browser.wait('#announced', 'were examined')
        self.assertEqual(self.browser.run('return document.querySelectorAll("#list .progress").length'), 0)

    def lines(self) -> list[str]:
        """The lines that the page saves, sorted. Those that it copies are the same."""
        self.browser.run(CLIPBOARD)
        self.press_in('list', 'Copy as a table')
        common.waited(lambda: self.browser.run('return globalThis.copied'), 'nothing is copied')
        self.press_in('list', common.text('listSave'))
        path = self.browser.downloaded('list.tsv')
        saved = path.read_bytes().decode()
        path.unlink()
        self.assertEqual(self.browser.run('return copied'), saved)
        return sorted(saved.splitlines(keepends=True))

    @common.in_check
    def test_a_list_has_the_lines_of_scan(self) -> None:
        paths = collection()
        self.list_files(*paths.values())
        due = scanned(paths)
        self.assertGreater(len(due), 12)
        self.assertEqual(self.lines(), due)

    def test_a_list_is_looked_up_in_a_list_of_known_dumps_as_scan_does(self) -> None:
        paths = collection()
        dat = common.folder('dat') / 'all.dat'
        dat.write_text(dat_for(paths))
        other = dat.with_name('other.dat')
        name, data = 'Sound.bin', paths['audio.bin'].read_bytes()
        other.write_text(dat_of((name, data, '')).replace(f'sha1="{common.sha1(data).upper()}"', f'crc="{zlib.crc32(data):08x}"'))
        self.list_files(*paths.values(), dat)
        self.assertEqual(self.lines(), scanned(paths, '--dat', dat))
        self.assertIn('Game (Japan).bin', self.browser.run(CELLS, 'mode1.bin')[-1])
        self.open_files(other)
        self.browser.wait('#messages .say.good', 'other.dat')
        self.assertIn('The images of the list are looked up in it.', self.browser.text('#messages .say.good'))
        due = scanned(paths, '--dat', dat, '--dat', other)
        self.assertTrue([line for line in due if 'verified Sound.bin' in line], due)
        self.assertEqual(self.lines(), due)

    def test_the_hashes_that_a_list_of_known_dumps_needs_are_those_of_scan(self) -> None:
        paths = collection()
        dat = common.folder('dat') / 'old.dat'
        rows = [(name, paths[name].read_bytes()) for name in ('mode2.bin', 'data.iso')]
        roms = ''.join(f'<game name="x"><rom name="Old {name}" size="{len(data)}" md5="{hashlib.md5(data).hexdigest()}"/></game>' for name, data in rows)
        dat.write_text(f'<datafile>{roms}</datafile>')
        self.list_files(*paths.values(), dat)
        due = scanned(paths, '--dat', dat)
        self.assertTrue([line for line in due if 'verified Old mode2.bin' in line], due)
        self.assertEqual(self.lines(), due)
        self.assertIn('Old mode2.bin', self.browser.run(CELLS, 'mode2.bin')[-1])

    def test_what_was_not_tested_is_not_counted_as_sound(self) -> None:
        paths = collection()
        self.list_files(*(paths[name] for name in ('mode1.bin', 'mode2.bin', 'audio.bin', 'hurt.bin', 'data.iso')))
        self.assertEqual(self.browser.run(TALLY), {'without findings': '2', 'with findings': '1', 'not tested': '1', 'not an image': '1'})
        self.assertEqual([self.browser.run(CELLS, name)[2] for name in ('audio.bin', 'mode1.bin', 'hurt.bin')], ['–', 'none', '1 damaged'])

    def test_two_discs_with_sheets_are_a_list_and_are_opened_by_their_names(self) -> None:
        files = discs.written(one=discs.game(), two=common.damaged(discs.game(), 40))
        sheets = {}
        for name, path in files.items():
            whole(path)
            sheets[name] = path.with_suffix('.cue')
            sheets[name].write_text(discs.sheet_of(**{name: discs.DATA}))
        sheets['again'] = files['one'].with_name('again.cue')
        sheets['again'].write_text(discs.sheet_of(one=discs.DATA))
        self.list_files(*files.values(), *sheets.values())
        self.assertEqual(self.lines(), scanned({path.name: path for path in [*sheets.values(), *files.values()]}))
        self.press('two.bin')
        self.browser.wait('#disc-line .name', 'two.bin')
        self.browser.wait('#disc-line', 'two.cue')
        self.press('one.bin')
        self.browser.answer(common.text('openItInstead'))
        self.browser.wait('#disc-line .name', 'one.bin')

    def test_two_images_are_still_a_pair_and_three_more_a_list_beside_the_open_one(self) -> None:
        files = discs.written(one=discs.game(), two=common.damaged(discs.game(), 40), three=discs.mode2(20), four=discs.game()[:2352 * 30])
        self.open_files(files['one'], files['two'])
        self.browser.answer()
        self.browser.wait('#second-title', 'two.bin')
        self.list_files(files['two'], files['three'], files['four'])
        self.assertEqual(len(self.lines()), 3)
        self.assertEqual(self.browser.text('#disc-line .name'), 'one.bin')

    def test_a_file_that_cannot_be_read_has_a_row_and_the_others_are_examined(self) -> None:
        files = discs.written(one=discs.game(), two=discs.game(), three=discs.mode2(20))
        self.browser.run(f'{GATE} globalThis.least = 400000;')
        self.open_files(*files.values())
        self.browser.wait('#list .progress')
        files['two'].write_bytes(b'changed')
        self.browser.run('openGate()')
        self.browser.wait('#announced', 'were examined')
        self.assertIn('two.bin', self.browser.run(CELLS, 'two.bin')[1])
        self.assertEqual(self.browser.run(TALLY), {'without findings': '2', 'not examined': '1'})
        self.assertEqual([line.split('\t')[0] for line in self.lines()], ['one.bin', 'three.bin'])

    def test_cancel_is_heard_at_once_and_other_panels_are_usable(self) -> None:
        files = discs.written(one=discs.game(), two=discs.game(), three=discs.mode2(20))
        self.browser.run(f'{GATE} globalThis.least = 400000;')
        self.open_files(*files.values())
        self.browser.wait('#list .progress')
        self.assertIn('0 of 3 files were examined.', self.browser.run(CANCELLED) or '')
        self.browser.run('openGate()')
        self.open_image(files['one'])
        self.assertEqual(self.browser.run('return document.querySelectorAll("#list tbody tr").length'), 0)
        self.list_files(*files.values())
        self.browser.click('#tab-text')
        self.is_gone('#list')
