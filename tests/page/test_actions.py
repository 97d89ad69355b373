"""The number of actions that each job needs: choosing files, dropping them, pressing a button."""

import base64
import zlib
from pathlib import Path

import common
import discs
from pages import NO_PICKER, PageTest, applied, patcher, result

SENTENCES = ['ゲームをはじめからスタートします。', 'セーブしますか？それともつづけますか？', 'ドアは鍵がかかっている。だれかいるのか？',
             '星空探偵、登場。事件はまだ終わらない。', 'この写真をどこで見つけましたか？']

# Suppresses the browser's picker: the test provides the files.
NO_CHOICE = f'{NO_PICKER}; HTMLInputElement.prototype.click = function () {{}};'


class Actions(PageTest):
    stub = NO_CHOICE

    def setUp(self) -> None:
        super().setUp()
        self.actions = 0

    def drops(self, *files: Path) -> None:
        self.actions += 1
        self.browser.drop('#main', files)

    def chooses(self, button: str, *files: Path, field: str = '#files') -> None:
        """Presses a button that opens the picker, and chooses files."""
        self.actions += 1
        self.press(button)
        self.browser.give(field, files)

    def presses(self, button: str) -> None:
        self.actions += 1
        self.press(button)

    def types(self, field: str, text: str) -> None:
        self.actions += 1
        self.browser.type(field, text)

    def opens(self, panel: str) -> None:
        self.actions += 1
        self.browser.click(f'#tab-{panel}')

    def publishes(self) -> str:
        """Saves the script as a patcher, and returns its script."""
        self.opens('publish')
        self.types('#patcher-title', 'Starlit')
        self.presses('Save as a patcher')
        page = self.browser.downloaded('Starlit.html').read_bytes()
        packed = page[len(common.PAGE.read_bytes()):].split(b'\n')[1]
        return zlib.decompress(base64.b64decode(packed)).split(b'\n', 1)[1].decode()

    def answers(self, button: str) -> None:
        self.actions += 1
        self.browser.answer(button)

    def written(self) -> dict[str, Path]:
        files = discs.written(game=discs.game(), scratched=discs.scratched(), changed=result(), english=discs.script())
        files['cue'] = files['game'].with_suffix('.cue')
        files['cue'].write_text(discs.sheet_of(game=discs.DATA))
        return files

    def test_a_player_takes_three(self) -> None:
        files = self.written()
        self.open_patcher(patcher(discs.game(), result(), discs.script()))
        self.browser.wait('#player h1')
        self.chooses('Choose the image', files['cue'], files['game'], field='#player-files')
        self.presses('Patch and save')
        self.assertEqual(self.browser.downloaded('Starlit (English).bin').read_bytes(), result())
        self.presses('Save the cue sheet')
        self.browser.downloaded('Starlit (English).cue')
        self.assertEqual(self.actions, 3)

    def test_an_image_with_its_script_takes_three(self) -> None:
        files = self.written()
        self.chooses('Apply a patch', files['cue'], files['game'], files['english'])
        self.browser.wait('#panel-script .say.good', 'patches match game.bin')
        self.presses('Apply and save')
        self.assertEqual(self.browser.downloaded('game (patched).bin').read_bytes(), result())
        self.presses('Save a cue sheet')
        self.browser.downloaded('game (patched).cue')
        self.assertEqual(self.actions, 3)

    def test_a_repair_takes_three(self) -> None:
        files = self.written()
        self.chooses('Repair or compare dumps', files['scratched'])
        self.chooses('Repair from another dump', files['game'])
        self.presses('Save repaired image')
        self.assertEqual(self.browser.downloaded('scratched (repaired).bin').read_bytes(), discs.game())
        self.assertEqual(self.actions, 3)

    def test_a_repair_from_both_dumps_takes_two(self) -> None:
        files = self.written()
        self.chooses('Repair or compare dumps', files['scratched'], files['game'])
        self.presses('Save repaired image')
        self.assertEqual(self.browser.downloaded('scratched (repaired).bin').read_bytes(), discs.game())
        self.assertEqual(self.actions, 2)

    def test_a_comparison_takes_three(self) -> None:
        files = self.written()
        self.chooses('Open files', files['game'])
        self.browser.wait('#disc-line', 'game.bin')
        self.drops(files['changed'])
        self.answers('Compare')
        self.browser.wait('#second-body .tally', 'sectors differ')
        self.assertEqual(self.actions, 3)

    def test_the_script_of_a_comparison_takes_three(self) -> None:
        files = self.written()
        self.drops(files['game'], files['changed'])
        self.answers('Compare')
        self.presses('Save the script')
        script = self.browser.downloaded('changed (changes).txt')
        self.assertEqual(applied(files['game'], script)[2], result())
        self.assertEqual(self.actions, 3)

    def test_another_disc_takes_two(self) -> None:
        files = self.written()
        self.open_image(files['game'])
        self.chooses('Open…', files['changed'])
        self.answers('Open it instead')
        self.browser.wait('#disc-line .name', 'changed.bin')
        self.assertEqual(self.actions, 2)

    def test_the_translator_of_one_text_takes_eight(self) -> None:
        self.chooses('Translate a disc', self.written()['game'])
        self.wait_for_hash()
        self.types('#find-text', 'スタート')
        self.presses('Find')
        self.browser.wait('#panel-text .hits mark')
        self.types('#new-text', 'Start')
        self.presses('Replace')
        self.browser.wait('#count-script', '1')
        self.assertIn(f'set {discs.first_block()} 0 {"Start".ljust(8).encode().hex().upper()} was', self.publishes())
        self.assertEqual(self.actions, 8)

    def test_the_translator_of_a_table_of_300_texts_takes_eight(self) -> None:
        texts = [f'第{number}章、{text}' for number in range(60) for text in SENTENCES]
        data = b'\0'.join(text.encode('cp932') for text in texts) + b'\0'
        image = discs.written(game=common.image_of(common.iso_of({'DATA/MSG00.DAT': data})))['game']
        self.chooses('Translate a disc', image)
        self.wait_for_hash()
        self.presses('Export')
        self.presses('Export a table')
        table = self.browser.downloaded('game (texts).csv')
        self.browser.wait('#panel-text .say.good', 'Saved: game (texts).csv')
        head, *rows = common.waited(table.read_text, 'the table is empty').splitlines()
        spoken = [row for row in rows if '章' in row]
        self.assertEqual(len(spoken), 300)
        mine = common.folder('table') / 'mine.csv'
        mine.write_text('\n'.join([head, *(f'{row}text {number}' for number, row in enumerate(spoken)), '']))
        self.chooses('Import a list', mine, field='#panel-text input[accept^=".tsv"]')
        self.browser.wait('#panel-text .say.good', 'All 300 translations fit.')
        self.assertEqual(self.publishes(), common.cdscript_prints('replace', image, '--list', mine))
        self.assertLessEqual(self.actions, 8)
