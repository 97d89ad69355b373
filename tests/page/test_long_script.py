"""The script of a visual novel, which is longer than the editor draws. Only the gate runs it (conftest.py), since it takes a minute."""

import csv
import io
from pathlib import Path

import common
from keys import Keys
from pages import PageTest

COUNT, IN_BLOCK, SIZE = 27_000, 48, 42
TEXTS = [f'ゲームを始める前に村の長老と話をする{number:05}'.encode('cp932') for number in range(COUNT)]


def image_of(texts: list[bytes]) -> bytes:
    """A disc with texts, each followed by a zero byte, after 16 empty blocks."""
    blocks = [texts[at:at + IN_BLOCK] for at in range(0, COUNT, IN_BLOCK)]
    return common.image_of([b''] * 16 + [b''.join(text.ljust(SIZE, b'\0') for text in block) for block in blocks])


class LongScript(PageTest):
    def exported(self) -> list[list[str]]:
        """The rows of the table that is exported, with its head."""
        self.press_in('export', 'Export a table')
        path = self.browser.downloaded('game (texts).csv')
        rows = common.waited(lambda: list(csv.reader(io.StringIO(path.read_text('utf-8-sig')))), 'the table is empty')
        path.unlink()
        return list(rows)

    def import_rows(self, rows: list[list[str]], image: Path, words: str) -> None:
        """Imports a table in which all texts have a translation that begins so."""
        for number, row in enumerate(rows[1:]):
            row[-1] = f'{words} {number} with some more words'
        path = image.with_name('mine.csv')
        with path.open('w', encoding='utf-8-sig', newline='') as file:
            csv.writer(file).writerows(rows)
        self.give(path)

    def give(self, path: Path) -> None:
        self.browser.give('#panel-text input[accept^=".tsv"]', [path])

    def check(self) -> None:
        self.browser.click('#tab-script')
        self.press('Check')
        self.browser.wait('#panel-script .say.good', '27,000 patches, which all match')

    def test_27000_texts_are_imported_twice_corrected_exported_and_saved(self) -> None:
        image = self.open_table(image_of(TEXTS))
        self.browser.wait('#panel-text .meter', '0 of 27,000 done')
        rows = self.exported()
        self.import_rows(rows, image, 'First')
        self.browser.wait('#panel-text .say', '27,000 lines added to the script.')
        self.browser.wait('#panel-text .meter', '27,000 of 27,000 done')
        self.assertEqual([row[-1] for row in self.exported()], [row[-1] for row in rows])
        self.type_in_row(1, 'CORRECTED')
        self.check()
        self.browser.click('#tab-text')
        self.import_rows(rows, image, 'Second')
        self.browser.wait('#panel-text .say', '27,000 lines replaced earlier ones.')
        self.browser.click(self.field(1))
        self.browser.press('a', held=Keys.CONTROL)
        self.browser.press('CORRECTED AGAIN', Keys.ENTER)
        self.check()
        self.press_save()
        saved = common.waited(self.browser.downloaded('game (patched).bin').read_bytes, 'the image is empty')
        due = ['CORRECTED AGAIN', *(row[-1] for row in rows[2:])]
        self.assertEqual(common.sha1(saved), common.sha1(image_of([text.encode().ljust(SIZE - 1) for text in due])))
