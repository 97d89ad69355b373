"""The verdict of the page is that of `cdscript info`: the table of tests/lib/verdict_images.py."""

import subprocess
from pathlib import Path

import common
from pages import PageTest
from verdict_images import OTHERS, VERDICTS, images

# The colour of each level, as a class. Of audio and the like, the page says that nothing can be patched.
INKS = {'damage': 'bad-ink', 'doubt': 'warn-ink', 'sound': 'good-ink', 'nothing': 'warn-ink'}
INK = "return document.querySelector('#disc-line .lead .verdict')?.className.split(' ').pop() ?? ''"
# Cue sheets with audio in other files, and images whose data the samples do not show, are for the list, which reads all files.
LISTED = {'missing.cue', 'audio.bin', 'audio-filled.bin', 'middle.bin'}


def said_by_info(image: Path) -> str:
    """The verdict that `cdscript info` prints."""
    printed = subprocess.run([common.cdscript(), 'info', image], check=False, stdout=subprocess.PIPE, text=True).stdout
    [verdict] = [line for line in printed.splitlines() if line.startswith('verdict: ')]
    return verdict.removeprefix('verdict: ').lower()


class Verdicts(PageTest):
    def test_the_page_has_the_verdicts_of_the_table(self) -> None:
        place = common.folder('verdicts')
        for name, content in images().items():
            (place / name).write_bytes(content)
        for name, level, _ in VERDICTS:
            if name in LISTED:
                continue
            files = [place / name, *([place / name.replace('.cue', '.bin')] if name.endswith('.cue') else [])]
            with self.subTest(name):
                self.setUp()
                self.open_files(*files)
                self.browser.wait('#disc-line .lead .verdict')
                self.assertEqual(self.browser.run(INK), INKS[level], self.browser.text('#disc-line .lead'))
                if level != 'nothing':
                    self.assertIn(said_by_info(place / name), self.browser.text('#disc-line .lead').lower())

    def test_files_that_are_not_images_have_no_verdict(self) -> None:
        place = common.folder('verdicts')
        for name in OTHERS:
            (place / name).write_bytes(images()[name])
            self.setUp()
            self.open_files(place / name)
            self.browser.wait('.say', name)
            self.assertEqual(self.browser.run(INK), '', name)
