"""The page of a patcher in each of its languages: nothing of it is in English or is wider than the window, the author's choice decides before
the browser's, and a change of language keeps the state of the steps.

If PICTURES is set to a directory, each state is drawn there at three widths in both schemes, with the language before its name.
"""

import os
from pathlib import Path

import common
import discs
from chromium import WIDTHS
from pages import PICKER, PageTest, patcher, result
from states import States, all_states

# Each language by its own name.
NAMES = {'en': 'English', 'es': 'Español', 'pt-BR': 'Português (Brasil)', 'fr': 'Français', 'de': 'Deutsch', 'it': 'Italiano'}

# The pieces of text in the page of the patcher, also of closed details, except names of files and what the author and the program write.
PIECES = '''const walker = document.createTreeWalker(document.querySelector('#player'), NodeFilter.SHOW_TEXT), found = [];
for (let node = walker.nextNode(); node !== null; node = walker.nextNode()) {
    const it = node.parentElement;
    if (!it.closest('bdi, pre, .mono, .author, h1, select') && node.nodeValue.trim() !== '') found.push(node.nodeValue.trim());
}
return [...found, ...[...document.querySelectorAll('#player [aria-label]')].map(it => it.getAttribute('aria-label'))]'''

# Sets the browser's preferred languages.
PREFERS = 'Object.defineProperty(navigator, "languages", {{ value: {} }});\n'


class Translation(States):
    """Visits the states of a patcher in a language."""

    def to_player_kept(self) -> None:
        """The browser's dialog was closed without a choice: nothing was saved."""
        self.to_player_right()
        self.browser.run('chosen.none = true')
        self.press(self.says('playerPatchAndSave'))
        self.browser.wait('#player', self.says('playerNothingWasSaved'))

    def to_player_no_image(self) -> None:
        """A file that is not an image."""
        self.play(None)
        self.browser.give('#player-files', [discs.written(readme='No image.\n')['readme']])
        self.browser.wait('#player .say.bad', self.says('openNotOpenedYet'))

    def judge(self, language: str) -> None:
        self.language = language
        states = {name: method for name, method in all_states().items() if name.startswith('player')}
        states |= {name.removeprefix('to_'): method for name, method in vars(Translation).items() if name.startswith('to_')}
        for name, method in states.items():
            with self.subTest(name):
                self.setUp()
                method(self)
                self.assertEqual(self.browser.run('return document.documentElement.lang'), 'en-GB' if language == 'en' else language)
                self.assertEqual(self.browser.misfits(*WIDTHS), {})
                self.assertEqual(self.browser.run('return document.querySelector("#player-language").value'), language)
                self.assertEqual(self.browser.attempts(), [])
                if 'PICTURES' in os.environ:
                    self.browser.pictures(Path(os.environ['PICTURES']), f'{language}-{name}')
                untranslated = {common.text(key) for key in common.keys_for_players() if common.text(key) != common.text(key, language)}
                self.assertEqual([piece for piece in self.browser.run(PIECES) if piece in untranslated], [])


for tag in NAMES:
    setattr(Translation, f'test_{tag.lower().replace("-", "_")}', lambda self, language=tag: self.judge(language))


class Choice(PageTest):
    stub = PICKER

    def opened(self, prefers: str, **other: object) -> str:
        """Opens a patcher in a browser that prefers these languages, and returns the language of its page."""
        self.browser.before_pages(PREFERS.format(prefers.split()) + PICKER)
        self.open_patcher(patcher(discs.game(), result(), discs.script(), **other))
        self.browser.wait('#player h1')
        return self.shown()

    def shown(self) -> str:
        """The language that the page of a patcher has in all of its parts."""
        language = str(self.browser.run('return document.querySelector("#player-language").value'))
        self.assertEqual(self.browser.run('return document.documentElement.lang'), 'en-GB' if language == 'en' else language)
        self.assertEqual(self.browser.text('#home'), common.text('playerPatcherMadeWith', language))
        self.browser.wait('#player .safe', common.text('playerNewFileIsSaved', language))
        return language

    def choose(self, language: str) -> None:
        """Chooses a language in the list of the page."""
        self.browser.run('const it = document.querySelector("#player-language"); it.value = arguments[0]; it.dispatchEvent(new Event("change"))', language)
        self.assertEqual(self.shown(), language)

    def right(self) -> None:
        self.browser.give('#player-files', [discs.written(mine=discs.game())['mine']])
        self.browser.wait('#verdict', common.text('playerRightDisc', self.shown()))

    def test_the_browser_decides_if_the_author_did_not(self) -> None:
        for prefers, due in ('fr-CA en', 'fr'), ('ja pt-PT es', 'pt-BR'), ('en-US de', 'en'), ('ja fil', 'en'), ('', 'en'):
            self.assertEqual(self.opened(prefers), due)

    @common.in_check
    def test_what_the_author_chose_comes_before_the_browser(self) -> None:
        self.assertEqual(self.opened('fr en', language='de'), 'de')
        self.assertEqual(self.opened('fr es', language='en'), 'en')

    def test_a_patcher_in_no_known_language_is_refused_in_that_of_the_browser(self) -> None:
        self.browser.before_pages(PREFERS.format(['it']))
        self.open_patcher(patcher(discs.game(), result(), discs.script(), language='xx'))
        self.browser.wait('.say.bad', common.text('playerPatcherUnusable', 'it'))
        self.assertIn(common.text('playerHeadWithWrongMember', 'it').split('{')[0][1:] + 'language', self.browser.text('.say.bad'))

    def test_another_language_keeps_the_verdict_the_details_and_what_was_saved(self) -> None:
        self.opened('en')
        self.right()
        self.choose('de')
        self.browser.wait('#verdict', common.text('playerRightDisc', 'de'))
        self.browser.run('chosen.hold()')
        self.press('Patchen und speichern')
        self.browser.wait('#player .progress')
        self.choose('fr')
        self.browser.wait('#player .step.now', 'Enregistrement de Starlit (English).bin')
        self.browser.wait('#player .step.done', common.text('playerRightDisc', 'fr'))
        self.browser.wait('#long-job', 'Enregistrement')
        self.assertEqual(self.browser.run('return chosen.state'), 'none')
        self.browser.run('chosen.release()')
        self.browser.wait('#saved', 'Enregistr\u00e9\u00a0: Starlit (English).bin')
        self.assertTrue(self.browser.run('return document.querySelector("#long-job").hidden'))
        self.choose('en')
        self.browser.wait('#saved', 'Saved: Starlit (English).bin')

    def test_numbers_are_written_as_in_the_language(self) -> None:
        for language, due in (('en', '1,'), ('de', '1.'), ('fr', '1\u202f')):
            self.opened('en', language=language)
            self.browser.give('#player-files', [discs.written(mine=discs.game() + bytes(2352 * 400))['mine']])
            self.browser.wait('#verdict')
            self.assertIn(due, self.browser.run('return document.querySelector("#player dl").textContent'))

    def test_the_line_of_the_program_is_quoted_in_english(self) -> None:
        block = discs.first_block() + 1
        damaged = discs.written(mine=common.damaged(discs.game(), block))['mine']
        for language in NAMES:
            self.opened('en', language=language)
            self.browser.give('#player-files', [damaged])
            self.browser.wait('#verdict')
            before, after = common.text('playerProgramReports', language).split('{line}')
            row = 'const it = document.querySelector("#player dl [lang=en]"); return [it, it.parentElement].map(part => part.textContent)'
            line = f'refused: block {block} is damaged'
            self.assertEqual(self.browser.run(row), [line, before + line + after])
            self.assertRegex(before + after, '[“„«].*[”“»]$')

    def test_the_words_of_the_author_have_no_language_of_the_page(self) -> None:
        self.opened('es')
        self.assertEqual(self.browser.run('return [...document.querySelectorAll("#player h1, #player .author")].map(it => [it.lang, it.dir])'),
                         [['', 'auto'], ['', 'auto']])
        self.assertEqual(self.browser.run('return document.querySelector("#about").lang'), 'en-GB')

    def test_the_full_page_is_in_english(self) -> None:
        self.opened('it')
        self.right()
        self.press(common.text('playerOpenInFullCdpatch', 'it'))
        self.browser.wait('#disc-line .name', 'mine.bin')
        self.wait_for_hash()
        self.assertEqual(self.browser.run('return document.documentElement.lang'), 'en-GB')
        self.assertEqual(self.browser.text('#open-about'), 'About')
        self.browser.wait('#disc-line', 'all hashes')
