"""The first screen: it is completely visible, says nothing twice, and its three jobs lead to their panels."""

import common
import discs
from chromium import WIDTHS
from pages import PageTest, applied, patcher

# The texts below the window, and those that occur twice among the visible sentences.
BELOW = '''return [...document.querySelectorAll('header *, main *, footer *')].filter(it => it.checkVisibility() && it.children.length === 0 &&
    it.getBoundingClientRect().bottom > innerHeight && !it.closest('.hide, [popover]')).map(it => it.innerText)'''
TWICE = '''const sentences = [...document.querySelectorAll('h1, p, b, button, span')].filter(it => it.checkVisibility() && !it.closest('.hide'))
        .flatMap(it => [...it.childNodes]).filter(it => it.nodeType === 3).flatMap(it => it.nodeValue.split(/[.:;]/)).map(it => it.trim().toLowerCase());
    return sentences.filter((it, i) => it.length > 2 && sentences.indexOf(it) < i)'''
# Counts how often the page opens the picker for files.
ASKED = 'globalThis.asked = 0; HTMLInputElement.prototype.click = function () { globalThis.asked += Number(this.id === "files"); }'


class Start(PageTest):
    def test_all_of_it_is_seen_in_1280_by_800(self) -> None:
        self.browser.size(1280, 800)
        self.assertEqual(self.browser.text('#start h1'), 'Patch, translate, and repair CD images.')
        self.assertEqual(self.browser.run(BELOW), [])
        self.assertLessEqual(self.browser.run('return document.documentElement.scrollHeight'), 800)

    def test_nothing_is_said_twice(self) -> None:
        for width in WIDTHS:
            self.browser.size(width)
            self.assertEqual(self.browser.run(TWICE), [], width)

    def test_the_kinds_of_files_are_one_line(self) -> None:
        height = 'const it = document.querySelector(".takes"); return it.getClientRects().length && it.innerText.split("\\n").length'
        self.assertEqual(self.browser.run(height), 1)
        for word in ('raw images (.bin, .img)', '.cue', 'patch scripts', 'patcher pages', 'ISO files', 'not CHDs'):
            self.assertIn(word, self.browser.text('.takes'))

    def test_each_job_says_what_to_choose_and_opens_the_picker(self) -> None:
        self.browser.run(ASKED)
        for width in (1280, 360):
            self.browser.size(width)
            for job, words in (('Apply a patch', 'the disc image together with its patch'), ('Translate a disc', 'its cue sheet with all BINs'),
                               ('Repair or compare dumps', 'the second dump with it')):
                self.browser.run('asked = 0')
                self.press(job)
                self.browser.wait('#wanted', words)
                self.assertIn(words, self.browser.text('#announced'))
                self.assertEqual(self.browser.run('return asked'), 1)
        # The job stays selected when the button below it is pressed.
        self.press('Open files')
        self.sees(['repair'], 'return [...document.querySelectorAll(".job[aria-pressed=true]")].map(it => it.dataset.aim)')
        self.sees(2, 'return asked')

    def test_the_notes_say_what_cdpatch_is_for_and_what_its_words_mean(self) -> None:
        self.browser.click('[popovertarget=about]:not(.shut)')
        self.browser.wait('#about p', 'cdpatch applies patches to raw CD images')
        self.browser.click('#about .shut')
        self.browser.click('[popovertarget=words]:not(.shut)')
        words = self.browser.run('''return [...document.querySelectorAll('#words dt')].map(it => [it.innerText, it.nextSibling.innerText])''')
        for word in ('Sector', 'Dump', 'Mode 1', 'Cue sheet', 'Patcher', 'Block', 'Carry'):
            self.assertTrue(dict(words)[word].endswith('.'), word)

    def test_each_job_says_before_what_it_asks_for(self) -> None:
        cards = '''return [...document.querySelectorAll('.job')].map(it =>
            [it.querySelector('span').innerText, getComputedStyle(it.querySelector('b'), '::after').content])'''
        said = self.browser.run(cards)
        for (text, sign), words in zip(said, ('Choose your disc image, and a cdpatch script', 'Choose the disc image:', 'Choose one dump or two:'), strict=True):
            self.assertTrue(text.startswith(words), text)
            self.assertEqual(sign, '"…"')
        self.assertIn('compare', self.browser.text('[data-aim=repair]'))

    def test_the_button_stays_in_view_on_a_phone_when_a_job_is_chosen(self) -> None:
        self.browser.run(ASKED)
        self.browser.size(360, 740)
        for job in ('play', 'translate', 'repair'):
            self.browser.run('document.querySelector(`[data-aim=${arguments[0]}]`).click(); scrollTo(0, 0)', job)
            self.assertLessEqual(self.browser.run('return document.querySelector("#open-files").getBoundingClientRect().bottom'), 740, job)

    def leads(self, job: str, focus: str, panel: str) -> None:
        self.setUp()
        self.browser.run(ASKED)
        self.press(job)
        self.open_files(discs.written(game=discs.game())['game'])
        self.browser.wait('#disc-line', 'game.bin')
        self.browser.wait(f'#panel-{panel}')
        self.assertEqual(self.browser.run('return document.activeElement.id'), focus)

    @common.in_check
    def test_each_job_leads_to_its_panel(self) -> None:
        self.leads('Translate a disc', 'find-text', 'text')
        self.leads('Repair or compare dumps', 'map', 'disc')
        self.leads('Open files', 'map', 'disc')
        self.setUp()
        self.browser.run(ASKED)
        self.press('Apply a patch')
        self.open_files(discs.written(game=discs.game())['game'])
        self.browser.wait('#panel-script .side', 'Now open the patch: its script (a text file), or its patcher (a page, .html).')
        self.browser.wait('#panel-script .side .btn.main', 'Open the patch…')

    def test_what_is_dropped_after_a_cancelled_picker_is_for_the_same_job(self) -> None:
        self.browser.run(ASKED)
        self.press('Translate a disc')
        self.browser.run('document.querySelector("#files").dispatchEvent(new Event("cancel"))')
        self.browser.drop('#drop', [discs.written(game=discs.game())['game']])
        self.browser.wait('#panel-text')

    def test_a_patcher_that_is_dropped_with_its_image_has_judged_it(self) -> None:
        files = discs.written(game=discs.game(), english=discs.script())
        page = self.written_page(patcher(discs.game(), applied(files['game'], files['english'])[2], discs.script()))
        self.browser.drop('#drop', [files['game'], page])
        self.browser.wait('#verdict', common.text('playerRightDisc'))
