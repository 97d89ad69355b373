"""Each panel with hundreds of rows at several widths: the page ends with its footer, and nothing is cut off or in a narrow column.

If PICTURES is set to a directory, each state is drawn there at each width.
"""

import os
from pathlib import Path

import common
import discs
from chromium import WIDTHS
from pages import PICKER, PageTest, patcher

# 640 pixels are a screen of 1280 pixels at a zoom of 200 %.
ALL_WIDTHS = (*WIDTHS, 640)
LONG_NAME = f"Hoshizora Tantei - The Starlit Detective and the Case of the Missing Comet ({'Japan, ' * 4}Disc 1) (Rev 2) (Alt).bin"

# How high the line with the facts of the open image is, in lines of its text.
FACTS = '''const line = document.querySelector('.disc-line'), { height } = line.getBoundingClientRect();
    return Math.round((height - 16) / 20)'''


class Layout(PageTest):
    stub = PICKER

    def judge(self, state: str) -> None:
        self.assertEqual(self.browser.misfits(*ALL_WIDTHS), {}, state)
        if 'PICTURES' in os.environ:
            for width in ALL_WIDTHS:
                self.browser.picture(Path(os.environ['PICTURES']) / f"layout-{state.replace(' ', '-')}-{width}.png", width)

    def begin(self, image: bytes, name: str = LONG_NAME) -> Path:
        path = common.folder('disc') / name
        path.write_bytes(image)
        self.open_files(path)
        self.wait_for_hash()
        return path

    def search(self) -> None:
        self.find()
        self.browser.wait('#panel-text .hits tbody tr:nth-child(200)', 'スタート')
        self.browser.type('#new-text', 'Start')

    def test_hits_make_the_page_no_longer(self) -> None:
        self.begin(discs.many_texts())
        self.search()
        self.judge('200 hits')
        self.press('Show 200 more')
        self.browser.wait('#panel-text .hits tbody tr:nth-child(400)', 'スタート')
        self.judge('400 hits')

    def test_findings_make_the_page_no_longer(self) -> None:
        self.begin(discs.scratches())
        self.press('Next finding')
        self.browser.wait('#sector-title', 'block')
        self.browser.click('#findings .fold')
        self.judge('findings')
        self.browser.click('#findings [data-tab=details]')
        for detail in ('runs', 'audit'):
            self.browser.choose('#findings select', detail)
            self.judge(detail)

    def test_two_dumps_make_the_page_no_longer(self) -> None:
        place = self.begin(discs.scratches()).parent
        other = place / f'Other {LONG_NAME}'
        image = bytearray(discs.scratches())
        for block in range(3000, 4000, 17):
            image[block * 2352 + 400] ^= 1
        other.write_bytes(image)
        self.open_files(other)
        self.browser.wait('#sheet', 'Compare')
        self.judge('asked')
        self.browser.answer('Repair')
        self.browser.wait('.tally', 'without a sound copy')
        self.browser.wait('[aria-label^="Without a sound copy"]')
        self.judge('repair')
        self.browser.click('[data-tab=compare]')
        self.browser.wait('[aria-label^="Bytes that differ"]')
        self.judge('compare')

    def test_a_script_of_many_lines_makes_the_page_no_longer(self) -> None:
        self.begin(discs.many_texts())
        lines = [f"set {at // 100} {24 + 18 * (at % 100)} {'Start'.encode().ljust(8).hex()} was {discs.START.hex()}" for at in range(400)]
        script = discs.written(english='\n'.join(['cdpatch 1', *lines, 'set 0 0 41 was 42', '']))['english']
        self.open_script(script)
        self.press('Check')
        self.browser.wait('#panel-script .verdict', '400')
        self.judge('script')
        self.browser.click('#tab-publish')
        self.browser.wait('#panel-publish', '400 of 401 patches match')
        self.assertNotIn('The name of the patched image has to', self.browser.text('#panel-publish'))
        self.judge('publish')

    def test_a_patcher_with_long_texts_makes_the_page_no_longer(self) -> None:
        long = {'title': 'The long ' * 20, 'note': 'All menus. ' * 200, 'name': LONG_NAME}
        self.open_patcher(patcher(discs.game(), discs.game(), discs.script(), **long))
        self.browser.wait('#player h1')
        self.browser.give('#player-files', [discs.written(game=discs.game())['game']])
        self.browser.wait('#verdict')
        self.judge('player')

    def test_a_long_name_leaves_room_for_the_facts_of_the_image(self) -> None:
        self.begin(discs.game())
        for panel in ('disc', 'script'):
            self.browser.size(1280)
            self.browser.click(f'#tab-{panel}')
            self.browser.wait('#disc-line dl', 'SHA-1')
            for width, most in ((1280, 3), (900, 4), (640, 5), (360, 6)):
                self.browser.size(width)
                rows = self.browser.run(FACTS)
                self.assertLessEqual(rows, most, f'{rows} rows at {width} on {panel}')

    def test_a_phone_shows_the_verdict_and_its_button_first_and_folds_the_facts(self) -> None:
        self.begin(discs.scratched(), 'game.bin')
        self.browser.size(360, 740)
        places = '''return ['.lead .verdict', '.lead .btn.main', '.disc-line .name', '#map-title'].map(css =>
            Math.round(document.querySelector(css).getBoundingClientRect().top + scrollY))'''
        tops = self.browser.run(places)
        self.assertEqual(tops, sorted(tops))
        self.assertLess(tops[-1], 400)
        shown = "return [...document.querySelectorAll('.disc-line .fact')].map(it => it.checkVisibility())"
        self.assertFalse(any(self.browser.run(shown)))
        self.press('Details')
        common.waited(lambda: all(self.browser.run(shown)), 'the facts are not shown')
        self.press('Details')
        common.waited(lambda: not any(self.browser.run(shown)), 'the facts stay')
        self.browser.size(1280)
        common.waited(lambda: all(self.browser.run(shown)), 'a wide window folds the facts')

    def test_a_map_without_a_ruler_leaves_no_room_for_one(self) -> None:
        lefts = '''return ['#map', '.readout button'].map(css =>
            Math.round(document.querySelector(css).getBoundingClientRect().left - document.querySelector('#map').closest('.card').getBoundingClientRect().left))'''
        for image, ruled in ((discs.scratched(), False), (discs.scratches(), True)):
            self.setUp()
            self.begin(image)
            map_left, button_left = self.browser.run(lefts)
            self.assertEqual([map_left > 40, button_left > 40], [ruled, ruled], [map_left, button_left])
            self.assertEqual(self.browser.run('return document.querySelectorAll(".ruler span").length > 1'), ruled)

    def test_a_finger_finds_the_page_beside_what_it_scrolls(self) -> None:
        self.begin(discs.game())
        self.browser.wait('#sector-title', 'block')
        heights = """return ['.sector .hex', '#findings .scroll'].map(css => document.querySelector(css).clientHeight / innerHeight)"""
        self.browser.size(360, 400)
        for height in self.browser.run(heights):
            self.assertLess(height, 0.61)
