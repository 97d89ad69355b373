"""The panel Text: hits, their tags, the length gauge, and replacements in the script."""

import re
import subprocess
from pathlib import Path

import common
import decoders
import discs
from keys import Keys
from pages import CLIPBOARD, PageTest, applied


def places(text: bytes) -> list[str]:
    """The places of these bytes in the game's user data, as 'block offset'."""
    user = b''.join(discs.game()[at + 16:at + 2064] for at in range(0, len(discs.game()), 2352))
    found = [match.start() for match in re.finditer(b'(?=' + re.escape(text) + b')', user)]
    return [f'{at // 2048} {at % 2048}' for at in found]


class Text(PageTest):
    def find_in_game(self, text: str = 'スタート') -> None:
        """Opens the game and searches for a text by the keyboard."""
        self.files = discs.written(game=discs.game())
        self.open_image(self.files['game'])
        self.browser.click('#tab-text')
        self.browser.click('#find-text')
        self.search(text)

    def search(self, text: str) -> None:
        """Types a text, presses Enter, and waits until the new text can be typed."""
        self.browser.press(text, Keys.ENTER)
        self.browser.wait('#panel-text .hits tbody mark')
        self.wait_for_focus('#new-text')

    def replace_first(self) -> None:
        """Replaces the first of five hits, and waits for the second one: until then the page adds no other line."""
        self.browser.press('Start', Keys.ENTER)
        self.browser.wait('.hits tbody tr:nth-child(1)', 'in the script, line 2')
        self.browser.wait('#panel-text [aria-label=Replace]', 'hit 2 of 5')

    def hits(self) -> list[str]:
        cells = 'return [...document.querySelectorAll(".hits tbody tr")].map(row => [...row.cells].slice(0, 2).map(it => it.innerText.split(",")[0].trim()).join(" "))'
        return list(self.browser.run(cells))

    def row(self, number: int) -> str:
        return self.browser.text(f'.hits tbody tr:nth-child({number})')

    def test_ctrl_f_goes_to_the_field_of_the_panel_that_is_shown(self) -> None:
        self.open_image(discs.written(game=discs.game())['game'])
        for panel, focused in (('text', True), ('script', False), ('text', True)):
            self.browser.click(f'#tab-{panel}')
            self.browser.run("""globalThis.kept = null; document.addEventListener('keydown', event => setTimeout(() => { kept = event.defaultPrevented; }), { once: true });
                document.activeElement.dispatchEvent(new KeyboardEvent('keydown', { key: 'f', ctrlKey: true, bubbles: true, cancelable: true }))""")
            self.assertTrue(self.browser.awaited('kept === given[0]', focused), panel)
            self.assertEqual(self.browser.run('return document.activeElement.id'), 'find-text' if focused else f'tab-{panel}')
        # In the field, the key is the browser's.
        self.browser.run("""document.activeElement.dispatchEvent(new KeyboardEvent('keydown', { key: 'f', ctrlKey: true, bubbles: true, cancelable: true }));
            document.addEventListener('keydown', event => { kept = event.defaultPrevented; }, { once: true });
            document.activeElement.dispatchEvent(new KeyboardEvent('keydown', { key: 'f', ctrlKey: true, bubbles: true, cancelable: true }))""")
        self.assertFalse(self.browser.run('return kept'))

    def test_the_field_has_an_example_and_the_last_searches(self) -> None:
        self.open_texts(discs.game())
        boxes = """return [...document.querySelectorAll('.ask :is(input, select, .btn)')].filter(it => it.checkVisibility()).map(it => {
            const { top, height } = it.getBoundingClientRect();
            return [Math.round(top), Math.round(height)] })"""
        self.assertEqual(len({tuple(it) for it in self.browser.run(boxes)}), 1)
        self.assertIn('スタート', self.browser.run("return document.querySelector('#find-text').placeholder"))
        self.browser.choose('#find-encoding', 'hex')
        self.sees(True, lambda: 'スタート' not in self.browser.run("return document.querySelector('#find-text').placeholder"))
        self.browser.choose('#find-encoding', 'CP932')
        for text in ('スタート', 'つづき', 'スタート'):
            self.browser.type('#find-text', f'{text}\n')
            self.browser.wait('#panel-text .hits tbody mark', text)
            self.wait_for_focus('#new-text')
        self.assertEqual(self.browser.run("return [...document.querySelector('#find-text').list.options].map(it => it.value)"), ['スタート', 'つづき'])

    def test_each_hit_is_found_with_its_file_and_what_stands_round_it(self) -> None:
        self.find_in_game()
        self.assertEqual(self.hits(), places(discs.START))
        self.assertEqual(len(self.hits()), 5)
        common.waited(lambda: 'もう一度スタートに戻りますか？' in self.row(3), self.row(3))
        self.assertIn('/DATA/MSG00.DAT', self.row(3))
        self.assertIn('continues in the next block', self.row(4))

    def test_hits_are_copied_as_a_table_with_file_and_text(self) -> None:
        self.find_in_game()
        self.browser.run(CLIPBOARD)
        self.press('Copy as a table')
        table = str(common.waited(lambda: self.browser.run('return globalThis.copied'), 'nothing is copied'))
        head, *rows = [line.split('\t') for line in table.splitlines()]
        self.assertEqual(head, ['block', 'offset', 'file', 'text'])
        self.assertEqual([' '.join(row[:2]) for row in rows], places(discs.START))
        self.assertEqual({row[2] for row in rows}, {'/DATA/MSG00.DAT'})
        self.assertIn('もう一度スタートに戻りますか？', rows[2][3])

    def test_the_bytes_round_a_hit_fit_the_width_of_their_card(self) -> None:
        self.find_in_game()
        for width, rows in ((1280, ':not(.cols8)'), (360, '.cols8'), (1280, ':not(.cols8)')):
            self.browser.size(width)
            self.browser.wait(f'.hex.around{rows}', 'スタート')

    @common.in_check
    def test_find_replace_check_and_apply_give_what_the_program_writes(self) -> None:
        self.find_in_game()
        self.replace_first()
        self.press('Replace the other 4')
        self.browser.wait('#panel-text .say.good', '4 lines added to the script.')
        self.browser.click('#tab-script')
        script = self.script_text()
        new = 'Start'.encode().ljust(8).hex().upper()
        self.assertEqual(script, 'cdpatch 1\n' + ''.join(f'set {place} {new} was {discs.START.hex().upper()}\n' for place in places(discs.START)))
        self.press('Check')
        self.browser.wait('#panel-script .say.good', '5 patches, which all match')
        self.press('Apply and save')
        saved = self.browser.downloaded('game (patched).bin').read_bytes()
        self.assertEqual(saved, applied(self.files['game'], discs.written(script=script)['script'])[2])
        self.assertEqual(self.browser.attempts(), [])

    def shown(self, css: str) -> bool:
        return bool(self.browser.run('return document.querySelector(arguments[0]).checkVisibility()', css))

    def choose(self, encoding: str) -> None:
        self.browser.choose('#find-encoding', encoding)

    def test_hits_are_shown_only_for_the_text_and_the_encoding_that_were_searched(self) -> None:
        self.find_in_game()
        self.choose('EUC-JP')
        self.assertFalse(self.shown('.hits'))
        self.choose('CP932')
        self.assertTrue(self.shown('.hits'))
        self.browser.click('#find-text')
        self.browser.press(Keys.BACKSPACE)
        self.assertFalse(self.shown('.hits'))
        self.browser.press('ト')
        self.assertTrue(self.shown('.hits'))

    def test_hits_are_counted_anew_after_the_script_has_changed(self) -> None:
        self.find_in_game()
        self.replace_first()
        self.assertFalse(self.is_off('Replace the other 4'))
        self.edit('z', held=Keys.CONTROL)
        self.browser.click('#tab-text')
        self.assertFalse(self.is_off('Replace all 5'))
        self.assertNotIn('in the script', self.row(1))

    def test_a_line_that_writes_a_hit_already_is_replaced(self) -> None:
        self.find_in_game()
        self.replace_first()
        self.browser.click('.hits tbody tr:nth-child(1)')
        self.browser.wait('#panel-text .main', 'Update line 2')
        self.browser.type('#new-text', 'Begin')
        self.press('Update line 2')
        self.browser.click('#tab-script')
        new = 'Begin'.encode().ljust(8).hex().upper()
        self.assertEqual(self.script_text(), f'cdpatch 1\nset {places(discs.START)[0]} {new} was {discs.START.hex().upper()}\n')

    def test_a_text_that_is_too_long_is_not_added(self) -> None:
        self.find_in_game()
        self.browser.press('Start game')
        self.browser.wait('#new-length', '10 bytes, 2 too many for the 8 of the old text')
        self.assertEqual(self.browser.run('return document.querySelectorAll(".gauge .over").length'), 2)
        self.assertTrue(self.is_off('Replace all'))
        self.browser.press(Keys.ENTER)
        self.press_off('Replace')
        self.sees(True, 'return document.querySelector("#count-script").hidden')

    def test_a_wide_space_fills_only_what_it_fits(self) -> None:
        self.find_in_game()
        self.browser.press('Star')
        self.browser.choose('#panel-text select.short', '8140')
        self.browser.wait('.line-out', f'was {discs.START.hex().upper()}')
        self.assertIn('53746172' + '8140' * 2, self.browser.text('.line-out'))
        self.browser.click('#new-text')
        self.browser.press('t')
        self.browser.wait('#panel-text .say.bad', '3 bytes cannot be padded evenly with that filler')
        self.assertTrue(self.is_off('Replace'))

    def texts(self, texts: dict[str, str]) -> None:
        """Opens an image with one block for each text; the keys are their encodings."""
        self.open_image(discs.written(texts=common.image_of([text.encode(name) for name, text in texts.items()]))['texts'])
        self.browser.click('#tab-text')

    def replaced(self, block: int, encoding: str, old: str, new: str) -> str:
        """The line that replaces a text at the beginning of a block, with the default filler."""
        self.choose(encoding)
        self.browser.type('#find-text', old)
        self.browser.press(Keys.ENTER)
        self.browser.wait('#panel-text .side h2', f'Replace: block {block} offset 0')
        self.browser.type('#new-text', new)
        self.browser.wait('.line-out', f'was {old.encode(encoding).hex().upper()}')
        return self.browser.text('.line-out')

    def fills(self) -> list[str]:
        return list(self.browser.run('return [...document.querySelector("#panel-text select.short").options].map(it => it.text)'))

    def test_a_shorter_text_is_filled_up_with_the_space_of_its_encoding(self) -> None:
        self.texts({'UTF-16LE': 'スタート', 'CP932': 'おわり'})
        self.assertIn(f"set 0 0 {'go  '.encode('utf-16-le').hex().upper()} was", self.replaced(0, 'UTF-16LE', 'スタート', 'go'))
        self.assertEqual(self.fills(), ['20 00 space', '00 30 wide space', '00', 'another byte…'])

    def test_a_wide_space_is_that_of_the_encoding(self) -> None:
        self.texts({'CP932': 'スタート', 'EUC-JP': 'スタート'})
        self.replaced(0, 'CP932', 'スタート', 'ゴー')
        self.assertEqual(self.fills()[1], '81 40 wide space')
        self.replaced(1, 'EUC-JP', 'スタート', 'ゴー')
        self.assertEqual(self.fills(), ['20 space', 'A1 A1 wide space', '00', 'another byte…'])
        self.browser.run('document.querySelector("#panel-text select.short").selectedIndex = 1; '
                         'document.querySelector("#panel-text select.short").dispatchEvent(new Event("change"))')
        self.browser.wait('.line-out', f"set 1 0 {'ゴー　　'.encode('euc-jp').hex().upper()} was")

    def test_a_text_in_another_encoding_of_two_bytes_is_found_and_replaced(self) -> None:
        others = [it for it in common.encodings() if 'found' in it]
        self.open_image(discs.written(texts=common.image_of([it['texts'][0].encode(it['codec']) for it in others]))['texts'])
        self.browser.click('#tab-text')
        for block, it in enumerate(others):
            old, new = it['texts'][0], it['found'][2]
            self.choose(it['name'])
            self.browser.type('#find-text', old)
            self.browser.press(Keys.ENTER)
            self.browser.wait('#panel-text .side h2', f'Replace: block {block} offset 0')
            self.browser.type('#new-text', new)
            fresh = new.encode(it['codec']).ljust(len(old.encode(it['codec']))).hex().upper()
            self.browser.wait('.line-out', f"set {block} 0 {fresh} was {old.encode(it['codec']).hex().upper()}")

    def test_chromium_reads_pairs_of_bytes_as_the_tables_have_them(self) -> None:
        self.assertGreater(sum(len(pairs) for pairs in decoders.tables().values()), 50000)
        self.assertEqual(decoders.differing(self.browser.run), [])

    def test_hits_that_may_begin_inside_a_character_are_not_added_for_all(self) -> None:
        # In CP932 殻 is 8A6B, so only the second and the third 'kz' begin a character.
        self.open_image(discs.written(inside=common.image_of([b'\0' + '殻z'.encode('cp932') + b'\0kz\0kz', b'', b'']))['inside'])
        self.browser.click('#tab-text')
        self.browser.click('#find-text')
        self.search('kz')
        self.browser.wait('.hits tbody tr:nth-child(1)', 'perhaps in the middle of a character (byte before: 8A)')
        self.browser.press('xx')
        self.press('Replace all 3')
        self.browser.wait('#panel-text .say.warn', '1 hit not replaced: block 0 offset 2: perhaps in the middle of a character (byte before: 8A)')
        self.browser.click('#tab-script')
        self.assertEqual(self.script_text(), 'cdpatch 1\nset 0 5 7878 was 6B7A\nset 0 8 7878 was 6B7A\n')

    def said_of_hits(self) -> list[str]:
        """The place and the file of each visible hit, and whether it may begin in the middle of a character."""
        return list(self.browser.run('''return [...document.querySelectorAll('.hits tbody tr')].map(row => {
            const doubt = [...row.querySelectorAll('.tag')].map(it => it.textContent).find(it => it.startsWith('perhaps')) || '';
            return [row.cells[0].textContent.replace(/,.*/, ''), ...[1, 2].map(i => row.cells[i].textContent), doubt].join(' ') })'''))

    def cdscript(self, image: Path, *words: str) -> str:
        node = subprocess.run(['node', common.cdscript(), words[0], image, *words[1:]], stdout=subprocess.PIPE, stderr=subprocess.PIPE, check=False)
        return node.stdout.decode()

    def test_the_page_says_of_each_hit_what_cdscript_says_and_replaces_all_by_the_same_script(self) -> None:
        # In CP932 殻 is 8A6B; in UTF-16 and EUC-JP a space has other bytes than in ASCII.
        texts = b'\0' + '殻z'.encode('cp932') + b'\0kz\0kz'.ljust(2048, b'.') * 2 + 'スタート'.encode('utf-16-le') + 'スタート'.encode('euc-jp')
        image = discs.written(hits=common.image_of(common.iso_of({'ONE.BIN': texts, 'TWO.BIN': texts})))['hits']
        self.open_image(image)
        self.browser.click('#tab-text')
        script = 'cdpatch 1\n'
        for encoding, old, new in (('CP932', 'kz', 'x'), ('UTF-16LE', 'スタート', 'go'), ('EUC-JP', 'スタート', 'ゴー')):
            self.choose(encoding)
            self.browser.click('#find-text')
            self.browser.run('document.querySelector("#find-text").value = ""')
            self.search(old)
            lines = [line.split('\t') for line in self.cdscript(image, 'find', old, '--encoding', encoding).splitlines()]
            due = [f"{block} {offset} {file.partition('+')[0]} {''.join(doubt)}" for block, offset, _, file, _, *doubt in lines]
            common.waited(lambda: self.said_of_hits() == due, f'{due}')
            self.browser.type('#new-text', new)
            self.press('Replace all')
            script += self.cdscript(image, 'replace', old, new, '--all', '--encoding', encoding).removeprefix('cdpatch 1\n')
            # A change of the script removes the message about an earlier one, and a search begins only after the next message.
            self.browser.wait('#count-script', str(len(script.splitlines()) - 1))
            self.browser.wait('#panel-text .say', 'added to the script.')
        self.assertEqual(len(script.splitlines()), 1 + 8 + 2 + 2)
        self.browser.click('#tab-script')
        self.assertEqual(self.script_text(), script)

    def test_a_long_run_of_characters_says_which_hits_begin_inside_one(self) -> None:
        # Each byte of a run of 亜 (889F) may begin a character, but not the last byte of 殻 (8A6B).
        run = ('殻' + '亜' * 60).encode('cp932').replace(b'\x88\x9f', b'\x89\x89') + 'あ'.encode('cp932')
        self.open_image(discs.written(run=common.image_of([b'.' + run]))['run'])
        self.browser.click('#tab-text')
        self.choose('hex')
        self.browser.click('#find-text')
        self.search('8989')
        self.choose('CP932')
        self.browser.wait('.hits tbody tr:nth-child(119)', 'あ')
        marked = self.browser.run('return [...document.querySelectorAll(".hits tbody tr")].map(it => it.innerText.includes("in the middle"))')
        self.assertEqual(marked, [i % 2 == 1 for i in range(119)])

    @common.in_check
    def test_a_hit_may_begin_inside_a_character(self) -> None:
        user = [bytes([0x2E] * 20) + '海Xスタ'.encode('cp932'), b'\0' + bytes([0x83, 0x83]) + b'X']
        self.open_image(discs.written(inside=common.image_of(user))['inside'])
        self.browser.click('#tab-text')
        self.choose('hex')
        self.browser.type('#find-text', '43 58')
        self.browser.press(Keys.ENTER)
        self.browser.wait('#panel-text .hits tbody mark')
        self.choose('CP932')
        self.browser.wait('.hits tbody tr', 'perhaps in the middle of a character (byte before: 8A)')

    def test_a_table_of_the_game_is_an_encoding(self) -> None:
        image = common.image_of([b'\x10\x11\x12\x10\xFF', b'', b''])
        place = common.folder('table')
        (place / 'game.tbl').write_text('10=あ\n11=い\n12=う\n20=A\n21=B\nFF=<end>\n')
        self.open_image(discs.written(table=image)['table'])
        self.browser.click('#tab-text')
        self.browser.give('[aria-label="A table to load"]', [place / 'game.tbl'])
        self.browser.wait('#panel-text .say.good', 'Loaded: game.tbl')
        self.browser.click('#find-text')
        self.search('いう')
        self.browser.press('AB', Keys.ENTER)
        self.browser.wait('#count-script', '1')
        self.browser.click('#tab-script')
        self.assertEqual(self.script_text(), 'cdpatch 1\nset 0 1 2021 was 1112\n')
        (place / 'bad.tbl').write_text('10=あ\nno line\n')
        self.browser.drop('#main', [place / 'bad.tbl'])
        self.browser.wait('#panel-text .say.bad', 'line 2 of the table is not HEX=TEXT')

    def test_a_damaged_sector_is_not_replaced(self) -> None:
        self.open_texts(discs.scratched())
        self.browser.click('#find-text')
        self.search('スタート')
        self.browser.press('Start')
        self.press('Replace all 5')
        self.browser.wait('#panel-text .say.warn', f'block {discs.first_block() + 1} is damaged: repair it first')
        self.assertEqual(self.browser.text('#count-script').split()[0], '3')

    def test_a_hit_in_a_mode_2_sector_is_not_offered_for_replacement(self) -> None:
        image = common.image_of([b'', b'2121'] + [b''] * 18) + discs.mode2(4, 20)
        self.open_image(discs.written(video=image)['video'])
        self.browser.click('#tab-text')
        self.browser.wait('#panel-text .hint', common.text('imageModeTwoNotPatched'))
        self.browser.click('#find-text')
        self.search('2121')
        self.browser.wait('#panel-text [aria-label=Replace]', 'Replace: block 1 offset 0')
        self.browser.wait('#panel-text [aria-label=Replace] .btn.main', 'Replace')
        self.browser.click('.hits tbody tr:nth-child(2) button')
        self.browser.wait('#panel-text [aria-label=Replace] .say.warn', common.text('textModeTwoNotPatched'))
        self.assertEqual(self.browser.run('return [...document.querySelectorAll("[aria-label=Replace] :is(button, input)")].filter(it => it.checkVisibility()).map(it => it.innerText)'), ['Skip ▸'])
        self.browser.click('.hits tbody tr:nth-child(1) button')
        self.wait_for_focus('.hits tbody tr:nth-child(1) button')
        self.browser.wait('#panel-text [aria-label=Replace] .btn.main', 'Replace')

    def test_no_hit_says_what_was_searched_and_nothing_else_does(self) -> None:
        self.open_texts(discs.game())
        self.browser.click('#find-text')
        self.browser.press('存在しない', Keys.ENTER)
        self.browser.wait('#panel-text .say', 'No hit in Shift-JIS (CP932).')
        self.browser.wait('#panel-text .say', f'All user data ({len(discs.game()) // 2352} sectors) were searched.')
        self.browser.type('#find-text', 'Café')
        self.browser.press(Keys.ENTER)
        self.browser.wait('.hint', "CP932 cannot encode 'é'")
        self.assertNotIn('were searched', self.browser.text('#panel-text'))
        self.browser.type('#find-text', '한')
        self.browser.wait('.hint', "CP932 cannot encode '한' (U+D55C), character 1 of the text")
