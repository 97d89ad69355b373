"""The bytes of a sector: selection, copy and paste, typing of texts, and the display of offsets."""

import chromium
import discs
from common import SECTOR_SIZE, damaged, in_check, waited
from keys import Keys
from pages import CLIPBOARD, HELD_TIMERS, UNSEEN, PageTest


# The number of rows that the tools of a sector occupy, and the number of tools.
TOOL_ROWS = '''const tools = [...document.querySelector('#go-to').closest('header').querySelectorAll('input, select, button')];
    const middles = tools.filter(it => it.checkVisibility() && !it.matches('.term')).map(it => it.getBoundingClientRect())
        .map(({ top, bottom }) => Math.round((top + bottom) / 8));
    return [new Set(middles).size, middles.length]'''


class Hex(PageTest):
    def sector_of(self, block: int, image: bytes) -> chromium.Chromium:
        """Opens a sector of an image, and focuses its bytes."""
        browser = self.browser
        self.open_image(discs.written(game=image)['game'])
        self.go_into(block)
        return browser

    def selected(self) -> list[int]:
        return list(self.browser.run("return [...document.querySelectorAll('.hex i.sel')].map(it => Number(it.dataset.at) - 16)"))

    @in_check
    def test_bytes_are_selected_and_copied_as_hex_and_as_text(self) -> None:
        browser = self.sector_of(discs.first_block(), discs.game())
        start = discs.START.hex(' ').upper()
        for _ in range(7):
            browser.press(Keys.ARROW_RIGHT, held=Keys.SHIFT)
        self.assertEqual(self.selected(), [*range(8)])
        browser.wait('#panel-disc .foot', '8 bytes selected, starting at offset 0')
        browser.run(CLIPBOARD)
        for label, text in (('Copy as hex', start), ('Copy as text', 'スタート')):
            self.press_in('sector', label)
            waited(lambda: browser.run('return globalThis.copied') == text, f'{label} copies something else')
        browser.focus('.hex')
        self.assertEqual(self.copied(), start)
        browser.press('t')
        self.assertEqual(self.copied(), 'スタート')
        browser.press(Keys.ESCAPE)
        self.drag(4, 2)
        self.assertEqual(self.selected(), [2, 3, 4])
        browser.press('a', held=Keys.CONTROL)
        self.assertEqual(self.selected(), [*range(2048)])

    def test_a_rebuild_comes_before_the_changes_of_its_sector(self) -> None:
        browser = self.sector_of(60, damaged(discs.game(), 60, 1000))
        browser.press('c', '0')
        waited(lambda: browser.text('#count-script').startswith('1'), 'no line in the script')
        self.press('Add rebuild to the script')
        browser.wait('#panel-disc .say.bad', 'Line 2 is rebuild 60 now, before the other patches of this sector.')
        self.assertEqual(browser.text('#announced'), 'Line 2 is rebuild 60 now, before the other patches of this sector.')
        self.assertTrue(self.is_off('rebuild is in the script'))
        self.assertEqual(self.focused().split(': ')[1], 'rebuild is in the script')
        browser.click('#tab-script')
        self.assertEqual(self.script_text(), 'cdpatch 1\nrebuild 60\nset 60 1000 C0 was 55\n')
        self.press('Check')
        browser.wait('#panel-script .say.good', '1 of 2 patches match game.bin, 1 has no old bytes to compare.')

    def copied(self) -> str:
        """The text that Ctrl+C copies."""
        script = '''const data = new DataTransfer();
            document.activeElement.dispatchEvent(new ClipboardEvent('copy', { clipboardData: data, cancelable: true, bubbles: true }));
            return data.getData('text/plain')'''
        return str(self.browser.run(script))

    def paste(self, text: str) -> None:
        script = '''const data = new DataTransfer();
            data.setData('text/plain', arguments[0]);
            document.activeElement.dispatchEvent(new ClipboardEvent('paste', { clipboardData: data, cancelable: true, bubbles: true }))'''
        self.browser.run(script, text)

    def drag(self, first: int, last: int) -> None:
        """Selects from one user byte to another with the mouse."""
        byte = 'document.querySelector(`#byte-${given[0]}`)'
        self.browser.hold(byte, 16 + first)
        place = self.browser.point(byte, 16 + last)
        self.browser.mouse('Moved', place)
        self.browser.mouse('Released', place)

    def test_bytes_are_pasted_and_texts_are_typed(self) -> None:
        image = discs.game()
        browser = self.sector_of(60, image)
        old = image[60 * SECTOR_SIZE + 16:]
        self.paste('c0 ff EE')
        browser.press('t', 'O', 'k', '!')
        self.paste('スタ')
        line = f'set 60 0 C0FFEE4F6B218358835E was {old[:10].hex().upper()}'
        browser.wait('#announced', f'In the script: {line}')
        browser.press(Keys.ESCAPE)
        self.paste('Ok')
        browser.wait('#panel-disc .foot', 'These are not pairs of hexadecimal digits.')
        self.paste('00' * 2039)
        browser.wait('#panel-disc .foot', 'These are 2,039 bytes, but there is room for only 2038 here')
        browser.press('t')
        self.paste('é')
        browser.wait('#panel-disc .foot .bad-ink', 'é')
        browser.click('#tab-script')
        self.assertEqual(self.script_text(), f'cdpatch 1\n{line}\n')

    def test_offsets_and_bytes_of_the_sector_are_told_apart(self) -> None:
        browser = self.sector_of(60, discs.game())
        browser.wait('.hex .cut', 'User data: offset 0 to 2047, which are bytes 16 to 2063 of the sector')
        self.press('Fields of the sector')
        self.sees(['Bytes', 'sync0–11'], lambda: browser.text('.fields').split()[:2])

    def test_the_tools_of_a_sector_are_one_row(self) -> None:
        self.sector_of(60, discs.game())
        for width in (1280, 900):
            self.browser.size(width)
            self.assertEqual(self.browser.run(TOOL_ROWS), [1, 3], width)

    def test_the_fields_of_a_sector_are_opened_by_a_press_and_gone_to(self) -> None:
        browser = self.sector_of(60, discs.game())
        self.assertFalse(browser.run('return document.querySelector(".fields").checkVisibility()'))
        self.press('Fields of the sector')
        self.press('EDC')
        browser.wait('#panel-disc .foot', 'byte 2064 of the sector')

    def test_one_byte_is_copied_and_said_to_be(self) -> None:
        browser = self.sector_of(discs.first_block(), discs.game())
        self.assertEqual(self.copied(), discs.START.hex()[:2].upper())
        browser.wait('#panel-disc .foot', 'Copied 1 byte')
        browser.press(Keys.ARROW_RIGHT)
        waited(lambda: 'Copied' not in browser.text('#panel-disc .foot'), 'another byte is called copied')
        browser.run(CLIPBOARD + HELD_TIMERS, 2000)
        self.press_in('sector', 'Copy as hex')
        waited(lambda: browser.run('return globalThis.copied') == discs.START.hex()[2:4].upper(), 'the menu copies something else')
        browser.wait('#menu', 'Copied')

    def test_the_wheel_goes_on_to_the_page_at_the_end_of_the_bytes(self) -> None:
        browser = self.sector_of(60, discs.game())
        browser.size(1280, 600)
        browser.run('scrollTo(0, 0); document.querySelector(".hex").scrollTop = 99999')
        x, y = browser.run('const { left, top } = document.querySelector(".hex").getBoundingClientRect(); return [left + 200, top + 40]')
        browser.cdp('Input.dispatchMouseEvent', type='mouseWheel', x=x, y=y, deltaX=0, deltaY=200)
        waited(lambda: browser.run('return scrollY') > 50, 'the page stands still')

    def test_offsets_are_shown_in_hexadecimal_too(self) -> None:
        browser = self.sector_of(60, discs.game())
        browser.press(Keys.ARROW_DOWN, Keys.ARROW_DOWN, Keys.ARROW_RIGHT)
        browser.wait('#panel-disc .foot', 'offset 33')
        browser.wait('#panel-disc .foot', '0x21')
        rows = "return [...document.querySelectorAll('.hex .line .o')].slice(1, 5).map(it => it.innerText)"
        self.assertEqual(browser.run(rows), ['0', '16', '32', '48'])
        checked = 'return document.querySelector("#menu [role=menuitemcheckbox]").getAttribute("aria-checked")'
        for due, shown in (('false', ['000', '010', '020', '030']), ('true', ['0', '16', '32', '48'])):
            browser.click('[data-menu=sector]')
            self.sees(due, checked)
            self.press('☑' if due == 'true' else '☐')
            self.sees(shown, rows)

    def test_a_finger_changes_bytes_in_a_field(self) -> None:
        image = discs.game()
        old = image[60 * SECTOR_SIZE + 16:]
        browser = self.sector_of(60, image)
        self.is_gone('.byte-field')
        browser.size(360, 740)
        browser.tap('#byte-18')
        browser.wait('.byte-field', 'New bytes from offset 2 on, in hex')
        self.assertLessEqual(browser.run(UNSEEN, '#new-bytes'), 0)
        self.assertTrue(self.is_off('Undo')) # it has its place from the start, and does not appear under the finger
        for text, says in (('c', 'These are not pairs of hexadecimal digits.'), ('c0 ff', 'offset 4')):
            browser.tap('#new-bytes')
            self.wait_for_focus('#new-bytes')
            browser.type('#new-bytes', text)
            browser.press(Keys.ENTER)
            browser.wait('#panel-disc .foot', says)
            self.assertLessEqual(browser.run(UNSEEN, '.byte-field + .foot > :first-child'), 0, says)
        self.assertEqual(browser.run('return document.querySelector("#new-bytes").value'), '')
        browser.tap('.hex .t [data-at="20"]')
        browser.wait('.byte-field', 'New text from offset 4 on')
        browser.type('#new-bytes', 'Ok')
        self.press('Change')
        browser.wait('#announced', f'In the script: set 60 2 C0FF4F6B was {old[2:6].hex().upper()}')
        self.press('Undo')
        browser.wait('#announced', 'The last typed bytes were undone.')
        self.press('Redo')
        browser.wait('#announced', 'The bytes that were undone last are in the script again.')
        self.press('Undo')
        self.press('Undo')
        self.is_gone('#count-script')
        browser.tap('#byte-3')
        self.is_gone('.byte-field')
