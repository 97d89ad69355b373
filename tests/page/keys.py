"""Keys as WebDriver's private-use characters, and the events that Chromium gets for them."""

from typing import Any


class Keys:
    BACKSPACE, TAB, ENTER, SHIFT, CONTROL, ESCAPE = '\ue003', '\ue004', '\ue007', '\ue008', '\ue009', '\ue00c'
    PAGE_UP, PAGE_DOWN, END, HOME, DELETE = '\ue00e', '\ue00f', '\ue010', '\ue011', '\ue017'
    ARROW_LEFT, ARROW_UP, ARROW_RIGHT, ARROW_DOWN, F6, F8 = '\ue012', '\ue013', '\ue014', '\ue015', '\ue036', '\ue038'


# Each key's name, its Windows key code, and the text that it types.
NAMED = {Keys.BACKSPACE: ('Backspace', 8, ''), Keys.TAB: ('Tab', 9, ''), Keys.ENTER: ('Enter', 13, '\r'), '\n': ('Enter', 13, '\r'),
         Keys.SHIFT: ('Shift', 16, ''), Keys.CONTROL: ('Control', 17, ''), Keys.ESCAPE: ('Escape', 27, ''), Keys.PAGE_UP: ('PageUp', 33, ''),
         Keys.PAGE_DOWN: ('PageDown', 34, ''), Keys.END: ('End', 35, ''), Keys.HOME: ('Home', 36, ''), Keys.ARROW_LEFT: ('ArrowLeft', 37, ''),
         Keys.ARROW_UP: ('ArrowUp', 38, ''), Keys.ARROW_RIGHT: ('ArrowRight', 39, ''), Keys.ARROW_DOWN: ('ArrowDown', 40, ''),
         Keys.DELETE: ('Delete', 46, ''), Keys.F6: ('F6', 117, ''), Keys.F8: ('F8', 119, '')}

MODIFIERS = {'': 0, Keys.CONTROL: 2, Keys.SHIFT: 8}


def pressed(key: str, held: str = '') -> tuple[dict[str, Any], dict[str, Any]]:
    """The events for a key's press and release with the modifier `held`."""
    if key in NAMED:
        name, code, text = NAMED[key]
        place = name
    else:
        name = text = key
        code = ord(key.upper()) if key.isascii() and (key.isalnum() or key == ' ') else 0
        place = f"{'Digit' if key.isdigit() else 'Key'}{key.upper()}" if code > 32 else ''
    given = {'key': name, 'code': place, 'windowsVirtualKeyCode': code, 'modifiers': MODIFIERS[Keys.SHIFT if key.isupper() else held]}
    writes = text and held != Keys.CONTROL
    return {**given, 'type': 'keyDown', 'text': text} if writes else {**given, 'type': 'rawKeyDown'}, {**given, 'type': 'keyUp'}
