"""The colours of the page: each is legible on every colour behind it, in both schemes."""

import math
import re
from pathlib import Path

import common
from pages import PageTest

MARKS = ['k-mode1', 'k-shade', 'k-nosync', 'k-mode2', 'k-mode0', 'k-other']
FIELDS = ['h-sync', 'h-header', 'h-edc', 'h-zeros', 'h-p', 'h-q']
GROUNDS = ['panel', 'bg', 'sunk', 'soft', 'good-soft', 'bad-soft', 'warn-soft']
FINDINGS = ['f-edc', 'f-parity', 'f-address', 'f-lost']
# The use of each colour, its name, the colours behind it, and the least contrast with them: 4.5 for text, 3 for anything else.
COLOURS: list[tuple[str, str, list[str], float]] = [
    ('text', 'ink', GROUNDS, 4.5),
    ('second text', 'ink2', GROUNDS, 4.5),
    ('what can be pressed', 'accent', ['panel', 'bg', 'sunk', 'soft'], 4.5),
    ('on the main button', 'on-accent', ['accent', 'accent-hover'], 4.5),
    ('good', 'good', ['panel', 'bg', 'soft', 'good-soft'], 4.5),
    ('bad', 'bad', ['panel', 'soft', 'bad-soft'], 4.5),
    ('a warning', 'warn', ['panel', 'warn-soft'], 4.5),
    ('a sign on these, and the tip of the map', 'panel', ['good', 'bad', 'ink'], 4.5),
    ('the edge of a control', 'edge', ['panel', 'bg', 'sunk'], 3),
    ('the ring of the focus', 'focus', GROUNDS, 3),
    ('E, data damaged', 'f-edc', MARKS, 3),
    ('P, parity only', 'f-parity', MARKS, 3),
    ('A, wrong address', 'f-address', MARKS, 3),
    ('S, sync or mode lost', 'f-lost', MARKS, 3),
    ('a letter on these', 'panel', FINDINGS, 4.5),
    ('a file beside another one', 'k-shade', ['k-mode1'], 1.2),
    ('a byte in a field, and the name of the field', 'ink', FIELDS, 4.5),
    ('a zero byte in a field', 'ink2', FIELDS, 4.5),
    ('the ring of a byte that may be wrong', 'f-edc', ['panel', *FIELDS], 3),
    ('a byte of the second image', 'f-parity', ['panel'], 4.5),
]
# Colours that only separate areas.
QUIET = ['line', 'h-user']


def style_of(page: Path) -> str:
    found = re.search(r'<style>(.*?)</style>', page.read_text('utf-8'), re.S)
    assert found, 'the page has no style'
    return found[1]


def colours_of(style: str) -> dict[str, tuple[str, str]]:
    """The colours of a style by name, for the light and the dark scheme."""
    light, dark = (dict(re.findall(r'--([a-z0-9-]+): ?(#[0-9a-f]{3,6}|transparent)\b', part))
                   for part in re.split(r'@media \(prefers-color-scheme: ?dark\)', style)[:2])
    return {name: (colour, dark.get(name, colour)) for name, colour in light.items()}


def luminance(colour: str) -> float:
    digits = colour[1:] if len(colour) == 7 else ''.join(2 * digit for digit in colour[1:])
    parts = [int(digits[at:at + 2], 16) / 255 for at in (0, 2, 4)]
    red, green, blue = (part / 12.92 if part <= 0.04045 else math.pow((part + 0.055) / 1.055, 2.4) for part in parts)
    return 0.2126 * red + 0.7152 * green + 0.0722 * blue


def contrast(one: str, other: str) -> float:
    """The contrast of two colours as defined by WCAG."""
    low, high = sorted(luminance(colour) for colour in (one, other))
    return (high + 0.05) / (low + 0.05)


def least(colours: dict[str, tuple[str, str]], name: str, grounds: list[str], scheme: int) -> float:
    return min(contrast(colours[name][scheme], colours[ground][scheme]) for ground in grounds)


class Colours(PageTest):
    @common.in_check
    def test_each_is_easy_to_read(self) -> None:
        colours = colours_of(style_of(common.PAGE))
        for use, name, grounds, limit in COLOURS:
            for scheme, called in enumerate(('light', 'dark')):
                self.assertGreaterEqual(least(colours, name, grounds, scheme), limit, f'{use}: {name} in the {called} scheme')

    @common.in_check
    def test_each_has_a_use(self) -> None:
        used = {name for _, name, _, _ in COLOURS} | {ground for _, _, grounds, _ in COLOURS for ground in grounds}
        self.assertEqual(sorted(colours_of(style_of(common.PAGE))), sorted(used | {*QUIET}))
