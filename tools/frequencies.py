"""Generates web/core/texts/frequencies.ts, the frequencies of characters in Japanese man pages: `frequencies.py DIRECTORY..`.

It was generated from those of Debian 12, in the packages manpages-ja, dpkg, apt, man-db, passwd, login, and vim-common, whose licences are
free. It contains counts and none of their words: for each character log2(65536 * its share), from 0 bits up; and for kinds of characters,
in quarter bits, how much more often one follows another than by chance.
"""

import gzip
import math
import re
import sys
from collections import Counter
from pathlib import Path

WIDE = re.compile('[\u2010-\u26FF\u3000-\u30FF\u4E00-\u9FFF\uFF01-\uFF5E\uFFE0-\uFFE6]')
KINDS = 6
LEAST = 4
MOST_QUARTERS = 16

# Scores for uncounted pairs: to ASCII, line ends, control codes, and half-width kana from anything else, and from half-width kana.
NARROW = [-12, 0, 0, -18]
HALF_WIDTH = [*[-8] * KINDS, -12, -8, -8, 0]


def kind(character: str) -> int:
    """The kind of a character: 1 hiragana, 2 katakana, 3 kanji, 4 signs, 5 wide letters and digits, 0 anything else."""
    if '\u3041' <= character <= '\u309F':
        return 1
    if '\u30A0' <= character <= '\u30FF':
        return 2
    if '\u4E00' <= character <= '\u9FFF' or character == '々':
        return 3
    if re.match('[０-９Ａ-Ｚａ-ｚ]', character):
        return 5
    return 4 if WIDE.match(character) else 0


def lines_of(page: Path) -> list[str]:
    """The lines of a page without macros and escapes."""
    text = gzip.decompress(page.read_bytes()).decode('utf-8', 'ignore')
    return [re.sub(r'\\f.|\\\(..|\\.', '', line) for line in text.splitlines() if not line.startswith(('.', "'"))]


def quarters(ratio: float) -> int:
    return max(-MOST_QUARTERS, min(MOST_QUARTERS, round(4 * math.log2(ratio)))) if ratio > 0 else -MOST_QUARTERS


def main() -> None:
    single: Counter[str] = Counter()
    pairs: Counter[tuple[int, int]] = Counter()
    for page in sorted(page for directory in sys.argv[1:] for page in Path(directory).rglob('*.gz')):
        for line in lines_of(page):
            single.update(it for it in line if kind(it))
            kinds = [0, *map(kind, line.replace('〜', '～'))]
            pairs.update((before, after) for before, after in zip(kinds, kinds[1:]) if after)
    whole = single.total()
    bits = {it: int(math.log2(65536 * count / whole)) for it, count in single.items() if count >= LEAST and 65536 * count >= whole}
    rows = [''.join(sorted(it for it in bits if bits[it] == level)) for level in range(max(bits.values()) + 1)]
    shares = [sum(count for (_, after), count in pairs.items() if after == it) / pairs.total() for it in range(KINDS)]
    after = [sum(count for (before, _), count in pairs.items() if before == it) for it in range(KINDS)]
    table = [[0, *(quarters(pairs[before, it] / after[before] / shares[it]) for it in range(1, KINDS))] for before in range(KINDS)]
    print('// Made by tools/frequencies.py of Japanese man pages: how often characters stand in Japanese texts, and after which others.\n')
    print('/** The characters of 0 bits, of 1 and so on: log2(65536 * share). */\nexport const CHARACTERS_BY_BITS = [')
    for row in rows:
        pieces = [row[at:at + 100] for at in range(0, len(row), 100)] or ['']
        print('    ' + ' +\n        '.join(f"'{piece}'" for piece in pieces) + ',')
    print('];\n\n/**\n * By the kinds of two characters, in quarter bits: nothing, hiragana, katakana, kanji, signs, wide letters and digits; and ASCII, line')
    print(' * ends, control codes, half-width kana.\n */\nexport const AFTER_KINDS = [')
    for numbers in [*([*row, *NARROW] for row in table), [*[0] * 9, NARROW[3]], *[[*[0] * KINDS, *NARROW]] * 2, HALF_WIDTH]:
        print(f"    [{', '.join(map(str, numbers))}],")
    print('];')


if __name__ == '__main__':
    main()
