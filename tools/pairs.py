"""Generates web/core/encodings/pairs.ts, the decoding of pairs of bytes by browsers: `pairs.py > web/core/encodings/pairs.ts`.

It compares three decoders that share no code: Python's, node's (ICU), and Chromium's, which follows the Encoding Standard's index. Runs of
codes that all decode alike are left to the engine; the standard's other characters are written out. Characters for private use are left
out, and so are Hong Kong's characters before A1 and after F9 in Big5. EUC-KR's syllables before A1A1 follow a rule, in
web/core/encodings/two_bytes.ts.
"""

import html
import json
import re
import subprocess
import tempfile
from collections.abc import Iterable
from pathlib import Path

# A label of the standard, Python's codec, the bytes with which pairs begin, and those with which they end.
SETS = [('big5', 'cp950', range(0xA1, 0xFA), [*range(0x40, 0x7F), *range(0xA1, 0xFF)]),
        ('gb18030', 'gb18030', range(0x81, 0xFF), [*range(0x40, 0x7F), *range(0x80, 0xFF)]),
        ('euc-kr', 'cp949', range(0xA1, 0xFF), [*range(0xA1, 0xFF)])]
LINE = 110
PIECE = 64
DECODING = '''
const read = (label, codes) => codes.map(code => new TextDecoder(label).decode(Uint8Array.of(code >> 8, code & 255)));
const all = Object.fromEntries(Object.entries(ASKED).map(([label, codes]) => [label, read(label, codes)]));
'''


def python_texts(codec: str, codes: list[int]) -> list[str]:
    return [code.to_bytes(2, 'big').decode(codec, 'replace') for code in codes]


def node_texts(asked: str) -> dict[str, list[str]]:
    program = f'const ASKED = {asked};{DECODING}process.stdout.write(JSON.stringify(all));'
    given = subprocess.run(['node'], input=program.encode(), stdout=subprocess.PIPE, check=True)
    found: dict[str, list[str]] = json.loads(given.stdout)
    return found


def chromium_texts(asked: str) -> dict[str, list[str]]:
    with tempfile.TemporaryDirectory() as name:
        page = Path(name) / 'page.html'
        page.write_text(f'<!DOCTYPE html><meta charset="utf-8"><body><script>const ASKED = {asked};{DECODING}'
                        'document.body.textContent = JSON.stringify(all);</script>', 'utf-8')
        given = subprocess.run(['chromium', '--headless', '--no-sandbox', '--dump-dom', page.as_uri()], stdout=subprocess.PIPE,
                               stderr=subprocess.DEVNULL, check=True)
    body = re.search('<body>(.*)</body>', given.stdout.decode(), re.DOTALL)
    found: dict[str, list[str]] = json.loads(html.unescape(body.group(1) if body else '{}'))
    return found


def is_character(text: str) -> bool:
    return len(text) == 1 and text != '\uFFFD' and not 0xE000 <= ord(text) <= 0xF8FF


def runs(codes: list[int], wanted: set[int], barred: set[int]) -> Iterable[tuple[int, int]]:
    """Maximal runs of consecutive codes that begin and end with wanted codes and contain no barred ones."""
    first = last = None
    for code in codes:
        if code in barred and first is not None and last is not None:
            yield first, last
            first = None
        elif code in wanted:
            first, last = code if first is None else first, code
    if first is not None and last is not None:
        yield first, last


def pieces(codes: list[int]) -> Iterable[list[int]]:
    return (codes[at:at + PIECE] for at in range(0, len(codes), PIECE))


def wrapped(parts: list[str]) -> str:
    lines = ['']
    for part in parts:
        if len(lines[-1]) + len(part) > LINE:
            lines.append('')
        lines[-1] += f'{" " if lines[-1] else ""}{part},'
    return ''.join(f'\n            {line}' for line in lines)


def table(codes: list[int], python: list[str], node: list[str], standard: list[str]) -> str:
    """The part of the module for one encoding."""
    texts = dict(zip(codes, standard))
    agreed = {code for code, *all_texts in zip(codes, python, node, standard) if len(set(all_texts)) == 1}
    same = {code for code in agreed if is_character(texts[code])}
    own = {code for code in codes if code not in agreed and is_character(texts[code])}
    mute = {code for code in agreed if '\uFFFD' in texts[code]}
    taken = [f'[0x{first:X}, 0x{last:X}]' for first, last in runs(codes, same, set(codes) - same - mute)]
    given = [f"[0x{piece[0]:X}, '{''.join(texts[code] for code in piece)}']"
             for first, last in runs(codes, own, set(codes) - own)
             for piece in pieces([code for code in codes if first <= code <= last])]
    return f'        same: [{wrapped(taken)}\n        ],\n        own: [{wrapped(given)}\n        ],\n'


def main() -> None:
    codes = {label: [lead << 8 | trail for lead in leads for trail in trails] for label, _, leads, trails in SETS}
    node, standard = node_texts(json.dumps(codes)), chromium_texts(json.dumps(codes))
    print('// Made by tools/pairs.py: of pairs of bytes, runs that each engine reads alike, from one code to another, and what runs of others mean.\n')
    print('/** By the labels of the Encoding Standard. */')
    print('export const PAIRS: Record<string, { same: [number, number][], own: [number, string][] }> = {')
    for label, codec, _, _ in SETS:
        print(f"    '{label}': {{\n{table(codes[label], python_texts(codec, codes[label]), node[label], standard[label])}    }},")
    print('};')


if __name__ == '__main__':
    main()
