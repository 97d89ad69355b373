"""Discs for the tests of the page: a game with Japanese texts, and variants of it."""

import functools
from pathlib import Path

from common import SECTOR_SIZE, damaged, folder, image_of, iso_of, run_program
from mode2_sectors import form1
from sector import SYNC, address_of

DATA = 'MODE1/2352'
START = 'スタート'.encode('cp932')
TEXTS = ['つづきから', 'はじめから', '設定', 'ゲームをスタートします', 'セーブしますか？', 'はい', 'いいえ', 'もう一度スタートに戻りますか？']


def messages() -> bytes:
    """A file of texts, each followed by a zero byte. One スタート crosses the border of two blocks."""
    data = START + b'\0' + b'\0'.join(text.encode('cp932') for text in TEXTS) + b'\0'
    return data.ljust(2048 - 4, b'.') + START + b'\0' + b'.' * 900 + START + b'\0'


@functools.cache
def game() -> bytes:
    """An undamaged image of some 180 sectors with files."""
    return image_of(iso_of({'DATA/MSG00.DAT': messages(), 'DATA/STAGE.DAT': bytes(range(256)) * 32, 'README.TXT': b'Start of the game\n' * 20}))


@functools.cache
def mode2(count: int, base: int = 0) -> bytes:
    """Sound sectors of Mode 2, Form 1, from a block on."""
    sectors = [form1(bytes([0, 0, 8, block % 250]), b'%d' % block * 300 + bytes(2048 - 300 * len(b'%d' % block))) for block in range(base, base + count)]
    return b''.join(it[:12] + address_of(base + i) + it[15:] for i, it in enumerate(sectors))


def changed(image: bytes, *places: tuple[int, int]) -> bytes:
    """Changes bytes of an image: each by the number of its sector, and its place in that."""
    made = bytearray(image)
    for i, at in places:
        made[i * SECTOR_SIZE + at] ^= 0x55
    return bytes(made)


@functools.cache
def first_block() -> int:
    """The block at which DATA/MSG00.DAT begins."""
    return game().find(messages()[:200]) // 2352


def script() -> str:
    """A script of which all patches fit the game."""
    block, message = first_block(), messages()
    lines = ['cdpatch 1', '# Starlit Detective: English', '# title screen', f'set {block} 0 5374617274202020 was {START.hex().upper()}']
    for text, new in zip(TEXTS[:3], ('Continue', 'New game', 'Set.')):
        old = text.encode('cp932')
        lines.append(f"set {block} {message.index(old)} {new.ljust(len(old)).encode().hex().upper()} was {old.hex().upper()}")
    return '\n'.join([*lines, f'fill {block + 1} 1000 16 20', f'rebuild {block + 2}', ''])


def named() -> str:
    """The patches of `script()` that name their old bytes."""
    return ''.join(line for line in script().splitlines(keepends=True) if not line.startswith(('fill', 'rebuild')))


def refused() -> str:
    """A script with two patches that are refused: one with different old bytes, and one in a block beyond the image."""
    return script() + f'# two that do not fit\nset {first_block()} 600 4142 was 4344\nset 99999 0 41\n'


def written(**files: bytes | str) -> dict[str, Path]:
    """Writes files to a new directory, named by their keys: game='..' is game.bin, script='..' is script.txt."""
    place = folder('files')
    paths = {}
    for stem, data in files.items():
        path = place / f"{stem}.{'txt' if isinstance(data, str) else 'bin'}"
        path.write_bytes(data.encode() if isinstance(data, str) else data)
        paths[stem] = path
    return paths


def sheet_of(**kinds: str) -> str:
    """A cue sheet of files with one track each: the keys are their stems, the values the kinds of their tracks."""
    return ''.join(f'FILE "{stem}.bin" BINARY\n  TRACK {number:02} {kind}\n    INDEX 01 00:00:00\n' for number, (stem, kind) in enumerate(kinds.items(), 1))


def many_texts(hundreds: int = 4) -> bytes:
    """An image that contains スタート `hundreds` hundred times."""
    return image_of([b'.' * 24 + (START + b'\0').ljust(18, b'.') * 100] * hundreds)


def scratched() -> bytes:
    """The game with one damaged sector."""
    return damaged(game(), first_block() + 1)


SCRATCHED_SECTORS = 21000


@functools.cache
def long_disc() -> bytes:
    """The game, more data after it, and audio. The program computes the codes, since the model is slow. For pictures only."""
    files = written(long=game(), script='cdpatch 1\n')
    first, end = len(game()) // 2352, SCRATCHED_SECTORS - 2000
    more = b''.join(SYNC + address_of(block) + b'\1' + bytes([block % 251]) * 2048 + bytes(288) for block in range(first, end))
    files['long'].write_bytes(game() + more)
    files['script'].write_text('cdpatch 1\n' + ''.join(f'rebuild {block}\n' for block in range(first, end)))
    out = files['long'].with_name('out.bin')
    run_program('apply', files['long'], files['script'], out)
    return out.read_bytes() + bytes(range(256)) * (2000 * 2352 // 256)


def scratches(other: bool = False) -> bytes:
    """The long disc with two scratches. The other dump of it is damaged elsewhere, and in some of the same sectors."""
    image = bytearray(long_disc())
    here = [*range(150, 160, 3), *range(316, 400, 23), *range(3000, 9000, 17), *range(14000, 14400, 5)]
    for block in range(40, 900, 23) if other else here:
        at = block * 2352 + (2100 if block % 7 == 0 else 300)
        end = at + (300 if block % 3 == 0 and at == block * 2352 + 300 else 3)  # parity corrects only a few bytes
        image[at:end] = bytes(byte ^ 0x5A for byte in image[at:end])
    return bytes(image)
