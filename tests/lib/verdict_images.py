"""Images with one finding each, and what each interface must say of them: `verdict_images.py DIRECTORY` makes the files there and prints the
table as JSON. The sectors are encoded without any code of cdpatch (mode2_sectors.py)."""

from __future__ import annotations

import functools
import json
import random
import struct
import sys
from collections.abc import Callable
from pathlib import Path

from mode2_sectors import SYNC, edc, form1, form2, with_parity

RAW = 2352
USER = 2048
PAUSE = 150
SECTORS = 330
Sectors = list[bytes]


def bcd(number: int) -> int:
    return number // 10 * 16 + number % 10


def address(block: int) -> bytes:
    frames = block + PAUSE
    return bytes([bcd(frames // 4500), bcd(frames // 75 % 60), bcd(frames % 75)])


def mode1(block: int, user: bytes) -> bytes:
    header = address(block) + b'\1'
    return SYNC + with_parity(header + user + edc(SYNC + header + user) + bytes(8))


def at(block: int, sector: bytes) -> bytes:
    """A Mode 2 sector with the address of a block, which no code of it includes."""
    return SYNC + address(block) + b'\2' + sector[16:]


def both(number: int, size: str) -> bytes:
    return struct.pack('<' + size, number) + struct.pack('>' + size, number)


def record(name: bytes, extent: int, size: int, flags: int) -> bytes:
    length = 33 + len(name) + (len(name) + 1) % 2
    head = bytes([length, 0]) + both(extent, 'I') + both(size, 'I') + bytes(7) + bytes([flags, 0, 0]) + both(1, 'H')
    return (head + bytes([len(name)]) + name).ljust(length, b'\0')


def volume(first: int, blocks: int) -> list[bytes]:
    """The user data of a volume (ECMA-119) with two files. The second one ends with the volume."""
    root = record(b'\0', first + 18, USER, 2)
    files = record(b'A.DAT;1', first + 19, 100 * USER, 0) + record(b'B.DAT;1', first + 119, (blocks - 119) * USER, 0)
    primary = bytearray(USER)
    primary[:8] = b'\1CD001\1\0'
    primary[80:88] = both(blocks, 'I')
    primary[120:132] = both(1, 'H') + both(1, 'H') + both(USER, 'H')
    primary[156:190] = root
    dice = random.Random(blocks)
    user = [dice.randbytes(64).ljust(USER, b'.') for _ in range(blocks)]
    user[16:19] = [bytes(primary), b'\xffCD001\1'.ljust(USER, b'\0'),
                   (root + record(b'\1', first + 18, USER, 2) + files).ljust(USER, b'\0')]
    return user


def disc1(first: int = 0, blocks: int = SECTORS) -> Sectors:
    return [mode1(first + i, user) for i, user in enumerate(volume(0, blocks))]


def disc2(blocks: int = SECTORS) -> Sectors:
    return [at(i, form1(b'\0\0\x08\0', user)) for i, user in enumerate(volume(0, blocks))]


def movie(count: int, first: int, has_edc: bool) -> Sectors:
    dice = random.Random(count)
    return [at(first + i, form2(b'\0\0\x20\0', dice.randbytes(2324), has_edc)) for i in range(count)]


def audio(count: int) -> Sectors:
    dice = random.Random(count)
    return [dice.randbytes(RAW) for _ in range(count)]


def changed(sector: bytes, place: int) -> bytes:
    return sector[:place] + bytes([sector[place] ^ 4]) + sector[place + 1:]


def with_changes(sectors: Sectors, change: Callable[[bytes], bytes], *blocks: int) -> Sectors:
    return [change(it) if i in blocks else it for i, it in enumerate(sectors)]


def sheet(name: str, *tracks: tuple[str, int | None, int]) -> bytes:
    """A cue sheet of one file: for each track its type, the sector of its INDEX 00 or None, and that of its INDEX 01."""
    def time(frames: int) -> str:
        return f'{frames // 4500:02}:{frames // 75 % 60:02}:{frames % 75:02}'
    lines = [f'FILE "{name}" BINARY']
    for number, (kind, before, first) in enumerate(tracks, 1):
        lines += [f'  TRACK {number:02} {kind}', *([] if before is None else [f'    INDEX 00 {time(before)}']), f'    INDEX 01 {time(first)}']
    return ('\n'.join(lines) + '\n').encode()


@functools.cache
def images() -> dict[str, bytes]:
    """The files, by their names."""
    one, two, sound = disc1(), disc2(), audio(600)
    zero, fifties, filled = bytes(RAW), b'\x55' * RAW, range(200, 210)
    later = [mode1(1125 + i, b'later'.ljust(USER, b'.')) for i in range(200)]
    session = [at(11400 + i, form1(b'\0\0\x08\0', b's'.ljust(USER, b'.'))) for i in range(400)]
    parts: dict[str, Sectors] = {
        'sound': one,
        'data': with_changes(one, lambda it: changed(it, 500), 50),
        'p': with_changes(one, lambda it: changed(it, 2100), 50),
        'q': with_changes(one, lambda it: changed(it, 2300), 50),
        'edc': with_changes(one, lambda it: changed(it, 2065), 50),
        'zeros': with_changes(one, lambda it: changed(it, 2070), 50),
        'address': with_changes(one, lambda it: mode1(77, it[16:16 + USER]), 50),
        'sync': with_changes(one, lambda it: changed(it, 5), 50),
        'mode': with_changes(one, lambda it: it[:15] + b'\2' + it[16:], 50),
        'fifties': with_changes(one, lambda _: fifties, *filled),
        'zero': with_changes(one, lambda _: zero, *filled),
        'start': with_changes(one, lambda _: zero, 0, 1, 2),
        'end': with_changes(one, lambda _: zero, *range(325, 330)),
        'short': one[:-40],
        'late-start': one[3:],
        'early-hole': one[:3] + one[8:],
        'hole': one[:100] + one[110:],
        'twice': one[:110] + one[100:],
        'twice-start': one[:3] + one,
        'swapped': one[:16] + one[16:19] + one[200:320] + one[19:200] + one[320:],
        'audio': sound,
        'audio-filled': with_changes(sound, lambda _: fifties, *filled),
        'mixed': one + sound,
        'mixed-filled': one + with_changes(sound, lambda _: fifties, *filled),
        'pregap': with_changes(later, lambda _: zero, *range(20, 40)),
        'gaps': one + sound[:345] + with_changes(with_changes(later, lambda it: changed(it, 99), 20), lambda _: zero, 10),
        'extra': sound * 20 + with_changes(with_changes(session, lambda it: changed(it, 99), 30), lambda _: fifties, *range(90, 95)),
        'middle': sound * 8 + later[:3] + sound * 8,
        'two': two,
        'two-data': with_changes(two, lambda it: changed(it, 500), 50),
        'two-end': with_changes(two, lambda _: zero, *range(325, 330)),
        'two-hole': with_changes(two, lambda _: zero, *range(20, 325)),
        'two-short': two[:-40],
        'form2': two[:19] + movie(200, 19, True) + two[219:],
        'no-edc': two[:19] + movie(200, 19, False) + two[219:],
        'only-movie': movie(300, 0, False),
        'unproven': [changed(it, 99) for it in two],
        'pause': [mode1(i, b'p'.ljust(USER, b'.')) for i in range(-150, 0)] + one,
        'track2': [mode1(5000 + i, user) for i, user in enumerate(volume(0, SECTORS))],
    }
    made = {f'{name}.bin': b''.join(sectors) for name, sectors in parts.items()}
    made['cut.bin'] = made['sound.bin'][:-1000]
    made['late.bin'] = bytes(588) + made['sound.bin'] + bytes(RAW - 588)
    made['disc.iso'] = b''.join(volume(0, SECTORS))
    made['disc.chd'] = b'MComprHD'.ljust(4096, b'\1')
    made['notes.txt'] = b'Nothing of a disc.\n' * 40
    made['subchannels.bin'] = b''.join(it + bytes(96) for it in one)
    made['empty.bin'] = b''
    made['end.cue'] = sheet('end.bin', ('MODE1/2352', None, 0))
    made['short.cue'] = sheet('short.bin', ('MODE1/2352', None, 0))
    made['mixed.cue'] = sheet('mixed.bin', ('MODE1/2352', None, 0), ('AUDIO', None, SECTORS))
    made['mixed-filled.cue'] = sheet('mixed-filled.bin', ('MODE1/2352', None, 0), ('AUDIO', None, SECTORS))
    made['pregap.cue'] = sheet('pregap.bin', ('MODE1/2352', 0, 75))
    made['gaps.cue'] = sheet('gaps.bin', ('MODE1/2352', None, 0), ('AUDIO', None, 330), ('MODE1/2352', 675, 750))
    made['extra.cue'] = sheet('extra.bin', ('AUDIO', None, 0), ('MODE2/2352', None, 12000))
    made['missing.cue'] = sheet('sound.bin', ('MODE1/2352', None, 0)) + sheet('gone.bin', ('AUDIO', None, 0)).replace(b'TRACK 01', b'TRACK 02')
    made['two-end.cue'] = sheet('two-end.bin', ('MODE2/2352', None, 0))
    return made


# What is opened, its level, and its findings: of each kind how many.
VERDICTS: list[tuple[str, str, dict[str, int]]] = [
    ('sound.bin', 'sound', {}), ('data.bin', 'damage', {'damaged': 1}), ('p.bin', 'damage', {'damaged': 1}), ('q.bin', 'damage', {'damaged': 1}),
    ('edc.bin', 'damage', {'damaged': 1}), ('zeros.bin', 'damage', {'damaged': 1}), ('address.bin', 'doubt', {'address': 1}),
    ('sync.bin', 'damage', {'lost': 1}), ('mode.bin', 'damage', {'lost': 1}), ('fifties.bin', 'damage', {'lost': 10}),
    ('zero.bin', 'damage', {'lost': 10}), ('start.bin', 'damage', {'lost': 3}), ('end.bin', 'damage', {'lost': 5}),
    ('end.cue', 'damage', {'lost': 5}), ('short.bin', 'damage', {'short': 40}), ('short.cue', 'damage', {'short': 40}),
    ('late-start.bin', 'damage', {'gap': 1}), ('early-hole.bin', 'damage', {'gap': 1, 'address': 3}),
    ('cut.bin', 'damage', {'short': 1, 'cut': 1}), ('hole.bin', 'damage', {'gap': 1, 'short': 10, 'address': 220}),
    ('twice.bin', 'damage', {'gap': 1, 'address': 230}), ('twice-start.bin', 'damage', {'gap': 1, 'address': 3}), ('swapped.bin', 'damage', {'gap': 2, 'address': 301}),
    ('audio.bin', 'nothing', {}), ('audio-filled.bin', 'damage', {'lost': 10}), ('mixed.bin', 'sound', {}), ('mixed.cue', 'sound', {}),
    ('mixed-filled.bin', 'damage', {'lost': 10}), ('mixed-filled.cue', 'damage', {'lost': 10}), ('pregap.bin', 'damage', {'lost': 20}),
    ('pregap.cue', 'damage', {'lost': 20}), ('gaps.cue', 'damage', {'damaged': 1, 'lost': 1}), ('extra.bin', 'damage', {'damaged': 1, 'lost': 5}),
    ('extra.cue', 'damage', {'damaged': 1, 'lost': 5}), ('middle.bin', 'sound', {}), ('two.bin', 'sound', {}),
    ('two-data.bin', 'damage', {'damaged': 1}), ('two-end.bin', 'damage', {'lost': 5}), ('two-end.cue', 'damage', {'lost': 5}),
    ('two-hole.bin', 'damage', {'lost': 305}), ('two-short.bin', 'damage', {'short': 40}), ('form2.bin', 'sound', {}),
    ('no-edc.bin', 'sound', {}), ('only-movie.bin', 'nothing', {}), ('unproven.bin', 'doubt', {'untested': 330}),
    ('pause.bin', 'sound', {}), ('track2.bin', 'sound', {}), ('missing.cue', 'damage', {'missing': 1}),
]
# Files that are not images of 2352-byte sectors.
OTHERS = ['late.bin', 'disc.iso', 'disc.chd', 'notes.txt', 'subchannels.bin', 'empty.bin']

if __name__ == '__main__':
    directory = Path(sys.argv[1])
    for file, content in images().items():
        (directory / file).write_bytes(content)
    print(json.dumps({'verdicts': VERDICTS, 'others': OTHERS}))
