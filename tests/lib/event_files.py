"""Event files, whose texts have pointers, and a reader of the game's own kind. `event_files.py COUNT` writes COUNT of them to the current
directory, as EVENT0.DAT and so on."""

import struct
import sys
from pathlib import Path

PEOPLE = ['勇者', '村人', '王様', '魔王', '盗賊', '戦士', '老人', '商人', '兵士', '神父さま']
PLACES = ['北の塔', '東の洞窟', '城の地下', '海の向こう', '森の奥', '西の港町']
TEXTS = 30


def text_of(file: int, number: int) -> str:
    return f'{PEOPLE[(file + number) % 10]}は{PLACES[(file * number + number) % 6]}で{file * TEXTS + number}番目の薬草を手に入れた'


def event_file(file: int) -> bytes:
    """The number of texts, 16-bit pointers from the beginning of the file, and texts that end with 00."""
    texts = [text_of(file, number).encode('cp932') + b'\0' for number in range(TEXTS)]
    places = [2 + 2 * TEXTS + sum(map(len, texts[:i])) for i in range(TEXTS)]
    return struct.pack(f'<{1 + TEXTS}H', TEXTS, *places) + b''.join(texts)


def texts_in(data: bytes) -> list[str]:
    """The texts of an event file as its game reads them."""
    places = struct.unpack_from(f'<{TEXTS}H', data, 2)
    return [data[at:data.index(b'\0', at)].decode('cp932').rstrip() for at in places]


if __name__ == '__main__':
    for file in range(int(sys.argv[1])):
        Path(f'EVENT{file}.DAT').write_bytes(event_file(file))
