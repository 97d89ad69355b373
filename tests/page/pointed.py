"""Discs whose texts have pointers."""

import functools
import struct

import common
from event_files import TEXTS, event_file


@functools.cache
def game(files: int = 2, data: int = 0) -> bytes:
    """An image of a disc with event files, and with a data file of this size."""
    events = {f'EVENT{file}.DAT': event_file(file) for file in range(files)}
    return common.image_of(common.iso_of({**events, 'MAIN.DAT': bytes(data)} if data > 0 else events))


@functools.cache
def large_game() -> bytes:
    """An image of a disc whose only file has a megabyte: the search for pointers takes some seconds."""
    noise = b''.join(struct.pack('<I', (i * 2654435761 + (i >> 3)) & 0xFFFFFFFF) for i in range(1 << 18))
    return common.image_of(common.iso_of({'EVENT0.DAT': event_file(0) + noise}))


def talk_file() -> bytes:
    """English texts with pointers, laid out as those of an event file."""
    texts = [f'The old man of the village number {number} gave me a golden key.'.encode() + b'\0' for number in range(TEXTS)]
    places = [2 + 2 * TEXTS + sum(map(len, texts[:i])) for i in range(TEXTS)]
    return struct.pack(f'<{1 + TEXTS}H', TEXTS, *places) + b''.join(texts)


# The second new name has the 16 bytes of its field, which are more than the room of its old name in a list of texts.
ITEMS = {'Sword': 'Épée', 'Long sword': 'Une épée longue!', 'Round shield': 'Bouclier', 'Healing potion': 'Potion de soin'}
HEADER = b'\1\0\2\0\3\0\4\5'


def items_file(names: list[str], header: bytes) -> bytes:
    """Names in fields of 16 bytes, each followed by 8 other bytes. A file without a header has small letters, which a list of texts has too."""
    spelled = names if header else [name.lower() for name in names]
    return header + b''.join(name.encode('cp1252').ljust(16, b'\0') + b'\1\0\2\0\0\3\0\4' for name in spelled)


@functools.cache
def english_game(header: bytes) -> bytes:
    """An image of a disc with English texts that have pointers, and names in records after a header."""
    return common.image_of(common.iso_of({'ITEMS.DAT': items_file([*ITEMS], header), 'TALK.DAT': talk_file()}))
