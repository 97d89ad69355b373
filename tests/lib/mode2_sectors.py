"""Encodes Mode 2 sectors without any code of cdpatch: `mode2_sectors.py COUNT SEED` writes COUNT sectors with the address of block 0.

Of each eight sectors, five are Form 1, two are Form 2, and the last one is Form 2 without EDC. The field of GF(256) is made of tables of
powers, and the EDC of a table of bytes (ECMA-130, Annex A; CD-ROM XA, 4).
"""

import random
import sys

SYNC = bytes([0] + [255] * 10 + [0])
HEADER = bytes([0x00, 0x02, 0x00, 0x02])

POWERS = [1]
while len(POWERS) < 255:
    POWERS.append(POWERS[-1] << 1 if POWERS[-1] < 128 else POWERS[-1] << 1 ^ 0x11D)
LOGS = {power: i for i, power in enumerate(POWERS)}

BYTES = []
for value in range(256):
    for _ in range(8):
        value = value >> 1 ^ (0xD8018001 if value & 1 else 0)
    BYTES.append(value)


def product(a: int, b: int) -> int:
    return POWERS[(LOGS[a] + LOGS[b]) % 255] if a and b else 0


def edc(data: bytes) -> bytes:
    register = 0
    for byte in data:
        register = register >> 8 ^ BYTES[(register ^ byte) & 255]
    return register.to_bytes(4, 'little')


def parity(word: list[int]) -> tuple[int, int]:
    """The two bytes that follow a word so that its sum and its weighted sum are 0."""
    total = weighted = 0
    for i, byte in enumerate(reversed(word)):
        total ^= byte
        weighted ^= product(byte, POWERS[i + 2])
    first = product(total ^ weighted, POWERS[255 - LOGS[3]])
    return first, total ^ first


def with_parity(data: bytes) -> bytes:
    """The 2064 bytes of a sector from the header on, with P and Q parity."""
    planes = [list(data[plane::2]) for plane in (0, 1)]
    for plane in planes:
        columns = [parity([plane[43 * row + column] for row in range(24)]) for column in range(43)]
        plane += [first for first, _ in columns] + [last for _, last in columns]
        diagonals = [parity([plane[(44 * step + 43 * diagonal) % 1118] for step in range(43)]) for diagonal in range(26)]
        plane += [first for first, _ in diagonals] + [last for _, last in diagonals]
    return bytes(byte for pair in zip(*planes) for byte in pair)


def form1(subheader: bytes, user: bytes) -> bytes:
    """A sector with 2048 bytes of user data. Its parity is that of a header of zeros."""
    data = subheader * 2 + user
    return SYNC + HEADER + with_parity(bytes(4) + data + edc(data))[4:]


def form2(subheader: bytes, user: bytes, has_edc: bool = True) -> bytes:
    """A sector with 2324 bytes of user data."""
    data = subheader * 2 + user
    return SYNC + HEADER + data + (edc(data) if has_edc else bytes(4))


def some_sector(dice: random.Random, i: int) -> bytes:
    sparse = dice.random() < 0.3
    user = bytes(2324) if sparse else dice.randbytes(2324)
    mode = dice.randrange(256)
    subheader = bytes([dice.randrange(2), dice.randrange(8), mode & ~0x20 if i % 8 < 5 else mode | 0x20, 1 + dice.randrange(255)])
    if i % 8 < 5:
        return form1(subheader, user[:2048])
    return form2(subheader, user, i % 8 < 7)


if __name__ == '__main__':
    count, seed = map(int, sys.argv[1:])
    source = random.Random(seed)
    for number in range(count):
        sys.stdout.buffer.write(some_sector(source, number))
