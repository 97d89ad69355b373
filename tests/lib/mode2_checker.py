"""Tests the sectors of images without any code of cdpatch or of mode2_sectors.py: `mode2_checker.py IMAGE..` prints a JSON object for each.

The EDC is a division of polynomials, and all code words of a kind are tested at once by Horner's rule, as large numbers.
"""

import json
import sys
import zlib
from pathlib import Path

SIZE = 2352
SYNC = bytes.fromhex('00ffffffffffffffffffff00')
# (x^16 + x^15 + x^2 + 1)(x^16 + x^2 + x + 1)
DIVISOR = 0x18001801B


def divided(polynomial: int, bits: int) -> int:
    """The remainder of a polynomial of so many bits, times x^32."""
    rest = polynomial << 32
    for bit in range(bits + 31, 31, -1):
        if rest >> bit & 1:
            rest ^= DIVISOR << bit - 32
    return rest


REVERSED = bytes(int(f'{byte:08b}'[::-1], 2) for byte in range(256))
REMAINDERS = [divided(byte, 8) for byte in range(256)]


def has_edc(data: bytes) -> bool:
    """Whether bytes with their EDC, as a polynomial whose first coefficient is the lowest bit of the first byte, are divisible."""
    rest = 0
    for byte in data.translate(REVERSED):
        rest = (rest << 8 & 0xFFFFFFFF) ^ REMAINDERS[rest >> 24 ^ byte]
    return rest == 0


def are_words(rows: list[bytes]) -> bool:
    """Whether each place of the rows has a code word: its sum, and its value at the field's element 2, are 0. All places at once."""
    size = len(rows[0])
    high = int.from_bytes(b'\x80' * size, 'big')
    total = value = 0
    for row in rows:
        number = int.from_bytes(row, 'big')
        value = ((value & ~high) << 1) ^ ((value & high) >> 7) * 0x1D ^ number
        total ^= number
    return total == 0 and value == 0


DIAGONAL_PLACES = [[2 * ((44 * step + 43 * diagonal) % 1118) + plane for diagonal in range(26) for plane in (0, 1)] for step in range(43)]


def has_parity(sector: bytes) -> bool:
    data = sector[12:]
    columns = [data[86 * row:86 * (row + 1)] for row in range(26)]
    diagonals = [bytes(data[place] for place in places) for places in DIAGONAL_PLACES]
    return are_words(columns) and are_words([*diagonals, data[2236:2288], data[2288:2340]])


def mode2_verdict(sector: bytes) -> str:
    copies = sector[16:20] == sector[20:24]
    if sector[18] & 0x20:
        if sector[2348:] == bytes(4):
            return 'untested' if copies else 'damaged'
        return 'sound' if copies and has_edc(sector[16:]) else 'damaged'
    if not any(sector[16:]):
        return 'untested'
    zeroed = sector[:12] + bytes(4) + sector[16:]
    return 'sound' if copies and has_edc(sector[16:2076]) and has_parity(zeroed) else 'damaged'


def mode1_verdict(sector: bytes) -> str:
    is_sound = has_edc(sector[:2068]) and not any(sector[2068:2076]) and has_parity(sector)
    return 'sound' if is_sound else 'damaged'


def address_of(block: int) -> bytes:
    seconds, frame = divmod(block + 150, 75)
    return bytes(int(str(number), 16) for number in (*divmod(seconds, 60), frame))


def examined(data: bytes, base: int) -> dict[str, object]:
    """The counts of an image whose first sector is a block."""
    kinds: dict[str, int] = {}
    verdicts = []
    elsewhere = 0
    for i in range(len(data) // SIZE):
        sector = data[SIZE * i:SIZE * (i + 1)]
        mode = sector[15] if sector[:12] == SYNC else -1
        name = {-1: 'nosync', 0: 'mode0', 1: 'mode1', 2: 'mode2'}.get(mode, 'other')
        kinds[name] = kinds.get(name, 0) + 1
        verdicts.append((name, mode2_verdict(sector) if mode == 2 else mode1_verdict(sector) if mode == 1 else ''))
        elsewhere += mode in (1, 2) and sector[12:15] != address_of(base + i)
    has_codes = ('mode2', 'sound') in verdicts
    damaged = verdicts.count(('mode1', 'damaged')) + (verdicts.count(('mode2', 'damaged')) if has_codes else 0)
    untested = verdicts.count(('mode2', 'untested')) if has_codes else kinds.get('mode2', 0)
    return {'sectors': kinds, 'damaged': damaged, 'untestedMode2': untested, 'wrongAddress': elsewhere, 'tail': len(data) % SIZE,
            'crc32': f'{zlib.crc32(data):08x}', 'verdicts': [verdict for _, verdict in verdicts]}


if __name__ == '__main__':
    for argument in sys.argv[1:]:
        name, _, first = argument.rpartition('@')
        print(json.dumps(examined(Path(name).read_bytes(), int(first))))
