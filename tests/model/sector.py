"""Sectors according to ECMA-130: the clause on the digital data structure of sectors, and Annex A on the RSPC encoding.

Slow and simple: polynomials are divided bit by bit, code words are lists of places, and parity is found by solving equations.
"""

from functools import lru_cache
from itertools import chain

SIZE = 2352
SYNC = bytes([0] + 10 * [255] + [0])  # the clause on the digital data structure of sectors: the sync field


def product(a, b):
    """The product of two polynomials with coefficients 0 and 1. Bit i is the coefficient of x to the i."""
    total = 0
    for i in range(b.bit_length()):
        if b >> i & 1:
            total ^= a << i
    return total


def division_rest(bits, divisor, rest=0):
    """Long division of such polynomials: the bits of the dividend, highest power first, are brought down to the remainder."""
    highest = 1 << divisor.bit_length() - 1
    for bit in bits:
        rest = 2 * rest + bit
        if rest >= highest:
            rest ^= divisor
    return rest


def times(a, b):
    """Annex A, the field GF(2^8): the product modulo x^8 + x^4 + x^3 + x^2 + 1."""
    dividend = product(a, b)
    return division_rest([dividend >> i & 1 for i in reversed(range(15))], 0b100011101)


@lru_cache
def power(n):
    """Annex A: alpha to the n, where alpha is 02."""
    return 1 if n == 0 else times(2, power(n - 1))


# The clause on the digital data structure of sectors, EDC: (x^16 + x^15 + x^2 + 1)(x^16 + x^2 + x + 1).
EDC_POLYNOMIAL = product(0b11000000000000101, 0b10000000000000111)


BITS = [[byte >> i & 1 for i in range(8)] for byte in range(256)]  # the lowest bit first


@lru_cache(1000)
def edc_rest(data, rest=0):
    """The same clause: the remainder of bytes, the lowest bit of each first, after those that left `rest`."""
    return division_rest(chain.from_iterable(BITS[byte] for byte in data), EDC_POLYNOMIAL, rest)


def edc_bytes(data, rest):
    """The same clause: the four bytes after which `data` leaves `rest`. The 32 bits add what 32 zeros lack."""
    lacking = edc_rest(bytes(4), edc_rest(data)) ^ rest
    return int(f'{lacking:032b}'[::-1], 2).to_bytes(4, 'little')


def place(plane, n):
    """Annex A: the index of the byte at place n. Plane 0 has the low bytes of the words S(n), plane 1 the high ones."""
    return 12 + 2 * n + plane


# Annex A: the places of each P column and of each Q diagonal. The last two of each are the parity.
COLUMNS = [[place(plane, 43 * m + n) for m in range(26)] for plane in range(2) for n in range(43)]
DIAGONALS = [[place(plane, (44 * m + 43 * n) % 1118) for m in range(43)] + [place(plane, 1118 + n), place(plane, 1144 + n)]
             for plane in range(2) for n in range(26)]
WORDS = COLUMNS + DIAGONALS

WEIGHTED = [[times(power(n), byte) for byte in range(256)] for n in range(45)]  # products with the powers of alpha
BY_THREE = {times(3, byte): byte for byte in range(256)}  # the quotients by 1 + alpha


@lru_cache
def weighted(length):
    """The tables of products with the weights alpha^(length-1), .., alpha, 1, in this order."""
    return WEIGHTED[length - 1::-1] if length else []


def syndromes(word):
    """Annex A: the sum of a code word's bytes, and their sum with the weights alpha^(L-1), .., alpha, 1."""
    first = second = 0
    for byte, products in zip(word, weighted(len(word))):
        first ^= byte
        second ^= products[byte]
    return first, second


def parity(data, wanted):
    """Annex A: the bytes p and q after `data` that give these syndromes: p + q and alpha p + q must be what is missing."""
    first, second = (a ^ b for a, b in zip(syndromes(data + [0, 0]), wanted))
    p = BY_THREE[first ^ second]
    return p, first ^ p


def kind(sector):
    """Rule of cdpatch on the clause's sync field and mode byte: the kind, as `list` prints it."""
    if sector[:12] != SYNC:
        return 'nosync'
    return {0: 'mode0', 1: 'mode1', 2: 'mode2'}.get(sector[15], 'other')


@lru_cache(1000)
def defect(sector):
    """Both clauses: the Intermediate field, the remainder of the EDC, and the syndromes of all P and Q words."""
    rest = edc_rest(sector[2064:2068], edc_rest(sector[:2064]))
    return sector[2068:2076], rest, tuple(syndromes([sector[i] for i in word]) for word in WORDS)


NO_DEFECT = bytes(8), 0, len(WORDS) * ((0, 0),)


def consistent(sector):
    """Rule of cdpatch: a Mode 1 sector whose defect is zero in each member."""
    return kind(sector) == 'mode1' and defect(sector) == NO_DEFECT


@lru_cache(1000)
def sector_with(content, wanted):
    """The only sector with these bytes 0 to 2063 and this defect: the EDC, then P, then Q are computed.

    With NO_DEFECT it is the sector as both clauses encode it; with another sector's defect it has that sector's damage.
    """
    intermediate, rest, sums = wanted
    made = list(content + edc_bytes(content, rest) + intermediate + bytes(276))
    for word, sum_pair in zip(WORDS, sums):
        made[word[-2]], made[word[-1]] = parity([made[i] for i in word[:-2]], sum_pair)
    made = bytes(made)
    assert made[:2064] == content and defect(made) == wanted
    return made


def bcd(n):
    """The clause on the digital data structure of sectors, header: two decimal digits in one byte."""
    return 16 * (n // 10) + n % 10


def address_of(block):
    """Rule of cdpatch: block 0 is at 00:02:00 of the clause's header. None after 99:59:74."""
    t = block + 150
    return bytes([bcd(t // 4500), bcd(t // 75 % 60), bcd(t % 75)]) if block < 449850 else None


def damage(sector):
    """Rule of cdpatch: the findings of `audit` in a sector other than its address, as it prints them."""
    intermediate, rest, sums = defect(sector)
    columns = sum(pair != (0, 0) for pair in sums[:len(COLUMNS)])
    diagonals = sum(pair != (0, 0) for pair in sums[len(COLUMNS):])
    return (any(intermediate) * ' zeros' + (rest != 0) * ' edc'
            + (columns > 0) * f' p={columns}' + (diagonals > 0) * f' q={diagonals}')
