"""Scripts by the rules of cdpatch: versions 1 and 2, each fault and the one that decides, and the order of patches."""

import re
import sys
from pathlib import Path
from typing import NamedTuple, Optional

sys.path.append(str(Path(__file__).resolve().parent.parent / 'lib'))
from messages import MESSAGES  # noqa: E402

MOST_PATCHES = 65535  # in a script
MOST_BYTES = 4096  # changed by a patch


class Patch(NamedTuple):
    """A patch: `new` replaces a range, or for `address` the header bytes 12 to 14; `was` must be there before."""
    line: int
    block: int
    verb: str
    offset: int = 0
    new: bytes = b''
    was: Optional[bytes] = None


class ScriptFault(Exception):
    """The fault of a script: its text, and with `script` its line."""


TOO_MANY = f'more than {MOST_PATCHES} patches'
VERBS = {1: (b'set', b'fill', b'rebuild'), 2: (b'set', b'fill', b'rebuild', b'address')}
NUMBERS_OF_WORDS = {b'set': (4, 6), b'fill': (5,), b'rebuild': (2,), b'address': (3,)}


def lines(text):
    """Splits a text at each LF, together with one CR before it. The rest after the last LF is a line unless it is empty."""
    *ended, last = text.split(b'\n')
    return [line[:-1] if line.endswith(b'\r') else line for line in ended] + [last] * (last != b'')


def words(line):
    """The maximal parts without spaces and tabs."""
    return [word for word in re.split(rb'[ \t]', line) if word]


def demand(holds, fault):
    """Raises the fault of a line unless a condition holds; the first condition that fails decides."""
    if not holds:
        raise ScriptFault(fault)


def number(word):
    """One to nine decimal digits."""
    demand(re.fullmatch(rb'[0-9]{1,9}', word), MESSAGES['bad_number'])
    return int(word)


def hexadecimal(word):
    """An even number of hexadecimal digits in either case."""
    demand(re.fullmatch(rb'([0-9a-fA-F][0-9a-fA-F])+', word), MESSAGES['bad_hex'])
    return bytes(int(word[i:i + 2], 16) for i in range(0, len(word), 2))


def address(word):
    """MM:SS:FF as the three bytes of a header: each pair of digits is one BCD byte."""
    demand(re.fullmatch(rb'[0-9][0-9]:[0-5][0-9]:([0-6][0-9]|7[0-4])', word), MESSAGES['bad_address'])
    return bytes(int(pair, 16) for pair in word.split(b':'))


def patch(line, found, version):
    """The patch for the words of a line. Checks the verb, the number of words, then each word from the left, form before value."""
    verb = found[0]
    demand(verb in VERBS[version], MESSAGES['unknown_verb'])
    demand(len(found) in NUMBERS_OF_WORDS[verb] and (len(found) != 6 or found[4] == b'was'), MESSAGES['word_count'])
    block = number(found[1])
    if verb == b'rebuild':
        return Patch(line, block, 'rebuild')
    if verb == b'address':
        return Patch(line, block, 'address', 0, address(found[2]))
    offset = number(found[2])
    demand(offset <= 2047, MESSAGES['bad_offset'])
    if verb == b'fill':
        count = number(found[3])
        demand(1 <= count <= MOST_BYTES, MESSAGES['bad_length'])
        byte = hexadecimal(found[4])
        demand(len(byte) == 1, MESSAGES['bad_length'])
        return Patch(line, block, 'fill', offset, count * byte)
    new = hexadecimal(found[3])
    demand(len(new) <= MOST_BYTES, MESSAGES['bad_length'])
    was = hexadecimal(found[5]) if len(found) == 6 else None
    demand(was is None or len(was) == len(new), MESSAGES['bad_length'])
    return Patch(line, block, 'set', offset, new, was)


def script(text):
    """The patches in the order of their lines. The first faulty line decides; blank lines and comments only count as lines."""
    version, patches, cut = None, [], lines(text)
    for line, found in enumerate(map(words, cut), 1):
        try:
            if not found or found[0].startswith(b'#'):
                continue
            if version is None:
                demand(found in ([b'cdpatch', b'1'], [b'cdpatch', b'2']), MESSAGES['no_head'])
                version = int(found[1])
                continue
            patches.append(patch(line, found, version))
            demand(len(patches) <= MOST_PATCHES, TOO_MANY)
        except ScriptFault as fault:
            raise ScriptFault(f'script line {line}: {fault}') from None
    demand(version, f'script line {len(cut) + 1}: {MESSAGES["no_head"]}')
    return patches


def ordered(patches):
    """Sorts by first block, then by line. The offset does not matter."""
    return sorted(patches, key=lambda each: (each.block, each.line))
