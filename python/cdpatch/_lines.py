"""The lines of `listing` and `audit`, one at a time, from the records of a survey."""

from __future__ import annotations

import ctypes
from operator import index

from ._errors import text_of
from ._library import LARGEST_NUMBER, Record, library
from ._sectors import KINDS

_LARGEST_TAIL = 2 ** 16 - 1


def _number(given: int, most: int = LARGEST_NUMBER) -> int:
    """A number from 0 to `most`. Raises ValueError if it is outside this range, and TypeError if it is not an integer."""
    number = index(given)
    if not 0 <= number <= most:
        raise ValueError(f'{number} is not 0 to {most}')
    return number


def listing_line(first: int, last: int, kind: str) -> str:
    """Returns the line that `listing` prints, with its line feed, for the blocks `first` to `last`, all of one kind. Raises ValueError if
    the kind is not in KINDS, if `last` is less than `first`, or if a block is not 0 to 4294967295."""
    if kind not in KINDS:
        raise ValueError(f'kind must be one of {", ".join(KINDS)}, not {kind!r}')
    line = text_of(library.cdpatch_list_line, _number(first), _number(last), KINDS.index(kind))
    if not line:
        raise ValueError(f'there are no blocks from {first} to {last}')
    return line


def listing_end(sectors: int, tail: int) -> str:
    """Returns the last line of `listing`, with its line feed: the number of sectors, and the number of bytes after them. Raises
    ValueError if `sectors` is not 0 to 4294967295, or `tail` is not 0 to 65535. No other relation between the numbers is checked."""
    return text_of(library.cdpatch_list_end, _number(sectors), _number(tail, _LARGEST_TAIL))


def audit_line(block: int, record: Record) -> str:
    """Returns the line that `audit` prints for a block, with its line feed, from the record that `survey` gave. The text is empty if the
    sector is not a Mode 1 sector, or if nothing is wrong with it. Raises ValueError if the block is not 0 to 4294967295."""
    if not isinstance(record, Record):
        raise TypeError(f'record must be a Record of survey, not {type(record).__name__}')
    return text_of(library.cdpatch_audit_line, _number(block), ctypes.pointer(record))


def audit_end(sectors: int, mode1: int, damaged: int, tail: int) -> str:
    """Returns the last line of `audit`, with its line feed: the number of sectors, of Mode 1 sectors, of damaged Mode 1 sectors, and of
    bytes after the sectors. Raises ValueError if `tail` is not 0 to 65535, or if another number is not 0 to 4294967295. No other relation
    between the numbers is checked."""
    return text_of(library.cdpatch_audit_end, _number(sectors), _number(mode1), _number(damaged), _number(tail, _LARGEST_TAIL))
