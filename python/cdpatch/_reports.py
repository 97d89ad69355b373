"""The base that commands accept, and the reports that they return."""

from __future__ import annotations

from operator import index
from typing import NamedTuple, Tuple

from ._errors import Failed
from ._numbers import LAST_BASE, Result


class Outcome(NamedTuple):
    """What was done with a patch: its line in the script, and the result. If it was refused, `block` is the block that refuses it, and
    `offset` the user byte there that differs; otherwise they are 0."""
    line: int
    result: Result
    block: int
    offset: int


class Report(NamedTuple):
    """What a command prints about the patches of a script, whether a patch was refused, and the outcome of each patch in the order in which
    they are applied."""
    text: str
    found: bool
    outcomes: Tuple[Outcome, ...]


class Audit(NamedTuple):
    """What `cdpatch audit` prints, whether it reports anything, and its numbers: of sectors, of Mode 1 sectors, of damaged ones among them,
    and of bytes after the last sector."""
    text: str
    found: bool
    sectors: int
    mode1: int
    damaged: int
    tail: int


def checked_base(base: int) -> int:
    """The base of an image. Raises Failed if no image can have it, and TypeError if it is not an integer."""
    base = index(base)
    if not 0 <= base <= LAST_BASE:
        raise Failed(f'base {base} is not 0 to {LAST_BASE}')
    return base
