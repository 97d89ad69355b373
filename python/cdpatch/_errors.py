"""The errors that calls raise."""

from __future__ import annotations

import ctypes
import re
from typing import Callable, Optional, Type

from ._library import library
from ._numbers import LINE_SIZE, Result


class Failed(ValueError):
    """Raised where the command would end with status 2. The message is what the command prints, without the last line feed, or that no
    image has this base."""

    @property
    def line(self) -> Optional[int]:
        """The number of the script's line with the error, or None if it is not an error of a line."""
        found = re.match(r'script line (\d+): ', str(self))
        return int(found[1]) if found else None


class Refused(ValueError):
    """A sector cannot be changed as asked. The message gives the reason."""


class NotMode1(Refused):
    """The sector is not a Mode 1 sector."""


class Damaged(Refused):
    """The sector is damaged, and `carry` was not given."""


class OutOfRange(Refused):
    """The bytes are not within the 2048 bytes of user data."""


_REFUSALS: dict[int, Type[Refused]] = {Result.NOT_MODE1: NotMode1, Result.DAMAGED: Damaged, Result.OUT_OF_RANGE: OutOfRange}


def text_of(call: Callable[..., int], *arguments: object) -> str:
    """The text that a call writes to its last argument."""
    text = ctypes.create_string_buffer(LINE_SIZE)
    size = call(*arguments, text)
    return text.raw[:size].decode()


def refusal(result: int) -> Refused:
    """Converts the result of a change to an error with the library's message."""
    return _REFUSALS[result](text_of(library.cdpatch_result_text, result))
