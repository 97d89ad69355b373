"""Finds and loads the shared library, and declares the types of its calls."""

from __future__ import annotations

import ctypes
import os
import sys
from functools import lru_cache
from pathlib import Path
from typing import Callable, Type

from ._numbers import RecordStruct

NAME = 'cdpatch.dll' if sys.platform == 'win32' else 'libcdpatch.so.2'
HERE = Path(__file__).resolve().parent
# Where `make install` and pip put the package below a prefix. Anywhere else, the directories above may belong to somebody else.
INSTALLED = ('share/cdpatch/python/cdpatch', 'lib*/python3*/site-packages/cdpatch', 'lib*/python3*/dist-packages/cdpatch')

# The largest numbers and sizes that calls accept.
LARGEST_NUMBER, LARGEST_SIZE = 2 ** 32 - 1, 2 ** 64 - 1


class Record(RecordStruct):
    """What `list` and `audit` report about a sector. `kind` is an index into `KINDS`. `address` is true if the sector has a different
    address than its block; it is false for blocks above 449849, which have no address. `zeros`, `edc`, `p`, and `q` are those of a Defect.
    All but `kind` are 0 if the sector is not a Mode 1 sector."""
    kind: int
    address: bool
    zeros: bool
    edc: bool
    p: int
    q: int

    def __repr__(self) -> str:
        return f'Record({", ".join(f"{name}={getattr(self, name)!r}" for name, _ in self._fields_)})'


@lru_cache
def records_type(count: int) -> Type[ctypes.Array[Record]]:
    """The type of an array of `count` records that can be pickled, unlike other arrays of ctypes."""
    class Records(ctypes.Array[Record]):
        _type_ = Record
        _length_ = count

        def __reduce__(self) -> tuple[Callable[[bytes], ctypes.Array[Record]], tuple[bytes]]:
            return records_of, (bytes(self),)
    return Records


def records_of(data: bytes) -> ctypes.Array[Record]:
    """Converts bytes to an array of records."""
    return records_type(len(data) // ctypes.sizeof(Record)).from_buffer_copy(data)


_SHORT, _NUMBER, _LONG, _SIZE = ctypes.c_uint16, ctypes.c_uint32, ctypes.c_uint64, ctypes.c_size_t
_FLAG, _POINTER = ctypes.c_bool, ctypes.c_void_p

# The types of the result and the arguments of each call that this package uses.
CALLS = {
    'version': (_NUMBER,),
    'result_text': (_SIZE, _NUMBER, _POINTER),
    'edc': (_NUMBER, _POINTER, _SIZE),
    'kind': (_NUMBER, _POINTER),
    'address': (_FLAG, _NUMBER, _POINTER),
    'block': (_FLAG, _POINTER, _POINTER),
    'encode': (None, _POINTER, _POINTER, _POINTER),
    'fill_parity': (None, _POINTER),
    'is_consistent': (_FLAG, _POINTER),
    'find_defect': (None, _POINTER, _POINTER),
    'find_broken': (None, _POINTER, _POINTER, _POINTER),
    'survey': (_FLAG, _POINTER, _SIZE, _NUMBER, _POINTER, _SIZE),
    'rebuild': (_NUMBER, _POINTER),
    'change_user': (_NUMBER, _POINTER, _SIZE, _POINTER, _SIZE),
    'carry_user': (_NUMBER, _POINTER, _SIZE, _POINTER, _SIZE),
    'change_address': (_NUMBER, _POINTER, _POINTER),
    'carry_address': (_NUMBER, _POINTER, _POINTER),
    'merge_sector': (_NUMBER, _POINTER, _POINTER, _POINTER, _SIZE, _POINTER),
    'correct_sector': (_FLAG, _POINTER),
    'index_script': (_NUMBER, _POINTER, _SIZE, _POINTER, _SIZE, _POINTER),
    'script_base': (_FLAG, _POINTER, _SIZE, _NUMBER, _POINTER),
    'apply_entries': (_NUMBER, _POINTER, _POINTER, _SIZE, _POINTER, _SIZE, _POINTER),
    'outcome_line': (_SIZE, _NUMBER, _NUMBER, _NUMBER, _SHORT, _POINTER),
    'last_line': (_SIZE, _NUMBER, _NUMBER, _POINTER),
    'fault_line': (_SIZE, _NUMBER, _NUMBER, _POINTER),
    'failure_line': (_SIZE, _NUMBER, _POINTER),
    'list_line': (_SIZE, _NUMBER, _NUMBER, _NUMBER, _POINTER),
    'list_end': (_SIZE, _NUMBER, _SHORT, _POINTER),
    'audit_line': (_SIZE, _NUMBER, ctypes.POINTER(Record), _POINTER),
    'audit_end': (_SIZE, _NUMBER, _NUMBER, _NUMBER, _SHORT, _POINTER),
}


def _places() -> list[str]:
    """The places to look for the library. The loader finds a name without a directory."""
    named = os.environ.get('CDPATCH_LIBRARY')
    if named:
        return [named]
    if (HERE / NAME).exists():
        return [str(HERE / NAME)]
    if not any(HERE.match(form) for form in INSTALLED):
        return [NAME]
    installed = HERE.parents[3] / 'lib' / NAME
    return [NAME, str(installed)] if installed.exists() else [NAME]


def _opened(place: str) -> ctypes.CDLL:
    """Loads a library and declares the types of its calls. Raises ImportError if there is no library, or if it lacks a call."""
    try:
        library = ctypes.CDLL(place)
    except OSError as why:
        raise ImportError(f'cdpatch cannot load its library: {why}. Install it (make install, ldconfig), or set CDPATCH_LIBRARY to the '
                          f'path of {NAME}.') from None
    for name, (answer, *arguments) in CALLS.items():
        try:
            call = getattr(library, f'cdpatch_{name}')
        except AttributeError:
            raise ImportError(f'cdpatch has found an older library, {place}, without cdpatch_{name}. Install that of this package, or set '
                              f'CDPATCH_LIBRARY to the path of its {NAME}.') from None
        call.restype, call.argtypes = answer, arguments
    return library


def _first_opened() -> ctypes.CDLL:
    """Loads the first library that has all calls."""
    *places, last = _places()
    for place in places:
        try:
            return _opened(place)
        except ImportError:
            pass
    return _opened(last)


library = _first_opened()
