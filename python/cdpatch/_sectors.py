"""The codes of CD-ROM sectors, and single sectors. No call changes its arguments."""

from __future__ import annotations

import ctypes
from operator import index
from typing import TYPE_CHECKING, Callable, Iterable, NamedTuple, Optional, Tuple, Union

from ._errors import refusal
from ._library import LARGEST_NUMBER, LARGEST_SIZE, Record, library, records_type
from ._memory import Held, lent, lent_whole
from ._numbers import ADDRESS_SIZE, COLUMNS, DIAGONALS, SECTOR_SIZE, USER_SIZE, DefectStruct, Fit, SectorKind

if TYPE_CHECKING:
    from _typeshed import ReadableBuffer

KINDS: Tuple[str, ...] = tuple(kind.name.lower() for kind in SectorKind)
FITS: Tuple[str, ...] = tuple(fit.name.lower() for fit in Fit)


Argument = Union[int, bytes, Held]
_Sector = ctypes.c_char * SECTOR_SIZE


class Defect(NamedTuple):
    """The damage of a sector: whether a byte of the Intermediate field is not 00, whether the EDC is wrong, and how many of the 86 P
    columns and the 52 Q diagonals are not code words."""
    zeros: bool
    edc: bool
    p: int
    q: int


class Choice(NamedTuple):
    """The copy that replaces a sector: its place among the copies, from 0 on, and how well it fits, one of FITS. `edc`: the EDC field of
    the sector is the same. `data`: header and user data are the same, and the EDC field is not. `neither`: nothing in the sector confirms
    the copy."""
    place: int
    fit: str


class Broken(NamedTuple):
    """Which code words are broken: a byte for each of the 86 P columns and the 52 Q diagonals, 1 if it is not a code word, else 0."""
    columns: bytes
    diagonals: bytes


def _copied(sector: ReadableBuffer) -> ctypes.Array[ctypes.c_char]:
    lent(sector, SECTOR_SIZE)  # Raises ValueError for a different size.
    return _Sector.from_buffer_copy(sector)


def _changed(call: Callable[..., int], sector: ReadableBuffer, *arguments: Argument) -> tuple[int, bytes]:
    """Applies a change to a copy of a sector. Returns its result, and the sector."""
    made = _copied(sector)
    return call(made, *arguments), made.raw


def _accepted(result: int, sector: bytes) -> bytes:
    """Returns the sector, or raises if the change was refused. By then the buffers are released: an error would keep them in its
    frames."""
    if result:
        raise refusal(result)
    return sector


def edc(data: ReadableBuffer) -> int:
    """Returns the EDC of any bytes. A sector stores the EDC of its bytes 0 to 2063 at byte 2064, least significant byte first (ECMA-130,
    14)."""
    word: int = library.cdpatch_edc(*lent_whole(data))
    return word


def kind(sector: ReadableBuffer) -> str:
    """Returns the kind of a sector of 2352 bytes, one of KINDS. Raises ValueError for a different size."""
    found: int = library.cdpatch_kind(lent(sector, SECTOR_SIZE))
    return KINDS[found]


def address(block: int) -> Optional[bytes]:
    """Returns the 3 bytes of the address of a block, 0 to 449849 (block 0 is 00:02:00), or None for any other number."""
    made = ctypes.create_string_buffer(ADDRESS_SIZE)
    block = index(block)
    has_one = 0 <= block <= LARGEST_NUMBER and library.cdpatch_address(block, made)
    return made.raw if has_one else None


def block(address: ReadableBuffer) -> Optional[int]:
    """Returns the block that has an address of 3 bytes, or None if no block has it. Raises ValueError for a different size."""
    found = ctypes.c_uint32()
    return found.value if library.cdpatch_block(lent(address, ADDRESS_SIZE), ctypes.byref(found)) else None


def encode(address: ReadableBuffer, user: ReadableBuffer) -> bytes:
    """Returns the one consistent Mode 1 sector, 2352 bytes, that has any 3 bytes as its address and 2048 bytes of user data. Raises
    ValueError for other sizes."""
    made = _Sector()
    library.cdpatch_encode(lent(address, ADDRESS_SIZE), lent(user, USER_SIZE), made)
    return made.raw


def with_parity(sector: ReadableBuffer) -> bytes:
    """Returns a sector of any kind, 2352 bytes, with P and Q parity recalculated. Raises ValueError for a different size."""
    made = _copied(sector)
    library.cdpatch_fill_parity(made)
    return made.raw


def is_consistent(sector: ReadableBuffer) -> bool:
    """Returns whether a sector of 2352 bytes is a Mode 1 sector without any damage. Raises ValueError for a different size."""
    sound: bool = library.cdpatch_is_consistent(lent(sector, SECTOR_SIZE))
    return sound


def defect(sector: ReadableBuffer) -> Defect:
    """Returns the damage of a sector of 2352 bytes, read as a Mode 1 sector. Raises ValueError for a different size."""
    found = DefectStruct()
    library.cdpatch_find_defect(lent(sector, SECTOR_SIZE), ctypes.byref(found))
    return Defect(found.zeros, found.edc, found.p, found.q)


def broken(sector: ReadableBuffer) -> Broken:
    """Returns which code words of a sector of any kind, 2352 bytes, are broken. A single wrong byte from 12 to 2247 is where the broken
    column and the broken diagonal cross. A wrong byte from 2248 to 2351 breaks only a diagonal, and one from 0 to 11 breaks nothing.
    libcdpatch(3) lists the bytes of each code word. Raises ValueError for a different size."""
    columns, diagonals = ctypes.create_string_buffer(COLUMNS), ctypes.create_string_buffer(DIAGONALS)
    library.cdpatch_find_broken(lent(sector, SECTOR_SIZE), columns, diagonals)
    return Broken(columns.raw, diagonals.raw)


def survey(sectors: ReadableBuffer, block: int = 0) -> ctypes.Array[Record]:
    """Returns a Record for each whole sector of the given bytes, whose first sector is block `block`. The result is an array with six
    bytes for each sector. It creates a Record only when an item is read, and it can be pickled. Bytes after the last whole sector are
    ignored.

    Raises ValueError if a block is not 0 to 4294967294."""
    block = index(block)
    with Held(sectors) as held:
        count = held.size // SECTOR_SIZE
        records = records_type(count)()
        if not 0 <= block <= LARGEST_NUMBER or not library.cdpatch_survey(held.place, count, block, records, count):
            raise ValueError(f'the blocks of {count} sectors from block {block} on are not all 0 to {LARGEST_NUMBER - 1}')
    return records


def rebuild(sector: ReadableBuffer) -> bytes:
    """Returns the one consistent sector that has the header and the user data of a Mode 1 sector of 2352 bytes. Raises NotMode1, or
    ValueError for a different size."""
    return _accepted(*_changed(library.cdpatch_rebuild, sector))


def with_user(sector: ReadableBuffer, offset: int, new: ReadableBuffer, carry: bool = False) -> bytes:
    """Returns a Mode 1 sector of 2352 bytes with the bytes of `new` at `offset` of its 2048 bytes of user data, and with EDC and parity
    updated. With `carry` the sector may be damaged: its damage stays, and none is added.

    Raises NotMode1; Damaged, but not with `carry`; OutOfRange if the bytes are not within the user data; ValueError if the sector has
    a different size. To replace all 2048 bytes of a sector that is known to be sound, `encode` needs less than half the time."""
    call = library.cdpatch_carry_user if carry else library.cdpatch_change_user
    offset = index(offset)
    place = offset if 0 <= offset <= LARGEST_SIZE else LARGEST_SIZE
    return _accepted(*_changed(call, sector, place, *lent_whole(new)))


def with_address(sector: ReadableBuffer, address: ReadableBuffer, carry: bool = False) -> bytes:
    """Returns a Mode 1 sector of 2352 bytes with these 3 bytes as the address in its header, and with EDC and parity updated. With `carry`
    the sector may be damaged: its damage stays, and none is added.

    Raises NotMode1; Damaged, but not with `carry`; ValueError for other sizes."""
    call = library.cdpatch_carry_address if carry else library.cdpatch_change_address
    return _accepted(*_changed(call, sector, lent(address, ADDRESS_SIZE)))


def merge_sector(address: ReadableBuffer, sector: ReadableBuffer, copies: Iterable[ReadableBuffer]) -> Optional[Choice]:
    """Returns the Choice of the copy that replaces a sector, among its copies in other dumps, all of 2352 bytes. A copy can replace it if
    the copy is a consistent Mode 1 sector with these 3 bytes as its address; of these, the first with the best fit is chosen. Returns None
    if there is none, or if the sector is a consistent Mode 1 sector itself. Raises ValueError for other sizes.

    It chooses a copy for audio and Mode 2 too, so call it only for sectors that should be Mode 1. Damage may be deliberate, so ask before
    you repair it."""
    sectors = [_copied(copy) for copy in copies]
    place = ctypes.c_size_t()
    fit: int = library.cdpatch_merge_sector(lent(address, ADDRESS_SIZE), lent(sector, SECTOR_SIZE), b''.join(sectors), len(sectors),
                                            ctypes.byref(place))
    return None if fit == Fit.NONE else Choice(place.value, FITS[fit])


def correct_sector(sector: ReadableBuffer) -> Optional[bytes]:
    """Returns a damaged Mode 1 sector of 2352 bytes as its own P and Q parity corrects it, or a sector with its sync field restored if
    nothing else is wrong. Returns None if neither is possible. Intermediate field, EDC, and all parity are right in the result. The header
    and the EDC field are never changed, so the EDC confirms the result. Returns None for a sector without damage, too, which is_consistent
    recognises. Raises ValueError for a different size.

    Damage may be deliberate, so ask before you correct it."""
    made = _copied(sector)
    return made.raw if library.cdpatch_correct_sector(made) else None
