"""The commands of cdpatch for an image in memory or in a mapped file, which is read in place."""

from __future__ import annotations

import ctypes
import re
from typing import TYPE_CHECKING, NamedTuple, Optional, Sequence, Tuple, overload

from ._errors import Failed, text_of
from ._library import Record, library, records_type
from ._lines import audit_end, audit_line, listing_end, listing_line
from ._memory import Held
from ._numbers import MOST_SECTORS, SECTOR_SIZE, Failure, RecordStruct, SectorKind
from ._reports import Audit, Outcome, Report, checked_base
from ._running import Job
from ._sectors import KINDS

if TYPE_CHECKING:
    from _typeshed import ReadableBuffer, WriteableBuffer

_MOST_SIZE = MOST_SECTORS * SECTOR_SIZE
_RECORD_SIZE = ctypes.sizeof(RecordStruct)
_TRIED = 27  # sectors of which `check` has a copy


class Patched(NamedTuple):
    """The result of `apply`: the new image, what `cdpatch apply` prints, whether a patch was refused, and the outcome of each patch."""
    image: bytearray
    text: str
    found: bool
    outcomes: Tuple[Outcome, ...]


def _surveyed(image: Held, base: int) -> ctypes.Array[Record]:
    """The records of all sectors. Raises Failed if the image is too long."""
    count = image.size // SECTOR_SIZE
    if image.size > _MOST_SIZE:
        raise Failed(text_of(library.cdpatch_failure_line, Failure.LONG_IMAGE).rstrip('\n'))
    records = records_type(count)()
    if not library.cdpatch_survey(image, count, base, records, count):
        raise RuntimeError('libcdpatch surveyed nothing')
    return records


def listing(image: ReadableBuffer, base: int = 0) -> str:
    """Returns what `cdpatch list` prints: the runs of sectors of one kind, in an image of any size whose first sector is block `base`.

    Raises Failed if the base is not 0 to 449849, or if the image has more than 2352000000 bytes, which is 1000000 sectors."""
    base = checked_base(base)
    with Held(image) as held:
        kinds, tail = bytes(_surveyed(held, base))[::_RECORD_SIZE], held.size % SECTOR_SIZE
    runs = re.finditer(rb'(?s)(.)\1*', kinds)
    lines = [listing_line(base + run.start(), base + run.end() - 1, KINDS[run[1][0]]) for run in runs]
    return ''.join(lines) + listing_end(len(kinds), tail)


def _merged(records: bytes, fields: Sequence[str]) -> bytes:
    """A byte for each record, which is 0 if these fields are 0."""
    places = [getattr(RecordStruct, field).offset for field in fields]
    merged = 0
    for place in places:
        merged |= int.from_bytes(records[place::_RECORD_SIZE], 'little')
    return merged.to_bytes(len(records) // _RECORD_SIZE, 'little')


def audit(image: ReadableBuffer, base: int = 0) -> Audit:
    """Returns what `cdpatch audit` prints about the Mode 1 sectors of an image of any size whose first sector is block `base`, whether it
    reports anything, and its numbers. A wrong address is reported too, but is not damage.

    Raises Failed if the base is not 0 to 449849, or if the image has more than 2352000000 bytes, which is 1000000 sectors."""
    base = checked_base(base)
    with Held(image) as held:
        records, tail = _surveyed(held, base), held.size % SECTOR_SIZE
    data = bytes(records)
    mode1 = data[::_RECORD_SIZE].count(SectorKind.MODE1)
    damaged = len(records) - _merged(data, ('zeros', 'edc', 'p', 'q')).count(0)
    found = [it.start() for it in re.finditer(rb'[^\0]', _merged(data, ('address', 'zeros', 'edc', 'p', 'q')))]
    lines = [audit_line(base + i, records[i]) for i in found]
    text = ''.join(lines) + audit_end(len(records), mode1, damaged, tail)
    return Audit(text, bool(found), len(records), mode1, damaged, tail)


class _Window:
    """Copies of the sectors that the next patches touch. Sectors stay in it as long as a patch may touch them, with what the patches before
    it have changed."""

    def __init__(self, image: Held, base: int) -> None:
        self.image = image
        self.bytes = ctypes.create_string_buffer(_TRIED * SECTOR_SIZE)
        self.place = ctypes.addressof(self.bytes)
        self.base, self.first, self.end = base, base, base

    def move(self, first: int, end: int) -> None:
        """Moves the window forward to these blocks, or to more of them, if it has more."""
        kept = max(self.end, first)
        ctypes.memmove(self.place, self.place + (first - self.first) * SECTOR_SIZE if kept > first else self.place,
                       (kept - first) * SECTOR_SIZE)
        if end > kept:
            ctypes.memmove(self.place + (kept - first) * SECTOR_SIZE, self.image.place + (kept - self.base) * SECTOR_SIZE,
                           (end - kept) * SECTOR_SIZE)
        self.first, self.end = first, max(kept, end)


def check(image: ReadableBuffer, script: ReadableBuffer, base: int = 0, carry: bool = False) -> Report:
    """Returns what `cdpatch check` prints, that is, what `apply` would do with each patch of a script, and whether a patch would be
    refused. Only the sectors that patches refer to are read. With an empty image (`b''`) only the script is checked: it is valid if the call
    raises nothing, and the report, which refuses each patch, has no meaning.

    Raises Failed as `apply` does."""
    job = Job(script, base, carry)
    with Held(image) as held:
        window, end = _Window(held, job.base), job.base + min(held.size // SECTOR_SIZE, MOST_SECTORS)
        is_long = held.size > _MOST_SIZE
        while (blocks := job.next_blocks(_TRIED)) is not None and not (is_long and blocks[1] > end):
            window.move(*(min(max(block, job.base), end) for block in blocks))
            job.apply(window.first, window.place, window.end - window.first, window.end == end and not is_long)
    if is_long:
        job.fail(Failure.LONG_IMAGE)
    return job.report()


@overload
def apply(image: ReadableBuffer, script: ReadableBuffer, base: int = 0, carry: bool = False) -> Patched:
    ...


@overload
def apply(image: ReadableBuffer, script: ReadableBuffer, base: int = 0, carry: bool = False, *, out: WriteableBuffer) -> Report:
    ...


def apply(image: ReadableBuffer, script: ReadableBuffer, base: int = 0, carry: bool = False, *,
          out: Optional[WriteableBuffer] = None) -> Patched | Report:
    """Applies a script to an image of any size whose first sector is block `base`. Returns a Patched: the new image, what `cdpatch apply`
    prints, and whether a patch was refused. The new image has all patches that were not refused. With `carry`, patches of damaged sectors
    are applied too, and the damage stays. A `rebuild` removes damage with or without `carry`.

    With `out`, for example a mapped new file, the new image is written to its first bytes, its other bytes do not change, and the result is
    a Report, which has no image. The call also needs memory for the log (at most 5243080 bytes, twice), for an entry and an outcome of each
    patch, and for a copy of a script that is not `bytes`.

    Raises Failed if the base is not 0 to 449849; if the script is invalid, too long, or has a line such as `# base 150` that names another
    base; or if the image has more than 2352000000 bytes. `out` then begins with a prefix of the new image, which may be empty.

    Raises ValueError, and writes nothing, if `out` is smaller than the image, or shares bytes with the image or the script. If `out` is
    read-only, its type decides the error: BufferError, or ValueError for an array of numpy."""
    if out is not None:
        return _applied(image, script, base, carry, out)
    # bytearray and not bytes, which would be a second copy of the image. examples/patch_map.c patches an image in place, without a copy.
    with Held(image):  # Refuses an object whose bytes are not contiguous, as every other call does; bytearray would copy it.
        made = bytearray(memoryview(image))
    with Held(made, writable=True) as held:
        return Patched(made, *_patched(Job(script, base, carry), held))


def _patched(job: Job, image: Held, size: Optional[int] = None) -> Report:
    """Patches an image in place, which has `size` bytes of a larger buffer."""
    size = image.size if size is None else size
    is_long = size > _MOST_SIZE
    job.apply(job.base, image.place, min(size, _MOST_SIZE) // SECTOR_SIZE, not is_long)
    if is_long:
        job.fail(Failure.LONG_IMAGE)
    return job.report()


def _applied(image: ReadableBuffer, script: ReadableBuffer, base: int, carry: bool, out: WriteableBuffer) -> Report:
    with Held(image) as old, Held(script) as text, Held(out, writable=True) as new:
        if new.size < old.size:
            raise ValueError(f'out has {new.size} bytes, and the image {old.size}')
        if new.overlaps(old) or new.overlaps(text):
            raise ValueError('out overlaps the image or the script')
        job = Job(script, base, carry)
        ctypes.memmove(new.place, old.place, old.size)
        return _patched(job, new, old.size)
