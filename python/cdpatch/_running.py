"""Applies a script to pieces of an image, and keeps the outcomes and the log."""

from __future__ import annotations

import ctypes
import struct
from typing import TYPE_CHECKING, Callable, List, NoReturn, Optional, Tuple

from ._errors import Failed, text_of
from ._library import library
from ._memory import Held
from ._numbers import (LINE_SIZE, MOST_PATCHES, MOST_SCRIPT_BYTES, AnswerStruct, EntryStruct, Failure, Flag, IndexStruct,
                       JobStruct, NamedBaseStruct, PatchBytesStruct, Result, Script, Stop)
from ._reports import Outcome, Report, checked_base

if TYPE_CHECKING:
    from _typeshed import ReadableBuffer

_MOST_ANSWERS = 4096
_ANSWER = struct.Struct('=4I8x')
_BLOCKS = struct.Struct('=I12xI4x')
_ENTRY_SIZE = ctypes.sizeof(EntryStruct)
# Comparing plain integers is faster.
_PIECE, _CAPACITY, _OK = int(Stop.PIECE), int(Stop.CAPACITY), int(Result.OK)
_RESULTS = tuple(Result)  # each at its number


def _kept(script: ReadableBuffer) -> ReadableBuffer:
    """A script that cannot change while it is applied, because its lines are read again: a copy, if it is not `bytes`. A script that is too
    long is not copied, because it is refused by its size."""
    with Held(script) as held:
        if type(script) is bytes or held.size > MOST_SCRIPT_BYTES:
            return script
        return ctypes.string_at(held.place, held.size)


class Job:
    """A script that is applied to an image, whose first sector is block `base`. Each line of the log is passed to `hear`. Raises Failed,
    with the line, if the script is invalid, too long, or made for another base."""

    def __init__(self, script: ReadableBuffer, base: int, carry: bool, hear: Optional[Callable[[str], object]] = None) -> None:
        self.base = checked_base(base)
        self.outcomes: List[Outcome] = []
        self._log: List[str] = []
        self._hear = hear
        self._script = Held(_kept(script))
        self._line = ctypes.create_string_buffer(LINE_SIZE)
        self._entries, count, version = self._indexed()
        self._blocks = [*_BLOCKS.iter_unpack(memoryview(self._entries)[:count * _ENTRY_SIZE])]
        self._flags = Flag.CARRY if carry else 0
        self._patch_bytes = PatchBytesStruct()
        self._answers = ctypes.create_string_buffer(_MOST_ANSWERS * ctypes.sizeof(AnswerStruct))
        self._done = ctypes.c_size_t()
        self._job = JobStruct(script=self._script.place, script_size=self._script.size, entries=ctypes.addressof(self._entries),
                              count=count, patch_bytes=ctypes.addressof(self._patch_bytes), version=version, base=self.base)

    def _indexed(self) -> Tuple[ctypes.Array[ctypes.c_char], int, int]:
        """The entries of the script, their number, and its version."""
        script, index, other = self._script, IndexStruct(), NamedBaseStruct()
        capacity = min(script.size, MOST_PATCHES)
        entries = ctypes.create_string_buffer(capacity * _ENTRY_SIZE)
        found = library.cdpatch_index_script(script, script.size, entries, capacity, ctypes.byref(index))
        if found == Script.TOO_LONG:
            self.fail(Failure.LONG_SCRIPT)
        if found == Script.INVALID:
            self._end(text_of(library.cdpatch_fault_line, index.line, index.fault))
        if library.cdpatch_script_base(script, script.size, self.base, ctypes.byref(other)):
            raise Failed(f'line {other.line} of the script says base {other.base}, but the image begins with block {self.base}')
        return entries, index.count, index.version

    def _print(self, line: str) -> None:
        """Adds a line to the log."""
        self._log.append(line)
        if self._hear is not None:
            self._hear(line)

    def _end(self, line: str) -> NoReturn:
        """Prints the line of an error, and raises Failed with the log."""
        self._print(line)
        raise Failed(''.join(self._log).rstrip('\n'))

    def fail(self, failure: Failure) -> NoReturn:
        """Prints the line of a failure, and raises Failed with the log."""
        self._end(text_of(library.cdpatch_failure_line, failure))

    def next_blocks(self, most: int = 0) -> Optional[Tuple[int, int]]:
        """The first block of the next patch, and the block after its last one; or None if all patches are done. The following patches that
        adjoin it are included as long as there are at most `most` blocks."""
        if self._job.count == 0:
            return None
        at = len(self.outcomes)
        first, met = self._blocks[at]
        end = first + met
        for i in range(at + 1, len(self._blocks)):
            block, met = self._blocks[i]
            if block > end or block + met > first + most:
                break
            end = max(end, block + met)
        return first, end

    def apply(self, first: int, place: int, count: int, is_last: bool) -> None:
        """Applies the patches that fit to `count` sectors at an address in memory, of which the first is block `first`, and prints their
        outcomes. `is_last`: whether the image ends with these sectors."""
        job, done, answers = self._job, self._done, memoryview(self._answers)
        job.first, job.flags = first, self._flags | (Flag.LAST if is_last else 0)
        stop = _CAPACITY
        while stop == _CAPACITY:
            stop = library.cdpatch_apply_entries(ctypes.byref(job), place, count, self._answers, _MOST_ANSWERS, ctypes.byref(done))
            job.entries += done.value * _ENTRY_SIZE
            job.count -= done.value
            for line, result, block, offset in _ANSWER.iter_unpack(answers[:done.value * _ANSWER.size]):
                self.outcomes.append(Outcome(line, _RESULTS[result], block, offset))
                size = library.cdpatch_outcome_line(line, result, block, offset, self._line)
                self._print(self._line.raw[:size].decode())
        if stop > _PIECE or is_last and stop:
            raise RuntimeError(f'libcdpatch stopped for reason {stop}')

    def report(self) -> Report:
        """Prints the last line, and returns the report."""
        applied = sum(outcome.result == _OK for outcome in self.outcomes)
        refused = len(self.outcomes) - applied
        self._print(text_of(library.cdpatch_last_line, applied, refused))
        return Report(''.join(self._log), refused > 0, tuple(self.outcomes))
