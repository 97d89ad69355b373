"""Patches an image from any reader to any writer."""

from __future__ import annotations

import ctypes
import os
import stat
from typing import TYPE_CHECKING, Callable, Optional, Protocol, Tuple

from ._numbers import MOST_SECTORS, SECTOR_SIZE, Failure
from ._reports import Report
from ._running import Job

if TYPE_CHECKING:
    from _typeshed import ReadableBuffer

# As many sectors as the buffer of a pipe holds.
_PIECE = 65536 // SECTOR_SIZE * SECTOR_SIZE


class Reader(Protocol):
    """The source of an image: a file opened for reading in binary mode, or any object with this method."""

    def read(self, size: int, /) -> Optional[bytes]:
        """Returns 1 to `size` bytes, or no bytes at the end."""


class Writer(Protocol):
    """The destination of an image: a file opened for writing in binary mode, or any object with this method."""

    def write(self, data: bytes, /) -> Optional[int]:
        """Writes at least one of the bytes, and returns how many it wrote."""


class _Streams:
    """Reads an image from a reader, applies a script to it piece by piece, and writes the new image to a writer. A piece is in a buffer: the
    sectors that were kept of the piece before it, which patches may have changed, and then those that were read."""

    def __init__(self, reader: Reader, writer: Writer, job: Job) -> None:
        self.reader = reader
        self.writer = writer
        self.job = job
        self.buffer = ctypes.create_string_buffer(_PIECE)
        self.place = ctypes.addressof(self.buffer)
        self.first, self.held = job.base, 0  # the block of the first byte in the buffer, and the number of bytes there

    def _some(self, size: int) -> bytes:
        """The bytes of one read, at most `size`."""
        data = self.reader.read(size)
        if data is None:
            raise BlockingIOError('the reader has no bytes yet')
        if not isinstance(data, bytes):
            data = bytes(memoryview(data))
        if len(data) > size:
            raise ValueError(f'the reader returned {len(data)} bytes, more than the {size} requested')
        return data

    def _pass_on(self, data: bytes) -> None:
        while data:
            taken = self.writer.write(data)
            if not (taken is None or hasattr(taken, '__index__')):
                raise TypeError(f'the writer must return a number of bytes, not {type(taken).__name__}')
            if not taken or not 0 < taken <= len(data):
                raise OSError(f'the writer took {taken} of {len(data)} bytes')
            data = data[taken:]

    def _fill(self) -> None:
        while self.held < _PIECE and (data := self._some(_PIECE - self.held)):
            ctypes.memmove(self.place + self.held, data, len(data))
            self.held += len(data)

    def _patch(self, is_last: bool) -> None:
        """Applies the patches that fit to the sectors in the buffer, and writes what comes before the next patch."""
        count = self.held // SECTOR_SIZE
        self.job.apply(self.first, self.place, count, is_last)
        blocks = self.job.next_blocks()
        sent = count if blocks is None else min(count, blocks[0] - self.first)
        size = self.held if is_last else sent * SECTOR_SIZE
        self._pass_on(ctypes.string_at(self.place, size))
        if size < self.held:
            ctypes.memmove(self.place, self.place + size, self.held - size)
        self.first += sent
        self.held -= size

    def run(self) -> Report:
        """Patches the image to its end. If a read fails, the patches of the sectors that were read before it are done, and written."""
        is_last = False
        while not is_last:
            try:
                self._fill()
            except Exception:
                self._patch(False)
                raise
            most = (MOST_SECTORS + self.job.base - self.first) * SECTOR_SIZE
            is_last = self.held < _PIECE and self.held <= most
            if self.held > most:
                self.held = most
                self._patch(False)
                self.job.fail(Failure.LONG_IMAGE)
            self._patch(is_last)
        return self.job.report()


def _regular_file(stream: object) -> Optional[Tuple[int, int]]:
    """The device and the inode of a stream's regular file, or None if it has none."""
    try:
        status = os.fstat(stream.fileno())  # type: ignore[attr-defined]
    except (AttributeError, TypeError, ValueError, OSError):
        return None
    return (status.st_dev, status.st_ino) if stat.S_ISREG(status.st_mode) else None


def _has_position(stream: object) -> bool:
    """Whether a stream has a position, unlike a socket or a pipe."""
    try:
        stream.tell()  # type: ignore[attr-defined]
    except (AttributeError, OSError):
        return False
    return True


def _assert_different_files(reader: object, writer: object, log: object) -> None:
    """Raises ValueError if what is written would overwrite the image or the new image."""
    # A method such as `sys.stdout.write` knows its file.
    image, new, lines = map(_regular_file, (reader, writer, getattr(log, '__self__', None)))
    if new and new == image or reader is writer and _has_position(reader):
        raise ValueError('reader and writer are the same file; write the new image to another file')
    if lines and lines in (image, new):
        raise ValueError('log writes to the file of the image or of the new image; use another file')


def patch(reader: Reader, script: ReadableBuffer, writer: Writer, base: int = 0, carry: bool = False, *,
          log: Optional[Callable[[str], object]] = None) -> Report:
    """Reads an image whose first sector is block `base`, applies a script to it, and writes the new image, which has the same size.
    Returns what `cdpatch apply` prints, whether a patch was refused, and the outcome of each patch. The new image has all patches that were not refused. With
    `carry`, patches of damaged sectors are applied too, and the damage stays. A `rebuild` removes damage with or without `carry`.

    `log`, for example `sys.stdout.write`, gets each line of the output as soon as it is known: the line of a patch before any sector from
    its block on is written. It also gets the line of an error, so that no line is lost if a file fails later.

    At most 65536 bytes of the image are in memory, so `reader` and `writer` may be pipes. A script that is not `bytes` is copied, so a
    change of it during the call has no effect. A read may return fewer bytes than requested, and a write may write fewer; `write` returns
    the number of bytes written, as Python's files do. Nothing is read after the end of the image, and nothing is flushed or closed.

    `writer` must not be the file of `reader`, because the image would be overwritten before it is read. Raises ValueError, before anything
    is read or written, if both are the same object with a position or the same regular file, or if `log` is a method of one of these
    files.

    Raises Failed, before anything is read or written, if the base is not 0 to 449849, or if the script is invalid, too long, or has a line
    such as `# base 150` that names another base. To avoid an empty file if the script is invalid, call `check(b'', script)` before you open `writer`.

    Other errors can occur after a prefix of the new image was written: Failed, with the log so far, if the image has more than 2352000000
    bytes; OSError if the writer writes nothing; BlockingIOError if the reader has no bytes yet; ValueError if it returns more bytes than
    requested; and whatever `reader`, `writer`, and `log` raise."""
    _assert_different_files(reader, writer, log)
    return _Streams(reader, writer, Job(script, base, carry, log)).run()
