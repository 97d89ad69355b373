"""Gives the library access to the bytes of an object, in place."""

from __future__ import annotations

import ctypes
from types import TracebackType
from typing import TYPE_CHECKING, Optional, Tuple, Type, Union

if TYPE_CHECKING:
    from _typeshed import ReadableBuffer


class _Export(ctypes.Structure):
    """`Py_buffer` of Python's C interface."""
    _fields_ = [('buf', ctypes.c_void_p), ('obj', ctypes.c_void_p), ('len', ctypes.c_ssize_t), ('itemsize', ctypes.c_ssize_t),
                ('readonly', ctypes.c_int), ('ndim', ctypes.c_int), ('format', ctypes.c_void_p), ('shape', ctypes.c_void_p),
                ('strides', ctypes.c_void_p), ('suboffsets', ctypes.c_void_p), ('internal', ctypes.c_void_p)]


_export = ctypes.pythonapi.PyObject_GetBuffer
_export.argtypes = [ctypes.py_object, ctypes.POINTER(_Export), ctypes.c_int]
_release = ctypes.pythonapi.PyBuffer_Release
_release.argtypes = [ctypes.POINTER(_Export)]
_release.restype = None


class Held:
    """The bytes of an object: their address, which may be 0 if there are none, and their number, whatever the size of the items. The
    object can neither move nor free them until the end of a `with` block, or as long as this object exists. The library's calls accept it
    as a pointer.

    Raises ValueError if the number of bytes is not `size`; TypeError if the object has no buffer; BufferError if the bytes are not
    contiguous, or if `writable` is true and the object is read-only."""

    __slots__ = ('_export', '_as_parameter_', 'place', 'size')

    def __init__(self, data: ReadableBuffer, size: Optional[int] = None, writable: bool = False) -> None:
        self._export = _Export()
        _export(data, self._export, writable)
        self.place: int = self._export.buf or 0
        self.size: int = self._export.len
        self._as_parameter_ = ctypes.c_void_p(self.place)
        if size is not None and size != self.size:
            self.release()
            raise ValueError(f'expected {size} bytes, got {self.size}')

    def release(self) -> None:
        """Releases the object. A second call does nothing."""
        _release(self._export)

    __del__ = release

    def __enter__(self) -> Held:
        return self

    def __exit__(self, kind: Optional[Type[BaseException]], error: Optional[BaseException], trace: Optional[TracebackType]) -> None:
        self.release()

    def overlaps(self, other: Held) -> bool:
        """Whether the two share a byte."""
        return self.place < other.place + other.size and other.place < self.place + self.size


def lent(data: ReadableBuffer, size: int) -> Union[bytes, Held]:
    """The argument for a pointer to `size` bytes. Objects of type `bytes`, which most callers have, are passed directly, in half the
    time."""
    return data if type(data) is bytes and len(data) == size else Held(data, size)


def lent_whole(data: ReadableBuffer) -> Tuple[Union[bytes, Held], int]:
    """The argument for a pointer to bytes, and their number."""
    if type(data) is bytes:
        return data, len(data)
    held = Held(data)
    return held, held.size
