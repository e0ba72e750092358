"""Access to the bytes that the library reads and writes, in place: long ones are not copied for a call."""

from __future__ import annotations

import contextlib
import ctypes
import io
from collections.abc import Iterator
from typing import Union

# Bytes in memory that a call reads.
Buffer = Union[bytes, bytearray, memoryview]
# An address of bytes, as ctypes takes it.
Address = Union[bytes, ctypes.c_char_p]


class _View(ctypes.Structure):
    """A Py_buffer of Python's own C interface."""

    _fields_ = (
        ("at", ctypes.c_void_p),
        ("owner", ctypes.c_void_p),
        ("length", ctypes.c_ssize_t),
        ("item_size", ctypes.c_ssize_t),
        ("read_only", ctypes.c_int),
        ("dimensions", ctypes.c_int),
        ("others", ctypes.c_void_p * 5),
    )


# A contiguous buffer, which may be read-only.
_SIMPLE = 0

_get_buffer = ctypes.pythonapi.PyObject_GetBuffer
_get_buffer.argtypes = (ctypes.py_object, ctypes.POINTER(_View), ctypes.c_int)
_get_buffer.restype = ctypes.c_int
_release_buffer = ctypes.pythonapi.PyBuffer_Release
_release_buffer.argtypes = (ctypes.POINTER(_View),)
_release_buffer.restype = None
_utf8_of = ctypes.pythonapi.PyUnicode_AsUTF8AndSize
_utf8_of.argtypes = (ctypes.py_object, ctypes.POINTER(ctypes.c_ssize_t))
_utf8_of.restype = ctypes.c_void_p


def is_whole(given: object) -> bool:
    """Whether this is a contiguous buffer of bytes."""
    try:
        view = memoryview(given)  # type: ignore[arg-type]
    except TypeError:
        return False
    with view:
        return view.c_contiguous and view.itemsize == 1 and view.ndim == 1


@contextlib.contextmanager
def bytes_at(given: Buffer) -> Iterator[tuple[Address, int]]:
    """The address of the bytes of a buffer, and their number. Until it exits they cannot move, and must not change.

    Anything but a contiguous buffer of bytes is copied with `bytes`.
    """
    count = len(given)
    if isinstance(given, bytes) or count == 0 or not is_whole(given):
        yield bytes(given), count
        return
    view = _View()
    _get_buffer(given, view, _SIMPLE)
    try:
        yield ctypes.c_char_p(view.at), view.length
    finally:
        _release_buffer(view)


@contextlib.contextmanager
def text_at(given: str) -> Iterator[tuple[Address, int]]:
    """The address of a text in UTF-8, and its length in bytes. A text that is not all ASCII is copied."""
    if not given.isascii():
        document = given.encode("utf-8")
        yield document, len(document)
        return
    length = ctypes.c_ssize_t()
    at = _utf8_of(given, length)
    yield ctypes.c_char_p(at), length.value


class Room:
    """A buffer of `count` bytes; the library writes them at `at`."""

    def __init__(self, count: int) -> None:
        self._bytes = io.BytesIO(bytes(count))
        self.at = (ctypes.c_char * count).from_buffer(self._bytes.getbuffer())

    def filled(self) -> bytes:
        """The bytes that were written. Nothing more may be written."""
        del self.at
        return self._bytes.getvalue()
