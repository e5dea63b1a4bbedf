"""The changes of a variable as numbers, by libvcdkit, in this process. It is asked by ctypes, which
lets other threads run meanwhile.

What the library is, extras/c/vcdkit.h says: this file alone knows how it is called."""
import ctypes
import functools
import mmap
import os
from array import array
from typing import Any, Optional, Union

from ..errors import RunFailed
from . import program
from .texts import Text

FULL = 4  # of vcdkit_changes


class _Place(ctypes.Structure):
    _fields_ = [("place", ctypes.c_uint64 * 8), ("count", ctypes.c_uint64),
                ("fault", ctypes.c_uint64), ("line", ctypes.c_uint64)]


@functools.lru_cache(maxsize=None)
def _library(name: str) -> ctypes.CDLL:
    """Returns a library, which is loaded at the first call."""
    try:
        library = ctypes.CDLL(name)
        size, at = ctypes.c_size_t, ctypes.c_void_p
        library.vcdkit_changes.restype = ctypes.c_uint8
        library.vcdkit_changes.argtypes = [at, size, ctypes.c_char_p, size, ctypes.c_uint64,
                                           ctypes.POINTER(_Place), at, size]
    except (OSError, AttributeError) as error:
        raise RunFailed("%s: %s" % (name, error)) from error
    return library


def changes(library: str, text: Text, code: bytes, room: int = 1 << 18) -> Optional["array[int]"]:
    """Returns the changes of a code, three uint64 each: a time, a value, and ones where its digits
    are 0 or 1. `None` if the dump has a fault or no such code, or the library cannot say."""
    data: Union[bytes, mmap.mmap]
    with program.opened(text) as source:
        try:
            data = mmap.mmap(source.fileno(), 0, access=mmap.ACCESS_COPY)
        except (ValueError, OSError):  # it is empty, or a pipe
            data = source.read()
    # Neither is copied. A NUL ends the bytes of Python, so that the pointer is never null.
    lent: Any = data if isinstance(data, bytes) else (ctypes.c_char * len(data)).from_buffer(data)
    found, reading, seed = array("Q"), _Place(), int.from_bytes(os.urandom(8), "little")
    some, status = array("Q", bytes(3 * 8 * room)), FULL
    while status == FULL:
        status = _library(library).vcdkit_changes(
            ctypes.cast(lent, ctypes.c_void_p), len(data), code, len(code), seed,
            ctypes.byref(reading), some.buffer_info()[0], room)
        found += some if reading.count == room else some[:3 * reading.count]
    return None if status else found
