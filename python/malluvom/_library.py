"""The shared library: where it is, what its calls take, and how the buffers and numbers of Python are handed to it."""

import ctypes
import operator
import os
from pathlib import Path
from typing import TYPE_CHECKING, Union

if TYPE_CHECKING:
    from _typeshed import ReadableBuffer, WriteableBuffer

    # All bytes-like objects, and those that can be written into: only type checkers have a name for them.
    Readable = ReadableBuffer
    Writable = WriteableBuffer
else:
    Readable = Union[bytes, bytearray, memoryview]
    Writable = Union[bytearray, memoryview]

_POINTER, _SIZE = ctypes.c_void_p, ctypes.c_size_t
_ARGUMENTS = {
    "cxl0_record": [_POINTER, _SIZE, _SIZE, ctypes.c_uint8, ctypes.c_char_p, _SIZE],
    "cxl0_read": [ctypes.c_char_p, _SIZE],
    "cxl0_convert": [ctypes.c_char_p, _SIZE, _POINTER, _SIZE],
    "cxl0_replay": [ctypes.c_char_p, _SIZE, ctypes.c_char_p, _SIZE],
    "cxl0_judge": [ctypes.c_char_p, _SIZE, _POINTER, _SIZE, _SIZE, _POINTER, _SIZE],
}

# An array of no items fits over every buffer, and its address is the buffer's.
_Start = ctypes.c_uint8 * 0


def _path() -> Path:
    named = os.environ.get("MALLUVOM_SO")
    if named:
        return Path(named).resolve()
    here = Path(__file__).resolve().parent
    installed = here / "libcxl0.so"
    return installed if installed.is_file() else here.parents[1] / "target" / "python" / "libcxl0.so"


def _load() -> ctypes.PyDLL:
    path = _path()
    if not path.is_file():
        raise ImportError(f"{path} is not there: make it by python/build.sh")
    try:
        # PyDLL keeps other threads out during a call, so that none changes a lent area. A call takes microseconds.
        library = ctypes.PyDLL(str(path))
        for name, types in _ARGUMENTS.items():
            function = getattr(library, name)
            function.argtypes = types
            function.restype = ctypes.c_uint64
    except (OSError, AttributeError) as error:
        raise ImportError(f"{path} is not this module's library, which python/build.sh makes: {error}") from error
    return library


calls = _load()


def bits(answer: int, low: int, width: int) -> int:
    """The number in so many bits of an answer, from the lowest one on."""
    return answer >> low & (1 << width) - 1


def as_number(value: int, name: str, most: int = 2**64 - 1) -> int:
    """A number from 0 to the most that fits: ctypes would cut a larger one."""
    try:
        value = operator.index(value)
    except TypeError:
        raise TypeError(f"{name} must be an int, not {type(value).__name__}") from None
    if not 0 <= value <= most:
        raise ValueError(f"{name} must be 0 to {most}, not {value}")
    return value


def _view(data: Readable, name: str) -> memoryview:
    try:
        return memoryview(data)
    except TypeError:
        raise TypeError(f"{name} must be bytes-like, not {type(data).__name__}") from None


def _ask_single_bytes(view: memoryview, name: str) -> None:
    if view.itemsize != 1:
        raise TypeError(f"{name} must have items of 1 byte, not of {view.itemsize}")


def as_bytes(data: Readable, name: str) -> bytes:
    """The bytes of a bytes-like object, as they are now."""
    if type(data) is bytes:
        return data
    with _view(data, name) as view:
        _ask_single_bytes(view, name)
        return view.tobytes()


def lent(area: Writable, name: str) -> "tuple[ctypes.Array[ctypes.c_uint8], int]":
    """The start and the length of a buffer that the library writes into.

    As long as the start lives, the buffer is locked: it cannot be resized. So no variable should hold the start, since
    the traceback of an exception keeps the variables."""
    view = _view(area, name)
    try:
        _ask_single_bytes(view, name)
        if view.readonly:
            raise TypeError(f"{name} must be writable, such as a bytearray, not {type(area).__name__}")
        if not view.c_contiguous:
            raise TypeError(f"{name} must be contiguous")
        return _Start.from_buffer(view), view.nbytes
    except TypeError:
        view.release()
        raise


def written(area: Writable, offset: int, length: int) -> bytes:
    """What the library wrote into a lent area."""
    return memoryview(area).cast("B")[offset : offset + length].tobytes()


def overlap(start: "ctypes.Array[ctypes.c_uint8]", length: int, other: "ctypes.Array[ctypes.c_uint64]") -> bool:
    """Whether a lent area and another array share memory."""
    low, other_low = ctypes.addressof(start), ctypes.addressof(other)
    return low < other_low + ctypes.sizeof(other) and other_low < low + length
