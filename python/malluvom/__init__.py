"""A proved judge of CXL0 logs.

A log says what a few machines did to shared memory: loads, stores, flushes and crashes. judge says whether some choice
of silent steps explains it, and hands out the shortest such schedule or the first impossible event:

>>> log = bytes.fromhex(
...     "0102000203 02010002 0305000101000100 0305000501000000 0305000702000000 0305000401000000 040000")
>>> verdict = judge(log)
>>> verdict.allowed, verdict.steps
(True, (Step(before=1, location=0, machine=1),))

Anyone can check an allowed verdict, by its file:

>>> replay(log, verdict.file)
Replayed(yes=True, passed=0)

record writes a log field by field, and read says how much is in one:

>>> buffer = bytearray(LOG_MOST)
>>> used = record(buffer, 0, 1, bytes([2, 3]))              # two machines with persistent memory
>>> used = record(buffer, used, 2, bytes([2]))              # L0, in the memory of machine 2
>>> used = record(buffer, used, 3, bytes([1, 1, 0, 1, 0]))  # LStore by 1 to L0 of 1
>>> used = record(buffer, used, 4, b"")                     # the end
>>> read(buffer[:used])
Counts(machines=2, locations=1, events=1)

A log of edition 2 begins with 06, and its values have 4 bytes in place of 2. edition says which one a log is of, and
convert gives the log in the other:

>>> convert(buffer[:used]).hex(" ")
'06 02 00 02 03 02 01 00 02 03 07 00 01 01 00 01 00 00 00 04 00 00'

A log that is not well formed is refused, with the number and the name of the specification:

>>> judge(log[:-1])
Traceback (most recent call last):
malluvom.Refused: number 2 (Truncated)

Logs, schedules and payloads are bytes-like objects with items of one byte: bytes, bytearray, memoryview, mmap and
others. A lent area is such an object that can be written into. A refusal leaves it as it was, and after a call it is
not locked. An argument of another type is a TypeError, a number outside its range a ValueError.

The repository's docs/FORMAT.md describes the bytes. python/build.sh makes the shared library that this module loads;
the environment variable MALLUVOM_SO names another.
"""

import ctypes
from typing import NamedTuple, Optional

from . import _library
from ._library import Readable as _Readable
from ._library import Writable as _Writable

__version__ = "0.1.0"

__all__ = [
    "CONVERT_LEAST",
    "Counts",
    "EDITIONS",
    "FILE_MOST",
    "LOG_MOST",
    "REFUSALS",
    "Refused",
    "Replayed",
    "SCRATCH_LEAST",
    "Step",
    "Verdict",
    "convert",
    "edition",
    "judge",
    "read",
    "record",
    "replay",
    "version",
]

# A verdict file has at most so many bytes.
FILE_MOST = 1544
# A lent scratch has at least so many 64-bit numbers.
SCRATCH_LEAST = 4096
# An accepted log has at most so many bytes.
LOG_MOST = 2088
# A lent output of convert has at least so many bytes.
CONVERT_LEAST = 4096

# The editions of a log, by its first byte.
EDITIONS = {0x01: 1, 0x06: 2}

# The names of the refusals, by number.
REFUSALS = {
    1: "BufferTooShort",
    2: "Truncated",
    3: "UnexpectedTag",
    4: "WrongLength",
    5: "BadTopology",
    6: "BadOwner",
    7: "TooMany",
    8: "UnknownOperation",
    9: "NoSuchMachine",
    10: "NoSuchLocation",
    11: "ReservedNotZero",
    12: "TrailingBytes",
    13: "BadSchedule",
    14: "BadInitialValue",
    15: "BadMachineSet",
    16: "BadKind",
    17: "ValueTooLarge",
}


class Refused(Exception):
    """The library refuses its input: `number` and `name`, as in REFUSALS."""

    number: int
    name: str

    def __init__(self, number: int) -> None:
        # The number alone, since pickle and copy call the class with what is passed on here.
        super().__init__(number)
        self.number = number
        self.name = REFUSALS[number]

    def __str__(self) -> str:
        return f"number {self.number} ({self.name})"


class Counts(NamedTuple):
    """How much an accepted log holds."""

    machines: int
    locations: int
    events: int


class Step(NamedTuple):
    """A silent step after so many events: the machine's copy propagates to the owner; machine 0 means write-back."""

    before: int
    location: int
    machine: int


class Verdict(NamedTuple):
    """Whether some choice of silent steps explains a log. It is true in a condition if one does.

    If it is allowed, `event` is 0 and `steps` are the silent steps of the shortest run: no run has fewer, and of those
    with as few it is the smallest at the first difference. If not, `event` is the first impossible one, counted from 1.
    `file` is the verdict file."""

    allowed: bool
    event: int
    steps: tuple[Step, ...]
    file: bytes

    def __bool__(self) -> bool:
        return self.allowed


class Replayed(NamedTuple):
    """Whether log and schedule are a run; if not, how many events pass before the first thing not possible.

    It is true in a condition if they are."""

    yes: bool
    passed: int

    def __bool__(self) -> bool:
        return self.yes


def _accepted(answer: int) -> int:
    number = _library.bits(answer, 0, 8)
    if number:
        raise Refused(number)
    return answer


def record(buffer: _Writable, used: int, tag: int, payload: _Readable) -> int:
    """Puts one field after the first `used` bytes of the buffer; gives the new count of used bytes."""
    used, tag = _library.as_number(used, "used"), _library.as_number(tag, "tag", 255)
    payload = _library.as_bytes(payload, "payload")
    answer = _library.calls.cxl0_record(*_library.lent(buffer, "buffer"), used, tag, payload, len(payload))
    return _library.bits(_accepted(answer), 8, 32)


def read(log: _Readable) -> Counts:
    """Reads a log to its end."""
    log = _library.as_bytes(log, "log")
    answer = _accepted(_library.calls.cxl0_read(log, len(log)))
    return Counts(_library.bits(answer, 8, 8), _library.bits(answer, 16, 8), _library.bits(answer, 24, 8))


def edition(log: _Readable) -> int:
    """The edition of a log that read accepts: 1, whose values have 2 bytes, or 2, whose values have 4."""
    log = _library.as_bytes(log, "log")
    read(log)
    return EDITIONS[log[0]]


def convert(log: _Readable, out: Optional[_Writable] = None) -> bytes:
    """The log in the other edition. A caller may lend the output, of at least CONVERT_LEAST bytes.

    There and back gives the same bytes, and the verdict is the same in both."""
    log = _library.as_bytes(log, "log")
    if out is None:
        out = bytearray(CONVERT_LEAST)
    answer = _accepted(_library.calls.cxl0_convert(log, len(log), *_library.lent(out, "out")))
    return _library.written(out, 0, _library.bits(answer, 8, 24))


def replay(log: _Readable, schedule: _Readable) -> Replayed:
    """Follows a log with the silent steps of a verdict file that says allowed."""
    log, schedule = _library.as_bytes(log, "log"), _library.as_bytes(schedule, "schedule")
    answer = _accepted(_library.calls.cxl0_replay(log, len(log), schedule, len(schedule)))
    return Replayed(bool(_library.bits(answer, 8, 1)), _library.bits(answer, 16, 8))


def judge(
    log: _Readable,
    out: Optional[_Writable] = None,
    offset: int = 0,
    scratch: Optional["ctypes.Array[ctypes.c_uint64]"] = None,
) -> Verdict:
    """Judges a log.

    A caller may lend the output, of FILE_MOST bytes after the offset, and the scratch, a ctypes array of at least
    SCRATCH_LEAST c_uint64, which is all zero afterwards."""
    log, offset = _library.as_bytes(log, "log"), _library.as_number(offset, "offset")
    if out is None:
        if offset:
            raise ValueError("offset is a place in out, and no out is lent")
        out = bytearray(FILE_MOST)
    if scratch is None:
        scratch = (ctypes.c_uint64 * SCRATCH_LEAST)()
    elif not isinstance(scratch, ctypes.Array) or scratch._type_ is not ctypes.c_uint64:
        raise TypeError(f"scratch must be a ctypes array of c_uint64, not {type(scratch).__name__}")
    elif _library.overlap(*_library.lent(out, "out"), scratch):
        raise ValueError("out and scratch must not overlap")
    answer = _accepted(
        _library.calls.cxl0_judge(log, len(log), *_library.lent(out, "out"), offset, scratch, len(scratch))
    )
    file = _library.written(out, offset, _library.bits(answer, 40, 16))
    allowed = bool(_library.bits(answer, 8, 1))
    steps = tuple(Step(*file[at + 3 : at + 6]) for at in range(5, len(file) - 3, 6)) if allowed else ()
    return Verdict(allowed, _library.bits(answer, 16, 8), steps, file)


def version() -> frozenset[int]:
    """The numbers of the change requests that the library has: 211 is W-211."""
    # Looked up at the call, so that a library from before it can still be loaded.
    call = _library.calls.cxl0_version
    call.restype = ctypes.c_uint64
    answer = call()
    return frozenset(number for number in range(201, 257) if _library.bits(answer, 8 + number - 201, 1))
