"""Tests of the Python module's interface: its names, its hints, what it takes and what it leaves behind."""

import array
import copy
import ctypes
import inspect
import mmap
import os
import pickle
import pydoc
import re
import signal
import subprocess
import sys
import typing
import unittest
from pathlib import Path

import malluvom

HERE = Path(__file__).resolve().parent
ROOT = HERE.parent
LOG = (ROOT / "examples" / "marked" / "04.log").read_bytes()
FILE = malluvom.judge(LOG).file
Scratch = ctypes.c_uint64 * malluvom.SCRATCH_LEAST

# Arguments that each function accepts.
ACCEPTED = {
    "record": lambda: {"buffer": bytearray(9), "used": 0, "tag": 1, "payload": b"\x02\x03"},
    "read": lambda: {"log": LOG},
    "edition": lambda: {"log": LOG},
    "convert": lambda: {"log": LOG, "out": bytearray(malluvom.CONVERT_LEAST)},
    "replay": lambda: {"log": LOG, "schedule": FILE},
    "judge": lambda: {"log": LOG, "out": bytearray(malluvom.FILE_MOST + 3), "offset": 3, "scratch": Scratch()},
    "version": lambda: {},
}
# The arguments that are read, those that are written into, and those that are numbers.
READ = [(name, "log") for name in ("read", "edition", "convert", "replay", "judge")]
READ += [("record", "payload"), ("replay", "schedule")]
WRITTEN = [("record", "buffer"), ("convert", "out"), ("judge", "out")]
NUMBERS = [("record", "used"), ("record", "tag"), ("judge", "offset")]


def call(name, **changed):
    """What the function gives for its accepted arguments with some changed."""
    return getattr(malluvom, name)(**{**ACCEPTED[name](), **changed})


def caught(name, **changed):
    """The exception that such a call raises, or None."""
    try:
        call(name, **changed)
    except Exception as exception:
        return exception
    return None


def mapped(data):
    area = mmap.mmap(-1, len(data))
    area[:] = data
    return area


# Bytes-like objects that can be written into.
KINDS = [
    bytearray,
    mapped,
    lambda data: memoryview(bytearray(data)),
    lambda data: array.array("B", data),
    lambda data: (ctypes.c_int8 * len(data)).from_buffer_copy(data),
]


class Names(unittest.TestCase):
    def test_all_are_the_public_names(self):
        own = {name for name, value in vars(malluvom).items() if getattr(value, "__module__", "malluvom") == "malluvom"}
        modules = {name for name, value in vars(malluvom).items() if inspect.ismodule(value)}
        self.assertEqual(malluvom.__all__, sorted(name for name in own - modules if not name.startswith("_")))

    def test_the_version_is_that_of_the_workspace(self):
        manifest = (ROOT / "rust" / "Cargo.toml").read_text()
        self.assertEqual([malluvom.__version__], re.findall(r'^version = "(.+)"$', manifest, re.MULTILINE))

    def test_help_has_every_name_and_its_sentence(self):
        text = pydoc.plain(pydoc.render_doc(malluvom))
        for name in malluvom.__all__:
            self.assertIn(name, text)
            value = getattr(malluvom, name)
            if callable(value):
                self.assertTrue(value.__doc__ and value.__doc__.split("\n")[0] in text, name)

    def test_the_library_has_the_requests_that_landed(self):
        landed = {int(note.stem[2:]) for note in (ROOT / "docs" / "landings").glob("W-???.md")}
        self.assertLessEqual(malluvom.version(), landed)
        self.assertLessEqual({201, 202, 203, 204, 205, 206, 211}, malluvom.version())


class Hints(unittest.TestCase):
    public = {name: getattr(malluvom, name) for name in malluvom.__all__}
    functions = {name: value for name, value in public.items() if inspect.isfunction(value)}

    def test_every_parameter_and_result_has_one(self):
        classes = [value for value in self.public.values() if inspect.isclass(value)]
        methods = [value for owner in classes for value in vars(owner).values() if inspect.isfunction(value)]
        own = [method for method in methods if method.__module__ == "malluvom"]
        self.assertEqual(len(own), 4)
        for function in [*self.functions.values(), *own]:
            named = {*inspect.signature(function).parameters, "return"} - {"self"}
            self.assertEqual(set(typing.get_type_hints(function)), named, function)

    def test_results_are_of_the_hinted_types(self):
        self.assertEqual(set(self.functions), set(ACCEPTED))
        for name, function in self.functions.items():
            with self.subTest(name):
                self.assert_of(call(name), typing.get_type_hints(function)["return"])

    def assert_of(self, value, hint):
        self.assertIs(type(value), typing.get_origin(hint) or hint)
        if hasattr(hint, "_fields"):
            for field, inner in typing.get_type_hints(hint).items():
                self.assert_of(getattr(value, field), inner)
        elif typing.get_args(hint):
            self.assertTrue(value)
            for item in value:
                self.assert_of(item, typing.get_args(hint)[0])


# Prints, for both sorts of process pool, what becomes of a refused log and of an accepted one after it.
POOLS = """
import concurrent.futures, multiprocessing, sys, malluvom
context, log = multiprocessing.get_context(sys.argv[1]), bytes.fromhex(sys.argv[2])
with concurrent.futures.ProcessPoolExecutor(1, context) as pool:
    print(repr(pool.submit(malluvom.judge, b"").exception()), pool.submit(malluvom.judge, log).result().allowed)
with context.Pool(1) as pool:
    try:
        pool.apply(malluvom.judge, [b""])
    except malluvom.Refused as refused:
        print(repr(refused), pool.apply(malluvom.judge, [log]).allowed)
"""


class Exceptions(unittest.TestCase):
    def test_the_module_has_one_of_its_own(self):
        classes = {value for value in vars(malluvom).values() if inspect.isclass(value)}
        self.assertEqual({value for value in classes if issubclass(value, BaseException)}, {malluvom.Refused})

    def test_pickle_and_copy(self):
        ways = [copy.copy, copy.deepcopy]
        for protocol in range(pickle.HIGHEST_PROTOCOL + 1):
            ways.append(lambda value, protocol=protocol: pickle.loads(pickle.dumps(value, protocol)))
        raised = [caught("read", log=b""), caught("read", log=5), caught("record", tag=256)]
        self.assertEqual([type(exception) for exception in raised], [malluvom.Refused, TypeError, ValueError])
        for exception in [*raised, *map(malluvom.Refused, malluvom.REFUSALS)]:
            for way in ways:
                other = way(exception)
                self.assertIsNot(other, exception)
                self.assertIs(type(other), type(exception))
                self.assertEqual((str(other), repr(other)), (str(exception), repr(exception)))
                self.assertEqual(vars(other), vars(exception))

    def test_what_a_refusal_says(self):
        refused = caught("read", log=b"")
        self.assertEqual((refused.number, refused.name, str(refused)), (2, "Truncated", "number 2 (Truncated)"))

    def test_process_pools(self):
        for method in "fork", "spawn":
            with subprocess.Popen(
                [sys.executable, "-c", POOLS, method, LOG.hex()],
                cwd=HERE,
                stdout=subprocess.PIPE,
                stderr=subprocess.PIPE,
                text=True,
                start_new_session=True,
            ) as process:
                try:
                    out, errors = process.communicate(timeout=60)
                except subprocess.TimeoutExpired:
                    os.killpg(process.pid, signal.SIGKILL)
                    self.fail(f"a process pool ({method}) hangs on a refused log")
            self.assertEqual(out, "Refused(2) True\n" * 2, errors)


class Arguments(unittest.TestCase):
    def assert_raises(self, kind, sentence, name, **changed):
        exception = caught(name, **changed)
        self.assertEqual((type(exception), str(exception)), (kind, sentence), (name, changed))

    def test_what_is_not_bytes_like(self):
        wrong = [0, 5, True, 1.5, "0102", [1, 2], (1, 2), {1}, range(2), Path("a.log"), object()]
        for name, argument in READ + WRITTEN:
            optional = argument == "out"
            for value in wrong if optional else [*wrong, None]:
                sentence = f"{argument} must be bytes-like, not {type(value).__name__}"
                self.assert_raises(TypeError, sentence, name, **{argument: value})
            sentence = f"{argument} must have items of 1 byte, not of 2"
            self.assert_raises(TypeError, sentence, name, **{argument: array.array("H", [1])})

    def test_what_is_read(self):
        for name, argument in READ:
            data = ACCEPTED[name]()[argument]
            twice = bytes(byte for byte in data for _ in range(2))
            for value in [kind(data) for kind in KINDS] + [memoryview(data), memoryview(twice)[::2]]:
                self.assertEqual(call(name, **{argument: value}), call(name), (name, value))

    def test_what_is_written_into(self):
        for name, argument in WRITTEN:
            length = len(ACCEPTED[name]()[argument])
            areas = [kind(b"\x07" * length) for kind in KINDS]
            for area in areas:
                self.assertEqual(call(name, **{argument: area}), call(name), (name, area))
                self.assertEqual(bytes(memoryview(area)), areas[0], (name, area))
            self.assertNotEqual(areas[0], b"\x07" * length)
            for value in bytes(length), memoryview(bytes(length)), memoryview(areas[0]).toreadonly():
                sentence = f"{argument} must be writable, such as a bytearray, not {type(value).__name__}"
                self.assert_raises(TypeError, sentence, name, **{argument: value})
            sparse = memoryview(bytearray(2 * length))[::2]
            self.assert_raises(TypeError, f"{argument} must be contiguous", name, **{argument: sparse})

    def test_numbers(self):
        class One:
            def __index__(self):
                return 1

        for name, argument in NUMBERS:
            most = 255 if argument == "tag" else 2**64 - 1
            for value in 1.0, "1", b"1", None, [1]:
                sentence = f"{argument} must be an int, not {type(value).__name__}"
                self.assert_raises(TypeError, sentence, name, **{argument: value})
            for value in -1, most + 1:
                sentence = f"{argument} must be 0 to {most}, not {value}"
                self.assert_raises(ValueError, sentence, name, **{argument: value})
            # As for Python's own functions, True is the int 1.
            for value in True, One():
                self.assertEqual(str(caught(name, **{argument: value})), str(caught(name, **{argument: 1})))

    def test_an_offset_is_one_in_a_lent_output(self):
        self.assert_raises(ValueError, "offset is a place in out, and no out is lent", "judge", out=None)
        self.assertEqual(call("judge", out=None, offset=0), call("judge"))

    def test_scratch(self):
        for value in 5, bytearray(8), array.array("Q", [0]), (ctypes.c_int64 * malluvom.SCRATCH_LEAST)():
            sentence = f"scratch must be a ctypes array of c_uint64, not {type(value).__name__}"
            self.assert_raises(TypeError, sentence, "judge", scratch=value)

    def test_output_and_scratch_share_no_memory(self):
        most, size = malluvom.FILE_MOST, ctypes.sizeof(Scratch)
        whole = memoryview(bytearray(most + size + most))
        scratch = Scratch.from_buffer(whole, most)
        for out in whole[:most], whole[most + size :]:
            self.assertEqual(call("judge", out=out, offset=0, scratch=scratch), call("judge"))
        for out in whole, whole[: most + 1], whole[most + size - 1 :], whole[most : most + size]:
            self.assert_raises(ValueError, "out and scratch must not overlap", "judge", out=out, scratch=scratch)


class Locks(unittest.TestCase):
    """After a call no buffer is locked: it can be resized, also as long as the exception is kept."""

    def assert_free(self, kind, name, argument, buffer=None, **changed):
        buffer = bytearray(ACCEPTED[name]()[argument]) if buffer is None else buffer
        exception = caught(name, **{argument: buffer}, **changed)
        self.assertIs(type(exception), kind, (name, changed))
        buffer.append(0)

    def test_after_success(self):
        for name, argument in READ + WRITTEN:
            self.assert_free(type(None), name, argument)

    def test_after_a_refusal(self):
        for name, argument in READ:
            self.assert_free(malluvom.Refused, name, argument, bytearray(1))
        self.assert_free(malluvom.Refused, "record", "buffer", tag=9)
        for name in "convert", "judge":
            self.assert_free(malluvom.Refused, name, "out", log=b"")

    def test_after_an_error(self):
        for name, argument in READ + WRITTEN:
            self.assert_free(TypeError, name, argument, array.array("H", [1]))
        for changed in {"tag": "1"}, {"payload": 5}:
            self.assert_free(TypeError, "record", "buffer", **changed)
        for changed in {"log": 5}, {"offset": "1"}, {"scratch": 5}:
            self.assert_free(TypeError, "judge", "out", **changed)
        self.assert_free(TypeError, "judge", "log", out=bytes(malluvom.FILE_MOST))
        self.assert_free(ValueError, "record", "buffer", used=-1)
        self.assert_free(ValueError, "judge", "out", offset=-1)


class Conditions(unittest.TestCase):
    def test_a_verdict_is_true_if_allowed(self):
        impossible = (ROOT / "examples" / "marked" / "09.log").read_bytes()
        self.assertEqual([bool(malluvom.judge(log)) for log in (LOG, impossible)], [True, False])

    def test_a_replay_is_true_if_yes(self):
        without_steps = bytes.fromhex("1002000100 040000")
        self.assertEqual([bool(malluvom.replay(LOG, file)) for file in (FILE, without_steps)], [True, False])


if __name__ == "__main__":
    unittest.main()
