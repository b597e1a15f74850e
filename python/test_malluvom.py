"""Tests of what the calls answer. After python/build.sh, `python3 -m unittest discover -s python` runs all tests."""

import ctypes
import doctest
import unittest
from pathlib import Path

import malluvom

EXAMPLES = Path(__file__).resolve().parent.parent / "examples"


def answer(log: bytes) -> str:
    """The verdict program's first line."""
    try:
        verdict = malluvom.judge(log)
    except malluvom.Refused as refused:
        return f"number {refused.number}"
    return f"allowed {len(verdict.steps)}" if verdict.allowed else f"impossible {verdict.event}"


def ended(buffer: bytearray, used: int, event: bytes) -> bytes:
    """The log of the used bytes, one more event and the end."""
    log = bytearray(buffer)
    used = malluvom.record(log, used, 3, event)
    return bytes(log[: malluvom.record(log, used, 4, b"")])


class Examples(unittest.TestCase):
    def test_verdicts_are_the_stored_ones(self):
        logs = sorted(EXAMPLES.glob("*/*.log"))
        self.assertGreater(len(logs), 14)
        for log in logs:
            out = log.with_suffix(".out")
            if out.exists():
                self.assertEqual(answer(log.read_bytes()), out.read_text().splitlines()[0], log)

    def test_allowed_logs_replay(self):
        for path in sorted(EXAMPLES.glob("*/*.log")):
            log = path.read_bytes()
            if answer(log).startswith("allowed"):
                file = malluvom.judge(log).file
                self.assertEqual(malluvom.replay(log, file), malluvom.Replayed(True, 0), path)

    def test_verdicts_are_the_same_in_both_editions(self):
        converted = 0
        for path in sorted(EXAMPLES.glob("*/*.log")):
            log = path.read_bytes()
            try:
                other = malluvom.convert(log)
            except malluvom.Refused as refused:
                too_large = refused.number == 17 and malluvom.edition(log) == 2
                self.assertTrue(too_large or answer(log) == f"number {refused.number}", path)
                continue
            converted += 1
            self.assertEqual({malluvom.edition(log), malluvom.edition(other)}, {1, 2}, path)
            self.assertEqual(malluvom.convert(other), log, path)
            self.assertEqual(malluvom.judge(other), malluvom.judge(log), path)
        self.assertGreater(converted, 14)


class Calls(unittest.TestCase):
    log = (EXAMPLES / "marked" / "08.log").read_bytes()

    def refused(self, number, call, *arguments):
        with self.assertRaises(malluvom.Refused) as raised:
            call(*arguments)
        self.assertEqual(raised.exception.number, number)

    def test_read(self):
        self.assertEqual(malluvom.read(self.log), malluvom.Counts(machines=3, locations=2, events=6))
        self.refused(2, malluvom.read, b"")
        self.refused(12, malluvom.read, self.log + b"\0")

    def test_record(self):
        buffer = bytearray(b"\xaa" * 9)
        self.assertEqual(malluvom.record(buffer, 0, 1, b"\x02\x03"), 5)
        self.refused(6, malluvom.record, buffer, 5, 2, b"\x03")
        self.refused(1, malluvom.record, buffer, 5, 3, b"\x07\x01\0\0\0")
        self.refused(1, malluvom.record, buffer, 10, 4, b"")
        self.assertEqual(malluvom.record(buffer, 5, 4, b""), 8)
        self.assertEqual(buffer, b"\x01\x02\x00\x02\x03\x04\x00\x00\xaa")
        self.refused(1, malluvom.record, bytearray(), 1, 4, b"")
        with self.assertRaises(ValueError):
            malluvom.record(buffer, -1, 4, b"")
        with self.assertRaises(ValueError):
            malluvom.record(buffer, 0, 257, b"")

    def test_read_modify_write(self):
        buffer = bytearray(malluvom.LOG_MOST)
        used = malluvom.record(buffer, 0, 1, b"\x02\x03")
        used = malluvom.record(buffer, used, 2, b"\x02")
        self.refused(8, malluvom.record, buffer, used, 3, b"\x08\x01\0\0\0")
        self.refused(8, malluvom.record, buffer, used, 5, b"\x07\x01\0\0\0\0\0")
        self.refused(4, malluvom.record, buffer, used, 5, b"\x08\x01\0\0\0")
        # L-RMW by 1 of L0, 0 to 5; Load by 2 of L0, 5 or 6.
        stored = malluvom.record(buffer, used, 5, b"\x08\x01\0\0\0\x05\0")
        self.assertEqual(stored, used + 10)
        for value, expected in (b"\x05", "allowed 0"), (b"\x06", "impossible 2"):
            self.assertEqual(answer(ended(buffer, stored, b"\x04\x02\0" + value + b"\0")), expected)

    def test_set_crash(self):
        buffer = bytearray(malluvom.LOG_MOST)
        # Two machines, of which 2 is persistent; L0 is 1's. LStore by 2 to L0 of 5.
        used = malluvom.record(buffer, 0, 1, b"\x02\x02")
        used = malluvom.record(buffer, used, 2, b"\x01")
        used = malluvom.record(buffer, used, 3, b"\x01\x02\0\x05\0")
        for number, payload in (
            (11, b"\x0b\x01\0\0\0"),
            (15, b"\x0b\0\0\x01\0"),
            (15, b"\x0b\0\x02\0\0"),
            (15, b"\x0b\0\x07\0\0"),
            (11, b"\x0b\0\x03\0\x01"),
            (8, b"\x0c\0\x03\0\0"),
        ):
            self.refused(number, malluvom.record, buffer, used, 3, payload)
        self.refused(8, malluvom.record, buffer, used, 5, b"\x0b\0\x03\0\0\0\0")
        # Between two crashes the copy may move to machine 1; in one step of both it is lost. Then Load by 2 of L0, 5.
        for crashes, expected in (
            ((b"\x07\x01\0\0\0", b"\x07\x02\0\0\0"), "allowed 1"),
            ((b"\x0b\0\x03\0\0",), "impossible 3"),
        ):
            end = used
            for payload in crashes:
                end = malluvom.record(buffer, end, 3, payload)
            self.assertEqual(answer(ended(buffer, end, b"\x04\x02\0\x05\0")), expected)

    def test_initial_value(self):
        buffer = bytearray(malluvom.LOG_MOST)
        # Two machines, of which 1 is persistent.
        used = malluvom.record(buffer, 0, 1, b"\x02\x01")
        for number, payload in (
            (14, b"\x02\0\0"),
            (6, b"\x03\0\0"),
            (6, b"\0\x07\0"),
            (4, b""),
            (4, b"\x02\x07\0\x02\0"),
        ):
            self.refused(number, malluvom.record, buffer, used, 2, payload)
        # L0 is 2's and starts as 256; MStore by 1 to L0 of 5, and 2 crashes.
        used = malluvom.record(buffer, used, 2, b"\x02\0\x01")
        self.assertEqual(bytes(buffer[5:used]), b"\x02\x03\0\x02\0\x01")
        stored = malluvom.record(buffer, used, 3, b"\x03\x01\0\x05\0")
        crashed = malluvom.record(buffer, stored, 3, b"\x07\x02\0\0\0")
        for before, value, expected in (
            (used, 256, "allowed 0"),
            (used, 0, "impossible 1"),
            (used, 1, "impossible 1"),
            (stored, 256, "impossible 2"),
            (crashed, 256, "allowed 0"),
            (crashed, 0, "impossible 3"),
            (crashed, 5, "impossible 3"),
        ):
            log = ended(buffer, before, b"\x04\x01\0" + value.to_bytes(2, "little"))
            self.assertEqual(answer(log), expected)

    def test_kind(self):
        buffer = bytearray(malluvom.LOG_MOST)
        # Two machines, of which 1 is persistent.
        head = malluvom.record(buffer, 0, 1, b"\x02\x01")
        for owner, other in (1, 1), (2, 2):
            for kind in set(range(256)) - {other}:
                for initial in b"", b"\x07\0":
                    self.refused(16, malluvom.record, buffer, head, 2, bytes([owner]) + initial + bytes([kind]))
        for number, payload in (
            (14, b"\x01\0\0\x01"),
            (14, b"\x02\0\0\0"),
            (6, b"\x03\0\0\0"),
            (6, b"\0\x01"),
        ):
            self.refused(number, malluvom.record, buffer, head, 2, payload)
        # L0 and L1 are 1's, L2 and L3 are 2's; L1 and L2 are in the other kind of memory, and L1 starts as 256.
        used = head
        for payload in b"\x01", b"\x01\0\x01\x01", b"\x02\x02", b"\x02":
            used = malluvom.record(buffer, used, 2, payload)
        self.assertEqual(bytes(buffer[5:used]), bytes.fromhex("02010001 02040001000101 0202000202 02010002"))
        for location in range(4):
            used = malluvom.record(buffer, used, 3, bytes([3, 1, location, 5, 0]))
        for crash, lost in (b"\x07\x01\0\0\0", (1,)), (b"\x07\x02\0\0\0", (3,)), (b"\x0b\0\x03\0\0", (1, 3)):
            crashed = malluvom.record(buffer, used, 3, crash)
            for location, initial in enumerate((0, 256, 0, 0)):
                for value in 5, initial:
                    log = ended(buffer, crashed, bytes([4, 1, location]) + value.to_bytes(2, "little"))
                    possible = (value == initial) == (location in lost)
                    self.assertEqual(answer(log), "allowed 0" if possible else "impossible 6")

    def test_the_longest_log(self):
        log = bytes.fromhex("0102000600") + bytes.fromhex("02040006010002") * 32
        log += bytes.fromhex("0507000901000000 0000") * 128 + bytes.fromhex("040000")
        wide = malluvom.convert(log)
        self.assertEqual((len(log), len(wide)), (1512, malluvom.LOG_MOST))
        for longest in log, wide:
            self.assertEqual(malluvom.read(longest), malluvom.Counts(machines=6, locations=32, events=128))

    def test_edition_2(self):
        buffer = bytearray(malluvom.LOG_MOST)
        # One persistent machine; L0 is its own and starts as 65536. MStore by 1 to L0 of 4294967295.
        head = malluvom.record(buffer, 0, 6, b"\x01\x01")
        for number, payload in (4, b"\x01\0\0"), (14, b"\x01\0\0\0\0"), (16, b"\x01\0\0\x01\0\x02"):
            self.refused(number, malluvom.record, buffer, head, 2, payload)
        used = malluvom.record(buffer, head, 2, b"\x01\0\0\x01\0")
        for tag in malluvom.EDITIONS:
            self.refused(3, malluvom.record, buffer, used, tag, b"\x01\x01")
        self.refused(4, malluvom.record, buffer, used, 3, b"\x03\x01\0\x01\0")
        self.refused(4, malluvom.record, buffer, used, 5, b"\x08\x01\0\0\0\0\0")
        stored = malluvom.record(buffer, used, 3, b"\x03\x01\0\xff\xff\xff\xff")
        for before, value, expected in (
            (used, 65536, "allowed 0"),
            (used, 0, "impossible 1"),
            (stored, 4294967295, "allowed 0"),
            (stored, 65535, "impossible 2"),
        ):
            log = ended(buffer, before, b"\x04\x01\0" + value.to_bytes(4, "little"))
            self.assertEqual((malluvom.edition(log), answer(log)), (2, expected))
            self.refused(17, malluvom.convert, log)

    def test_convert_with_a_lent_buffer(self):
        out = bytearray(b"\x07" * malluvom.CONVERT_LEAST)
        self.refused(1, malluvom.convert, b"", out[1:])
        self.refused(2, malluvom.convert, b"", out)
        self.refused(12, malluvom.convert, self.log + b"\0", out)
        self.refused(17, malluvom.convert, bytes.fromhex("0602000101 0205000100000100 040000"), out)
        self.assertEqual(out, b"\x07" * malluvom.CONVERT_LEAST)
        wide = malluvom.convert(self.log, out)
        self.assertEqual(out, wide + b"\x07" * (malluvom.CONVERT_LEAST - len(wide)))
        self.assertEqual((malluvom.edition(self.log), malluvom.edition(wide)), (1, 2))
        self.refused(2, malluvom.edition, b"")

    def test_replay(self):
        self.assertEqual(malluvom.replay(self.log, bytes.fromhex("1002000100 1103000000 00 040000")), (False, 0))
        self.refused(13, malluvom.replay, self.log, b"")
        self.refused(2, malluvom.replay, b"", b"")

    def test_judge_with_lent_buffers(self):
        out = bytearray(b"\x07" * (malluvom.FILE_MOST + 3))
        scratch = (ctypes.c_uint64 * malluvom.SCRATCH_LEAST)(*range(malluvom.SCRATCH_LEAST))
        self.refused(1, malluvom.judge, self.log, out, 4, scratch)
        self.refused(2, malluvom.judge, b"", out, 3, scratch)
        self.assertEqual(scratch[7], 7)
        impossible = (EXAMPLES / "marked" / "09.log").read_bytes()
        verdict = malluvom.judge(impossible, out, 3, scratch)
        self.assertEqual((verdict.allowed, verdict.event, verdict.steps), (False, 6, ()))
        self.assertEqual(out[:12], bytes.fromhex("070707 1002000006 040000 07"))
        self.assertFalse(any(scratch))

    def test_names(self):
        names = {1: "BufferTooShort", 13: "BadSchedule", 14: "BadInitialValue"}
        names |= {15: "BadMachineSet", 16: "BadKind", 17: "ValueTooLarge"}
        self.assertEqual({number: malluvom.Refused(number).name for number in names}, names)
        self.assertEqual(sorted(malluvom.REFUSALS), list(range(1, 18)))


def load_tests(loader, tests, pattern):
    tests.addTests(doctest.DocTestSuite(malluvom))
    return tests


if __name__ == "__main__":
    unittest.main()
