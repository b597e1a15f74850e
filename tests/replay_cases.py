#!/usr/bin/env python3
"""`cases` prints the cases of replay in crates/cases/stdin. `answers` reads those lines and prints what the program
must print, by a schedule reader and a replay of the whole system of its own, written from document 01 and requests
W-201 to W-203, W-206 and W-211 alone."""
import sys

from format_reference import Refused, asked, members, whole
from log_bytes import END, PERSISTENT, VOLATILE, encode, event, field, head, log, row

# ---- replay


class System:
    """Caches and memories; each event and each step says whether it is possible, and then changes the state."""

    def __init__(self, machines, owners, kept, initial):
        self.owners = owners
        self.kept = kept  # whether each location's memory is persistent
        self.initial = initial
        self.caches = {i: {} for i in range(1, machines + 1)}
        self.memory = list(initial)

    def copies(self, x):
        return [cache[x] for cache in self.caches.values() if x in cache]

    def lose(self, x):
        for cache in self.caches.values():
            cache.pop(x, None)

    def event(self, operation, i, x, v, *written):
        if operation in (8, 9, 10):
            return self.event(4, i, x, v) and self.event(operation - 7, i, x, *written)
        if operation in (1, 2):
            self.lose(x)
            self.caches[i if operation == 1 else self.owners[x]][x] = v
        elif operation == 3:
            self.lose(x)
            self.memory[x] = v
        elif operation == 4:
            if not self.copies(x):
                return self.memory[x] == v
            if any(copy != v for copy in self.copies(x)):
                return False
            self.caches[i][x] = v
        elif operation == 5:
            return x not in self.caches[i]
        elif operation == 6:
            return not self.copies(x)
        else:
            for down in members(x) if operation == 11 else [i]:
                self.caches[down] = {}
                homes = zip(self.owners, self.kept, self.initial, self.memory)
                self.memory = [m if kept or k != down else v for k, kept, v, m in homes]
        return True

    def step(self, x, i):
        owner = self.owners[x]
        source = owner if i == 0 else i
        if x not in self.caches[source]:
            return False
        v = self.caches[source].pop(x)
        if i == 0:
            self.lose(x)
            self.memory[x] = v
        else:
            self.caches[owner][x] = v
        return True


def schedule(data, records):
    """The steps of a verdict file that says allowed and fits the log."""
    asked(data[:5] == bytes([0x10, 2, 0, 1, 0]), 13)
    steps, at = [], 5
    while data[at:at + 3] == bytes([0x11, 3, 0]) and len(data) >= at + 6:
        steps.append(tuple(data[at + 3:at + 6]))
        at += 6
    asked(data[at:] == bytes([0x04, 0, 0]), 13)
    asked(len(steps) <= 256, 13)
    least = 0
    for before, location, machine in steps:
        asked(least <= before <= len(records.events), 13)
        asked(location < len(records.owners), 13)
        asked(machine <= records.machines and machine != records.owners[location], 13)
        least = before
    return steps


def replay(log, file):
    try:
        records = whole(log)
        steps = schedule(file, records)
    except Refused as why:
        return f"number {why}"
    system = System(records.machines, records.owners, records.kept, records.initial)
    for passed in range(len(records.events) + 1):
        while steps and steps[0][0] == passed:
            if not system.step(*steps.pop(0)[1:]):
                return f"no {passed}"
        if passed < len(records.events) and not system.event(*records.events[passed]):
            return f"no {passed}"
    return "yes"


def answers():
    for line in sys.stdin.read().split("\n")[:-1]:
        words = line.split(" ")
        print(replay(bytes.fromhex(words[1]), bytes.fromhex(words[2])) if words[0] == "s" else line)


# ---- cases


ALLOWED = field(0x10, 1, 0)


def file(steps):
    return ALLOWED + b"".join(field(0x11, *step) for step in steps) + END


def show(words, the_log, the_file):
    print(f"# {words}")
    print(f"s {the_log.hex()} {the_file.hex()}")


def changed(words, the_log, steps):
    """A schedule, and each of its steps left out, doubled, moved one event later, and with its parts swapped."""
    show(words, the_log, file(steps))
    for n, (before, location, machine) in enumerate(steps, 1):
        head, tail = steps[:n - 1], steps[n:]
        show(f"{words}, step {n} left out", the_log, file(head + tail))
        show(f"{words}, step {n} doubled", the_log, file(head + [steps[n - 1]] * 2 + tail))
        show(f"{words}, step {n} one event later", the_log, file(head + [(before + 1, location, machine)] + tail))
        show(f"{words}, step {n} with machine and location swapped", the_log,
             file(head + [(before, machine, location)] + tail))


L_STORE, R_STORE, M_STORE, LOAD, L_FLUSH, R_FLUSH, CRASH, L_RMW, R_RMW, M_RMW, SET_CRASH = range(1, 12)


def together(*machines):
    """The set crash of these machines."""
    return SET_CRASH, 0, sum(1 << i - 1 for i in machines), 0


def three(homes, *events):
    return log(3, 7, homes, events)


MARKED = {
    1: three([1], (R_STORE, 1, 0, 1), (CRASH, 1, 0, 0), (LOAD, 1, 0, 0)),
    2: three([1], (M_STORE, 1, 0, 1), (CRASH, 1, 0, 0), (LOAD, 1, 0, 0)),
    3: three([1], (L_STORE, 1, 0, 1), (L_FLUSH, 1, 0, 0), (CRASH, 1, 0, 0), (LOAD, 1, 0, 0)),
    4: three([2], (L_STORE, 1, 0, 1), (L_FLUSH, 1, 0, 0), (CRASH, 2, 0, 0), (LOAD, 1, 0, 0)),
    5: three([2], (L_STORE, 1, 0, 1), (R_FLUSH, 1, 0, 0), (CRASH, 2, 0, 0), (LOAD, 1, 0, 0)),
    6: three([3], (L_STORE, 1, 0, 1), (LOAD, 2, 0, 1), (CRASH, 1, 0, 0), (LOAD, 2, 0, 0)),
    7: three([3], (L_STORE, 1, 0, 1), (LOAD, 2, 0, 1), (L_FLUSH, 2, 0, 0), (CRASH, 1, 0, 0), (CRASH, 2, 0, 0),
             (LOAD, 2, 0, 0)),
    8: three([2, 1], (R_STORE, 1, 0, 1), (LOAD, 2, 0, 1), (R_STORE, 2, 1, 1), (CRASH, 2, 0, 0), (LOAD, 1, 1, 1),
             (LOAD, 1, 0, 0)),
    9: three([2, 1], (M_STORE, 1, 0, 1), (LOAD, 2, 0, 1), (R_STORE, 2, 1, 1), (CRASH, 2, 0, 0), (LOAD, 1, 1, 1),
             (LOAD, 1, 0, 0)),
    10: three([1]),
    11: three([1], (LOAD, 1, 0, 1)),
    12: log(3, 0, [2], [(M_STORE, 1, 0, 1), (CRASH, 2, 0, 0), (LOAD, 1, 0, 1)]),
    13: log(3, 0, [2], [(L_STORE, 1, 0, 1), (LOAD, 2, 0, 1), (L_FLUSH, 2, 0, 0), (CRASH, 2, 0, 0), (LOAD, 1, 0, 1)]),
    14: three([2], (L_STORE, 1, 0, 1), (CRASH, 1, 0, 0), (LOAD, 2, 0, 1)),
}


def marked_cases():
    two = log(2, 3, [2], [(L_STORE, 1, 0, 1), (L_FLUSH, 1, 0, 0), (CRASH, 2, 0, 0), (LOAD, 1, 0, 0)])
    changed("case 4 with two machines and its one schedule", two, [(1, 0, 1)])
    show("case 1 without a step", MARKED[1], file([]))
    changed("case 1 with a write-back before the crash", MARKED[1], [(1, 0, 0)])
    changed("case 4", MARKED[4], [(1, 0, 1)])
    show("case 8 without a step", MARKED[8], file([]))
    changed("case 8 with a write-back of L1", MARKED[8], [(3, 1, 0)])
    show("case 10", MARKED[10], file([]))
    changed("case 10 with a write-back", MARKED[10], [(0, 0, 0)])
    changed("case 14", MARKED[14], [(1, 0, 1)])
    changed("case 14 with a write-back after the crash", MARKED[14], [(1, 0, 1), (2, 0, 0)])
    changed("case 14 with a write-back after the last event", MARKED[14], [(1, 0, 1), (3, 0, 0)])
    for n in (2, 3, 5, 6, 7, 9, 11, 12, 13):
        show(f"case {n} without a step", MARKED[n], file([]))
    changed("case 3 with a write-back", MARKED[3], [(1, 0, 0)])
    changed("case 5 with its steps down to memory", MARKED[5], [(1, 0, 1), (1, 0, 0)])
    changed("case 13 with a write-back", MARKED[13], [(2, 0, 0)])


def edge_cases():
    stores = log(2, 3, [2], [(L_STORE, 1, 0, n) for n in range(1, 129)])
    steps = [step for n in range(1, 129) for step in ((n, 0, 1), (n, 0, 0))]
    show("128 LStores with 256 steps", stores, file(steps))
    show("128 LStores with 257 steps: 13", stores, file(steps + [(128, 0, 0)]))
    show("128 LStores, the last write-back before its propagation", stores, file(steps[:-2] + steps[:-3:-1]))
    owners = [(k + 4) % 6 + 1 for k in range(32)]
    events = [(L_STORE, 5, 31, 65535), (LOAD, 6, 31, 65535), (L_FLUSH, 5, 31, 0), (R_FLUSH, 2, 31, 0), (CRASH, 6, 0, 0),
              (LOAD, 1, 31, 65535), (L_STORE, 6, 30, 256), (L_FLUSH, 6, 30, 0)]
    changed("6 machines, 32 locations and values of 16 bits", log(6, 0x3d, owners, events),
            [(2, 31, 5), (3, 31, 0), (7, 30, 6)])


def rmw_cases():
    crash_of_3 = (CRASH, 3, 0, 0)
    for form, letter in ((L_RMW, "L"), (R_RMW, "R"), (M_RMW, "M")):
        again = three([3], (form, 1, 0, 0, 1), crash_of_3, (form, 2, 0, 0, 1))
        show(f"{letter}-RMW, crash of the owner, the same again without a step", again, file([]))
        show(f"{letter}-RMW, of a value that is not there", three([3], (form, 1, 0, 1, 1)), file([]))
        copies = [(L_STORE, 1, 0, 5), (LOAD, 2, 0, 5), (form, 2, 0, 5, 65535), (L_FLUSH, 1, 0, 0)]
        show(f"{letter}-RMW, of a value with two copies", three([3], *copies, (LOAD, 1, 0, 65535)), file([]))
        show(f"{letter}-RMW, then an RFlush without a step", three([3], *copies, (R_FLUSH, 1, 0, 0)), file([]))
        show(f"{letter}-RMW, then a load of the value read", three([3], *copies, (LOAD, 1, 0, 5)), file([]))
    lost = three([3], (L_RMW, 1, 0, 0, 1), crash_of_3, (L_RMW, 2, 0, 0, 1))
    changed("L-RMW, whose copy moves before the owner's crash", lost, [(1, 0, 1)])
    kept = three([3], (R_RMW, 1, 0, 0, 1), crash_of_3, (M_RMW, 2, 0, 1, 2))
    changed("R-RMW, written back before the owner's crash", kept, [(1, 0, 0)])
    turns = three([3], (L_RMW, 1, 0, 0, 1), (L_RMW, 2, 0, 1, 2), (CRASH, 2, 0, 0), (LOAD, 1, 0, 1))
    changed("two L-RMWs, the first in memory", turns, [(1, 0, 1), (1, 0, 0)])
    every = log(2, 3, [2], [(L_RMW, 1, 0, n, n + 1) for n in range(64)])
    steps = [step for n in range(1, 65) for step in ((n, 0, 1), (n, 0, 0))]
    show("64 L-RMWs with 128 steps, twice as many", every, file(steps))


def set_crash_cases():
    store, load, crashes = (L_STORE, 2, 0, 5), (LOAD, 2, 0, 5), [(CRASH, i, 0, 0) for i in (1, 2, 3)]
    show("two crashes, a move between", log(2, 2, [1], [store, *crashes[:2], load]), file([(2, 0, 2)]))
    request = log(2, 2, [1], [store, together(1, 2), load])
    for words, steps in (("no step", []), ("the move that was between the single crashes", [(2, 0, 2)]),
                         ("that move before the set crash", [(1, 0, 2)]),
                         ("a move and a write-back before it", [(1, 0, 2), (1, 0, 0)])):
        show(f"the crashes in one step, {words}", request, file(steps))
    for words, down, step in (("three crashes, a move between the last two", crashes, (3, 0, 3)),
                              ("the first two in one step, the same move", [together(1, 2), crashes[2]], (2, 0, 3)),
                              ("all in one step, the same move", [together(1, 2, 3)], (2, 0, 3))):
        show(words, log(3, 0, [1], [(L_STORE, 3, 0, 5), *down, load]), file([step]))
    changed("a persistent owner in the set", log(2, 1, [1], [store, together(1, 2), load]), [(1, 0, 2), (1, 0, 0)])
    copies = [(L_STORE, 1, 0, 5), (LOAD, 2, 0, 5)]
    lost = [together(1, 2), (L_FLUSH, 1, 0, 0), (L_FLUSH, 2, 0, 0)]
    flushed = three([1], *copies, (LOAD, 3, 0, 5), *lost, (L_FLUSH, 3, 0, 0))
    show("a copy outside the set stays", three([1], *copies, (LOAD, 3, 0, 5), *lost, load), file([]))
    show("a copy outside the set stays, so that it is not flushed", flushed, file([]))
    show("a copy outside the set stays, and moves after it", flushed, file([(6, 0, 3)]))
    show("no copy of the set stays", three([1], *copies, *lost, (R_FLUSH, 3, 0, 0), (LOAD, 3, 0, 0)), file([]))
    mixed = [(M_STORE, 1, x, x + 1) for x in range(3)] + [together(1, 2)]
    for values in ((0, 2, 3), (1, 2, 3), (0, 0, 3), (0, 2, 0)):
        show(f"volatile 1 and persistent 2 in the set, volatile 3 outside, loads of {values}",
             log(3, 2, [1, 2, 3], mixed + [(LOAD, 3, x, v) for x, v in enumerate(values)]), file([]))
    show("two set crashes alone", log(6, 0, [], [together(1, 6), together(2, 3, 4, 5)]), file([]))
    again = [(L_RMW, 1, 0, 0, 1), together(1, 3), (M_RMW, 2, 0, 0, 1), together(1, 2, 3), (R_RMW, 1, 0, 1, 2)]
    show("RMWs between set crashes, persistent memory", three([3], *again), file([]))
    show("RMWs between set crashes, volatile memory", log(3, 0, [3], again), file([]))


def initial_value_cases():
    filled, crash_of_2 = [(2, 7)], (CRASH, 2, 0, 0)
    for initial, values in ((7, (7, 0)), (0x0102, (0x0102, 0x0201, 2)), (255, (255, 65280)), (256, (256, 1)),
                            (65535, (65535, 0))):
        for value in values:
            read = three([(2, initial)], (LOAD, 1, 0, value))
            show(f"initial value {initial}, a load of {value} first", read, file([]))
    for kept, memory in ((0, "volatile"), (7, "persistent")):
        for value in (7, 0, 5):
            stored = [(M_STORE, 1, 0, 5), crash_of_2, (LOAD, 1, 0, value)]
            show(f"initial value 7, MStore of 5, crash of the {memory} owner, a load of {value}",
                 log(3, kept, filled, stored), file([]))
        for value in (7, 5):
            stored = [(M_STORE, 1, 0, 5), (CRASH, 3, 0, 0), (LOAD, 1, 0, value)]
            show(f"initial value 7, MStore of 5, crash of another than the {memory} owner, a load of {value}",
                 log(3, kept, filled, stored), file([]))
        show(f"initial value 7, crash of the {memory} owner first",
             log(3, kept, filled, [crash_of_2, (LOAD, 1, 0, 7)]), file([]))
        show(f"initial value 7, crash of the {memory} owner first, a load of 0",
             log(3, kept, filled, [crash_of_2, (LOAD, 1, 0, 0)]), file([]))
    read = three(filled, (LOAD, 1, 0, 7), (L_FLUSH, 1, 0, 0), (R_FLUSH, 3, 0, 0), (LOAD, 2, 0, 7))
    show("a load of the initial value leaves no copy", read, file([]))
    show("no copy of the initial value is there to move", read, file([(1, 0, 1)]))
    show("no copy of the initial value is there to write back", read, file([(0, 0, 0)]))
    lost = [(L_STORE, 1, 0, 5), (L_FLUSH, 1, 0, 0), crash_of_2, (LOAD, 1, 0, 7)]
    changed("a copy lost before its write-back over an initial value", three(filled, *lost), [(1, 0, 1)])
    changed("a copy lost with its volatile owner, the initial value again", log(3, 0, filled, lost), [(1, 0, 1)])
    kept = [(L_STORE, 1, 0, 5), (R_FLUSH, 1, 0, 0), crash_of_2, (LOAD, 3, 0, 5)]
    changed("a write-back over an initial value", three(filled, *kept), [(1, 0, 1), (1, 0, 0)])
    for value in (7, 5):
        gone = log(3, 0, filled, kept[:3] + [(LOAD, 3, 0, value)])
        show(f"a write-back lost with its volatile owner, a load of {value}", gone, file([(1, 0, 1), (1, 0, 0)]))
    later = log(3, 0, filled, [(L_STORE, 1, 0, 5), crash_of_2, (R_FLUSH, 3, 0, 0), (LOAD, 3, 0, 5)])
    changed("a write-back over an initial value that is there again", later, [(2, 0, 1), (2, 0, 0)])
    same = log(3, 0, filled, [(L_STORE, 1, 0, 7), (R_FLUSH, 3, 0, 0), (L_STORE, 3, 0, 0), crash_of_2, (LOAD, 2, 0, 7)])
    for words, steps in (("moved before the crash", [(3, 0, 3)]), ("not moved", [])):
        show(f"the initial value stored, and then 0, {words}", same, file([(1, 0, 1), (1, 0, 0), *steps]))
    down = [(M_STORE, 3, x, 5) for x in (0, 1)] + [together(1, 2)]
    for words, homes in (("L0 of 1 initially 7, L1 of 2 initially 9", [(1, 7), (2, 9)]),
                         ("L0 of 1 initially 7, L1 of 1 initially 9", [(1, 7), (1, 9)]),
                         ("L0 of 1 initially 7, L1 of 2", [(1, 7), 2])):
        for values in ((7, 9), (9, 7), (7, 0), (0, 0)):
            show(f"{words}, MStores of 5, crash of 1 and 2 in one step, loads of {values}",
                 log(3, 0, homes, down + [(LOAD, 3, x, v) for x, v in enumerate(values)]), file([]))
    mixed = [(M_STORE, 1, x, x + 1) for x in range(3)] + [together(1, 2)]
    for values in ((7, 2, 3), (1, 2, 3), (7, 8, 3), (7, 2, 9), (0, 2, 3)):
        show(f"initially 7, 8 and 9, volatile 1 and persistent 2 in the set, volatile 3 outside, loads of {values}",
             log(3, 2, [(1, 7), (2, 8), (3, 9)], mixed + [(LOAD, 3, x, v) for x, v in enumerate(values)]), file([]))
    for form, letter in ((L_RMW, "L"), (R_RMW, "R"), (M_RMW, "M")):
        show(f"{letter}-RMW of the initial value", three(filled, (form, 1, 0, 7, 8), (LOAD, 3, 0, 8)), file([]))
        show(f"{letter}-RMW of 0 in place of the initial value", three(filled, (form, 1, 0, 0, 8)), file([]))
        again = [(form, 1, 0, 7, 8), together(1, 2), (form, 3, 0, 7, 9)]
        for kept, memory in ((0, "volatile"), (7, "persistent")):
            show(f"{letter}-RMW of the initial value, set crash with the {memory} owner, again of the initial value",
                 log(3, kept, filled, again), file([]))
    every = log(6, 0, [(x % 6 + 1, 0x0102 * x + 1) for x in range(32)],
                [together(*range(1, 7))] + [(LOAD, 1, x, 0x0102 * x + 1) for x in range(32)])
    show("32 initial values, each read after a set crash", every, file([]))


def kind_cases():
    crash_of_2 = (CRASH, 2, 0, 0)
    for kept, owner, other, kind, left in ((7, "persistent", "volatile", VOLATILE, 7),
                                           (0, "volatile", "persistent", PERSISTENT, 5)):
        part, filled = [(2, 0, kind)], [(2, 7, kind)]
        words = f"{other} memory of a {owner} owner"
        for value in (5, 0):
            for down, crash in (("its owner", crash_of_2), ("another", (CRASH, 3, 0, 0)),
                                ("a set with its owner", together(2, 3)), ("a set without its owner", together(1, 3))):
                show(f"{words}, MStore of 5, crash of {down}, a load of {value}",
                     log(3, kept, part, [(M_STORE, 1, 0, 5), crash, (LOAD, 1, 0, value)]), file([]))
        for value in (7, 5, 0):
            for down, crash in (("its owner", crash_of_2), ("a set with its owner", together(1, 2))):
                show(f"{words}, initially 7, MStore of 5, crash of {down}, a load of {value}",
                     log(3, kept, filled, [(M_STORE, 1, 0, 5), crash, (LOAD, 3, 0, value)]), file([]))
        for value in (7, 0):
            show(f"{words}, initially 7, crash of its owner first, a load of {value}",
                 log(3, kept, filled, [crash_of_2, (LOAD, 1, 0, value)]), file([]))
        both = [(M_STORE, 1, 0, 5), (M_STORE, 1, 1, 6), crash_of_2]
        for values in ((5, 6), (5, 0), (0, 6), (0, 0)):
            loads = [(LOAD, 3, x, v) for x, v in enumerate(values)]
            show(f"a {owner} owner, L0 of its kind and L1 {other}, loads of {values} after its crash",
                 log(3, kept, [2, *part], both + loads), file([]))
            show(f"a {owner} owner, L0 {other} and L1 of its kind, loads of {values} after its crash",
                 log(3, kept, [*part, 2], both + loads), file([]))
        for values in ((7, 6), (5, 9), (7, 9), (9, 7), (5, 6), (0, 0)):
            loads = [(LOAD, 3, x, v) for x, v in enumerate(values)]
            show(f"a {owner} owner, L0 initially 7 and {other}, L1 initially 9, loads of {values} after a set crash",
                 log(3, kept, [*filled, (2, 9)], both[:2] + [together(1, 2)] + loads), file([]))
        flushed = [(L_STORE, 1, 0, 5), (L_FLUSH, 1, 0, 0), crash_of_2]
        changed(f"{words}, a copy lost with its owner's cache",
                log(3, kept, filled, flushed + [(LOAD, 1, 0, 7)]), [(1, 0, 1)])
        for value in (5, 7):
            show(f"{words}, a copy written back before its owner's crash, a load of {value}",
                 log(3, kept, filled, flushed + [(LOAD, 1, 0, value)]), file([(1, 0, 1), (1, 0, 0)]))
            show(f"{words}, RStore, written back before its owner's crash, a load of {value}",
                 log(3, kept, filled, [(R_STORE, 1, 0, 5), crash_of_2, (LOAD, 3, 0, value)]), file([(1, 0, 0)]))
        later = [(L_STORE, 1, 0, 5), crash_of_2, (R_FLUSH, 3, 0, 0), crash_of_2, (LOAD, 3, 0, left)]
        changed(f"{words}, a copy that outlives a crash, written back before the next",
                log(3, kept, filled, later), [(2, 0, 1), (2, 0, 0)])
        for form, letter in ((L_RMW, "L"), (R_RMW, "R"), (M_RMW, "M")):
            for read in (0, 1):
                show(f"{words}, {letter}-RMW of 0 to 1, crash of its owner, again of {read}",
                     log(3, kept, part, [(form, 1, 0, 0, 1), crash_of_2, (form, 3, 0, read, 2)]), file([]))
            show(f"{words}, initially 7, {letter}-RMW of 7 to 8, set crash with its owner, again of 7",
                 log(3, kept, filled, [(form, 1, 0, 7, 8), together(1, 2), (form, 3, 0, 7, 8)]), file([]))
    kept = log(3, 0, [(2, 7, PERSISTENT)], [(L_STORE, 1, 0, 5), (R_FLUSH, 1, 0, 0), crash_of_2, (LOAD, 3, 0, 5)])
    changed("a journal of a volatile owner, flushed before its crash", kept, [(1, 0, 1), (1, 0, 0)])
    mixed = [(M_STORE, 1, x, x + 1) for x in range(4)] + [together(1, 2)]
    homes = [(1, 0, PERSISTENT), (2, 0, VOLATILE), (3, 0, PERSISTENT), 3]
    for values in ((1, 0, 3, 4), (0, 0, 3, 4), (1, 2, 3, 4), (1, 0, 0, 4), (1, 0, 3, 0)):
        show(f"L0 persistent of volatile 1, L1 volatile of persistent 2, volatile 3 outside the set, loads of {values}",
             log(3, 2, homes, mixed + [(LOAD, 3, x, v) for x, v in enumerate(values)]), file([]))
    # Six machines of which 1, 3 and 5 are persistent; the kind of every second of a machine's locations differs.
    owners = [x // 2 % 6 + 1 for x in range(32)]
    differ = {1: VOLATILE, 0: PERSISTENT}
    homes = [(k, 0x0102 * x + 1, differ[k % 2] if x % 2 else 0) for x, k in enumerate(owners)]
    survives = [(k % 2 == 1) != (x % 2 == 1) for x, k in enumerate(owners)]
    stores = [(M_STORE, 1, x, 0x0201 * x + 2) for x in range(32)]
    loads = [(LOAD, 6, x, 0x0201 * x + 2 if survives[x] else 0x0102 * x + 1) for x in range(32)]
    every = stores + [together(*range(1, 7))]
    show("32 locations, half of them of other kinds than their owners', read after all crash",
         log(6, 0b010101, homes, every + loads), file([]))
    for x in (30, 31):
        wrong = [(LOAD, 6, x, 0x0102 * x + 1 if survives[x] else 0x0201 * x + 2)]
        show(f"the same, and L{x} as if its kind were the other",
             log(6, 0b010101, homes, every + loads[:x] + wrong), file([]))


def second(homes, *events, persistent=7):
    return log(3, persistent, homes, events, edition=2)


def edition_cases():
    for n, steps in ((4, [(1, 0, 1)]), (8, [(3, 1, 0)]), (14, [(1, 0, 1), (2, 0, 0)])):
        changed(f"edition 2, case {n}", encode(whole(MARKED[n]), 2), steps)
    for n, steps in ((5, [(1, 0, 1), (1, 0, 0)]), (9, []), (12, []), (13, [(2, 0, 0)])):
        show(f"edition 2, case {n}", encode(whole(MARKED[n]), 2), file(steps))
    for value, reads in ((65536, (65536, 0, 1)), (65543, (65543, 7, 65536)), (65535, (65535, 4294967295)),
                         (4294967295, (4294967295, 65535, 4294901760)), (1 << 31, (1 << 31, 0)),
                         (0x01020304, (0x01020304, 0x01020305, 0x01020404, 0x01030304, 0x02020304, 0x04030201))):
        for read in reads:
            show(f"edition 2, initial value {value}, a load of {read} first", second([(2, value)], (LOAD, 1, 0, read)),
                 file([]))
            for form, letter in ((L_STORE, "L"), (R_STORE, "R"), (M_STORE, "M")):
                show(f"edition 2, {letter}Store of {value}, a load of {read}",
                     second([2], (form, 1, 0, value), (LOAD, 3, 0, read)), file([]))
            for form, letter in ((L_RMW, "L"), (R_RMW, "R"), (M_RMW, "M")):
                show(f"edition 2, {letter}-RMW of 0 to {value}, again of {read}",
                     second([2], (form, 1, 0, 0, value), (form, 3, 0, read, 1)), file([]))
    crash_of_2 = (CRASH, 2, 0, 0)
    moved = [(L_STORE, 1, 0, 65543), (R_FLUSH, 1, 0, 0), crash_of_2]
    changed("edition 2, 65543 moved and written back over 7", second([(2, 7)], *moved, (LOAD, 3, 0, 65543)),
            [(1, 0, 1), (1, 0, 0)])
    for value in (65543, 7):
        read = (LOAD, 3, 0, value)
        show(f"edition 2, 65543 written back over 7, a load of {value}", second([(2, 7)], *moved, read),
             file([(1, 0, 1), (1, 0, 0)]))
        for kind, words in ((0, "volatile memory"), (PERSISTENT, "persistent memory of a volatile owner")):
            show(f"edition 2, {words}, initially 65543, MStore of 7, crash of its owner, a load of {value}",
                 second([(2, 65543, kind)], (M_STORE, 1, 0, 7), crash_of_2, read, persistent=0), file([]))
    down = [(M_STORE, 3, x, 65541) for x in (0, 1)] + [together(1, 2)]
    for values in ((65543, 131079), (131079, 65543), (7, 131079), (65543, 65541), (65541, 65541)):
        read = [(LOAD, 3, x, v) for x, v in enumerate(values)]
        show(f"edition 2, initially 65543 and 131079, MStores of 65541, set crash of both owners, loads of {values}",
             second([(1, 65543), (2, 131079)], *down, *read, persistent=0), file([]))
    count = [(L_RMW, 1 + n % 2, 0, 65530 + n, 65531 + n) for n in range(12)]
    show("edition 2, a counter over the edge of 16 bits", second([(3, 65530)], *count), file([]))
    show("edition 2, the same, but what is counted wraps in 16 bits",
         second([(3, 65530)], *[(*one[:3], *(v % 65536 for v in one[3:])) for one in count]), file([]))
    show("edition 2, the same, but what is read wraps in 16 bits",
         second([(3, 65530)], *[(*one[:3], one[3] % 65536, one[4]) for one in count]), file([]))
    homes = [(x % 6 + 1, x + 1 << 16, PERSISTENT if x % 2 else VOLATILE) for x in range(32)]
    longest = [(L_RMW, 5, x, x + n << 16, x + n + 1 << 16) for n in range(1, 5) for x in range(32)]
    steps = [step for x in range(32) if x % 6 != 4 for step in ((128, x, 5), (128, x, 0))]
    show("edition 2, the longest log, 2,088 bytes", log(6, 0b010101, homes, longest, 2), file(steps))
    show("edition 2, the same, its last value read as if it had 16 bits",
         log(6, 0b010101, homes, longest[:-1] + [(L_RMW, 5, 31, 0, 0)], 2), file([]))


def edition_refusals():
    good, bad = file([]), b""
    first = head(3, 7, 2)
    for words, data in [
            ("no end: 2", first), ("a second 06: 3", first + first + END), ("a 01 after the 06: 3", first + three([1])),
            ("a 06 after the 01: 3", three([1])[:-3] + first + END),
            ("an event of edition 1: 4", first + row(1) + event(LOAD, 1, 0, 0) + END),
            ("an RMW of edition 1: 4", first + row(1) + event(L_RMW, 1, 0, 0, 0) + END),
            ("an initial value of edition 1: 4", first + row(1, 7) + END),
            ("an initial value and a kind of edition 1: 4", first + row(1, 7, VOLATILE) + END),
            ("no machines: 5", head(0, 0, 2) + END), ("owner 4 of 3: 6", second([(4, 65536)])),
            ("33 locations: 7", second([(1, 65536)] * 33)), ("129 events: 7", second([1], *[(CRASH, 1, 0, 0)] * 129)),
            ("operation 12: 8", second([1], (12, 1, 0, 0))), ("machine 4 of 3: 9", second([1], (LOAD, 4, 0, 65536))),
            ("a location not listed: 10", second([1], (LOAD, 1, 1, 65536))),
            ("a crash with the last byte of a value: 11", second([1], (CRASH, 1, 0, 1 << 24))),
            ("a byte after the end: 12", second([1]) + b"\0"),
            ("an initial value 0: 14", first + field(0x02, 1, 0, 0, 0, 0) + END),
            ("a set crash of one machine: 15", second([1], together(2))),
            ("its owner's own kind: 16", second([(1, 65536, PERSISTENT)]))]:
        show(f"edition 2, log: {words}", data, good)
        show(f"edition 2, log, before the schedule's 13: {words}", data, bad)
    for words, data in [
            ("an event of edition 2: 4", three([1])[:-3] + event(LOAD, 1, 0, 0, edition=2) + END),
            ("an RMW of edition 2: 4", three([1])[:-3] + event(L_RMW, 1, 0, 0, 0, edition=2) + END),
            ("an initial value of edition 2: 4", three([1])[:-3] + row(1, 7, edition=2) + END),
            ("an initial value and a kind of edition 2: 4", three([1])[:-3] + row(1, 7, VOLATILE, 2) + END)]:
        show(f"edition 1, log: {words}", data, good)
    it = encode(whole(MARKED[4]), 2)
    for words, data in [
            ("an empty file", bad), ("a log for a schedule", it), ("impossible, event 4", field(0x10, 0, 4) + END),
            ("no end", good[:-3]), ("a byte after the end", good + b"\0"),
            ("events before over the log's events", file([(5, 0, 1)])), ("a location not listed", file([(1, 1, 1)])),
            ("the owner as the machine", file([(1, 0, 2)]))]:
        show(f"edition 2, schedule: {words}: 13", it, data)


def refused_schedules():
    it = MARKED[4]
    step = field(0x11, 1, 0, 1)
    for words, data in [
            ("an empty file", b""),
            ("a header that is cut", ALLOWED[:4]),
            ("no header", step + END),
            ("a log for a schedule", it),
            ("a header of length 3", field(0x10, 1, 0, 0) + step + END),
            ("a header's length with a high byte", bytes([0x10, 2, 1, 1, 0]) + step + END),
            ("impossible, event 4", field(0x10, 0, 4) + END),
            ("impossible, event 0", field(0x10, 0, 0) + END),
            ("a verdict of 2", field(0x10, 2, 0) + step + END),
            ("allowed, but with an event", field(0x10, 1, 4) + step + END),
            ("no end", ALLOWED + step),
            ("no end and no step", ALLOWED),
            ("an end that is cut", ALLOWED + step + END[:2]),
            ("an end of length 1", ALLOWED + step + field(0x04, 0)),
            ("a byte after the end", ALLOWED + step + END + b"\0"),
            ("a step after the end", ALLOWED + END + step),
            ("a second end", ALLOWED + step + END + END),
            ("a second header", ALLOWED + ALLOWED + step + END),
            ("a step that is cut", ALLOWED + step[:5]),
            ("a step of length 2", ALLOWED + field(0x11, 1, 0) + END),
            ("a step of length 4", ALLOWED + field(0x11, 1, 0, 1, 0) + END),
            ("a step's length with a high byte", ALLOWED + bytes([0x11, 3, 1, 1, 0, 1]) + END),
            ("an unknown tag", ALLOWED + field(0x12, 1, 0, 1) + END),
            ("a count of events before that falls", file([(2, 0, 1), (1, 0, 1)])),
            ("events before over the log's events", file([(5, 0, 1)])),
            ("a location not listed", file([(1, 1, 1)])),
            ("location 32", file([(1, 32, 1)])),
            ("a machine over n", file([(1, 0, 4)])),
            ("machine 255", file([(1, 0, 255)])),
            ("the owner as the machine", file([(1, 0, 2)])),
            ("the second step's machine over n", file([(1, 0, 1), (1, 0, 4)]))]:
        show(f"schedule: {words}: 13", it, data)
    show("a log without locations, and a step: 13", log(3, 7, [], []), file([(0, 0, 0)]))


def refused_logs():
    good, bad = file([]), b""
    crowd = [(L_STORE, 1, 0, 1)] * 129
    for words, data in [
            ("an empty file: 2", b""),
            ("no end: 2", three([1])[:-3]),
            ("an 02 after an 03: 3", three([1], (L_STORE, 1, 0, 1))[:-3] + field(0x02, 1) + END),
            ("an event of length 4: 4", three([1])[:-3] + field(0x03, 1, 1, 0, 0) + END),
            ("7 machines: 5", log(7, 0, [1], [])),
            ("owner 4 of 3: 6", three([4])),
            ("33 locations: 7", three([1] * 33)),
            ("129 events: 7", three([1], *crowd)),
            ("an RMW of length 5: 4", three([1])[:-3] + field(0x05, 8, 1, 0, 0, 0) + END),
            ("operation 8: 8", three([1], (8, 1, 0, 0))),
            ("an RMW of operation 4: 8", three([1], (LOAD, 1, 0, 0, 0))),
            ("an RMW by machine 4 of 3: 9", three([1], (L_RMW, 4, 0, 0, 0))),
            ("an RMW of a location not listed: 10", three([1], (M_RMW, 1, 1, 0, 0))),
            ("machine 4 of 3: 9", three([1], (LOAD, 4, 0, 0))),
            ("a location not listed: 10", three([1], (LOAD, 1, 1, 0))),
            ("a crash with a value: 11", three([1], (CRASH, 1, 0, 1))),
            ("operation 12: 8", three([1], (12, 0, 3, 0))),
            ("a set crash with a machine: 11", three([1], (SET_CRASH, 1, 3, 0))),
            ("a set crash of one machine: 15", three([1], together(2))),
            ("a set crash with an absent machine: 15", three([1], together(1, 2, 4))),
            ("an initial value 0 in the long form: 14", three([1])[:-3] + field(0x02, 1, 0, 0) + END),
            ("owner 4 of 3 with an initial value: 6", three([(4, 7)])),
            ("owner 4 of 3 with an initial value 0: 6", three([1])[:-3] + field(0x02, 4, 0, 0) + END),
            ("a location of length 2, with a value's low byte: 16", three([1])[:-3] + field(0x02, 1, 7) + END),
            ("an initial value that is cut: 2", three([(1, 7)])[:-4]),
            ("a byte after the end: 12", three([1]) + b"\0"),
            ("kind 0: 16", three([1])[:-3] + field(0x02, 1, 0) + END),
            ("its persistent owner's own kind: 16", three([(1, 0, PERSISTENT)])),
            ("its volatile owner's own kind, after an initial value: 16", log(3, 5, [1, (2, 7, VOLATILE)], [])),
            ("owner 4 of 3 with a kind: 6", three([(4, 7, VOLATILE)])),
            ("an initial value 0 with a kind: 14", three([1])[:-3] + field(0x02, 1, 0, 0, VOLATILE) + END),
            ("an initial value 0, before its kind 0: 14", three([1])[:-3] + field(0x02, 1, 0, 0, 0) + END),
            ("a location of length 5: 4", three([1])[:-3] + field(0x02, 1, 7, 0, VOLATILE, 0) + END),
            ("a kind that is cut: 2", three([(1, 7, VOLATILE)])[:-4]),
            ("a 33rd location with a kind: 7", three([(1, 0, VOLATILE)] * 33))]:
        show(f"log: {words}", data, good)
    show("log: owner 4 of 3, before the schedule's 13: 6", three([4]), bad)
    show("log: a byte after the end, before the schedule's 13: 12", three([1]) + b"\0", bad)
    show("log: a set crash of no machine, before the schedule's 13: 15", three([1], together()), bad)
    show("log: an initial value 0, before the schedule's 13: 14", field(0x01, 3, 7) + field(0x02, 1, 0, 0) + END, bad)
    show("log: its owner's own kind, before the schedule's 13: 16", three([(1, 0, PERSISTENT)]), bad)
    show("a log with a kind, and an empty schedule: 13", three([(1, 0, VOLATILE)]), bad)
    show("a log with a kind, and its owner as the machine of a step: 13", three([(1, 0, VOLATILE)]), file([(0, 0, 1)]))


def drawn(state):
    """Numbers that look drawn by lot, the same everywhere."""
    while True:
        state = (state * 1103515245 + 12345) % 2 ** 31
        yield state // 65536


def drawn_cases(numbers, state, operations, read=(0, 1), written=(0, 1, 2), initial=(0,), differs=(False,), edition=1):
    draw = drawn(state)

    def below(n):
        return next(draw) % n

    def one_of(values):
        return values[below(len(values))] if len(values) > 1 else values[0]

    for number in numbers:
        n = 2 + below(3)
        persistent = below(2 ** n)
        owners = [1 + below(n) for _ in range(1 + below(2))]
        filled = [one_of(initial) for _ in owners]
        kept = [(persistent >> k - 1 & 1) != one_of(differs) for k in owners]
        kinds = [0 if persistent >> k - 1 & 1 == p else PERSISTENT if p else VOLATILE for k, p in zip(owners, kept)]
        system, events, steps = System(n, owners, kept, filled), [], []

        def draw_step():
            x, i = below(len(owners)), below(n + 1)
            i = 0 if i == owners[x] else i
            if system.step(x, i) or below(16) == 0:
                steps.append((len(events), x, i))

        def draw_event():
            op, i, x, v = 1 + below(operations), 1 + below(n), below(len(owners)), one_of(read)
            values = (v, one_of(written)) if op in (L_RMW, R_RMW, M_RMW) else (v if op < L_FLUSH else 0,)
            one = (op, i, x if op != CRASH else 0, *values)
            if op == SET_CRASH:
                one = together(i, i % n + 1, *[k for k in range(1, n + 1) if k not in (i, i % n + 1) and below(2)])
            if system.event(*one) or below(16) == 0:
                events.append(one)

        for _ in range(20):
            (draw_step if below(2) else draw_event)()
        show(f"drawn {number}", log(n, persistent, list(zip(owners, filled, kinds)), events, edition), file(steps))


def cases():
    marked_cases()
    edge_cases()
    rmw_cases()
    set_crash_cases()
    initial_value_cases()
    kind_cases()
    refused_schedules()
    refused_logs()
    drawn_cases(range(1, 61), 4, CRASH)
    drawn_cases(range(61, 71), 5, M_RMW)
    drawn_cases(range(71, 79), 7, SET_CRASH)
    bytes_differ = (0, 0x0102, 0x0201)
    drawn_cases(range(79, 89), 8, SET_CRASH, bytes_differ, bytes_differ, bytes_differ)
    drawn_cases(range(89, 105), 9, SET_CRASH, differs=(False, True))
    drawn_cases(range(105, 117), 10, SET_CRASH, (0, 7), (0, 7, 1), (0, 7), (False, True))
    edition_cases()
    edition_refusals()
    low_halves_alike = (0, 65536, 131072)
    drawn_cases(range(117, 133), 11, SET_CRASH, low_halves_alike, low_halves_alike, low_halves_alike, (False, True), 2)


{"cases": cases, "answers": answers}[sys.argv[1]]()
