#!/usr/bin/env python3
"""Prints the judge's cases of crates/cases/stdin: logs in the byte form of document 01 and its requests, each with the
areas that it is judged in. A case is a line `j NAME LOG OUTPUT OFFSET SCRATCH`, and a comment above it says what is to
come out."""
from format_reference import whole
from log_bytes import END, PERSISTENT, VOLATILE, encode, event, field, head, row
from log_bytes import log as bytes_of

LSTORE, RSTORE, MSTORE, LOAD, LFLUSH, RFLUSH, CRASH, LRMW, RRMW, MRMW, SETCRASH = range(1, 12)
LONGEST = 1544  # bytes of a verdict file
WORDS = 4096  # the fewest numbers of a scratch area


def together(*machines):
    """The set crash of these machines."""
    return SETCRASH, 0, sum(1 << machine - 1 for machine in machines)


def kind_of(persistent):
    return PERSISTENT if persistent else VOLATILE


def log(homes, events, machines=3, persistent=None, edition=1):
    """The log of a system with these homes and events; all machines are persistent unless said."""
    everyone = (1 << machines) - 1
    return bytes_of(machines, everyone if persistent is None else persistent, homes, events, edition)


def case(name, expected, data, output=LONGEST, offset=0, scratch=WORDS):
    print(f"# {expected}")
    print(f"j {name} {data.hex()} {output} {offset} {scratch}")


def in_high_half(name, expected, data):
    """The case in edition 2 with every value in the two bytes that edition 1 has not: what is to come out stays."""
    records = whole(data)
    records.initial = [value << 16 for value in records.initial]
    records.events = [(*one[:3], *(value << 16 for value in one[3:])) for one in records.events]
    case(f"high-{name}", f"edition 2, each value times 65536: {expected}", encode(records, 2))


def marked_logs(case=case):
    """The fourteen marked logs of document 01."""
    case("marked-1", "RStore, crash, load of 0: allowed",
         log([1], [(RSTORE, 1, 0, 1), (CRASH, 1), (LOAD, 1, 0, 0)]))
    case("marked-2", "the same with MStore: impossible, 3",
         log([1], [(MSTORE, 1, 0, 1), (CRASH, 1), (LOAD, 1, 0, 0)]))
    case("marked-3", "LStore and LFlush by the owner: impossible, 4",
         log([1], [(LSTORE, 1, 0, 1), (LFLUSH, 1, 0), (CRASH, 1), (LOAD, 1, 0, 0)]))
    case("marked-4", "LStore and LFlush by another machine, crash of the owner: allowed",
         log([2], [(LSTORE, 1, 0, 1), (LFLUSH, 1, 0), (CRASH, 2), (LOAD, 1, 0, 0)]))
    case("marked-5", "the same with RFlush: impossible, 4",
         log([2], [(LSTORE, 1, 0, 1), (RFLUSH, 1, 0), (CRASH, 2), (LOAD, 1, 0, 0)]))
    case("marked-6", "a copy of another machine outlives the storing one: impossible, 4",
         log([3], [(LSTORE, 1, 0, 1), (LOAD, 2, 0, 1), (CRASH, 1), (LOAD, 2, 0, 0)]))
    case("marked-7", "the same with an LFlush and a crash of the other machine: impossible, 6",
         log([3], [(LSTORE, 1, 0, 1), (LOAD, 2, 0, 1), (LFLUSH, 2, 0), (CRASH, 1), (CRASH, 2), (LOAD, 2, 0, 0)]))
    passed_on = [(LOAD, 2, 0, 1), (RSTORE, 2, 1, 1), (CRASH, 2), (LOAD, 1, 1, 1), (LOAD, 1, 0, 0)]
    case("marked-8", "a value read, passed on and lost: allowed", log([2, 1], [(RSTORE, 1, 0, 1)] + passed_on))
    case("marked-9", "the same with MStore first: impossible, 6", log([2, 1], [(MSTORE, 1, 0, 1)] + passed_on))
    case("marked-10", "no events: allowed, no steps", log([1], []))
    case("marked-11", "a load of 1 first: impossible, 1", log([1], [(LOAD, 1, 0, 1)]))
    case("marked-12", "a volatile owner loses its memory: impossible, 3",
         log([2], [(MSTORE, 1, 0, 1), (CRASH, 2), (LOAD, 1, 0, 1)], persistent=0))
    case("marked-13", "a write-back clears every copy: impossible, 5",
         log([2], [(LSTORE, 1, 0, 1), (LOAD, 2, 0, 1), (LFLUSH, 2, 0), (CRASH, 2), (LOAD, 1, 0, 1)], persistent=0))
    case("marked-14", "a copy moves before its machine crashes: allowed",
         log([2], [(LSTORE, 1, 0, 1), (CRASH, 1), (LOAD, 2, 0, 1)]))
    case("printed-4", "case 4 with two machines, the bytes that document 01 prints: allowed, one step",
         log([2], [(LSTORE, 1, 0, 1), (LFLUSH, 1, 0), (CRASH, 2), (LOAD, 1, 0, 0)], machines=2))


def small_logs(case=case):
    crashes = [(LSTORE, 2, 0, 5), (CRASH, 1), (CRASH, 2), (LOAD, 2, 0, 5)]
    case("one-by-one", "two crashes one after the other, the first of a volatile owner: allowed",
         log([1], crashes, machines=2, persistent=0b10))
    case("one-by-one-back", "the same crashes in the other order: impossible, 4",
         log([1], [crashes[0], crashes[2], crashes[1], crashes[3]], machines=2, persistent=0b10))
    for value, outcome in ((0, "allowed"), (1, "allowed"), (2, "allowed"), (3, "impossible, 4")):
        case(f"memory-{value}", f"one of several values that memory may have: {outcome}",
             log([1], [(RSTORE, 2, 0, 1), (RSTORE, 2, 0, 2), (CRASH, 1), (LOAD, 3, 0, value)]))
    case("no-copy", "a load from memory leaves no copy: allowed", log([1], [(LOAD, 2, 0, 0), (LFLUSH, 2, 0)]))
    case("no-locations", "no locations, crashes only: allowed", log([], [(CRASH, 1), (CRASH, 3), (CRASH, 1)]))
    case("nothing", "no locations and no events: allowed", log([], [], machines=1))
    case("volatile-crashes", "no locations, crashes of volatile machines: allowed",
         log([], [(CRASH, machine) for machine in range(1, 7)], machines=6, persistent=0))
    case("large-values", "values with both bytes, six machines: allowed",
         log([6], [(LSTORE, 5, 0, 65535), (LOAD, 4, 0, 65535), (CRASH, 5), (CRASH, 6), (CRASH, 4), (LOAD, 1, 0, 65535)],
             machines=6))
    case("three-locations", "steps of two locations of three, before different events: allowed",
         log([3, 2, 1], [(LSTORE, 1, 2, 9), (LSTORE, 1, 1, 8), (LSTORE, 1, 0, 7), (RFLUSH, 2, 0), (CRASH, 1),
                         (LOAD, 1, 1, 8), (LOAD, 1, 2, 0)]))
    case("least-event", "three locations, each impossible at an event of its own: impossible, 2",
         log([1, 2, 3], [(CRASH, 1), (LOAD, 1, 1, 1), (LOAD, 1, 2, 1), (LOAD, 1, 0, 1)]))


def rmw_logs(case=case):
    """Read-modify-writes: each is a load and a store, and nothing comes between."""
    outcomes = {(LRMW, 1): "allowed", (LRMW, 3): "allowed, one step", (RRMW, 1): "impossible, 3",
                (RRMW, 3): "allowed", (MRMW, 1): "impossible, 3", (MRMW, 3): "impossible, 3"}
    for form, letter in ((LRMW, "L"), (RRMW, "R"), (MRMW, "M")):
        for crashed in (1, 3):
            case(f"rmw-{letter}-{crashed}", f"0 to 1 by {letter}-RMW, crash of {crashed}, again 0 to 1, owner 3: "
                 f"{outcomes[form, crashed]}", log([3], [(form, 1, 0, 0, 1), (CRASH, crashed), (form, 2, 0, 0, 1)]))
        case(f"rmw-{letter}-twice", f"0 to 1 by {letter}-RMW twice without a crash: impossible, 2",
             log([3], [(form, 1, 0, 0, 1), (form, 2, 0, 0, 1)]))
        case(f"rmw-{letter}-first", f"an {letter}-RMW that reads 1 first: impossible, 1",
             log([3], [(form, 1, 0, 1, 0)]))
        case(f"rmw-{letter}-chain", f"three {letter}-RMWs, each of the last one's value, both bytes: allowed",
             log([3], [(form, 1, 0, 0, 65535), (form, 2, 0, 65535, 256), (form, 3, 0, 256, 255), (LOAD, 1, 0, 255)]))
        copies = [(LSTORE, 1, 0, 5), (LOAD, 2, 0, 5), (form, 2, 0, 5, 6), (LFLUSH, 1, 0)]
        case(f"rmw-{letter}-clears", f"an {letter}-RMW of a value with two copies, of which none is left: allowed",
             log([3], copies + [(LOAD, 1, 0, 6)]))
        case(f"rmw-{letter}-stale", "the same, then a load of the value read: impossible, 5",
             log([3], copies + [(LOAD, 1, 0, 5)]))
    case("rmw-M-no-copy", "the load of an M-RMW leaves no copy either: allowed, no steps",
         log([3], [(LSTORE, 2, 0, 5), (MRMW, 1, 0, 5, 6), (RFLUSH, 1, 0)]))
    case("rmw-L-copy", "an L-RMW leaves a copy with its machine: allowed, two steps",
         log([3], [(LSTORE, 2, 0, 5), (LRMW, 1, 0, 5, 6), (RFLUSH, 2, 0)]))
    case("rmw-L-own", "an L-RMW by the owner, flushed: impossible, 4",
         log([1], [(LRMW, 1, 0, 0, 1), (LFLUSH, 1, 0), (CRASH, 1), (LRMW, 2, 0, 0, 1)]))
    for value, outcome in ((0, "allowed"), (1, "allowed"), (2, "allowed"), (3, "impossible, 4")):
        case(f"rmw-memory-{value}", f"one of several values that memory may have: {outcome}",
             log([3], [(LRMW, 1, 0, 0, 1), (LRMW, 2, 0, 1, 2), (CRASH, 2), (RRMW, 1, 0, value, 9)]))
    back = [(LRMW, 1, 0, 0, 1), (LRMW, 2, 0, 1, 2), (CRASH, 2), (LRMW, 1, 0, 1, 9)]
    case("rmw-back", "an L-RMW that only earlier steps make possible, and what it stored: allowed",
         log([3], back + [(LOAD, 2, 0, 9), (CRASH, 1), (RFLUSH, 1, 0), (CRASH, 3), (LOAD, 1, 0, 9)]))
    case("rmw-back-stale", "the same, then a load of the value that was lost: impossible, 5",
         log([3], back + [(LOAD, 2, 0, 2)]))
    for read, outcome in ((0, "allowed"), (1, "impossible, 3")):
        case(f"rmw-volatile-{read}", f"a volatile owner loses what an M-RMW stored, {read} is read: {outcome}",
             log([2], [(MRMW, 1, 0, 0, 1), (CRASH, 2), (MRMW, 3, 0, read, 2)], persistent=0))
    case("rmw-locations", "two locations, each with its own value: allowed",
         log([1, 2], [(LRMW, 3, 0, 0, 1), (RRMW, 3, 1, 0, 2), (CRASH, 3), (MRMW, 1, 0, 0, 4), (MRMW, 1, 1, 2, 3)]))
    quarters = [(LRMW, 1, 0, 1), (RRMW, 2, 1, 2), (MRMW, 1, 2, 3), (LRMW, 2, 3, 4)]
    events = [(form, machine, x, read, written) for form, machine, read, written in quarters for x in range(32)]
    case("rmw-longest", "128 read-modify-writes of 32 locations, the longest log: allowed",
         log([x % 3 + 1 for x in range(32)], events))


def set_crash_logs():
    """Set crashes: all machines of the set lose their caches in one step, and the volatile ones their memories."""
    store, load = (LSTORE, 2, 0, 5), (LOAD, 2, 0, 5)
    case("set-request", "the crashes of one-by-one in one step: impossible, 3",
         log([1], [store, together(1, 2), load], machines=2, persistent=0b10))
    case("set-request-0", "the same and a load of 0: allowed, no steps",
         log([1], [store, together(1, 2), (LOAD, 2, 0, 0)], machines=2, persistent=0b10))
    outcomes = {  # form, whether the owner is in the set, whether it is persistent: the outcomes of loads of 5 and 0
        ("L", True, True): ("allowed, two steps", "allowed"), ("L", True, False): ("impossible, 3", "allowed"),
        ("R", True, True): ("allowed, one step", "allowed"), ("R", True, False): ("impossible, 3", "allowed"),
        ("M", True, True): ("allowed", "impossible, 3"), ("M", True, False): ("impossible, 3", "allowed"),
        ("L", False, True): ("allowed, one step", "allowed"), ("L", False, False): ("allowed, one step", "allowed"),
        ("R", False, False): ("allowed", "impossible, 3"), ("M", False, False): ("allowed", "impossible, 3")}
    for (letter, inside, kept), results in outcomes.items():
        form = {"L": LSTORE, "R": RSTORE, "M": MSTORE}[letter]
        crash = together(1, 2) if inside else together(2, 3)
        place, memory = "in" if inside else "out", "persistent" if kept else "volatile"
        for value, outcome in zip((5, 0), results):
            case(f"set-{letter}-{place}-{memory}-{value}", f"{letter}Store by a machine of the set, the {memory} owner "
                 f"{'in it' if inside else 'outside'}, load of {value}: {outcome}",
                 log([1], [(form, 2, 0, 5), crash, (LOAD, 3, 0, value)], persistent=0b111 if kept else 0))
    mixed = [(MSTORE, 1, x, x + 1) for x in range(4)] + [together(1, 2, 4)]
    for values, outcome in (((0, 2, 3, 0), "allowed, no steps"), ((1, 2, 3, 0), "impossible, 6"),
                            ((0, 0, 3, 0), "impossible, 7"), ((0, 2, 0, 0), "impossible, 8"),
                            ((0, 2, 3, 4), "impossible, 9")):
        case(f"set-mixed-{''.join(map(str, values))}", "owners 1, 2 and 4 in the set, 2 persistent, a volatile owner 3 "
             f"outside, loads of {', '.join(map(str, values))}: {outcome}",
             log([1, 2, 3, 4], mixed + [(LOAD, 3, x, v) for x, v in enumerate(values)], machines=4, persistent=0b0010))
    for name, crashes, outcome in (
            ("1-2-3", [(CRASH, 1), (CRASH, 2), (CRASH, 3)], "allowed, one step"),
            ("123", [together(1, 2, 3)], "impossible, 3"),
            ("12-3", [together(1, 2), (CRASH, 3)], "allowed, one step"),
            ("1-23", [(CRASH, 1), together(2, 3)], "allowed, one step"),
            ("3-12", [(CRASH, 3), together(1, 2)], "impossible, 4"),
            ("23-1", [together(2, 3), (CRASH, 1)], "impossible, 4"),
            ("13-2", [together(1, 3), (CRASH, 2)], "impossible, 4"),
            ("12-23", [together(1, 2), together(2, 3)], "allowed, one step"),
            ("12-13", [together(1, 2), together(1, 3)], "impossible, 4"),
            ("123-456", [together(1, 2, 3), together(4, 5, 6)], "impossible, 4"),
            ("12-3456", [together(1, 2), together(3, 4, 5, 6)], "allowed, one step"),
            ("12-45-36", [together(1, 2), together(4, 5), together(3, 6)], "allowed, one step")):
        case(f"set-split-{name}", f"LStore by 3 to a volatile owner 1, crashes {name}, load of the value: {outcome}",
             log([1], [(LSTORE, 3, 0, 5)] + crashes + [(LOAD, 2, 0, 5)], machines=6, persistent=0))
    case("set-outside", "a copy outside the set stays: allowed, no steps",
         log([1], [(LSTORE, 3, 0, 5), together(1, 2), (LOAD, 2, 0, 5)], persistent=0))
    case("set-outside-flush", "the same copy, flushed after the set crash: allowed, one step",
         log([1], [(LSTORE, 3, 0, 5), together(1, 2), (LFLUSH, 3, 0), (LOAD, 2, 0, 5)], persistent=0))
    copies = [(LSTORE, 3, 0, 5), (LOAD, 4, 0, 5), (LOAD, 2, 0, 5)]
    case("set-sharers", "of three copies those of the set are lost: allowed, no steps",
         log([1], copies + [together(2, 3), (LFLUSH, 2, 0), (LFLUSH, 3, 0), (LOAD, 1, 0, 5)], machines=4))
    case("set-sharers-gone", "a set that has all three and not the owner, load of 0: allowed, no steps",
         log([1], copies + [together(2, 3, 4), (RFLUSH, 1, 0), (LOAD, 1, 0, 0)], machines=4))
    case("set-sharers-memory", "the same with a load of the value: allowed",
         log([1], copies + [together(2, 3, 4), (RFLUSH, 1, 0), (LOAD, 1, 0, 5)], machines=4))
    case("set-again", "a load of 0 after a set crash, and then of what was lost: impossible, 5",
         log([1], [store, together(2, 3), (LOAD, 1, 0, 0), (LOAD, 1, 0, 0), (LOAD, 1, 0, 5)]))
    everyone = together(*range(1, 7))
    for kept, flush, value, outcome in ((63, [], 5, "allowed, two steps"), (63, [], 0, "allowed, no steps"),
                                        (63, [(LFLUSH, 2, 0)], 0, "allowed, one step"),
                                        (63, [(RFLUSH, 2, 0)], 0, "impossible, 4"),
                                        (63, [(RFLUSH, 2, 0)], 5, "allowed, two steps"),
                                        (62, [(RFLUSH, 2, 0)], 5, "impossible, 4")):
        words = {LFLUSH: "LFlush", RFLUSH: "RFlush"}[flush[0][0]] if flush else "no flush"
        case(f"set-all-{kept}-{words.replace(' ', '-')}-{value}", f"all six machines at once, {words}, the owner "
             f"{'persistent' if kept & 1 else 'volatile'}, load of {value}: {outcome}",
             log([1], [store] + flush + [everyone, (LOAD, 6, 0, value)], machines=6, persistent=kept))
    six, zeros = range(1, 7), [(LOAD, 1, x, 0) for x in range(6)]
    case("set-owners", "volatile memories of all six, loads of 0: allowed, no steps",
         log(six, [(MSTORE, 1, x, 5) for x in range(6)] + [everyone] + zeros, machines=6, persistent=0))
    case("set-holders", "copies in the caches of all six, loads of 0: allowed, no steps",
         log(six, [(LSTORE, 6 - x, x, 5) for x in range(6)] + [everyone] + zeros, machines=6))
    case("set-first", "a set crash first: allowed, no steps", log([1], [together(1, 3), (LOAD, 2, 0, 0)], persistent=0))
    case("set-first-5", "a set crash first, and a load of 5: impossible, 2",
         log([1], [together(1, 3), (LOAD, 2, 0, 5)], persistent=0))
    case("set-last", "a set crash last: allowed, no steps", log([1], [store, load, together(1, 2, 3)], persistent=0))
    case("set-alone", "no locations, set crashes only: allowed, no steps",
         log([], [together(1, 2), everyone, together(5, 6)], machines=6, persistent=0b010101))
    case("set-around", "set crashes before, between and after the events of a location: allowed, one step",
         log([1, 2], [together(1, 2), (LSTORE, 2, 0, 5), together(1, 3), (CRASH, 2), (LOAD, 1, 0, 5), together(1, 2, 3),
                      (LOAD, 3, 1, 0)], persistent=0))
    for value, outcome in ((1, "allowed, one step"), (3, "impossible, 4")):
        case(f"set-memory-{value}", f"one of several values that memory may have: {outcome}",
             log([1], [(RSTORE, 2, 0, 1), (RSTORE, 2, 0, 2), together(1, 2), (LOAD, 3, 0, value)]))
    back = [(LSTORE, 2, 0, 1), together(2, 3), (LSTORE, 3, 0, 2), together(1, 3), (LSTORE, 2, 0, 3), together(1, 2)]
    case("set-back", "several set crashes, a value from before the first: allowed",
         log([1], back + [(LOAD, 3, 0, 1), (RFLUSH, 3, 0), together(1, 2, 3), (LOAD, 3, 0, 1)]))
    case("set-back-volatile", "the same with a volatile owner: impossible, 7",
         log([1], back + [(LOAD, 3, 0, 1)], persistent=0b110))
    for form, letter, outcome in ((LRMW, "L", "allowed"), (RRMW, "R", "allowed"), (MRMW, "M", "impossible, 3")):
        again = [(form, 1, 0, 0, 1), together(1, 3), (form, 2, 0, 0, 1)]
        case(f"set-rmw-{letter}", f"0 to 1 by {letter}-RMW, set crash with the owner, again 0 to 1: {outcome}",
             log([3], again))
        case(f"set-rmw-{letter}-volatile", "the same with a volatile owner: allowed", log([3], again, persistent=0))
        case(f"set-rmw-{letter}-kept", "a volatile owner, then a read-modify-write of what was stored: impossible, 3",
             log([3], again[:2] + [(form, 2, 0, 1, 2)], persistent=0))
    case("set-rmw-between", "an L-RMW between two set crashes, the owner in the second: allowed, three steps",
         log([3], [(LRMW, 1, 0, 0, 1), together(1, 2), (LRMW, 2, 0, 1, 2), together(2, 3), (RRMW, 1, 0, 2, 3)]))
    stores = [(LSTORE, 1, x, x + 1) for x in range(16)]
    loads = [(LOAD, 3, x, x + 1) for x in range(16)]
    case("set-steps-at-once", "16 copies moved and written back before one set crash: allowed, 32 steps",
         log([2] * 16, stores + [together(1, 2)] + loads))
    every = [together(*(i for i in range(1, 7) if 1 << i - 1 & code)) for code in range(64) if code & code - 1]
    case("set-each", "each set of the six machines, and a copy written back before the first: allowed, two steps",
         log([6], [(LSTORE, 5, 0, 5)] + every + [(LOAD, 2, 0, 5)], machines=6, persistent=0b100000))
    turns = [e for n in range(1, 13) for e in ((LSTORE, 1, 0, n), together(1, 3), (LOAD, 3, 0, n))]
    case("set-turns", "12 values that outlive a set crash each, and a last one with the volatile owner: impossible, 38",
         log([2], turns + [together(1, 2, 3), (LOAD, 1, 0, 12)], persistent=0))


# A location initially 7, a store of 5 by another machine, a crash of the owner. By the form of the store, whether the
# storing machine is in the crash too, and whether the memory is persistent: the outcomes of loads of 7 and of 5.
AFTER_CRASH = {
    ("L", False, False): ("allowed, one step", "allowed, no steps"),
    ("L", False, True): ("allowed, one step", "allowed, no steps"),
    ("L", True, False): ("allowed, no steps", "impossible, 3"),
    ("L", True, True): ("allowed, no steps", "allowed, two steps"),
    ("R", False, False): ("allowed, no steps", "impossible, 3"),
    ("R", False, True): ("allowed, no steps", "allowed, one step"),
    ("R", True, False): ("allowed, no steps", "impossible, 3"),
    ("R", True, True): ("allowed, no steps", "allowed, one step"),
    ("M", False, False): ("allowed, no steps", "impossible, 3"),
    ("M", False, True): ("impossible, 3", "allowed, no steps"),
    ("M", True, False): ("allowed, no steps", "impossible, 3"),
    ("M", True, True): ("impossible, 3", "allowed, no steps")}


def initial_value_logs(case=case):
    """Initial values: memories have them at the start, and volatile ones again after a crash of their owner."""
    for initial, others in ((7, [0]), (1, [0, 256]), (255, [65280]), (256, [1]), (0x0102, [0x0201, 2]), (65535, [0])):
        case(f"initial-{initial}", "an initial value that is read: allowed, no steps",
             log([(2, initial)], [(LOAD, 1, 0, initial), (LOAD, 2, 0, initial)]))
        for other in others:
            case(f"initial-{initial}-{other}", f"a load of {other} where the initial value is {initial}: impossible, 1",
                 log([(2, initial)], [(LOAD, 1, 0, other)]))
    for (letter, both, kept), results in AFTER_CRASH.items():
        form = {"L": LSTORE, "R": RSTORE, "M": MSTORE}[letter]
        crash, which = (together(1, 2), "set") if both else ((CRASH, 2), "owner")
        memory = "persistent" if kept else "volatile"
        for value, outcome in zip((7, 5, 0), results + ("impossible, 3",)):
            case(f"initial-{letter}-{which}-{memory}-{value}", f"initially 7, {letter}Store of 5, crash of the "
                 f"{memory} owner{' and the storing machine' if both else ''}, load of {value}: {outcome}",
                 log([(2, 7)], [(form, 1, 0, 5), crash, (LOAD, 3, 0, value)], persistent=0b111 if kept else 0))
    for name, crash in (("one", (CRASH, 3)), ("set", together(1, 3))):
        for value, outcome in ((5, "allowed, no steps"), (7, "impossible, 3")):
            case(f"initial-other-{name}-{value}", f"a volatile memory, and crashes of other machines, load of {value}: "
                 f"{outcome}", log([(2, 7)], [(MSTORE, 1, 0, 5), crash, (LOAD, 1, 0, value)], persistent=0))
        first = (CRASH, 2) if name == "one" else together(2, 3)
        for value, outcome in ((7, "allowed, no steps"), (0, "impossible, 2")):
            case(f"initial-first-{name}-{value}", f"a crash of a volatile owner first, load of {value}: {outcome}",
                 log([(2, 7)], [first, (LOAD, 1, 0, value)], persistent=0))
    case("initial-alone", "initial values and no events: allowed, no steps", log([(1, 7), 2, (3, 65535)], []))
    case("initial-crashes", "initial values and crashes alone: allowed, no steps",
         log([(1, 7), 2, (3, 65535)], [(CRASH, 1), together(1, 2, 3), (CRASH, 3)], persistent=0))
    case("initial-flushed", "no cache has the initial value: allowed, no steps",
         log([(2, 7)], [(LFLUSH, 1, 0), (RFLUSH, 1, 0), (LOAD, 1, 0, 7), (LFLUSH, 1, 0), (RFLUSH, 3, 0)]))
    case("initial-lost", "LStore and LFlush by another machine, crash of the owner, load of 7: allowed, one step",
         log([(2, 7)], [(LSTORE, 1, 0, 1), (LFLUSH, 1, 0), (CRASH, 2), (LOAD, 1, 0, 7)]))
    case("initial-lost-0", "the same and 0: impossible, 4",
         log([(2, 7)], [(LSTORE, 1, 0, 1), (LFLUSH, 1, 0), (CRASH, 2), (LOAD, 1, 0, 0)]))
    case("initial-RFlush", "the same with RFlush and the initial value: impossible, 4",
         log([(2, 7)], [(LSTORE, 1, 0, 1), (RFLUSH, 1, 0), (CRASH, 2), (LOAD, 1, 0, 7)]))
    case("initial-RFlush-volatile", "the same with a volatile owner: allowed, two steps",
         log([(2, 7)], [(LSTORE, 1, 0, 1), (RFLUSH, 1, 0), (CRASH, 2), (LOAD, 1, 0, 7)], persistent=0))
    passed_on = [(LOAD, 2, 0, 1), (RSTORE, 2, 1, 1), (CRASH, 2), (LOAD, 1, 1, 1), (LOAD, 1, 0, 7)]
    case("initial-passed-on", "a value read, passed on and lost, initially 7 and 9: allowed",
         log([(2, 7), (1, 9)], [(RSTORE, 1, 0, 1)] + passed_on))
    case("initial-passed-on-9", "the same, and the other location's initial value: impossible, 6",
         log([(2, 7), (1, 9)], [(RSTORE, 1, 0, 1)] + passed_on[:-1] + [(LOAD, 1, 0, 9)]))
    case("initial-apart", "two crashes one after the other, the first of a volatile owner: allowed, one step",
         log([(1, 7)], [(LSTORE, 2, 0, 5), (CRASH, 1), (CRASH, 2), (LOAD, 2, 0, 5)], machines=2, persistent=0b10))
    case("initial-apart-back", "the same crashes in the other order: impossible, 4",
         log([(1, 7)], [(LSTORE, 2, 0, 5), (CRASH, 2), (CRASH, 1), (LOAD, 2, 0, 5)], machines=2, persistent=0b10))
    case("initial-after-crash", "a copy that moves and is written back after the crash of a volatile owner: allowed",
         log([(2, 7)], [(LSTORE, 1, 0, 5), (CRASH, 2), (RFLUSH, 3, 0), (LOAD, 3, 0, 5)], persistent=0))
    case("initial-stored", "the initial value is stored, and read after a crash of the storing machine: allowed",
         log([(2, 7)], [(MSTORE, 3, 0, 0), (LSTORE, 1, 0, 7), (CRASH, 1), (LOAD, 3, 0, 7)]))
    for value, outcome in ((7, "allowed"), (1, "allowed"), (2, "allowed"), (0, "impossible, 4"), (3, "impossible, 4")):
        case(f"initial-memory-{value}", f"one of several values that memory may have: {outcome}",
             log([(1, 7)], [(RSTORE, 2, 0, 1), (RSTORE, 2, 0, 2), (CRASH, 1), (LOAD, 3, 0, value)]))
    stores = [(MSTORE, 3, x, 5) for x in range(3)]
    loads = {"7-9-0": "allowed, no steps", "9-9-0": "impossible, 5", "7-7-0": "impossible, 6", "7-9-7": "impossible, 7",
             "0-0-0": "impossible, 5", "5-9-0": "impossible, 5"}
    for owners, words, crash in (((1, 1, 1), "one owner", (CRASH, 1)), ((1, 2, 1), "two owners", together(1, 2))):
        homes = [(owners[0], 7), (owners[1], 9), owners[2]]
        for values, outcome in loads.items():
            read = [(LOAD, 3, x, int(v)) for x, v in enumerate(values.split("-"))]
            case(f"initial-{words.replace(' ', '-')}-{values}", f"locations of {words}, initially 7, 9 and 0, all "
                 f"lost, loads of {values.replace('-', ', ')}: {outcome}",
                 log(homes, stores + [crash] + read, persistent=0))
    mixed = [(MSTORE, 1, x, x + 1) for x in range(4)] + [together(1, 2, 4)]
    for values, outcome in (((11, 2, 3, 14), "allowed, no steps"), ((1, 2, 3, 14), "impossible, 6"),
                            ((11, 12, 3, 14), "impossible, 7"), ((11, 2, 13, 14), "impossible, 8"),
                            ((11, 2, 3, 0), "impossible, 9"), ((11, 2, 3, 11), "impossible, 9")):
        read = [(LOAD, 3, x, v) for x, v in enumerate(values)]
        case(f"initial-mixed-{'-'.join(map(str, values))}", "initially 11 to 14, owners 1, 2 and 4 in the set, 2 "
             f"persistent, a volatile owner 3 outside, loads of {', '.join(map(str, values))}: {outcome}",
             log([(k, 10 + k) for k in (1, 2, 3, 4)], mixed + read, machines=4, persistent=0b0010))
    for form, letter, outcome in ((LRMW, "L", "allowed, no steps"), (RRMW, "R", "allowed, no steps"),
                                  (MRMW, "M", "impossible, 3")):
        again = [(form, 1, 0, 7, 8), together(1, 3), (form, 2, 0, 7, 8)]
        case(f"initial-rmw-{letter}", f"7 to 8 by {letter}-RMW, set crash with the owner, again 7 to 8: {outcome}",
             log([(3, 7)], again))
        case(f"initial-rmw-{letter}-volatile", "the same with a volatile owner: allowed, no steps",
             log([(3, 7)], again, persistent=0))
        case(f"initial-rmw-{letter}-volatile-0", "the same, and the last reads 0: impossible, 3",
             log([(3, 7)], again[:2] + [(form, 2, 0, 0, 8)], persistent=0))
        case(f"initial-rmw-{letter}-0", f"an {letter}-RMW that reads 0 where the initial value is 7: impossible, 1",
             log([(3, 7)], [(form, 1, 0, 0, 8)]))
        case(f"initial-rmw-{letter}-chain", f"three {letter}-RMWs, the first of the initial value, both bytes: allowed",
             log([(3, 0x0102)], [(form, 1, 0, 0x0102, 0x0201), (form, 2, 0, 0x0201, 0x0102), (form, 3, 0, 0x0102, 0)]))
    turns = [e for n in range(1, 13) for e in ((LSTORE, 1, 0, n), together(1, 2), (LOAD, 3, 0, 7))]
    case("initial-turns", "12 values that are lost with the volatile owner, and then 0: impossible, 38",
         log([(2, 7)], turns + [(CRASH, 2), (LOAD, 1, 0, 0)], persistent=0))
    back = [(LSTORE, 2, 0, 1), together(2, 3), (LSTORE, 3, 0, 2), together(1, 3), (LSTORE, 2, 0, 3), together(1, 2)]
    case("initial-back", "several set crashes, and the initial value: allowed",
         log([(1, 7)], back + [(LOAD, 3, 0, 7), (RFLUSH, 3, 0), together(1, 2, 3), (LOAD, 3, 0, 7)]))
    case("initial-back-0", "the same and 0: impossible, 7", log([(1, 7)], back + [(LOAD, 3, 0, 0)]))


def kind_logs():
    """Kinds: a crash of the owner asks each location whether its memory is volatile."""
    case("kind-length-2", "a location with a kind and no events: allowed, no steps", log([(1, 0, VOLATILE)], []))
    for (letter, both, kept), results in AFTER_CRASH.items():
        form = {"L": LSTORE, "R": RSTORE, "M": MSTORE}[letter]
        crash, which = (together(1, 2), "set") if both else ((CRASH, 2), "owner")
        memory, owner = ("persistent", "volatile") if kept else ("volatile", "persistent")
        for value, outcome in zip((7, 5, 0), results + ("impossible, 3",)):
            case(f"kind-{letter}-{which}-{memory}-{value}", f"{memory} memory of a {owner} owner, initially 7, {letter}"
                 f"Store of 5, crash of the owner{' and the storing machine' if both else ''}, load of {value}: "
                 f"{outcome}", log([(2, 7, kind_of(kept))], [(form, 1, 0, 5), crash, (LOAD, 3, 0, value)],
                                   persistent=0 if kept else 0b111))
    for kept, memory, owners in ((False, "volatile", 0b111), (True, "persistent", 0)):
        home, filled = [(2, 0, kind_of(kept))], [(2, 7, kind_of(kept))]
        for name, crash in (("one", (CRASH, 3)), ("set", together(1, 3))):
            for value, outcome in ((5, "allowed, no steps"), (7, "impossible, 3")):
                case(f"kind-other-{name}-{memory}-{value}", f"{memory} memory, and crashes of other machines than its "
                     f"owner, load of {value}: {outcome}",
                     log(filled, [(MSTORE, 1, 0, 5), crash, (LOAD, 1, 0, value)], persistent=owners))
        for value, outcome in ((7, "allowed, no steps"), (0, "impossible, 2")):
            case(f"kind-first-{memory}-{value}", f"{memory} memory, a crash of its owner, load of {value}: {outcome}",
                 log(filled, [(CRASH, 2), (LOAD, 1, 0, value)], persistent=owners))
        flushes = {(LFLUSH, False): ("allowed, one step", "impossible, 4"),
                   (LFLUSH, True): ("allowed, one step", "allowed, two steps"),
                   (RFLUSH, False): ("allowed, two steps", "impossible, 4"),
                   (RFLUSH, True): ("impossible, 4", "allowed, two steps")}
        for flush, words in ((LFLUSH, "LFlush"), (RFLUSH, "RFlush")):
            for value, outcome in zip((7, 5), flushes[flush, kept]):
                case(f"kind-{words}-{memory}-{value}", f"{memory} memory, LStore and {words} by another machine, crash "
                     f"of the owner, load of {value}: {outcome}",
                     log(filled, [(LSTORE, 1, 0, 5), (flush, 1, 0), (CRASH, 2), (LOAD, 1, 0, value)],
                         persistent=owners))
        back = "allowed, two steps" if kept else "impossible, 4"
        for name, crashes, outcome in (("apart", [(CRASH, 2), (CRASH, 1)], "allowed, one step"),
                                       ("apart-back", [(CRASH, 1), (CRASH, 2)], back),
                                       ("together", [together(1, 2)], back.replace("4", "3"))):
            case(f"kind-{name}-{memory}", f"{memory} memory, a copy of 1 and crashes of 2, its owner, and 1, {name}: "
                 f"{outcome}", log(home, [(LSTORE, 1, 0, 5), *crashes, (LOAD, 3, 0, 5)], persistent=owners))
        for value in (7, 1, 2, 3):
            outcome = "allowed" if value == 7 or kept and value != 3 else "impossible, 4"
            case(f"kind-memory-{memory}-{value}", f"one of the values that {memory} memory may have: {outcome}",
                 log(filled, [(RSTORE, 3, 0, 1), (RSTORE, 3, 0, 2), (CRASH, 2), (LOAD, 3, 0, value)],
                     persistent=owners))
        late = [(LSTORE, 1, 0, 5), (CRASH, 2), (RFLUSH, 3, 0), (CRASH, 2)]
        for value, outcome in ((5, "allowed, two steps" if kept else "impossible, 5"),
                               (7, "allowed, one step")):
            case(f"kind-late-{memory}-{value}", f"{memory} memory, a copy that may outlive a crash, flushed before the "
                 f"next, load of {value}: {outcome}", log(filled, late + [(LOAD, 3, 0, value)], persistent=owners))
        for form, letter in ((LRMW, "L"), (RRMW, "R"), (MRMW, "M")):
            again = [(form, 1, 0, 7, 8), together(1, 2), (form, 3, 0, 7, 8)]
            outcome = "impossible, 3" if kept and letter == "M" else "allowed, no steps"
            case(f"kind-rmw-{letter}-{memory}", f"{memory} memory, 7 to 8 by {letter}-RMW, set crash with the owner, "
                 f"again 7 to 8: {outcome}", log(filled, again, persistent=owners))
            steps = {"L": "allowed, two steps", "R": "allowed, one step", "M": "allowed, no steps"}[letter]
            case(f"kind-rmw-{letter}-{memory}-kept", f"the same, and 8 to 9: {steps if kept else 'impossible, 3'}",
                 log(filled, again[:2] + [(form, 3, 0, 8, 9)], persistent=owners))
        # The journal is the persistent location of host 2, the index the volatile one.
        journal, index = (2, (2, 0, VOLATILE)) if owners else ((2, 0, PERSISTENT), 2)
        host = "persistent" if owners else "volatile"
        stores = [(MSTORE, 1, 0, 5), (MSTORE, 1, 1, 6)]
        for crash, which in (((CRASH, 2), "owner"), (together(2, 3), "set")):
            for values, outcome in (((5, 0), "allowed, no steps"), ((5, 6), "impossible, 5"), ((0, 0), "impossible, 4"),
                                    ((0, 6), "impossible, 4")):
                read = [(LOAD, 3, x, v) for x, v in enumerate(values)]
                case(f"kind-journal-{host}-{which}-{values[0]}-{values[1]}", f"journal and index of a {host} host, "
                     f"MStores of 5 and 6, crash of the {which}, loads of {values[0]} and {values[1]}: {outcome}",
                     log([journal, index], stores + [crash] + read, persistent=owners))
        for crash, which in (((CRASH, 3), "another"), (together(1, 3), "others")):
            for values, outcome in (((5, 6), "allowed, no steps"), ((5, 0), "impossible, 5")):
                read = [(LOAD, 3, x, v) for x, v in enumerate(values)]
                case(f"kind-journal-{host}-{which}-{values[0]}-{values[1]}", "the same, crash of "
                     f"{which}, loads of {values[0]} and {values[1]}: {outcome}",
                     log([journal, index], stores + [crash] + read, persistent=owners))
        cached = [(RSTORE, 1, 0, 5), (RSTORE, 1, 1, 6), (CRASH, 2)]
        for values, outcome in (((5, 0), "allowed, one step"), ((0, 0), "allowed, no steps"), ((5, 6), "impossible, 5"),
                                ((0, 6), "impossible, 5")):
            case(f"kind-cached-{host}-{values[0]}-{values[1]}", f"RStores of 5 and 6 to the journal and the index of a "
                 f"{host} host, its crash, loads of {values[0]} and {values[1]}: {outcome}",
                 log([journal, index], cached + [(LOAD, 3, x, v) for x, v in enumerate(values)], persistent=owners))
        turns = [e for n in range(1, 11) for e in ((LSTORE, 1, 0, n), (RSTORE, 1, 1, n), (RFLUSH, 1, 0), (CRASH, 2),
                                                   (LOAD, 3, 0, n), (LOAD, 3, 1, 0))]
        case(f"kind-turns-{host}", f"10 values that the journal of a {host} host keeps and its index loses: allowed, "
             "20 steps",
             log([journal, index], turns, persistent=owners))
        case(f"kind-turns-{host}-index", "the same, and the last value of the index: impossible, 60",
             log([journal, index], turns[:-1] + [(LOAD, 3, 1, 10)], persistent=owners))
        case(f"kind-turns-{host}-journal", "the same, and the last but one of the journal: impossible, 59",
             log([journal, index], turns[:-2] + [(LOAD, 3, 0, 9)], persistent=owners))
    parts = [(1, 11, VOLATILE), (2, 12, PERSISTENT), 1, 2, (3, 15, PERSISTENT), (3, 16)]
    stores = [(MSTORE, 3, x, x + 1) for x in range(6)] + [together(1, 2)]
    for values, outcome in (((11, 2, 3, 0, 5, 6), "allowed, no steps"), ((1, 2, 3, 0, 5, 6), "impossible, 8"),
                            ((11, 12, 3, 0, 5, 6), "impossible, 9"), ((11, 2, 0, 0, 5, 6), "impossible, 10"),
                            ((11, 2, 3, 4, 5, 6), "impossible, 11"), ((11, 2, 3, 0, 15, 6), "impossible, 12"),
                            ((11, 2, 3, 0, 5, 16), "impossible, 13")):
        read = [(LOAD, 3, x, v) for x, v in enumerate(values)]
        case(f"kind-mixed-{'-'.join(map(str, values))}", "both kinds of memory of persistent 1 and volatile 2 in the "
             f"set and of volatile 3 outside, loads of {', '.join(map(str, values))}: {outcome}",
             log(parts, stores + read, persistent=0b001))
    passed_on = [(RSTORE, 1, 0, 1), (LOAD, 2, 0, 1), (RSTORE, 2, 1, 1), (CRASH, 2), (LOAD, 1, 1, 1), (LOAD, 1, 0, 0)]
    case("kind-passed-on", "a value read, passed on and lost with the owner's volatile part: allowed",
         log([(2, 0, VOLATILE), 1], passed_on))
    case("kind-passed-on-M", "the same with MStore first: allowed, no steps",
         log([(2, 0, VOLATILE), 1], [(MSTORE, 1, 0, 1)] + passed_on[1:]))
    case("kind-passed-on-persistent", "the same where the part of a volatile owner is persistent: impossible, 6",
         log([(2, 0, PERSISTENT), 1], [(MSTORE, 1, 0, 1)] + passed_on[1:], persistent=0))
    case("kind-least-event", "three locations with kinds, each impossible at an event of its own: impossible, 5",
         log([(1, 0, VOLATILE), (2, 0, VOLATILE), (3, 0, VOLATILE)], [(MSTORE, 1, x, 1) for x in range(3)]
             + [together(1, 2, 3), (LOAD, 1, 1, 1), (LOAD, 1, 2, 1), (LOAD, 1, 0, 1)]))
    case("kind-crashes", "kinds and crashes alone: allowed, no steps",
         log([(1, 7, VOLATILE), 2, (3, 0, VOLATILE)], [(CRASH, 1), together(1, 2, 3), (CRASH, 3)]))
    for name, kind, outcome in (("volatile", VOLATILE, "impossible, 7"), ("persistent", PERSISTENT, "allowed")):
        back = [(LSTORE, 2, 0, 1), together(2, 3), (LSTORE, 3, 0, 2), together(1, 3), (LSTORE, 2, 0, 3), together(1, 2)]
        case(f"kind-back-{name}", f"several set crashes, a value from before the first, {name} memory: {outcome}",
             log([(1, 0, kind)], back + [(LOAD, 3, 0, 1)], persistent=0b111 if kind == VOLATILE else 0))


# A value of edition 2, and values that differ from it in one half or in one byte.
NEAR = {65536: (0, 1), 65537: (1, 65536), 65535: (4294967295,), 4294967295: (65535, 4294901760), 1 << 31: (0,),
        0x01020304: (0x01020305, 0x01020404, 0x01030304, 0x02020304, 0x03040102, 0x04030201)}


def edition_logs():
    """Edition 2: a value is equal to another where all its four bytes are."""
    for value, others in NEAR.items():
        for read in (value, *others):
            def outcome(event):
                return "allowed, no steps" if read == value else f"impossible, {event}"

            for form, letter in ((LSTORE, "L"), (RSTORE, "R"), (MSTORE, "M")):
                case(f"wide-{letter}-{value}-{read}", f"{letter}Store of {value}, load of {read}: {outcome(2)}",
                     log([3], [(form, 1, 0, value), (LOAD, 2, 0, read)], edition=2))
            case(f"wide-read-{value}-{read}", f"MStore of {value}, M-RMW of {read} to 0: {outcome(2)}",
                 log([3], [(MSTORE, 1, 0, value), (MRMW, 2, 0, read, 0)], edition=2))
            case(f"wide-written-{value}-{read}", f"L-RMW of 0 to {value}, load of {read}: {outcome(2)}",
                 log([3], [(LRMW, 1, 0, 0, value), (LOAD, 2, 0, read)], edition=2))
            case(f"wide-initial-{value}-{read}", f"initially {value}, load of {read}: {outcome(1)}",
                 log([(3, value)], [(LOAD, 1, 0, read)], edition=2))
            case(f"wide-returns-{value}-{read}", f"initially {value}, MStore of 5, crash of the volatile owner, load "
                 f"of {read}: {outcome(3)}",
                 log([(3, value)], [(MSTORE, 1, 0, 5), (CRASH, 3), (LOAD, 1, 0, read)], persistent=0, edition=2))
    count = [(LRMW, 1, 0, 65534, 65535), (LRMW, 2, 0, 65535, 65536), (LRMW, 1, 0, 65536, 65537)]
    case("wide-counter", "a counter over the edge of 16 bits: allowed, no steps", log([(3, 65534)], count, edition=2))
    case("wide-counter-wraps", "the same, but 65535 is counted to 0 and then from 65536: impossible, 3",
         log([(3, 65534)], [count[0], (LRMW, 2, 0, 65535, 0), count[2]], edition=2))
    case("wide-counter-low", "the same, but the low half of 65536 is counted from: impossible, 3",
         log([(3, 65534)], count[:2] + [(LRMW, 1, 0, 0, 1)], edition=2))
    case("wide-counter-end", "a counter that wraps after 4294967295: allowed, no steps",
         log([(3, 4294967294)], [(MRMW, 1, 0, 4294967294, 4294967295), (MRMW, 2, 0, 4294967295, 0), (LOAD, 1, 0, 0)],
             edition=2))
    for value, outcome in ((7, "allowed"), (65543, "allowed"), (131079, "allowed"), (65536, "impossible, 4"),
                           (0, "impossible, 4"), (196615, "impossible, 4")):
        case(f"wide-memory-{value}", f"one of several values that memory may have, their low halves alike: {outcome}",
             log([(1, 7)], [(RSTORE, 2, 0, 65543), (RSTORE, 2, 0, 131079), (CRASH, 1), (LOAD, 3, 0, value)], edition=2))
    copies = [(LSTORE, 1, 0, 65537), (LOAD, 2, 0, 65537), (CRASH, 1)]
    for value, outcome in ((65537, "allowed, no steps"), (1, "impossible, 4"), (0, "impossible, 4")):
        case(f"wide-copy-{value}", f"a copy of 65537 outlives the storing machine, load of {value}: {outcome}",
             log([3], copies + [(LOAD, 2, 0, value)], edition=2))
    stores = [(MSTORE, 3, x, (x + 1) << 16) for x in range(3)] + [together(1, 2)]
    for values, outcome in (((65543, 131072, 196608), "allowed, no steps"), ((7, 131072, 196608), "impossible, 5"),
                            ((65543, 65536, 196608), "impossible, 6"), ((65543, 131072, 65543), "impossible, 7")):
        read = [(LOAD, 3, x, v) for x, v in enumerate(values)]
        case(f"wide-set-{'-'.join(map(str, values))}", "volatile 1, initially 65543, and persistent 2 in the set, 3 "
             f"outside, loads of {', '.join(map(str, values))}: {outcome}",
             log([(1, 65543), 2, 3], stores + read, persistent=0b110, edition=2))
    for kept, memory, owners in ((False, "volatile", 0b111), (True, "persistent", 0)):
        for value, outcome in ((65543, "impossible, 3" if kept else "allowed, no steps"), (7, "impossible, 3"),
                               (131079, "allowed, no steps" if kept else "impossible, 3")):
            case(f"wide-kind-{memory}-{value}", f"{memory} memory of an owner of the other kind, initially 65543, "
                 f"MStore of 131079, crash of the owner, load of {value}: {outcome}",
                 log([(2, 65543, kind_of(kept))], [(MSTORE, 1, 0, 131079), (CRASH, 2), (LOAD, 3, 0, value)],
                     persistent=owners, edition=2))
    case("wide-steps", "values over 65,535 that are moved and written back before a flush and crashes: allowed",
         log([2], [e for n in range(1, 21) for e in ((LSTORE, 1, 0, n << 16), (RFLUSH, 1, 0), together(1, 2),
                                                     (LOAD, 3, 0, n << 16))], edition=2))
    homes = [(x % 6 + 1, 0x01010101 * x + 65536, kind_of(x % 2)) for x in range(32)]
    turns = [(LRMW, 0), (RRMW, 1), (MRMW, 2), (LRMW, 3)]
    events = [(form, 6 - x % 6, x, homes[x][1] + n, homes[x][1] + n + 1) for form, n in turns for x in range(32)]
    last = homes[31][1] + 3
    for name, read, outcome in (("", last, "allowed"), ("-low", last % 65536, "impossible, 128")):
        case(f"wide-longest{name}", f"32 initial values and kinds and 128 read-modify-writes, 2,088 bytes: {outcome}",
             log(homes, events[:-1] + [(LRMW, 5, 31, read, 0)], machines=6, persistent=0b010101, edition=2))


def full(last, initial=(0,) * 32, differs=(False,) * 32):
    """128 events on 32 locations of six machines, three of them volatile: each location is stored, read elsewhere, put
    through a crash of every machine, read again and flushed; the last event is as given."""
    owners = [x % 6 + 1 for x in range(32)]
    kept = 0b101010
    survives = [(kept >> owner - 1 & 1) != other for owner, other in zip(owners, differs)]
    kinds = [kind_of(survives[x]) if differs[x] else 0 for x in range(32)]
    others = [owner % 6 + 1 for owner in owners]
    events = [(LSTORE, others[x], x, 1000 + x) for x in range(32)]
    events += [(LOAD, others[x] % 6 + 1, x, 1000 + x) for x in range(32)]
    events += [(CRASH, machine) for machine in range(1, 7)]
    events += [(LOAD, 1, x, 1000 + x if survives[x] else initial[x]) for x in range(32)]
    events += [(RFLUSH, 1, x) for x in range(25)]
    return log(zip(owners, initial, kinds), events + [last], machines=6, persistent=kept)


def large_logs():
    case("full", "128 events and 32 locations: allowed", full((LOAD, 6, 31, 1031)))
    case("full-impossible", "128 events and 32 locations: impossible, 128", full((LOAD, 6, 31, 0)))
    pairs = [e for value in range(1, 65) for e in ((LSTORE, 1, 0, value), (RFLUSH, 1, 0))]
    case("most-steps", "64 stores, each moved and written back before a flush: allowed, 128 steps", log([2], pairs))
    case("most-steps-then", "the same, and a load of a value that was overwritten: impossible, 128",
         log([2], pairs[:-1] + [(LOAD, 3, 0, 63)]))
    stores = [(LSTORE, 1, x, x + 1) for x in range(32)]
    loads = [(LOAD, 3, x, x + 1) for x in range(32)]
    flushes = [(RFLUSH, 1, x) for x in range(31)]
    case("steps-at-once", "32 copies moved before one crash and written back before the next: allowed, 64 steps",
         log([2] * 32, stores + [(CRASH, 1), (CRASH, 2)] + loads + flushes + flushes))
    case("events-128", "128 events pass", log([1], [(LSTORE, 1, 0, 1)] * 128))
    case("locations-32", "32 locations pass", log([1] * 32, []))
    filled = [(x % 6 + 1, 0x0101 * x + 0x0100) for x in range(32)]
    read = [(LOAD, 1 + x % 5, x, 0x0101 * x + 0x0100) for x in range(32)]
    lost = [(MSTORE, 6, x, 1) for x in range(32)] + [together(*range(1, 7))]
    case("initial-32", "32 locations with initial values, at the start and after all crash: allowed, no steps",
         log(filled, read + lost + read, machines=6, persistent=0))
    case("initial-32-last", "the same, and the last load is of the initial value of the one before: impossible, 97",
         log(filled, read + lost + read[:-1] + [(LOAD, 1, 31, 0x0101 * 30 + 0x0100)], machines=6, persistent=0))
    values = [initial for _, initial in filled]
    case("initial-full", "128 events and 32 locations with initial values: allowed", full((LOAD, 6, 31, 1031), values))
    quarters = [(LRMW, 0), (RRMW, 1), (MRMW, 2), (LRMW, 3)]
    events = [(form, 6 - x % 6, x, filled[x][1] + n, filled[x][1] + n + 1) for form, n in quarters for x in range(32)]
    case("initial-longest", "32 initial values and 128 read-modify-writes, 1,480 bytes: allowed",
         log(filled, events, machines=6, persistent=0b010101))
    # The kind of every second of a machine's locations differs from its owner's; 1, 3 and 5 are persistent.
    parts = [(x // 2 % 6 + 1, 0x0101 * x + 0x0100, x % 2) for x in range(32)]
    survives = [owner % 2 != differs for owner, _, differs in parts]
    mixed = [(owner, initial, kind_of(survives[x]) if differs else 0) for x, (owner, initial, differs) in
             enumerate(parts)]
    lost = [(MSTORE, 6, x, x + 1) for x in range(32)] + [together(*range(1, 7))]
    read = [(LOAD, 1 + x % 5, x, x + 1 if survives[x] else parts[x][1]) for x in range(32)]
    case("kind-32", "32 locations, two of each kind for each machine in turn, read after all crash: allowed, no steps",
         log(mixed, lost + read, machines=6, persistent=0b010101))
    for x, value in ((30, 31), (31, parts[31][1])):
        case(f"kind-32-{x}", f"the same, and L{x} as if its kind were the other: impossible, {34 + x}",
             log(mixed, lost + read[:x] + [(LOAD, 1, x, value)], machines=6, persistent=0b010101))
    differs = [x // 6 % 2 == 1 for x in range(32)]
    case("kind-full", "128 events and 32 locations, of each machine some of the other kind: allowed",
         full((LOAD, 6, 31, values[31]), values, differs))
    case("kind-full-impossible", "the same, and the last load as if L31 had its owner's kind: impossible, 128",
         full((LOAD, 6, 31, 1031), values, differs))
    homes = [(owner, initial, kind_of(owner % 2 == 0)) for owner, initial in filled]
    for name, last, outcome in (("", events[-1], "allowed"),
                                ("-last", events[-1][:3] + (0, 0), "impossible, 128")):
        case(f"kind-longest{name}", f"32 initial values and kinds and 128 read-modify-writes, 1,512 bytes: {outcome}",
             log(homes, events[:-1] + [last], machines=6, persistent=0b010101))


def refusals():
    good = log([1], [(RSTORE, 1, 0, 1)])
    case("refused-1", "no output: number 1", good, output=0)
    case("refused-2", "an empty file: number 2", b"")
    case("refused-2-cut", "a payload that is not whole: number 2", head(3, 7)[:-1])
    case("refused-2-end", "no end field: number 2", good[:-3])
    case("refused-3", "an unknown tag: number 3", head(3, 7) + field(0x07) + END)
    case("refused-3-edition", "a 06 that is not the first field: number 3", head(3, 7) + field(0x06) + END)
    case("refused-3-first", "no head: number 3", row(1) + END)
    case("refused-4", "a location of length 5: number 4", head(3, 7) + field(0x02, 1, 7, 0, VOLATILE, 0) + END)
    case("refused-4-rmw", "a read-modify-write of length 5: number 4", head(3, 7) + field(0x05, 8, 1, 0, 0, 0) + END)
    case("refused-5", "no machines: number 5", head(0, 0) + END)
    case("refused-5-seven", "7 machines: number 5", head(7, 0) + END)
    case("refused-5-absent", "a persistent bit of an absent machine: number 5", head(3, 8) + END)
    case("refused-6", "owner 4 of 3: number 6", log([4], []))
    case("refused-7", "a 129th event: number 7", log([1], [(LSTORE, 1, 0, 1)] * 129))
    case("refused-7-locations", "a 33rd location: number 7", log([1] * 33, []))
    case("refused-8", "operation 0: number 8", log([1], [(0, 1)]))
    case("refused-8-last", "operation 8 after an impossible event: number 8", log([1], [(LOAD, 1, 0, 1), (8, 1)]))
    case("refused-8-rmw", "an operation 7 with two values: number 8", log([1], [(CRASH, 1, 0, 0, 0)]))
    case("refused-8-one", "an operation 10 with one value: number 8", log([1], [(MRMW, 1, 0, 0)]))
    case("refused-8-twelve", "operation 12: number 8", log([1], [(12, 0, 3)]))
    case("refused-8-set", "a set crash with two values: number 8", log([1], [together(1, 2) + (0, 0)]))
    case("refused-9", "machine 4 of 3: number 9", log([1], [(CRASH, 4)]))
    case("refused-9-rmw", "an R-RMW by machine 4 of 3: number 9", log([1], [(RRMW, 4, 0, 0, 0)]))
    case("refused-10", "location 1 of 1: number 10", log([1], [(LOAD, 1, 1, 0)]))
    case("refused-10-rmw", "an M-RMW of location 1 of 1: number 10", log([1], [(MRMW, 1, 1, 0, 0)]))
    case("refused-11", "a crash with a location: number 11", log([1], [(CRASH, 1, 1)]))
    case("refused-11-set", "a set crash with a machine, before its empty set: number 11", log([1], [(SETCRASH, 1, 0)]))
    case("refused-11-set-value", "a set crash with a value: number 11", log([1], [together(1, 2) + (256,)]))
    case("refused-12", "a byte after the end: number 12", good + b"\0")
    zero = field(0x02, 1, 0, 0)
    case("refused-14", "an initial value 0 in the long form: number 14", head(3, 7) + zero + END)
    case("refused-14-second", "the same in a second location: number 14", head(3, 7) + row(1, 7) + zero + END)
    case("refused-14-first", "an initial value 0, before an owner 4 of 3: number 14", head(3, 7) + zero + row(4) + END)
    case("refused-14-tail", "the same, before a byte after the end: number 14", head(3, 7) + zero + END + b"\0")
    case("refused-2-initial", "an initial value without its high byte: number 2", head(3, 7) + row(1, 7)[:-1])
    case("refused-3-initial", "a location with an initial value 0 after an event: number 3", good[:-3] + zero + END)
    case("refused-4-initial", "a location of length 5, before its initial value 0 and its kind 0: number 4",
         head(3, 7) + field(0x02, 1, 0, 0, 0, 0) + END)
    case("refused-6-initial", "owner 4 of 3 with an initial value: number 6", log([(4, 7)], []))
    case("refused-6-zero", "owner 4 of 3 with an initial value 0: number 6", head(3, 7) + field(0x02, 4, 0, 0) + END)
    case("refused-7-initial", "a 33rd location, with an initial value 0: number 7", log([1] * 32, [])[:-3] + zero + END)
    case("refused-10-initial", "location 2 of 2 with initial values: number 10", log([(1, 7)] * 2, [(LOAD, 1, 2, 7)]))
    for owners, persistent, own in (("persistent", 7, PERSISTENT), ("volatile", 0, VOLATILE)):
        for kind in (0, own, 3, 255):
            words = "its owner's own kind" if kind == own else f"kind {kind}"
            case(f"refused-16-{owners}-{kind}", f"{words} of a {owners} owner: number 16",
                 head(3, persistent) + field(0x02, 2, kind) + END)
            case(f"refused-16-{owners}-{kind}-initial", "the same after an initial value: number 16",
                 head(3, persistent) + field(0x02, 2, 7, 0, kind) + END)
    none = field(0x02, 1, 0)
    case("refused-16-others", "kind 1 of a volatile owner, the others persistent: number 16",
         log([(2, 0, VOLATILE)], [], persistent=0b101))
    case("refused-16-second", "kind 0 in a second location: number 16", head(3, 7) + row(1, 0, VOLATILE) + none + END)
    case("refused-16-first", "kind 0, before an owner 4 of 3: number 16", head(3, 7) + none + row(4) + END)
    case("refused-16-event", "kind 0, before an operation 0: number 16", head(3, 7) + none + event(0, 1) + END)
    case("refused-16-tail", "kind 0, before a byte after the end: number 16", head(3, 7) + none + END + b"\0")
    case("refused-6-kind", "owner 4 of 3 with kind 0: number 6", head(3, 7) + field(0x02, 4, 0) + END)
    case("refused-6-kind-initial", "owner 4 of 3 with an initial value 0 and kind 0: number 6",
         head(3, 7) + field(0x02, 4, 0, 0, 0) + END)
    case("refused-14-kind", "an initial value 0 with a kind: number 14", head(3, 7) + field(0x02, 1, 0, 0, 1) + END)
    case("refused-14-kind-0", "an initial value 0, before its kind 0: number 14",
         head(3, 7) + field(0x02, 1, 0, 0, 0) + END)
    case("refused-2-kind", "a location without its kind: number 2", head(3, 7) + row(1, 0, VOLATILE)[:-1])
    case("refused-2-kind-initial", "the same after an initial value: number 2", head(3, 7) + row(1, 7, VOLATILE)[:-1])
    case("refused-3-kind", "a location with kind 0 after an event: number 3", good[:-3] + none + END)
    case("refused-7-kind", "a 33rd location with a kind: number 7", log([(1, 0, VOLATILE)] * 33, []))
    case("refused-7-kind-0", "a 33rd location, with kind 0: number 7", log([1] * 32, [])[:-3] + none + END)
    case("refused-10-kind", "location 2 of 2 with kinds: number 10", log([(1, 7, VOLATILE)] * 2, [(LOAD, 1, 2, 7)]))
    case("refused-15", "a set crash of no machine, before its value: number 15", log([1], [(SETCRASH, 0, 0, 1)]))
    case("refused-15-one", "a set crash of machine 2 alone: number 15", log([1], [together(2)]))
    case("refused-15-absent", "a set crash of machines 1, 2 and 4 of 3: number 15", log([1], [together(1, 2, 4)]))
    case("refused-15-seven", "a set crash of machines 6 and 7 of 6: number 15", log([1], [together(6, 7)], machines=6))
    case("refused-15-single", "a set crash of machines 1 and 2 of 1: number 15", log([1], [together(1, 2)], machines=1))
    case("refused-15-last", "a set crash of no machine after an impossible event: number 15",
         log([1], [(LOAD, 1, 0, 1), (SETCRASH, 0, 0)]))


def edition_refusals():
    """What is refused in edition 2."""
    first = head(3, 7, 2)
    good = log([1], [(RSTORE, 1, 0, 65536)], edition=2)
    case("wide-refused-2", "no end field: number 2", good[:-3])
    case("wide-refused-2-value", "an event without the last byte of its value: number 2", good[:-4])
    case("wide-refused-3", "a second 06: number 3", first + first + END)
    case("wide-refused-3-first", "a 01 after the 06: number 3", first + head(3, 7) + END)
    for name, one in (("initial", row(1, 7)), ("kind", row(1, 7, VOLATILE)), ("event", event(CRASH, 1)),
                      ("rmw", event(LRMW, 1, 0, 0, 0))):
        case(f"wide-refused-4-{name}", "a field of edition 1 after the 06: number 4", first + row(1) + one + END)
    for name, one in (("initial", row(1, 7, edition=2)), ("kind", row(1, 7, VOLATILE, 2)),
                      ("event", event(CRASH, 1, edition=2)), ("rmw", event(LRMW, 1, 0, 0, 0, edition=2))):
        case(f"narrow-refused-4-{name}", "a field of edition 2 after the 01: number 4", head(3, 7) + row(1) + one + END)
    case("wide-refused-5", "no machines: number 5", head(0, 0, 2) + END)
    case("wide-refused-6", "owner 4 of 3 with initial value 0 and kind 0: number 6",
         first + field(2, 4, *[0] * 5) + END)
    case("wide-refused-7", "a 129th event: number 7", log([1], [(LSTORE, 1, 0, 65536)] * 129, edition=2))
    case("wide-refused-7-locations", "a 33rd location: number 7", log([(1, 65536)] * 33, [], edition=2))
    case("wide-refused-8", "operation 0 after an impossible event: number 8",
         log([1], [(LOAD, 1, 0, 65536), (0, 1)], edition=2))
    case("wide-refused-9", "machine 4 of 3: number 9", log([1], [(LOAD, 4, 0, 65536)], edition=2))
    case("wide-refused-10", "location 1 of 1: number 10", log([1], [(LOAD, 1, 1, 65536)], edition=2))
    for n in range(4):
        case(f"wide-refused-11-{n + 1}", f"a crash with byte {n + 1} of its value: number 11",
             log([1], [(CRASH, 1, 0, 1 << 8 * n)], edition=2))
    case("wide-refused-12", "a byte after the end: number 12", good + b"\0")
    case("wide-refused-14", "initial value 0, before its kind 0: number 14", first + field(2, 1, *[0] * 5) + END)
    case("wide-refused-15", "a set crash of one machine, before its value: number 15",
         log([1], [(SETCRASH, 0, 4, 65536)], edition=2))
    case("wide-refused-16", "initial value 65536 with its owner's own kind: number 16",
         log([(1, 65536, PERSISTENT)], [], edition=2))
    case("wide-offset", "an offset in a larger output, and 5,000 numbers: allowed", good, 4000, 1000, 5000)
    case("wide-output-short", "an output of 1,543 bytes: number 1", good, output=1543)
    case("wide-scratch-short", "a short scratch area before a refused log: number 1", good[:-1], scratch=4095)


def areas():
    good = log([2], [(LSTORE, 1, 0, 1), (RFLUSH, 1, 0)])
    bad = log([1], [(LOAD, 1, 0, 1)])
    case("offset", "an offset in the middle of a larger output: allowed", good, 4000, 1000)
    case("offset-impossible", "the same for an impossible log", bad, 4000, 2000)
    case("offset-refused", "the same for a refused log: number 9", log([1], [(CRASH, 4)]), 4000, 1000)
    case("offset-last", "1,544 bytes after the offset: allowed", good, 1744, 200)
    case("offset-short", "1,543 bytes after the offset: number 1", good, 1744, 201)
    case("output-short", "an output of 1,543 bytes: number 1", good, 1543)
    case("offset-end", "an offset at the end of the output: number 1", good, 2000, 2000)
    case("offset-past", "an offset past the output: number 1", good, 2000, 2001)
    case("offset-far", "an offset near the largest number: number 1", good, 2000, 2**64 - 7)
    case("scratch-4095", "a scratch area of 4,095 numbers: number 1", good, scratch=4095)
    case("scratch-0", "no scratch area: number 1", good, scratch=0)
    case("scratch-5000", "a scratch area of 5,000 numbers: allowed", good, scratch=5000)
    case("scratch-5000-impossible", "the same for an impossible log", bad, scratch=5000)
    case("full-5000", "128 events and 32 locations at an offset, with 5,000 numbers: allowed",
         full((LOAD, 6, 31, 1031)), 4000, 2456, 5000)
    case("short-first", "a short output before a refused log: number 1", b"", output=1543)
    case("short-scratch-first", "a short scratch area before a refused log: number 1", b"", scratch=4095)
    lost = [(LSTORE, 1, 0, 5), (LFLUSH, 1, 0), (CRASH, 2)]
    case("initial-offset", "an initial value, an offset and a larger scratch area: allowed, one step",
         log([(2, 7)], lost + [(LOAD, 1, 0, 7)], persistent=0), 4000, 1000, 5000)
    case("initial-offset-0", "the same with a load of 0: impossible, 4",
         log([(2, 7)], lost + [(LOAD, 1, 0, 0)], persistent=0), 4000, 1000, 5000)
    zero = head(3, 7) + field(0x02, 1, 0, 0) + END
    case("initial-offset-refused", "an initial value 0, at an offset: number 14", zero, 4000, 1000, 5000)
    case("initial-output-short", "a short output before an initial value 0: number 1", zero, output=1543)
    case("initial-scratch-short", "a short scratch area before an initial value 0: number 1", zero, scratch=4095)
    journal = [(2, 7, PERSISTENT)]
    case("kind-offset", "a kind, an offset and a larger scratch area: allowed, two steps",
         log(journal, lost + [(LOAD, 1, 0, 5)], persistent=0), 4000, 1000, 5000)
    case("kind-offset-0", "the same with a load of 0: impossible, 4",
         log(journal, lost + [(LOAD, 1, 0, 0)], persistent=0), 4000, 1000, 5000)
    none = head(3, 7) + field(0x02, 1, 0) + END
    case("kind-offset-refused", "a kind 0, at an offset: number 16", none, 4000, 1000, 5000)
    case("kind-output-short", "a short output before a kind 0: number 1", none, output=1543)
    case("kind-scratch-short", "a short scratch area before a kind 0: number 1", none, scratch=4095)


def shortest_logs(case=case):
    """Logs with several schedules, of which the shortest is named step by step: events before, location, machine."""
    flushed = [(LOAD, 3, 0, 5), (LFLUSH, 3, 0)]
    case("shortest-fewest", "one step behind the load, or two behind the store: allowed, 2 0 3",
         log([1], [(LSTORE, 2, 0, 5)] + flushed))
    case("shortest-write-back", "a write-back behind the store, or a move behind the load: allowed, 1 0 0",
         log([1], [(RSTORE, 2, 0, 5)] + flushed))
    for value, steps in ((5, "1 0 0"), (0, "2 0 3")):
        case(f"shortest-memory-{value}", f"the same, and {value} is read after all lost their power: allowed, {steps}",
             log([1], [(RSTORE, 2, 0, 5)] + flushed + [together(1, 2, 3), (LOAD, 2, 0, value)]))
    for value, steps in ((5, "1 0 2, 1 0 0"), (0, "1 0 2")):
        later = [(LOAD, 1, 0, 5), (LSTORE, 2, 0, 6), together(1, 2), (LOAD, 1, 0, value)]
        case(f"shortest-later-{value}", f"a flush that needs a move, and {value} is read much later: allowed, {steps}",
             log([1], [(LSTORE, 2, 0, 5), (LFLUSH, 2, 0)] + later))
    copies = [(LSTORE, 3, 0, 5), (LOAD, 2, 0, 5)]
    case("shortest-machine", "either of two copies, and only between two crashes: allowed, 3 0 2",
         log([1], copies + [(CRASH, 1), together(2, 3), (LOAD, 1, 0, 5)]))
    case("shortest-both", "both copies before one flush: allowed, 1 0 3, 1 0 0", log([1], copies + [(RFLUSH, 1, 0)]))
    case("shortest-copies", "a copy of another machine stays: allowed, no steps",
         log([1], copies + [(CRASH, 3), (LOAD, 1, 0, 5)]))
    other = [(LSTORE, 2, 1, 7), (LOAD, 1, 1, 7)]
    for name, between, before in (("early", other, 1), ("crash", [(CRASH, 3)], 1), ("late", [(CRASH, 1)], 2),
                                  ("last", other + [(CRASH, 1)] + other, 4)):
        case(f"shortest-{name}", f"a move as early as nothing is lost by it: allowed, {before} 0 2",
             log([1, 3], [(LSTORE, 2, 0, 5)] + between + [(LFLUSH, 2, 0), (LOAD, 3, 0, 5)]))
    stores, loads = [(LSTORE, 2, 1, 5), (LSTORE, 2, 0, 5)], [(LOAD, 3, 0, 5), (LOAD, 3, 1, 5)]
    case("shortest-locations", "two locations, each behind its own store: allowed, 1 1 2, 2 0 2",
         log([1, 1], stores + [(CRASH, 2)] + loads))
    case("shortest-together", "the same behind one crash, by location: allowed, 3 0 2, 3 1 2",
         log([1, 1], stores + [(CRASH, 1), (CRASH, 2)] + loads))
    case("shortest-merged", "two locations with two steps each: allowed, 1 1 2, 1 1 0, 2 0 2, 2 0 0",
         log([1, 1], stores + [together(1, 2)] + loads))
    case("shortest-volatile", "volatile memory, a copy lost by a crash needs no write-back: allowed, 1 0 2",
         log([(1, 7)], [(LSTORE, 2, 0, 5), (CRASH, 1), (RFLUSH, 2, 0), (CRASH, 1), (LOAD, 3, 0, 7)], persistent=0))
    case("shortest-rmw", "read-modify-writes, a flush after each, and the first value is read: allowed, 1 0 2, 1 0 0, "
         "3 0 2", log([1], [(LRMW, 2, 0, 0, 5), (LFLUSH, 2, 0), (LRMW, 2, 0, 5, 6), (LFLUSH, 2, 0), together(1, 2, 3),
                            (LOAD, 3, 0, 5)]))
    around = [(CRASH, 3), (LOAD, 3, 0, 5), (CRASH, 1)] * 3
    case("shortest-around", "a copy that outlives crashes by turns: allowed, no steps",
         log([1], [(LSTORE, 2, 0, 5), (LOAD, 3, 0, 5)] + around + [(CRASH, 2), (CRASH, 3), (LOAD, 2, 0, 0)]))
    case("shortest-around-flushed", "the same without the first copy: allowed, 1 0 2, 6 0 3, 9 0 3",
         log([1], [(LSTORE, 2, 0, 5), (LOAD, 3, 0, 5), (LFLUSH, 2, 0)] + around + [(CRASH, 3), (LOAD, 2, 0, 0)]))


def long_schedules():
    """Near the limit of 128 events, with many steps or many ways to choose them."""
    off = [together(1, 2, 3)]
    moved = [e for value in range(1, 42) for e in ((LSTORE, 2, 0, value), (LOAD, 3, 0, value), (LFLUSH, 2, 0))]
    for value, steps in ((0, 41), (1, 42), (20, 42), (41, 42)):
        case(f"moved-{value}", f"41 values, each moved once, then {value} is read: allowed, {steps} steps",
             log([1], moved + off + [(LOAD, 3, 0, value)]))
    case("moved-42", "the same with a value from nowhere: impossible, 125", log([1], moved + off + [(LOAD, 3, 0, 42)]))
    stores = [(LSTORE, 2, 0, value) for value in range(1, 127)]
    for value, steps in ((1, "two steps"), (64, "two steps"), (126, "one step")):
        case(f"overwritten-{value}", f"126 values, one over the other, then {value} is read: allowed, {steps}",
             log([1], stores + [(CRASH, 2), (LOAD, 3, 0, value)]))
    loaded = [(LSTORE, 3, 0, 1)] + [(LOAD, 2, 0, 1), (LFLUSH, 2, 0)] * 62 + off
    case("never-written", "a value 62 times loaded and flushed, then 0 is read: allowed, 62 steps",
         log([1], loaded + [(LOAD, 3, 0, 0)]))
    case("written-once", "the same, then the value is read: allowed, two steps", log([1], loaded + [(LOAD, 3, 0, 1)]))


marked_logs()
small_logs()
rmw_logs()
set_crash_logs()
initial_value_logs()
kind_logs()
large_logs()
refusals()
areas()
for logs in (marked_logs, small_logs, rmw_logs, initial_value_logs):
    logs(in_high_half)
edition_logs()
edition_refusals()
shortest_logs()
shortest_logs(in_high_half)
long_schedules()
