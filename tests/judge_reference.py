#!/usr/bin/env python3
"""Reads the judge's cases of crates/cases/stdin from standard input and prints what the program must print.

Each log is judged anew, from document 01 and requests W-201 to W-204, W-206 and W-211 alone: a location at a time,
forward, with every state that its silent steps can reach. Its shortest schedule is found by what each state has to pay
to the end, a location at a time too, since the states of all locations multiply. The schedule is replayed on the whole
system."""
import sys
from functools import cache
from math import inf

from format_reference import Refused, fields, members
from log_bytes import END, field

LSTORE, RSTORE, MSTORE, LOAD, LFLUSH, RFLUSH, CRASH, LRMW, RRMW, MRMW, SETCRASH = range(1, 12)
STORE_OF = {LRMW: LSTORE, RRMW: RSTORE, MRMW: MSTORE}
LONGEST = 1544
WORDS = 4096
MOST_STEPS = 256


def accepted(data):
    """The records of a log, or the number of its refusal."""
    try:
        records, end = fields(data)
    except Refused as why:
        return None, why.args[0]
    if end is None:
        return None, 2
    return (records, None) if end == len(data) else (None, 12)


# One location: the value that each machine's cache holds, or None, and the value in memory.


def without(caches, machine):
    return caches[:machine - 1] + (None,) + caches[machine:]


def with_copy(caches, machine, value):
    return caches[:machine - 1] + (value,) + caches[machine:]


def move(owner, machine, state):
    """A copy goes to the owner's cache; None where that is not possible."""
    caches, memory = state
    value = caches[machine - 1]
    if machine == owner or value is None:
        return None
    return with_copy(without(caches, machine), owner, value), memory


def write_back(owner, state):
    caches, _ = state
    value = caches[owner - 1]
    return None if value is None else ((None,) * len(caches), value)


def start(records, x):
    return (None,) * records.machines, records.initial[x]


def after(records, x, event, state):
    """The state of location x after an event of it, or a crash; None where the event is not possible."""
    operation, machine, location, value, *written = event
    if operation in STORE_OF:
        loaded = after(records, x, (LOAD, machine, location, value), state)
        store = (STORE_OF[operation], machine, location, *written)
        return None if loaded is None else after(records, x, store, loaded)
    owner = records.owners[x]
    caches, memory = state
    nobody = (None,) * len(caches)
    if operation == LSTORE:
        return with_copy(nobody, machine, value), memory
    if operation == RSTORE:
        return with_copy(nobody, owner, value), memory
    if operation == MSTORE:
        return nobody, value
    if operation == LOAD:
        if caches == nobody:
            return state if memory == value else None
        copies = {copy for copy in caches if copy is not None}
        return (with_copy(caches, machine, value), memory) if copies == {value} else None
    if operation == LFLUSH:
        return state if caches[machine - 1] is None else None
    if operation == RFLUSH:
        return state if caches == nobody else None
    down = members(location) if operation == SETCRASH else [machine]
    for machine in down:
        caches = without(caches, machine)
    return caches, records.initial[x] if owner in down and not records.kept[x] else memory


def silent_steps(owner, state):
    """The silent steps that are possible, by their machines, 0 for the write-back, and the state after each."""
    moves = [move(owner, machine, state) for machine in range(1, len(state[0]) + 1)]
    return [(machine, new) for machine, new in enumerate([write_back(owner, state)] + moves) if new is not None]


def silently(owner, states):
    """The states that silent steps reach from some of these, breadth first."""
    seen = set(states)
    wave = list(states)
    while wave:
        ahead = []
        for state in wave:
            for _, new in silent_steps(owner, state):
                if new not in seen:
                    seen.add(new)
                    ahead.append(new)
        wave = ahead
    return seen


def concerns(event, location):
    return event[0] in (CRASH, SETCRASH) or event[2] == location


def first_impossible_at(records, location):
    """The least e such that the first e events have no run at this location, or None."""
    owner = records.owners[location]
    states = {start(records, location)}
    for e, event in enumerate(records.events, 1):
        if concerns(event, location):
            reached = silently(owner, states)
            states = {new for state in reached if (new := after(records, location, event, state)) is not None}
            if not states:
                return e
    return None


def first_impossible(records):
    found = [first_impossible_at(records, x) for x in range(len(records.owners))]
    return min((e for e in found if e is not None), default=0)


# The shortest schedule: the fewest silent steps, and among equals the smallest numbers at the first difference.


def shortest_at(records, x):
    """The shortest schedule at location x, which must have a run: the least step that lowers what is left to pay, each
    as early as it can, and the next event where none does."""
    owner = records.owners[x]
    events = [(number, event) for number, event in enumerate(records.events, 1) if concerns(event, x)]

    @cache
    def cost(passed, state):
        """The fewest silent steps of a run of the events that are left; infinite where there is none."""
        if passed == len(events):
            return 0
        new = after(records, x, events[passed][1], state)
        return min([inf if new is None else cost(passed + 1, new)]
                   + [1 + cost(passed, new) for _, new in silent_steps(owner, state)])

    state, passed, found = start(records, x), 0, []
    while cost(passed, state) > 0:
        lower = [step for step in silent_steps(owner, state) if cost(passed, step[1]) < cost(passed, state)]
        if lower:
            machine, state = lower[0]
            found.append((events[passed - 1][0], x, machine))
        else:
            state = after(records, x, events[passed][1], state)
            passed += 1
    return found


def shortest(records):
    """By events before, then by location; the order inside a location stays."""
    found = [step for x in range(len(records.owners)) for step in shortest_at(records, x)]
    return sorted(found, key=lambda step: step[0])


# A schedule on the whole system.


def replays(records, steps):
    """Whether events and steps, each step after so many events, are a run."""
    states = [start(records, x) for x in range(len(records.owners))]
    at = 0
    for passed in range(len(records.events) + 1):
        while at < len(steps) and steps[at][0] == passed:
            _, location, machine = steps[at]
            owner = records.owners[location]
            state = states[location]
            states[location] = move(owner, machine, state) if machine else write_back(owner, state)
            if states[location] is None:
                return False
            at += 1
        if passed < len(records.events):
            event = records.events[passed]
            for x, state in enumerate(states):
                if concerns(event, x):
                    states[x] = after(records, x, event, state)
                    if states[x] is None:
                        return False
    return at == len(steps)


def most_steps(records):
    """Twice the stores and once the loads; a read-modify-write counts as a store."""
    return sum(2 if e[0] in (LSTORE, RSTORE, MSTORE, *STORE_OF) else e[0] == LOAD for e in records.events)


# What is printed of a case.

AFTER_A_VERDICT = ["output outside the file as it was", "scratch all zero"]
AFTER_A_REFUSAL = ["output as it was", "scratch as it was"]


def answer(line):
    """What must be printed of a case."""
    name, log, *numbers = line.removeprefix("j ").split(" ")
    output, offset, scratch = map(int, numbers)
    records, number = accepted(bytes.fromhex(log))
    if offset > output or output - offset < LONGEST or scratch < WORDS:
        number = 1
    if number is not None:
        return [f"{name} number {number}"] + AFTER_A_REFUSAL
    event = first_impossible(records)
    if event:
        verdict, file, replayed = f"impossible {event}", field(0x10, 0, event) + END, "number 13"
    else:
        steps = shortest(records)
        assert replays(records, steps) and len(steps) <= min(most_steps(records), MOST_STEPS)
        file = field(0x10, 1, 0) + b"".join(field(0x11, *step) for step in steps) + END
        verdict, replayed = f"allowed {len(steps)}", "yes"
    return [f"{name} {verdict} {len(file)}", f"file {file.hex()}", f"replay {replayed}"] + AFTER_A_VERDICT


def answers():
    for line in sys.stdin.read().split("\n")[:-1]:
        print(*(answer(line) if line.startswith("j ") else [line]), sep="\n")


if __name__ == "__main__":
    answers()
