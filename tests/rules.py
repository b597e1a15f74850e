#!/usr/bin/env python3
"""A replay and a judge written from docs/RULES.md alone, to show that the page is enough for both: they must agree with
what is stored for every example and for every case of replay in crates/cases. format_reference.py reads the logs."""
import sys
from collections import namedtuple
from pathlib import Path

from format_reference import members, whole

ROOT = Path(__file__).resolve().parent.parent
LSTORE, RSTORE, MSTORE, LOAD, LFLUSH, RFLUSH, CRASH, LRMW, RRMW, MRMW, SET_CRASH = range(1, 12)

Location = namedtuple("Location", "number owner persistent initial")
State = namedtuple("State", "holders copy memory")  # of a location; copy is None where no cache holds it

# ---- the rules: the state of a location after an event or a silent step, None where that is not possible


def load(i, v, state):
    if not state.holders:
        return state if state.memory == v else None
    return state._replace(holders=state.holders | {i}) if state.copy == v else None


def store(operation, i, v, location, state):
    if operation == MSTORE:
        return State(frozenset(), None, v)
    return State(frozenset([i if operation == LSTORE else location.owner]), v, state.memory)


def crash(machines, location, state):
    left = state.holders - set(machines)
    lost = location.owner in machines and not location.persistent
    return State(left, state.copy if left else None, location.initial if lost else state.memory)


def after_event(event, location, state):
    operation, i, x, v, *written = event
    if operation in (CRASH, SET_CRASH):
        return crash([i] if operation == CRASH else members(x), location, state)
    if x != location.number:
        return state
    if operation in (LSTORE, RSTORE, MSTORE):
        return store(operation, i, v, location, state)
    if operation == LFLUSH:
        return None if i in state.holders else state
    if operation == RFLUSH:
        return None if state.holders else state
    loaded = load(i, v, state)
    if operation == LOAD or loaded is None:
        return loaded
    return store({LRMW: LSTORE, RRMW: RSTORE, MRMW: MSTORE}[operation], i, *written, location, loaded)


def after_step(machine, location, state):
    """After a propagate by the machine, or the write-back if it is 0."""
    if (machine or location.owner) not in state.holders:
        return None
    if machine == 0:
        return State(frozenset(), None, state.copy)
    return state._replace(holders=state.holders - {machine} | {location.owner})


# ---- replay and judge


def power_on(records):
    """The locations, and their states."""
    locations = [Location(x, *home) for x, home in enumerate(zip(records.owners, records.kept, records.initial))]
    return locations, [State(frozenset(), None, location.initial) for location in locations]


def replay(records, steps):
    locations, states = power_on(records)
    for passed in range(len(records.events) + 1):
        for _, x, machine in [step for step in steps if step[0] == passed]:
            states[x] = after_step(machine, locations[x], states[x])
            if states[x] is None:
                return f"no {passed}"
        for event in records.events[passed:passed + 1]:  # the next one, if there is one
            states = [after_event(event, *pair) for pair in zip(locations, states)]
            if None in states:
                return f"no {passed}"
    return "yes"


def silently(machines, location, states):
    """These states, and all that silent steps reach from them."""
    found, new = set(), states
    while new:
        found |= new
        new = {after_step(machine, location, state) for machine in machines for state in new} - found - {None}
    return found


def first_impossible(records, location, start):
    """The first impossible event at a location alone, 0 if there is none."""
    machines, states = set(range(records.machines + 1)) - {location.owner}, {start}
    for e, event in enumerate(records.events, 1):
        states = {after_event(event, location, state) for state in silently(machines, location, states)} - {None}
        if not states:
            return e
    return 0


def judge(records):
    """The first impossible event, 0 if there is none."""
    found = [first_impossible(records, *pair) for pair in zip(*power_on(records))]
    return min(filter(None, found), default=0)


# ---- what they are asked: where it stands, what they say, what is stored


def examples():
    """The verdict of each. If allowed, its schedule is a run and, since it is the shortest, not without a step."""
    for path in sorted(ROOT.glob("examples/*/*.log")):
        verdict, *lines, _ = path.with_suffix(".out").read_text().splitlines()
        answer, number = verdict.split(" ")
        if answer == "number":
            continue  # a refused log
        records, steps = whole(path.read_bytes()), [tuple(map(int, line.split(" "))) for line in lines]
        yield path, judge(records), int(number) if answer == "impossible" else 0
        if answer == "allowed":
            yield path, replay(records, steps), "yes"
        for n in range(len(steps)):
            yield f"{path} without step {n + 1}", replay(records, steps[:n] + steps[n + 1:])[:2], "no"


def cases():
    files = [(ROOT / "crates/cases" / name).read_text() for name in ("stdin", "stdout")]
    asked, answers = [file.split("## replay\n")[1].split("## ")[0].splitlines() for file in files]
    for line, answer in zip(asked, answers):
        if line.startswith("s ") and not answer.startswith("number"):
            log, file = map(bytes.fromhex, line.split(" ")[1:])
            steps = [tuple(file[at + 3:at + 6]) for at in range(5, len(file) - 3, 6)]
            yield line, replay(whole(log), steps), answer


checks = [*examples(), *cases()]
wrong = [f"{where}: {found}, not {stored}" for where, found, stored in checks if found != stored]
sys.exit("\n".join(wrong) or None)
