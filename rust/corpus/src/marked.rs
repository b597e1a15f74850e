//! The fourteen marked logs of the specification, and those of requests W-202, W-203 and W-206.

use second::{Edition, Event, Home, Log, Operation, Operation::*};

use crate::{other_part, plain};

/// A marked log: what it is, its records, and its first impossible event or nothing if it is allowed.
#[derive(Debug)]
pub struct Marked {
    /// In words.
    pub name: &'static str,
    /// The records.
    pub log: Log,
    /// The first impossible event.
    pub impossible: Option<u8>,
}

/// Three machines, whose memories are all persistent or all volatile, and the owners of L0, L1 and so on, whose memories
/// start as zero.
fn marked(
    name: &'static str,
    persistent: bool,
    owners: &[u8],
    events: &[(Operation, u8, u8, u32)],
    impossible: Option<u8>,
) -> Marked {
    let homes = owners.iter().map(|&owner| plain(all(persistent), owner, 0)).collect();
    filled(name, persistent, homes, events, impossible)
}

/// All three machines, or none.
fn all(persistent: bool) -> u8 {
    if persistent {
        0b111
    } else {
        0
    }
}

fn filled(
    name: &'static str,
    persistent: bool,
    homes: Vec<Home>,
    events: &[(Operation, u8, u8, u32)],
    impossible: Option<u8>,
) -> Marked {
    let events = events.iter().map(|&(operation, machine, location, value)| Event {
        operation,
        machine,
        location,
        value,
        written: 0,
    });
    let (edition, persistent) = (Edition::First, all(persistent));
    Marked { name, log: Log { edition, machines: 3, persistent, homes, events: events.collect() }, impossible }
}

/// The fourteen, in their order.
pub fn marked_logs() -> Vec<Marked> {
    let crash = |machine| (Crash, machine, 0, 0);
    let (l, r) = ((LStore, 1, 0, 1), (RStore, 1, 0, 1));
    let m = (MStore, 1, 0, 1);
    let load = |machine, value| (Load, machine, 0, value);
    let lflush = |machine| (LFlush, machine, 0, 0);
    let handed_on = |store| [store, load(2, 1), (RStore, 2, 1, 1), crash(2), (Load, 1, 1, 1), load(1, 0)];
    vec![
        marked("an RStore may be lost", true, &[1], &[r, crash(1), load(1, 0)], None),
        marked("an MStore is not lost", true, &[1], &[m, crash(1), load(1, 0)], Some(3)),
        marked("an LFlush by the owner reaches memory", true, &[1], &[l, lflush(1), crash(1), load(1, 0)], Some(4)),
        marked(
            "an LFlush by another reaches only the owner's cache",
            true,
            &[2],
            &[l, lflush(1), crash(2), load(1, 0)],
            None,
        ),
        marked("an RFlush reaches memory", true, &[2], &[l, (RFlush, 1, 0, 0), crash(2), load(1, 0)], Some(4)),
        marked(
            "a load keeps a copy that outlives the writer",
            true,
            &[3],
            &[l, load(2, 1), crash(1), load(2, 0)],
            Some(4),
        ),
        marked(
            "a flushed copy outlives both machines",
            true,
            &[3],
            &[l, load(2, 1), lflush(2), crash(1), crash(2), load(2, 0)],
            Some(6),
        ),
        marked("a value that was seen may be lost", true, &[2, 1], &handed_on(r), None),
        marked("an MStore that was seen is not lost", true, &[2, 1], &handed_on(m), Some(6)),
        marked("no events", true, &[1], &[], None),
        marked("a value from nowhere", true, &[1], &[load(1, 1)], Some(1)),
        marked("volatile memory forgets", false, &[2], &[m, crash(2), load(1, 1)], Some(3)),
        marked(
            "a write-back clears every copy",
            false,
            &[2],
            &[l, load(2, 1), lflush(2), crash(2), load(1, 1)],
            Some(5),
        ),
        marked("a copy may move before its holder crashes", true, &[2], &[l, crash(1), load(2, 1)], None),
    ]
}

/// Memories that are filled with a pattern at power-on: 7 at L0 of machine 2; 7 at L0 of 1 and 9 at L1 of 2.
pub fn patterns() -> [Marked; 7] {
    let one = |persistent| vec![plain(all(persistent), 2, 7)];
    let two = || vec![plain(0, 1, 7), plain(0, 2, 9)];
    let load = |value| (Load, 1, 0, value);
    let crashed = |value| [(MStore, 1, 0, 1), (Crash, 2, 0, 0), load(value)];
    let stores = [(MStore, 3, 0, 1), (MStore, 3, 1, 1), (SetCrash, 0, 0b011, 0)];
    let together = |value| [&stores[..], &[(Load, 3, 0, 7), (Load, 3, 1, value)]].concat();
    [
        filled("the pattern is read back", true, one(true), &[load(7)], None),
        filled("nothing but the pattern is there", true, one(true), &[load(0)], Some(1)),
        filled("volatile memory returns to the pattern", false, one(false), &crashed(7), None),
        filled("volatile memory does not return to 0", false, one(false), &crashed(0), Some(3)),
        filled("persistent memory does not return to the pattern", true, one(true), &crashed(7), Some(3)),
        filled("each location returns to its own pattern", false, two(), &together(9), None),
        filled("no location returns to another's pattern", false, two(), &together(7), Some(5)),
    ]
}

/// Machine 2 has a journal, L0, in persistent memory and an index, L1, in volatile memory, which wakes up as 7: the
/// machines are persistent and the index is in the other part, or they are volatile and the journal is.
pub fn journal_and_index() -> Vec<Marked> {
    let mut logs = Vec::new();
    for persistent in [true, false] {
        let part = |other: bool| if other { other_part } else { plain };
        let homes = || vec![part(!persistent)(all(persistent), 2, 0), part(persistent)(all(persistent), 2, 7)];
        for crash in [(Crash, 2, 0, 0), (SetCrash, 0, 0b011, 0)] {
            let before = [(MStore, 1, 0, 1), (MStore, 1, 1, 1), crash];
            let read = |loads: &[_]| [&before[..], loads].concat();
            let (kept, lost, index) = ((Load, 1, 0, 1), (Load, 1, 0, 0), |value| (Load, 1, 1, value));
            let with = |name, loads: &[_], impossible| filled(name, persistent, homes(), &read(loads), impossible);
            logs.push(with("the journal is kept and the index returns", &[kept, index(7)], None));
            logs.push(with("the journal is not lost", &[lost], Some(4)));
            logs.push(with("the index is not kept", &[kept, index(1)], Some(5)));
        }
    }
    logs
}

/// What machine 2 stored is read after it and the owner, with volatile memory, lost their power: one after the other, and
/// in one step. A copy may move only between the two crashes of the first.
pub fn apart_and_together() -> [Marked; 2] {
    let (store, load) = ((LStore, 2, 0, 5), (Load, 2, 0, 5));
    let apart = [store, (Crash, 1, 0, 0), (Crash, 2, 0, 0), load];
    let together = [store, (SetCrash, 0, 0b011, 0), load];
    [
        marked("a copy may move between two crashes", false, &[1], &apart, None),
        marked("nothing moves inside a set crash", false, &[1], &together, Some(3)),
    ]
}
