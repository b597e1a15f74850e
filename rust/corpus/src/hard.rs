//! Logs that take many silent steps, or whose shortest schedules are hard to find. Machine 1 owns the one location, all
//! memories are persistent, and values are numbered from 1.

use second::{Event, Log, Operation};

use crate::{crash, plain, set_crash};

/// Three machines that do this.
fn log(events: Vec<Event>) -> Log {
    Log { machines: 3, persistent: 0b111, homes: vec![plain(0b111, 1, 0)], events, ..Log::default() }
}

fn event(operation: Operation, machine: u8, value: u32) -> Event {
    Event { operation, machine, location: 0, value, written: 0 }
}

/// All machines lose their power, and then this is read: it must have been in memory.
fn read_after_power_loss(value: u32) -> [Event; 2] {
    [set_crash(0b111), event(Operation::Load, 3, value)]
}

/// So many values are stored, and each has to move once; then one of them is read, or 0. It takes a step for each, and
/// one more unless 0 is read.
pub fn moved(values: u32, read: u32) -> Log {
    let moved =
        |value| [event(Operation::LStore, 2, value), event(Operation::Load, 3, value), event(Operation::LFlush, 2, 0)];
    log((1..=values).flat_map(moved).chain(read_after_power_loss(read)).collect())
}

/// So many values are stored one over the other; then the machine crashes, and one of them is read. It takes one step
/// if that is the last, else two.
pub fn overwritten(values: u32, read: u32) -> Log {
    let stores = (1..=values).map(|value| event(Operation::LStore, 2, value));
    log(stores.chain([crash(2), event(Operation::Load, 3, read)]).collect())
}

/// So many values are stored and flushed to memory. It takes two steps for each.
pub fn flushed(values: u32) -> Log {
    log((1..=values).flat_map(|value| [event(Operation::LStore, 2, value), event(Operation::RFlush, 2, 0)]).collect())
}

/// A value is stored, loaded by another machine and flushed from its cache, so often; then 0 is read. It takes a step
/// for each, and none may be a write-back.
pub fn never_written(loads: usize) -> Log {
    let loaded = [event(Operation::Load, 2, 1), event(Operation::LFlush, 2, 0)];
    let events = [event(Operation::LStore, 3, 1)].into_iter().chain(loaded.repeat(loads));
    log(events.chain(read_after_power_loss(0)).collect())
}
