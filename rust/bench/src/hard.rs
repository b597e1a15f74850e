//! Logs of 128 events or nearly so, at one location or two, for which a search has much to do.

use corpus::{encode, hard, narrow, plausible, simulated, Random, Shape, CACHED, MIXED, MIXED_RMW};
use second::{Log, Operation};

/// So many of those that are drawn.
const LOGS: usize = 50;

/// Loads and flushes of what is seldom stored.
const LOADS_AND_FLUSHES: &[Operation] = &[
    Operation::LStore,
    Operation::Load,
    Operation::Load,
    Operation::Load,
    Operation::Load,
    Operation::LFlush,
    Operation::LFlush,
    Operation::RFlush,
];

/// Six machines and one location.
const DEEP: Shape = Shape {
    machines: 6,
    locations: 1,
    events: 128,
    crashes: 10,
    set_crashes: 0,
    patterns: 0,
    kinds: 0,
    values: 5,
    operations: MIXED,
};

/// Each row of logs: what they are, and their bytes; the same in every run.
pub fn rows() -> Vec<(&'static str, Vec<Vec<u8>>)> {
    let cached = Shape { operations: CACHED, ..DEEP };
    let fresh = Shape { values: 65536, ..cached };
    let loads = Shape { operations: LOADS_AND_FLUSHES, ..DEEP };
    let two = Shape { locations: 2, crashes: 15, set_crashes: 50, operations: MIXED_RMW, ..DEEP };
    vec![
        ("many silent steps", drawn(|random| simulated(random, &cached, 60))),
        ("30% crashes", drawn(|random| plausible(random, &Shape { crashes: 30, ..DEEP }))),
        ("fresh values", drawn(|random| plausible(random, &fresh))),
        ("loads and flushes", drawn(|random| plausible(random, &loads))),
        ("drawn so that a run just exists", drawn(|random| narrow(random, &cached, 4))),
        ("two locations, read-modify-writes and set crashes", drawn(|random| plausible(random, &two))),
        (
            "41 values, each moved once; then one of them or 0",
            (0..=41).map(|read| encode(&hard::moved(41, read))).collect(),
        ),
        ("126 values, one over the other; then the first", vec![encode(&hard::overwritten(126, 1))]),
        ("126 values, one over the other; then the last", vec![encode(&hard::overwritten(126, 126))]),
        ("63 values, each with an RFlush", vec![encode(&hard::flushed(63))]),
        ("one value, 62 times loaded and flushed; then 0", vec![encode(&hard::never_written(62))]),
    ]
}

fn drawn(log: impl Fn(&mut Random) -> Log) -> Vec<Vec<u8>> {
    let mut random = Random::new(7);
    (0..LOGS).map(|_| encode(&log(&mut random))).collect()
}
