//! Logs of edition 2, made of those of edition 1.

use second::{Edition, Log};

use crate::Random;

/// What becomes of the values of 16 bits other than 0: of each another, and of none 0.
const SPREADS: [fn(u32) -> u32; 6] = [
    |value| value,
    // 65535 and what follows: edition 1 has bytes for the first alone.
    |value| value + 0xfffe,
    // 1, 65537 and so on: the low halves do not tell them apart.
    |value| (value - 1) << 16 | 1,
    // The low halves do not tell them from 0.
    |value| value << 16,
    // From 4294967295 down.
    |value| value.wrapping_neg(),
    // All bytes of a value differ.
    |value| value.wrapping_mul(0x9e37_79b1),
];

/// A log of edition 1 in edition 2, its values spread over 32 bits. Equal values stay equal, others stay different, and
/// 0 stays 0: so the verdict stays.
pub fn widened(random: &mut Random, log: &Log) -> Log {
    let spread = random.pick(&SPREADS);
    let mut wide = Log { edition: Edition::Second, ..log.clone() };
    values(&mut wide).into_iter().filter(|value| **value != 0).for_each(|value| *value = spread(*value));
    wide
}

/// The same log of edition 2 with one bit changed in the high half of one of its values, if it has one.
pub fn change_high_half(random: &mut Random, log: &Log) -> Log {
    let mut changed = log.clone();
    let mut values = values(&mut changed);
    if !values.is_empty() {
        let at = random.below(values.len());
        *values[at] ^= 1 << random.between(16, 31);
    }
    changed
}

/// The initial values, and the values that events use.
fn values(log: &mut Log) -> Vec<&mut u32> {
    let mut values: Vec<&mut u32> = log.homes.iter_mut().map(|home| &mut home.initial).collect();
    for event in log.events.iter_mut().filter(|event| event.operation.uses_value()) {
        values.push(&mut event.value);
        if event.operation.is_rmw() {
            values.push(&mut event.written);
        }
    }
    values
}
