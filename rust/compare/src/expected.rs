//! What the library must answer: the second judge's answers, packed as include/cxl0.h says.

use second::{Log, Refusal, Replayed, Verdict};

/// A refusal is its number and nothing else.
pub fn packed<T>(answer: Result<T, Refusal>, pack: impl FnOnce(T) -> u64) -> u64 {
    answer.map_or_else(|refusal| u64::from(refusal.0), pack)
}

pub fn read(log: &Log) -> u64 {
    u64::from(log.machines) << 8 | (log.homes.len() as u64) << 16 | (log.events.len() as u64) << 24
}

/// The count of bytes that the recorder and the converter give.
pub fn bytes(count: usize) -> u64 {
    (count as u64) << 8
}

pub fn replay(replayed: Replayed) -> u64 {
    match replayed {
        Replayed::Yes => 1 << 8,
        Replayed::No(passed) => u64::from(passed) << 16,
    }
}

/// The verdict of an accepted log, with a file of this length.
pub fn verdict(verdict: &Verdict, length: usize) -> u64 {
    let told = match verdict {
        Verdict::Allowed(steps) => 1 << 8 | (steps.len() as u64) << 24,
        Verdict::Impossible(event) => u64::from(*event) << 16,
    };
    told | (length as u64) << 40
}
