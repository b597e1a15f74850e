//! What a verdict's bytes say: writer and schedule reader.

use crate::log::TAG_END;
use crate::{Log, Refusal, Verdict};

/// Tag of the verdict's head.
pub const TAG_VERDICT: u8 = 0x10;
/// Tag of a silent step.
pub const TAG_STEP: u8 = 0x11;
/// At most 256 steps.
pub const STEPS_MOST: usize = 256;
/// So at most 1,544 bytes.
pub const FILE_MOST: usize = 5 + 6 * STEPS_MOST + 3;

/// A silent step.
#[derive(Clone, Copy, Debug, PartialEq, Eq, Hash, PartialOrd, Ord)]
pub struct Step {
    /// How many events come before it.
    pub before: u8,
    /// The location.
    pub location: u8,
    /// The machine whose copy propagates to the owner's cache; 0 means a write-back.
    pub machine: u8,
}

/// The bytes of a verdict.
pub fn write(verdict: &Verdict) -> Vec<u8> {
    let (allowed, event, steps): (u8, u8, &[Step]) = match verdict {
        Verdict::Allowed(steps) => (1, 0, steps),
        Verdict::Impossible(event) => (0, *event, &[]),
    };
    let mut file = vec![TAG_VERDICT, 2, 0, allowed, event];
    for step in steps {
        file.extend([TAG_STEP, 3, 0, step.before, step.location, step.machine]);
    }
    file.extend([TAG_END, 0, 0]);
    file
}

/// Reads a verdict file that says allowed as a schedule for this log; anything else is refused with 13.
pub fn read_schedule(log: &Log, file: &[u8]) -> Result<Vec<Step>, Refusal> {
    schedule(log, file).ok_or(Refusal::BAD_SCHEDULE)
}

fn schedule(log: &Log, file: &[u8]) -> Option<Vec<Step>> {
    let body = file.strip_prefix(&[TAG_VERDICT, 2, 0, 1, 0])?;
    let fields = body.strip_suffix(&[TAG_END, 0, 0])?;
    if fields.len() % 6 != 0 || fields.len() / 6 > STEPS_MOST {
        return None;
    }
    let mut steps: Vec<Step> = Vec::with_capacity(fields.len() / 6);
    for field in fields.chunks_exact(6) {
        let &[TAG_STEP, 3, 0, before, location, machine] = field else {
            return None;
        };
        let owner = log.homes.get(usize::from(location))?.owner;
        let fits = usize::from(before) <= log.events.len()
            && machine <= log.machines
            && machine != owner
            && steps.last().is_none_or(|last| last.before <= before);
        if !fits {
            return None;
        }
        steps.push(Step { before, location, machine });
    }
    Some(steps)
}
