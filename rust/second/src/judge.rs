//! The verdict of a log, and the judge's call with lent buffers.

use crate::costs::Costs;
use crate::layers::Layers;
use crate::shortest::Shortest;
use crate::{log, verdict_file, Log, Refusal, Step, FILE_MOST};

/// The work area must have at least so many numbers.
pub const SCRATCH_LEAST: usize = 4096;

/// Whether some choice of silent steps explains a log.
#[derive(Clone, Debug, PartialEq, Eq)]
pub enum Verdict {
    /// The silent steps of a run, in file order.
    Allowed(Vec<Step>),
    /// The first impossible event, counted from 1.
    Impossible(u8),
}

impl Verdict {
    /// The first impossible event, if there is one.
    pub fn first_impossible(&self) -> Option<u8> {
        match self {
            Verdict::Allowed(_) => None,
            Verdict::Impossible(event) => Some(*event),
        }
    }
}

/// Judges the records of a log, with the shortest schedule if it is allowed: the fewest silent steps of any run, and of
/// these the one whose numbers, in file order, are smallest at the first difference.
pub fn judge(log: &Log) -> Verdict {
    let mut search = Shortest::default();
    location_by_location(log, |location, events| search.run(log, location, events))
}

/// The same verdict, with the same schedule, by what each state has to pay to the end.
pub fn judge_by_costs(log: &Log) -> Verdict {
    let mut search = Costs::default();
    location_by_location(log, |location, events| search.run(log, location, events))
}

/// The same verdict by a search in layers, with the steps of some run if the log is allowed.
pub fn judge_in_layers(log: &Log) -> Verdict {
    let mut search = Layers::default();
    location_by_location(log, |location, events| search.run(log, location, events))
}

/// Searches the locations one after the other, each with the first so many events, and puts together what was found.
fn location_by_location(log: &Log, mut search: impl FnMut(u8, usize) -> Result<Vec<Step>, usize>) -> Verdict {
    let mut steps = Vec::new();
    let mut events = log.events.len();
    let mut first = None;
    for location in 0..log.homes.len() as u8 {
        match search(location, events) {
            Ok(found) => steps.extend(found),
            // Only an earlier event of another location can still be the first.
            Err(event) => {
                first = Some(event);
                events = event - 1;
            }
        }
    }
    match first {
        Some(event) => Verdict::Impossible(event as u8),
        None => {
            // Of steps with as many events before, those of a smaller location stay in front.
            steps.sort_by_key(|step| step.before);
            Verdict::Allowed(steps)
        }
    }
}

/// Judges the bytes of a log.
pub fn judge_bytes(bytes: &[u8]) -> Result<Verdict, Refusal> {
    log::read(bytes).map(|log| judge(&log))
}

/// What the judge's call returns.
#[derive(Clone, Debug, PartialEq, Eq)]
pub struct Judged {
    /// The verdict.
    pub verdict: Verdict,
    /// The length of the file written.
    pub length: usize,
}

/// The judge with lent buffers: the verdict file goes to the output at an offset, and the work area is all zero
/// afterwards. A refusal changes nothing.
pub fn judge_into(bytes: &[u8], out: &mut [u8], offset: usize, scratch: &mut [u64]) -> Result<Judged, Refusal> {
    let place = out.get_mut(offset..).ok_or(Refusal::BUFFER_TOO_SHORT)?;
    if place.len() < FILE_MOST || scratch.len() < SCRATCH_LEAST {
        return Err(Refusal::BUFFER_TOO_SHORT);
    }
    let verdict = judge_bytes(bytes)?;
    let file = verdict_file::write(&verdict);
    place[..file.len()].copy_from_slice(&file);
    scratch.fill(0);
    Ok(Judged { verdict, length: file.len() })
}
