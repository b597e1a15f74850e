//! The events of an impossible log that are enough to show that it is impossible.

use std::io::Write;

use malluvom::{Judge, Log, Verdict};

use crate::failure::Failure;
use crate::files;
use crate::names::shown;
use crate::options::Options;
use crate::output;
use crate::run::listed;
use crate::states::Table;

pub fn command(options: &Options) -> Result<u8, Failure> {
    let path = options.one_file("the log")?;
    let (log, bytes) = files::read_log(path)?;
    let mut judge = Judge::new();
    let number = match judge.judge(&bytes).map_err(Failure::new)? {
        Verdict::Allowed(_) => return Err(Failure::new(format!("{}: allowed, nothing to shrink", shown(path)))),
        Verdict::Impossible { event } => usize::from(event),
    };
    let kept = smallest_log(&log, number, &mut judge)?;
    output::write(options, &with(&log, &kept)?)?;
    let numbers = listed(kept.iter().map(|e| e + 1), "and");
    let _ = writeln!(std::io::stderr(), "{} of {} events kept: {numbers}", kept.len(), log.events.len());
    Ok(1)
}

/// The events, counted from 0, of a smallest log that is impossible at the first impossible event of this one, whose
/// number is given, and not before. It must be so for the same reason, so these events are enough for this log too:
/// marked log 5 without its crash is impossible, but not why log 5 is.
pub fn smallest_log(log: &Log, number: usize, judge: &mut Judge) -> Result<Vec<usize>, Failure> {
    let location = log.events[number - 1].location;
    let here = (0..number).filter(|&e| log.events[e].concerns(location)).collect();
    leave_out(here, |kept| {
        let verdict = judge.judge(&with(log, kept)?).map_err(Failure::new)?;
        let at_last = matches!(verdict, Verdict::Impossible { event } if usize::from(event) == kept.len());
        Ok(at_last && are_enough(log, kept))
    })
}

/// The events of that log that are enough, whether or not they are a log of their own: a store that only gives one of
/// them its value is not needed.
pub fn smallest(log: &Log, number: usize, judge: &mut Judge) -> Result<Vec<usize>, Failure> {
    let kept = smallest_log(log, number, judge)?;
    leave_out(kept, |kept| Ok(are_enough(log, kept)))
}

/// Whether the log is impossible at the last of these events, whatever becomes of the others.
fn are_enough(log: &Log, kept: &[usize]) -> bool {
    Table::exact(log, kept).is_stopped(log)
}

/// The bytes of a log of these events alone.
fn with(log: &Log, kept: &[usize]) -> Result<Vec<u8>, Failure> {
    log.with_events(kept.iter().map(|&e| &log.events[e])).map_err(Failure::new)
}

/// The last of these events and as many others as it takes: no single one of them can be left out. Stretches of events
/// are left out before single ones, and early ones before late ones, so that what stays is short and close to the last
/// event.
fn leave_out(
    mut kept: Vec<usize>,
    mut are_enough: impl FnMut(&[usize]) -> Result<bool, Failure>,
) -> Result<Vec<usize>, Failure> {
    let mut stretch = kept.len().next_power_of_two();
    loop {
        let before = kept.len();
        let mut at = 0;
        while at < kept.len() - 1 {
            let end = (at + stretch).min(kept.len() - 1);
            let fewer = [&kept[..at], &kept[end..]].concat();
            if are_enough(&fewer)? {
                kept = fewer;
            } else {
                at = end;
            }
        }
        if stretch > 1 {
            stretch /= 2;
        } else if kept.len() == before {
            return Ok(kept);
        }
    }
}
