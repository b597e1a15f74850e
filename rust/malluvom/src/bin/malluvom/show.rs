//! Log bytes to text, with the silent steps of a verdict file woven in.

use std::fmt::Write;
use std::path::Path;

use malluvom::{replay, Edition, Log, Replayed, Schedule, Step};

use crate::failure::Failure;
use crate::files;
use crate::options::Options;
use crate::output;

pub fn command(options: &Options) -> Result<u8, Failure> {
    let (path, verdict) = match &options.files[..] {
        [log] => (log, None),
        [log, verdict] => (log, Some(verdict)),
        _ => return Err(Failure::usage("give a log, and a verdict file if you have one")),
    };
    let (log, bytes) = files::read_log(path)?;
    let notes = match verdict {
        Some(file) => notes(&bytes, file)?,
        None => Notes::default(),
    };
    output::write(options, text(&log, &notes).as_bytes())?;
    Ok(u8::from(notes.impossible.is_some() || notes.stops.is_some()))
}

/// What a verdict file adds to a log.
#[derive(Default)]
pub struct Notes {
    pub schedule: Schedule,
    /// The event that the file calls impossible.
    pub impossible: Option<u8>,
    /// The schedule stops being a run after so many events.
    pub stops: Option<u8>,
}

fn notes(log: &[u8], path: &Path) -> Result<Notes, Failure> {
    let file = files::read_bytes(path)?;
    if let Some(event) = files::impossible_event(&file) {
        return Ok(Notes { impossible: Some(event), ..Notes::default() });
    }
    let stops = match replay(log, &file) {
        Ok(Replayed::Yes) => None,
        Ok(Replayed::No { passed }) => Some(passed),
        // The log was accepted, so it is the file that is refused.
        Err(refusal) => return Err(files::refused_verdict(path, refusal)),
    };
    Ok(Notes { schedule: Schedule::of_file(&file), impossible: None, stops })
}

/// The text of a log.
pub fn text(log: &Log, notes: &Notes) -> String {
    let mut text = head(log);
    let mut steps = notes.schedule.steps.iter().peekable();
    for passed in 0..=log.events.len() {
        while let Some(step) = steps.next_if(|step| usize::from(step.before) == passed) {
            line(&mut text, &silent(step), &effect(log, step));
        }
        if notes.stops.map(usize::from) == Some(passed) {
            text.push_str("# no run: what comes next, or a silent step just above, is not possible\n");
        }
        if let Some(event) = log.events.get(passed) {
            let number = passed + 1;
            let mark = if notes.impossible.map(usize::from) == Some(number) { ": impossible" } else { "" };
            line(&mut text, &event.to_string(), &format!("{number}{mark}"));
        }
    }
    text
}

/// The lines before the events.
fn head(log: &Log) -> String {
    let mut head = match log.edition {
        Edition::First => String::new(),
        later => format!("edition {later}\n"),
    };
    let _ = write!(head, "machines {} persistent", log.machines);
    let all = (1..=log.machines).all(|machine| log.is_persistent(machine));
    match log.persistent {
        0 => head.push_str(" none"),
        _ if all => head.push_str(" all"),
        _ => {
            for machine in (1..=log.machines).filter(|&machine| log.is_persistent(machine)) {
                let _ = write!(head, " {machine}");
            }
        }
    }
    head.push('\n');
    for (number, home) in log.homes.iter().enumerate() {
        let _ = write!(head, "L{number} of {}", home.owner);
        if home.initial != 0 {
            let _ = write!(head, " initially {}", home.initial);
        }
        if home.differs(log.persistent) {
            let _ = write!(head, " {}", home.kind);
        }
        head.push('\n');
    }
    head.push('\n');
    head
}

fn line(text: &mut String, words: &str, comment: &str) {
    let _ = writeln!(text, "{words:<32} # {comment}");
}

/// The text form's line for a silent step.
pub fn silent(step: &Step) -> String {
    match step.machine {
        0 => format!("~ write-back of L{}", step.location),
        machine => format!("~ propagate by {machine} of L{}", step.location),
    }
}

fn effect(log: &Log, step: &Step) -> String {
    let owner = log.owner(step.location);
    match step.machine {
        0 => format!("silent: to the memory of {owner}, and every cache loses it"),
        machine => format!("silent: from the cache of {machine} to that of {owner}"),
    }
}
