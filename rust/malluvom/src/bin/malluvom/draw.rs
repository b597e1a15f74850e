//! A picture of one location's run: a lane for each machine's cache and one for the memory, events and silent steps
//! from left to right, and a bar wherever a value is held.

mod layout;
mod paint;
mod scene;
mod svg;

use malluvom::{Event, Judge, Log, Schedule, Verdict};

use crate::failure::Failure;
use crate::files;
use crate::options::Options;
use crate::output;
use scene::Scene;

pub fn command(options: &Options) -> Result<u8, Failure> {
    let path = options.one_file("the log")?;
    let (log, bytes) = files::read_log(path)?;
    let (log, schedule, impossible) = explained(log, &bytes)?;
    let location = match options.value("--location") {
        Some(word) => named(&log, &word.to_string_lossy())?,
        None => chosen(&log, impossible)?,
    };
    let svg = paint::svg(&Scene::new(&log, location, &schedule, impossible));
    output::write(options, svg.as_bytes())?;
    Ok(u8::from(impossible.is_some()))
}

/// The log up to its first impossible event, which comes apart, with the silent steps of its shortest run.
fn explained(mut log: Log, bytes: &[u8]) -> Result<(Log, Schedule, Option<Event>), Failure> {
    let mut judge = Judge::new();
    let event = match judge.judge(bytes).map_err(Failure::new)? {
        Verdict::Allowed(schedule) => return Ok((log, schedule, None)),
        Verdict::Impossible { event } => usize::from(event),
    };
    let impossible = log.events[event - 1];
    log.events.truncate(event - 1);
    let before = log.with_events(&log.events).map_err(Failure::new)?;
    match judge.judge(&before).map_err(Failure::new)? {
        Verdict::Allowed(schedule) => Ok((log, schedule, Some(impossible))),
        Verdict::Impossible { event } => Err(Failure::new(format!("event {event} was not the first impossible one"))),
    }
}

fn named(log: &Log, word: &str) -> Result<u8, Failure> {
    let number = word.strip_prefix(['L', 'l']).unwrap_or(word).parse();
    match number {
        Ok(number) if usize::from(number) < log.homes.len() => Ok(number),
        _ => Err(Failure::new(format!("the log has no location {word}"))),
    }
}

/// The location of the impossible event, or the one with the most events.
fn chosen(log: &Log, impossible: Option<Event>) -> Result<u8, Failure> {
    if let Some(event) = impossible {
        return Ok(event.location);
    }
    let events = |x: u8| {
        let own = log.events.iter().filter(|event| !event.operation.is_crash() && event.location == x);
        own.count()
    };
    let locations = 0..log.homes.len() as u8;
    let most = locations.rev().max_by_key(|&x| events(x));
    most.ok_or_else(|| Failure::new("the log has no location to draw"))
}
