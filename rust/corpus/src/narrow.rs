//! Logs that few runs explain.

use second::{judge, whole, Event, Home, Log, System, Verdict};

use crate::{Random, Shape};

/// An allowed log that few runs explain: each load and each read-modify-write returns the value that it finds in the
/// fewest of the states that are possible there, and of so many random events that one is taken after which the
/// shortest schedule has the most steps.
pub fn narrow(random: &mut Random, shape: &Shape, choices: usize) -> Log {
    let mut log = shape.head(random);
    let mut parts: Vec<Part> = log.homes.iter().map(|home| Part::start(&log, home)).collect();
    while log.events.len() < shape.events {
        let mut event = some_event(random, shape, &log, &parts);
        for _ in 1..choices {
            let other = some_event(random, shape, &log, &parts);
            if steps_after(&mut log, other) > steps_after(&mut log, event) {
                event = other;
            }
        }
        for (location, part) in (0..).zip(&mut parts) {
            if event.concerns(location) {
                part.follow(&event);
            }
        }
        log.events.push(event);
    }
    log
}

/// A possible next event.
fn some_event(random: &mut Random, shape: &Shape, log: &Log, parts: &[Part]) -> Event {
    let mut event = shape.event(random, &log.homes);
    if event.operation.reads() {
        event.value = parts[usize::from(event.location)].rarest(random);
    }
    event
}

/// The silent steps of the shortest schedule with one event more.
fn steps_after(log: &mut Log, event: Event) -> usize {
    log.events.push(event);
    let verdict = judge(log);
    log.events.pop();
    match verdict {
        Verdict::Allowed(steps) => steps.len(),
        Verdict::Impossible(_) => 0,
    }
}

/// One location of a log, as a log of its own, and the states that runs of its events so far can be in.
struct Part {
    log: Log,
    states: Vec<System>,
}

impl Part {
    fn start(log: &Log, home: &Home) -> Part {
        let log = Log { homes: vec![*home], ..log.clone() };
        Part { states: vec![System::start(&log)], log }
    }

    fn follow(&mut self, event: &Event) {
        let location = if event.operation.is_crash() { event.location } else { 0 };
        let event = Event { location, ..*event };
        let after = self.states.iter().filter_map(|state| state.after_event(&self.log, &event)).collect();
        self.states = whole::closed(&self.log, after);
    }

    /// The value that a load finds in the fewest states; any of them, if there are several.
    fn rarest(&self, random: &mut Random) -> u32 {
        let mut values: Vec<u32> = self.states.iter().map(|state| state.visible(0)).collect();
        values.sort();
        let groups: Vec<&[u32]> = values.chunk_by(|one, other| one == other).collect();
        let fewest = groups.iter().map(|group| group.len()).min();
        let rare: Vec<u32> = groups.iter().filter(|group| Some(group.len()) == fewest).map(|group| group[0]).collect();
        *random.pick(&rare)
    }
}
