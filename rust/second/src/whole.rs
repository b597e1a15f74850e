//! The same searches over states of the whole system: the definitions of a run and of the shortest schedule, word for
//! word. For small logs only, since the states of all locations multiply.

use std::collections::{HashMap, HashSet};

use crate::{Log, Step, System};

/// The number of the first impossible event, counted from 1, or nothing if the log is allowed.
pub fn first_impossible(log: &Log) -> Option<u8> {
    let mut layer = closed(log, vec![System::start(log)]);
    for (passed, event) in log.events.iter().enumerate() {
        let next = layer.iter().filter_map(|system| system.after_event(log, event)).collect();
        layer = closed(log, next);
        if layer.is_empty() {
            return Some(passed as u8 + 1);
        }
    }
    None
}

/// The states, each once, with all that silent steps reach from them.
pub fn closed(log: &Log, states: Vec<System>) -> Vec<System> {
    let mut seen = HashSet::new();
    let mut layer = Vec::new();
    let mut queue = states;
    while let Some(system) = queue.pop() {
        if !seen.insert(system.clone()) {
            continue;
        }
        queue.extend(silent_successors(log, &system));
        layer.push(system);
    }
    layer
}

/// The shortest schedule of a log, or nothing if it has none: the schedules of no step, of one step and so on are
/// tried, those of as many steps in rising order of their numbers, and the first that is a run is it.
pub fn shortest(log: &Log) -> Option<Vec<Step>> {
    (0..=log.steps_most()).find_map(|count| {
        let mut trial = Trial { log, steps: Vec::new(), failed: HashSet::new() };
        trial.finish(&System::start(log), 0, count).then_some(trial.steps)
    })
}

/// Schedules tried one after the other. What has failed once, from a state with so many events passed and so many steps
/// to go, is not tried again.
struct Trial<'a> {
    log: &'a Log,
    steps: Vec<Step>,
    failed: HashSet<(System, usize, usize)>,
}

impl Trial<'_> {
    /// Whether so many more steps and the events that are left can be a run from here; these steps are then known. A
    /// schedule with a step before the next event is smaller than one without.
    fn finish(&mut self, system: &System, passed: usize, left: usize) -> bool {
        if passed == self.log.events.len() && left == 0 {
            return true;
        }
        if self.failed.contains(&(system.clone(), passed, left)) {
            return false;
        }
        let found = left > 0 && self.step_then_finish(system, passed, left)
            || self.log.events.get(passed).is_some_and(|event| {
                let after = system.after_event(self.log, event);
                after.is_some_and(|after| self.finish(&after, passed + 1, left))
            });
        if !found {
            self.failed.insert((system.clone(), passed, left));
        }
        found
    }

    fn step_then_finish(&mut self, system: &System, passed: usize, left: usize) -> bool {
        for location in 0..self.log.homes.len() as u8 {
            for machine in 0..=self.log.machines {
                if let Some(after) = system.after_step(self.log, location, machine) {
                    self.steps.push(Step { before: passed as u8, location, machine });
                    if self.finish(&after, passed, left - 1) {
                        return true;
                    }
                    self.steps.pop();
                }
            }
        }
        false
    }
}

/// States, each with the number of ways to get there.
type Ways = HashMap<System, usize>;

/// How many schedules explain a log, silent steps after the last event included; counting stops at `most`.
pub fn count_schedules(log: &Log, most: usize) -> usize {
    let mut ways = with_silent_steps(log, HashMap::from([(System::start(log), 1)]), most);
    for event in &log.events {
        let mut next = Ways::new();
        for (system, count) in ways {
            if let Some(after) = system.after_event(log, event) {
                add(&mut next, after, count, most);
            }
        }
        ways = with_silent_steps(log, next, most);
    }
    ways.values().fold(0, |sum, count| most.min(sum + count))
}

fn add(ways: &mut Ways, system: System, count: usize, most: usize) {
    let known = ways.entry(system).or_default();
    *known = most.min(*known + count);
}

/// Every silent step takes a copy nearer to memory, so there are only so many in a row.
fn with_silent_steps(log: &Log, ways: Ways, most: usize) -> Ways {
    let mut all = Ways::new();
    let mut last = ways;
    while !last.is_empty() {
        let mut next = Ways::new();
        for (system, count) in last {
            for after in silent_successors(log, &system) {
                add(&mut next, after, count, most);
            }
            add(&mut all, system, count, most);
        }
        last = next;
    }
    all
}

/// The states one silent step away.
fn silent_successors<'a>(log: &'a Log, system: &'a System) -> impl Iterator<Item = System> + 'a {
    let locations = 0..log.homes.len() as u8;
    locations.flat_map(move |location| {
        (0..=log.machines).filter_map(move |machine| system.after_step(log, location, machine))
    })
}
