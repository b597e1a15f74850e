//! The shortest schedule of one location by costs. Forward, all that can be reached is found. Backward from the end, a
//! 0-1 breadth-first search finds what each state after so many events has to pay: nothing for an event, one for a
//! silent step. A walk from the start then takes the step of the smallest machine that lowers what is left to pay, and
//! the next event where none does.

use std::collections::{HashMap, VecDeque};

use crate::local::Local;
use crate::{Log, Step};

/// The search of one location after another; it keeps its memory from one to the next.
#[derive(Default)]
pub(crate) struct Costs {
    /// The numbers of the events that concern the location, counted from 1, behind a 0 for the start.
    numbers: Vec<u8>,
    places: Vec<Place>,
    /// Where a place stands, by the events that have passed and the state.
    found: HashMap<(u8, Local), u32>,
    ways: Vec<Way>,
    /// Places, each with what it has to pay.
    queue: VecDeque<(u32, u16)>,
}

/// A state after so many events.
struct Place {
    passed: u8,
    state: Local,
    /// The last way that leads here.
    way: Option<u32>,
    /// The fewest silent steps from here to the end, if it can be reached.
    cost: Option<u16>,
}

/// A way from one place to another: an event, which costs nothing, or a silent step, which costs one.
#[derive(Clone, Copy)]
struct Way {
    from: u32,
    cost: u16,
    /// Another way to the same place.
    other: Option<u32>,
}

impl Costs {
    /// Follows the first `events` events at one location. Gives the silent steps of the shortest schedule, or the
    /// number of the first event, counted from 1, that no choice of silent steps lets happen.
    pub(crate) fn run(&mut self, log: &Log, location: u8, events: usize) -> Result<Vec<Step>, usize> {
        self.numbers.clear();
        self.numbers.push(0);
        self.numbers.extend(log.numbers_at(location, events));
        self.explore(log, location);
        let furthest = self.places.iter().map(|place| place.passed).max().map_or(0, usize::from);
        if let Some(&next) = self.numbers.get(furthest + 1) {
            return Err(usize::from(next));
        }
        self.weigh();
        Ok(self.walk(log, location))
    }

    /// Finds every place that can be reached, and every way between them.
    fn explore(&mut self, log: &Log, location: u8) {
        let home = log.homes[usize::from(location)];
        self.places.clear();
        self.found.clear();
        self.ways.clear();
        self.place(0, Local::in_memory(home.initial));
        let mut at = 0;
        while let Some(&Place { passed, state, .. }) = self.places.get(at) {
            if let Some(next) = self.numbers.get(usize::from(passed) + 1) {
                if let Some(after) = state.after(&log.events[usize::from(next - 1)], home) {
                    self.lead(at, 0, passed + 1, after);
                }
                for machine in 0..=log.machines {
                    if let Some(after) = state.step(machine, home.owner) {
                        self.lead(at, 1, passed, after);
                    }
                }
            }
            at += 1;
        }
    }

    /// A way leads from a place to a state after so many events.
    fn lead(&mut self, from: usize, cost: u16, passed: u8, state: Local) {
        let to = self.place(passed, state);
        let way = &mut self.places[to as usize].way;
        self.ways.push(Way { from: from as u32, cost, other: *way });
        *way = Some(self.ways.len() as u32 - 1);
    }

    /// Where the place of a state after so many events stands.
    fn place(&mut self, passed: u8, state: Local) -> u32 {
        *self.found.entry((passed, state)).or_insert_with(|| {
            self.places.push(Place { passed, state, way: None, cost: None });
            self.places.len() as u32 - 1
        })
    }

    /// Finds what each place has to pay: first those that have nothing to pay, then those with one step, and so on.
    fn weigh(&mut self) {
        let last = self.numbers.len() - 1;
        let ends = (0..).zip(&self.places).filter(|(_, place)| usize::from(place.passed) == last);
        self.queue.clear();
        self.queue.extend(ends.map(|(at, _)| (at, 0)));
        while let Some((at, cost)) = self.queue.pop_front() {
            let place = &mut self.places[at as usize];
            if place.cost.is_some() {
                continue;
            }
            place.cost = Some(cost);
            let mut next = place.way;
            while let Some(way) = next.map(|way| self.ways[way as usize]) {
                match way.cost {
                    0 => self.queue.push_front((way.from, cost)),
                    more => self.queue.push_back((way.from, cost + more)),
                }
                next = way.other;
            }
        }
    }

    /// The steps of the walk from the start, which can reach the end.
    fn walk(&self, log: &Log, location: u8) -> Vec<Step> {
        let home = log.homes[usize::from(location)];
        let cost = |passed, state| self.places[self.found[&(passed, state)] as usize].cost;
        let (mut passed, mut state) = (0, self.places[0].state);
        let mut left = self.places[0].cost.unwrap_or(0);
        let mut steps = Vec::new();
        while left > 0 {
            let lower = (0..=log.machines).find_map(|machine| {
                let after = state.step(machine, home.owner)?;
                (cost(passed, after) == Some(left - 1)).then_some((machine, after))
            });
            if let Some((machine, after)) = lower {
                steps.push(Step { before: self.numbers[usize::from(passed)], location, machine });
                (state, left) = (after, left - 1);
            } else {
                passed += 1;
                let event = &log.events[usize::from(self.numbers[usize::from(passed)] - 1)];
                state = state.after(event, home).expect("what is left to pay has a way");
            }
        }
        steps
    }
}
