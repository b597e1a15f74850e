//! The shortest schedule of one location, by a 0-1 breadth-first search: an event costs nothing, a silent step one.
//!
//! The queue is in the order of schedules: those with fewer steps first, and of two with as many the one whose numbers
//! are smaller at the first difference. What the next event leads to has the schedule of before and goes to the front.
//! What a silent step leads to has one step more, and no schedule in the queue is greater: it goes to the back, the
//! smallest machine first. So each state after so many events is first reached by the least schedule that leads there,
//! and nothing that follows asks for another; and what first reaches the end is the shortest.

use std::collections::{HashSet, VecDeque};

use crate::local::Local;
use crate::trail::{steps_to, Node};
use crate::{Log, Step};

/// The search of one location after another; it keeps its memory from one to the next.
#[derive(Default)]
pub(crate) struct Shortest {
    /// The numbers of the events that concern the location, counted from 1, behind a 0 for the start.
    numbers: Vec<u8>,
    /// How many of these have passed, and what was reached then.
    queue: VecDeque<(u8, Node)>,
    reached: HashSet<(u8, Local)>,
    nodes: Vec<Node>,
}

impl Shortest {
    /// Follows the first `events` events at one location. Gives the silent steps of the shortest schedule, or the
    /// number of the first event, counted from 1, that no choice of silent steps lets happen.
    pub(crate) fn run(&mut self, log: &Log, location: u8, events: usize) -> Result<Vec<Step>, usize> {
        let home = log.homes[usize::from(location)];
        self.start(log, location, events);
        let mut furthest = 0;
        self.queue.push_back((0, Node { state: Local::in_memory(home.initial), parent: 0, step: None }));
        while let Some((passed, node)) = self.queue.pop_front() {
            if !self.reached.insert((passed, node.state)) {
                continue;
            }
            let parent = self.nodes.len() as u32;
            self.nodes.push(node);
            furthest = passed.max(furthest);
            let Some(next) = self.numbers.get(usize::from(passed) + 1) else {
                return Ok(steps_to(&self.nodes, parent as usize));
            };
            let before = self.numbers[usize::from(passed)];
            for machine in 0..=log.machines {
                if let Some(state) = node.state.step(machine, home.owner) {
                    let step = Some(Step { before, location, machine });
                    self.queue.push_back((passed, Node { state, parent, step }));
                }
            }
            if let Some(state) = node.state.after(&log.events[usize::from(next - 1)], home) {
                self.queue.push_front((passed + 1, Node { state, parent, step: None }));
            }
        }
        Err(usize::from(self.numbers[usize::from(furthest) + 1]))
    }

    fn start(&mut self, log: &Log, location: u8, events: usize) {
        self.queue.clear();
        self.reached.clear();
        self.nodes.clear();
        self.numbers.clear();
        self.numbers.push(0);
        self.numbers.extend(log.numbers_at(location, events));
    }
}
