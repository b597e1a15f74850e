//! The search of one location in layers. A layer is the set of states that the location can be in after so many events
//! and any silent steps; a layer without states means that no run gets there.

use std::collections::HashSet;

use crate::local::Local;
use crate::trail::{steps_to, Node};
use crate::{Log, Step};

/// The search of one location after another; it keeps its memory from one to the next.
#[derive(Default)]
pub(crate) struct Layers {
    nodes: Vec<Node>,
    seen: HashSet<Local>,
}

impl Layers {
    /// Follows the first `events` events at one location. Gives the silent steps of some run, or the number of the
    /// first event, counted from 1, that no choice of silent steps lets happen.
    pub(crate) fn run(&mut self, log: &Log, location: u8, events: usize) -> Result<Vec<Step>, usize> {
        let home = log.homes[usize::from(location)];
        self.nodes.clear();
        self.seen.clear();
        self.reach(Local::in_memory(home.initial), 0, None);
        let mut layer = 0;
        for (passed, event) in log.events[..events].iter().enumerate() {
            let crashed = event.crashed();
            if crashed == 0 && event.location != location {
                continue;
            }
            let end = self.nodes.len();
            self.seen.clear();
            for parent in layer..end {
                let state = self.nodes[parent].state;
                let next = match crashed {
                    0 => state.apply(event, home.owner),
                    // One step of the layer, whatever their number: nothing moves between the machines of a set.
                    _ => Some(state.crash(crashed, home)),
                };
                if let Some(next) = next {
                    self.reach(next, parent, None);
                }
            }
            if self.nodes.len() == end {
                return Err(passed + 1);
            }
            layer = end;
            self.close(log, location, layer, passed + 1);
        }
        Ok(steps_to(&self.nodes, layer))
    }

    /// Adds every state that silent steps reach from the layer.
    fn close(&mut self, log: &Log, location: u8, layer: usize, passed: usize) {
        let owner = log.homes[usize::from(location)].owner;
        let mut at = layer;
        while at < self.nodes.len() {
            let state = self.nodes[at].state;
            for machine in 0..=log.machines {
                if let Some(next) = state.step(machine, owner) {
                    let step = Step { before: passed as u8, location, machine };
                    self.reach(next, at, Some(step));
                }
            }
            at += 1;
        }
    }

    fn reach(&mut self, state: Local, parent: usize, step: Option<Step>) {
        if self.seen.insert(state) {
            self.nodes.push(Node { state, parent: parent as u32, step });
        }
    }
}
