//! How a search remembers its way to each state.

use crate::local::Local;
use crate::Step;

/// A state of a location, reached from the node at `parent` by a silent step or by an event.
#[derive(Clone, Copy)]
pub(crate) struct Node {
    pub(crate) state: Local,
    pub(crate) parent: u32,
    pub(crate) step: Option<Step>,
}

/// The silent steps on the way to a node. The first node is its own parent.
pub(crate) fn steps_to(nodes: &[Node], mut at: usize) -> Vec<Step> {
    let mut steps = Vec::new();
    while at != 0 {
        steps.extend(nodes[at].step);
        at = nodes[at].parent as usize;
    }
    steps.reverse();
    steps
}
