//! Every state that one location can be in before a few events of a log: an argument that the last of them is
//! impossible.

use std::collections::{BTreeSet, HashSet};

use malluvom::{Event, Log};

use crate::run::{Action, Held};

/// So many values that a location can hold are told apart, whoever stores and reads them.
const VALUES_MOST: usize = 4;

/// The states of a location before each of the kept events of a log, of which the last is a read of it.
///
/// The first set has the state at power-on. Every set is closed: a silent step, or an event that is left out between
/// the kept event before and this one, leads from its states only to its states. A kept event leads from the states of
/// its set in which it is possible only to states of the next set. So, by induction, a run of the whole log is in these
/// sets, wherever it has its silent steps. If the last event is possible in no state of its set, the log has no run.
pub struct Table {
    pub places: Vec<Place>,
    pub values: Values,
}

/// A kept event and the states before it. Events are counted from 0.
pub struct Place {
    pub event: usize,
    /// The events of the location, and the crashes, that are left out before it.
    pub left_out: Vec<usize>,
    pub states: BTreeSet<Held>,
    pub width: Width,
}

/// Which closed set of states stands before an event: wider ones are easier to check.
#[derive(Clone, Copy, PartialEq, Eq)]
pub enum Width {
    /// The smallest.
    Exact,
    /// Those of the smallest where any caches hold the copies, and what these lead to.
    Caches,
    /// All states with the values of the smallest, and what these lead to.
    Values,
    /// All states.
    All,
}

impl Table {
    /// The table of some kept events with the smallest sets.
    pub fn exact(log: &Log, kept: &[usize]) -> Table {
        Table::new(log, kept, &vec![Width::Exact; kept.len()])
    }

    /// The table of the same events with another set before one of them.
    pub fn with_width(&self, log: &Log, at: usize, width: Width) -> Table {
        let kept: Vec<usize> = self.places.iter().map(|place| place.event).collect();
        let mut widths: Vec<Width> = self.places.iter().map(|place| place.width).collect();
        widths[at] = width;
        Table::new(log, &kept, &widths)
    }

    fn new(log: &Log, kept: &[usize], widths: &[Width]) -> Table {
        let location = log.events[kept[kept.len() - 1]].location;
        let values = Values::new(log, location, kept);
        let site = Site { log: &values.renamed(log, location), location };
        let mut places = Vec::new();
        let mut states = BTreeSet::from([Held::at_power_on(site.log, location)]);
        let mut next = 0;
        for (&event, &width) in kept.iter().zip(widths) {
            let left_out: Vec<usize> = (next..event).filter(|&e| log.events[e].concerns(location)).collect();
            let optional: HashSet<Event> = left_out.iter().map(|&e| site.log.events[e]).collect();
            let exact = site.closed(states, &optional);
            let before = match width {
                Width::Exact => exact,
                Width::Caches => site.closed(site.in_any_caches(&exact), &optional),
                Width::Values => site.closed(site.all(&held(&exact)), &optional),
                Width::All => site.all(&values.all()),
            };
            states = before.iter().filter_map(|&state| site.after(state, &site.log.events[event])).collect();
            places.push(Place { event, left_out, states: before, width });
            next = event + 1;
        }
        Table { places, values }
    }

    /// Whether the last event is possible in no state.
    pub fn is_stopped(&self, log: &Log) -> bool {
        let possible = |place: &Place| place.states.iter().any(|state| state.allows(&log.events[place.event]));
        self.places.last().is_some_and(|place| !possible(place))
    }
}

/// A location of a log.
struct Site<'a> {
    log: &'a Log,
    location: u8,
}

impl Site<'_> {
    /// The state after an event, if it is possible.
    fn after(&self, state: Held, event: &Event) -> Option<Held> {
        state.allows(event).then(|| state.after(self.log, self.location, &Action::Event(0, *event)))
    }

    /// The states that are reached from these by silent steps and by some of these events, in any order.
    fn closed(&self, from: BTreeSet<Held>, events: &HashSet<Event>) -> BTreeSet<Held> {
        let mut states = BTreeSet::new();
        let mut found: Vec<Held> = from.into_iter().collect();
        while let Some(state) = found.pop() {
            if states.insert(state) {
                let steps = state.silent_steps(self.log, self.location);
                found.extend(steps.map(|step| state.after(self.log, self.location, &step)));
                found.extend(events.iter().filter_map(|event| self.after(state, event)));
            }
        }
        states
    }

    /// All states with these values.
    fn all(&self, values: &BTreeSet<u32>) -> BTreeSet<Held> {
        let in_memory = values.iter().map(|&memory| Held { sharers: 0, copy: 0, memory });
        let cached = |copy| values.iter().map(move |&memory| Held { sharers: 1, copy, memory });
        self.in_any_caches(&in_memory.chain(values.iter().flat_map(|&copy| cached(copy))).collect())
    }

    /// These states, and those where other caches hold the copies.
    fn in_any_caches(&self, states: &BTreeSet<Held>) -> BTreeSet<Held> {
        let sets = 1..1u8 << self.log.machines;
        let (cached, uncached): (Vec<Held>, Vec<Held>) = states.iter().partition(|state| state.sharers != 0);
        let moved = cached.iter().flat_map(|&state| sets.clone().map(move |sharers| Held { sharers, ..state }));
        uncached.iter().copied().chain(moved).collect()
    }
}

/// The values of the copies and of memory.
fn held(states: &BTreeSet<Held>) -> BTreeSet<u32> {
    let copies = states.iter().filter(|state| state.sharers != 0).map(|state| state.copy);
    copies.chain(states.iter().map(|state| state.memory)).collect()
}

/// The values that a table tells apart: all, or only those of the kept events if the location can hold many. Others are
/// one value there. Replacing values makes of a run a run: if there is none with the replaced values, there is none.
pub struct Values {
    pub named: BTreeSet<u32>,
    /// A value that is not named stands for all those.
    pub other: u32,
}

impl Values {
    fn new(log: &Log, location: u8, kept: &[usize]) -> Values {
        let events = &log.events[..kept[kept.len() - 1]];
        let here = events.iter().filter(|event| event.location == location);
        let mut held: BTreeSet<u32> = here.filter_map(Event::stored).collect();
        held.insert(log.initial(location));
        let kept = || kept.iter().map(|&e| &log.events[e]);
        let read = kept().filter(|event| event.operation.reads()).map(|event| event.value);
        let mut named: BTreeSet<u32> = read.chain(kept().filter_map(Event::stored)).collect();
        if held.len() <= VALUES_MOST {
            named.extend(&held);
        }
        let mut other = 0;
        while named.contains(&other) {
            other += 1;
        }
        Values { named, other }
    }

    /// All values.
    pub fn all(&self) -> BTreeSet<u32> {
        self.named.iter().copied().chain([self.other]).collect()
    }

    /// The log with the values of the location that are not named replaced.
    fn renamed(&self, log: &Log, location: u8) -> Log {
        let name = |value: u32| if self.named.contains(&value) { value } else { self.other };
        let mut renamed = log.clone();
        let initial = &mut renamed.homes[usize::from(location)].initial;
        *initial = name(*initial);
        for event in renamed.events.iter_mut().filter(|event| event.location == location) {
            (event.value, event.written) = (name(event.value), name(event.written));
        }
        renamed
    }
}
