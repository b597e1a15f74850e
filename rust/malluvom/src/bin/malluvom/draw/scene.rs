//! What a picture shows: what happens to one location, what is held before and after it, and both in words.

use malluvom::{Event, Log, Operation, Schedule, Step};

use crate::run::{actions, place, Action, Held};
use crate::show::silent;

/// What stands in a column. Events have their number.
pub enum Column {
    Event(usize, Event),
    /// A crash, with the lanes that it strikes: the caches of its machines, and the memory if that loses its value.
    Crash(usize, Event, Vec<usize>),
    Silent(Step),
    /// The first impossible event. It changes nothing.
    Impossible(usize, Event),
    /// The only column, if nothing happens to the location.
    Nothing,
}

/// A value that a lane holds from one state on to before another.
pub struct Bar {
    pub from: usize,
    pub to: usize,
    pub value: u32,
}

/// A cache or the memory.
pub struct Lane {
    pub name: String,
    pub class: &'static str,
    pub bars: Vec<Bar>,
}

pub struct Scene<'a> {
    log: &'a Log,
    location: u8,
    impossible: Option<Event>,
    pub columns: Vec<Column>,
    /// What is held before each column, and after the last.
    states: Vec<Held>,
    /// A lane for each machine's cache, then the memory.
    pub lanes: Vec<Lane>,
}

impl<'a> Scene<'a> {
    /// The run of a log's events, and the event after them if that is impossible.
    pub fn new(log: &'a Log, location: u8, schedule: &Schedule, impossible: Option<Event>) -> Scene<'a> {
        let mut columns = Vec::new();
        let mut states = vec![Held::at_power_on(log, location)];
        for action in actions(log, schedule).iter().filter(|action| action.concerns(location)) {
            let before = states[states.len() - 1];
            let after = before.after(log, location, action);
            columns.push(column(log, action, before.memory != after.memory));
            states.push(after);
        }
        if let Some(event) = impossible.filter(|event| event.concerns(location)) {
            columns.push(Column::Impossible(log.events.len() + 1, event));
        }
        if columns.is_empty() {
            columns.push(Column::Nothing);
        }
        states.resize(columns.len() + 1, states[states.len() - 1]);
        let lanes = lanes(log, location, &states);
        Scene { log, location, impossible, columns, states, lanes }
    }

    pub fn bars(&self) -> impl Iterator<Item = &Bar> {
        self.lanes.iter().flat_map(|lane| &lane.bars)
    }

    /// The lane of a machine's cache.
    pub fn cache(&self, machine: u8) -> usize {
        usize::from(machine) - 1
    }

    /// The lane of the owner's cache.
    pub fn owner(&self) -> usize {
        self.cache(self.log.owner(self.location))
    }

    /// The lane of the memory.
    pub fn memory(&self) -> usize {
        self.lanes.len() - 1
    }

    pub fn title(&self) -> String {
        place(self.log, self.location)
    }

    /// What stands under the title if the log is impossible.
    pub fn verdict(&self) -> Option<String> {
        let number = self.log.events.len() + 1;
        self.impossible.map(|event| match event.concerns(self.location) {
            true => format!("Event {number} is impossible"),
            false => format!("Event {number}, at L{}, is impossible", event.location),
        })
    }

    /// All that the picture shows, in words.
    pub fn description(&self) -> String {
        let mut lines = vec![format!("At power-on: {}.", self.states[0].words())];
        for (column, after) in self.columns.iter().zip(&self.states[1..]) {
            let after = after.words();
            lines.push(match column {
                Column::Event(number, event) | Column::Crash(number, event, _) => {
                    format!("Event {number}, {event}: {after}.")
                }
                Column::Silent(step) => format!("Silent step, {}: {after}.", silent(step).trim_start_matches("~ ")),
                Column::Impossible(number, event) => format!("Event {number}, {event}: impossible."),
                Column::Nothing => "Nothing happens to it.".into(),
            });
        }
        lines.join("\n")
    }
}

impl Column {
    /// The lines above the column.
    pub fn label(&self) -> Vec<String> {
        match self {
            Column::Event(number, event) | Column::Crash(number, event, _) => event_label(*number, event),
            Column::Silent(Step { machine: 0, .. }) => vec!["write-back".into()],
            Column::Silent(_) => vec!["propagate".into()],
            Column::Impossible(number, event) => [vec!["impossible".into()], event_label(*number, event)].concat(),
            Column::Nothing => vec!["nothing happens".into()],
        }
    }
}

/// An event in short, under what a read-modify-write reads.
fn event_label(number: usize, event: &Event) -> Vec<String> {
    let Event { operation, value, written, .. } = *event;
    match operation {
        rmw if rmw.is_rmw() => vec![format!("reads {value}"), format!("{number}: {rmw} {written}")],
        Operation::LStore | Operation::RStore | Operation::MStore | Operation::Load => {
            vec![format!("{number}: {operation} {value}")]
        }
        _ => vec![format!("{number}: {operation}")],
    }
}

fn column(log: &Log, action: &Action, changes_memory: bool) -> Column {
    match *action {
        Action::Silent(step) => Column::Silent(step),
        Action::Event(number, event) if event.operation.is_crash() => {
            let caches = event.crashed().iter().map(|machine| usize::from(machine) - 1);
            let memory = changes_memory.then_some(usize::from(log.machines));
            Column::Crash(number, event, caches.chain(memory).collect())
        }
        Action::Event(number, event) => Column::Event(number, event),
    }
}

fn lanes(log: &Log, location: u8, states: &[Held]) -> Vec<Lane> {
    let owner = log.owner(location);
    let cache = |machine: u8| {
        let role = if machine == owner { " (owner)" } else { "" };
        let held = states.iter().map(|held| held.by(machine).then_some(held.copy));
        Lane { name: format!("cache of {machine}{role}"), class: "cache", bars: bars(held) }
    };
    let mut lanes: Vec<Lane> = (1..=log.machines).map(cache).collect();
    let held = states.iter().map(|held| Some(held.memory));
    lanes.push(Lane { name: format!("memory of {owner}"), class: "memory", bars: bars(held) });
    lanes
}

/// A bar over each stretch of states with one value.
fn bars(held: impl Iterator<Item = Option<u32>>) -> Vec<Bar> {
    let held: Vec<_> = held.collect();
    let mut bars = Vec::new();
    let mut from = 0;
    for stretch in held.chunk_by(|one, next| one == next) {
        let to = from + stretch.len();
        bars.extend(stretch[0].map(|value| Bar { from, to, value }));
        from = to;
    }
    bars
}
