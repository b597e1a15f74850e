//! A run for showing: the events of a log with the silent steps of a schedule that replay said yes to, and what one
//! location holds after each. The rules here are for showing; the verdict is the proved library's.

use malluvom::{Event, Kind, Log, MachineSet, Operation, Schedule, Step};

/// Something that happens.
#[derive(Clone, Copy)]
pub enum Action {
    /// An event and its number, counted from 1.
    Event(usize, Event),
    Silent(Step),
}

impl Action {
    /// Whether it can change what a location holds.
    pub fn concerns(&self, location: u8) -> bool {
        match self {
            Action::Event(_, event) => event.concerns(location),
            Action::Silent(step) => step.location == location,
        }
    }
}

/// All that happens, in order.
pub fn actions(log: &Log, schedule: &Schedule) -> Vec<Action> {
    let mut actions = Vec::new();
    let mut steps = schedule.steps.iter().peekable();
    for passed in 0..=log.events.len() {
        while let Some(&step) = steps.next_if(|step| usize::from(step.before) == passed) {
            actions.push(Action::Silent(step));
        }
        if let Some(&event) = log.events.get(passed) {
            actions.push(Action::Event(passed + 1, event));
        }
    }
    actions
}

/// What one location holds in a run. Copies agree, so one value is enough.
#[derive(Clone, Copy, PartialEq, Eq, PartialOrd, Ord)]
pub struct Held {
    /// Bit i - 1 is set if machine i's cache holds a copy.
    pub sharers: u8,
    /// The value of the copies, 0 if there is none: so equal states are equal here.
    pub copy: u32,
    pub memory: u32,
}

impl Held {
    /// At power-on no cache holds it, and the memory has its initial value.
    pub fn at_power_on(log: &Log, location: u8) -> Held {
        Held { sharers: 0, copy: 0, memory: log.initial(location) }
    }

    pub fn by(&self, machine: u8) -> bool {
        self.sharers >> (machine - 1) & 1 == 1
    }

    /// Whether an event of the location, or a crash, is possible.
    pub fn allows(&self, event: &Event) -> bool {
        let seen = if self.sharers == 0 { self.memory } else { self.copy };
        match event.operation {
            Operation::LFlush => !self.by(event.machine),
            Operation::RFlush => self.sharers == 0,
            operation => !operation.reads() || event.value == seen,
        }
    }

    /// The silent steps of the location that are possible.
    pub fn silent_steps(self, log: &Log, location: u8) -> impl Iterator<Item = Action> {
        let owner = log.owner(location);
        let possible = move |machine: &u8| match *machine {
            0 => self.by(owner),
            machine => machine != owner && self.by(machine),
        };
        let steps = (0..=log.machines).filter(possible);
        steps.map(move |machine| Action::Silent(Step { before: 0, location, machine }))
    }

    /// What the location, with this number, holds after something that happens.
    pub fn after(self, log: &Log, location: u8, action: &Action) -> Held {
        let owner = log.owner(location);
        let bit = |machine: u8| 1u8 << (machine - 1);
        let Held { sharers, copy, memory } = self;
        let after = match *action {
            action if !action.concerns(location) => self,
            Action::Silent(Step { machine: 0, .. }) => Held { sharers: 0, copy, memory: copy },
            Action::Silent(Step { machine, .. }) => {
                Held { sharers: sharers & !bit(machine) | bit(owner), copy, memory }
            }
            Action::Event(_, event) => {
                let machine = event.machine;
                // A read-modify-write leaves what its store leaves.
                let stored = event.stored().unwrap_or(0);
                match event.operation {
                    Operation::LStore | Operation::LRmw => Held { sharers: bit(machine), copy: stored, memory },
                    Operation::RStore | Operation::RRmw => Held { sharers: bit(owner), copy: stored, memory },
                    Operation::MStore | Operation::MRmw => Held { sharers: 0, copy, memory: stored },
                    Operation::Load if sharers == 0 => self,
                    Operation::Load => Held { sharers: sharers | bit(machine), copy, memory },
                    Operation::LFlush | Operation::RFlush => self,
                    Operation::Crash | Operation::SetCrash => {
                        let crashed = event.crashed();
                        let forgotten = crashed.contains(owner) && log.kind(location) == Kind::Volatile;
                        let memory = if forgotten { log.initial(location) } else { memory };
                        Held { sharers: sharers & !crashed.bits(), copy, memory }
                    }
                }
            }
        };
        Held { copy: if after.sharers == 0 { 0 } else { after.copy }, ..after }
    }

    /// In words.
    pub fn words(&self) -> String {
        match caches(self.sharers, "hold") {
            Some(hold) => format!("{hold} {}, memory {}", self.copy, self.memory),
            None => format!("no cache holds it, memory {}", self.memory),
        }
    }
}

/// Where a location lives, in words. What differs from the rest of its owner's memory is called a part.
pub fn place(log: &Log, location: u8) -> String {
    let (kind, owner) = (log.kind(location), log.owner(location));
    let part = if log.differs(location) { "part of the " } else { "" };
    let initially = match log.initial(location) {
        0 => String::new(),
        initial => format!(", initially {initial}"),
    };
    format!("L{location}, in the {kind} {part}memory of {owner}{initially}")
}

/// What the caches of a set of machines do, in words, or nothing if there is none.
pub fn caches(set: u8, verb: &str) -> Option<String> {
    let set = MachineSet::from_bits(set);
    match set.len() {
        0 => None,
        1 => Some(format!("cache of {set} {verb}s")),
        _ => Some(format!("caches of {} {verb}", listed(set.iter(), "and"))),
    }
}

/// Things in a row, with a word before the last.
pub fn listed(things: impl Iterator<Item = impl ToString>, word: &str) -> String {
    let mut things: Vec<String> = things.map(|thing| thing.to_string()).collect();
    match things.pop() {
        Some(last) if !things.is_empty() => format!("{} {word} {last}", things.join(", ")),
        last => last.unwrap_or_default(),
    }
}
