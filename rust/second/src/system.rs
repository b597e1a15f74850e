//! The whole system: its state, the events and the two silent steps, word for word, and replay.

use crate::{log, read_schedule, Event, Kind, Log, Operation, Refusal, Step};

/// The state of a whole system. It shares nothing with the module `local`, so that the two check each other.
#[derive(Clone, Debug, PartialEq, Eq, Hash)]
pub struct System {
    /// What each machine's cache holds for each location.
    caches: Vec<Vec<Option<u32>>>,
    /// What the owner's memory holds for each location.
    memory: Vec<u32>,
}

impl System {
    /// Caches hold nothing and memories hold the initial values.
    pub fn start(log: &Log) -> System {
        System {
            caches: vec![vec![None; log.homes.len()]; usize::from(log.machines)],
            memory: log.homes.iter().map(|home| home.initial).collect(),
        }
    }

    /// The value that a load of the location returns: that of some cache that holds it, or else of the memory.
    pub fn visible(&self, location: u8) -> u32 {
        let x = usize::from(location);
        let copy = self.caches.iter().find_map(|cache| cache[x]);
        copy.unwrap_or(self.memory[x])
    }

    /// Whether a machine's cache holds the location.
    pub fn holds(&self, machine: u8, location: u8) -> bool {
        self.caches[usize::from(machine - 1)][usize::from(location)].is_some()
    }

    /// Whether all copies of each location agree.
    pub fn copies_agree(&self) -> bool {
        (0..self.memory.len()).all(|x| {
            let mut copies = self.caches.iter().filter_map(|cache| cache[x]);
            let first = copies.next();
            copies.all(|copy| Some(copy) == first)
        })
    }

    /// The state after an event, or nothing if it is not possible.
    pub fn after_event(&self, log: &Log, event: &Event) -> Option<System> {
        let mut next = self.clone();
        next.apply(log, event).then_some(next)
    }

    /// The state after a silent step, or nothing if it is not possible.
    pub fn after_step(&self, log: &Log, location: u8, machine: u8) -> Option<System> {
        let mut next = self.clone();
        next.step(log, location, machine).then_some(next)
    }

    /// Makes an event happen; if it is not possible, says so, and the state stays.
    pub fn apply(&mut self, log: &Log, event: &Event) -> bool {
        match event.operation {
            Operation::Crash => {
                self.crash(log, &[event.machine]);
                return true;
            }
            Operation::SetCrash => {
                let named = |machine: &u8| event.location & 1 << (machine - 1) != 0;
                self.crash(log, &(1..=log.machines).filter(named).collect::<Vec<_>>());
                return true;
            }
            _ => {}
        }
        if let Some([load, store]) = event.load_and_store() {
            return self.apply(log, &load) && self.apply(log, &store);
        }
        let i = usize::from(event.machine - 1);
        let x = usize::from(event.location);
        let k = usize::from(log.homes[x].owner - 1);
        let v = event.value;
        let cached = self.caches.iter().any(|cache| cache[x].is_some());
        match event.operation {
            Operation::LStore => self.clear_then_put(x, i, v),
            Operation::RStore => self.clear_then_put(x, k, v),
            Operation::MStore => {
                self.clear(x);
                self.memory[x] = v;
            }
            Operation::Load if cached => {
                let mut copies = self.caches.iter().filter_map(|cache| cache[x]);
                if copies.any(|copy| copy != v) {
                    return false;
                }
                self.caches[i][x] = Some(v);
            }
            Operation::Load => return self.memory[x] == v,
            Operation::LFlush => return self.caches[i][x].is_none(),
            Operation::RFlush => return !cached,
            Operation::Crash | Operation::SetCrash => unreachable!("handled above"),
            Operation::LRmw | Operation::RRmw | Operation::MRmw => unreachable!("handled above"),
        }
        true
    }

    /// Makes a silent step happen, a write-back if the machine is 0; if it is not possible, says so, and the state
    /// stays.
    pub fn step(&mut self, log: &Log, location: u8, machine: u8) -> bool {
        let x = usize::from(location);
        let owner = log.homes[x].owner;
        let k = usize::from(owner - 1);
        if machine == 0 {
            let Some(v) = self.caches[k][x] else {
                return false;
            };
            self.clear(x);
            self.memory[x] = v;
            return true;
        }
        if machine == owner {
            return false;
        }
        let Some(v) = self.caches[usize::from(machine - 1)][x].take() else {
            return false;
        };
        self.caches[k][x] = Some(v);
        true
    }

    /// The machines' caches are emptied, and what they own in volatile memory is at its initial value again.
    fn crash(&mut self, log: &Log, machines: &[u8]) {
        for (cache, machine) in self.caches.iter_mut().zip(1..) {
            if machines.contains(&machine) {
                cache.fill(None);
            }
        }
        for (memory, home) in self.memory.iter_mut().zip(&log.homes) {
            match home.kind {
                Kind::Volatile if machines.contains(&home.owner) => *memory = home.initial,
                _ => {}
            }
        }
    }

    fn clear(&mut self, x: usize) {
        for cache in &mut self.caches {
            cache[x] = None;
        }
    }

    fn clear_then_put(&mut self, x: usize, machine: usize, value: u32) {
        self.clear(x);
        self.caches[machine][x] = Some(value);
    }
}

/// What replay answers.
#[derive(Clone, Copy, Debug, PartialEq, Eq)]
pub enum Replayed {
    /// Every event and every silent step is possible in its turn.
    Yes,
    /// So many events pass before the first thing that is not possible.
    No(u8),
}

/// Follows a log with a schedule whose counts of events before never fall.
pub fn replay(log: &Log, steps: &[Step]) -> Replayed {
    let mut system = System::start(log);
    let mut steps = steps.iter().peekable();
    for passed in 0..=log.events.len() {
        while let Some(step) = steps.next_if(|step| usize::from(step.before) == passed) {
            if !system.step(log, step.location, step.machine) {
                return Replayed::No(passed as u8);
            }
        }
        if let Some(event) = log.events.get(passed) {
            if !system.apply(log, event) {
                return Replayed::No(passed as u8);
            }
        }
    }
    Replayed::Yes
}

/// Replays the bytes of a verdict file on the bytes of a log.
pub fn replay_bytes(bytes: &[u8], file: &[u8]) -> Result<Replayed, Refusal> {
    let log = log::read(bytes)?;
    let steps = read_schedule(&log, file)?;
    Ok(replay(&log, &steps))
}
