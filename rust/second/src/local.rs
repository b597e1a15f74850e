//! What one location sees of the system. Nothing that happens at one location depends on another.

use crate::{Event, Home, Kind, Operation};

/// What the caches and the memory hold for one location. That all copies agree is not assumed.
#[derive(Clone, Copy, Debug, PartialEq, Eq, Hash)]
pub(crate) struct Local {
    /// Bit i - 1 is set if machine i's cache holds a value.
    holders: u8,
    /// The value in machine i's cache, at i - 1; 0 where it holds none.
    copies: [u32; 6],
    memory: u32,
}

impl Local {
    /// No cache holds anything, and this is in memory.
    pub(crate) fn in_memory(memory: u32) -> Local {
        Local { holders: 0, copies: [0; 6], memory }
    }

    /// What a machine's cache holds.
    fn cache(&self, machine: u8) -> Option<u32> {
        let i = machine - 1;
        (self.holders >> i & 1 == 1).then(|| self.copies[usize::from(i)])
    }

    /// The state after an event of this location other than a crash, or nothing if it is not possible.
    pub(crate) fn apply(&self, event: &Event, owner: u8) -> Option<Local> {
        if let Some([load, store]) = event.load_and_store() {
            return self.apply(&load, owner)?.apply(&store, owner);
        }
        let (i, v) = (event.machine, event.value);
        match event.operation {
            Operation::LStore => Some(Local::in_memory(self.memory).with_copy(i, v)),
            Operation::RStore => Some(Local::in_memory(self.memory).with_copy(owner, v)),
            Operation::MStore => Some(Local::in_memory(v)),
            Operation::Load if self.holders == 0 => (self.memory == v).then_some(*self),
            Operation::Load => self.all_hold(v).then(|| self.with_copy(i, v)),
            Operation::LFlush => self.cache(i).is_none().then_some(*self),
            Operation::RFlush => (self.holders == 0).then_some(*self),
            Operation::Crash | Operation::SetCrash => unreachable!("a crash is no event of one location"),
            Operation::LRmw | Operation::RRmw | Operation::MRmw => unreachable!("a load and a store, above"),
        }
    }

    /// The state after a crash of these machines, all in one step.
    pub(crate) fn crash(&self, crashed: u8, home: Home) -> Local {
        let mut next = *self;
        let mut left = crashed;
        while left != 0 {
            next = next.without_copy(left.trailing_zeros() as u8 + 1);
            left &= left - 1;
        }
        if crashed >> (home.owner - 1) & 1 == 1 && home.kind == Kind::Volatile {
            next.memory = home.initial;
        }
        next
    }

    /// The state after an event that concerns the location, or nothing if it is not possible.
    pub(crate) fn after(&self, event: &Event, home: Home) -> Option<Local> {
        match event.crashed() {
            0 => self.apply(event, home.owner),
            crashed => Some(self.crash(crashed, home)),
        }
    }

    /// The state after a silent step, a write-back if the machine is 0, or nothing if it is not possible.
    pub(crate) fn step(&self, machine: u8, owner: u8) -> Option<Local> {
        if machine == 0 {
            return self.cache(owner).map(Local::in_memory);
        }
        if machine == owner {
            return None;
        }
        let value = self.cache(machine)?;
        Some(self.without_copy(machine).with_copy(owner, value))
    }

    fn with_copy(&self, machine: u8, value: u32) -> Local {
        let mut next = *self;
        next.holders |= 1 << (machine - 1);
        next.copies[usize::from(machine - 1)] = value;
        next
    }

    fn without_copy(&self, machine: u8) -> Local {
        let mut next = *self;
        next.holders &= !(1 << (machine - 1));
        next.copies[usize::from(machine - 1)] = 0;
        next
    }

    fn all_hold(&self, value: u32) -> bool {
        (1..=6).all(|machine| self.cache(machine).is_none_or(|copy| copy == value))
    }
}
