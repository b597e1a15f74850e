use std::fmt;

use crate::{Edition, MachineSet, RecordError};

/// What an event does.
#[derive(Clone, Copy, Debug, PartialEq, Eq, Hash)]
pub enum Operation {
    /// A store into the cache of the machine itself.
    LStore,
    /// A store into the cache of the owner.
    RStore,
    /// A store into the owner's memory.
    MStore,
    /// A load.
    Load,
    /// A flush of the machine's own cache.
    LFlush,
    /// A flush of every cache.
    RFlush,
    /// A crash of the machine.
    Crash,
    /// A load and an [`Operation::LStore`] in one.
    LRmw,
    /// A load and an [`Operation::RStore`] in one.
    RRmw,
    /// A load and an [`Operation::MStore`] in one.
    MRmw,
    /// A crash of several machines in one step.
    SetCrash,
}

impl Operation {
    /// All operations; the first has code 1.
    pub const ALL: [Operation; 11] = [
        Operation::LStore,
        Operation::RStore,
        Operation::MStore,
        Operation::Load,
        Operation::LFlush,
        Operation::RFlush,
        Operation::Crash,
        Operation::LRmw,
        Operation::RRmw,
        Operation::MRmw,
        Operation::SetCrash,
    ];

    /// The code in a log's bytes, 1 to 11.
    pub fn code(self) -> u8 {
        self as u8 + 1
    }

    /// The operation with this code.
    pub fn from_code(code: u8) -> Option<Operation> {
        Self::ALL.get(usize::from(code).wrapping_sub(1)).copied()
    }

    /// The tag of the field that holds an event with this operation.
    pub fn tag(self) -> u8 {
        if self.is_rmw() {
            0x05
        } else {
            0x03
        }
    }

    /// Whether this is one of the three stores.
    pub fn is_store(self) -> bool {
        matches!(self, Operation::LStore | Operation::RStore | Operation::MStore)
    }

    /// Whether this is one of the three read-modify-writes.
    pub fn is_rmw(self) -> bool {
        matches!(self, Operation::LRmw | Operation::RRmw | Operation::MRmw)
    }

    /// Whether machines crash: one, or several in one step.
    pub fn is_crash(self) -> bool {
        matches!(self, Operation::Crash | Operation::SetCrash)
    }

    /// Whether a value is read: by loads and read-modify-writes.
    pub fn reads(self) -> bool {
        self == Operation::Load || self.is_rmw()
    }
}

/// The name, as the text form has it: both crashes have one, and the machines after it tell them apart.
impl fmt::Display for Operation {
    fn fmt(&self, f: &mut fmt::Formatter) -> fmt::Result {
        match self {
            Operation::LRmw => f.write_str("L-RMW"),
            Operation::RRmw => f.write_str("R-RMW"),
            Operation::MRmw => f.write_str("M-RMW"),
            Operation::SetCrash => f.write_str("Crash"),
            named => write!(f, "{named:?}"),
        }
    }
}

/// An event, made by the function named after its operation. What the operation does not use is 0 or empty.
///
/// ```
/// use malluvom::{Event, MachineSet};
///
/// let breaker = MachineSet::of([1, 2]).expect("machines 1 to 8 have a bit");
/// assert_eq!(Event::l_store(1, 0, 5).to_string(), "LStore by 1 to L0 of 5");
/// assert_eq!(Event::m_rmw(2, 0, 5, 6).to_string(), "M-RMW by 2 of L0, 5 to 6");
/// assert_eq!(Event::set_crash(breaker).to_string(), "Crash of 1, 2");
/// ```
#[derive(Clone, Copy, Debug, PartialEq, Eq, Hash)]
pub struct Event {
    /// What is done.
    pub operation: Operation,
    /// By which machine, counted from 1.
    pub machine: u8,
    /// On which location, counted from 0.
    pub location: u8,
    /// The value stored, or the value that was read.
    pub value: u32,
    /// The value that a read-modify-write stores.
    pub written: u32,
    /// The machines of a set crash.
    pub machines: MachineSet,
}

impl Event {
    /// A store of the value into the machine's own cache.
    pub const fn l_store(machine: u8, location: u8, value: u32) -> Event {
        Event::of(Operation::LStore, machine, location, value)
    }

    /// A store of the value into the owner's cache.
    pub const fn r_store(machine: u8, location: u8, value: u32) -> Event {
        Event::of(Operation::RStore, machine, location, value)
    }

    /// A store of the value into the owner's memory.
    pub const fn m_store(machine: u8, location: u8, value: u32) -> Event {
        Event::of(Operation::MStore, machine, location, value)
    }

    /// A load that reads the value.
    pub const fn load(machine: u8, location: u8, value: u32) -> Event {
        Event::of(Operation::Load, machine, location, value)
    }

    /// A flush of the machine's own cache.
    pub const fn l_flush(machine: u8, location: u8) -> Event {
        Event::of(Operation::LFlush, machine, location, 0)
    }

    /// A flush of every cache.
    pub const fn r_flush(machine: u8, location: u8) -> Event {
        Event::of(Operation::RFlush, machine, location, 0)
    }

    /// A crash of the machine.
    pub const fn crash(machine: u8) -> Event {
        Event::of(Operation::Crash, machine, 0, 0)
    }

    /// A load of one value and an [`Event::l_store`] of the other in one.
    pub const fn l_rmw(machine: u8, location: u8, read: u32, written: u32) -> Event {
        Event { written, ..Event::of(Operation::LRmw, machine, location, read) }
    }

    /// A load of one value and an [`Event::r_store`] of the other in one.
    pub const fn r_rmw(machine: u8, location: u8, read: u32, written: u32) -> Event {
        Event { written, ..Event::of(Operation::RRmw, machine, location, read) }
    }

    /// A load of one value and an [`Event::m_store`] of the other in one.
    pub const fn m_rmw(machine: u8, location: u8, read: u32, written: u32) -> Event {
        Event { written, ..Event::of(Operation::MRmw, machine, location, read) }
    }

    /// A crash of two machines or more in one step.
    pub const fn set_crash(machines: MachineSet) -> Event {
        Event { machines, ..Event::of(Operation::SetCrash, 0, 0, 0) }
    }

    const fn of(operation: Operation, machine: u8, location: u8, value: u32) -> Event {
        Event { operation, machine, location, value, written: 0, machines: MachineSet::EMPTY }
    }

    /// Whether the event can change what the location sees: its own events and every crash.
    pub fn concerns(&self, location: u8) -> bool {
        self.operation.is_crash() || self.location == location
    }

    /// The machines that crash: one, several, or none if this is no crash.
    pub fn crashed(&self) -> MachineSet {
        match self.operation {
            Operation::Crash => MachineSet::one(self.machine).unwrap_or_default(),
            _ => self.machines,
        }
    }

    /// The value that is stored, if one is.
    pub fn stored(&self) -> Option<u32> {
        match self.operation {
            operation if operation.is_rmw() => Some(self.written),
            operation => operation.is_store().then_some(self.value),
        }
    }

    /// The payload of the event's field in a log of this edition: three bytes and a value, or two for a
    /// read-modify-write. What has no bytes there is left out. The only error is [`RecordError::ValueTooWide`].
    pub fn payload(&self, edition: Edition) -> Result<Vec<u8>, RecordError> {
        let third = if self.operation == Operation::SetCrash { self.machines.bits() } else { self.location };
        let values = &[self.value, self.written][..if self.operation.is_rmw() { 2 } else { 1 }];
        edition.payload(&[self.operation.code(), self.machine, third], values)
    }
}

/// The text form's line for the event.
impl fmt::Display for Event {
    fn fmt(&self, f: &mut fmt::Formatter) -> fmt::Result {
        let Event { operation, machine, location, value, written, machines } = *self;
        match operation {
            Operation::LStore | Operation::RStore | Operation::MStore => {
                write!(f, "{operation} by {machine} to L{location} of {value}")
            }
            Operation::Load => write!(f, "{operation} by {machine} of L{location}, {value}"),
            Operation::LFlush | Operation::RFlush => write!(f, "{operation} by {machine} of L{location}"),
            Operation::Crash => write!(f, "{operation} of {machine}"),
            Operation::SetCrash => write!(f, "{operation} of {machines}"),
            Operation::LRmw | Operation::RRmw | Operation::MRmw => {
                write!(f, "{operation} by {machine} of L{location}, {value} to {written}")
            }
        }
    }
}
