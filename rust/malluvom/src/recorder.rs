use std::fmt;

use crate::{record, Edition, Event, Home, Kind, RecordError, Refusal, LOG_MOST};

/// Builds a log field by field; each is checked by the proved recorder. A call that takes values can also fail before
/// the recorder is asked, by [`RecordError::ValueTooWide`].
pub struct Recorder {
    buffer: [u8; LOG_MOST],
    used: usize,
}

impl Recorder {
    /// A log of edition 1 of a system with so many machines; bit i - 1 of `persistent` is set if machine i's memory is
    /// persistent, but for locations of the other kind.
    pub fn new(machines: u8, persistent: u8) -> Result<Recorder, Refusal> {
        Recorder::in_edition(Edition::First, machines, persistent)
    }

    /// The same in either edition.
    pub fn in_edition(edition: Edition, machines: u8, persistent: u8) -> Result<Recorder, Refusal> {
        let mut recorder = Recorder::empty();
        recorder.field(edition.tag(), &[machines, persistent])?;
        Ok(recorder)
    }

    /// A log without any field yet.
    pub fn empty() -> Recorder {
        Recorder { buffer: [0; LOG_MOST], used: 0 }
    }

    /// The next location, in the memory of this machine, of the machine's kind, which starts as zero.
    pub fn location(&mut self, owner: u8) -> Result<(), Refusal> {
        self.field(0x02, &[owner])
    }

    /// The next location, in the memory of this machine, of the machine's kind, which holds the initial value at
    /// power-on and, if it is volatile, again after a crash.
    pub fn location_initially(&mut self, owner: u8, initial: u32) -> Result<(), RecordError> {
        self.home(Home { owner, initial, kind: Kind::of_machine(owner, self.persistent()) })
    }

    /// The next location, in memory of either kind. An initial value of 0 and the owner's own kind have no bytes.
    pub fn home(&mut self, home: Home) -> Result<(), RecordError> {
        Ok(self.field(0x02, &home.payload(self.edition(), self.persistent())?)?)
    }

    /// The next event.
    pub fn push(&mut self, event: Event) -> Result<(), RecordError> {
        Ok(self.field(event.operation.tag(), &event.payload(self.edition())?)?)
    }

    /// The next event, given as numbers. An operation other than 1 to 7 and 11 is refused, and so is a number other
    /// than 0 that the operation does not use.
    pub fn event(&mut self, operation: u8, machine: u8, location: u8, value: u32) -> Result<(), RecordError> {
        Ok(self.field(0x03, &self.edition().payload(&[operation, machine, location], &[value])?)?)
    }

    /// The next event, a read-modify-write given as numbers. An operation other than 8 to 10 is refused.
    pub fn rmw(
        &mut self,
        operation: u8,
        machine: u8,
        location: u8,
        read: u32,
        written: u32,
    ) -> Result<(), RecordError> {
        Ok(self.field(0x05, &self.edition().payload(&[operation, machine, location], &[read, written])?)?)
    }

    /// Any field.
    pub fn field(&mut self, tag: u8, payload: &[u8]) -> Result<(), Refusal> {
        self.used = record(&mut self.buffer, self.used, tag, payload)?;
        Ok(())
    }

    /// The edition, by the first field. Without it a field with values is refused whatever its bytes, and every value
    /// has bytes in edition 2.
    fn edition(&self) -> Edition {
        Edition::of_log(self.bytes()).unwrap_or(Edition::Second)
    }

    /// The persistent machines: the last byte of the first field. Without it a location is refused whatever its bytes.
    fn persistent(&self) -> u8 {
        self.bytes().get(4).copied().unwrap_or(0)
    }

    /// The bytes so far.
    pub fn bytes(&self) -> &[u8] {
        &self.buffer[..self.used]
    }

    /// The end, and the log's bytes.
    pub fn finish(mut self) -> Result<Vec<u8>, Refusal> {
        self.field(0x04, &[])?;
        Ok(self.bytes().to_vec())
    }
}

/// The bytes so far in hexadecimal, without the room after them.
impl fmt::Debug for Recorder {
    fn fmt(&self, f: &mut fmt::Formatter) -> fmt::Result {
        write!(f, "Recorder({:02x?})", self.bytes())
    }
}
