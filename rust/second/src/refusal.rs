use std::fmt;

/// Why an input is refused, by the specification's number.
#[derive(Clone, Copy, Debug, PartialEq, Eq, Hash, PartialOrd, Ord)]
pub struct Refusal(pub u8);

impl Refusal {
    /// A lent buffer is too short.
    pub const BUFFER_TOO_SHORT: Refusal = Refusal(1);
    /// A field's start or its payload is not whole.
    pub const TRUNCATED: Refusal = Refusal(2);
    /// The tag may not come next.
    pub const UNEXPECTED_TAG: Refusal = Refusal(3);
    /// The length is wrong for the tag.
    pub const WRONG_LENGTH: Refusal = Refusal(4);
    /// The machine count or the persistent machines are impossible.
    pub const BAD_TOPOLOGY: Refusal = Refusal(5);
    /// The owner is no machine.
    pub const BAD_OWNER: Refusal = Refusal(6);
    /// A 33rd location or a 129th event.
    pub const TOO_MANY: Refusal = Refusal(7);
    /// The operation is none of its field's: 1 to 7 and 11, or 8 to 10 for a read-modify-write.
    pub const UNKNOWN_OPERATION: Refusal = Refusal(8);
    /// The event's machine is none of the system.
    pub const NO_SUCH_MACHINE: Refusal = Refusal(9);
    /// The event's location is not listed.
    pub const NO_SUCH_LOCATION: Refusal = Refusal(10);
    /// A byte that the operation does not use is not 0.
    pub const RESERVED_NOT_ZERO: Refusal = Refusal(11);
    /// Something stands after the end.
    pub const TRAILING_BYTES: Refusal = Refusal(12);
    /// The verdict file is no schedule for this log.
    pub const BAD_SCHEDULE: Refusal = Refusal(13);
    /// The initial value 0 in a location's field that has bytes for it; the form without says it.
    pub const BAD_INITIAL_VALUE: Refusal = Refusal(14);
    /// A set crash of fewer than two machines, or of one that is none of the system.
    pub const BAD_MACHINE_SET: Refusal = Refusal(15);
    /// A kind byte other than the one that differs from the owner's.
    pub const BAD_KIND: Refusal = Refusal(16);
    /// The converter: a value that edition 1 has no bytes for.
    pub const VALUE_TOO_LARGE: Refusal = Refusal(17);
}

impl fmt::Display for Refusal {
    fn fmt(&self, f: &mut fmt::Formatter) -> fmt::Result {
        write!(f, "number {}", self.0)
    }
}
