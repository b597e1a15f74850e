use std::fmt;

/// Why an input is refused. The discriminant is the number of the specification. New calls will bring new numbers, so a
/// match needs an arm for them.
#[derive(Clone, Copy, Debug, PartialEq, Eq, Hash, PartialOrd, Ord)]
#[repr(u8)]
#[non_exhaustive]
pub enum Refusal {
    /// A lent buffer is too short, or the field does not fit.
    BufferTooShort = 1,
    /// Fewer than three bytes are left where a field must start, or a payload is not whole.
    Truncated,
    /// The tag may not come next.
    UnexpectedTag,
    /// The length is wrong for the tag.
    WrongLength,
    /// The machine count is outside 1 to 6, or an absent machine is called persistent.
    BadTopology,
    /// The owner is outside 1 to the machine count.
    BadOwner,
    /// A 33rd location or a 129th event.
    TooMany,
    /// The operation is none of its field's: 1 to 7 and 11, or 8 to 10 for a read-modify-write.
    UnknownOperation,
    /// The event's machine is outside 1 to the machine count.
    NoSuchMachine,
    /// The event's location is not listed.
    NoSuchLocation,
    /// A byte that the operation does not use is not 0.
    ReservedNotZero,
    /// A byte or a field stands after the end.
    TrailingBytes,
    /// The verdict file is no schedule for this log.
    BadSchedule,
    /// The initial value 0 in a location's field that has bytes for it; the form without says it.
    BadInitialValue,
    /// A set crash of fewer than two machines, or of one that is outside 1 to the machine count.
    BadMachineSet,
    /// A kind byte other than the one that differs from the owner's.
    BadKind,
    /// A log of edition 2 with a value over 65,535 is to be converted: the value has no bytes in edition 1.
    ValueTooLarge,
}

impl Refusal {
    /// All refusals, by rising number.
    pub const ALL: &[Refusal] = &[
        Refusal::BufferTooShort,
        Refusal::Truncated,
        Refusal::UnexpectedTag,
        Refusal::WrongLength,
        Refusal::BadTopology,
        Refusal::BadOwner,
        Refusal::TooMany,
        Refusal::UnknownOperation,
        Refusal::NoSuchMachine,
        Refusal::NoSuchLocation,
        Refusal::ReservedNotZero,
        Refusal::TrailingBytes,
        Refusal::BadSchedule,
        Refusal::BadInitialValue,
        Refusal::BadMachineSet,
        Refusal::BadKind,
        Refusal::ValueTooLarge,
    ];

    /// The number of the specification.
    pub fn number(self) -> u8 {
        self as u8
    }

    /// The refusal with this number.
    pub fn from_number(number: u8) -> Option<Refusal> {
        Self::ALL.iter().copied().find(|refusal| refusal.number() == number)
    }

    /// What is wrong, in words.
    pub fn reason(self) -> &'static str {
        match self {
            Refusal::BufferTooShort => "a buffer is too short",
            Refusal::Truncated => "the bytes stop inside a field or before the end field",
            Refusal::UnexpectedTag => "this tag may not come here",
            Refusal::WrongLength => "the length is wrong for the tag",
            Refusal::BadTopology => "the machine count is not 1 to 6, or an absent machine is called persistent",
            Refusal::BadOwner => "the owner is not one of the machines",
            Refusal::TooMany => "more than 32 locations or more than 128 events",
            Refusal::UnknownOperation => "the operation is not 1 to 7 or 11, or not 8 to 10 in a field 05",
            Refusal::NoSuchMachine => "the event's machine is not one of the machines",
            Refusal::NoSuchLocation => "the event's location is not listed",
            Refusal::ReservedNotZero => "a byte that the operation does not use is not 0",
            Refusal::TrailingBytes => "something stands after the end field",
            Refusal::BadSchedule => "the verdict file does not say allowed, or does not fit this log",
            Refusal::BadInitialValue => "an initial value of 0 has no bytes: the length must be 1, or 2 with a kind",
            Refusal::BadMachineSet => "fewer than two machines crash together, or one that is not there",
            Refusal::BadKind => "the kind byte is not 1 where the owner is persistent, or not 2 where it is volatile",
            Refusal::ValueTooLarge => "a value over 65535 has no bytes in edition 1",
        }
    }
}

impl fmt::Display for Refusal {
    fn fmt(&self, f: &mut fmt::Formatter) -> fmt::Result {
        write!(f, "number {} ({self:?}): {}", self.number(), self.reason())
    }
}

impl std::error::Error for Refusal {}
