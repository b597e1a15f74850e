use std::fmt;

use crate::RecordError;

/// The editions of a log, which differ in the tag of the first field and in how many bytes a value has. The
/// discriminant is the number.
///
/// ```
/// use malluvom::Edition;
///
/// assert_eq!(Edition::ALL.map(Edition::tag), [0x01, 0x06]);
/// assert_eq!(Edition::ALL.map(Edition::value_bytes), [2, 4]);
/// assert_eq!(Edition::ALL.map(Edition::value_most), [65_535, 4_294_967_295]);
/// ```
#[derive(Clone, Copy, Debug, PartialEq, Eq, Hash)]
#[repr(u8)]
pub enum Edition {
    /// Values of 2 bytes, after a first field 01.
    First = 1,
    /// Values of 4 bytes, after a first field 06.
    Second,
}

impl Edition {
    /// Both, by rising number.
    pub const ALL: [Edition; 2] = [Edition::First, Edition::Second];

    /// The number, 1 or 2.
    pub fn number(self) -> u8 {
        self as u8
    }

    /// The edition with this number.
    pub fn from_number(number: u8) -> Option<Edition> {
        Self::ALL.into_iter().find(|edition| edition.number() == number)
    }

    /// The tag of the first field.
    pub fn tag(self) -> u8 {
        match self {
            Edition::First => 0x01,
            Edition::Second => 0x06,
        }
    }

    /// The edition of a log, by its first byte, or nothing if no log begins with it.
    pub fn of_log(log: &[u8]) -> Option<Edition> {
        Self::ALL.into_iter().find(|edition| log.first() == Some(&edition.tag()))
    }

    /// How many bytes a value has.
    pub fn value_bytes(self) -> usize {
        match self {
            Edition::First => 2,
            Edition::Second => 4,
        }
    }

    /// The greatest value.
    pub fn value_most(self) -> u32 {
        u32::MAX >> (32 - 8 * self.value_bytes())
    }

    /// The payload of a field in a log of this edition: some bytes and then values, low byte first. The only error is
    /// [`RecordError::ValueTooWide`].
    pub fn payload(self, bytes: &[u8], values: &[u32]) -> Result<Vec<u8>, RecordError> {
        let mut payload = bytes.to_vec();
        for &value in values {
            if value > self.value_most() {
                return Err(RecordError::ValueTooWide { value });
            }
            payload.extend(&value.to_le_bytes()[..self.value_bytes()]);
        }
        Ok(payload)
    }

    /// The value that the bytes begin with, and the bytes after it; 0 and all of them, if they are fewer than a value
    /// has.
    pub fn split_value(self, bytes: &[u8]) -> (u32, &[u8]) {
        match bytes.split_at_checked(self.value_bytes()) {
            Some((value, rest)) => (value.iter().rev().fold(0, |high, &low| high << 8 | u32::from(low)), rest),
            None => (0, bytes),
        }
    }
}

/// The number, as the text form has it.
impl fmt::Display for Edition {
    fn fmt(&self, f: &mut fmt::Formatter) -> fmt::Result {
        self.number().fmt(f)
    }
}
