use std::error::Error;
use std::fmt;

use crate::{Edition, Refusal};

/// Why a location or an event is not recorded.
///
/// A value without bytes comes before every refusal of the same record: without a field there is nothing to ask the
/// proved recorder.
///
/// ```
/// use malluvom::{Event, RecordError, Recorder, Refusal};
///
/// let mut recorder = Recorder::new(1, 0b1)?;
/// recorder.location(1)?;
/// let by_machine_2 = |value| Event::m_store(2, 0, value);
/// assert_eq!(recorder.push(by_machine_2(65_535)), Err(RecordError::Refused(Refusal::NoSuchMachine)));
/// assert_eq!(recorder.push(by_machine_2(65_536)), Err(RecordError::ValueTooWide { value: 65_536 }));
/// # Ok::<(), RecordError>(())
/// ```
#[derive(Clone, Copy, Debug, PartialEq, Eq, Hash)]
pub enum RecordError {
    /// The proved recorder refuses the field.
    Refused(Refusal),
    /// A value over 65,535 has no bytes in edition 1.
    ValueTooWide {
        /// The first such value.
        value: u32,
    },
}

impl From<Refusal> for RecordError {
    fn from(refusal: Refusal) -> RecordError {
        RecordError::Refused(refusal)
    }
}

impl fmt::Display for RecordError {
    fn fmt(&self, f: &mut fmt::Formatter) -> fmt::Result {
        match self {
            RecordError::Refused(refusal) => write!(f, "refused with number {}", refusal.number()),
            RecordError::ValueTooWide { value } => {
                write!(f, "{value} has no bytes in edition 1: its values go to {}", Edition::First.value_most())
            }
        }
    }
}

/// The source of a refusal is the [`Refusal`], which says what is wrong.
impl Error for RecordError {
    fn source(&self) -> Option<&(dyn Error + 'static)> {
        match self {
            RecordError::Refused(refusal) => Some(refusal),
            RecordError::ValueTooWide { .. } => None,
        }
    }
}
