//! The six calls of the proved library. The only `unsafe` of this crate is here: each call hands over slices as
//! pointer and length, and the library asks nothing of the numbers beside them.

use crate::Refusal;

pub use malluvom_sys::{CONVERT_LEAST, FILE_MOST, LOG_MOST, SCRATCH_LEAST};

/// How much an accepted log holds.
#[derive(Clone, Copy, Debug, PartialEq, Eq)]
pub struct Counts {
    /// Machines, 1 to 6.
    pub machines: u8,
    /// Locations, at most 32.
    pub locations: u8,
    /// Events, at most 128.
    pub events: u8,
}

/// What replay answers.
#[derive(Clone, Copy, Debug, PartialEq, Eq)]
pub enum Replayed {
    /// Log and schedule together are a run.
    Yes,
    /// So many events pass before the first thing that is not possible.
    No {
        /// The events passed.
        passed: u8,
    },
}

/// What the judge answers beside the file.
#[derive(Clone, Copy, Debug, PartialEq, Eq)]
pub enum Judged {
    /// Some choice of silent steps explains the log.
    Allowed {
        /// The number of silent steps in the file.
        steps: u16,
        /// The length of the file.
        length: u16,
    },
    /// None does.
    Impossible {
        /// The first impossible event, counted from 1.
        event: u8,
        /// The length of the file.
        length: u16,
    },
}

impl Judged {
    /// The length of the file.
    pub fn length(&self) -> u16 {
        match *self {
            Judged::Allowed { length, .. } | Judged::Impossible { length, .. } => length,
        }
    }
}

/// Bits `low` to `low + width - 1` of an answer.
fn bits(answer: u64, low: u32, width: u32) -> u64 {
    answer >> low & ((1 << width) - 1)
}

fn accepted(answer: u64) -> Result<u64, Refusal> {
    match bits(answer, 0, 8) as u8 {
        0 => Ok(answer),
        number => Err(Refusal::from_number(number).expect("the library refuses with a number of the specification")),
    }
}

/// Puts a field after the first `used` bytes of the buffer and gives the new count of used bytes.
pub fn record(buffer: &mut [u8], used: usize, tag: u8, payload: &[u8]) -> Result<usize, Refusal> {
    let answer = unsafe {
        malluvom_sys::cxl0_record(buffer.as_mut_ptr(), buffer.len(), used, tag, payload.as_ptr(), payload.len())
    };
    Ok(bits(accepted(answer)?, 8, 32) as usize)
}

/// Reads a log to its end.
pub fn read(log: &[u8]) -> Result<Counts, Refusal> {
    let answer = accepted(unsafe { malluvom_sys::cxl0_read(log.as_ptr(), log.len()) })?;
    Ok(Counts {
        machines: bits(answer, 8, 8) as u8,
        locations: bits(answer, 16, 8) as u8,
        events: bits(answer, 24, 8) as u8,
    })
}

/// Writes a log in the other edition from the first byte of the output on, which has at least [`CONVERT_LEAST`] bytes,
/// and gives its length. The rest of the output stays as it is, and a refusal changes nothing.
pub fn convert_into(log: &[u8], out: &mut [u8]) -> Result<usize, Refusal> {
    let answer = unsafe { malluvom_sys::cxl0_convert(log.as_ptr(), log.len(), out.as_mut_ptr(), out.len()) };
    Ok(bits(accepted(answer)?, 8, 24) as usize)
}

/// An accepted log in the other edition; one of edition 2 with a value over 65,535 is refused
/// ([`Refusal::ValueTooLarge`]). There and back gives the same bytes, and the verdict is the same in both.
///
/// ```
/// use malluvom::{convert, Edition, Event, Judge, Recorder, Refusal};
///
/// let mut recorder = Recorder::in_edition(Edition::Second, 1, 0b1)?;
/// recorder.location(1)?;
/// recorder.push(Event::m_store(1, 0, 65_535))?;
/// let wide = recorder.finish()?;
/// let narrow = convert(&wide)?;
/// assert_eq!((wide.len(), narrow.len()), (22, 20));
/// assert_eq!(convert(&narrow)?, wide);
/// assert_eq!(Judge::new().judge(&narrow), Judge::new().judge(&wide));
///
/// let mut recorder = Recorder::in_edition(Edition::Second, 1, 0b1)?;
/// recorder.location_initially(1, 65_536)?;
/// assert_eq!(convert(&recorder.finish()?), Err(Refusal::ValueTooLarge));
/// # Ok::<(), malluvom::RecordError>(())
/// ```
pub fn convert(log: &[u8]) -> Result<Vec<u8>, Refusal> {
    let mut out = vec![0; CONVERT_LEAST];
    let length = convert_into(log, &mut out)?;
    out.truncate(length);
    Ok(out)
}

/// Follows a log with the silent steps of a verdict file that says allowed.
pub fn replay(log: &[u8], schedule: &[u8]) -> Result<Replayed, Refusal> {
    let answer = unsafe { malluvom_sys::cxl0_replay(log.as_ptr(), log.len(), schedule.as_ptr(), schedule.len()) };
    let answer = accepted(answer)?;
    Ok(match bits(answer, 8, 1) {
        1 => Replayed::Yes,
        _ => Replayed::No { passed: bits(answer, 16, 8) as u8 },
    })
}

/// Judges a log. The verdict file, with the shortest schedule of an allowed log, goes to the output at the offset, with
/// [`FILE_MOST`] bytes of room, and the scratch, of at least [`SCRATCH_LEAST`] numbers, is all zero afterwards. A
/// refusal changes nothing.
pub fn judge_into(log: &[u8], out: &mut [u8], offset: usize, scratch: &mut [u64]) -> Result<Judged, Refusal> {
    let answer = unsafe {
        malluvom_sys::cxl0_judge(
            log.as_ptr(),
            log.len(),
            out.as_mut_ptr(),
            out.len(),
            offset,
            scratch.as_mut_ptr(),
            scratch.len(),
        )
    };
    let answer = accepted(answer)?;
    let length = bits(answer, 40, 16) as u16;
    Ok(match bits(answer, 8, 1) {
        1 => Judged::Allowed { steps: bits(answer, 24, 16) as u16, length },
        _ => Judged::Impossible { event: bits(answer, 16, 8) as u8, length },
    })
}

/// The change requests that are in the library, by their numbers from the lowest on: 201 for W-201.
///
/// ```
/// assert!(malluvom::requests().contains(&211), "values of 32 bits");
/// ```
pub fn requests() -> Vec<u16> {
    let version = unsafe { malluvom_sys::cxl0_version() };
    (201..).zip(8..64).filter(|&(_, bit)| bits(version, bit, 1) == 1).map(|(request, _)| request).collect()
}
