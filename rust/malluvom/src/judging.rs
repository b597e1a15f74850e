use std::fmt;

use crate::{judge_into, Judged, Refusal, Schedule, FILE_MOST, SCRATCH_LEAST};

/// Whether some choice of silent steps explains a log.
#[derive(Clone, Debug, PartialEq, Eq)]
pub enum Verdict {
    /// These do, and no fewer; of the schedules with as few, this is the smallest at the first difference.
    Allowed(Schedule),
    /// None does.
    Impossible {
        /// The first impossible event, counted from 1.
        event: u8,
    },
}

/// Judges logs, with buffers of its own.
pub struct Judge {
    out: [u8; FILE_MOST],
    scratch: Box<[u64]>,
}

impl Judge {
    /// A judge with fresh buffers; keep it for the next log.
    pub fn new() -> Judge {
        Judge { out: [0; FILE_MOST], scratch: vec![0; SCRATCH_LEAST].into() }
    }

    /// The verdict of a log.
    pub fn judge(&mut self, log: &[u8]) -> Result<Verdict, Refusal> {
        let (judged, file) = self.file(log)?;
        Ok(match judged {
            Judged::Allowed { .. } => Verdict::Allowed(Schedule::of_file(file)),
            Judged::Impossible { event, .. } => Verdict::Impossible { event },
        })
    }

    /// The judge's answer, and the verdict file's bytes.
    pub fn file(&mut self, log: &[u8]) -> Result<(Judged, &[u8]), Refusal> {
        let judged = judge_into(log, &mut self.out, 0, &mut self.scratch)?;
        Ok((judged, &self.out[..usize::from(judged.length())]))
    }
}

impl Default for Judge {
    fn default() -> Judge {
        Judge::new()
    }
}

/// Without the buffers: what a judge answers does not depend on them.
impl fmt::Debug for Judge {
    fn fmt(&self, f: &mut fmt::Formatter) -> fmt::Result {
        f.debug_struct("Judge").finish_non_exhaustive()
    }
}
