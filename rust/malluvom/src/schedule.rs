//! Silent steps, as a verdict file has them.

use std::fmt;

/// A silent step.
#[derive(Clone, Copy, Debug, PartialEq, Eq, Hash)]
pub struct Step {
    /// How many events come before it.
    pub before: u8,
    /// The location, counted from 0.
    pub location: u8,
    /// The machine whose copy propagates to the owner's cache; 0 means a write-back.
    pub machine: u8,
}

/// The silent steps of an allowed log, in the order of the verdict file.
#[derive(Clone, Debug, Default, PartialEq, Eq)]
pub struct Schedule {
    /// The steps.
    pub steps: Vec<Step>,
}

impl Schedule {
    /// The steps of a file that says allowed, as the library wrote it or as replay accepted it. Of other bytes, the
    /// whole step fields from the sixth byte on.
    pub fn of_file(file: &[u8]) -> Schedule {
        let fields = file.get(5..).unwrap_or(&[]).chunks_exact(6);
        let steps = fields
            .map_while(|field| match *field {
                [0x11, 3, 0, before, location, machine] => Some(Step { before, location, machine }),
                _ => None,
            })
            .collect();
        Schedule { steps }
    }

    /// The verdict file that says allowed with these steps.
    pub fn to_file(&self) -> Vec<u8> {
        let mut file = vec![0x10, 2, 0, 1, 0];
        for step in &self.steps {
            file.extend([0x11, 3, 0, step.before, step.location, step.machine]);
        }
        file.extend([0x04, 0, 0]);
        file
    }
}

/// One line per step, as the verdict program prints them.
impl fmt::Display for Schedule {
    fn fmt(&self, f: &mut fmt::Formatter) -> fmt::Result {
        for step in &self.steps {
            writeln!(f, "{} {} {}", step.before, step.location, step.machine)?;
        }
        Ok(())
    }
}
