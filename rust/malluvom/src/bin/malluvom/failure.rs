use std::fmt::Display;
use std::io::Write;

/// Why a command stops, and with which exit status.
pub struct Failure {
    message: String,
    pub status: u8,
}

impl Failure {
    /// Something could not be done.
    pub fn new(message: impl Display) -> Failure {
        Failure { message: message.to_string(), status: 2 }
    }

    /// The words of the command make no sense.
    pub fn usage(message: impl Display) -> Failure {
        Failure::new(format!("{message}\n'malluvom help' lists the commands"))
    }

    /// The library refuses a log or a verdict file.
    pub fn refused(message: impl Display) -> Failure {
        Failure { message: message.to_string(), status: 1 }
    }

    /// Says it on standard error, if there is one.
    pub fn report(&self) {
        let _ = writeln!(std::io::stderr(), "malluvom: {}", self.message);
    }
}
