//! The verdict program's output by the second judge.

use std::io::{Read, Write};
use std::process::ExitCode;

use second::{judge_bytes, printed};

fn main() -> ExitCode {
    let mut bytes = Vec::new();
    if let Err(error) = std::io::stdin().read_to_end(&mut bytes) {
        eprintln!("second-verdict: standard input: {error}");
        return ExitCode::from(2);
    }
    match std::io::stdout().write_all(printed(&judge_bytes(&bytes)).as_bytes()) {
        Ok(()) => ExitCode::SUCCESS,
        Err(_) => ExitCode::from(2),
    }
}
