//! Holds the proved library to the second judge: every answer and every byte of every buffer, on logs from fixed seeds
//! or on the files of a folder.
//!
//! ```text
//! compare [ROUNDS]           random logs; more rounds take other seeds
//! compare examples FOLDER    every .log file of the folder's folders, with its stored .out
//! ```

mod converting;
mod examples;
mod expected;
mod kinds;
mod proved;
mod recording;
mod replaying;
mod report;
mod trial;

use std::process::ExitCode;
use std::time::Instant;

use report::Report;

fn main() -> ExitCode {
    let words: Vec<String> = std::env::args().skip(1).collect();
    let words: Vec<&str> = words.iter().map(String::as_str).collect();
    let same = match words[..] {
        [] => random(1),
        ["examples", folder] => examples::compare(folder.as_ref()),
        [rounds] if rounds.parse::<u64>().is_ok() => random(rounds.parse().unwrap_or(1)),
        _ => {
            eprintln!("usage: compare [ROUNDS] | compare examples FOLDER");
            return ExitCode::from(2);
        }
    };
    if same {
        ExitCode::SUCCESS
    } else {
        ExitCode::FAILURE
    }
}

fn random(rounds: u64) -> bool {
    let begun = Instant::now();
    let mut report = Report::default();
    for round in 0..rounds {
        kinds::run(round, &mut report);
    }
    report.print();
    println!("{:.1} seconds", begun.elapsed().as_secs_f64());
    report.last_line()
}
