//! The command line tool. Every verdict, refusal and replay comes from the proved library.

mod asm;
mod commands;
mod convert;
mod draw;
mod explain;
mod failure;
mod files;
mod folders;
mod help;
mod judge;
mod names;
mod options;
mod output;
mod page;
mod progress;
mod replay;
mod report;
mod run;
mod show;
mod shrink;
mod states;
mod table;
mod text;

use std::ffi::OsString;
use std::process::ExitCode;

use failure::Failure;
use options::Options;

fn main() -> ExitCode {
    let words: Vec<_> = std::env::args_os().skip(1).collect();
    match run(&words) {
        Ok(status) => ExitCode::from(status),
        Err(failure) => {
            failure.report();
            ExitCode::from(failure.status)
        }
    }
}

/// Runs one command and gives the exit status.
fn run(words: &[OsString]) -> Result<u8, Failure> {
    let (first, rest) = match words.split_first() {
        Some((first, rest)) => (first.to_string_lossy(), rest),
        None => ("help".into(), words),
    };
    let said = match first.as_ref() {
        "help" | "--help" | "-h" => help::all(),
        "man" => help::man(),
        "--version" | "-V" => help::version(),
        name => {
            let known = commands::named(name);
            let command = known.ok_or_else(|| Failure::usage(format!("there is no command '{name}'")))?;
            let options = Options::parse(rest, command)?;
            if !options.help {
                return (command.run)(&options);
            }
            help::one(command)
        }
    };
    output::print(said.as_bytes()).map(|()| 0)
}
