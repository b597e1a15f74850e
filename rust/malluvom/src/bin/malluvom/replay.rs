//! Replay of logs with verdict files.

use std::fmt::Write as _;
use std::io::Write as _;
use std::path::{Path, PathBuf};

use malluvom::{replay, Refusal, Replayed};

use crate::failure::Failure;
use crate::files;
use crate::folders::{self, Found};
use crate::judge::verdict_path;
use crate::names::shown;
use crate::options::Options;
use crate::output;

pub fn command(options: &Options) -> Result<u8, Failure> {
    match &options.files[..] {
        [] => Err(Failure::usage("give a log and a verdict file, or folders of logs with their verdict files")),
        [log, file] if !log.is_dir() && !file.is_dir() => {
            let answer = one(log, file)?;
            output::print(format!("{}\n", words(answer)).as_bytes())?;
            Ok(status(answer))
        }
        paths => many(paths, options.has("--allow-empty")),
    }
}

fn words(answer: Replayed) -> String {
    match answer {
        Replayed::Yes => "yes".into(),
        Replayed::No { passed } => format!("no {passed}"),
    }
}

fn status(answer: Replayed) -> u8 {
    u8::from(answer != Replayed::Yes)
}

fn one(log_path: &Path, file_path: &Path) -> Result<Replayed, Failure> {
    let log = files::read_bytes(log_path)?;
    let file = files::read_bytes(file_path)?;
    replay(&log, &file).map_err(|refusal| match refusal {
        Refusal::BadSchedule => files::refused_verdict(file_path, refusal),
        _ => files::refused(log_path, &log, refusal),
    })
}

/// Each log with the verdict file beside it, a line each. A file that says impossible has nothing to replay.
fn many(paths: &[PathBuf], allow_empty: bool) -> Result<u8, Failure> {
    let (mut yes, mut no, mut impossible, mut refused, mut failed) = (0, 0, 0, 0, 0);
    for Found { path, failed: error } in folders::logs(paths, allow_empty) {
        let file = verdict_path(&path);
        let mut line = shown(&path);
        let answer = match error {
            Some(error) => Err(Failure::new(format!("{line}: {error}"))),
            None => match files::bytes_of(&file).ok().and_then(|file| files::impossible_event(&file)) {
                Some(event) => {
                    impossible += 1;
                    let _ = write!(line, ": impossible {event}, nothing to replay");
                    Ok(())
                }
                None => one(&path, &file).map(|answer| {
                    *(if answer == Replayed::Yes { &mut yes } else { &mut no }) += 1;
                    let _ = write!(line, ": {}", words(answer));
                }),
            },
        };
        match answer {
            Ok(()) => output::print(format!("{line}\n").as_bytes())?,
            Err(failure) => {
                *(if failure.status == 1 { &mut refused } else { &mut failed }) += 1;
                failure.report();
            }
        }
    }
    let _ = writeln!(
        std::io::stderr(),
        "{yes} yes, {no} no, {impossible} impossible, {refused} refused, {failed} could not be read"
    );
    Ok(match (failed, no + impossible + refused) {
        (0, 0) => 0,
        (0, _) => 1,
        _ => 2,
    })
}
