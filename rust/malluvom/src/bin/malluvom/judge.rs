//! The verdicts of many files, one line each.

use std::collections::{HashMap, HashSet};
use std::io;
use std::path::{Path, PathBuf};

use malluvom::{Judge, Judged, Schedule};

use crate::failure::Failure;
use crate::files;
use crate::folders::{self, Found};
use crate::names::shown;
use crate::options::Options;
use crate::output::{self, Places, Writer};
use crate::progress::Progress;
use crate::report::{Outcome, Report, Verdict};

pub fn command(options: &Options) -> Result<u8, Failure> {
    if options.files.is_empty() {
        return Err(Failure::usage("which files are to be judged?"));
    }
    let found = folders::logs(&options.files, options.has("--allow-empty"));
    let junit = options.value("--junit");
    let writes = options.has("--write");
    check_outputs(&found, writes, junit.map(Path::new))?;
    let mut bench = Bench { judge: Judge::new(), writer: writes.then(|| Writer::new(options.has("--sync"))) };
    let mut report = Report::new(options.has("--json"), junit.is_some());
    let mut progress = Progress::new();
    for (done, one) in found.iter().enumerate() {
        let outcome = bench.judge(one);
        if outcome.error.is_some() {
            progress.clear();
        }
        report.tell(&one.path, &outcome);
        progress.at(done + 1, found.len());
    }
    progress.clear();
    report.summary(writes);
    if let (Some(path), Some(junit)) = (junit, &report.junit) {
        output::write_file(path, junit.text().as_bytes(), options.has("--sync"))?;
    }
    Ok(report.status())
}

/// Judges logs and keeps their verdict files.
struct Bench {
    judge: Judge,
    /// Writes the verdict files, if they are wanted.
    writer: Option<Writer>,
}

impl Bench {
    fn judge(&mut self, found: &Found) -> Outcome {
        let read = match &found.failed {
            Some(error) => Err(io::Error::other(error.clone())),
            None => files::bytes_of(&found.path),
        };
        let log = match read {
            Ok(log) => log,
            Err(error) => return self.unread(&found.path, error),
        };
        match self.judge.file(&log) {
            Ok((judged, file)) => {
                let verdict = match judged {
                    Judged::Allowed { .. } => Verdict::Allowed(Schedule::of_file(file)),
                    Judged::Impossible { event, .. } => Verdict::Impossible(event),
                };
                let kept = self.writer.as_mut().map_or(Ok(()), |writer| keep(writer, &found.path, file));
                Outcome { verdict: Some(verdict), error: kept.err() }
            }
            Err(refusal) => {
                let verdict = Verdict::Refused(refusal, files::refused_at(&log, refusal));
                Outcome { verdict: Some(verdict), error: self.drop_verdict(&found.path).err() }
            }
        }
    }

    /// A log that could not be read. If it is there, nobody knows whether a verdict file beside it is its own.
    fn unread(&mut self, path: &Path, error: io::Error) -> Outcome {
        let mut words = error.to_string();
        if error.kind() != io::ErrorKind::NotFound && !path.is_dir() {
            if let Err(error) = self.drop_verdict(path) {
                words = format!("{words}; {error}");
            }
        }
        Outcome { verdict: None, error: Some(words) }
    }

    /// Takes away the verdict file beside a log that has no verdict.
    fn drop_verdict(&mut self, log: &Path) -> Result<(), String> {
        match &mut self.writer {
            Some(writer) => drop_file(writer, &verdict_path(log)),
            None => Ok(()),
        }
    }
}

/// Puts the verdict file beside its log. Where that fails, an older file stays only if it is this log's verdict.
fn keep(writer: &mut Writer, log: &Path, file: &[u8]) -> Result<(), String> {
    let path = verdict_path(log);
    let Err(error) = writer.replace(&path, file) else {
        return Ok(());
    };
    let failed = format!("{}: {error}", shown(&path));
    if !path.is_symlink() && files::bytes_of(&path).is_ok_and(|old| old == file) {
        return Err(failed);
    }
    match drop_file(writer, &path) {
        Ok(()) => Err(failed),
        Err(stale) => Err(format!("{failed}; {stale}")),
    }
}

/// Takes a verdict file away that is not its log's, or says that it stays.
fn drop_file(writer: &mut Writer, path: &Path) -> Result<(), String> {
    writer.remove(path).map_err(|error| format!("{} is stale and stays: {error}", shown(path)))
}

/// Where a log's verdict file stands: beside it, with another extension.
pub fn verdict_path(log: &Path) -> PathBuf {
    log.with_extension("verdict")
}

/// Asks, before anything is written, that no output is an input and that no two logs have one verdict file.
fn check_outputs(found: &[Found], writes: bool, junit: Option<&Path>) -> Result<(), Failure> {
    if !writes && junit.is_none() {
        return Ok(());
    }
    let mut places = Places::default();
    let mut taken: HashSet<PathBuf> = found.iter().flat_map(|found| places.read(&found.path)).collect();
    if writes {
        let verdicts = verdict_places(found, &mut places)?;
        if let Some((_, log)) = verdicts.iter().find(|(verdict, _)| taken.contains(*verdict)) {
            return Err(output::taken_already(&verdict_path(log)));
        }
        taken.extend(verdicts.into_keys());
    }
    match junit {
        Some(path) if taken.contains(&places.of(path)) => Err(output::taken_already(path)),
        _ => Ok(()),
    }
}

/// The places of the verdict files, each with its log.
fn verdict_places<'a>(found: &'a [Found], places: &mut Places) -> Result<HashMap<PathBuf, &'a Path>, Failure> {
    let mut verdicts: HashMap<PathBuf, &Path> = HashMap::new();
    for path in found.iter().map(|found| found.path.as_path()) {
        if path == Path::new("-") {
            return Err(Failure::new("-: no verdict file can stand beside standard input"));
        }
        let verdict = verdict_path(path);
        let other = verdicts.insert(places.of(&verdict), path);
        if let Some(other) = other.filter(|other| places.of(other) != places.of(path)) {
            let (one, other, verdict) = (shown(other), shown(path), shown(&verdict));
            return Err(Failure::new(format!("{one} and {other} would have one verdict file, {verdict}")));
        }
    }
    Ok(verdicts)
}
