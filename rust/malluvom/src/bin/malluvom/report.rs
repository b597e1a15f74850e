//! What became of each path: lines for people, JSON and JUnit for machines, and the counts.

use std::fmt::Write as _;
use std::io::Write as _;
use std::path::Path;

use malluvom::{Refusal, Schedule};

use crate::failure::Failure;
use crate::files::Place;
use crate::names::{json, quoted, shown, xml};
use crate::output;

/// The verdict of one log.
pub enum Verdict {
    Allowed(Schedule),
    /// The first impossible event.
    Impossible(u8),
    Refused(Refusal, Place),
}

/// What became of one path.
pub struct Outcome {
    /// Nothing if it could not be read.
    pub verdict: Option<Verdict>,
    /// What could not be done: the path was not read, or its verdict file was not written.
    pub error: Option<String>,
}

impl Verdict {
    /// In words, as a line has it after the path.
    fn words(&self) -> String {
        match self {
            Verdict::Allowed(schedule) => format!("allowed {}", schedule.steps.len()),
            Verdict::Impossible(event) => format!("impossible {event}"),
            Verdict::Refused(refusal, Place { field, byte }) => {
                format!("number {} {refusal:?}, field {field}, at byte {byte}", refusal.number())
            }
        }
    }

    /// The members of a JSON object.
    fn json(&self) -> String {
        match self {
            Verdict::Allowed(schedule) => {
                let step = |step: &malluvom::Step| format!("[{},{},{}]", step.before, step.location, step.machine);
                let steps: Vec<String> = schedule.steps.iter().map(step).collect();
                format!("\"verdict\":\"allowed\",\"steps\":[{}]", steps.join(","))
            }
            Verdict::Impossible(event) => format!("\"verdict\":\"impossible\",\"event\":{event}"),
            Verdict::Refused(refusal, Place { field, byte }) => {
                let number = refusal.number();
                let name = format!("\"number\":{number},\"name\":\"{refusal:?}\"");
                format!("\"verdict\":\"refused\",{name},\"field\":{field},\"byte\":{byte}")
            }
        }
    }
}

/// Tells the outcomes one after the other, and counts them.
#[derive(Default)]
pub struct Report {
    as_json: bool,
    /// A JUnit report, if one is wanted.
    pub junit: Option<Junit>,
    /// Standard output failed, which was said.
    mute: bool,
    allowed: usize,
    impossible: usize,
    refused: usize,
    unread: usize,
    unwritten: usize,
}

impl Report {
    pub fn new(as_json: bool, as_junit: bool) -> Report {
        Report { as_json, junit: as_junit.then(Junit::default), ..Report::default() }
    }

    /// Tells and counts one outcome.
    pub fn tell(&mut self, path: &Path, outcome: &Outcome) {
        match &outcome.verdict {
            Some(Verdict::Allowed(_)) => self.allowed += 1,
            Some(Verdict::Impossible(_)) => self.impossible += 1,
            Some(Verdict::Refused(..)) => self.refused += 1,
            None => self.unread += 1,
        }
        if let Some(error) = &outcome.error {
            self.unwritten += usize::from(outcome.verdict.is_some());
            Failure::new(format!("{}: {error}", shown(path))).report();
        }
        match &outcome.verdict {
            _ if self.as_json => self.print(&line_of_json(path, outcome)),
            Some(verdict) => self.print(&format!("{}: {}\n", shown(path), verdict.words())),
            None => {}
        }
        if let Some(junit) = &mut self.junit {
            junit.case(path, outcome);
        }
    }

    /// Prints a line. Where standard output fails, that is said once, and the other paths are judged all the same.
    fn print(&mut self, line: &str) {
        if self.mute {
            return;
        }
        if let Err(failure) = output::print(line.as_bytes()) {
            failure.report();
            self.mute = true;
        }
    }

    /// Says the counts, unless they are of one path.
    pub fn summary(&self, writes: bool) {
        let Report { allowed, impossible, refused, unread, unwritten, .. } = self;
        if allowed + impossible + refused + unread == 1 {
            return;
        }
        let mut summary =
            format!("{allowed} allowed, {impossible} impossible, {refused} refused, {unread} could not be read");
        if writes {
            let _ = write!(summary, ", {unwritten} could not be written");
        }
        let _ = writeln!(std::io::stderr(), "{summary}");
    }

    pub fn status(&self) -> u8 {
        match (self.unread + self.unwritten > 0 || self.mute, self.impossible + self.refused) {
            (true, _) => 2,
            (false, 0) => 0,
            (false, _) => 1,
        }
    }
}

/// One line of JSON, which docs/TOOL.md describes.
fn line_of_json(path: &Path, outcome: &Outcome) -> String {
    let mut members = vec![json(path)];
    members.extend(outcome.verdict.as_ref().map(Verdict::json));
    members.extend(outcome.error.as_ref().map(|error| format!("\"error\":{}", quoted(error))));
    format!("{{{}}}\n", members.join(","))
}

/// A report in the form that JUnit made common among CI systems: a test case for each path.
#[derive(Default)]
pub struct Junit {
    cases: String,
    tests: usize,
    failures: usize,
    errors: usize,
}

impl Junit {
    fn case(&mut self, path: &Path, outcome: &Outcome) {
        self.tests += 1;
        let mark = match (&outcome.error, &outcome.verdict) {
            (Some(error), _) => {
                self.errors += 1;
                format!("<error message=\"{}\"/>", xml(error))
            }
            (None, Some(verdict @ (Verdict::Impossible(_) | Verdict::Refused(..)))) => {
                self.failures += 1;
                format!("<failure message=\"{}\"/>", xml(&verdict.words()))
            }
            (None, _) => String::new(),
        };
        let folder = xml(&shown(output::folder_of(path)));
        let name = xml(&shown(path.file_name().map_or(path, Path::new)));
        let _ = writeln!(self.cases, "<testcase classname=\"{folder}\" name=\"{name}\">{mark}</testcase>");
    }

    /// The whole report.
    pub fn text(&self) -> String {
        let Junit { cases, tests, failures, errors } = self;
        let counts = format!("tests=\"{tests}\" failures=\"{failures}\" errors=\"{errors}\"");
        format!(
            "<?xml version=\"1.0\" encoding=\"UTF-8\"?>\n<testsuites {counts}>\n\
             <testsuite name=\"malluvom judge\" {counts}>\n{cases}</testsuite>\n</testsuites>\n"
        )
    }
}
