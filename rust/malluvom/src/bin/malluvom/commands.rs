//! The commands of the tool, each with its words and its options. `help`, `COMMAND --help`, the man page and the parsing of
//! words all come from this table.

use crate::failure::Failure;
use crate::options::Options;
use crate::{asm, convert, draw, explain, judge, replay, show, shrink};

/// A command.
pub struct Command {
    pub name: &'static str,
    /// The files that it takes.
    pub files: &'static str,
    /// What it does: sentences.
    pub does: &'static str,
    pub options: &'static [Opt],
    pub run: fn(&Options) -> Result<u8, Failure>,
}

/// An option of a command.
pub struct Opt {
    pub name: &'static str,
    /// What the next word is, for an option that takes one.
    pub value: Option<&'static str>,
    pub does: &'static str,
}

const fn flag(name: &'static str, does: &'static str) -> Opt {
    Opt { name, value: None, does }
}

const fn valued(name: &'static str, value: &'static str, does: &'static str) -> Opt {
    Opt { name, value: Some(value), does }
}

const SYNC: Opt = flag("--sync", "flush what is written to the disk, file and folder, for a power cut");

const ALLOW_EMPTY: Opt = flag("--allow-empty", "a folder without a log is no failure");

pub const ALL: &[Command] = &[
    Command {
        name: "asm",
        files: "TEXT",
        does: "The log's bytes of a text.",
        options: &[
            valued("-o", "LOG", "write the log to this file"),
            valued("--schedule", "VERDICT", "also write the silent steps of the text as a verdict file"),
            SYNC,
        ],
        run: asm::command,
    },
    Command {
        name: "show",
        files: "LOG [VERDICT]",
        does: "A log as text, one event per line, with the silent steps of a verdict file.",
        options: &[valued("-o", "TEXT", "write the text to this file"), SYNC],
        run: show::command,
    },
    Command {
        name: "convert",
        files: "LOG",
        does: "The same log in the other edition: values of 4 bytes in place of 2, or of 2 in place of 4.",
        options: &[valued("-o", "LOG", "write the log to this file"), SYNC],
        run: convert::command,
    },
    Command {
        name: "judge",
        files: "PATH...",
        does: "One line for each file, and for each .log file of each folder and of the folders in it: allowed and the \
               number of silent steps, impossible and the first impossible event, or number and the refusal.",
        options: &[
            flag(
                "--write",
                "put a verdict file beside each log, with the extension .verdict; where a log has no verdict, an older \
                 file is taken away",
            ),
            SYNC,
            flag("--json", "print a line of JSON for each path, also for those that cannot be read"),
            valued("--junit", "FILE", "also write the verdicts as a JUnit report"),
            ALLOW_EMPTY,
        ],
        run: judge::command,
    },
    Command {
        name: "replay",
        files: "LOG VERDICT | PATH...",
        does: "Yes, or no and the number of events that pass before the first thing not possible. Of folders, each .log \
               file with the verdict file beside it, a line each.",
        options: &[ALLOW_EMPTY],
        run: replay::command,
    },
    Command {
        name: "explain",
        files: "LOG",
        does: "An allowed log's shortest run step by step, or why nothing explains an impossible event: the events \
               that rule it out, and the states that its location can be in before each.",
        options: &[
            flag("--all", "show the table of states whole, however long, and name every event that is left out of it"),
            valued("-o", "TEXT", "write the text to this file"),
            SYNC,
        ],
        run: explain::command,
    },
    Command {
        name: "shrink",
        files: "LOG",
        does: "A smallest log that is impossible for the same reason: some events of an impossible log, up to its \
               first impossible event.",
        options: &[valued("-o", "LOG", "write the log to this file"), SYNC],
        run: shrink::command,
    },
    Command {
        name: "draw",
        files: "LOG",
        does: "A picture of one location's part of that run.",
        options: &[
            valued("--location", "L0", "draw this location"),
            valued("-o", "SVG", "write the picture to this file"),
            SYNC,
        ],
        run: draw::command,
    },
];

/// The command with this name.
pub fn named(name: &str) -> Option<&'static Command> {
    ALL.iter().find(|command| command.name == name)
}
