//! What the tool says of itself: `help`, `COMMAND --help` and the man page, all from the table of the commands.

use std::fmt::Write;

use crate::commands::{Command, Opt, ALL};

/// What every command has in common.
const COMMON: [&str; 2] = [
    "A file named - is standard input. What is written goes to standard output unless -o names a file. After -- every \
     word is a file.",
    "Exit status: 0; 1 if a log is impossible or refused, or replay says no; 2 if something could not be done.",
];

/// The text of `malluvom help`.
pub fn all() -> String {
    let mut text = String::from("malluvom: a proved judge of CXL0 logs\n\n");
    for command in ALL {
        let _ = writeln!(text, "  malluvom {}", usage(command));
        text.push_str(&wrapped(command.does, 8));
    }
    text.push_str("  malluvom COMMAND --help\n        the options of a command\n");
    text.push_str("  malluvom man\n        the manual page, for man -l\n");
    text.push_str("  malluvom --version\n        the version, and the change requests that the proved library has\n\n");
    for sentence in COMMON {
        text.push_str(&wrapped(sentence, 0));
    }
    text
}

/// The text of `malluvom COMMAND --help`.
pub fn one(command: &Command) -> String {
    let mut text = format!("malluvom {}\n\n{}", usage(command), wrapped(command.does, 0));
    for (number, option) in command.options.iter().enumerate() {
        text.push_str(if number == 0 { "\n" } else { "" });
        let _ = writeln!(text, "  {}", with_value(option));
        text.push_str(&wrapped(option.does, 8));
    }
    text.push('\n');
    for sentence in COMMON {
        text.push_str(&wrapped(sentence, 0));
    }
    text
}

/// The text of `malluvom --version`: the tool's version, and the change requests that the proved library has.
pub fn version() -> String {
    let requests: Vec<String> = malluvom::requests().iter().map(|number| format!("W-{number}")).collect();
    format!("malluvom {}, with requests {}\n", env!("CARGO_PKG_VERSION"), requests.join(" "))
}

/// The manual page, in the macros of man(7).
pub fn man() -> String {
    let mut page =
        String::from(".TH MALLUVOM 1\n.SH NAME\nmalluvom \\- a proved judge of CXL0 logs\n.SH SYNOPSIS\n.nf\n");
    for command in ALL {
        let _ = writeln!(page, "malluvom {}", roff(&usage(command)));
    }
    page.push_str("malluvom help\nmalluvom man\nmalluvom \\-\\-version\n.fi\n.SH COMMANDS\n");
    for command in ALL {
        let _ = writeln!(page, ".SS {}\n{}", command.name, roff(command.does));
        for option in command.options {
            let _ = writeln!(page, ".TP\n.B {}\n{}", roff(&with_value(option)), roff(option.does));
        }
    }
    page.push_str(".SH NOTES\n");
    for sentence in COMMON {
        let _ = writeln!(page, "{}\n.PP", roff(sentence));
    }
    page.truncate(page.len() - ".PP\n".len());
    page
}

/// A command with its files and options.
fn usage(command: &Command) -> String {
    let mut usage = format!("{} {}", command.name, command.files);
    for option in command.options {
        let _ = write!(usage, " [{}]", with_value(option));
    }
    usage
}

fn with_value(option: &Opt) -> String {
    match option.value {
        Some(value) => format!("{} {value}", option.name),
        None => option.name.into(),
    }
}

/// Text with what man(7) would read as its own protected.
fn roff(text: &str) -> String {
    let text = text.replace('\\', "\\e").replace('-', "\\-");
    if text.starts_with(['.', '\'']) {
        format!("\\&{text}")
    } else {
        text
    }
}

/// A paragraph in lines of at most 100 columns.
fn wrapped(paragraph: &str, indent: usize) -> String {
    let mut text = String::new();
    let mut column = 0;
    for word in paragraph.split_whitespace() {
        if column > 0 && column + 1 + word.chars().count() > 100 {
            text.push('\n');
            column = 0;
        }
        if column == 0 {
            text.push_str(&" ".repeat(indent));
            column = indent;
        } else {
            text.push(' ');
            column += 1;
        }
        text.push_str(word);
        column += word.chars().count();
    }
    text.push('\n');
    text
}
