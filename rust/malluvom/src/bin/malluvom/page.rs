//! Text that fits its reader's screen.

use std::ffi::OsStr;
use std::fs::File;
use std::io::IsTerminal;
use std::process::{Command, Stdio};

/// How much there is room for.
#[derive(Clone, Copy)]
pub struct Page {
    pub columns: usize,
    pub lines: usize,
}

/// The page where nothing is known of it.
const PAGE: Page = Page { columns: 100, lines: 40 };

/// Narrower pages are written as if they had so many columns.
const COLUMNS_LEAST: usize = 40;

impl Page {
    /// The page of what goes to this file or to standard output: COLUMNS and LINES say it before the terminal does.
    pub fn of_output(file: Option<&OsStr>) -> Page {
        let terminal = if file.is_none() && std::io::stdout().is_terminal() { Page::of_terminal() } else { None };
        let Page { columns, lines } = terminal.unwrap_or(PAGE);
        let said = |name| std::env::var(name).ok().and_then(|value| value.parse().ok()).filter(|&number| number > 0);
        Page { columns: said("COLUMNS").unwrap_or(columns).max(COLUMNS_LEAST), lines: said("LINES").unwrap_or(lines) }
    }

    /// The standard library does not know the terminal's size; `stty` does.
    fn of_terminal() -> Option<Page> {
        let terminal = File::open("/dev/tty").ok()?;
        let output = Command::new("stty").arg("size").stdin(terminal).stderr(Stdio::null()).output().ok()?;
        let size = String::from_utf8(output.stdout).ok()?;
        let (lines, columns) = size.trim().split_once(' ')?;
        let (lines, columns): (usize, usize) = (lines.parse().ok()?, columns.parse().ok()?);
        // The prompt takes a line. A terminal that does not know its size says 0.
        (lines > 1 && columns > 0).then_some(Page { columns, lines: lines - 1 })
    }

    /// A line, broken at spaces where it is too long, with what follows indented.
    pub fn wrapped(&self, line: &str, indent: usize) -> String {
        let indent = indent.min(self.columns / 2);
        let mut text = String::new();
        let (mut column, mut spaces) = (0, 0);
        for word in line.trim_end().split(' ') {
            // Between two spaces there is an empty word.
            if word.is_empty() {
                spaces += 1;
                continue;
            }
            let length = word.chars().count();
            if column > 0 && column + spaces + length > self.columns {
                text.push('\n');
                (column, spaces) = (0, indent);
            }
            text.push_str(&" ".repeat(spaces));
            text.push_str(word);
            (column, spaces) = (column + spaces + length, 1);
        }
        text.push('\n');
        text
    }
}
