//! What the tests of the command line tool share.
#![allow(dead_code)] // Each test file uses a part of it.

use std::fs;
use std::path::{Path, PathBuf};
use std::process::{Command, Output};

/// The tool, whatever the size of the terminal that the tests run in.
pub fn command() -> Command {
    let mut command = Command::new(env!("CARGO_BIN_EXE_malluvom"));
    command.env_remove("COLUMNS").env_remove("LINES");
    command
}

pub fn tool(words: &[&str]) -> Output {
    command().args(words).output().unwrap()
}

/// The same on a page so wide that no line is broken.
pub fn on_wide_page(words: &[&str]) -> Output {
    command().env("COLUMNS", "10000").args(words).output().unwrap()
}

pub fn status(output: &Output) -> i32 {
    let errors = String::from_utf8_lossy(&output.stderr);
    assert!(!errors.contains("panicked"), "{errors}");
    output.status.code().expect("ended by a signal")
}

/// What a command says on standard error.
pub fn errors(output: &Output) -> String {
    String::from_utf8(output.stderr.clone()).unwrap()
}

/// An example's path.
pub fn example(name: &str) -> PathBuf {
    Path::new(env!("CARGO_MANIFEST_DIR")).join("../../examples").join(name)
}

/// The names in a folder, in order.
pub fn names(folder: &Path) -> Vec<String> {
    let names = fs::read_dir(folder).unwrap().map(|entry| entry.unwrap().file_name().into_string().unwrap());
    let mut names: Vec<String> = names.collect();
    names.sort();
    names
}

/// A folder of its own for each test.
pub fn folder(name: &str) -> PathBuf {
    let folder = Path::new(env!("CARGO_TARGET_TMPDIR")).join(name);
    let _ = fs::remove_dir_all(&folder);
    fs::create_dir_all(&folder).unwrap();
    folder
}

/// What a command prints.
pub fn print(words: &[&str]) -> String {
    String::from_utf8(tool(words).stdout).unwrap()
}

/// A text and its log, in a folder of their own.
pub struct Pair {
    pub text: String,
    pub log: String,
}

impl Pair {
    pub fn new(name: &str) -> Pair {
        let folder = folder(name);
        let [text, log] = ["a.txt", "a.log"].map(|name| folder.join(name).to_str().unwrap().to_string());
        Pair { text, log }
    }

    /// The bytes of the text, which are the log from now on.
    pub fn assemble(&self, text: &str) -> Vec<u8> {
        fs::write(&self.text, format!("{text}\n")).unwrap();
        assert_eq!(status(&tool(&["asm", &self.text, "-o", &self.log])), 0, "{text}");
        fs::read(&self.log).unwrap()
    }

    /// The bytes of some lines, whatever they make.
    pub fn fields(&self, lines: &str) -> Vec<u8> {
        self.assemble(&format!("unchecked\n{lines}"))
    }

    /// The log as text, which gives its bytes again.
    pub fn show(&self) -> String {
        let shown = print(&["show", &self.log]);
        assert_eq!(fs::read(&self.log).unwrap(), self.assemble(&shown), "{shown}");
        shown
    }

    pub fn explain(&self) -> String {
        String::from_utf8(on_wide_page(&["explain", &self.log]).stdout).unwrap()
    }

    /// The explanation of an impossible log, which can be drawn too.
    pub fn why(&self) -> String {
        let output = on_wide_page(&["explain", &self.log]);
        assert_eq!((status(&output), status(&tool(&["draw", &self.log]))), (1, 1));
        String::from_utf8(output.stdout).unwrap()
    }

    pub fn draw(&self, location: &str) -> String {
        print(&["draw", &self.log, "--location", location])
    }

    /// Of the picture of a location: its title, and the values of the memory one after the other.
    pub fn memory(&self, location: &str) -> (String, String) {
        let svg = self.draw(location);
        let words = |line: &str| line.rsplit_once("</text>").unwrap().0.rsplit_once('>').unwrap().1.to_string();
        let title = svg.lines().find(|line| line.contains("class=\"title\"")).unwrap();
        let bars = svg.lines().filter(|line| line.starts_with("<rect class=\"memory\""));
        (words(title), bars.map(words).collect::<Vec<_>>().join(" "))
    }

    pub fn is_allowed(&self) -> bool {
        status(&tool(&["judge", &self.log])) == 0
    }
}

pub fn examples(extension: &str) -> Vec<PathBuf> {
    let root = Path::new(env!("CARGO_MANIFEST_DIR")).join("../../examples");
    let mut found = Vec::new();
    for entry in fs::read_dir(root).unwrap().map(Result::unwrap).filter(|entry| entry.path().is_dir()) {
        found.extend(fs::read_dir(entry.path()).unwrap().map(|file| file.unwrap().path()));
    }
    found.retain(|path| path.extension().is_some_and(|found| found == extension));
    found.sort();
    assert!(found.len() >= 14);
    found
}

pub fn root() -> PathBuf {
    Path::new(env!("CARGO_MANIFEST_DIR")).join("../..")
}

/// A document's commands, so many of them, stand there with what they print.
pub fn assert_document(name: &str, commands: usize) {
    let text = fs::read_to_string(root().join(name)).unwrap();
    let shown: Vec<&str> = text.split("    $ malluvom ").skip(1).collect();
    assert_eq!(shown.len(), commands);
    for shown in shown {
        let (words, rest) = shown.split_once('\n').unwrap();
        let lines = rest.lines().map_while(|line| line.strip_prefix("    ").or(line.is_empty().then_some("")));
        let lines: Vec<&str> = lines.collect();
        let output = command().current_dir(root()).args(words.split(' ')).output().unwrap();
        assert_eq!(lines.join("\n").trim_end(), String::from_utf8(output.stdout).unwrap().trim_end(), "{words}");
    }
}
