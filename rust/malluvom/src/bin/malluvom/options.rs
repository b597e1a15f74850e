//! The words after a command: flags, options with a value, and files.

use std::ffi::{OsStr, OsString};
use std::path::{Path, PathBuf};

use crate::commands::Command;
use crate::failure::Failure;

/// The words of one command.
#[derive(Default)]
pub struct Options {
    flags: Vec<&'static str>,
    values: Vec<(&'static str, OsString)>,
    pub files: Vec<PathBuf>,
    /// `--help` is among the words.
    pub help: bool,
}

impl Options {
    /// Sorts the words by the command's options. Anything else that begins with a dash, except a dash alone, is refused.
    /// After `--` all words are files.
    pub fn parse(words: &[OsString], command: &Command) -> Result<Options, Failure> {
        let mut options = Options::default();
        let mut words = words.iter();
        while let Some(word) = words.next() {
            let name = word.to_string_lossy();
            if name == "--" {
                options.files.extend(words.by_ref().map(PathBuf::from));
            } else if !name.starts_with('-') || name == "-" {
                options.files.push(word.into());
            } else if name == "--help" || name == "-h" {
                options.help = true;
            } else {
                let known = command.options.iter().find(|option| option.name == name);
                let option = known.ok_or_else(|| Failure::usage(format!("{name} is no option here")))?;
                match option.value {
                    None => options.flags.push(option.name),
                    Some(_) => {
                        let value = words.next().ok_or_else(|| Failure::usage(format!("{name} needs a value")))?;
                        options.values.push((option.name, value.clone()));
                    }
                }
            }
        }
        if options.files.iter().filter(|file| *file == Path::new("-")).count() > 1 {
            return Err(Failure::usage("standard input can be read only once"));
        }
        Ok(options)
    }

    pub fn has(&self, flag: &str) -> bool {
        self.flags.contains(&flag)
    }

    pub fn value(&self, option: &str) -> Option<&OsStr> {
        self.values.iter().rev().find(|(name, _)| *name == option).map(|(_, value)| value.as_os_str())
    }

    /// The one file that the command takes.
    pub fn one_file(&self, what: &str) -> Result<&PathBuf, Failure> {
        match &self.files[..] {
            [file] => Ok(file),
            _ => Err(Failure::usage(format!("give one file, {what}"))),
        }
    }
}
