//! Which logs do the paths of a command name? A file names itself; a folder names the .log files in it and in the folders
//! in it, by name.

use std::collections::HashSet;
use std::fs::{self, DirEntry, FileType};
use std::io;
use std::os::unix::fs::MetadataExt;
use std::path::{Path, PathBuf};

/// A path to be judged, or one that cannot be.
pub struct Found {
    pub path: PathBuf,
    /// Why it cannot be judged.
    pub failed: Option<String>,
}

/// The logs that the paths name, in order. A folder without a log is a failure unless empty ones are allowed.
pub fn logs(paths: &[PathBuf], allow_empty: bool) -> Vec<Found> {
    let mut all = Vec::new();
    for path in paths {
        if !path.is_dir() {
            all.push(Found { path: path.clone(), failed: None });
            continue;
        }
        let mut search = Search::default();
        search.folder(path);
        if search.found.is_empty() && !allow_empty {
            search.push(path.clone(), Some("no log in it".into()));
        }
        all.append(&mut search.found);
    }
    all
}

#[derive(Default)]
struct Search {
    found: Vec<Found>,
    /// The folders that were looked through, by device and number. Links can lead to one again.
    seen: HashSet<(u64, u64)>,
}

impl Search {
    fn push(&mut self, path: PathBuf, failed: Option<String>) {
        self.found.push(Found { path, failed });
    }

    fn failed(&mut self, path: &Path, error: io::Error) {
        self.push(path.into(), Some(error.to_string()));
    }

    /// The logs of a folder, unless it was looked through already. What cannot be read is a failure, and the search goes on.
    fn folder(&mut self, folder: &Path) {
        match fs::metadata(folder) {
            Ok(found) if !self.seen.insert((found.dev(), found.ino())) => return,
            Ok(_) => {}
            Err(error) => return self.failed(folder, error),
        }
        let listed = match fs::read_dir(folder) {
            Ok(listed) => listed,
            Err(error) => return self.failed(folder, error),
        };
        let mut entries = Vec::new();
        for entry in listed {
            match entry {
                Ok(entry) => entries.push(entry),
                Err(error) => self.failed(folder, error),
            }
        }
        entries.sort_by_key(|entry| entry.file_name());
        entries.iter().for_each(|entry| self.entry(entry));
    }

    fn entry(&mut self, entry: &DirEntry) {
        let path = entry.path();
        let is_log = path.extension().is_some_and(|extension| extension.eq_ignore_ascii_case("log"));
        match kind_of(entry) {
            Ok(kind) if kind.is_dir() => self.folder(&path),
            _ if !is_log => {}
            Ok(kind) if kind.is_file() => self.push(path, None),
            Ok(_) => self.push(path, Some("is no regular file".into())),
            Err(error) => self.failed(&path, error),
        }
    }
}

/// What an entry is, or what it leads to if it is a link.
fn kind_of(entry: &DirEntry) -> io::Result<FileType> {
    match entry.file_type()? {
        kind if kind.is_symlink() => Ok(fs::metadata(entry.path())?.file_type()),
        kind => Ok(kind),
    }
}
