//! Writing files. A file that is written is replaced whole: a new file in the same folder is filled and takes the name, so
//! that whatever fails, and whoever reads at the same time, there is the old file or the new one.

use std::collections::{HashMap, HashSet};
use std::ffi::OsStr;
use std::fs::{self, File, OpenOptions};
use std::io::{self, Read, Write};
use std::path::{Path, PathBuf};
use std::process;
use std::time::SystemTime;

use crate::failure::Failure;
use crate::names::shown;
use crate::options::Options;

/// Replaces files.
pub struct Writer {
    /// Files and folders are flushed to the disk, for a power cut.
    sync: bool,
    /// The folders that were looked through for what a killed run left.
    swept: HashSet<PathBuf>,
    /// How many new files were made.
    made: usize,
}

/// The name of a file that is being filled begins so, then come the process and a number. It is short, since the name that it
/// will take may be as long as a name can be.
const FILLING: &str = ".malluvom-";

impl Writer {
    pub fn new(sync: bool) -> Writer {
        Writer { sync, swept: HashSet::new(), made: 0 }
    }

    /// Makes the file that the path names, or replaces it. A link is replaced, not followed.
    pub fn replace(&mut self, path: &Path, bytes: &[u8]) -> io::Result<()> {
        let old = match fs::symlink_metadata(path) {
            Ok(old) if old.is_file() && !self.sync && is_same(path, &old, bytes) => return Ok(()),
            Ok(old) if old.is_file() => Some(old.permissions()),
            Ok(old) if !old.is_symlink() => return Err(io::Error::other("is no regular file")),
            Ok(_) => None,
            Err(error) if error.kind() == io::ErrorKind::NotFound => None,
            Err(error) => return Err(error),
        };
        let folder = folder_of(path);
        self.sweep(folder);
        let (new, file) = self.create(folder)?;
        let done = self.fill(file, old, bytes).and_then(|()| fs::rename(&new, path));
        if done.is_err() {
            let _ = fs::remove_file(&new);
        }
        done?;
        self.flush(folder)
    }

    /// Takes a file away, if it is there. A link goes, and not what it leads to.
    pub fn remove(&mut self, path: &Path) -> io::Result<()> {
        match fs::remove_file(path) {
            Ok(()) => self.flush(folder_of(path)),
            Err(error) if error.kind() == io::ErrorKind::NotFound => Ok(()),
            failed => failed,
        }
    }

    /// A file with a new name.
    fn create(&mut self, folder: &Path) -> io::Result<(PathBuf, File)> {
        loop {
            self.made += 1;
            let new = folder.join(format!("{FILLING}{}-{}", process::id(), self.made));
            match OpenOptions::new().write(true).create_new(true).open(&new) {
                Ok(file) => return Ok((new, file)),
                Err(error) if error.kind() == io::ErrorKind::AlreadyExists => {}
                Err(error) => return Err(error),
            }
        }
    }

    fn fill(&self, mut file: File, old: Option<fs::Permissions>, bytes: &[u8]) -> io::Result<()> {
        if let Some(permissions) = old {
            file.set_permissions(permissions)?;
        }
        file.write_all(bytes)?;
        if self.sync {
            file.sync_all()?;
        }
        Ok(())
    }

    fn flush(&self, folder: &Path) -> io::Result<()> {
        if self.sync {
            File::open(folder)?.sync_all()?;
        }
        Ok(())
    }

    /// Takes away the half-filled files of runs that were killed. Those of a process that is there are left alone.
    fn sweep(&mut self, folder: &Path) {
        if !self.swept.insert(folder.into()) || !Path::new("/proc/self").exists() {
            return;
        }
        for entry in fs::read_dir(folder).into_iter().flatten().flatten() {
            let name = entry.file_name();
            let filler =
                name.to_str().and_then(|name| name.strip_prefix(FILLING)).and_then(|rest| rest.split_once('-'));
            if let Some((process, _)) = filler {
                if process.parse::<u32>().is_ok() && !Path::new("/proc").join(process).exists() {
                    let _ = fs::remove_file(entry.path());
                }
            }
        }
    }
}

/// Whether a file has these bytes already. Then it counts as written now: to make a file takes longer than to read one.
fn is_same(path: &Path, old: &fs::Metadata, bytes: &[u8]) -> bool {
    if old.len() != bytes.len() as u64 {
        return false;
    }
    let same = || -> io::Result<bool> {
        let mut found = Vec::with_capacity(bytes.len());
        let file = File::open(path)?;
        (&file).take(old.len() + 1).read_to_end(&mut found)?;
        if found == bytes {
            // Who may not change the time may still read the file.
            let _ = file.set_modified(SystemTime::now());
        }
        Ok(found == bytes)
    };
    same().unwrap_or(false)
}

/// The folder that a path's last name stands in.
pub fn folder_of(path: &Path) -> &Path {
    match path.parent() {
        Some(parent) if parent != Path::new("") => parent,
        _ => Path::new("."),
    }
}

/// Places of files. Two paths that name one place name one file, whatever links lead to its folder; a link at a place is a
/// file of its own.
#[derive(Default)]
pub struct Places {
    /// The folders so far, without links.
    folders: HashMap<PathBuf, PathBuf>,
}

impl Places {
    /// The place that a path names.
    pub fn of(&mut self, path: &Path) -> PathBuf {
        let Some(name) = path.file_name() else {
            return resolved(path);
        };
        let folder = folder_of(path);
        match self.folders.get(folder) {
            Some(found) => found.join(name),
            None => self.folders.entry(folder.into()).or_insert(resolved(folder)).join(name),
        }
    }

    /// The places from which an input is read: its own, and the one that its links lead to.
    pub fn read(&mut self, input: &Path) -> Vec<PathBuf> {
        let input = if input == Path::new("-") { Path::new("/dev/stdin") } else { input };
        let mut places = vec![self.of(input)];
        if input.is_symlink() {
            places.push(resolved(input));
        }
        places
    }
}

/// A path without links, if it leads somewhere.
fn resolved(path: &Path) -> PathBuf {
    path.canonicalize().unwrap_or_else(|_| path.into())
}

/// Refuses outputs that are an input of the same call, or the same file twice.
pub fn check(outputs: &[&Path], inputs: &[PathBuf]) -> Result<(), Failure> {
    let mut places = Places::default();
    let mut taken: HashSet<PathBuf> = inputs.iter().flat_map(|input| places.read(input)).collect();
    for output in outputs {
        if !taken.insert(places.of(output)) {
            return Err(taken_already(output));
        }
    }
    Ok(())
}

/// An output that is an input too, or another output.
pub fn taken_already(output: &Path) -> Failure {
    Failure::new(format!("{}: is read or written by this call already", shown(output)))
}

/// Writes what a command makes to the file that `-o` names, or to standard output.
pub fn write(options: &Options, bytes: &[u8]) -> Result<(), Failure> {
    match options.value("-o") {
        Some(path) => {
            check(&[Path::new(path)], &options.files)?;
            write_file(path, bytes, options.has("--sync"))
        }
        None => print(bytes),
    }
}

/// Writes a file that the user names. A device or a pipe has nothing to replace and is written to.
pub fn write_file(path: &OsStr, bytes: &[u8], sync: bool) -> Result<(), Failure> {
    let path = Path::new(path);
    let done = match fs::metadata(path) {
        Ok(found) if !found.is_file() && !found.is_dir() => {
            OpenOptions::new().write(true).open(path).and_then(|mut file| file.write_all(bytes))
        }
        _ => Writer::new(sync).replace(path, bytes),
    };
    done.map_err(|error| Failure::new(format!("{}: {error}", shown(path))))
}

/// Writes to standard output.
pub fn print(bytes: &[u8]) -> Result<(), Failure> {
    let mut out = io::stdout().lock();
    match out.write_all(bytes).and_then(|()| out.flush()) {
        // A reader that has seen enough is no failure.
        Err(error) if error.kind() == io::ErrorKind::BrokenPipe => Ok(()),
        done => done.map_err(|error| Failure::new(format!("standard output: {error}"))),
    }
}
