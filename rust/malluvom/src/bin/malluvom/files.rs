//! Reading, with errors that name the file.

use std::fs::{self, File};
use std::io::{self, Read};
use std::path::Path;

use malluvom::{convert, log, read, Log, Refusal};

use crate::failure::Failure;
use crate::names::shown;

/// No answer of the library depends on more bytes of a log or of a verdict file: 2,088 and 1,544 are the most that are
/// accepted, and what stands after them only makes the refusal sure.
const BYTES_MOST: u64 = 65_536;

/// No text of a log is longer, unless it is filled with comments.
const TEXT_MOST: u64 = 1 << 20;

/// A file that can be read to its end: standard input, a regular file, or what is under /dev, where the shell puts pipes. To
/// open a pipe that has a name would wait for whoever writes to it.
fn open(path: &Path) -> io::Result<Box<dyn Read>> {
    if path == Path::new("-") {
        return Ok(Box::new(io::stdin().lock()));
    }
    let found = fs::metadata(path)?;
    if found.is_dir() {
        return Err(io::Error::other("is a folder"));
    }
    if !found.is_file() && !path.starts_with("/dev") {
        return Err(io::Error::other("is no regular file"));
    }
    Ok(Box::new(File::open(path)?))
}

fn read_most(path: &Path, most: u64) -> io::Result<Vec<u8>> {
    let mut bytes = Vec::new();
    open(path)?.take(most).read_to_end(&mut bytes)?;
    Ok(bytes)
}

/// The bytes of a log or of a verdict file, or as many as matter.
pub fn bytes_of(path: &Path) -> io::Result<Vec<u8>> {
    read_most(path, BYTES_MOST)
}

/// The same, with a failure that names the file.
pub fn read_bytes(path: &Path) -> Result<Vec<u8>, Failure> {
    bytes_of(path).map_err(|error| failed(path, error))
}

/// A text.
pub fn read_text(path: &Path) -> Result<String, Failure> {
    let bytes = read_most(path, TEXT_MOST + 1).map_err(|error| failed(path, error))?;
    if bytes.len() as u64 > TEXT_MOST {
        return Err(Failure::new(format!("{}: over {TEXT_MOST} bytes of text", shown(path))));
    }
    String::from_utf8(bytes).map_err(|_| Failure::new(format!("{}: no text in UTF-8", shown(path))))
}

fn failed(path: &Path, error: io::Error) -> Failure {
    Failure::new(format!("{}: {error}", shown(path)))
}

/// A log that the library accepts, with its bytes.
pub fn read_log(path: &Path) -> Result<(Log, Vec<u8>), Failure> {
    let bytes = read_bytes(path)?;
    match Log::parse(&bytes) {
        Ok(log) => Ok((log, bytes)),
        Err(refusal) => Err(refused(path, &bytes, refusal)),
    }
}

/// A refused log, with the field that is refused.
pub fn refused(path: &Path, bytes: &[u8], refusal: Refusal) -> Failure {
    let Place { field, byte } = refused_at(bytes, refusal);
    Failure::refused(format!("{}: field {field}, at byte {byte}: {refusal}", shown(path)))
}

/// A refused verdict file.
pub fn refused_verdict(path: &Path, refusal: Refusal) -> Failure {
    Failure::refused(format!("{}: {refusal}", shown(path)))
}

/// The event that a verdict file calls impossible, if it does.
pub fn impossible_event(file: &[u8]) -> Option<u8> {
    match *file {
        [0x10, 2, 0, 0, event, 0x04, 0, 0] => Some(event),
        _ => None,
    }
}

/// Where a log is refused: the field, counted from 1, and the position of its first byte.
pub struct Place {
    pub field: usize,
    pub byte: usize,
}

/// The field that a refused log is refused for. Bytes that stop after a whole field are refused with 2 for the end that
/// they lack, so the first field whose end brings another answer is the one. That a value is too large is said of accepted
/// logs alone, so there an end is put after each field.
pub fn refused_at(bytes: &[u8], refusal: Refusal) -> Place {
    let passes = |fields: &[u8]| match refusal {
        Refusal::ValueTooLarge => convert(&[fields, &[0x04, 0, 0]].concat()).is_ok(),
        _ => matches!(read(fields), Err(Refusal::Truncated) | Ok(_)),
    };
    let ends: Vec<usize> = log::fields(bytes).map(|(at, _, payload)| at + 3 + payload.len()).collect();
    let passed = ends.partition_point(|&end| passes(&bytes[..end]));
    Place { field: passed + 1, byte: ends[..passed].last().copied().unwrap_or(0) }
}
