//! A log in the other edition.

use malluvom::convert;

use crate::failure::Failure;
use crate::files;
use crate::options::Options;
use crate::output;

pub fn command(options: &Options) -> Result<u8, Failure> {
    let path = options.one_file("the log")?;
    let log = files::read_bytes(path)?;
    let converted = convert(&log).map_err(|refusal| files::refused(path, &log, refusal))?;
    output::write(options, &converted)?;
    Ok(0)
}
