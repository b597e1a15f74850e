//! The files of examples/: the verdict of both sides, and the stored output of the verdict program.

use std::path::{Path, PathBuf};

use corpus::Random;
use second::{judge_bytes, printed};

use crate::report::Report;
use crate::trial;

/// Compares every .log file in the folders of a folder. A file without stored output is named, and is no difference.
pub fn compare(folder: &Path) -> bool {
    let mut report = Report::default();
    let mut random = Random::new(0);
    let mut logs = Vec::new();
    if let Err(error) = collect(folder, &mut logs) {
        println!("{}: {error}", folder.display());
        return false;
    }
    logs.sort();
    for path in logs {
        let Ok(log) = std::fs::read(&path) else {
            report.differ("cannot be read", &[], &path.display().to_string());
            continue;
        };
        trial::compare("examples", &log, &mut random, &mut report);
        match std::fs::read_to_string(path.with_extension("out")) {
            Ok(out) => {
                let second = printed(&judge_bytes(&log));
                if out != second {
                    let detail = format!("{}: the second judge prints {second:?}", path.display());
                    report.differ("stored output", &log, &detail);
                }
            }
            Err(_) => println!("no stored output: {}", path.display()),
        }
    }
    report.print();
    report.last_line()
}

fn collect(folder: &Path, logs: &mut Vec<PathBuf>) -> std::io::Result<()> {
    for entry in std::fs::read_dir(folder)? {
        let path = entry?.path();
        if path.is_dir() {
            collect(&path, logs)?;
        } else if path.extension().is_some_and(|extension| extension == "log") {
            logs.push(path);
        }
    }
    Ok(())
}
