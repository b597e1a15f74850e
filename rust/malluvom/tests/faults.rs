//! Whatever fails at whatever call of the C library, and wherever the tool is killed, a verdict file is an old or a new one,
//! whole, and no other file is left behind.

mod common;

use std::collections::BTreeMap;
use std::fs;
use std::path::{Path, PathBuf};
use std::process::{Command, Output};

use common::{errors, example, folder};

/// No space left on device; input or output error.
const ERRORS: [i32; 2] = [28, 5];

/// The library that makes calls fail.
fn shim(folder: &Path) -> PathBuf {
    let shim = folder.join("faults.so");
    let source = Path::new(env!("CARGO_MANIFEST_DIR")).join("tests/faults.c");
    let mut gcc = Command::new("gcc");
    gcc.args(["-shared", "-fPIC", "-O1", "-Wall", "-Werror", "-o"]).arg(&shim).arg(source).arg("-ldl");
    assert!(gcc.status().unwrap().success());
    shim
}

/// The files of a folder with their bytes.
fn files(folder: &Path) -> BTreeMap<String, Vec<u8>> {
    let entries = fs::read_dir(folder).unwrap().map(Result::unwrap);
    entries.map(|entry| (entry.file_name().into_string().unwrap(), fs::read(entry.path()).unwrap())).collect()
}

/// A folder of logs whose verdicts were filed and some of which have changed since.
struct Bench {
    shim: PathBuf,
    mark: PathBuf,
    logs: PathBuf,
    before: BTreeMap<String, Vec<u8>>,
    after: BTreeMap<String, Vec<u8>>,
}

impl Bench {
    fn new(name: &str) -> Bench {
        let base = folder(name);
        let logs = base.join("logs");
        fs::create_dir_all(&logs).unwrap();
        let put = |name: &str, log: &str| assert!(fs::copy(example(name), logs.join(log)).is_ok());
        // a stays, b becomes impossible, c refused, and d has no verdict yet.
        ["a.log", "b.log", "c.log"].into_iter().for_each(|log| put("marked/04.log", log));
        let mut bench = Bench {
            shim: shim(&base),
            mark: base.join("mark"),
            logs: logs.clone(),
            before: BTreeMap::new(),
            after: BTreeMap::new(),
        };
        bench.judge(&[], None);
        put("marked/05.log", "b.log");
        put("edges/01-empty.log", "c.log");
        put("marked/08.log", "d.log");
        bench.before = files(&logs);
        bench.judge(&[], None);
        bench.after = files(&logs);
        let names = ["a.log", "a.verdict", "b.log", "b.verdict", "c.log", "d.log", "d.verdict"];
        assert_eq!(bench.after.keys().collect::<Vec<_>>(), names);
        bench
    }

    /// The folder as it was.
    fn restore(&self) {
        fs::remove_dir_all(&self.logs).unwrap();
        fs::create_dir_all(&self.logs).unwrap();
        for (name, bytes) in &self.before {
            fs::write(self.logs.join(name), bytes).unwrap();
        }
        let _ = fs::remove_file(&self.mark);
    }

    /// Judges the folder. With a fault, that call fails with that error, or the tool is killed there if it is 0.
    fn judge(&self, words: &[&str], fault: Option<(usize, i32)>) -> Output {
        let mut command = Command::new(env!("CARGO_BIN_EXE_malluvom"));
        command.args(["judge", "--write"]).args(words).arg(&self.logs);
        if let Some((at, error)) = fault {
            command.env("LD_PRELOAD", &self.shim).env("FAULT_MARK", &self.mark);
            command.env("FAULT_AT", at.to_string()).env("FAULT_ERROR", error.to_string());
        }
        command.output().unwrap()
    }

    /// Whether a verdict file is an old or a new one, or a log its own.
    fn is_whole(&self, name: &str, bytes: &Vec<u8>) -> bool {
        self.before.get(name) == Some(bytes) || self.after.get(name) == Some(bytes)
    }

    /// Tries a fault at each call until there is none. Gives how many there were.
    fn each(&self, words: &[&str], error: i32, asked: &dyn Fn(&Output, BTreeMap<String, Vec<u8>>)) -> usize {
        for at in 0.. {
            self.restore();
            let output = self.judge(words, Some((at, error)));
            if !self.mark.exists() {
                assert_eq!(files(&self.logs), self.after);
                return at;
            }
            asked(&output, files(&self.logs));
        }
        unreachable!()
    }
}

#[test]
fn a_call_that_fails_leaves_whole_files_and_no_others() {
    let bench = Bench::new("faults");
    for words in [&[][..], &["--sync"]] {
        for error in ERRORS {
            let tried = bench.each(words, error, &|output, files| {
                let said = errors(output);
                let status = output.status.code().expect("ended by a signal");
                assert!((0..=2).contains(&status) && !said.contains("panicked"), "{said}");
                for (name, bytes) in &files {
                    assert!(bench.is_whole(name, bytes), "{name}: {said}");
                }
                if status < 2 {
                    assert_eq!(files, bench.after, "{said}");
                }
                // A verdict that is not its log's stays only where that is said, or where the folder could not be read.
                for stale in ["b.verdict", "c.verdict"] {
                    let told = said.contains(&format!("{stale} is stale and stays")) || said.contains("logs: ");
                    let old = files.get(stale).is_some_and(|bytes| Some(bytes) == bench.before.get(stale));
                    assert!(!old || told && status == 2, "{stale}: {said}");
                }
            });
            assert!(tried > 20, "{tried} calls were made to fail");
        }
    }
}

#[test]
fn a_kill_leaves_whole_files_and_the_next_run_clears_up() {
    let bench = Bench::new("kills");
    let tried = bench.each(&[], 0, &|output, files| {
        assert_eq!(output.status.code(), None);
        for (name, bytes) in files.iter().filter(|(name, _)| !name.starts_with(".malluvom-")) {
            assert!(bench.is_whole(name, bytes), "{name}");
        }
        bench.judge(&[], None);
        assert_eq!(self::files(&bench.logs), bench.after);
    });
    assert!(tried > 20, "{tried} kills");
}
