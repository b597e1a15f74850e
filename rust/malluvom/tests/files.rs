//! Verdicts filed beside their logs: nothing dropped, nothing stale, no other file harmed.

mod common;

use std::fs;
use std::os::unix::fs::{symlink, MetadataExt, PermissionsExt};
use std::os::unix::process::CommandExt;
use std::path::{Path, PathBuf};
use std::process::{Command, Output};
use std::sync::atomic::{AtomicBool, Ordering};

use common::{errors, example, folder, names, print, status, tool};

/// An allowed, an impossible and a refused log of the examples.
const ALLOWED: &str = "marked/04.log";
const IMPOSSIBLE: &str = "marked/05.log";
const REFUSED: &str = "edges/01-empty.log";

fn put(example_name: &str, path: &Path) {
    fs::copy(example(example_name), path).unwrap();
}

fn text(path: &Path) -> &str {
    path.to_str().unwrap()
}

/// Runs the tool as a user for whom permissions count, in a folder that this user can reach and that has the tool.
fn as_user(folder: &Path, words: &[&str]) -> Output {
    let mut command = Command::new(folder.join("malluvom"));
    if fs::metadata("/proc/self").unwrap().uid() == 0 {
        command.uid(65_534);
    }
    command.current_dir(folder).args(words).output().unwrap()
}

/// A folder that every user can reach and write to, with the tool in it. Another process copies it: a program cannot be
/// started while one of our threads still has it open.
fn open_folder(name: &str) -> PathBuf {
    let folder = std::env::temp_dir().join(format!("malluvom-{name}-{}", std::process::id()));
    fs::create_dir_all(&folder).unwrap();
    fs::set_permissions(&folder, fs::Permissions::from_mode(0o777)).unwrap();
    let mut copy = Command::new("cp");
    copy.arg(env!("CARGO_BIN_EXE_malluvom")).arg(folder.join("malluvom"));
    assert!(copy.status().unwrap().success());
    folder
}

#[test]
fn an_unreadable_folder_hides_nothing_behind_it() {
    let base = open_folder("unreadable");
    let u = base.join("u");
    fs::create_dir_all(u.join("b")).unwrap();
    put(ALLOWED, &u.join("a.log"));
    put(ALLOWED, &u.join("b/b.log"));
    put(IMPOSSIBLE, &u.join("c.log"));
    fs::set_permissions(u.join("b"), fs::Permissions::from_mode(0)).unwrap();
    let judged = as_user(&base, &["judge", "u"]);
    let as_json = as_user(&base, &["judge", "--json", "u"]);
    let replayed = as_user(&base, &["replay", "u"]);
    fs::set_permissions(u.join("b"), fs::Permissions::from_mode(0o755)).unwrap();
    fs::remove_dir_all(&base).unwrap();
    assert_eq!(status(&judged), 2);
    assert_eq!(String::from_utf8_lossy(&judged.stdout), "u/a.log: allowed 1\nu/c.log: impossible 4\n");
    let said = "malluvom: u/b: Permission denied (os error 13)\n\
                1 allowed, 1 impossible, 0 refused, 1 could not be read\n";
    assert_eq!(errors(&judged), said);
    let lines = String::from_utf8(as_json.stdout).unwrap();
    assert_eq!(lines.lines().nth(1), Some("{\"file\":\"u/b\",\"error\":\"Permission denied (os error 13)\"}"));
    assert_eq!(lines.lines().count(), 3);
    assert!(errors(&replayed).ends_with("0 yes, 0 no, 0 impossible, 0 refused, 3 could not be read\n"));
}

#[test]
fn a_log_without_a_verdict_loses_the_old_one() {
    let folder = folder("stale");
    let (log, verdict) = (folder.join("a.log"), folder.join("a.verdict"));
    for now in [REFUSED, IMPOSSIBLE, ALLOWED] {
        put(ALLOWED, &log);
        assert_eq!(status(&tool(&["judge", "--write", text(&log)])), 0);
        assert_eq!(fs::read(&verdict).unwrap()[3], 1);
        put(now, &log);
        let judged = status(&tool(&["judge", "--write", text(&log)]));
        assert_eq!((judged, verdict.exists()), (i32::from(now != ALLOWED), now != REFUSED), "{now}");
        if let Ok(file) = fs::read(&verdict) {
            assert_eq!(file[3], u8::from(now == ALLOWED), "{now}");
        }
    }
    // Without --write nothing is touched.
    fs::write(&verdict, "old").unwrap();
    put(REFUSED, &log);
    assert_eq!((status(&tool(&["judge", text(&log)])), fs::read(&verdict).unwrap()), (1, b"old".to_vec()));
}

#[test]
fn a_log_that_cannot_be_read_loses_its_verdict() {
    let base = open_folder("unread");
    put(ALLOWED, &base.join("a.log"));
    for verdict in ["a.verdict", "gone.verdict"] {
        fs::write(base.join(verdict), "old").unwrap();
    }
    fs::set_permissions(base.join("a.log"), fs::Permissions::from_mode(0)).unwrap();
    let judged = as_user(&base, &["judge", "--write", "a.log", "gone.log"]);
    let left = names(&base);
    fs::remove_dir_all(&base).unwrap();
    assert_eq!(status(&judged), 2);
    // A log that is not there has no verdict to be wrong about.
    assert_eq!(left, ["a.log", "gone.verdict", "malluvom"]);
}

#[test]
fn a_folder_that_cannot_be_written_is_a_failure_of_its_own() {
    let base = open_folder("unwritable");
    put(ALLOWED, &base.join("a.log"));
    put(ALLOWED, &base.join("b.log"));
    assert_eq!(status(&tool(&["judge", "--write", text(&base.join("b.log"))])), 0);
    fs::set_permissions(&base, fs::Permissions::from_mode(0o555)).unwrap();
    let judged = as_user(&base, &["judge", "--json", "--write", "."]);
    fs::set_permissions(&base, fs::Permissions::from_mode(0o777)).unwrap();
    fs::remove_dir_all(&base).unwrap();
    assert_eq!(status(&judged), 2);
    let lines = String::from_utf8(judged.stdout.clone()).unwrap();
    let [a, b] = lines.lines().collect::<Vec<_>>()[..] else { panic!("{lines}") };
    assert!(a.contains("\"steps\":[[1,0,1]],\"error\":\"./a.verdict: Permission denied (os error 13)\"}"), "{a}");
    // The old file is this log's verdict already.
    assert!(!b.contains("error"), "{b}");
    let summary = "2 allowed, 0 impossible, 0 refused, 0 could not be read, 1 could not be written\n";
    assert!(errors(&judged).ends_with(summary), "{}", errors(&judged));
}

#[test]
fn links_are_replaced_and_not_followed() {
    let folder = folder("links");
    let (log, verdict) = (folder.join("a.log"), folder.join("a.verdict"));
    put(ALLOWED, &log);
    let bytes = fs::read(&log).unwrap();
    symlink("a.log", &verdict).unwrap();
    assert_eq!(status(&tool(&["judge", "--write", text(&log)])), 0);
    assert_eq!(fs::read(&log).unwrap(), bytes);
    assert!(!verdict.is_symlink() && fs::read(&verdict).unwrap()[0] == 0x10);
    // The same for -o: what the link leads to stays.
    let (precious, link) = (folder.join("precious"), folder.join("link"));
    fs::write(&precious, "precious").unwrap();
    symlink("precious", &link).unwrap();
    assert_eq!(status(&tool(&["convert", text(&log), "-o", text(&link)])), 0);
    assert_eq!(fs::read_to_string(&precious).unwrap(), "precious");
    assert_eq!((link.is_symlink(), fs::read(&link).unwrap()[0]), (false, 0x06));
    // A refused log's verdict that is a link goes, and not the log.
    put(REFUSED, &log);
    fs::remove_file(&verdict).unwrap();
    symlink("precious", &verdict).unwrap();
    assert_eq!(status(&tool(&["judge", "--write", text(&log)])), 1);
    assert!(precious.exists() && !verdict.is_symlink());
}

/// Words that would write onto an input, or onto one file twice.
#[test]
fn no_output_is_an_input_of_the_same_call() {
    let folder = folder("onto-itself");
    let path = |name: &str| folder.join(name).to_str().unwrap().to_string();
    put("marked/04.txt", &folder.join("x.txt"));
    put(ALLOWED, &folder.join("x.log"));
    put(ALLOWED, &folder.join("y.verdict"));
    put(ALLOWED, &folder.join("y.log"));
    put(IMPOSSIBLE, &folder.join("x.bin"));
    symlink("x.log", folder.join("l.log")).unwrap();
    symlink(&folder, folder.join("again")).unwrap();
    let contents =
        || names(&folder).iter().map(|name| (name.clone(), fs::read(folder.join(name)).ok())).collect::<Vec<_>>();
    let before = contents();
    for words in [
        &["asm", "x.txt", "-o", "x.txt"][..],
        &["asm", "x.txt", "-o", "again/x.txt"],
        &["asm", "x.txt", "-o", "new", "--schedule", "new"],
        &["asm", "x.txt", "--schedule", "x.txt"],
        &["convert", "x.log", "-o", "x.log"],
        &["convert", "l.log", "-o", "x.log"],
        &["convert", "l.log", "-o", "l.log"],
        &["show", "x.log", "-o", "x.log"],
        &["explain", "x.log", "-o", "x.log"],
        &["draw", "x.log", "-o", "x.log"],
        &["judge", "--write", "x.log", "x.bin"],
        &["judge", "--write", "y.log", "y.verdict"],
        &["judge", "--write", "y.verdict"],
        &["judge", "x.log", "--junit", "x.log"],
        &["judge", "--write", "x.log", "--junit", "x.verdict"],
        &["judge", "--write", "-"],
    ] {
        let paths: Vec<String> = words
            .iter()
            .enumerate()
            .map(|(place, word)| if place == 0 || word.starts_with('-') { word.to_string() } else { path(word) })
            .collect();
        let output = tool(&paths.iter().map(String::as_str).collect::<Vec<_>>());
        assert_eq!((status(&output), output.stdout.len()), (2, 0), "{words:?}");
        assert!(before == contents(), "{words:?}");
    }
    // The same log twice is no clash, and neither is one log in two folders.
    let (log, again) = (path("x.log"), path("again/x.log"));
    assert_eq!(status(&tool(&["judge", "--write", &log, &log, &again])), 0);
}

#[test]
fn what_is_no_file_is_written_to() {
    let log = example(ALLOWED);
    for device in ["/dev/stdout", "/dev/null"] {
        let output = tool(&["show", text(&log), "-o", device]);
        assert_eq!((status(&output), output.stdout.is_empty()), (0, device == "/dev/null"));
        assert!(!fs::symlink_metadata(device).unwrap().is_file());
    }
    let folder = folder("no-file");
    assert_eq!(status(&tool(&["show", text(&log), "-o", text(&folder)])), 2);
    assert_eq!(status(&tool(&["show", text(&log), "-o", text(&folder.join("none/a"))])), 2);
    assert!(names(&folder).is_empty());
}

#[test]
fn the_old_permissions_stay() {
    let folder = folder("permissions");
    let (log, verdict) = (folder.join("a.log"), folder.join("a.verdict"));
    put(ALLOWED, &log);
    fs::write(&verdict, "old").unwrap();
    fs::set_permissions(&verdict, fs::Permissions::from_mode(0o640)).unwrap();
    assert_eq!(status(&tool(&["judge", "--write", "--sync", text(&log)])), 0);
    assert_eq!(fs::metadata(&verdict).unwrap().permissions().mode() & 0o777, 0o640);
}

/// A reader sees the old file or the new one, whole, while the tool writes.
#[test]
fn readers_see_whole_files() {
    let folder = folder("readers");
    let (log, verdict) = (folder.join("a.log"), folder.join("a.verdict"));
    let files = [ALLOWED, IMPOSSIBLE].map(|name| {
        put(name, &log);
        status(&tool(&["judge", "--write", text(&log)]));
        fs::read(&verdict).unwrap()
    });
    let done = AtomicBool::new(false);
    let torn = std::thread::scope(|scope| {
        let reader = scope.spawn(|| {
            let mut torn = 0;
            while !done.load(Ordering::Relaxed) {
                torn += usize::from(!files.contains(&fs::read(&verdict).unwrap_or_default()));
            }
            torn
        });
        for round in 0..150 {
            put([ALLOWED, IMPOSSIBLE][round % 2], &log);
            status(&tool(&["judge", "--write", text(&log)]));
        }
        done.store(true, Ordering::Relaxed);
        reader.join().unwrap()
    });
    assert_eq!(torn, 0);
}

#[test]
fn folders_without_a_log_are_named() {
    let folder = folder("empty");
    let [empty, notes] = ["empty", "notes"].map(|name| folder.join(name));
    fs::create_dir_all(&empty).unwrap();
    fs::create_dir_all(notes.join("deep")).unwrap();
    fs::write(notes.join("deep/readme.txt"), "no log").unwrap();
    for command in ["judge", "replay"] {
        for path in [&empty, &notes] {
            let judged = tool(&[command, text(path)]);
            assert_eq!((status(&judged), judged.stdout.len()), (2, 0));
            assert!(errors(&judged).contains(&format!("malluvom: {}: no log in it\n", path.display())));
            assert_eq!(status(&tool(&[command, "--allow-empty", text(path)])), 0);
        }
    }
    let as_json = print(&["judge", "--json", text(&empty)]);
    assert_eq!(as_json, format!("{{\"file\":\"{}\",\"error\":\"no log in it\"}}\n", empty.display()));
    // A log elsewhere does not make up for it.
    assert_eq!(status(&tool(&["judge", text(&example(ALLOWED)), text(&empty)])), 2);
}

#[test]
fn folders_are_searched_once_and_only_files_are_opened() {
    let folder = folder("kinds");
    fs::create_dir_all(folder.join("sub")).unwrap();
    put(ALLOWED, &folder.join("b.LOG"));
    put(IMPOSSIBLE, &folder.join("sub/c.Log"));
    symlink("..", folder.join("sub/loop")).unwrap();
    symlink("sub", folder.join("again")).unwrap();
    symlink("nowhere", folder.join("gone.log")).unwrap();
    symlink("b.LOG", folder.join("link.log")).unwrap();
    let pipe = folder.join("x.log");
    assert!(Command::new("mkfifo").arg(&pipe).status().unwrap().success());
    let judged = tool(&["judge", text(&folder)]);
    assert_eq!(status(&judged), 2);
    let lines = String::from_utf8(judged.stdout.clone()).unwrap().replace(&format!("{}/", folder.display()), "");
    assert_eq!(lines, "again/c.Log: impossible 4\nb.LOG: allowed 1\nlink.log: allowed 1\n");
    let said = errors(&judged).replace(&format!("{}/", folder.display()), "");
    let expected = "malluvom: gone.log: No such file or directory (os error 2)\n\
                    malluvom: x.log: is no regular file\n\
                    2 allowed, 1 impossible, 0 refused, 2 could not be read\n";
    assert_eq!(said, expected);
    // A pipe with a name is not opened either where it is named itself.
    for words in [&["judge", text(&pipe)][..], &["show", text(&pipe)], &["replay", text(&pipe), text(&pipe)]] {
        let output = tool(words);
        assert_eq!(status(&output), 2);
        assert!(errors(&output).contains("is no regular file"));
    }
    // The pipes of a shell are read.
    let tool = env!("CARGO_BIN_EXE_malluvom");
    let script = format!("'{tool}' judge <(cat '{}')", example(ALLOWED).display());
    let shell = Command::new("bash").args(["-c", &script]).output().unwrap();
    assert!(String::from_utf8_lossy(&shell.stdout).ends_with(": allowed 1\n"), "{}", errors(&shell));
}

/// Every command's status: 1 for a log that is impossible or refused, 2 for what could not be done.
#[test]
fn statuses_are_as_documented() {
    let folder = folder("statuses");
    let verdict = |name: &str, file: &str| {
        let log = folder.join(file).with_extension("log");
        put(name, &log);
        status(&tool(&["judge", "--write", text(&log)]));
        (text(&log).to_string(), text(&log.with_extension("verdict")).to_string())
    };
    let (allowed, yes) = verdict(ALLOWED, "a");
    let (impossible, no) = verdict(IMPOSSIBLE, "i");
    let (refused, _) = verdict(REFUSED, "r");
    let wide = text(&folder.join("wide.log")).to_string();
    fs::write(&wide, [6, 2, 0, 1, 1, 2, 5, 0, 1, 0, 0, 1, 0, 4, 0, 0]).unwrap();
    let gone = text(&folder.join("gone")).to_string();
    for (words, expected) in [
        (vec!["judge", &allowed], 0),
        (vec!["judge", &impossible], 1),
        (vec!["judge", &refused], 1),
        (vec!["judge", &gone], 2),
        (vec!["judge", &impossible, &gone], 2),
        (vec!["replay", &allowed, &yes], 0),
        (vec!["replay", &impossible, &yes], 1),
        (vec!["replay", &impossible, &no], 1),
        (vec!["replay", &refused, &yes], 1),
        (vec!["replay", &allowed, &gone], 2),
        (vec!["show", &allowed], 0),
        (vec!["show", &allowed, &yes], 0),
        (vec!["show", &impossible, &no], 1),
        (vec!["show", &impossible, &yes], 1),
        (vec!["show", &refused], 1),
        (vec!["show", &allowed, &allowed], 1),
        (vec!["show", &gone], 2),
        (vec!["convert", &allowed], 0),
        (vec!["convert", &impossible], 0),
        (vec!["convert", &refused], 1),
        (vec!["convert", &wide], 1),
        (vec!["convert", &gone], 2),
        (vec!["explain", &allowed], 0),
        (vec!["explain", &impossible], 1),
        (vec!["explain", &refused], 1),
        (vec!["explain", &gone], 2),
        (vec!["draw", &allowed], 0),
        (vec!["draw", &impossible], 1),
        (vec!["draw", &refused], 1),
        (vec!["draw", &allowed, "--location", "L9"], 2),
        (vec!["draw", &gone], 2),
        (vec!["asm", &gone], 2),
        (vec!["show", "-", "-"], 2),
    ] {
        assert_eq!(status(&tool(&words)), expected, "{words:?}");
    }
}

#[test]
fn folders_are_replayed_with_their_verdicts() {
    let folder = folder("replay-folder");
    for (name, log) in [(ALLOWED, "a.log"), (IMPOSSIBLE, "b.log"), ("marked/08.log", "c.log"), (ALLOWED, "d.log")] {
        put(name, &folder.join(log));
    }
    let path = text(&folder);
    assert_eq!(status(&tool(&["judge", "--write", path])), 1);
    // The log of c changes after its verdict was filed, and d's verdict is lost.
    put("marked/09.log", &folder.join("c.log"));
    fs::remove_file(folder.join("d.verdict")).unwrap();
    let replayed = tool(&["replay", path]);
    assert_eq!(status(&replayed), 2);
    let lines = String::from_utf8(replayed.stdout.clone()).unwrap().replace(&format!("{path}/"), "");
    assert_eq!(lines, "a.log: yes\nb.log: impossible 4, nothing to replay\nc.log: no 5\n");
    let said = errors(&replayed).replace(&format!("{path}/"), "");
    let expected = "malluvom: d.verdict: No such file or directory (os error 2)\n\
                    1 yes, 1 no, 1 impossible, 0 refused, 1 could not be read\n";
    assert_eq!(said, expected);
    fs::remove_file(folder.join("d.log")).unwrap();
    assert_eq!(status(&tool(&["replay", path])), 1);
    assert_eq!(print(&["replay", text(&folder.join("a.log"))]), format!("{path}/a.log: yes\n"));
}
