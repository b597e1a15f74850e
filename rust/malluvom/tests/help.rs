//! What the tool says of itself.

mod common;

use std::fs;

use common::{print, status, tool};

const COMMANDS: [&str; 8] = ["asm", "show", "convert", "judge", "replay", "explain", "shrink", "draw"];

#[test]
fn every_command_has_help() {
    let all = print(&["help"]);
    for command in COMMANDS {
        assert!(all.contains(&format!("\n  malluvom {command} ")), "{all}");
        let help = print(&[command, "--help"]);
        assert!(help.starts_with(&format!("malluvom {command} ")), "{help}");
        assert_eq!(help, print(&[command, "a", "-h"]));
        assert!(help.contains("Exit status: 0; 1 if a log is impossible or refused"), "{help}");
    }
    assert_eq!(all.matches("\n  malluvom ").count(), COMMANDS.len() + 3);
    let judge = print(&["judge", "--help"]);
    for option in ["--write", "--sync", "--json", "--junit FILE", "--allow-empty"] {
        assert!(judge.contains(&format!("\n  {option}\n")), "{judge}");
    }
    assert!(all.lines().all(|line| line.chars().count() <= 100), "{all}");
}

/// The manual page in docs/ is what the tool prints, and has every command and option.
#[test]
fn the_manual_page_is_the_stored_one() {
    let page = print(&["man"]);
    let stored = concat!(env!("CARGO_MANIFEST_DIR"), "/../../docs/malluvom.1");
    assert_eq!(page, fs::read_to_string(stored).unwrap(), "malluvom man >docs/malluvom.1 writes it");
    assert!(COMMANDS.iter().all(|command| page.contains(&format!("\n.SS {command}\n"))), "{page}");
    assert!(page.contains("\n.B \\-\\-junit FILE\n"), "{page}");
    assert!(page.lines().all(|line| !line.starts_with('\'') && !line.is_empty()), "{page}");
}

#[test]
fn the_version_names_the_requests() {
    let version = print(&["--version"]);
    let expected = format!("malluvom {}, with requests W-201 W-202", env!("CARGO_PKG_VERSION"));
    assert!(version.starts_with(&expected), "{version}");
    assert_eq!(version, print(&["-V"]));
    assert_eq!(status(&tool(&["--version", "judge"])), 0);
}
