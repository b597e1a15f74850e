//! The command line tool as its users call it.

mod common;

use std::fs;
use std::path::Path;

use common::{assert_document, examples, folder, print, root, status, tool, Pair};
use corpus::{damage, encode, plausible, random_log, widened, Random, Shape};

#[test]
fn examples_assemble_to_their_bytes_and_back() {
    let folder = folder("assemble");
    let again = folder.join("again.txt");
    let log = folder.join("a.log");
    let verdict = folder.join("a.verdict");
    let schedule = folder.join("b.verdict");
    for text in examples("txt") {
        let bytes = fs::read(text.with_extension("log")).unwrap();
        let assembled = tool(&["asm", text.to_str().unwrap()]);
        assert_eq!((status(&assembled), &assembled.stdout), (0, &bytes), "{}", text.display());
        if malluvom::read(&bytes).is_err() {
            continue;
        }
        fs::write(&log, &bytes).unwrap();
        status(&tool(&["judge", "--write", log.to_str().unwrap()]));
        let words = ["show", log.to_str().unwrap(), verdict.to_str().unwrap(), "-o", again.to_str().unwrap()];
        // 1 where the verdict file says impossible.
        let allowed = fs::read(&verdict).unwrap()[3] == 1;
        assert_eq!(status(&tool(&words)), i32::from(!allowed));
        let words = ["asm", again.to_str().unwrap(), "--schedule", schedule.to_str().unwrap()];
        assert_eq!(tool(&words).stdout, bytes, "{}", text.display());
        let written = fs::read(&verdict).unwrap();
        if written[3] == 1 {
            assert_eq!(fs::read(&schedule).unwrap(), written, "{}", text.display());
            let replayed = tool(&["replay", log.to_str().unwrap(), schedule.to_str().unwrap()]);
            assert_eq!((status(&replayed), &replayed.stdout[..]), (0, &b"yes\n"[..]));
        }
    }
}

#[test]
fn examples_are_judged_explained_and_drawn() {
    for path in examples("log") {
        let bytes = fs::read(&path).unwrap();
        let path = path.to_str().unwrap();
        let judged = match second::judge_bytes(&bytes) {
            Ok(second::Verdict::Allowed(_)) => 0,
            _ => 1,
        };
        assert_eq!(status(&tool(&["judge", path])), judged, "{path}");
        assert_eq!(status(&tool(&["explain", path])), judged, "{path}");
        let picture = tool(&["draw", path]);
        let log = second::read(&bytes);
        let drawable = log.as_ref().is_ok_and(|log| !log.homes.is_empty());
        assert_eq!(status(&picture), if log.is_ok() && !drawable { 2 } else { judged }, "{path}");
        assert_eq!(drawable, picture.stdout.ends_with(b"</svg>\n"), "{path}");
    }
}

/// An example that shows the schedule of before beside the shortest: each is a run.
#[test]
fn replay_takes_the_shortest_schedule_and_a_longer_one() {
    let example = Path::new(env!("CARGO_MANIFEST_DIR")).join("../../examples/shortest/steps-01-one-move.log");
    let log = folder("shortest").join("a.log");
    fs::copy(&example, &log).unwrap();
    assert_eq!(status(&tool(&["judge", "--write", log.to_str().unwrap()])), 0);
    let shortest = (log.with_extension("verdict"), example.with_extension("out"));
    let before = (example.with_extension("before.verdict"), example.with_extension("before"));
    for (verdict, printed) in [shortest, before] {
        assert_eq!(print(&["replay", log.to_str().unwrap(), verdict.to_str().unwrap()]), "yes\n");
        let schedule = malluvom::Schedule::of_file(&fs::read(verdict).unwrap());
        let expected = format!("allowed {}\n{schedule}end\n", schedule.steps.len());
        assert_eq!(fs::read_to_string(printed).unwrap(), expected);
    }
}

/// The pictures in docs/, and the commands of documents that stand there with what they print.
#[test]
fn the_documents_show_what_the_tool_gives() {
    for (log, picture) in [("marked/04.log", "case-04.svg"), ("shortest/steps-01-one-move.log", "shortest.svg")] {
        let drawn = fs::read_to_string(root().join("docs").join(picture)).unwrap();
        let log = root().join("examples").join(log);
        assert_eq!(drawn, print(&["draw", log.to_str().unwrap()]), "{picture}");
    }
    assert_document("docs/TEXT-FORM.md", 3);
    assert_document("docs/EXPLAIN.md", 5);
}

#[test]
fn explanations_name_the_values_that_could_be_read() {
    let root = Path::new(env!("CARGO_MANIFEST_DIR")).join("../../examples/marked");
    let explained = |name: &str| {
        let output = tool(&["explain", root.join(name).to_str().unwrap()]);
        String::from_utf8(output.stdout).unwrap()
    };
    let five = explained("05.log");
    assert!(five.starts_with("impossible: event 4, Load by 1 of L0, 0\n"));
    assert!(five.contains("a load by 1 of L0 can return 1, not 0."), "{five}");
    assert!(five.contains("   2  RFlush by 1 of L0\n"));
    let four = explained("04.log");
    assert!(four.contains("~ propagate by 1 of L0"), "{four}");
}

/// The same read-modify-writes as text and as fields.
const RMW_LINES: [&str; 3] = ["L-RMW by 1 of L0, 1 to 5", "R-RMW by 2 of L0, 5 to 6", "M-RMW by 3 of L0, 6 to 700"];
const RMW_FIELDS: [[u8; 10]; 3] =
    [[5, 7, 0, 8, 1, 0, 1, 0, 5, 0], [5, 7, 0, 9, 2, 0, 5, 0, 6, 0], [5, 7, 0, 10, 3, 0, 6, 0, 0xbc, 2]];

#[test]
fn read_modify_writes_are_written_down() {
    let pair = Pair::new("rmw-unchecked");
    // The words between are for the reader.
    for lines in [RMW_LINES, ["L-RMW 1 L0 1 5", "r-rmw 2 L0 5 6", "m-Rmw 3, L0 6 to 0x2bc"]] {
        assert_eq!(pair.fields(&lines.join("\n")), RMW_FIELDS.concat());
    }
}

#[test]
fn read_modify_writes_are_shown_explained_and_drawn() {
    let pair = Pair::new("rmw");
    let head = "machines 3 persistent all\nL0 of 2\nLStore by 3 to L0 of 1\n";
    let bytes = pair.assemble(&format!("{head}{}", RMW_LINES.join("\n")));
    assert_eq!(bytes[17..bytes.len() - 3], RMW_FIELDS.concat());
    assert!(pair.is_allowed());
    let shown = pair.show();
    assert!(RMW_LINES.iter().all(|line| shown.lines().any(|shown| shown.starts_with(line))), "{shown}");
    let explained = pair.explain();
    for words in [
        "L0: 1 loaded from a cache, then cache of 1 holds 5, memory 0, cache of 3 loses it",
        "L0: 5 loaded from a cache, then cache of 2 holds 6, memory 0, cache of 1 loses it",
        "L0: 6 loaded from a cache, then no cache holds it, memory 700, cache of 2 loses it",
    ] {
        assert!(explained.contains(words), "{explained}");
    }
    let svg = pair.draw("L0");
    for label in ["2: L-RMW 5", "reads 1", "3: R-RMW 6", "reads 5", "4: M-RMW 700", "reads 6"] {
        assert!(svg.contains(&format!(">{label}</text>")), "{label}: {svg}");
    }
}

#[test]
fn a_read_modify_write_that_cannot_read_is_explained() {
    let pair = Pair::new("rmw-impossible");
    let explained = |events: &str| {
        pair.assemble(&format!("machines 3 persistent all\nL0 of 2\n{events}"));
        pair.why()
    };
    let first = explained("R-RMW by 1 of L0, 1 to 5");
    assert!(first.starts_with("impossible: event 1, R-RMW by 1 of L0, 1 to 5\n"), "{first}");
    assert!(first.contains("a load by 1 of L0 can return 0, not 1.\nNothing before it stores 1 to L0.\n"), "{first}");
    // What a read-modify-write stored can be read, and stands in the way of what was before.
    let second = explained("L-RMW by 1 of L0, 0 to 5\nM-RMW by 2 of L0, 0 to 6");
    assert!(second.contains("a load by 2 of L0 can return 5, not 0.\n"), "{second}");
    assert!(second.contains("   1  L-RMW by 1 of L0, 0 to 5\n"), "{second}");
}

/// Set crashes as text and as fields; the first is how they are shown.
const SET_LINES: [&str; 4] = ["Crash of 1, 2", "Crash of 2, 1", "crash 0x1 2", "CRASH of 2,1"];
const SET_FIELD: [u8; 8] = [3, 5, 0, 11, 0, 3, 0, 0];

#[test]
fn set_crashes_are_written_down() {
    let pair = Pair::new("set-unchecked");
    for line in SET_LINES {
        assert_eq!(pair.fields(line), SET_FIELD, "{line}");
    }
    assert_eq!(pair.fields("Crash of 2"), [3, 5, 0, 7, 2, 0, 0, 0]);
    assert_eq!(pair.fields("Crash of 8, 7, 1"), [3, 5, 0, 11, 0, 0xc1, 0, 0]);
}

#[test]
fn set_crashes_are_shown_explained_and_drawn() {
    let pair = Pair::new("set");
    let assemble = |events: &str| pair.assemble(&format!("machines 3 persistent 2\nL0 of 1\nL1 of 2\n{events}"));
    let stores = "MStore by 3 to L0 of 4\nLStore by 2 to L1 of 7\nLoad by 3 of L1, 7";
    let bytes = assemble(&format!("{stores}\nCrash of 3, 2, 1\nLoad by 2 of L0, 0\nLoad by 3 of L1, 0"));
    assert_eq!(bytes[37..45], [3, 5, 0, 11, 0, 7, 0, 0]);
    assert!(pair.is_allowed());
    let shown = pair.show();
    assert!(shown.lines().any(|line| line.starts_with("Crash of 1, 2, 3 ")), "{shown}");
    let explained = pair.explain();
    // Machine 1 is volatile: it loses what is in its memory. L1 is in the persistent memory of 2, where it never came.
    let words = "1 loses L0 from its memory; 2 loses L1 from its cache; 3 loses L1 from its cache; \
                 L0: no cache holds it, memory 0; L1: no cache holds it, memory 0";
    let lines = explained.lines().filter(|line| line.contains("Crash of 1, 2, 3") && line.ends_with(words));
    assert_eq!(lines.count(), 1, "{explained}");
    // A cross for each cache, and for the memory that loses L0.
    for (location, crosses) in [("L0", 4), ("L1", 3)] {
        let svg = pair.draw(location);
        assert!(svg.contains(": Crash</text>"), "{svg}");
        assert_eq!(svg.matches("class=\"crash\"").count(), crosses, "{svg}");
    }
    // Who is not in the set keeps its copy and has no cross.
    assemble(&format!("{stores}\nCrash of 1, 2\nLFlush by 2 of L1\nLoad by 3 of L1, 7"));
    assert!(pair.is_allowed());
    let svg = pair.draw("L1");
    assert_eq!(svg.matches("class=\"crash\"").count(), 2, "{svg}");
    let explained = pair.explain();
    assert!(explained.contains("1 loses L0 from its memory; 2 loses L1 from its cache; L0: "), "{explained}");
}

/// The request's example: one after the other, a copy moves between; in one step, nothing does.
#[test]
fn crashes_in_a_row_are_no_set_crash() {
    let pair = Pair::new("set-or-row");
    let explained = |crashes: &str| {
        let head = "machines 2 persistent 2\nL0 of 1\nLStore by 2 to L0 of 5";
        pair.assemble(&format!("{head}\n{crashes}\nLoad by 2 of L0, 5"));
        (print(&["judge", &pair.log]), pair.explain())
    };
    let (judged, run) = explained("Crash of 1\nCrash of 2");
    assert!(judged.ends_with(": allowed 1\n") && run.contains("~ propagate by 2 of L0"), "{judged}{run}");
    let (judged, why) = explained("Crash of 1, 2");
    assert!(judged.ends_with(": impossible 3\n"), "{judged}");
    assert!(why.contains("a load by 2 of L0 can return 0, not 5.\n"), "{why}");
    assert!(why.contains("can be left out:\n\n   2  Crash of 1, 2\n   3  Load by 2 of L0, 5"), "{why}");
}

#[test]
fn initial_values_are_written_down() {
    let pair = Pair::new("initial-unchecked");
    for line in ["L0 of 2 initially 258", "L0 2 initially 0x102", "l0 of 2, initially 258"] {
        assert_eq!(pair.fields(line), [2, 3, 0, 2, 2, 1], "{line}");
    }
    assert_eq!(pair.fields("L0 of 2 initially 65535\nL1 of 9 initially 1"), [2, 3, 0, 2, 255, 255, 2, 3, 0, 9, 1, 0]);
    // The short field says 0.
    for line in ["L0 of 2", "L0 of 2 initially 0", "L0 2 initially 0x0"] {
        assert_eq!(pair.fields(line), [2, 1, 0, 2], "{line}");
    }
}

#[test]
fn initial_values_are_shown_explained_and_drawn() {
    let pair = Pair::new("initial");
    let head = "machines 3 persistent 3\nL0 of 1 initially 7\nL1 of 2 initially 0\nL2 of 2 initially 0x100";
    let assemble = |events: &str| pair.assemble(&format!("{head}\n{events}"));
    let bytes =
        assemble("Load by 3 of L0, 7\nMStore by 3 to L0 of 1\nMStore by 3 to L1 of 2\nCrash of 1\nLoad by 3 of L0, 7");
    assert_eq!(bytes[5..21], [2, 3, 0, 1, 7, 0, 2, 1, 0, 2, 2, 3, 0, 2, 0, 1]);
    assert!(pair.is_allowed());
    let shown = pair.show();
    assert!(shown.contains("\nL0 of 1 initially 7\nL1 of 2\nL2 of 2 initially 256\n\n"), "{shown}");
    let explained = pair.explain();
    let run: Vec<&str> = explained.lines().skip(2).collect();
    let power_on = "L0: no cache holds it, memory 7; L2: no cache holds it, memory 256";
    assert!(run[0].contains("at power-on") && run[0].ends_with(power_on), "{explained}");
    assert!(run[1].ends_with("L0: loaded from memory"), "{explained}");
    assert!(run[4].contains("Crash of 1 ") && run[4].ends_with("L0: no cache holds it, memory 7"), "{explained}");
    assert_eq!((run.len(), explained.matches("memory 0").count()), (6, 0), "{explained}");
    for (location, title, bars) in [
        ("L0", "L0, in the volatile memory of 1, initially 7", "7 1 7"),
        ("L1", "L1, in the volatile memory of 2", "0 2"),
        ("L2", "L2, in the volatile memory of 2, initially 256", "256"),
    ] {
        assert_eq!(pair.memory(location), (title.to_string(), bars.to_string()));
    }
    // In a set crash each returns to its own; what is at its initial value is not lost.
    assemble("MStore by 3 to L0 of 1\nMStore by 3 to L1 of 2\nCrash of 1, 2\nLoad by 3 of L0, 7\nLoad by 3 of L1, 0");
    assert!(pair.is_allowed());
    let explained = pair.explain();
    let words = "1 loses L0 from its memory; 2 loses L1 from its memory; \
                 L0: no cache holds it, memory 7; L1: no cache holds it, memory 0";
    assert!(explained.lines().any(|line| line.ends_with(words)), "{explained}");
}

#[test]
fn what_is_not_the_initial_value_is_explained() {
    let pair = Pair::new("initial-impossible");
    let explained = |persistent: &str, events: &str| {
        pair.assemble(&format!("machines 2 persistent {persistent}\nL0 of 2 initially 7\n{events}"));
        pair.why()
    };
    let zero = explained("none", "MStore by 1 to L0 of 1\nCrash of 2\nLoad by 1 of L0, 0");
    assert!(zero.starts_with("impossible: event 3, Load by 1 of L0, 0\n"), "{zero}");
    assert!(zero.contains("a load by 1 of L0 can return 7, not 0.\nNothing before it stores 0 to L0.\n"), "{zero}");
    assert!(zero.contains("L0, in the volatile memory of 2, initially 7, can only be in these states "), "{zero}");
    // A value of 7 needs no store: what stands in its way is named.
    let seven = explained("all", "MStore by 1 to L0 of 1\nCrash of 2\nLoad by 1 of L0, 7");
    assert!(seven.contains("a load by 1 of L0 can return 1, not 7.\n"), "{seven}");
    assert!(seven.contains("can be left out:\n\n   1  MStore by 1 to L0 of 1\n   3  Load"), "{seven}");
}

#[test]
fn kinds_are_written_down() {
    let pair = Pair::new("kinds-unchecked");
    // The row has a kind byte where the kind is not the owner's, and only there.
    for (persistent, volatile, persistent_row) in [
        ("all", &[2, 2, 0, 2, 1][..], &[2, 1, 0, 2][..]),
        ("2", &[2, 2, 0, 2, 1], &[2, 1, 0, 2]),
        ("none", &[2, 1, 0, 2], &[2, 2, 0, 2, 2]),
        ("1", &[2, 1, 0, 2], &[2, 2, 0, 2, 2]),
    ] {
        let row = |line: &str| pair.fields(&format!("machines 2 persistent {persistent}\n{line}"))[5..].to_vec();
        for line in ["L0 of 2 volatile", "L0 2 volatile", "l0 of 2, volatile", "L0 of 2 initially 0 volatile"] {
            assert_eq!(row(line), volatile, "{persistent}: {line}");
        }
        for line in ["L0 of 2 persistent", "L0 of 2 initially 0 persistent"] {
            assert_eq!(row(line), persistent_row, "{persistent}: {line}");
        }
        // The initial value comes first.
        let with_initial = |row: &[u8]| [&[2, row[1] + 2, 0, 2, 2, 1], &row[4..]].concat();
        assert_eq!(row("L0 of 2 initially 258 volatile"), with_initial(volatile), "{persistent}");
        assert_eq!(row("L0 of 2 initially 0x102 persistent"), with_initial(persistent_row), "{persistent}");
    }
    // Nobody is persistent until a line says so, and no machine that a set has no bit for.
    assert_eq!(pair.fields("L0 of 1 volatile\nL1 of 1 persistent"), [2, 1, 0, 1, 2, 2, 0, 1, 2]);
    assert_eq!(pair.fields("machines 2 persistent all\nL0 of 9 persistent")[5..], [2, 2, 0, 9, 2]);
    // A kind byte that is refused.
    assert_eq!(pair.fields("bytes 02 02 00 02 03"), [2, 2, 0, 2, 3]);
}

#[test]
fn kinds_are_shown_explained_and_drawn() {
    let pair = Pair::new("kinds");
    let rows = "L0 of 1\nL1 of 1 volatile\nL2 of 1 initially 7 volatile\nL3 of 2 persistent\nL4 of 2 volatile";
    let assemble = |events: &str| pair.assemble(&format!("machines 3 persistent 1\n{rows}\n{events}"));
    let stores: Vec<String> = (0..5).map(|x| format!("MStore by 3 to L{x} of 1")).collect();
    let stores = stores.join("\n");
    let bytes = assemble(&format!("{stores}\nCrash of 1\nLoad by 3 of L0, 1\nLoad by 3 of L1, 0\nLoad by 3 of L2, 7"));
    assert_eq!(bytes[5..30], [2, 1, 0, 1, 2, 2, 0, 1, 1, 2, 4, 0, 1, 7, 0, 1, 2, 2, 0, 2, 2, 2, 1, 0, 2]);
    assert!(pair.is_allowed());
    // The kind is named where it is not the owner's.
    let shown = pair.show();
    let rows = "\nL0 of 1\nL1 of 1 volatile\nL2 of 1 initially 7 volatile\nL3 of 2 persistent\nL4 of 2\n\n";
    assert!(shown.starts_with("machines 3 persistent 1\n") && shown.contains(rows), "{shown}");
    let explained = pair.explain();
    let run: Vec<&str> = explained.lines().skip(2).collect();
    let power_on = "L1: no cache holds it, memory 0, volatile; L2: no cache holds it, memory 7, volatile; \
                    L3: no cache holds it, memory 0, persistent";
    assert!(run[0].contains("at power-on") && run[0].ends_with(&format!("  {power_on}")), "{explained}");
    let lost = "  L1: no cache holds it, memory 0; L2: no cache holds it, memory 7";
    assert!(run[6].contains("Crash of 1 ") && run[6].ends_with(lost), "{explained}");
    for (location, title, bars) in [
        ("L0", "L0, in the persistent memory of 1", "0 1"),
        ("L1", "L1, in the volatile part of the memory of 1", "0 1 0"),
        ("L2", "L2, in the volatile part of the memory of 1, initially 7", "7 1 7"),
        ("L3", "L3, in the persistent part of the memory of 2", "0 1"),
        ("L4", "L4, in the volatile memory of 2", "0 1"),
    ] {
        assert_eq!(pair.memory(location), (title.to_string(), bars.to_string()));
    }
    // In a set crash each machine loses what it has in volatile memory.
    assemble(&format!("{stores}\nCrash of 1, 2\nLoad by 3 of L3, 1\nLoad by 3 of L4, 0"));
    assert!(pair.is_allowed());
    let explained = pair.explain();
    let words = "  1 loses L1, L2 from its memory; 2 loses L4 from its memory; L1: no cache holds it, memory 0; \
                 L2: no cache holds it, memory 7; L4: no cache holds it, memory 0";
    assert!(explained.lines().any(|line| line.ends_with(words)), "{explained}");
    assert_eq!((pair.memory("L3").1.as_str(), pair.memory("L4").1.as_str()), ("0 1", "0 1 0"));
}

#[test]
fn what_the_kind_does_not_leave_is_explained() {
    let pair = Pair::new("kinds-impossible");
    let explained = |head: &str, value: u16| {
        let events = format!("MStore by 1 to L0 of 1\nCrash of 2\nLoad by 1 of L0, {value}");
        pair.assemble(&format!("machines 2 persistent {head}\n{events}"));
        pair.why()
    };
    let kept = explained("none\nL0 of 2 persistent", 0);
    assert!(kept.contains("a load by 1 of L0 can return 1, not 0.\n"), "{kept}");
    assert!(kept.contains("L0, in the persistent part of the memory of 2, can only be in these states "), "{kept}");
    let lost = explained("all\nL0 of 2 initially 7 volatile", 1);
    assert!(lost.contains("a load by 1 of L0 can return 7, not 1.\n"), "{lost}");
    assert!(lost.contains("can be left out:\n\n   2  Crash of 2\n   3  Load"), "{lost}");
    assert!(lost.contains("L0, in the volatile part of the memory of 2, initially 7, can only be "), "{lost}");
}

/// A kind byte that is refused is refused at its field.
#[test]
fn bad_kinds_are_refused() {
    let pair = Pair::new("kinds-refused");
    let log = pair.log.as_str();
    for (persistent, bad) in [("all", "02"), ("all", "00"), ("none", "01"), ("none", "03"), ("2", "02"), ("2", "ff")] {
        for row in ["02 02 00 02", "02 04 00 02 07 00"] {
            let lines = format!("machines 2 persistent {persistent}\nL0 of 1\nbytes {row} {bad}\nend");
            pair.fields(&lines);
            let judged = tool(&["judge", log]);
            assert_eq!(
                (status(&judged), String::from_utf8(judged.stdout).unwrap()),
                (1, format!("{log}: number 16 BadKind, field 3, at byte 9\n"))
            );
            let shown = tool(&["show", log]);
            let errors = String::from_utf8_lossy(&shown.stderr).into_owned();
            assert_eq!(status(&shown), 1, "{lines}");
            assert!(errors.contains(": field 3, at byte 9: number 16 (BadKind): "), "{lines}: {errors}");
        }
    }
}

#[test]
fn editions_are_written_down() {
    let pair = Pair::new("editions-unchecked");
    let lines = "machines 2 persistent 1\nL0 of 2\nL1 of 1 initially 258\nL2 of 1 initially 258 volatile\n\
                 LStore 1 L0 258\nLFlush 1 L0\nCrash of 1, 2\nL-RMW 1 L0 258 65535\nend";
    let first = [
        &[1, 2, 0, 2, 1, 2, 1, 0, 2, 2, 3, 0, 1, 2, 1, 2, 4, 0, 1, 2, 1, 1, 3, 5, 0, 1, 1, 0, 2, 1][..],
        &[3, 5, 0, 5, 1, 0, 0, 0, 3, 5, 0, 11, 0, 3, 0, 0, 5, 7, 0, 8, 1, 0, 2, 1, 255, 255, 4, 0, 0],
    ];
    let second = [
        &[6, 2, 0, 2, 1, 2, 1, 0, 2, 2, 5, 0, 1, 2, 1, 0, 0, 2, 6, 0, 1, 2, 1, 0, 0, 1][..],
        &[3, 7, 0, 1, 1, 0, 2, 1, 0, 0, 3, 7, 0, 5, 1, 0, 0, 0, 0, 0, 3, 7, 0, 11, 0, 3, 0, 0, 0, 0],
        &[5, 11, 0, 8, 1, 0, 2, 1, 0, 0, 255, 255, 0, 0, 4, 0, 0],
    ];
    for (line, bytes) in [("", first.concat()), ("edition 1", first.concat()), ("Edition 0x2", second.concat())] {
        assert_eq!(pair.assemble(&format!("{line}\n{lines}")), bytes, "{line}");
        assert_eq!(pair.fields(&format!("{line}\n{lines}")), bytes, "{line}");
    }
    // What follows the line is of its edition, in an unchecked text wherever it stands.
    assert_eq!(
        pair.fields("machines 1 persistent all\nedition 2\nMStore 1 L0 0x4030201\nedition 1\nMStore 1 L0 513"),
        [&[1, 2, 0, 1, 1][..], &[3, 7, 0, 3, 1, 0, 1, 2, 3, 4], &[3, 5, 0, 3, 1, 0, 1, 2]].concat()
    );
}

/// The largest values, in a log of edition 2 that is allowed with one silent step.
const WIDE_TEXT: &str = "edition 2\nmachines 2 persistent all\nL0 of 2 initially 65536\n\
                         LStore by 1 to L0 of 4294967295\nLFlush by 1 of L0\nCrash of 2\n\
                         L-RMW by 1 of L0, 65536 to 4294967294";

#[test]
fn values_of_32_bits_are_shown_explained_and_drawn() {
    let pair = Pair::new("wide");
    pair.assemble(WIDE_TEXT);
    let verdict = pair.log.replace(".log", ".verdict");
    assert_eq!(print(&["judge", "--write", &pair.log]), format!("{}: allowed 1\n", pair.log));
    assert_eq!(print(&["replay", &pair.log, &verdict]), "yes\n");
    let shown = print(&["show", &pair.log, &verdict]);
    assert!(shown.contains("LStore by 1 to L0 of 4294967295") && shown.contains("~ propagate by 1 of L0"), "{shown}");
    let explained = pair.explain();
    assert!(explained.contains("cache of 1 holds 4294967295, memory 65536"), "{explained}");
    assert!(explained.contains("L0: 65536 loaded from memory, then cache of 1 holds 4294967294"), "{explained}");
    let shown = pair.show();
    assert!(shown.starts_with("edition 2\nmachines 2 persistent all\nL0 of 2 initially 65536\n\n"), "{shown}");
    let svg = pair.draw("L0");
    let bars: Vec<&str> = svg.lines().filter(|line| line.contains("class=\"value\"")).collect();
    assert!(bars.iter().any(|bar| bar.contains(">4294967295<")) && bars.len() == 4, "{svg}");
    // A load that no run explains, and what it could return.
    pair.assemble(&format!("{WIDE_TEXT}\nLoad by 2 of L0, 65537"));
    let why = pair.why();
    assert!(why.starts_with("impossible: event 5, Load by 2 of L0, 65537\n"), "{why}");
    assert!(why.contains("a load by 2 of L0 can return 4294967294, not 65537.\n"), "{why}");
    assert!(why.contains("Nothing before it stores 65537 to L0.\n"), "{why}");
}

#[test]
fn logs_are_converted_there_and_back() {
    let folder = folder("convert");
    let [there, back] = ["there.log", "back.log"].map(|name| folder.join(name).to_str().unwrap().to_string());
    for path in examples("log") {
        let bytes = fs::read(&path).unwrap();
        let path = path.to_str().unwrap();
        if malluvom::read(&bytes).is_err() {
            assert_eq!(status(&tool(&["convert", path, "-o", &there])), 1, "{path}");
            continue;
        }
        let converted = tool(&["convert", path]);
        if status(&converted) != 0 {
            let errors = String::from_utf8_lossy(&converted.stderr).into_owned();
            assert!(bytes[0] == 6 && errors.contains(": number 17 (ValueTooLarge): "), "{path}: {errors}");
            continue;
        }
        assert_eq!(status(&tool(&["convert", path, "-o", &there])), 0, "{path}");
        assert_eq!(converted.stdout, fs::read(&there).unwrap(), "{path}");
        assert_eq!(bytes[0] + converted.stdout[0], 0x01 + 0x06, "{path}");
        assert_eq!(status(&tool(&["convert", &there, "-o", &back])), 0, "{path}");
        assert_eq!(fs::read(&back).unwrap(), bytes, "{path}");
        let verdict = |log: &str| print(&["judge", "--json", log]).split_once(',').unwrap().1.to_string();
        assert_eq!(verdict(path), verdict(&there));
    }
}

#[test]
fn what_edition_1_has_no_bytes_for_is_not_converted() {
    let pair = Pair::new("convert-refused");
    let refused = |text: &str| {
        pair.assemble(text);
        let output = tool(&["convert", &pair.log]);
        assert_eq!((status(&output), output.stdout.len()), (1, 0), "{text}");
        String::from_utf8(output.stderr).unwrap()
    };
    let head = "edition 2\nmachines 1 persistent all\nL0 of 1 initially 65535";
    for (lines, place) in [
        ("L1 of 1 initially 65536", "field 3, at byte 13"),
        ("MStore by 1 to L0 of 65535\nMStore by 1 to L0 of 65536", "field 4, at byte 23"),
        ("Load by 1 of L0, 65536\nLoad by 1 of L0, 65537", "field 3, at byte 13"),
        ("L-RMW by 1 of L0, 4294967295 to 1", "field 3, at byte 13"),
        ("L-RMW by 1 of L0, 1 to 4294967295", "field 3, at byte 13"),
    ] {
        let errors = refused(&format!("{head}\n{lines}"));
        let expected = format!("malluvom: {}: {place}: number 17 (ValueTooLarge): ", pair.log);
        assert!(errors.starts_with(&expected), "{lines}: {errors}");
    }
    // A log that is not accepted is refused for that.
    let errors = refused(
        "unchecked\nedition 2\nmachines 1 persistent all\nL0 of 1 initially 65536\nedition 1\nL1 of 1 initially 7",
    );
    assert!(errors.contains(": field 3, at byte 13: number 4 (WrongLength): "), "{errors}");
}

#[test]
fn folders_and_json() {
    let root = Path::new(env!("CARGO_MANIFEST_DIR")).join("../../examples/marked");
    let judged = tool(&["judge", "--json", root.to_str().unwrap()]);
    assert_eq!(status(&judged), 1);
    let lines = String::from_utf8(judged.stdout).unwrap();
    assert_eq!(lines.lines().count(), 14);
    assert!(lines.lines().all(|line| line.starts_with("{\"file\":\"") && line.ends_with('}')));
    assert!(lines.contains("04.log\",\"verdict\":\"allowed\",\"steps\":[[1,0,1]]}"));
    assert!(lines.contains("07.log\",\"verdict\":\"impossible\",\"event\":6}"));
    let summary = String::from_utf8(judged.stderr).unwrap();
    assert_eq!(summary, "5 allowed, 9 impossible, 0 refused, 0 could not be read\n");
}

const NO_LOCATION: &str = ":2: a location is 'L0 of 2', 'L0 of 2 initially 7', or either with its kind at the end";

#[test]
fn errors_have_status_2_and_say_what_is_wrong() {
    let folder = folder("errors");
    let text = folder.join("bad.txt");
    let bad = text.to_str().unwrap();
    for (content, expected) in [
        ("", "no 'machines' line"),
        ("machines 2", "persistent"),
        ("machines 2 persistent all\nL1 of 1", ":2: the next location is L0"),
        ("machines 2 persistent all\nL0 of 3", ":2: number 6 (BadOwner)"),
        ("machines 2 persistent all\nL0 of 3 initially 7", ":2: number 6 (BadOwner)"),
        (
            "machines 2 persistent all\nL0 of 1 initially 65536",
            ":2: '65536' is no number that fits here: values of edition 1 go to 65535",
        ),
        (
            "edition 2\nmachines 2 persistent all\nL0 of 1 initially 4294967296",
            ":3: '4294967296' is no number that fits",
        ),
        ("edition 1\nmachines 2 persistent all\nL0 of 1 initially 65536", ":3: '65536' is no number that fits"),
        ("edition 3", ":1: there is no edition 3, only 1 and 2"),
        ("edition two", ":1: 'two' is no number that fits"),
        ("edition", ":1: the edition is 'edition 1' or 'edition 2'"),
        ("edition 2 2", ":1: the edition is 'edition 1' or 'edition 2'"),
        ("edition 2", ":1: no 'machines' line"),
        ("edition 1\nedition 2\nmachines 2 persistent all", ":2: the edition is named twice"),
        ("machines 2 persistent all\nedition 2", ":2: 'edition' must come before the 'machines' line"),
        ("unchecked\nedition 2\nedition 1\nMStore 1 L0 65536", ":4: '65536' is no number that fits"),
        ("machines 2 persistent all\nL0 of 1 initially", NO_LOCATION),
        ("machines 2 persistent all\nL0 of 1 7", NO_LOCATION),
        ("machines 2 persistent all\nL0 of 1 finally 7", NO_LOCATION),
        ("machines 2 persistent all\nL0 of 1 initially 7 8", NO_LOCATION),
        ("machines 2 persistent all\nL0 of 1 volatile initially 7", NO_LOCATION),
        ("machines 2 persistent all\nL0 of 1 volatile volatile", NO_LOCATION),
        ("machines 2 persistent all\nL0 of 1 persistent volatile", NO_LOCATION),
        ("machines 2 persistent all\nL0 of 1 7 volatile", NO_LOCATION),
        ("machines 2 persistent all\nL0 of 1 initially volatile", NO_LOCATION),
        ("machines 2 persistent all\nL0 volatile", NO_LOCATION),
        ("machines 2 persistent all\nL0 of 1 kind 1", NO_LOCATION),
        ("machines 2 persistent all\nL0 of 3 volatile", ":2: number 6 (BadOwner)"),
        ("machines 2 persistent all\nL0 of 3 initially 7 persistent", ":2: number 6 (BadOwner)"),
        ("machines 2 persistent all\nL0 of persistent", NO_LOCATION),
        ("machines 7 persistent none", ":1: number 5 (BadTopology)"),
        ("machines 2 persistent all\n\nCrash of 3", ":3: number 9 (NoSuchMachine)"),
        ("machines 2 persistent all\nL0 of 1\nLoad by 1 of L0", ":3: this line should look like 'Load by 1 of L0, 1'"),
        ("machines 2 persistent all\nL0 of 1\nLoad by 1 of L0, 65536", "'65536' is no number that fits"),
        (
            "machines 2 persistent all\nL0 of 1\nL-RMW 1 L0 0",
            ":3: this line should look like 'L-RMW by 1 of L0, 1 to 2'",
        ),
        ("machines 2 persistent all\nL0 of 1\nM-RMW 1 L0 0 65536", "'65536' is no number that fits"),
        ("machines 2 persistent all\nL0 of 1\nM-RMW by 3 of L0, 0 to 1", ":3: number 9 (NoSuchMachine)"),
        ("machines 2 persistent all\nCrash of 1, 3", ":2: number 15 (BadMachineSet)"),
        ("machines 2 persistent all\nCrash of 1, 8", ":2: number 15 (BadMachineSet)"),
        ("machines 1 persistent all\nCrash of 1, 2", ":2: number 15 (BadMachineSet)"),
        ("machines 2 persistent all\nCrash of 1, 2, 1", ":2: machine 1 is named twice"),
        ("machines 2 persistent all\nCrash of 0, 1", ":2: machine 0 cannot crash with others"),
        ("machines 2 persistent all\nCrash of 1, 9", ":2: machine 9 cannot crash with others"),
        ("machines 2 persistent all\nCrash of 1, 256", "'256' is no number that fits"),
        ("machines 2 persistent all\nCrash of 1, L0", "'L0' is no number that fits"),
        ("machines 2 persistent all\nCrash of 0", ":2: number 9 (NoSuchMachine)"),
        ("machines 2 persistent all\nCrash", ":2: this line should look like 'Crash of 1'"),
        ("machines 2 persistent all\nbytes 00", "unchecked"),
        ("machines 2 persistent all\nend\nCrash of 1", ":3: number 12 (TrailingBytes)"),
        ("machines 2 persistent all\nStore by 1", "'Store' begins no line"),
    ] {
        fs::write(&text, content).unwrap();
        let output = tool(&["asm", bad]);
        let errors = String::from_utf8_lossy(&output.stderr).into_owned();
        assert_eq!(status(&output), 2, "{content}");
        assert!(errors.contains(expected), "{content}: {errors}");
    }
    for words in [
        &["judge", "/nowhere/a.log"][..],
        &["judge"],
        &["asm"],
        &["asm", "a", "b"],
        &["convert"],
        &["convert", "/nowhere"],
        &["show", "/nowhere"],
        &["frobnicate"],
        &["judge", "--fast", "x"],
        &["draw", "x", "-o"],
        &["replay", "x"],
    ] {
        assert_eq!(status(&tool(words)), 2, "{words:?}");
    }
    let help = tool(&["help"]);
    assert_eq!(status(&help), 0);
    assert!(String::from_utf8_lossy(&help.stdout).contains("\n  malluvom convert LOG [-o LOG] [--sync]\n"));
    for words in [&[][..], &["--help"], &["-h"]] {
        assert_eq!(tool(words).stdout, help.stdout, "{words:?}");
    }
}

#[test]
fn no_bytes_make_it_panic() {
    let folder = folder("fuzz");
    let (log, file) = (folder.join("a.log"), folder.join("a.verdict"));
    let mut random = Random::new(6);
    for round in 0..120 {
        let shape = Shape { crashes: 20, set_crashes: 50, patterns: 50, kinds: 50, ..Shape::random(&mut random) };
        let bytes = match round % 5 {
            0 => {
                let length = random.below(300);
                (0..length).map(|_| random.byte()).collect()
            }
            1 => encode(&random_log(&mut random, &shape)),
            2 => {
                let log = random_log(&mut random, &shape);
                encode(&widened(&mut random, &log))
            }
            _ => {
                let log = plausible(&mut random, &shape);
                let log = if random.percent(50) { widened(&mut random, &log) } else { log };
                damage(&mut random, &encode(&log))
            }
        };
        fs::write(&log, &bytes).unwrap();
        let schedule = match second::judge_bytes(&bytes) {
            Ok(verdict) => second::verdict_file::write(&verdict),
            Err(_) => bytes.iter().rev().copied().collect(),
        };
        let schedule = if random.percent(50) { damage(&mut random, &schedule) } else { schedule };
        fs::write(&file, schedule).unwrap();
        let (log, file) = (log.to_str().unwrap(), file.to_str().unwrap());
        for words in [
            &["asm", log][..],
            &["show", log],
            &["show", log, file],
            &["convert", log],
            &["judge", log, file],
            &["replay", log, file],
            &["explain", log],
            &["shrink", log],
            &["draw", log],
            &["draw", "--location", "L1", log],
        ] {
            let status = status(&tool(words));
            assert!((0..=2).contains(&status), "{words:?}: {status}");
        }
    }
}

/// Words of the text form in any order.
#[test]
fn no_text_makes_it_panic() {
    let folder = folder("words");
    let path = folder.join("a.txt");
    let words = [
        "edition",
        "machines",
        "persistent",
        "all",
        "none",
        "L0",
        "L1",
        "L255",
        "initially",
        "volatile",
        "L",
        "of",
        "by",
        "to",
        ",",
        "LStore",
        "Load",
        "crash",
        "RFlush",
        "L-RMW",
        "m-rmw",
        "propagate",
        "write-back",
        "bytes",
        "end",
        "unchecked",
        "0",
        "1",
        "2",
        "6",
        "9",
        "255",
        "256",
        "65536",
        "4294967295",
        "99999999999",
        "-1",
        "0x",
        "0xff",
        "\n",
        "\n",
        "\n",
        "#",
        "~",
        "é",
        "\u{0}",
        "ff",
    ];
    let mut random = Random::new(8);
    for _ in 0..300 {
        let mut text = String::new();
        if random.percent(70) {
            text.push_str(if random.percent(50) { "unchecked\n" } else { "machines 2 persistent all\nL0 of 1\n" });
        }
        for _ in 0..random.below(30) {
            text.push_str(*random.pick::<&str>(&words));
            text.push(' ');
        }
        fs::write(&path, &text).unwrap();
        let status = status(&tool(&["asm", path.to_str().unwrap()]));
        assert!(status == 0 || status == 2, "{text}: {status}");
    }
}
