//! Why a log is allowed, or why nothing explains an event of it.

use std::collections::BTreeSet;

use malluvom::{Event, Judge, Kind, Log, Operation, Schedule, Verdict};

use crate::failure::Failure;
use crate::files;
use crate::options::Options;
use crate::output;
use crate::page::Page;
use crate::run::{actions, caches, listed, place, Action, Held};
use crate::show::silent;
use crate::shrink::smallest;
use crate::states::Table;
use crate::table;

/// So many lines of a table are shown, whatever the page.
const LINES_LEAST: usize = 10;

pub fn command(options: &Options) -> Result<u8, Failure> {
    let path = options.one_file("the log")?;
    let (log, bytes) = files::read_log(path)?;
    let page = Page::of_output(options.value("-o"));
    let mut judge = Judge::new();
    let (text, status) = match judge.judge(&bytes).map_err(Failure::new)? {
        Verdict::Allowed(schedule) => (allowed(&log, &schedule, page), 0),
        Verdict::Impossible { event } => {
            (impossible(&log, usize::from(event), &mut judge, page, options.has("--all"))?, 1)
        }
    };
    output::write(options, text.as_bytes())?;
    Ok(status)
}

fn plural(count: usize, what: &str) -> String {
    match count {
        0 => format!("no {what}s"),
        1 => format!("1 {what}"),
        _ => format!("{count} {what}s"),
    }
}

fn allowed(log: &Log, schedule: &Schedule, page: Page) -> String {
    let events = plural(log.events.len(), "event");
    let steps = plural(schedule.steps.len(), "silent step");
    let head = page.wrapped(&format!("allowed: {events} and {steps} make this run"), 0);
    format!("{head}\n{}", run(log, schedule, page))
}

/// A run, line by line, with what changes. It begins with what is in memory at power-on, where that is not 0 or where
/// the memory is not of its owner's kind, which is then named.
fn run(log: &Log, schedule: &Schedule, page: Page) -> String {
    let mut text = String::new();
    let mut held: Vec<Held> = (0..log.homes.len()).map(|x| Held::at_power_on(log, x as u8)).collect();
    let named = (0..).zip(&held).filter(|(x, held)| held.memory != 0 || log.differs(*x));
    let kind = |x| if log.differs(x) { format!(", {}", log.kind(x)) } else { String::new() };
    let named: Vec<String> = named.map(|(x, held)| format!("L{x}: {}{}", held.words(), kind(x))).collect();
    if !named.is_empty() {
        text.push_str(&line("", "at power-on", &named, page));
    }
    for action in actions(log, schedule) {
        let mut changes = match &action {
            Action::Event(_, event) if event.operation == Operation::SetCrash => losses(log, &held, event),
            _ => Vec::new(),
        };
        for (x, held) in held.iter_mut().enumerate() {
            let before = *held;
            *held = before.after(log, x as u8, &action);
            if let Some(change) = change(x, before, *held, &action) {
                changes.push(change);
            }
        }
        let (number, words) = match &action {
            Action::Event(number, event) => (number.to_string(), event.to_string()),
            Action::Silent(step) => (String::new(), silent(step)),
        };
        text.push_str(&line(&number, &words, &changes, page));
    }
    text
}

fn line(number: &str, words: &str, changes: &[String], page: Page) -> String {
    page.wrapped(&format!("{number:>4}  {words:<30}  {}", changes.join("; ")), 38)
}

/// What each machine of a set crash loses in its one step: copies, and values in a volatile memory.
fn losses(log: &Log, held: &[Held], crash: &Event) -> Vec<String> {
    let listed = |lost: &dyn Fn(u8, &Held) -> bool| {
        let lost = (0..).zip(held).filter(|(x, held)| lost(*x, held)).map(|(x, _)| format!("L{x}"));
        lost.collect::<Vec<_>>().join(", ")
    };
    let loses = |machine: u8| {
        let copies = listed(&|_, held| held.by(machine));
        let forgets = |x| log.owner(x) == machine && log.kind(x) == Kind::Volatile;
        let memory = listed(&|x, held| forgets(x) && held.memory != log.initial(x));
        match (copies.as_str(), memory.as_str()) {
            ("", "") => format!("{machine} loses nothing"),
            (copies, "") => format!("{machine} loses {copies} from its cache"),
            ("", memory) => format!("{machine} loses {memory} from its memory"),
            (copies, memory) => format!("{machine} loses {copies} from its cache and {memory} from its memory"),
        }
    };
    crash.machines.iter().map(loses).collect()
}

/// What an action does to a location, or why it is possible; nothing if it does not concern it.
fn change(x: usize, before: Held, after: Held, action: &Action) -> Option<String> {
    let words = match action {
        Action::Event(_, event) if event.operation.is_rmw() && usize::from(event.location) == x => {
            let source = if before.sharers == 0 { "memory" } else { "a cache" };
            let lost =
                caches(before.sharers & !after.sharers, "lose").map_or(String::new(), |lose| format!(", {lose} it"));
            format!("{} loaded from {source}, then {}{lost}", event.value, after.words())
        }
        _ if before != after => return Some(format!("L{x}: {}", after.words())),
        Action::Event(_, event) if !event.operation.is_crash() && usize::from(event.location) == x => {
            match event.operation {
                Operation::Load if before.sharers == 0 => "loaded from memory".into(),
                Operation::Load => "loaded from a cache".into(),
                Operation::LFlush => format!("the cache of {} does not hold it", event.machine),
                Operation::RFlush => "no cache holds it".into(),
                _ => after.words(),
            }
        }
        _ => return None,
    };
    Some(format!("L{x}: {words}"))
}

/// Why nothing explains an event: what could have been read, the events that are enough for that, and the states before
/// each of them.
fn impossible(log: &Log, number: usize, judge: &mut Judge, page: Page, all: bool) -> Result<String, Failure> {
    let event = log.events[number - 1];
    let kept = smallest(log, number, judge)?;
    let table = table::simplest(log, &kept);
    let lines = table::lines(log, &table, page, all);
    let mut head = vec![format!("impossible: event {number}, {event}"), String::new(), instead(log, number, judge)?];
    let before = if kept.len() == 1 {
        head.push(format!("Nothing before it stores {} to L{}.", event.value, event.location));
        "it"
    } else {
        head.push(format!("These events are enough to rule out {}, and none of them can be left out:", event.value));
        head.push(String::new());
        head.extend(kept.iter().map(|&e| kept_event(log, e, number)));
        "each of them"
    };
    head.push(String::new());
    head.push(format!("{}, can only be in these states before {before}:", place(log, event.location)));
    if lines.iter().any(|line| line.contains("another")) {
        head.push(format!("Another value is any but {}.", listed(table.values.named.iter(), "and")));
    }
    head.push(String::new());
    let head: String = head.iter().map(|line| page.wrapped(line, 0)).collect();
    let end = format!("\n{}", page.wrapped(&conclusion(number, &table), 0));
    let room = page.lines.saturating_sub(head.lines().count() + end.lines().count());
    let shown = if all { lines.concat() } else { last(&lines, room, page) };
    Ok(head + &shown + &end)
}

/// What the event could have read.
fn instead(log: &Log, number: usize, judge: &mut Judge) -> Result<String, Failure> {
    let before = &log.events[..number - 1];
    let event = &log.events[number - 1];
    let values = loadable(log, before, event, judge)?;
    let explained = match before.len() {
        0 => "It comes first, and".to_string(),
        1 => "The event before it can be explained, and then".to_string(),
        count => format!("The {count} events before it can be explained, and then"),
    };
    let Event { machine, location, value, .. } = event;
    let values = listed(values.iter(), "or");
    Ok(format!("{explained} a load by {machine} of L{location} can return {values}, not {value}."))
}

/// The values that the load, or that of a read-modify-write, could have returned after these events, each found by
/// judging. No other value can be there than the initial one and what was stored.
fn loadable(log: &Log, before: &[Event], load: &Event, judge: &mut Judge) -> Result<Vec<u32>, Failure> {
    let here = before.iter().filter(|event| event.location == load.location);
    let mut candidates: BTreeSet<u32> = here.filter_map(Event::stored).collect();
    candidates.insert(log.initial(load.location));
    let mut values = Vec::new();
    for value in candidates {
        let events = [before, &[Event { value, ..*load }]].concat();
        let bytes = log.with_events(&events).map_err(Failure::new)?;
        if let Verdict::Allowed(_) = judge.judge(&bytes).map_err(Failure::new)? {
            values.push(value);
        }
    }
    Ok(values)
}

fn kept_event(log: &Log, event: usize, impossible: usize) -> String {
    let mark = if event + 1 == impossible { "  <- impossible" } else { "" };
    format!("{:>4}  {}{mark}", event + 1, log.events[event])
}

fn conclusion(number: usize, table: &Table) -> String {
    let closed = match table.places.iter().any(|place| !place.left_out.is_empty()) {
        true => "Silent steps, and the events left out above a list, lead from its states only to its states.",
        false => "Silent steps lead from the states of a list only to its states.",
    };
    format!(
        "{closed} Event {number} is stopped in all states of its list: no choice of silent steps explains it. \
         docs/RULES.md has the rules, docs/EXPLAIN.md says how to check the table."
    )
}

/// As many of the last lines of a table as there is room for.
fn last(lines: &[String], room: usize, page: Page) -> String {
    if lines.len() <= room {
        return lines.concat();
    }
    let shown = room.saturating_sub(1).max(LINES_LEAST).min(lines.len());
    let cut = format!("  These are the last {shown} of {} lines; --all shows the whole table.", lines.len());
    page.wrapped(&cut, 4) + &lines[lines.len() - shown..].concat()
}
