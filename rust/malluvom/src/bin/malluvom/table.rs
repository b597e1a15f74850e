//! The table of an explanation: the states of a location before each kept event, like states in one row.

use std::collections::{BTreeMap, BTreeSet};

use malluvom::{Event, Log, MachineSet, Operation};

use crate::page::Page;
use crate::run::{caches, listed, Held};
use crate::states::{Place, Table, Values, Width};

/// So many events that are left out in one place are named, unless all are asked for.
const NAMED_MOST: usize = 3;

/// So many rows are few.
const ROWS_MOST: usize = 6;

/// The table of some kept events that is easiest to check: where many events are left out or there are many rows, it
/// has wider sets of states if they make fewer rows and still stop the last event.
pub fn simplest(log: &Log, kept: &[usize]) -> Table {
    let mut table = Table::exact(log, kept);
    for at in 0..kept.len() {
        let rows_of = |table: &Table| rows(log, &table.places[at], &table.values).len();
        if table.places[at].left_out.len() <= NAMED_MOST && rows_of(&table) <= ROWS_MOST {
            continue;
        }
        let wider = [Width::All, Width::Values, Width::Caches].into_iter();
        let mut wider = wider.map(|width| table.with_width(log, at, width));
        let better = wider.find(|wider| wider.is_stopped(log) && rows_of(wider) < rows_of(&table));
        table = better.unwrap_or(table);
    }
    table
}

/// The lines of a table.
pub fn lines(log: &Log, table: &Table, page: Page, all: bool) -> Vec<String> {
    let text: String = table.places.iter().map(|place| block(log, place, &table.values, page, all)).collect();
    text.split_inclusive('\n').map(String::from).collect()
}

/// What is left out before a kept event, the event, and the rows of its states.
fn block(log: &Log, place: &Place, values: &Values, page: Page, all: bool) -> String {
    let mut text = String::new();
    if !place.left_out.is_empty() {
        text.push_str(&page.wrapped(&format!("  left out: {}", left_out(log, &place.left_out, all)), 4));
    }
    text.push_str(&page.wrapped(&format!("  before {}, {}", place.event + 1, log.events[place.event]), 4));
    let rows = rows(log, place, values);
    let longest_state = rows.iter().map(|(state, _)| state.len()).max().unwrap_or(0);
    let longest_reason = rows.iter().map(|(_, reason)| reason.len()).max().unwrap_or(0);
    let aligned = if 6 + longest_state + 3 + longest_reason <= page.columns { longest_state } else { 0 };
    for (state, reason) in rows {
        text.push_str(&page.wrapped(&format!("      {state:<aligned$}   {reason}"), 10));
    }
    text
}

/// Some events in words.
fn left_out(log: &Log, events: &[usize], all: bool) -> String {
    let named = |&e: &usize| format!("{} {}", e + 1, log.events[e]);
    match events {
        [first, .., last] if !all && events.len() > NAMED_MOST => {
            format!("{} events from {} to {}", events.len(), first + 1, last + 1)
        }
        _ => events.iter().map(named).collect::<Vec<_>>().join("; "),
    }
}

/// The states before an event in words, each with why the event is not possible in it, if it is not.
fn rows(log: &Log, place: &Place, values: &Values) -> Vec<(String, String)> {
    if place.width == Width::All {
        return vec![("any state".into(), String::new())];
    }
    let event = &log.events[place.event];
    let (free, stopped): (Vec<Held>, Vec<Held>) = place.states.iter().partition(|state| state.allows(event));
    let mut rows: Vec<(Row, bool)> = Row::of(&free, log.machines).into_iter().map(|row| (row, false)).collect();
    rows.extend(Row::of(&stopped, log.machines).into_iter().map(|row| (row, true)));
    rows.sort();
    let words = |(row, stopped): &(Row, bool)| {
        let reason = if *stopped { format!("stopped: {}", row.reason(event, values)) } else { String::new() };
        (row.words(values), reason)
    };
    rows.iter().map(words).collect()
}

/// States that differ in which caches hold a copy, in the copies' value and in that of memory, in every way. Rows are
/// sorted by the fields in their order.
#[derive(PartialEq, Eq, PartialOrd, Ord)]
struct Row {
    uncached: bool,
    copies: BTreeSet<u32>,
    memory: BTreeSet<u32>,
    /// These caches hold it.
    holders: u8,
    /// And perhaps some of these; if there are no holders, one at least.
    perhaps: u8,
    /// All caches.
    caches: u8,
}

impl Row {
    /// Rows of these states and no other.
    fn of(states: &[Held], machines: u8) -> Vec<Row> {
        let caches = (1 << machines) - 1;
        let holders =
            grouped(states.iter().map(|state| ((state.sharers == 0, state.copy, state.memory), state.sharers)));
        let memory = grouped(holders.into_iter().map(|((_, copy, memory), holders)| ((holders, copy), memory)));
        let copies = grouped(memory.into_iter().map(|((holders, copy), memory)| ((holders, memory), copy)));
        let rows = copies.into_iter().flat_map(|((sets, memory), copies)| {
            let row = move |(holders, perhaps)| {
                let uncached = holders | perhaps == 0;
                Row { uncached, copies: copies.clone(), memory: memory.clone(), holders, perhaps, caches }
            };
            ranges(&sets).into_iter().map(row)
        });
        rows.collect()
    }

    fn words(&self, values: &Values) -> String {
        let memory = one_of(&self.memory, values);
        let named = |set: u8| listed(MachineSet::from_bits(set).iter(), "and");
        let hold = match (self.holders, self.perhaps) {
            (0, 0) => return format!("no cache holds it, memory {memory}"),
            (0, perhaps) if perhaps == self.caches => "some caches hold".into(),
            (0, perhaps) => format!("some of the caches of {} hold", named(perhaps)),
            (holders, 0) => caches(holders, "hold").unwrap_or_default(),
            (holders, perhaps) if holders | perhaps == self.caches => {
                format!("caches of {} and perhaps others hold", named(holders))
            }
            (holders, perhaps) => format!("caches of {} and perhaps {} hold", named(holders), named(perhaps)),
        };
        format!("{hold} {}, memory {memory}", one_of(&self.copies, values))
    }

    /// Why an event is not possible.
    fn reason(&self, event: &Event, values: &Values) -> String {
        match event.operation {
            Operation::LFlush => format!("cache of {} holds it", event.machine),
            Operation::RFlush => "a cache holds it".into(),
            _ if self.uncached => format!("memory holds {}, not {}", one_of(&self.memory, values), event.value),
            _ => format!("the copies are {}, not {}", one_of(&self.copies, values), event.value),
        }
    }
}

/// The second parts of the pairs with the same first part.
fn grouped<K: Ord, V: Ord>(pairs: impl Iterator<Item = (K, V)>) -> BTreeMap<K, BTreeSet<V>> {
    let mut groups: BTreeMap<K, BTreeSet<V>> = BTreeMap::new();
    for (key, value) in pairs {
        groups.entry(key).or_default().insert(value);
    }
    groups
}

/// Sets of machines as few ranges: those that have all of the first set and perhaps some of the second, and are not
/// empty unless both are.
fn ranges(sets: &BTreeSet<u8>) -> Vec<(u8, u8)> {
    let within = |holders: u8, perhaps: u8| {
        move |set: &u8| set & holders == holders && set & !(holders | perhaps) == 0 && (*set > 0 || perhaps == 0)
    };
    let has = |holders: u8, perhaps: u8| {
        (0..=holders | perhaps).filter(within(holders, perhaps)).all(|set| sets.contains(&set))
    };
    let bits = || (0..8).map(|bit| 1u8 << bit);
    let mut left = sets.clone();
    let mut ranges = Vec::new();
    while let Some(&first) = left.first() {
        let (mut holders, mut perhaps) = (first, 0);
        for bit in bits().filter(|bit| first > 0 && first & bit == 0) {
            if has(holders, perhaps | bit) {
                perhaps |= bit;
            }
        }
        for bit in bits().filter(|bit| first & bit != 0) {
            // One cache alone is a holder.
            if holders | perhaps != bit && has(holders & !bit, perhaps | bit) {
                (holders, perhaps) = (holders & !bit, perhaps | bit);
            }
        }
        left.retain(|set| !within(holders, perhaps)(set));
        ranges.push((holders, perhaps));
    }
    ranges
}

/// Values in words.
fn one_of(some: &BTreeSet<u32>, values: &Values) -> String {
    if *some == values.all() {
        return "anything".into();
    }
    let named = some.iter().filter(|&&value| value != values.other).map(u32::to_string);
    listed(named.chain(some.contains(&values.other).then(|| "another value".into())), "or")
}
