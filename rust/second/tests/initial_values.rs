//! Initial values: where runs start, and what a volatile memory returns to when its owner crashes.

mod searches;

use corpus::encode::field;
use corpus::marked::{marked_logs, patterns};
use corpus::{crash, encode, plain, power_on, set_crash, Random};
use searches::first_impossible;
use second::{read, replay, Event, Home, Log, Operation, Replayed, Step, System};

fn event(operation: Operation, machine: u8, location: u8, value: u32) -> Event {
    Event { operation, machine, location, value, written: 0 }
}

fn load(location: u8, value: u32) -> Event {
    event(Operation::Load, 3, location, value)
}

fn store(location: u8, value: u32) -> Event {
    event(Operation::MStore, 3, location, value)
}

/// Three machines, and locations by owner and initial value.
fn log(persistent: u8, homes: &[(u8, u32)], events: &[Event]) -> Log {
    let homes = homes.iter().map(|&(owner, initial)| plain(persistent, owner, initial)).collect();
    Log { machines: 3, persistent, homes, events: events.to_vec(), ..Log::default() }
}

/// The values that the last load of a location can return, of those that a wrong reading might give.
fn loadable(log: &Log, location: u8) -> Vec<u32> {
    let with = |value| Log { events: [&log.events[..], &[load(location, value)]].concat(), ..log.clone() };
    let mut values: Vec<u32> = log.homes.iter().map(|home| home.initial).collect();
    values.extend(values.clone().iter().map(|value| value.swap_bytes() >> 16));
    values.extend([0, 1, 2, 3, 255, 256, 0xffff]);
    values.sort();
    values.dedup();
    values.retain(|&value| first_impossible(&with(value)).is_none());
    values
}

#[test]
fn both_searches_give_the_marked_verdicts() {
    for marked in patterns() {
        assert_eq!(first_impossible(&marked.log), marked.impossible, "{}", marked.name);
    }
}

#[test]
fn the_low_byte_comes_first() {
    for (bytes, value) in [([1, 0], 1), ([0, 1], 256), ([2, 1], 0x102), ([255, 0], 255), ([255, 255], 0xffff)] {
        let payload = [1, bytes[0], bytes[1]];
        let bytes = [field(1, &[3, 0]), field(2, &payload), field(4, &[])].concat();
        let log = read(&bytes).unwrap();
        assert_eq!(log.homes, [plain(0, 1, value)]);
        assert_eq!(encode(&log), bytes);
        assert_eq!(loadable(&log, 0), [value]);
    }
    let short = [field(1, &[3, 0]), field(2, &[1]), field(4, &[])].concat();
    assert_eq!(read(&short).unwrap().homes, [plain(0, 1, 0)]);
    assert_eq!(loadable(&read(&short).unwrap(), 0), [0]);
}

#[test]
fn each_location_starts_with_its_own() {
    let homes = [(1, 7), (2, 0), (1, 256), (3, 9)];
    for persistent in 0..8 {
        let start = log(persistent, &homes, &[]);
        let system = System::start(&start);
        for (location, (_, initial)) in (0..).zip(homes) {
            assert_eq!((system.visible(location), system.holds(1, location)), (initial, false));
            assert_eq!(loadable(&start, location), [initial]);
        }
    }
}

/// For every set of three machines, of one alone too: what a volatile machine of the set owns returns, and nothing else.
#[test]
fn a_crash_returns_what_the_machine_owns() {
    let homes = [(1, 7), (2, 9), (1, 256)];
    let stores = [store(0, 1), store(1, 2), store(2, 3)];
    for persistent in 0..8 {
        for set in 1u8..8 {
            let fall = if set.count_ones() == 1 { crash(set.trailing_zeros() as u8 + 1) } else { set_crash(set) };
            let log = log(persistent, &homes, &[&stores[..], &[fall]].concat());
            for (location, (owner, initial)) in (0..).zip(homes) {
                let owner = 1 << (owner - 1);
                let returns = set & owner != 0 && persistent & owner == 0;
                let expected = if returns { initial } else { u32::from(location) + 1 };
                assert_eq!(loadable(&log, location), [expected], "{persistent:#b} {set:#b}");
            }
        }
    }
}

#[test]
fn a_copy_may_be_lost_to_the_initial_value() {
    let stored = event(Operation::RStore, 3, 0, 1);
    let fallen = |persistent, events: &[Event]| log(persistent, &[(2, 7)], events);
    // Volatile: whether it was written back before or not, the crash of the owner loses it.
    assert_eq!(loadable(&fallen(0, &[stored, crash(2)]), 0), [7]);
    // Persistent: it was lost, or it was written back.
    assert_eq!(loadable(&fallen(0b010, &[stored, crash(2)]), 0), [1, 7]);
    // A copy of machine 3 stays, or it moved to machine 2 before.
    let both = [event(Operation::LStore, 3, 0, 1), crash(2), crash(3)];
    assert_eq!(loadable(&fallen(0, &both[..2]), 0), [1, 7]);
    assert_eq!(loadable(&fallen(0, &both), 0), [1, 7]);
    // Replay follows the same: it moves between the crashes, or it does not.
    let read = |value| fallen(0, &[&both[..], &[load(0, value)]].concat());
    let moved = Step { before: 2, location: 0, machine: 3 };
    assert_eq!((replay(&read(1), &[moved]), replay(&read(7), &[moved])), (Replayed::Yes, Replayed::No(3)));
    assert_eq!((replay(&read(7), &[]), replay(&read(0), &[])), (Replayed::Yes, Replayed::No(3)));
}

#[test]
fn read_modify_writes_find_it() {
    for (form, kept) in [(Operation::LRmw, false), (Operation::RRmw, false), (Operation::MRmw, true)] {
        let rmw = |value| Event { written: 2, ..event(form, 2, 0, value) };
        let after = |persistent, value| log(persistent, &[(2, 7)], &[load(0, 7), rmw(value), crash(2)]);
        assert_eq!(first_impossible(&after(0, 0)), Some(2), "{form:?}");
        assert_eq!(loadable(&after(0, 7), 0), [7], "{form:?}");
        assert_eq!(loadable(&after(0b010, 7), 0), if kept { vec![2] } else { vec![2, 7] }, "{form:?}");
    }
}

/// The marked logs, with a pattern in place of each 0 that is loaded.
#[test]
fn a_pattern_in_place_of_zero() {
    for marked in marked_logs() {
        let mut filled = marked.log.clone();
        filled.homes.iter_mut().for_each(|home| home.initial = 0x100);
        for event in filled.events.iter_mut().filter(|event| event.operation == Operation::Load && event.value == 0) {
            event.value = 0x100;
        }
        assert_eq!(first_impossible(&filled), marked.impossible, "{}", marked.name);
        assert_ne!(filled, marked.log);
    }
}

#[test]
fn one_location_at_a_time_is_the_whole_system() {
    let mut random = Random::new(21);
    let (mut impossible, mut other) = (0, 0);
    for _ in 0..3000 {
        let log = power_on(&mut random);
        let first = first_impossible(&log);
        impossible += usize::from(first.is_some());
        let homes = log.homes.iter().map(|home| Home { initial: 0, ..*home }).collect();
        other += usize::from(first_impossible(&Log { homes, ..log }) != first);
    }
    assert!((900..2400).contains(&impossible), "{impossible} of 3000 impossible");
    assert!(other > 1500, "{other} of 3000 have another verdict with zeroed memories");
}
