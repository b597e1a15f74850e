//! Kinds of memory: a location may be in memory of the kind that its owner's is not, and a crash asks each for its own.

mod searches;

use corpus::encode::field;
use corpus::marked::{journal_and_index, marked_logs};
use corpus::{crash, encode, other, other_part, plain, power_loss, power_on, set_crash, two_kinds, Random};
use searches::first_impossible;
use second::{judge, read, replay, Event, Home, Kind, Log, Operation, Refusal, Replayed, Step};

fn event(operation: Operation, machine: u8, location: u8, value: u32) -> Event {
    Event { operation, machine, location, value, written: 0 }
}

fn load(location: u8, value: u32) -> Event {
    event(Operation::Load, 3, location, value)
}

fn log(persistent: u8, homes: &[Home], events: &[Event]) -> Log {
    Log { machines: 3, persistent, homes: homes.to_vec(), events: events.to_vec(), ..Log::default() }
}

/// The values that a last load of a location can return.
fn loadable(log: &Log, location: u8) -> Vec<u32> {
    let with = |value| Log { events: [&log.events[..], &[load(location, value)]].concat(), ..log.clone() };
    let mut values: Vec<u32> = log.homes.iter().map(|home| home.initial).collect();
    values.extend(0..=3);
    values.sort();
    values.dedup();
    values.retain(|&value| first_impossible(&with(value)).is_none());
    values
}

#[test]
fn codes() {
    assert_eq!(Kind::ALL.map(Kind::code), [1, 2]);
    assert_eq!([1, 2].map(Kind::from_code), [Some(Kind::Volatile), Some(Kind::Persistent)]);
    assert_eq!([0, 3, 255].map(Kind::from_code), [None; 3]);
}

#[test]
fn both_searches_give_the_marked_verdicts() {
    let logs = journal_and_index();
    assert_eq!(logs.len(), 12);
    for marked in logs {
        assert_eq!(first_impossible(&marked.log), marked.impossible, "{}: {:?}", marked.name, marked.log);
    }
}

/// Every kind byte of every owner, alone and after an initial value: one of them is right, and it is the kind.
#[test]
fn which_kind_bytes_are_right() {
    for persistent in 0..8 {
        for owner in 1..=3 {
            let is_persistent = persistent & 1 << (owner - 1) != 0;
            let (right, kind) = if is_persistent { (1, Kind::Volatile) } else { (2, Kind::Persistent) };
            for (value, initial) in [(&[][..], 0), (&[7, 0], 7), (&[0, 2], 512)] {
                for byte in 0..=255 {
                    let payload = [&[owner], value, &[byte]].concat();
                    let bytes = [field(1, &[3, persistent]), field(2, &payload), field(4, &[])].concat();
                    if byte != right {
                        assert_eq!(read(&bytes), Err(Refusal(16)), "{bytes:02x?}");
                        continue;
                    }
                    let log = read(&bytes).unwrap();
                    assert_eq!(log.homes, [Home { owner, initial, kind }]);
                    assert_eq!(encode(&log), bytes);
                    assert_eq!(log.homes, [other_part(persistent, owner, initial)]);
                }
                let short = [field(1, &[3, persistent]), field(2, &[&[owner], value].concat()), field(4, &[])].concat();
                assert_eq!(read(&short).unwrap().homes, [Home { owner, initial, kind: other(kind) }]);
            }
        }
    }
}

/// For every set of three machines, of one alone too, whatever the machines' own kinds: what a machine of the set owns
/// in volatile memory returns, and nothing else.
#[test]
fn a_crash_asks_each_location() {
    let at = [(1, 7), (2, 9), (1, 0)];
    let stores = [(0, 1), (1, 2), (2, 3)].map(|(location, value)| event(Operation::MStore, 3, location, value));
    for persistent in 0..8 {
        for kinds in 0..8 {
            let kind = |location: usize| Kind::ALL[kinds >> location & 1];
            let homes = [0, 1, 2].map(|x| Home { owner: at[x].0, initial: at[x].1, kind: kind(x) });
            for set in 1u8..8 {
                let fall = if set.count_ones() == 1 { crash(set.trailing_zeros() as u8 + 1) } else { set_crash(set) };
                let log = log(persistent, &homes, &[&stores[..], &[fall]].concat());
                for (location, home) in (0..).zip(homes) {
                    let returns = set & 1 << (home.owner - 1) != 0 && home.kind == Kind::Volatile;
                    let expected = if returns { home.initial } else { u32::from(location) + 1 };
                    assert_eq!(loadable(&log, location), [expected], "{persistent:#b} {kinds:#b} {set:#b}");
                }
            }
        }
    }
}

/// The kind says what becomes of memory; caches are emptied all the same.
#[test]
fn copies_are_lost_from_both_kinds() {
    let homes = [plain(0b010, 2, 7), other_part(0b010, 2, 8)];
    let fallen = |events: &[Event]| log(0b010, &homes, events);
    let stored = |operation| [0, 1].map(|location| event(operation, 3, location, 1));
    // Into the owner's cache: persistent memory has it if it was written back before, volatile memory never.
    let copies = fallen(&[&stored(Operation::RStore)[..], &[crash(2)]].concat());
    assert_eq!((loadable(&copies, 0), loadable(&copies, 1)), (vec![1, 7], vec![8]));
    // Into another's cache: it is still there, unless it moved before.
    let copies = fallen(&[&stored(Operation::LStore)[..], &[crash(2)]].concat());
    assert_eq!((loadable(&copies, 0), loadable(&copies, 1)), (vec![1, 7], vec![1, 8]));
    // In one step with the owner nothing moves between, so volatile memory cannot have it.
    let copies = fallen(&[&stored(Operation::LStore)[..], &[set_crash(0b110)]].concat());
    assert_eq!((loadable(&copies, 0), loadable(&copies, 1)), (vec![1, 7], vec![8]));
    // Replay follows the same: written back before the crash, it is read afterwards from one of them only.
    for (location, answer) in [(0, Replayed::Yes), (1, Replayed::No(2))] {
        let read = fallen(&[event(Operation::RStore, 3, location, 1), crash(2), load(location, 1)]);
        assert_eq!(replay(&read, &[Step { before: 1, location, machine: 0 }]), answer);
    }
}

#[test]
fn read_modify_writes_find_what_is_left() {
    for persistent in [0b000, 0b010] {
        let homes = [Kind::Volatile, Kind::Persistent].map(|kind| Home { owner: 2, initial: 7, kind });
        for fall in [crash(2), set_crash(0b011)] {
            for form in [Operation::LRmw, Operation::RRmw, Operation::MRmw] {
                let rmw = |location, value, written| Event { written, ..event(form, 3, location, value) };
                let after = |location, value| {
                    let stored = Event { operation: Operation::MRmw, ..rmw(location, 7, 1) };
                    log(persistent, &homes, &[stored, fall, rmw(location, value, 2)])
                };
                for (location, left, gone) in [(0, 7, 1), (1, 1, 7)] {
                    assert_eq!(first_impossible(&after(location, gone)), Some(3), "{form:?}");
                    assert_eq!(loadable(&after(location, left), location), [2], "{form:?}");
                }
            }
        }
    }
}

/// The marked logs of before, where the machines' own kinds are all the other one and every location says so: the same
/// verdicts by other bytes.
#[test]
fn the_marked_logs_in_the_other_part() {
    for marked in marked_logs() {
        let moved = Log { persistent: marked.log.persistent ^ 0b111, ..marked.log.clone() };
        assert_eq!(first_impossible(&moved), marked.impossible, "{}", marked.name);
        assert_eq!(encode(&moved).len(), encode(&marked.log).len() + moved.homes.len());
    }
}

/// Whatever the machines' own kinds, the locations' decide, for verdicts and for schedules.
#[test]
fn the_locations_kinds_alone_decide() {
    let mut random = Random::new(31);
    for round in 0..2000 {
        let log = [two_kinds, power_on, power_loss][round % 3](&mut random);
        let verdict = judge(&log);
        for persistent in 0..1 << log.machines {
            let head = Log { persistent, ..log.clone() };
            assert_eq!(read(&encode(&head)).as_ref(), Ok(&head));
            assert_eq!(judge(&head), verdict, "{head:?}");
        }
    }
}

#[test]
fn one_location_at_a_time_is_the_whole_system() {
    let mut random = Random::new(32);
    let (mut impossible, mut usual, mut one) = (0, 0, 0);
    for _ in 0..3000 {
        let log = two_kinds(&mut random);
        let first = first_impossible(&log);
        impossible += usize::from(first.is_some());
        let of_owners = log.homes.iter().map(|home| plain(log.persistent, home.owner, home.initial)).collect();
        usual += usize::from(first_impossible(&Log { homes: of_owners, ..log.clone() }) != first);
        let of_first = log.homes.iter().map(|home| Home { kind: log.homes[0].kind, ..*home }).collect();
        one += usize::from(first_impossible(&Log { homes: of_first, ..log }) != first);
    }
    assert!((900..2100).contains(&impossible), "{impossible} of 3000 impossible");
    assert!(usual > 1000, "{usual} of 3000 have another verdict with the kinds of their owners");
    assert!(one > 700, "{one} of 3000 have another verdict with one kind for all");
}
