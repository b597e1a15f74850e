//! Set crashes: several machines lose their caches, and volatile owners their memory, in one step.

mod searches;

use corpus::{crash, encode, marked::apart_and_together, plain, power_loss, random_log, set_crash, Random, Shape};
use searches::first_impossible;
use second::{judge, read, replay, Event, Log, Operation, Refusal, Replayed, Step, Verdict};

fn event(operation: Operation, machine: u8, value: u32) -> Event {
    Event { operation, machine, location: 0, value, written: 0 }
}

fn load(machine: u8, value: u32) -> Event {
    event(Operation::Load, machine, value)
}

fn log(persistent: u8, owner: u8, events: &[Event]) -> Log {
    Log { machines: 3, persistent, homes: vec![plain(persistent, owner, 0)], events: events.to_vec(), ..Log::default() }
}

#[test]
fn code_tag_and_machines() {
    assert_eq!((Operation::SetCrash.code(), Operation::SetCrash.tag()), (11, 3));
    assert_eq!(Operation::from_code(11), Some(Operation::SetCrash));
    assert_eq!((Operation::from_code(0), Operation::from_code(12)), (None, None));
    assert_eq!([set_crash(0b101), crash(2), load(1, 0)].map(|event| event.crashed()), [0b101, 0b10, 0]);
    let mut together = log(7, 1, &[set_crash(0b110)]);
    assert_eq!(encode(&together)[9..17], [3, 5, 0, 11, 0, 6, 0, 0]);
    assert_eq!(together.steps_most(), 0);
    // A set crash needs no location.
    together.homes.clear();
    assert_eq!(first_impossible(&together), None);
}

#[test]
fn which_sets_are_sets() {
    for machines in 1..=6 {
        for set in 0..=255 {
            let log = Log { machines, persistent: 0, homes: vec![], events: vec![set_crash(set)], ..Log::default() };
            let absent = (machines..8).any(|bit| set & 1 << bit != 0);
            let expected = match (0..8).filter(|bit| set & 1 << bit != 0).count() {
                0 | 1 => Err(Refusal(15)),
                _ if absent => Err(Refusal(15)),
                _ => Ok(log.clone()),
            };
            assert_eq!(read(&encode(&log)), expected, "{machines} machines, {set:#010b}");
        }
    }
}

#[test]
fn the_requests_example_both_ways() {
    for marked in apart_and_together() {
        assert_eq!(first_impossible(&marked.log), marked.impossible, "{}", marked.name);
    }
    let store = event(Operation::LStore, 2, 5);
    let (apart, together) = ([crash(1), crash(2)], [set_crash(0b11)]);
    let with = |persistent, crashes: &[Event]| log(persistent, 1, &[&[store], crashes, &[load(2, 5)]].concat());
    // Machine 1's memory alone decides.
    for others in [0b000, 0b010, 0b100, 0b110] {
        assert_eq!(first_impossible(&with(others, &apart)), None);
        assert_eq!(first_impossible(&with(others, &together)), Some(3));
        assert_eq!(first_impossible(&with(others | 1, &together)), None);
    }
    // The one schedule of the row: the copy moves to machine 1, which is up again, before machine 2 crashes.
    let between = Step { before: 2, location: 0, machine: 2 };
    assert_eq!(judge(&with(0, &apart)), Verdict::Allowed(vec![between]));
    for before in 1..=2 {
        assert_eq!(replay(&with(0, &together), &[Step { before, ..between }]), Replayed::No(2));
    }
}

/// Who loses what, for every set of three machines: of copies that all hold, and of a value in memory.
#[test]
fn the_machines_of_the_set_lose_their_copies_and_no_others() {
    for set in [0b011, 0b101, 0b110, 0b111] {
        for persistent in 0..8 {
            for owner in 1..=3 {
                let in_set = |machine: u8| set & 1 << (machine - 1) != 0;
                let forgotten = in_set(owner) && persistent & 1 << (owner - 1) == 0;
                let copies = [event(Operation::LStore, 1, 5), load(2, 5), load(3, 5), set_crash(set)];
                for machine in 1..=3 {
                    let flushed = [&copies[..], &[event(Operation::LFlush, machine, 0)]].concat();
                    let expected = if in_set(machine) { Replayed::Yes } else { Replayed::No(4) };
                    assert_eq!(replay(&log(persistent, owner, &flushed), &[]), expected);
                }
                let stored = [event(Operation::MStore, 1, 5), set_crash(set), load(2, if forgotten { 0 } else { 5 })];
                assert_eq!(first_impossible(&log(persistent, owner, &stored)), None);
                let other = [stored[0], stored[1], load(2, if forgotten { 5 } else { 0 })];
                assert_eq!(first_impossible(&log(persistent, owner, &other)), Some(3));
            }
        }
    }
}

fn small(random: &mut Random) -> Shape {
    Shape {
        machines: random.between(2, 3),
        locations: random.between(1, 2),
        events: random.between(2, 8),
        crashes: 30,
        set_crashes: 70,
        patterns: 30,
        kinds: 30,
        values: 2,
        operations: corpus::some_operations(random, 30),
    }
}

/// Small logs with a set crash or more, most of them near what silent steps decide.
fn logs(seed: u64, count: usize) -> impl Iterator<Item = Log> {
    let mut random = Random::new(seed);
    let any = std::iter::repeat_with(move || {
        let shape = small(&mut random);
        if random.percent(60) {
            power_loss(&mut random)
        } else {
            random_log(&mut random, &shape)
        }
    });
    any.filter(|log| log.events.iter().any(|event| event.operation == Operation::SetCrash)).take(count)
}

#[test]
fn one_location_at_a_time_is_the_whole_system() {
    let impossible = logs(11, 3000).filter(|log| first_impossible(log).is_some()).count();
    assert!((600..2400).contains(&impossible), "{impossible} of 3000 impossible");
}

/// All orders of the machines of a set.
fn orders(set: u8) -> Vec<Vec<u8>> {
    if set == 0 {
        return vec![vec![]];
    }
    let members = (1..=8).filter(|machine| set & 1 << (machine - 1) != 0);
    let begin = |machine: u8| {
        let rest = orders(set & !(1 << (machine - 1)));
        rest.into_iter().map(move |rest| [vec![machine], rest].concat())
    };
    members.flat_map(begin).collect()
}

/// The log with one of its set crashes replaced by single crashes in each order.
fn in_rows(log: &Log, at: usize) -> impl Iterator<Item = Log> + '_ {
    orders(log.events[at].crashed()).into_iter().map(move |order| {
        let row: Vec<Event> = order.into_iter().map(crash).collect();
        Log { events: [&log.events[..at], &row, &log.events[at + 1..]].concat(), ..log.clone() }
    })
}

/// How many events pass with some choice of silent steps.
fn passed(log: &Log) -> usize {
    match judge(log) {
        Verdict::Allowed(_) => log.events.len(),
        Verdict::Impossible(event) => usize::from(event) - 1,
    }
}

/// Whatever a log with a set crash allows, the log with single crashes in its place allows too, in every order, since
/// nothing has to move between them. That some rows allow more is the difference.
#[test]
fn single_crashes_allow_all_that_a_set_crash_allows() {
    let (mut rows, mut more) = (0, 0);
    for log in logs(12, 5000) {
        let together = passed(&log);
        for at in (0..log.events.len()).filter(|&at| log.events[at].operation == Operation::SetCrash) {
            for row in in_rows(&log, at) {
                let longer = row.events.len() - log.events.len();
                let least = if together > at { together + longer } else { together };
                let apart = passed(&row);
                assert!(apart >= least, "{log:?} {row:?}");
                rows += 1;
                more += usize::from(apart > least);
            }
        }
    }
    assert!(rows > 10_000 && more > 500, "{more} of {rows} rows allow more");
}
