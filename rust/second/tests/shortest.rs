//! The shortest schedule: the fewest silent steps of any run, and of these the one whose numbers, in file order, are
//! smallest at the first difference.

use corpus::marked::{apart_and_together, journal_and_index, marked_logs, patterns, Marked};
use corpus::{change_one_load, crash, litmus, narrow, plain, plausible, power_loss, power_on, random_log, set_crash};
use corpus::{hard, shared, some_operations, two_kinds, widened, Random, Shape};
use second::{judge, judge_by_costs, whole, Event, Log, Operation, Operation::*, Step, Verdict};

/// The numbers of the steps of an allowed log, by both searches of one location at a time and by the one over the whole
/// system.
fn schedule(log: &Log) -> Option<Vec<(u8, u8, u8)>> {
    let verdict = judge(log);
    assert_eq!(verdict, judge_by_costs(log), "{log:?}");
    let schedule = match verdict {
        Verdict::Allowed(steps) => Some(steps),
        Verdict::Impossible(_) => None,
    };
    assert_eq!(schedule, whole::shortest(log), "{log:?}");
    let numbers = |step: Step| (step.before, step.location, step.machine);
    schedule.map(|steps| steps.into_iter().map(numbers).collect())
}

/// Three persistent machines, and locations by owner.
fn log(owners: &[u8], events: &[Event]) -> Log {
    let homes = owners.iter().map(|&owner| plain(0b111, owner, 0)).collect();
    Log { machines: 3, persistent: 0b111, homes, events: events.to_vec(), ..Log::default() }
}

/// An event on L0.
fn at(operation: Operation, machine: u8, value: u32) -> Event {
    Event { operation, machine, location: 0, value, written: 0 }
}

/// The same on L1.
fn on_1(event: Event) -> Event {
    Event { location: 1, ..event }
}

fn small(random: &mut Random) -> Shape {
    let locations = random.between(1, 3);
    Shape {
        machines: random.between(1, 4),
        locations,
        events: random.below(if locations == 1 { 13 } else { 9 }),
        crashes: *random.pick(&[0, 20, 40]),
        set_crashes: 40,
        patterns: 50,
        kinds: 40,
        values: 3,
        operations: some_operations(random, 40),
    }
}

/// A small log of any kind, in either edition.
fn some_log(random: &mut Random) -> Log {
    let shape = small(random);
    let log = match random.below(14) {
        0 => litmus(random),
        1 => power_loss(random),
        2 => power_on(random),
        3 => two_kinds(random),
        4 => random_log(random, &shape),
        5 | 6 => shared(random),
        7 => {
            let log = plausible(random, &shape);
            change_one_load(random, &log, shape.values)
        }
        8 => plausible(random, &shape),
        _ => {
            let choices = random.between(4, 12);
            narrow(random, &shape, choices)
        }
    };
    if random.percent(30) {
        widened(random, &log)
    } else {
        log
    }
}

#[test]
fn one_location_at_a_time_is_the_whole_system() {
    let mut random = Random::new(31);
    let mut counts = [0; 4];
    for _ in 0..10_000 {
        if let Some(steps) = schedule(&some_log(&mut random)) {
            counts[steps.len().min(3)] += 1;
        }
    }
    assert!(counts.iter().all(|&count| count > 100), "{counts:?} of 10000 have 0, 1, 2 and more steps");
}

#[test]
fn the_marked_logs() {
    let mut steps = Vec::new();
    for Marked { name, log, impossible } in marked_logs() {
        let schedule = schedule(&log);
        assert_eq!(schedule.is_none(), impossible.is_some(), "{name}");
        steps.extend(schedule);
    }
    // The allowed ones are 1, 4, 8, 10 and 14.
    assert_eq!(steps, [vec![], vec![(1, 0, 1)], vec![], vec![], vec![(1, 0, 1)]]);
    let [apart, together] = apart_and_together().map(|marked| schedule(&marked.log));
    assert_eq!((apart, together), (Some(vec![(2, 0, 2)]), None));
    for Marked { name, log, impossible } in patterns().into_iter().chain(journal_and_index()) {
        assert_eq!(schedule(&log), impossible.is_none().then(Vec::new), "{name}");
    }
}

#[test]
fn a_step_stands_as_early_as_it_can() {
    let (store, flush) = (at(LStore, 1, 5), at(LFlush, 1, 0));
    let other = [on_1(at(LStore, 1, 7)), on_1(at(Load, 2, 7))];
    let after = |between: &[Event]| schedule(&log(&[2, 3], &[&[store], between, &[flush, at(Load, 3, 5)]].concat()));
    assert_eq!(after(&[]), Some(vec![(1, 0, 1)]));
    // Neither events of another location nor a crash of a machine that holds nothing keeps it.
    assert_eq!(after(&other), Some(vec![(1, 0, 1)]));
    assert_eq!(after(&[crash(3)]), Some(vec![(1, 0, 1)]));
    // In the owner's cache it would be lost.
    assert_eq!(after(&[crash(2)]), Some(vec![(2, 0, 1)]));
    assert_eq!(after(&[&other[..], &[crash(2)], &other].concat()), Some(vec![(4, 0, 1)]));
}

#[test]
fn fewer_steps_come_before_smaller_numbers() {
    // One step after the load. After the store two would do: to the owner, and to memory.
    let events = [at(LStore, 2, 5), at(Load, 3, 5), at(LFlush, 3, 0)];
    assert_eq!(schedule(&log(&[1], &events)), Some(vec![(2, 0, 3)]));
    // From the owner's cache to memory it is one, and that is earlier.
    let events = [at(RStore, 2, 5), at(Load, 3, 5), at(LFlush, 3, 0)];
    assert_eq!(schedule(&log(&[1], &events)), Some(vec![(1, 0, 0)]));
}

#[test]
fn the_smallest_machine_and_the_smallest_location_come_first() {
    // Any of the two copies may move, and only between the crashes.
    let events = [at(LStore, 3, 5), at(Load, 2, 5), crash(1), set_crash(0b110), at(Load, 1, 5)];
    assert_eq!(schedule(&log(&[1], &events)), Some(vec![(3, 0, 2)]));
    // A write-back has number 0. With the value in memory a crash of all machines takes nothing.
    let events = [at(RStore, 3, 5), at(Load, 2, 5), at(LFlush, 2, 0), set_crash(0b111), at(Load, 1, 5)];
    assert_eq!(schedule(&log(&[1], &events)), Some(vec![(1, 0, 0)]));
    let store = at(LStore, 1, 5);
    let events = [on_1(store), store, crash(2), crash(1), at(Load, 3, 5), on_1(at(Load, 3, 5))];
    assert_eq!(schedule(&log(&[2, 2], &events)), Some(vec![(3, 0, 1), (3, 1, 1)]));
    // Without the first crash each stands behind its own store.
    let events = [&events[..2], &events[3..]].concat();
    assert_eq!(schedule(&log(&[2, 2], &events)), Some(vec![(1, 1, 1), (2, 0, 1)]));
}

#[test]
fn many_steps() {
    let twice = |value: u8| [(2 * value + 1, 0, 2), (2 * value + 1, 0, 0)];
    assert_eq!(schedule(&hard::flushed(63)), Some((0..63).flat_map(twice).collect()));
    let moves = |values: u8| (0..values).map(|value| (3 * value + 1, 0, 2));
    assert_eq!(schedule(&hard::moved(20, 0)), Some(moves(20).collect()));
    // What is read later goes on to memory at once.
    let read_7 = [moves(7).collect(), vec![(19, 0, 0)], moves(20).skip(7).collect()].concat();
    assert_eq!(schedule(&hard::moved(20, 7)), Some(read_7));
    assert_eq!(schedule(&hard::overwritten(126, 1)), Some(vec![(1, 0, 2), (1, 0, 0)]));
    assert_eq!(schedule(&hard::overwritten(126, 126)), Some(vec![(126, 0, 2)]));
    assert_eq!(schedule(&hard::never_written(20)), Some((1..=20).map(|load| (2 * load, 0, 2)).collect()));
}

/// Large logs too: simulated, with one load changed, and such that few runs explain them.
#[test]
fn costs_lead_the_same_way() {
    let mut random = Random::new(41);
    let (mut schedules, mut steps) = (0, 0);
    for round in 0..600 {
        let (locations, events) = (random.between(1, 3), random.between(1, 128));
        let shape = Shape { locations, events, ..Shape::random(&mut random) };
        let log = if round % 3 == 0 { narrow(&mut random, &shape, 3) } else { plausible(&mut random, &shape) };
        let log = if round % 3 == 1 { change_one_load(&mut random, &log, shape.values) } else { log };
        let verdict = judge(&log);
        assert_eq!(verdict, judge_by_costs(&log), "{log:?}");
        if let Verdict::Allowed(found) = verdict {
            schedules += 1;
            steps += found.len();
        }
    }
    assert!(schedules > 400 && steps > 1500, "{schedules} schedules, {steps} steps");
}

/// A step stands right behind an event that concerns its location, none behind the last event, and the edition makes no
/// difference.
#[test]
fn large_logs() {
    let mut random = Random::new(32);
    let mut count = 0;
    for _ in 0..500 {
        let shape = Shape { events: random.between(60, 128), ..Shape::random(&mut random) };
        let log = plausible(&mut random, &shape);
        let Verdict::Allowed(steps) = judge(&log) else {
            panic!("{log:?}");
        };
        for step in &steps {
            assert!(log.events[usize::from(step.before) - 1].concerns(step.location), "{step:?} of {log:?}");
            assert!(usize::from(step.before) < log.events.len(), "{step:?} of {log:?}");
        }
        count += steps.len();
        assert_eq!(judge(&widened(&mut random, &log)), Verdict::Allowed(steps), "in edition 2: {log:?}");
    }
    assert!(count > 500, "{count} steps");
}
