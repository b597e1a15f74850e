//! The searches of one location at a time against the search over the whole system, and against simulation.

mod searches;

use corpus::{change_one_load, litmus, plausible, random_log, some_operations, Random, Shape};
use searches::{first_impossible, judged};
use second::Log;

fn small(random: &mut Random) -> Shape {
    Shape {
        machines: random.between(1, 3),
        locations: random.between(1, 2),
        events: random.below(9),
        crashes: 25,
        set_crashes: 40,
        patterns: 50,
        kinds: 40,
        values: 3,
        operations: some_operations(random, 50),
    }
}

#[test]
fn one_location_at_a_time_is_the_whole_system() {
    let mut random = Random::new(1);
    let mut impossible = 0;
    for _ in 0..3000 {
        let shape = small(&mut random);
        let log = random_log(&mut random, &shape);
        let first = first_impossible(&log);
        impossible += usize::from(first.is_some());
    }
    assert!((600..2400).contains(&impossible), "{impossible} of 3000 impossible");
}

#[test]
fn simulated_logs_are_allowed_and_changed_ones_agree() {
    let mut random = Random::new(2);
    for _ in 0..1500 {
        let shape = small(&mut random);
        let log = plausible(&mut random, &shape);
        assert_eq!(first_impossible(&log), None, "{log:?}");
        let changed = change_one_load(&mut random, &log, shape.values);
        first_impossible(&changed);
    }
}

#[test]
fn logs_like_litmus_tests_agree() {
    let mut random = Random::new(5);
    let mut impossible = 0;
    for _ in 0..1500 {
        let log = litmus(&mut random);
        let first = first_impossible(&log);
        impossible += usize::from(first.is_some());
    }
    assert!((200..1300).contains(&impossible), "{impossible} of 1500 impossible");
}

#[test]
fn large_simulated_logs_are_allowed() {
    let mut random = Random::new(3);
    for _ in 0..300 {
        let shape = Shape::random(&mut random);
        let log = plausible(&mut random, &shape);
        assert_eq!(judged(&log), None, "{log:?}");
    }
}

/// An event is impossible only together with those before it: every shorter log is allowed, every longer one names the
/// same event.
#[test]
fn the_first_impossible_event_is_the_first() {
    let mut random = Random::new(4);
    for _ in 0..500 {
        let shape = Shape { events: random.between(1, 40), ..Shape::random(&mut random) };
        let log = random_log(&mut random, &shape);
        let Some(event) = judged(&log) else {
            continue;
        };
        let first = |events: usize| judged(&Log { events: log.events[..events].to_vec(), ..log.clone() });
        assert_eq!(first(usize::from(event) - 1), None);
        assert_eq!(first(usize::from(event)), Some(event));
    }
}
