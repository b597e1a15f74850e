//! What the tests ask of a log.

use corpus::encode;
use second::{judge, judge_in_layers, read, replay, whole, Log, Replayed, Verdict};

/// The first impossible event, by both searches of one location at a time. The log is read back from its bytes, and
/// both schedules of an allowed one replay and keep to the bound, the shortest with no more steps than the other.
pub fn judged(log: &Log) -> Option<u8> {
    assert_eq!(read(&encode(log)).as_ref(), Ok(log));
    match (judge(log), judge_in_layers(log)) {
        (Verdict::Allowed(shortest), Verdict::Allowed(steps)) => {
            assert_eq!(replay(log, &shortest), Replayed::Yes);
            assert_eq!(replay(log, &steps), Replayed::Yes);
            assert!(shortest.len() <= steps.len() && steps.len() <= log.steps_most());
            None
        }
        (Verdict::Impossible(event), Verdict::Impossible(same)) if event == same => Some(event),
        (shortest, layers) => panic!("{shortest:?}, in layers {layers:?}: {log:?}"),
    }
}

/// The same by the search over the whole system too.
pub fn first_impossible(log: &Log) -> Option<u8> {
    let first = judged(log);
    assert_eq!(first, whole::first_impossible(log), "{log:?}");
    first
}
