//! The fourteen marked logs, by both searches.

use corpus::{encode, marked::marked_logs};
use second::{judge_bytes, replay, verdict_file, whole, Replayed, Verdict};

#[test]
fn both_searches_give_the_marked_verdicts() {
    let logs = marked_logs();
    assert_eq!(logs.len(), 14);
    for (case, marked) in logs.iter().enumerate() {
        let case = case + 1;
        let verdict = judge_bytes(&encode(&marked.log)).unwrap();
        match (&verdict, marked.impossible) {
            (Verdict::Allowed(steps), None) => {
                assert_eq!(replay(&marked.log, steps), Replayed::Yes, "case {case}");
            }
            (Verdict::Impossible(event), Some(marked)) => assert_eq!(*event, marked, "case {case}"),
            _ => panic!("case {case}: {verdict:?}"),
        }
        assert_eq!(whole::first_impossible(&marked.log), marked.impossible, "case {case}");
    }
}

#[test]
fn case_4_with_two_machines_has_the_printed_schedule() {
    let bytes = [
        0x01, 0x02, 0x00, 0x02, 0x03, 0x02, 0x01, 0x00, 0x02, 0x03, 0x05, 0x00, 0x01, 0x01, 0x00, 0x01, 0x00, 0x03,
        0x05, 0x00, 0x05, 0x01, 0x00, 0x00, 0x00, 0x03, 0x05, 0x00, 0x07, 0x02, 0x00, 0x00, 0x00, 0x03, 0x05, 0x00,
        0x04, 0x01, 0x00, 0x00, 0x00, 0x04, 0x00, 0x00,
    ];
    let verdict = judge_bytes(&bytes).unwrap();
    let file = [0x10, 2, 0, 1, 0, 0x11, 3, 0, 1, 0, 1, 0x04, 0, 0];
    assert_eq!(verdict_file::write(&verdict), file);
}

#[test]
fn no_events_need_no_steps() {
    assert_eq!(judge_bytes(&encode(&marked_logs()[9].log)), Ok(Verdict::Allowed(vec![])));
}

#[test]
fn schedules_are_counted() {
    let count = |case: usize| whole::count_schedules(&marked_logs()[case - 1].log, 100);
    // Case 4: the copy must move before the flush. Case 10: nothing can happen.
    assert_eq!([4, 10, 5].map(count), [1, 1, 0]);
    // Case 14: the copy moves before the crash, and is written back before the crash, before the load, after it, or
    // never.
    assert_eq!(count(14), 4);
}
