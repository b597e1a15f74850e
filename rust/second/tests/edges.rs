//! Refusals in their order, and what stands at the limits.

use corpus::encode::field;
use corpus::{encode, other_part, plain, set_crash};
use second::{judge_bytes, judge_into, read, record, replay_bytes};
use second::{Event, Log, Operation, Refusal, Replayed, Step, Verdict, FILE_MOST, SCRATCH_LEAST};

/// A head of two persistent machines and one location of machine 2, then what is given.
fn log_of(fields: &[(u8, &[u8])]) -> Vec<u8> {
    let head = [field(1, &[2, 3]), field(2, &[2])].concat();
    fields.iter().fold(head, |bytes, (tag, payload)| [bytes, field(*tag, payload)].concat())
}

fn number(bytes: &[u8]) -> u8 {
    read(bytes).map_or_else(|refusal| refusal.0, |_| 0)
}

#[test]
fn truncated() {
    assert_eq!(number(&[]), 2);
    let log = log_of(&[(3, &[7, 1, 0, 0, 0]), (4, &[])]);
    assert_eq!(number(&log), 0);
    for end in 0..log.len() {
        assert_eq!(number(&log[..end]), 2, "cut at {end}");
    }
}

#[test]
fn tags_in_order() {
    let event: (u8, &[u8]) = (3, &[7, 1, 0, 0, 0]);
    assert_eq!(number(&field(2, &[1])), 3);
    assert_eq!(number(&field(4, &[])), 3);
    assert_eq!(number(&log_of(&[(1, &[2, 3])])), 3);
    assert_eq!(number(&log_of(&[event, (2, &[1])])), 3);
    assert_eq!(number(&log_of(&[(6, &[])])), 3);
    assert_eq!(number(&log_of(&[event, (4, &[])])), 0);
    // A read-modify-write may stand where an event may.
    let rmw: (u8, &[u8]) = (5, &[8, 1, 0, 0, 0, 1, 0]);
    assert_eq!(number(&field(5, rmw.1)), 3);
    assert_eq!(number(&log_of(&[rmw, (2, &[1])])), 3);
    assert_eq!(number(&log_of(&[event, rmw, event, rmw, (4, &[])])), 0);
    // The tag comes before the length, and the length before a payload that is not whole.
    assert_eq!(number(&[2, 0xff, 0xff]), 3);
    assert_eq!(number(&[1, 0xff, 0xff]), 4);
    assert_eq!(number(&[1, 2, 0, 9]), 2);
    assert_eq!(number(&[5, 0xff, 0xff]), 3);
    assert_eq!(number(&log_of(&[(5, &[8, 1, 0, 0, 0])])), 4);
    assert_eq!(number(&log_of(&[(3, &[1, 1, 0, 0, 0, 0, 0])])), 4);
    assert_eq!(number(&[log_of(&[]), vec![5, 7, 0, 0, 0, 0, 0, 0, 0]].concat()), 2);
}

#[test]
fn machine_counts() {
    for (machines, persistent, expected) in
        [(0, 0, 5), (1, 1, 0), (6, 63, 0), (7, 0, 5), (255, 0, 5), (1, 2, 5), (6, 64, 5)]
    {
        let log = [field(1, &[machines, persistent]), field(4, &[])].concat();
        assert_eq!(number(&log), expected, "{machines} machines, {persistent:#b}");
    }
}

#[test]
fn contents_of_events_from_left_to_right() {
    for (payload, expected) in [
        ([0, 1, 0, 0, 0], 8),
        ([8, 0, 9, 1, 1], 8),
        ([9, 1, 0, 0, 0], 8),
        ([10, 1, 0, 0, 0], 8),
        ([12, 1, 0, 0, 0], 8),
        ([12, 0, 3, 0, 0], 8),
        ([255, 0, 3, 0, 0], 8),
        ([7, 1, 0, 0, 0], 0),
        ([7, 0, 1, 1, 1], 9),
        ([7, 3, 1, 1, 1], 9),
        ([7, 1, 1, 0, 0], 11),
        ([7, 1, 0, 0, 1], 11),
        ([1, 1, 1, 0, 0], 10),
        ([5, 1, 1, 1, 0], 10),
        ([5, 1, 0, 1, 0], 11),
        ([6, 1, 0, 0, 1], 11),
        ([4, 2, 0, 255, 255], 0),
        ([11, 0, 3, 0, 0], 0),
        // The machine byte, the set and the value, each before what stands after it. Neither 9 nor 10 is asked.
        ([11, 1, 3, 0, 0], 11),
        ([11, 1, 0, 1, 0], 11),
        ([11, 255, 255, 0, 0], 11),
        ([11, 0, 0, 0, 0], 15),
        ([11, 0, 1, 1, 0], 15),
        ([11, 0, 2, 0, 0], 15),
        ([11, 0, 4, 0, 0], 15),
        ([11, 0, 5, 0, 1], 15),
        ([11, 0, 7, 0, 0], 15),
        ([11, 0, 0x83, 0, 0], 15),
        ([11, 0, 255, 1, 0], 15),
        ([11, 0, 3, 1, 0], 11),
        ([11, 0, 3, 0, 1], 11),
    ] {
        assert_eq!(number(&log_of(&[(3, &payload), (4, &[])])), expected, "{payload:?}");
    }
    for (payload, expected) in [
        ([0, 0, 9, 0, 0, 0, 0], 8),
        ([1, 0, 9, 0, 0, 0, 0], 8),
        ([4, 1, 0, 0, 0, 0, 0], 8),
        ([7, 1, 0, 0, 0, 0, 0], 8),
        ([11, 1, 0, 0, 0, 0, 0], 8),
        ([11, 0, 3, 0, 0, 0, 0], 8),
        ([12, 1, 0, 0, 0, 0, 0], 8),
        ([255, 1, 0, 0, 0, 0, 0], 8),
        ([8, 0, 1, 0, 0, 0, 0], 9),
        ([9, 3, 1, 0, 0, 0, 0], 9),
        ([10, 1, 1, 0, 0, 0, 0], 10),
        ([8, 1, 0, 255, 255, 255, 255], 0),
        ([9, 1, 0, 0, 0, 0, 0], 0),
        ([10, 2, 0, 1, 0, 0, 1], 0),
    ] {
        assert_eq!(number(&log_of(&[(5, &payload), (4, &[])])), expected, "{payload:?}");
    }
}

#[test]
fn contents_of_locations_from_left_to_right() {
    for (payload, expected) in [
        (&[1][..], 0),
        (&[0], 6),
        (&[3], 6),
        (&[1, 1, 0], 0),
        (&[2, 0, 1], 0),
        (&[2, 255, 255], 0),
        // The owner is asked before the initial value.
        (&[0, 1, 0], 6),
        (&[3, 0, 0], 6),
        (&[255, 0, 0], 6),
        (&[1, 0, 0], 14),
        (&[2, 0, 0], 14),
        // Both machines are persistent, so the kind is 1.
        (&[1, 1], 0),
        (&[2, 1], 0),
        (&[1, 7, 0, 1], 0),
        (&[2, 0, 1, 1], 0),
        (&[1, 0], 16),
        (&[2, 2], 16),
        (&[2, 3], 16),
        (&[1, 255], 16),
        (&[1, 7, 0, 0], 16),
        (&[2, 0, 1, 2], 16),
        (&[2, 255, 255, 129], 16),
        // It is asked last, after the owner and after the initial value.
        (&[0, 1], 6),
        (&[3, 2], 6),
        (&[0, 0, 0, 2], 6),
        (&[3, 7, 0, 1], 6),
        (&[1, 0, 0, 1], 14),
        (&[2, 0, 0, 0], 14),
        // The length is asked before all three.
        (&[], 4),
        (&[0, 0, 0, 0, 0], 4),
        (&[1, 7, 0, 1, 0], 4),
        (&[1, 7, 0, 1, 7, 0, 1], 4),
    ] {
        let log = [field(1, &[2, 3]), field(2, payload), field(4, &[])].concat();
        assert_eq!(number(&log), expected, "{payload:?}");
        // So it is of every location.
        assert_eq!(number(&log_of(&[(2, &[1, 7, 0]), (2, payload), (4, &[])])), expected, "{payload:?}");
    }
    // A payload that is not whole comes before its contents, and after its length.
    for (cut, expected) in [
        (&[2, 3, 0][..], 2),
        (&[2, 3, 0, 0], 2),
        (&[2, 3, 0, 3, 0], 2),
        (&[2, 1, 0], 2),
        (&[2, 2, 0, 0], 2),
        (&[2, 4, 0, 3], 2),
        (&[2, 4, 0, 1, 0, 0], 2),
        (&[2, 0, 0, 1], 4),
        (&[2, 5, 0, 1], 4),
    ] {
        assert_eq!(number(&[log_of(&[]), cut.to_vec()].concat()), expected, "{cut:?}");
    }
    // The high byte of the length counts.
    assert_eq!(number(&[log_of(&[]), vec![2, 1, 1, 1]].concat()), 4);
    assert_eq!(number(&[log_of(&[]), vec![2, 2, 1, 1, 1]].concat()), 4);
    assert_eq!(number(&[log_of(&[]), vec![2, 3, 1, 1, 0, 0]].concat()), 4);
    assert_eq!(number(&[log_of(&[]), vec![2, 4, 1, 1, 0, 0, 0]].concat()), 4);
}

#[test]
fn nothing_after_the_end() {
    assert_eq!(number(&[log_of(&[(4, &[])]), vec![0]].concat()), 12);
    assert_eq!(number(&log_of(&[(4, &[]), (4, &[])])), 12);
    assert_eq!(number(&log_of(&[(4, &[9])])), 4);
}

fn crashes(locations: usize, events: usize) -> Log {
    let crash = Event { operation: Operation::Crash, machine: 1, location: 0, value: 0, written: 0 };
    Log {
        machines: 6,
        persistent: 0,
        homes: vec![plain(0, 6, 0); locations],
        events: vec![crash; events],
        ..Log::default()
    }
}

fn rmw(operation: Operation, value: u32, written: u32) -> Event {
    Event { operation, machine: 1, location: 0, value, written }
}

#[test]
fn counts_at_their_limits() {
    assert_eq!(number(&encode(&crashes(32, 128))), 0);
    assert_eq!(number(&encode(&crashes(33, 0))), 7);
    assert_eq!(number(&encode(&crashes(0, 129))), 7);
    // The count comes before the length.
    let full = encode(&crashes(32, 0));
    let open = &full[..full.len() - 3];
    assert_eq!(number(&[open, &[2, 0, 0]].concat()), 7);
    assert_eq!(number(&[open, &[2, 3, 0, 6, 0, 0]].concat()), 7);
    assert_eq!(number(&[open, &[2, 2, 0, 6, 0]].concat()), 7);
    let mut together = Log { events: vec![set_crash(0b111111); 128], ..crashes(32, 0) };
    assert_eq!(number(&encode(&together)), 0);
    together.events.push(set_crash(0));
    assert_eq!(number(&encode(&together)), 7);
}

/// Events and read-modify-writes are counted together.
#[test]
fn the_129th_of_both_kinds() {
    let mut longest = Log { events: vec![rmw(Operation::LRmw, 1, 1); 128], ..crashes(32, 0) };
    longest.homes.fill(other_part(0, 6, 1));
    let bytes = encode(&longest);
    assert_eq!((number(&bytes), bytes.len()), (0, 1512));
    for mut log in [longest, crashes(32, 128)] {
        // Every second one is of the other kind; then one more, of either kind.
        for event in log.events.iter_mut().step_by(2) {
            *event =
                if event.operation == Operation::Crash { rmw(Operation::MRmw, 1, 1) } else { crashes(0, 1).events[0] };
        }
        let full = encode(&log);
        assert_eq!(number(&full), 0);
        let open = &full[..full.len() - 3];
        for more in [[3, 5, 0], [5, 7, 0], [5, 0, 0]] {
            assert_eq!(number(&[open, &more].concat()), 7, "{more:?}");
        }
    }
}

#[test]
fn recorder() {
    let mut buffer = [0xaa; 16];
    assert_eq!(record(&mut buffer, 17, 9, &[]), Err(Refusal(1)));
    assert_eq!(record(&mut buffer, 0, 4, &[]), Err(Refusal(3)));
    assert_eq!(record(&mut buffer, 0, 1, &[0; 70000]), Err(Refusal(4)));
    assert_eq!(record(&mut buffer, 0, 1, &[2, 3]), Ok(5));
    assert_eq!(buffer[..6], [1, 2, 0, 2, 3, 0xaa]);
    assert_eq!(record(&mut buffer, 4, 2, &[2]), Err(Refusal(2)));
    assert_eq!(record(&mut buffer, 5, 2, &[2]), Ok(9));
    assert_eq!(record(&mut buffer, 9, 2, &[2, 7, 0, 1, 0]), Err(Refusal(4)));
    assert_eq!(record(&mut buffer, 9, 2, &[3, 0, 0]), Err(Refusal(6)));
    assert_eq!(record(&mut buffer, 9, 2, &[3, 0, 0, 0]), Err(Refusal(6)));
    assert_eq!(record(&mut buffer, 9, 2, &[2, 0, 0]), Err(Refusal(14)));
    assert_eq!(record(&mut buffer, 9, 2, &[2, 0, 0, 1]), Err(Refusal(14)));
    assert_eq!(record(&mut buffer, 9, 2, &[2, 2]), Err(Refusal(16)));
    assert_eq!(record(&mut buffer, 9, 2, &[2, 7, 0, 2]), Err(Refusal(16)));
    assert_eq!(record(&mut buffer, 9, 3, &[8, 1, 0, 0, 0]), Err(Refusal(8)));
    assert_eq!(record(&mut buffer, 9, 5, &[7, 1, 0, 0, 0, 0, 0]), Err(Refusal(8)));
    assert_eq!(record(&mut buffer, 9, 3, &[7, 1, 0, 0, 0]), Err(Refusal(1)));
    assert_eq!(record(&mut buffer, 9, 3, &[11, 0, 7, 0, 0]), Err(Refusal(15)));
    assert_eq!(record(&mut buffer, 9, 3, &[11, 0, 3, 0, 0]), Err(Refusal(1)));
    assert_eq!(record(&mut buffer, 9, 5, &[8, 1, 0, 0, 0, 1, 0]), Err(Refusal(1)));
    assert_eq!(record(&mut buffer, 9, 4, &[]), Ok(12));
    assert_eq!(record(&mut buffer, 12, 4, &[]), Err(Refusal(12)));
    assert_eq!(record(&mut buffer, 15, 4, &[]), Err(Refusal(12)));
    let mut buffer = [0xaa; 20];
    buffer[..9].copy_from_slice(&log_of(&[]));
    assert_eq!(record(&mut buffer, 9, 5, &[10, 2, 0, 1, 2, 3, 4]), Ok(19));
    assert_eq!(buffer[9..], [5, 7, 0, 10, 2, 0, 1, 2, 3, 4, 0xaa]);
    assert_eq!(record(&mut buffer, 9, 3, &[11, 0, 3, 0, 0]), Ok(17));
    assert_eq!(buffer[9..], [3, 5, 0, 11, 0, 3, 0, 0, 3, 4, 0xaa]);
    assert_eq!(record(&mut buffer, 9, 2, &[1, 0, 1]), Ok(15));
    assert_eq!(buffer[9..], [2, 3, 0, 1, 0, 1, 0, 0, 3, 4, 0xaa]);
    assert_eq!(record(&mut buffer[..14], 9, 2, &[1, 0, 1]), Err(Refusal(1)));
    assert_eq!(record(&mut buffer, 9, 2, &[2, 1]), Ok(14));
    assert_eq!(buffer[9..], [2, 2, 0, 2, 1, 1, 0, 0, 3, 4, 0xaa]);
    assert_eq!(record(&mut buffer, 14, 2, &[1, 3]), Err(Refusal(16)));
    assert_eq!(record(&mut buffer, 9, 2, &[1, 7, 2, 1]), Ok(16));
    assert_eq!(buffer[9..], [2, 4, 0, 1, 7, 2, 1, 0, 3, 4, 0xaa]);
    assert_eq!(record(&mut buffer[..15], 9, 2, &[1, 7, 2, 1]), Err(Refusal(1)));
}

#[test]
fn lent_buffers_come_first() {
    let mut out = vec![7; FILE_MOST + 2];
    let mut scratch = vec![9; SCRATCH_LEAST];
    let short = Err(Refusal::BUFFER_TOO_SHORT);
    assert_eq!(judge_into(&[], &mut out, FILE_MOST + 3, &mut scratch), short);
    assert_eq!(judge_into(&[], &mut out, 3, &mut scratch), short);
    assert_eq!(judge_into(&[], &mut out, 0, &mut scratch[1..]), short);
    assert_eq!(judge_into(&[], &mut out, 2, &mut scratch), Err(Refusal::TRUNCATED));
    assert!(out.iter().all(|&byte| byte == 7) && scratch.iter().all(|&number| number == 9));
    let judged = judge_into(&log_of(&[(4, &[])]), &mut out, 2, &mut scratch).unwrap();
    assert_eq!((judged.length, &out[..11]), (8, &[7, 7, 0x10, 2, 0, 1, 0, 4, 0, 0, 7][..]));
    assert!(scratch.iter().all(|&number| number == 0));
}

/// A schedule that hands a copy on and writes it back after each store: two steps for each of 128 stores.
fn longest(store: Event) -> (Log, Vec<Step>) {
    let log =
        Log { machines: 2, persistent: 3, homes: vec![plain(3, 2, 0)], events: vec![store; 128], ..Log::default() };
    let both = |before| [1, 0].map(|machine| Step { before, location: 0, machine });
    (log, (1..=128).flat_map(both).collect())
}

#[test]
fn steps_up_to_256() {
    up_to_256(rmw(Operation::LRmw, 0, 0));
    up_to_256(Event { operation: Operation::LStore, machine: 1, location: 0, value: 1, written: 0 });
}

fn up_to_256(store: Event) {
    let (log, mut steps) = longest(store);
    let bytes = encode(&log);
    let file = |steps: &[Step]| second::verdict_file::write(&Verdict::Allowed(steps.to_vec()));
    assert_eq!((steps.len(), log.steps_most(), file(&steps).len()), (256, 256, FILE_MOST));
    assert_eq!(replay_bytes(&bytes, &file(&steps)), Ok(Replayed::Yes));
    // One more step of the right form is refused for its number alone.
    steps.push(Step { before: 128, location: 0, machine: 1 });
    assert_eq!(replay_bytes(&bytes, &file(&steps)), Err(Refusal::BAD_SCHEDULE));
    steps.remove(0);
    assert_eq!(replay_bytes(&bytes, &file(&steps)), Ok(Replayed::No(1)));
}

#[test]
fn schedules_that_are_none() {
    let bytes = log_of(&[(3, &[1, 1, 0, 1, 0]), (3, &[7, 1, 0, 0, 0]), (4, &[])]);
    let answer = |file: &[u8]| match replay_bytes(&bytes, file) {
        Ok(Replayed::Yes) => "yes".to_string(),
        Ok(Replayed::No(passed)) => format!("no {passed}"),
        Err(refusal) => refusal.to_string(),
    };
    let steps = |steps: &[[u8; 3]]| {
        let fields = steps.iter().flat_map(|step| field(0x11, step)).collect();
        [field(0x10, &[1, 0]), fields, field(4, &[])].concat()
    };
    assert_eq!(answer(&steps(&[])), "yes");
    assert_eq!(answer(&steps(&[[1, 0, 1], [1, 0, 0]])), "yes");
    assert_eq!(answer(&steps(&[[2, 0, 1]])), "no 2");
    assert_eq!(answer(&steps(&[[0, 0, 0]])), "no 0");
    for bad in [[3, 0, 1], [1, 1, 1], [1, 0, 3], [1, 0, 2]] {
        assert_eq!(answer(&steps(&[bad])), "number 13", "{bad:?}");
    }
    assert_eq!(answer(&steps(&[[1, 0, 1], [0, 0, 0]])), "number 13");
    assert_eq!(answer(&[steps(&[]), vec![0]].concat()), "number 13");
    assert_eq!(answer(&[field(0x10, &[0, 2]), field(4, &[])].concat()), "number 13");
    assert_eq!(answer(&[field(0x10, &[1, 1]), field(4, &[])].concat()), "number 13");
    assert_eq!(answer(&[]), "number 13");
    assert_eq!(replay_bytes(&[1, 2], &steps(&[])), Err(Refusal::TRUNCATED));
    assert!(matches!(judge_bytes(&bytes), Ok(Verdict::Allowed(_))));
}
