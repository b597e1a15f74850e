//! Both editions of a log: values of 16 and of 32 bits, and the converter between them.

mod searches;

use corpus::encode::{field, value_bytes};
use corpus::marked::{journal_and_index, marked_logs, patterns};
use corpus::{change_high_half, crash, encode, litmus, other_part, plain, plausible, power_on, two_kinds};
use corpus::{widened, Random, Shape};
use searches::first_impossible;
use second::log::{EVENTS_MOST, LOCATIONS_MOST};
use second::{convert, judge, judge_bytes, read, record, replay_bytes, verdict_file, CONVERT_LEAST};
use second::{Edition, Event, Home, Log, Operation, Refusal, Replayed};

/// The first values that edition 1 has no bytes for, and the last.
const LARGE: [u32; 5] = [0x1_0000, 0x1_0001, 0x100_0000, 0x8000_0000, u32::MAX];

fn number(bytes: &[u8]) -> u8 {
    read(bytes).map_or_else(|refusal| refusal.0, |_| 0)
}

/// A head of two persistent machines and one location of machine 2, then what is given.
fn log_of(edition: Edition, fields: &[(u8, &[u8])]) -> Vec<u8> {
    let head = [field(edition.tag(), &[2, 3]), field(2, &[2])].concat();
    fields.iter().fold(head, |bytes, (tag, payload)| [bytes, field(*tag, payload)].concat())
}

fn event(operation: Operation, value: u32, written: u32) -> Event {
    Event { operation, machine: 1, location: 0, value, written }
}

/// Three volatile machines, and a location of machine 2, in a log of edition 2.
fn wide(initial: u32, events: &[Event]) -> Log {
    let (edition, homes) = (Edition::Second, vec![plain(0, 2, initial)]);
    Log { edition, machines: 3, persistent: 0, homes, events: events.to_vec() }
}

/// The log in the other edition, or the refusal. The output is as long as it must be, and what was not written stays.
fn converted(bytes: &[u8]) -> Result<Vec<u8>, Refusal> {
    let before: Vec<u8> = (0..CONVERT_LEAST).map(|at| at as u8 ^ 0x5a).collect();
    let mut out = before.clone();
    let answer = convert(bytes, &mut out);
    let length = answer.unwrap_or(0);
    assert_eq!(out[length..], before[length..]);
    answer.map(|length| out[..length].to_vec())
}

fn in_edition(edition: Edition, log: &Log) -> Log {
    Log { edition, ..log.clone() }
}

#[test]
fn the_first_tag_tells() {
    for tag in 0..=255 {
        let edition = Edition::ALL.into_iter().find(|edition| edition.tag() == tag);
        let log = [field(tag, &[2, 3]), field(4, &[])].concat();
        let expected = edition.ok_or(Refusal::UNEXPECTED_TAG);
        assert_eq!(read(&log).map(|log| log.edition), expected, "{tag:#x}");
    }
    assert_eq!(Edition::ALL.map(Edition::tag), [1, 6]);
    assert_eq!(Edition::ALL.map(Edition::width), [2, 4]);
    assert_eq!(Edition::ALL.map(Edition::other), [Edition::Second, Edition::First]);
    // It is asked as that of edition 1 is.
    for (bytes, expected) in [
        (&[6, 2][..], 2),
        (&[6, 1, 0, 2], 4),
        (&[6, 0xff, 0xff], 4),
        (&[6, 2, 0, 2], 2),
        (&[6, 2, 0, 0, 0], 5),
        (&[6, 2, 0, 7, 0], 5),
        (&[6, 2, 0, 2, 4], 5),
        (&[6, 2, 0, 2, 3], 2),
    ] {
        assert_eq!(number(bytes), expected, "{bytes:?}");
    }
}

#[test]
fn one_head_alone() {
    for edition in Edition::ALL {
        let crash = [&[7, 1, 0][..], &[0; 4][..edition.width()]].concat();
        for head in Edition::ALL.map(|edition| field(edition.tag(), &[2, 3])) {
            for before in [log_of(edition, &[]), log_of(edition, &[(3, &crash)]), field(edition.tag(), &[2, 3])] {
                assert_eq!(number(&[before, head.clone(), field(4, &[])].concat()), 3, "{edition:?} {head:?}");
            }
            assert_eq!(number(&[log_of(edition, &[(4, &[])]), head].concat()), 12);
        }
    }
}

/// Of the lengths of each field the width leaves one, or four.
#[test]
fn lengths_over_the_width() {
    for edition in Edition::ALL {
        let b = edition.width();
        for length in 0..20 {
            let zeros = vec![0; length];
            let right = |lengths: &[usize], right: u8| if lengths.contains(&length) { right } else { 4 };
            let after = |tag| number(&log_of(edition, &[(tag, &zeros)]));
            assert_eq!(after(2), right(&[1, 2, 1 + b, 2 + b], 6), "{edition:?} {length}");
            assert_eq!(after(3), right(&[3 + b], 8), "{edition:?} {length}");
            assert_eq!(after(5), right(&[3 + 2 * b], 8), "{edition:?} {length}");
            assert_eq!(after(4), right(&[0], 0), "{edition:?} {length}");
            assert_eq!(number(&field(edition.tag(), &zeros)), right(&[2], 5), "{edition:?} {length}");
            // The high byte of a length counts.
            let long = [log_of(edition, &[]), vec![3, length as u8, 1], vec![0; 300]].concat();
            assert_eq!(number(&long), 4);
        }
    }
}

#[test]
fn contents_from_left_to_right() {
    for (payload, expected) in [
        (&[2, 0, 0, 0, 0][..], 14),
        (&[2, 1, 0, 0, 0], 0),
        (&[2, 0, 1, 0, 0], 0),
        (&[2, 0, 0, 1, 0], 0),
        (&[2, 0, 0, 0, 1], 0),
        (&[3, 0, 0, 0, 0], 6),
        // Both machines are persistent, so the kind is 1; it comes after the value.
        (&[2, 1], 0),
        (&[2, 2], 16),
        (&[2, 0, 0, 1, 0, 1], 0),
        (&[2, 1, 0, 0, 0, 2], 16),
        (&[2, 0, 0, 0, 0, 2], 14),
        (&[0, 0, 0, 0, 0, 2], 6),
    ] {
        let log = [field(6, &[2, 3]), field(2, payload), field(4, &[])].concat();
        assert_eq!(number(&log), expected, "{payload:?}");
    }
    // Each byte of a value that is not used is asked, after the location, or after the set.
    for (operation, machine, location, wrong, number_of_wrong) in
        [(5, 1, 0, 1, 10), (6, 2, 0, 1, 10), (7, 2, 0, 1, 11), (11, 0, 3, 4, 15)]
    {
        let with = |location, value: [u8; 4]| {
            let payload = [&[operation, machine, location], &value[..]].concat();
            number(&log_of(Edition::Second, &[(3, &payload), (4, &[])]))
        };
        assert_eq!(with(location, [0; 4]), 0);
        for byte in 0..4 {
            let mut value = [0; 4];
            value[byte] = 1;
            assert_eq!(with(location, value), 11, "{operation}, byte {byte}");
            assert_eq!(with(wrong, value), number_of_wrong, "{operation}, byte {byte}");
        }
    }
    for (payload, expected) in [
        ([8, 1, 0, 255, 255, 255, 255, 255, 255, 255, 255], 0),
        ([7, 0, 9, 0, 0, 0, 0, 0, 0, 0, 0], 8),
        ([11, 0, 3, 0, 0, 0, 0, 0, 0, 0, 0], 8),
        ([9, 3, 1, 0, 0, 0, 0, 0, 0, 0, 0], 9),
        ([10, 1, 1, 0, 0, 0, 0, 0, 0, 0, 0], 10),
    ] {
        assert_eq!(number(&log_of(Edition::Second, &[(5, &payload), (4, &[])])), expected, "{payload:?}");
    }
}

#[test]
fn truncated() {
    let events = [event(Operation::LStore, 0x1_0000, 0), event(Operation::LRmw, 0x1_0000, u32::MAX)];
    let bytes = encode(&wide(7, &events));
    assert_eq!(number(&bytes), 0);
    for end in 0..bytes.len() {
        assert_eq!(number(&bytes[..end]), 2, "cut at {end}");
        assert_eq!(converted(&bytes[..end]), Err(Refusal::TRUNCATED));
    }
}

/// A log with this value everywhere that one stands: initial, stored, read, written. Its bytes are spelled out.
fn everywhere(edition: Edition, value: u32) -> Vec<u8> {
    let v = value_bytes(edition, value);
    let home = [&[2][..], &v].concat();
    let other_kind = [&[1][..], &v, &[1]].concat();
    let mut bytes = [field(edition.tag(), &[2, 3]), field(2, &home), field(2, &other_kind)].concat();
    for operation in 1..=4 {
        bytes.extend(field(3, &[&[operation, 1, 0][..], &v].concat()));
    }
    for operation in 8..=10 {
        bytes.extend(field(5, &[&[operation, 1, 0][..], &v, &v].concat()));
    }
    [bytes, field(4, &[])].concat()
}

#[test]
fn the_low_byte_comes_first() {
    assert_eq!(value_bytes(Edition::Second, 0x0403_0201), [1, 2, 3, 4]);
    for edition in Edition::ALL {
        for value in [1, 255, 256, 0xffff].into_iter().chain(LARGE) {
            if edition == Edition::First && value > 0xffff {
                continue;
            }
            let bytes = everywhere(edition, value);
            let log = read(&bytes).unwrap();
            assert_eq!(log.homes, [plain(3, 2, value), other_part(3, 1, value)]);
            assert!(log.events.iter().all(|event| event.value == value));
            assert!(log.events[4..].iter().all(|event| event.written == value));
            assert_eq!(encode(&log), bytes);
            assert_eq!(first_impossible(&log), None);
        }
    }
}

/// 5 bytes of the head, 32 locations with value and kind, 128 read-modify-writes, 3 bytes of the end.
#[test]
fn the_longest_logs() {
    for (edition, most) in [(Edition::First, 1512), (Edition::Second, 2088)] {
        let homes = vec![other_part(0, 6, 1); LOCATIONS_MOST];
        let events = vec![event(Operation::LRmw, 1, 1); EVENTS_MOST];
        let log = Log { edition, machines: 6, persistent: 0, homes, events };
        let (bytes, b) = (encode(&log), edition.width());
        assert_eq!(bytes.len(), 5 + LOCATIONS_MOST * (3 + 1 + b + 1) + EVENTS_MOST * (3 + 3 + 2 * b) + 3);
        assert_eq!((number(&bytes), bytes.len()), (0, most));
        assert_eq!(converted(&bytes), Ok(encode(&in_edition(edition.other(), &log))));
        let more = Log { homes: vec![log.homes[0]; LOCATIONS_MOST + 1], ..log.clone() };
        assert_eq!(number(&encode(&more)), 7);
        for tag in [3, 5] {
            // The count comes before the length.
            assert_eq!(number(&[&bytes[..most - 3], &[tag, 0, 0]].concat()), 7);
        }
    }
}

#[test]
fn the_recorder_keeps_to_the_edition() {
    for edition in Edition::ALL {
        let mut buffer = vec![0xaa; 64];
        assert_eq!(record(&mut buffer, 0, edition.tag(), &[2, 3]), Ok(5));
        assert_eq!(buffer[..6], [edition.tag(), 2, 0, 2, 3, 0xaa]);
        for head in Edition::ALL {
            assert_eq!(record(&mut buffer, 5, head.tag(), &[2, 3]), Err(Refusal::UNEXPECTED_TAG));
        }
        let value = |edition: Edition| vec![0xff; edition.width()];
        let home = |edition| [vec![2], value(edition), vec![1]].concat();
        let store = |edition| [vec![1, 1, 0], value(edition)].concat();
        let rmw = |edition| [vec![8, 1, 0], value(edition), value(edition)].concat();
        let fields: [(u8, &dyn Fn(Edition) -> Vec<u8>); 3] = [(2, &home), (3, &store), (5, &rmw)];
        let mut used = 5;
        for (tag, payload) in fields {
            assert_eq!(record(&mut buffer, used, tag, &payload(edition.other())), Err(Refusal::WRONG_LENGTH));
            let bytes = field(tag, &payload(edition));
            let end = used + bytes.len();
            assert_eq!(record(&mut buffer[..end - 1], used, tag, &bytes[3..]), Err(Refusal::BUFFER_TOO_SHORT));
            assert_eq!(record(&mut buffer, used, tag, &bytes[3..]), Ok(end));
            assert_eq!((&buffer[used..end], buffer[end]), (&bytes[..], 0xaa));
            used = end;
        }
        assert_eq!(record(&mut buffer, used, 4, &[]), Ok(used + 3));
        let log = read(&buffer[..used + 3]).unwrap();
        let largest = [0xffff, u32::MAX][edition as usize];
        assert_eq!((log.edition, log.homes[0].initial, log.events[1].written), (edition, largest, largest));
    }
}

/// One log, byte by byte.
#[test]
fn an_example_in_both_editions() {
    let first = [
        &[1, 2, 0, 2, 1][..],
        &[2, 1, 0, 1],
        &[2, 2, 0, 2, 2],
        &[2, 3, 0, 1, 0xff, 0xff],
        &[2, 4, 0, 2, 1, 2, 2],
        &[3, 5, 0, 1, 1, 0, 3, 4],
        &[3, 5, 0, 11, 0, 3, 0, 0],
        &[5, 7, 0, 9, 2, 2, 0xff, 0xff, 5, 6],
        &[4, 0, 0],
    ];
    let second = [
        &[6, 2, 0, 2, 1][..],
        &[2, 1, 0, 1],
        &[2, 2, 0, 2, 2],
        &[2, 5, 0, 1, 0xff, 0xff, 0, 0],
        &[2, 6, 0, 2, 1, 2, 0, 0, 2],
        &[3, 7, 0, 1, 1, 0, 3, 4, 0, 0],
        &[3, 7, 0, 11, 0, 3, 0, 0, 0, 0],
        &[5, 11, 0, 9, 2, 2, 0xff, 0xff, 0, 0, 5, 6, 0, 0],
        &[4, 0, 0],
    ];
    assert_eq!(converted(&first.concat()), Ok(second.concat()));
    assert_eq!(converted(&second.concat()), Ok(first.concat()));
}

/// A short output comes before all else: before the log's refusals, and before a value that is too large.
#[test]
fn the_output_comes_first() {
    let wide = everywhere(Edition::Second, u32::MAX);
    for log in [&[][..], &[9, 9, 9], &everywhere(Edition::First, 1), &wide] {
        for length in [0, 1, 2088, CONVERT_LEAST - 1] {
            let mut out = vec![0x5a; length];
            assert_eq!(convert(log, &mut out), Err(Refusal::BUFFER_TOO_SHORT));
            assert!(out.iter().all(|&byte| byte == 0x5a));
        }
    }
    let log = everywhere(Edition::First, 1);
    for more in [0, 1, 1000] {
        let mut out = vec![0x5a; CONVERT_LEAST + more];
        let length = convert(&log, &mut out).unwrap();
        assert!(length > log.len() && out[length..].iter().all(|&byte| byte == 0x5a));
    }
}

/// Every place where a value stands is asked, and no other.
#[test]
fn too_large_in_each_place() {
    let bytes = everywhere(Edition::Second, 1);
    let log = read(&bytes).unwrap();
    let mut places: Vec<Box<dyn Fn(&mut Log, u32)>> = Vec::new();
    for x in 0..log.homes.len() {
        places.push(Box::new(move |log, value| log.homes[x].initial = value));
    }
    for e in 0..log.events.len() {
        places.push(Box::new(move |log, value| log.events[e].value = value));
        if log.events[e].operation.is_rmw() {
            places.push(Box::new(move |log, value| log.events[e].written = value));
        }
    }
    assert_eq!(places.len(), 12);
    for place in places {
        let with = |value| {
            let mut log = log.clone();
            place(&mut log, value);
            log
        };
        for value in [1, 255, 256, 0xfffe, 0xffff] {
            let log = with(value);
            assert_eq!(converted(&encode(&log)), Ok(encode(&in_edition(Edition::First, &log))), "{value}");
        }
        for value in LARGE {
            let log = encode(&with(value));
            assert_eq!(converted(&log), Err(Refusal::VALUE_TOO_LARGE), "{value}");
            // After the log is accepted: what is wrong behind the value comes before.
            assert_eq!(converted(&log[..log.len() - 3]), Err(Refusal::TRUNCATED));
            assert_eq!(converted(&[&log[..], &[0]].concat()), Err(Refusal::TRAILING_BYTES));
            let bad = [&log[..log.len() - 3], &field(3, &[1, 3, 0, 0, 0, 0, 0])].concat();
            assert_eq!(converted(&bad), Err(Refusal::NO_SUCH_MACHINE));
        }
    }
    // No reader, recorder, replay or judge gives it.
    let large = everywhere(Edition::Second, u32::MAX);
    let file = verdict_file::write(&judge_bytes(&large).unwrap());
    assert_eq!(replay_bytes(&large, &file), Ok(Replayed::Yes));
}

/// Logs of all sorts, as they are and in edition 2.
fn logs(seed: u64, count: usize) -> impl Iterator<Item = Log> {
    let mut random = Random::new(seed);
    let any = move |round: usize| {
        let mut shape = Shape::random(&mut random);
        shape.events = shape.events.min(20);
        let log = match round % 4 {
            0 => plausible(&mut random, &shape),
            1 => litmus(&mut random),
            2 => power_on(&mut random),
            _ => two_kinds(&mut random),
        };
        match random.below(3) {
            0 => log,
            1 => widened(&mut random, &log),
            _ => {
                let wide = widened(&mut random, &log);
                change_high_half(&mut random, &wide)
            }
        }
    };
    (0..count).map(any)
}

fn largest(log: &Log) -> u32 {
    let initial = log.homes.iter().map(|home| home.initial);
    let events = log.events.iter().map(|event| event.value.max(event.written));
    initial.chain(events).max().unwrap_or(0)
}

#[test]
fn there_and_back_with_the_same_verdict() {
    let mut refused = 0;
    for log in logs(41, 6000) {
        let bytes = encode(&log);
        if largest(&log) > 0xffff {
            assert_eq!(converted(&bytes), Err(Refusal::VALUE_TOO_LARGE), "{log:?}");
            refused += 1;
            continue;
        }
        let other = in_edition(log.edition.other(), &log);
        let there = converted(&bytes).unwrap();
        assert_eq!((&there, read(&there).as_ref()), (&encode(&other), Ok(&other)));
        assert_eq!(converted(&there), Ok(bytes.clone()));
        assert_eq!(judge_bytes(&there), judge_bytes(&bytes));
    }
    assert!((1500..4500).contains(&refused), "{refused} of 6000 refused");
}

/// Equal records are equal bytes within an edition: whatever is accepted is what the encoder writes.
#[test]
fn one_form_in_each_edition() {
    let mut random = Random::new(42);
    let mut accepted = [0; 2];
    for log in logs(43, 20_000) {
        let mut bytes = encode(&log);
        let at = random.below(bytes.len());
        bytes[at] ^= 1 << random.below(8);
        if let Ok(records) = read(&bytes) {
            assert_eq!(encode(&records), bytes);
            accepted[records.edition as usize] += 1;
        }
    }
    assert!(accepted.into_iter().all(|count| count > 500), "{accepted:?} accepted");
}

/// Values that differ in one bit, of the high half too, are not taken for each other, wherever they stand.
#[test]
fn high_halves_are_told_apart() {
    use Operation::{LRmw, LStore, Load, MRmw, MStore, RRmw, RStore};
    for (stored, loaded) in [(0x1_0000, 0), (0, 0x1_0000), (0x1_0001, 1), (1, 0x1_0001), (u32::MAX, 0x7fff_ffff)] {
        for store in [LStore, RStore, MStore] {
            let stores = event(store, stored, 0);
            assert_eq!(first_impossible(&wide(0, &[stores, event(Load, stored, 0)])), None);
            assert_eq!(first_impossible(&wide(9, &[stores, event(Load, loaded, 0)])), Some(2));
            for rmw in [LRmw, RRmw, MRmw] {
                assert_eq!(first_impossible(&wide(9, &[stores, event(rmw, loaded, 9)])), Some(2));
                let written = [stores, event(rmw, stored, loaded)];
                let read = |value| wide(9, &[&written[..], &[event(Load, value, 0)]].concat());
                assert_eq!((first_impossible(&read(loaded)), first_impossible(&read(stored))), (None, Some(3)));
            }
        }
        // An initial value is read at first, and again after a crash of the volatile owner.
        let start = wide(stored, &[event(Load, loaded, 0)]);
        assert_eq!(first_impossible(&start), Some(1));
        let crashed = |value| wide(stored, &[event(MStore, loaded, 0), crash(2), event(Load, value, 0)]);
        assert_eq!((first_impossible(&crashed(stored)), first_impossible(&crashed(loaded))), (None, Some(3)));
    }
}

/// The marked logs in edition 2, as they are and with values spread over 32 bits.
#[test]
fn the_marked_logs() {
    let mut random = Random::new(44);
    for marked in marked_logs().into_iter().chain(patterns()).chain(journal_and_index()) {
        let plain = in_edition(Edition::Second, &marked.log);
        assert_eq!(first_impossible(&plain), marked.impossible, "{}", marked.name);
        assert_eq!(judge(&plain), judge(&marked.log));
        for _ in 0..20 {
            let wide = widened(&mut random, &marked.log);
            assert_eq!(first_impossible(&wide), marked.impossible, "{}: {wide:?}", marked.name);
        }
    }
}

/// What the comparison's logs of edition 2 are made by: the first keeps the verdict, the second does not.
#[test]
fn logs_are_widened() {
    let mut random = Random::new(45);
    let (mut large, mut other) = (0, 0);
    for _ in 0..2000 {
        let log = litmus(&mut random);
        let wide = widened(&mut random, &log);
        assert_eq!(judge(&wide), judge(&log));
        large += usize::from(largest(&wide) > 0xffff);
        let changed = change_high_half(&mut random, &wide);
        let low = |home: &Home| home.initial & 0xffff;
        assert!(changed.homes.iter().map(low).eq(wide.homes.iter().map(low)));
        other += usize::from(judge(&changed) != judge(&wide));
    }
    assert!(large > 1000, "{large} of 2000 with values over 65535");
    assert!(other > 500, "{other} of 2000 have another verdict");
}
