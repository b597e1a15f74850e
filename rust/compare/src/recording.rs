//! The recorder against the second one and against the encoder.

use corpus::encode::{boundaries, encode, fields};
use corpus::{near_home, near_set_crash, Random};
use second::{Edition, Log, Refusal};

use crate::report::{hex, Report};
use crate::{expected, proved};

/// Records a field or two after parts of the log, and now and then the whole log field by field.
pub fn compare(log: &[u8], records: Option<&Log>, random: &mut Random, report: &mut Report) {
    for _ in 0..2 {
        let used = used_count(log, random);
        let spare = random.below(14);
        let mut buffer = log.to_vec();
        buffer.truncate(used.max(random.below(log.len() + 1)) + spare);
        buffer.extend(random.bytes(spare));
        let used = match random.below(50) {
            0 => buffer.len() + random.between(1, 9),
            1 => usize::MAX - random.below(9),
            _ => used.min(buffer.len()),
        };
        let of_the_log = if log.first() == Some(&6) { Edition::Second } else { Edition::First };
        let edition = if random.percent(95) { of_the_log } else { of_the_log.other() };
        let (tag, payload) = some_field(random, edition);
        let _ = one(log, &mut buffer, used, tag, &payload, report);
    }
    if let Some(records) = records.filter(|_| random.percent(4)) {
        whole(log, records, random, report);
    }
}

/// Most often the end of a whole field, so that the new field is looked at.
fn used_count(log: &[u8], random: &mut Random) -> usize {
    if random.percent(20) {
        return random.below(log.len() + 1);
    }
    let ends = boundaries(log);
    // Before the end field there is more to say than after it.
    let last = ends.len() - 1;
    if random.percent(50) {
        ends[last.saturating_sub(1)]
    } else {
        *random.pick(&ends)
    }
}

/// A field that is right in an edition, or nearly so.
fn some_field(random: &mut Random, edition: Edition) -> (u8, Vec<u8>) {
    let tag = random.between(1, 6) as u8;
    let width = edition.width();
    let small = |random: &mut Random, most: usize| random.below(most + 1) as u8;
    let mut payload = match tag {
        1 | 6 => vec![small(random, 7), small(random, 63)],
        2 => {
            let (machines, persistent) = (random.between(1, 6) as u8, *random.pick(&[0, 0x3f]));
            near_home(random, edition, machines, persistent)
        }
        3 if random.percent(20) => {
            let machines = random.between(1, 6) as u8;
            near_set_crash(random, edition, machines)
        }
        3 => {
            let operation = small(random, 8);
            let unused = |random: &mut Random| random.below(30) as u8 / 29;
            let location = if operation == 7 { unused(random) } else { small(random, 3) };
            let value = |_| if operation < 5 { random.byte() } else { unused(random) };
            let value: Vec<u8> = (0..width).map(value).collect();
            [&[operation, small(random, 7), location], &value[..]].concat()
        }
        5 => {
            let named = [random.between(7, 12) as u8, small(random, 7), small(random, 3)];
            [&named[..], &random.bytes(2 * width)].concat()
        }
        _ => vec![],
    };
    match random.below(20) {
        0 => payload.push(0),
        1 => drop(payload.pop()),
        2 => return (random.byte(), payload),
        3 => payload = vec![0; *random.pick(&[65535, 65536, 65538, 65541, 65543, 65547])],
        // The tag, the length or the operations of the other kind of event.
        4 => return (8 - tag, payload),
        5 if tag == 3 || tag == 5 => payload.resize(6 + 3 * width - payload.len(), 0),
        6 if tag == 3 || tag == 5 => payload[0] = payload[0].abs_diff(11),
        _ => {}
    }
    (tag, payload)
}

/// One field on both sides; gives the second side's answer.
fn one(
    log: &[u8],
    buffer: &mut [u8],
    used: usize,
    tag: u8,
    payload: &[u8],
    report: &mut Report,
) -> Result<usize, Refusal> {
    let mut second = buffer.to_vec();
    let expected = second::record(&mut second, used, tag, payload);
    let before = payload.to_vec();
    let answer = proved::record(buffer, used, tag, payload);
    report.same("the payload itself was changed", log, payload, &before[..]);
    if answer != expected::packed(expected, expected::bytes) || buffer != second {
        let detail = format!(
            "proved {answer:#x}, second {expected:?}, used {used} of {}, tag {tag}, payload {} (the first bytes)",
            hex(buffer),
            hex(&payload[..payload.len().min(8)])
        );
        report.differ("record", log, &detail);
    }
    report.call("record", expected.map(|_| "recorded"));
    expected
}

/// The whole log field by field: the buffer must then hold the bytes that the encoder writes, and nothing else changed.
fn whole(log: &[u8], records: &Log, random: &mut Random, report: &mut Report) {
    let bytes = encode(records);
    let spare = random.below(9);
    let mut buffer = random.bytes(bytes.len() + spare);
    let rest = buffer[bytes.len()..].to_vec();
    let mut used = 0;
    for (tag, payload) in fields(records) {
        match one(log, &mut buffer, used, tag, &payload, report) {
            Ok(count) => used = count,
            Err(refusal) => report.differ("a field of an accepted log is refused", log, &refusal.to_string()),
        }
    }
    report.same("recorded bytes", log, &buffer[..], &[&bytes[..], &rest].concat());
    report.same("recorded count", log, used, bytes.len());
    report.call("record", Ok("whole logs"));
}
