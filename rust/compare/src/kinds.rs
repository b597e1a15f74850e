//! The kinds of logs, each from a seed of its own.

use corpus::encode::{boundaries, encode, field};
use corpus::{change_high_half, change_one_load, crash, damage, hard, litmus, narrow, near_home, near_set_crash};
use corpus::{other_part, plain, plausible, power_loss, power_on, random_log, set_crash, shared, two_kinds, widened};
use corpus::{Random, Shape};
use second::{Edition, Event, Home, Log, Operation};

use crate::report::Report;
use crate::trial;

/// A kind of logs, how many there are in one round, and how one is made.
type Kind = (&'static str, usize, fn(&mut Random) -> Vec<u8>);

const KINDS: [Kind; 10] = [
    ("01 plausible, by simulating the system", 50_000, simulated),
    ("02 plausible with one load changed", 60_000, changed),
    ("03 random", 50_000, any),
    ("04 near the limits", 24_000, limit),
    ("05 bytes damaged at random", 50_000, damaged),
    ("06 like litmus tests, the last read of any value", 150_000, |random| written(litmus(random), random)),
    ("07 like litmus tests, the holders crash with the owner", 50_000, |random| written(power_loss(random), random)),
    ("08 like litmus tests, memories return to their initial values", 40_000, |random| {
        written(power_on(random), random)
    }),
    ("09 like litmus tests, owners have both kinds of memory", 40_000, |random| written(two_kinds(random), random)),
    ("10 few runs explain them, or many silent steps, or any of several", 16_000, few_runs),
];

const SMALL: &str = "11 every log of three events or fewer, two machines, one location, two values";

/// At least so many accepted logs of each kind have a read-modify-write, at least so many a set crash, and so on: what
/// is not made is not compared.
const LEAST: usize = 1000;

/// Compares all logs of each kind; each round takes other seeds. The small logs are not random and come once.
pub fn run(round: u64, report: &mut Report) {
    for (number, (name, count, make)) in KINDS.into_iter().enumerate() {
        let mut random = Random::new(round << 8 | number as u64);
        for _ in 0..count {
            let log = make(&mut random);
            trial::compare(name, &log, &mut random, report);
        }
    }
    if round == 0 {
        let mut random = Random::new(KINDS.len() as u64);
        small(|log| trial::compare(SMALL, log, &mut random, report));
    }
    report.ask_made(LEAST);
}

/// The log as it is, or, of one in three, in edition 2: its values spread over 32 bits, and now and then one of them
/// with another high half.
fn in_some_edition(log: Log, random: &mut Random) -> Log {
    if random.percent(66) {
        return log;
    }
    let wide = widened(random, &log);
    if random.percent(25) {
        change_high_half(random, &wide)
    } else {
        wide
    }
}

fn written(log: Log, random: &mut Random) -> Vec<u8> {
    encode(&in_some_edition(log, random))
}

fn simulated(random: &mut Random) -> Vec<u8> {
    let shape = Shape::random(random);
    written(plausible(random, &shape), random)
}

fn changed(random: &mut Random) -> Vec<u8> {
    let shape = Shape::random(random);
    let log = plausible(random, &shape);
    written(change_one_load(random, &log, shape.values), random)
}

/// Random events; a random load is most often impossible, so half of these logs are short.
fn any(random: &mut Random) -> Vec<u8> {
    let mut shape = Shape::random(random);
    if random.percent(50) {
        shape.events = shape.events.min(random.between(1, 8));
    }
    written(random_log(random, &shape), random)
}

/// Logs whose silent steps are hard to find, most of them short; now and then with one load changed, or one event less.
fn few_runs(random: &mut Random) -> Vec<u8> {
    let shape = Shape { locations: random.between(1, 3), ..Shape::random(random) };
    let log = match random.below(20) {
        0 => narrow(random, &shape, 2),
        1 => many_steps(random),
        2..=7 => shared(random),
        _ => {
            let (events, choices) = (random.below(33), random.between(1, 5));
            narrow(random, &Shape { events, ..shape }, choices)
        }
    };
    let log = if random.percent(20) { change_one_load(random, &log, shape.values) } else { log };
    written(log, random)
}

fn many_steps(random: &mut Random) -> Log {
    let mut log = match random.below(4) {
        0 => {
            let values = random.between(1, 41);
            hard::moved(values as u32, random.below(values + 1) as u32)
        }
        1 => {
            let values = random.between(1, 126);
            hard::overwritten(values as u32, random.between(1, values) as u32)
        }
        2 => hard::flushed(random.between(1, 64) as u32),
        _ => hard::never_written(random.between(1, 62)),
    };
    if random.percent(30) {
        log.events.remove(random.below(log.events.len()));
    }
    log
}

fn damaged(random: &mut Random) -> Vec<u8> {
    let mut shape = Shape::random(random);
    if random.percent(70) {
        shape.events = shape.events.min(12);
        shape.locations = shape.locations.min(3);
    }
    let mut log = written(plausible(random, &shape), random);
    if random.percent(50) {
        return damage(random, &log);
    }
    // One bit alone often leaves a log that is accepted.
    let at = random.below(log.len());
    log[at] ^= 1 << random.below(8);
    log
}

/// A log that is at a limit, or over it by one, in one respect.
fn limit(random: &mut Random) -> Vec<u8> {
    let mut shape = Shape { crashes: 10, values: 3, ..Shape::random(random) };
    match random.below(10) {
        0 => {
            shape.events = 128;
            if random.percent(20) {
                // No accepted log has more bytes than these.
                let operations = &[Operation::LRmw, Operation::RRmw, Operation::MRmw];
                shape = Shape { locations: 32, patterns: 100, kinds: 100, crashes: 0, operations, ..shape };
            }
            let mut log = plausible(random, &shape);
            let rmw = Event { operation: Operation::LRmw, ..crash(1) };
            let more = *random.pick(&[crash(1), rmw, set_crash(0b11)]);
            log.events.extend(vec![more; random.below(3)]);
            written(log, random)
        }
        1 => {
            shape.locations = 32;
            shape.events = shape.events.min(20);
            let mut log = plausible(random, &shape);
            let more = some_home(random, log.persistent, 1, &[0, 256]);
            log.homes.extend(vec![more; random.below(3)]);
            written(log, random)
        }
        2 => {
            let (machines, persistent) = (random.below(9) as u8, random.byte() >> random.below(9).min(7));
            let event = if random.percent(50) { crash(1) } else { set_crash(random.byte() >> random.below(7)) };
            let owner = random.below(8) as u8;
            let home = some_home(random, persistent, owner, &[0, 1]);
            let (edition, homes, events) = (Edition::First, vec![home], vec![event]);
            written(Log { edition, machines, persistent, homes, events }, random)
        }
        3 => cornered(random, &shape),
        4 => {
            let bytes = written(plausible(random, &shape), random);
            let tails: [&[u8]; 5] = [&[0], &[4, 0, 0], &[3, 5], &[5, 7, 0], &[0xff; 9]];
            [&bytes, *random.pick(&tails)].concat()
        }
        5 => {
            let bytes = written(plausible(random, &shape), random);
            bytes[..random.below(bytes.len())].to_vec()
        }
        6 => long_schedule(random),
        7 => cornered_home(random, &shape),
        8 => wrong_head(random, &shape),
        _ => wrong_length(random, &shape),
    }
}

/// A location of this machine with one of these initial values, of either kind.
fn some_home(random: &mut Random, persistent: u8, owner: u8, initial: &[u32]) -> Home {
    let part = *random.pick(&[plain, other_part]);
    part(persistent, owner, *random.pick(initial))
}

/// One more location whose bytes are at the edge of what the head allows; now and then the log stops inside them.
fn cornered_home(random: &mut Random, shape: &Shape) -> Vec<u8> {
    let locations = if random.percent(10) { 32 } else { shape.locations };
    let log = in_some_edition(plausible(random, &Shape { locations, ..*shape }), random);
    let bytes = encode(&log);
    let at = boundaries(&bytes)[1 + locations];
    let home = field(2, &near_home(random, log.edition, log.machines, log.persistent));
    if random.percent(15) {
        return [&bytes[..at], &home[..random.below(home.len())]].concat();
    }
    [&bytes[..at], &home, &bytes[at..]].concat()
}

/// One event whose bytes are at the edge of what the head allows; now and then the tag is that of the other kind of
/// event, or the length that of the other kind or of the other edition.
fn cornered(random: &mut Random, shape: &Shape) -> Vec<u8> {
    let mut log = in_some_edition(plausible(random, shape), random);
    log.events.truncate(127);
    let near = |random: &mut Random, limit: usize| (limit + random.below(2)) as u8;
    let operation = if random.percent(20) { 11 } else { random.below(13) as u8 };
    let machine = if random.percent(70) { log.machines } else { near(random, log.machines.into()) };
    let unused = |random: &mut Random| random.below(8) as u8 / 7;
    let location = if operation == 7 { unused(random) } else { near(random, log.homes.len().saturating_sub(1)) };
    let width = log.edition.width();
    let mut payload = [vec![operation, machine, location], random.bytes(8)].concat();
    match operation {
        5..=7 => payload[3..3 + width].fill_with(|| unused(random)),
        11 => payload[..3 + width].copy_from_slice(&near_set_crash(random, log.edition, log.machines)),
        _ => {}
    }
    let rmw = (8..=10).contains(&operation) ^ random.percent(10);
    let (tag, right) = if rmw { (5, 3 + 2 * width) } else { (3, 3 + width) };
    let length = if random.percent(95) { right } else { *random.pick(&[5, 7, 11]) };
    let bytes = encode(&log);
    let open = &bytes[..bytes.len() - 3];
    [open, &field(tag, &payload[..length]), &field(4, &[])].concat()
}

/// A log whose head has the tag of the other edition, or one that has a second head, of either edition. Half of them
/// have no values, so that their other bytes are right in both.
fn wrong_head(random: &mut Random, shape: &Shape) -> Vec<u8> {
    let shape = if random.percent(50) { Shape { events: 0, patterns: 0, ..*shape } } else { *shape };
    let mut bytes = written(plausible(random, &shape), random);
    if random.percent(30) {
        bytes[0] ^= 1 ^ 6;
        return bytes;
    }
    let head = field(*random.pick(&[1, 6]), &bytes[3..5]);
    let at = *random.pick(&boundaries(&bytes));
    bytes.splice(at..at, head);
    bytes
}

/// Stores by others, alone or in read-modify-writes, each flushed to memory or handed on: as many silent steps as events
/// can force, and more. Now and then all but the owner crash in one step, and nothing is lost.
fn long_schedule(random: &mut Random) -> Vec<u8> {
    let machines = random.between(2, 6) as u8;
    let rmws = *random.pick(&[0, 50, 100]);
    let home = some_home(random, 0, 1, &[0, 0x107]);
    let mut log = Log { machines, homes: vec![home], ..Log::default() };
    let mut last = home.initial;
    while log.events.len() < 124 {
        let value = log.events.len() as u32;
        let event = |operation, machine, value| Event { operation, machine, location: 0, value, written: 0 };
        log.events.push(match random.percent(rmws) {
            true => Event { written: value, ..event(Operation::LRmw, 2, last) },
            false => event(Operation::LStore, 2, value),
        });
        last = value;
        for machine in 3..=random.between(2, usize::from(machines)) as u8 {
            log.events.push(event(Operation::Load, machine, value));
        }
        let flush = if random.percent(70) { Operation::RFlush } else { Operation::LFlush };
        log.events.push(event(flush, 2, 0));
        if machines > 2 && flush == Operation::RFlush && random.percent(10) {
            log.events.push(set_crash((1 << machines) - 2));
        }
    }
    log.events.truncate(128);
    written(log, random)
}

/// A field whose length is one off, or whose high byte is set, or that has the length of another form or of the other
/// edition, or an event with the tag of the other kind.
fn wrong_length(random: &mut Random, shape: &Shape) -> Vec<u8> {
    let mut bytes = written(plausible(random, shape), random);
    let mut starts = boundaries(&bytes);
    starts.pop();
    let at = *random.pick(&starts);
    match random.below(6) {
        0 => bytes[at + 1] ^= 1,
        1 => bytes[at + 2] = 1,
        2 | 3 => bytes[at + 1] = *random.pick(&[0, 1, 2, 3, 4, 5, 6, 7, 11]),
        4 => bytes[at] ^= 3 ^ 5,
        _ => bytes[at + 1] = bytes[at + 1].wrapping_sub(1),
    }
    bytes
}

/// Every log of at most three events with values 0 and 1, on one location of two machines; and, of those without
/// read-modify-writes, the same with the initial value 1, of the owner's kind and of the other, and with the other kind
/// alone, where the owner alone is persistent and where the other is. These are in edition 2 too, with 65536 for the 1:
/// the low halves do not tell it from 0.
fn small(mut compare: impl FnMut(&[u8])) {
    let mut each = |edition, persistent, home, events: &[Event]| {
        let log = Log { edition, machines: 2, persistent, homes: vec![home], events: Vec::new() };
        rows(events, |row| compare(&encode(&Log { events: row.to_vec(), ..log.clone() })))
    };
    // The machines are alike, so one owner is enough.
    for persistent in 0..4 {
        each(Edition::First, persistent, plain(persistent, 1, 0), &events_with(1));
    }
    for (edition, one) in [(Edition::First, 1), (Edition::Second, 0x10000)] {
        let mut events = events_with(one);
        events.retain(|event| !event.operation.is_rmw());
        for persistent in [0b01, 0b10] {
            for home in [plain(persistent, 1, one), other_part(persistent, 1, one), other_part(persistent, 1, 0)] {
                each(edition, persistent, home, &events);
            }
        }
    }
}

/// Every event of two machines and one location with values 0 and another.
fn events_with(one: u32) -> Vec<Event> {
    let mut events = vec![crash(1), crash(2), set_crash(0b11)];
    for operation in Operation::ALL.into_iter().filter(|operation| !operation.is_crash()) {
        let values: &[u32] = if operation.uses_value() { &[0, one] } else { &[0] };
        for &value in values {
            for &written in if operation.is_rmw() { values } else { &[0] } {
                events.extend([1, 2].map(|machine| Event { operation, machine, location: 0, value, written }));
            }
        }
    }
    events
}

/// Every row of at most three of these events.
fn rows(events: &[Event], mut each: impl FnMut(&[Event])) {
    let mut rows = vec![Vec::new()];
    for _ in 0..3 {
        rows.iter().for_each(|row| each(row));
        rows = rows.iter().flat_map(|row| events.iter().map(|&event| [&row[..], &[event]].concat())).collect();
    }
    rows.iter().for_each(|row| each(row));
}
