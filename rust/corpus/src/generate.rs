//! Random logs and schedules.

use second::log::{EVENTS_MOST, LOCATIONS_MOST};
use second::{Edition, Event, Home, Kind, Log, Operation, Step, System};

use crate::encode::{kind_of, value_bytes};
use crate::Random;

/// How a random log looks.
#[derive(Clone, Copy, Debug)]
pub struct Shape {
    /// Machines, 1 to 6.
    pub machines: usize,
    /// Locations, at most 32.
    pub locations: usize,
    /// Events, at most 128.
    pub events: usize,
    /// So many of a hundred events are crashes.
    pub crashes: usize,
    /// So many of a hundred crashes are set crashes, unless there is only one machine.
    pub set_crashes: usize,
    /// So many of a hundred locations have an initial value other than 0.
    pub patterns: usize,
    /// So many of a hundred locations are in memory of the kind that their owner's is not.
    pub kinds: usize,
    /// Values are below this, which is at least 2; now and then an initial value is above.
    pub values: usize,
    /// What happens beside crashes, each as often as it stands here.
    pub operations: &'static [Operation],
}

/// All operations but read-modify-writes, loads most often. The benchmark's logs are made of these.
pub const MIXED: &[Operation] = &[
    Operation::LStore,
    Operation::RStore,
    Operation::MStore,
    Operation::Load,
    Operation::Load,
    Operation::Load,
    Operation::LFlush,
    Operation::RFlush,
];

/// Operations that leave values in caches, where silent steps decide what becomes of them.
pub const CACHED: &[Operation] =
    &[Operation::LStore, Operation::LStore, Operation::RStore, Operation::Load, Operation::Load, Operation::LFlush];

/// All operations, a third of them read-modify-writes.
pub const MIXED_RMW: &[Operation] = &[
    Operation::LStore,
    Operation::RStore,
    Operation::MStore,
    Operation::Load,
    Operation::Load,
    Operation::LFlush,
    Operation::RFlush,
    Operation::LRmw,
    Operation::LRmw,
    Operation::RRmw,
    Operation::MRmw,
];

/// As [`CACHED`], with the read-modify-writes that leave values in caches.
pub const CACHED_RMW: &[Operation] = &[
    Operation::LStore,
    Operation::RStore,
    Operation::Load,
    Operation::Load,
    Operation::LFlush,
    Operation::LRmw,
    Operation::LRmw,
    Operation::RRmw,
];

/// What happens in a log beside crashes, with read-modify-writes in every second one: mixed in so many of a hundred
/// cases, else what leaves values in caches.
pub fn some_operations(random: &mut Random, mixed: usize) -> &'static [Operation] {
    match (random.percent(mixed), random.percent(50)) {
        (true, false) => MIXED,
        (true, true) => MIXED_RMW,
        (false, false) => CACHED,
        (false, true) => CACHED_RMW,
    }
}

impl Shape {
    /// Some shape within the limits, small ones and large ones.
    pub fn random(random: &mut Random) -> Shape {
        let (locations, events) = match random.below(4) {
            0 => (random.below(4), random.below(9)),
            1 => (random.between(1, 3), random.below(25)),
            2 => (1, random.below(EVENTS_MOST + 1)),
            _ => (random.below(LOCATIONS_MOST + 1), random.below(EVENTS_MOST + 1)),
        };
        Shape {
            machines: random.between(1, 6),
            locations,
            events,
            crashes: *random.pick(&[0, 5, 15, 30, 70]),
            set_crashes: *random.pick(&[0, 30, 60]),
            patterns: *random.pick(&[0, 40, 100]),
            kinds: *random.pick(&[0, 30, 60]),
            values: *random.pick(&[2, 3, 5, 65536]),
            operations: some_operations(random, 70),
        }
    }

    /// The head of a log of this shape.
    pub(crate) fn head(&self, random: &mut Random) -> Log {
        let all = (1 << self.machines) - 1;
        let some = random.byte() & all;
        let persistent = *random.pick(&[all, 0, some]);
        Log {
            edition: Edition::First,
            machines: self.machines as u8,
            persistent,
            homes: (0..self.locations).map(|_| self.home(random, persistent)).collect(),
            events: Vec::with_capacity(self.events),
        }
    }

    /// A location. As with set crashes, a shape without patterns or kinds takes no random number for them.
    fn home(&self, random: &mut Random, persistent: u8) -> Home {
        let owner = random.between(1, self.machines) as u8;
        let initial = match self.patterns > 0 && random.percent(self.patterns) {
            true => pattern(random, self.values),
            false => 0,
        };
        match self.kinds > 0 && random.percent(self.kinds) {
            true => other_part(persistent, owner, initial),
            false => plain(persistent, owner, initial),
        }
    }

    /// An event that names only what the log has. The owner's events count most, so it is the machine more often than
    /// another.
    pub(crate) fn event(&self, random: &mut Random, homes: &[Home]) -> Event {
        let location = random.below(self.locations) as u8;
        let home = homes.get(usize::from(location));
        let machine = match home {
            Some(home) if random.percent(25) => home.owner,
            _ => random.between(1, self.machines) as u8,
        };
        let Some(home) = home.filter(|_| !random.percent(self.crashes)) else {
            return self.crash(random, machine);
        };
        let operation = *random.pick(self.operations);
        let value = random.below(self.values) as u32;
        let value = if home.initial != 0 && random.percent(50) { near_pattern(random, home.initial) } else { value };
        let written = if operation.is_rmw() { random.below(self.values) as u32 } else { 0 };
        Event { operation, machine, location, value: if operation.uses_value() { value } else { 0 }, written }
    }

    /// A crash of the machine alone or with others. A shape without set crashes takes no random number for them: so the
    /// benchmark's logs are the same as before there were any.
    fn crash(&self, random: &mut Random, machine: u8) -> Event {
        if self.set_crashes == 0 || self.machines == 1 || !random.percent(self.set_crashes) {
            return crash(machine);
        }
        set_crash(set_with(random, machine, self.machines as u8))
    }
}

/// A location of this machine, in memory of the machine's own kind.
pub fn plain(persistent: u8, owner: u8, initial: u32) -> Home {
    Home { owner, initial, kind: kind_of(persistent, owner) }
}

/// A location of this machine, in memory of the other kind.
pub fn other_part(persistent: u8, owner: u8, initial: u32) -> Home {
    Home { kind: other(kind_of(persistent, owner)), ..plain(persistent, owner, initial) }
}

/// The other kind of memory.
pub fn other(kind: Kind) -> Kind {
    match kind {
        Kind::Volatile => Kind::Persistent,
        Kind::Persistent => Kind::Volatile,
    }
}

/// An initial value other than 0: one of the values, or a high byte alone, or the largest, or any.
fn pattern(random: &mut Random, values: usize) -> u32 {
    match random.below(8) {
        0..=3 => random.between(1, values - 1) as u32,
        4 | 5 => (random.between(1, 0xff) as u32) << 8,
        6 => 0xffff,
        _ => random.between(1, 0xffff) as u32,
    }
}

/// A value for a location with this initial value: the same, or what a wrong reader would take for it.
fn near_pattern(random: &mut Random, initial: u32) -> u32 {
    *random.pick(&[initial, initial, 0, swapped(initial)])
}

/// A value of 16 bits with its bytes exchanged.
fn swapped(value: u32) -> u32 {
    value.swap_bytes() >> 16
}

/// The payload of a location's field for so many machines, some of them persistent: right, or at the edge of what is
/// right in some of its bytes. In edition 2 an initial value is in either half.
pub fn near_home(random: &mut Random, edition: Edition, machines: u8, persistent: u8) -> Vec<u8> {
    let owner = match random.below(8) {
        0 => 0,
        1 => machines + 1,
        _ => random.between(1, machines.into()) as u8,
    };
    let mut payload = vec![owner];
    if random.percent(60) {
        let initial = if random.percent(30) { 0 } else { pattern(random, 3) };
        let high = edition == Edition::Second && random.percent(50);
        payload.extend(value_bytes(edition, if high { initial << 16 } else { initial }));
    }
    if random.percent(60) {
        let usual = kind_of(persistent, owner);
        payload.push(match random.below(8) {
            0 | 1 => usual.code(),
            2 => *random.pick(&[0, 3, 0xff]),
            3 => random.byte(),
            _ => other(usual).code(),
        });
    }
    match random.below(10) {
        0 => payload.push(random.below(3) as u8),
        1 => drop(payload.pop()),
        _ => {}
    }
    payload
}

/// A crash of one machine.
pub fn crash(machine: u8) -> Event {
    Event { operation: Operation::Crash, machine, location: 0, value: 0, written: 0 }
}

/// A crash of a set of machines, with bit i - 1 for machine i.
pub fn set_crash(set: u8) -> Event {
    Event { operation: Operation::SetCrash, machine: 0, location: set, value: 0, written: 0 }
}

/// A set of the machine and of one other or more; there must be two.
fn set_with(random: &mut Random, machine: u8, machines: u8) -> u8 {
    let other = (machine - 1 + random.between(1, usize::from(machines) - 1) as u8) % machines;
    let more = if random.percent(50) { random.byte() & ((1 << machines) - 1) } else { 0 };
    1 << (machine - 1) | 1 << other | more
}

/// The payload of a set crash for so many machines, 1 to 6: right, or at the edge of what is right in some of its bytes.
pub fn near_set_crash(random: &mut Random, edition: Edition, machines: u8) -> Vec<u8> {
    let machine = random.between(1, machines.into()) as u8;
    let set = match random.below(8) {
        0 => 0,
        1 => 1 << random.below(8),
        2 => 1 << random.between(machines.into(), 7) | 1 << (machine - 1),
        3 => random.byte(),
        _ if machines == 1 => 1,
        _ => set_with(random, machine, machines),
    };
    let mut unused = || if random.percent(85) { 0 } else { random.between(1, 7) as u8 };
    let mut payload = vec![11, unused(), set];
    payload.extend((0..edition.width()).map(|_| unused()));
    payload
}

/// A log by simulating the system: random silent steps between the events, and each load and each read-modify-write
/// returns what it finds. It is allowed.
pub fn plausible(random: &mut Random, shape: &Shape) -> Log {
    let head = shape.head(random);
    let restless = *random.pick(&[0, 20, 60]);
    run_of(random, shape, head, restless)
}

/// The same, where in so many of a hundred cases there is another random silent step.
pub fn simulated(random: &mut Random, shape: &Shape, restless: usize) -> Log {
    let head = shape.head(random);
    run_of(random, shape, head, restless)
}

fn run_of(random: &mut Random, shape: &Shape, head: Log, restless: usize) -> Log {
    let mut log = head;
    let mut system = System::start(&log);
    while log.events.len() < shape.events {
        while shape.locations > 0 && random.percent(restless) {
            let location = random.below(shape.locations) as u8;
            let machine = random.below(shape.machines + 1) as u8;
            system.step(&log, location, machine);
        }
        let mut event = shape.event(random, &log.homes);
        match event.operation {
            operation if operation.reads() => event.value = system.visible(event.location),
            Operation::LFlush | Operation::RFlush => settle(&mut system, &log, &event),
            _ => {}
        }
        let possible = system.apply(&log, &event);
        debug_assert!(possible && system.copies_agree());
        log.events.push(event);
    }
    log
}

/// Makes the silent steps that a flush waits for.
fn settle(system: &mut System, log: &Log, flush: &Event) {
    let x = flush.location;
    let machines = 1..=log.machines;
    if flush.operation == Operation::LFlush {
        if system.holds(flush.machine, x) && !system.step(log, x, flush.machine) {
            system.step(log, x, 0);
        }
    } else if let Some(holder) = machines.into_iter().find(|&machine| system.holds(machine, x)) {
        system.step(log, x, holder);
        system.step(log, x, 0);
    }
}

/// The same log with another value read in one of its loads or read-modify-writes, if it has one.
pub fn change_one_load(random: &mut Random, log: &Log, values: usize) -> Log {
    let mut changed = log.clone();
    let loads: Vec<usize> = (0..log.events.len()).filter(|&e| log.events[e].operation.reads()).collect();
    if !loads.is_empty() {
        let event = &mut changed.events[*random.pick(&loads)];
        let initial = log.homes[usize::from(event.location)].initial;
        let other = random.below(values) as u32;
        let other = if initial != 0 && random.percent(50) { near_pattern(random, initial) } else { other };
        event.value = if other == event.value { other ^ 1 } else { other };
    }
    changed
}

/// A log like a litmus test: a short run with values in caches and crashes, and then a load, or now and then a
/// read-modify-write, of a value that was stored, of the initial one or of 0. Whether it can be explained hangs on the
/// silent steps before.
pub fn litmus(random: &mut Random) -> Log {
    let shape = Shape {
        machines: random.between(2, 4),
        locations: random.between(1, 2),
        events: random.between(2, 10),
        crashes: 25,
        set_crashes: 40,
        patterns: *random.pick(&[0, 60]),
        kinds: *random.pick(&[0, 40]),
        values: 3,
        operations: some_operations(random, 20),
    };
    let mut log = plausible(random, &shape);
    let location = random.below(shape.locations) as u8;
    let here = log.events.iter().filter(|event| event.location == location);
    let mut values: Vec<u32> = here.filter_map(Event::stored).collect();
    values.push(0);
    let initial = log.homes[usize::from(location)].initial;
    if initial != 0 {
        values.push(initial);
    }
    let machine = random.between(1, shape.machines) as u8;
    let mut last = Event { operation: Operation::Load, machine, location, value: *random.pick(&values), written: 0 };
    if random.percent(15) {
        last.operation = *random.pick(&[Operation::LRmw, Operation::RRmw, Operation::MRmw]);
        last.written = random.below(shape.values) as u32;
    }
    log.events.push(last);
    log
}

/// The short run before a litmus test with crashes: of `least` to 4 machines, with fewer than `events` events.
fn crashy_shape(random: &mut Random, least: usize, events: usize) -> Shape {
    Shape {
        machines: random.between(least, 4),
        locations: random.between(1, 2),
        events: random.below(events),
        crashes: 25,
        set_crashes: 50,
        patterns: *random.pick(&[0, 60]),
        kinds: *random.pick(&[0, 40]),
        values: 3,
        operations: some_operations(random, 20),
    }
}

/// A log like a litmus test for set crashes: after a short run a value is stored and loaded, most often only by machines
/// that then crash together with the owner, in one step or now and then in a row; and then a load of it, of the initial
/// value or of 0. What could move between crashes in a row decides.
pub fn power_loss(random: &mut Random) -> Log {
    let shape = crashy_shape(random, 2, 5);
    let mut log = plausible(random, &shape);
    let location = random.below(shape.locations) as u8;
    let value = shape.values as u32;
    let event = |operation, machine, value| Event { operation, machine, location, value, written: 0 };
    let home = log.homes[usize::from(location)];
    let set = set_with(random, home.owner, log.machines);
    let mut members: Vec<u8> = (1..=log.machines).filter(|machine| set & 1 << (machine - 1) != 0).collect();
    let store = if random.percent(80) { Operation::LStore } else { Operation::RStore };
    log.events.push(event(store, *random.pick(&members), value));
    for machine in 1..=log.machines {
        if random.percent(if members.contains(&machine) { 30 } else { 5 }) {
            log.events.push(event(Operation::Load, machine, value));
        }
    }
    if random.percent(75) {
        log.events.push(set_crash(set));
    } else {
        while !members.is_empty() {
            log.events.push(crash(members.swap_remove(random.below(members.len()))));
        }
    }
    let last = random.between(1, shape.machines) as u8;
    let read = *random.pick(&[value, value, home.initial, home.initial, 0]);
    log.events.push(event(Operation::Load, last, read));
    log
}

/// A log like a litmus test where it may not matter which copy moves: after a short run a value is stored and loaded by
/// several machines, and most often the owner crashes, so that nothing can have moved before; then caches are flushed
/// or emptied by crashes; and then a load of the value, of the initial one or of 0.
pub fn shared(random: &mut Random) -> Log {
    let shape = crashy_shape(random, 3, 4);
    let mut log = plausible(random, &shape);
    let location = random.below(shape.locations) as u8;
    let value = shape.values as u32;
    let event = |operation, machine, value| Event { operation, machine, location, value, written: 0 };
    let home = log.homes[usize::from(location)];
    let machine = |random: &mut Random| random.between(1, shape.machines) as u8;
    log.events.push(event(Operation::LStore, machine(random), value));
    for _ in 0..random.between(1, 3) {
        log.events.push(event(Operation::Load, machine(random), value));
    }
    if random.percent(80) {
        log.events.push(crash(home.owner));
    }
    for _ in 0..random.between(1, 2) {
        let machine = machine(random);
        log.events.push(match random.below(4) {
            0 => event(Operation::LFlush, machine, 0),
            1 => event(Operation::RFlush, machine, 0),
            2 => set_crash(set_with(random, machine, log.machines)),
            _ => set_crash(((1 << log.machines) - 1) & !(1 << (home.owner - 1))),
        });
    }
    let read = *random.pick(&[value, value, home.initial, 0]);
    log.events.push(event(Operation::Load, machine(random), read));
    log
}

/// A log like a litmus test for initial values: after a short run a value is stored, most often to memory, and the owner
/// crashes, most often, alone or with others; and then a load or two, of the value, of the initial one, of that of
/// another location, or of 0. What the owner's memory returned to decides.
pub fn power_on(random: &mut Random) -> Log {
    let shape = Shape {
        machines: random.between(1, 4),
        locations: random.between(1, 3),
        events: random.below(5),
        crashes: 25,
        set_crashes: 40,
        patterns: 80,
        kinds: *random.pick(&[0, 40]),
        values: 3,
        operations: some_operations(random, 60),
    };
    let mut log = plausible(random, &shape);
    let location = random.below(shape.locations) as u8;
    let value = shape.values as u32;
    let machine = |random: &mut Random| random.between(1, shape.machines) as u8;
    let event = |operation, machine, location, value| Event { operation, machine, location, value, written: 0 };
    if random.percent(80) {
        let store = if random.percent(75) { Operation::MStore } else { Operation::LStore };
        log.events.push(event(store, machine(random), location, value));
    }
    if random.percent(80) {
        let owner = log.homes[usize::from(location)].owner;
        let first = if random.percent(80) { owner } else { machine(random) };
        log.events.push(shape.crash(random, first));
    }
    for _ in 0..random.between(1, 2) {
        let location = if random.percent(60) { location } else { random.below(shape.locations) as u8 };
        let own = log.homes[usize::from(location)].initial;
        let another = random.pick(&log.homes).initial;
        let read = *random.pick(&[own, own, own, another, value, 0, swapped(own)]);
        log.events.push(event(Operation::Load, machine(random), location, read));
    }
    log
}

/// A log like a litmus test for kinds of memory: after a short run a value is stored, most often to memory, at each of
/// a few locations, many of one owner and in both kinds of its memory; the owner of one crashes, alone or with others;
/// and then some are loaded, most often what their own kind leaves, else the value, the initial one or 0.
pub fn two_kinds(random: &mut Random) -> Log {
    let shape = Shape {
        machines: random.between(1, 3),
        locations: random.between(2, 4),
        events: random.below(4),
        crashes: 25,
        set_crashes: 40,
        patterns: *random.pick(&[0, 60]),
        kinds: 50,
        values: 3,
        operations: some_operations(random, 60),
    };
    let mut log = plausible(random, &shape);
    let value = shape.values as u32;
    let machine = |random: &mut Random| random.between(1, shape.machines) as u8;
    let event = |operation, machine, location, value| Event { operation, machine, location, value, written: 0 };
    let stores = [Operation::MStore, Operation::MStore, Operation::MStore, Operation::LStore, Operation::RStore];
    for location in 0..log.homes.len() as u8 {
        log.events.push(event(*random.pick(&stores), machine(random), location, value));
    }
    let owner = random.pick(&log.homes).owner;
    let fall = shape.crash(random, owner);
    log.events.push(fall);
    for (location, home) in (0..).zip(&log.homes) {
        let cleared = home.kind == Kind::Volatile && fall.crashed() & 1 << (home.owner - 1) != 0;
        let left = if cleared { home.initial } else { value };
        let read = if random.percent(55) { left } else { *random.pick(&[value, home.initial, 0]) };
        if random.percent(75) {
            log.events.push(event(Operation::Load, machine(random), location, read));
        }
    }
    log
}

/// A log whose events are all random; most such logs have an impossible load.
pub fn random_log(random: &mut Random, shape: &Shape) -> Log {
    let mut log = shape.head(random);
    log.events = (0..shape.events).map(|_| shape.event(random, &log.homes)).collect();
    log
}

/// The same bytes with a few of them changed, taken away, doubled, or put in.
pub fn damage(random: &mut Random, bytes: &[u8]) -> Vec<u8> {
    let mut bytes = bytes.to_vec();
    for _ in 0..random.between(1, 3) {
        let at = random.below(bytes.len() + 1);
        // A small number is likelier to be something that the format knows.
        let byte = if random.percent(50) { random.below(13) as u8 } else { random.byte() };
        match random.below(5) {
            0 | 1 if at < bytes.len() => bytes[at] = byte,
            2 if at < bytes.len() => {
                bytes.remove(at);
            }
            3 => bytes.insert(at, byte),
            4 => bytes.truncate(at),
            _ => {
                let again = bytes[at..bytes.len().min(at + 8)].to_vec();
                bytes.splice(at..at, again);
            }
        }
    }
    bytes
}

/// A schedule near the given one: most of it stands, a few steps are changed, dropped, doubled or put in. Its counts of
/// events before may be out of order or out of bounds if `wild`.
pub fn random_schedule(random: &mut Random, log: &Log, steps: &[Step], wild: bool) -> Vec<Step> {
    let mut steps = steps.to_vec();
    for _ in 0..random.below(4) {
        let step = random_step(random, log, wild);
        let at = random.below(steps.len() + 1);
        match random.below(3) {
            0 if at < steps.len() => steps[at] = step,
            1 if at < steps.len() => {
                steps.remove(at);
            }
            _ => steps.insert(at, step),
        }
    }
    if !wild {
        steps.retain(|step| fits(log, step));
        steps.sort_by_key(|step| step.before);
    }
    steps
}

fn random_step(random: &mut Random, log: &Log, wild: bool) -> Step {
    let slack = usize::from(wild);
    Step {
        before: random.below(log.events.len() + 1 + slack) as u8,
        location: random.below(log.homes.len() + 1) as u8,
        machine: random.below(usize::from(log.machines) + 1 + slack) as u8,
    }
}

fn fits(log: &Log, step: &Step) -> bool {
    let home = log.homes.get(usize::from(step.location));
    home.is_some_and(|home| step.machine != home.owner && step.machine <= log.machines)
}
