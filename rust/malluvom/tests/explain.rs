//! Explanations of impossible logs. The tables are read from the text and checked as docs/EXPLAIN.md says, with the
//! second judge's whole systems for the rules.

mod common;

use std::collections::HashSet;
use std::fs;
use std::path::Path;

use common::{command, examples, folder, on_wide_page, root, status, tool};
use corpus::{change_one_load, encode, litmus, plausible, power_loss, random_log, shared, two_kinds, widened};
use corpus::{Random, Shape};
use second::{Event, Home, Kind, Log, Operation, System, Verdict};

/// What one location holds: which caches have a copy, as bits, with what value, and what memory has.
type State = (u8, Option<u32>, u32);

/// One location of a log, alone.
struct Site {
    /// The log with this location as its only one; events of others are nothing.
    log: Log,
    events: Vec<Option<Event>>,
    /// All values of the location, and one that it does not have.
    values: HashSet<u32>,
}

impl Site {
    fn new(log: &Log, location: u8) -> Site {
        let here = |event: &Event| match event.operation.is_crash() {
            true => Some(*event),
            false => (event.location == location).then_some(Event { location: 0, ..*event }),
        };
        let events: Vec<Option<Event>> = log.events.iter().map(here).collect();
        let home = log.homes[usize::from(location)];
        let named = events.iter().flatten().flat_map(|event| [event.value, event.written]);
        let mut values: HashSet<u32> = named.chain([home.initial]).collect();
        values.insert((0..).find(|value| !values.contains(value)).unwrap());
        Site { log: Log { homes: vec![home], ..log.clone() }, events, values }
    }

    fn machines(&self) -> std::ops::RangeInclusive<u8> {
        1..=self.log.machines
    }

    fn at_power_on(&self) -> State {
        (0, None, self.log.homes[0].initial)
    }

    /// A system in this state: from a power-on with the memory, a store by one holder and loads by the others.
    fn system(&self, (holders, copy, memory): State) -> System {
        let home = Home { initial: memory, ..self.log.homes[0] };
        let log = Log { homes: vec![home], ..self.log.clone() };
        let mut system = System::start(&log);
        let mut operation = Operation::LStore;
        for machine in self.machines().filter(|machine| holders & 1 << (machine - 1) != 0) {
            let event = Event { operation, machine, location: 0, value: copy.unwrap(), written: 0 };
            assert!(system.apply(&log, &event));
            operation = Operation::Load;
        }
        system
    }

    /// The state of a system; memory is seen when every cache has lost its copy.
    fn state(&self, system: &System) -> State {
        let holders = self.machines().filter(|&machine| system.holds(machine, 0));
        let holders = holders.fold(0, |set, machine| set | 1 << (machine - 1));
        let home = Home { kind: Kind::Persistent, ..self.log.homes[0] };
        let lasting = Log { homes: vec![home], ..self.log.clone() };
        let mut emptied = system.clone();
        self.machines().for_each(|machine| assert!(emptied.apply(&lasting, &corpus::crash(machine))));
        (holders, (holders != 0).then(|| system.visible(0)), emptied.visible(0))
    }

    fn after(&self, state: State, event: &Event) -> Option<State> {
        self.system(state).after_event(&self.log, event).map(|system| self.state(&system))
    }

    /// The states after one silent step.
    fn silent(&self, state: State) -> Vec<State> {
        let system = self.system(state);
        let steps = (0..=self.log.machines).filter_map(|machine| system.after_step(&self.log, 0, machine));
        steps.map(|system| self.state(&system)).collect()
    }

    /// The states that silent steps and these events lead to, in any order.
    fn closed(&self, from: impl IntoIterator<Item = State>, events: &HashSet<Event>) -> HashSet<State> {
        let mut states = HashSet::new();
        let mut found: Vec<State> = from.into_iter().collect();
        while let Some(state) = found.pop() {
            if states.insert(state) {
                found.extend(self.silent(state));
                found.extend(events.iter().filter_map(|event| self.after(state, event)));
            }
        }
        states
    }

    /// The events of the location among these.
    fn some(&self, numbers: impl IntoIterator<Item = usize>) -> HashSet<Event> {
        numbers.into_iter().filter_map(|number| self.events[number - 1]).collect()
    }

    /// Whether the last of these events is impossible, whatever becomes of those between.
    fn rule(&self, kept: &[usize]) -> bool {
        let site = self.told_apart(kept);
        let mut states = HashSet::from([site.at_power_on()]);
        let mut next = 1;
        for &number in kept {
            let event = site.events[number - 1].unwrap();
            let before = site.closed(states, &site.some(next..number));
            states = before.into_iter().filter_map(|state| site.after(state, &event)).collect();
            next = number + 1;
        }
        states.is_empty()
    }

    /// The same where, if it can hold more than four values before the last of these events, all values but those of
    /// these events are one.
    fn told_apart(&self, kept: &[usize]) -> Site {
        let before = self.events[..kept[kept.len() - 1] - 1].iter().flatten();
        let held: HashSet<u32> = before.filter_map(Event::stored).chain([self.log.homes[0].initial]).collect();
        let named = self.some(kept.iter().copied()).into_iter();
        let named = named.flat_map(|event| [event.operation.reads().then_some(event.value), event.stored()]);
        let named: HashSet<u32> = named.flatten().collect();
        let other = (0..).find(|value| !named.contains(value)).unwrap();
        let name = |value: u32| if held.len() <= 4 || named.contains(&value) { value } else { other };
        let home = Home { initial: name(self.log.homes[0].initial), ..self.log.homes[0] };
        let renamed = |event: Event| Event { value: name(event.value), written: name(event.written), ..event };
        let events = self.events.iter().map(|event| event.map(renamed)).collect();
        Site { log: Log { homes: vec![home], ..self.log.clone() }, events, values: HashSet::new() }
    }
}

/// What the text of an explanation says.
struct Explained {
    /// The events that are enough.
    kept: Vec<usize>,
    lists: Vec<List>,
}

/// The states before an event.
struct List {
    event: usize,
    left_out: Vec<usize>,
    states: HashSet<State>,
    /// Those that are said to stop it, unless it is any state.
    stopped: Option<HashSet<State>>,
}

/// Numbers in words: `1, 2 and 4`.
fn numbers(words: &str) -> Vec<u32> {
    let numbers = words.split([',', ' ']).filter(|word| !matches!(*word, "" | "and" | "or" | "another" | "value"));
    numbers.map(|number| number.parse().unwrap()).collect()
}

/// The text of an explanation, read again.
struct Reading<'a> {
    site: &'a Site,
    /// The values that `another value` is not.
    named: Vec<u32>,
}

impl Reading<'_> {
    fn values(&self, words: &str) -> HashSet<u32> {
        let others = || self.site.values.iter().copied().filter(|value| !self.named.contains(value));
        match words {
            "anything" => self.site.values.clone(),
            words if words.ends_with("another value") => others().chain(numbers(words)).collect(),
            words => numbers(words).into_iter().collect(),
        }
    }

    /// The sets of caches that hold it.
    fn holders(&self, words: &str) -> Vec<u8> {
        let bits = |words: &str| numbers(words).iter().fold(0, |set, machine| set | 1u8 << (machine - 1));
        let all = (1 << self.site.log.machines) - 1;
        let (least, most) = match words {
            "some caches" => (0, all),
            words => match words.strip_prefix("some of the caches of ") {
                Some(some) => (0, bits(some)),
                None => {
                    let named = words.split_once(" of ").unwrap().1;
                    match named.split_once(" and perhaps ") {
                        Some((named, "others")) => (bits(named), all),
                        Some((named, perhaps)) => (bits(named), bits(named) | bits(perhaps)),
                        None => (bits(named), bits(named)),
                    }
                }
            },
        };
        (1..=all).filter(|set| set & least == least && set & !most == 0).collect()
    }

    fn states(&self, words: &str) -> HashSet<State> {
        if words == "any state" {
            return self
                .states("some caches hold anything, memory anything")
                .into_iter()
                .chain(self.states("no cache holds it, memory anything"))
                .collect();
        }
        let (caches, memory) = words.rsplit_once(", memory ").unwrap();
        let memory = self.values(memory);
        let (holders, copies) = caches.split_once(" holds ").or(caches.split_once(" hold ")).unwrap();
        let cached: Vec<(u8, Option<u32>)> = match copies {
            "it" => vec![(0, None)],
            copies => {
                let copies = self.values(copies);
                let holders = self.holders(holders);
                holders.iter().flat_map(|&set| copies.iter().map(move |&copy| (set, Some(copy)))).collect()
            }
        };
        cached.iter().flat_map(|&(set, copy)| memory.iter().map(move |&memory| (set, copy, memory))).collect()
    }

    /// All that is in the text.
    fn explanation(&self, text: &str) -> Explained {
        let number = |words: &str| words.split([' ', ',']).next().unwrap().parse::<usize>().unwrap();
        let mut explained = Explained { kept: Vec::new(), lists: Vec::new() };
        let mut left_out = Vec::new();
        for line in text.lines().skip(1) {
            if let Some(events) = line.strip_prefix("  left out: ") {
                left_out = events.split("; ").map(number).collect();
            } else if let Some(event) = line.strip_prefix("  before ") {
                let left_out = std::mem::take(&mut left_out);
                let list =
                    List { event: number(event), left_out, states: HashSet::new(), stopped: Some(HashSet::new()) };
                explained.lists.push(list);
            } else if let Some(row) = line.strip_prefix("      ") {
                let (state, reason) = row.split_once("   ").unwrap_or((row, ""));
                let states = self.states(state);
                let list = explained.lists.last_mut().unwrap();
                list.states.extend(&states);
                match &mut list.stopped {
                    _ if state == "any state" => list.stopped = None,
                    Some(stopped) if reason.trim_start().starts_with("stopped: ") => stopped.extend(states),
                    _ => {}
                }
            } else if line.starts_with(' ') {
                explained.kept.push(number(line.trim_start()));
            }
        }
        if explained.kept.is_empty() {
            explained.kept = explained.lists.iter().map(|list| list.event).collect();
        }
        explained
    }
}

/// The table holds: it has the state at power-on, nothing leads out of it, and the last event is stopped.
fn assert_argument(site: &Site, explained: &Explained, text: &str) {
    let last = *explained.kept.last().unwrap();
    let lists: Vec<usize> = explained.lists.iter().map(|list| list.event).collect();
    assert_eq!(lists, explained.kept, "{text}");
    let events = explained.lists.iter().flat_map(|list| list.left_out.iter().copied().chain([list.event]));
    let here: Vec<usize> = (1..=last).filter(|number| site.events[number - 1].is_some()).collect();
    assert_eq!(events.collect::<Vec<_>>(), here, "{text}");
    assert!(explained.lists[0].states.contains(&site.at_power_on()), "{text}");
    for (at, list) in explained.lists.iter().enumerate() {
        let event = site.events[list.event - 1].unwrap();
        let left_out = site.some(list.left_out.iter().copied());
        for &state in &list.states {
            let stays =
                site.silent(state).into_iter().chain(left_out.iter().filter_map(|event| site.after(state, event)));
            assert!(stays.into_iter().all(|state| list.states.contains(&state)), "{state:?} before {event:?}: {text}");
            let after = site.after(state, &event);
            if let Some(stopped) = &list.stopped {
                assert_eq!(after.is_none(), stopped.contains(&state), "{state:?} before {event:?}: {text}");
            }
            match explained.lists.get(at + 1) {
                Some(next) => assert!(after.is_none_or(|after| next.states.contains(&after)), "{state:?}: {text}"),
                None => assert_eq!(after, None, "{state:?}: {text}"),
            }
        }
    }
}

/// The states of all events of a log are in the lists of the kept ones, place by place.
fn assert_whole_log(site: &Site, explained: &Explained, text: &str) {
    let mut states = site.closed([site.at_power_on()], &HashSet::new());
    let mut next = 1;
    for list in &explained.lists {
        for number in next..=list.event {
            assert!(states.iter().all(|state| list.states.contains(state)), "before {number}: {text}");
            if let Some(event) = site.events[number - 1] {
                let after: Vec<State> = states.iter().filter_map(|&state| site.after(state, &event)).collect();
                states = site.closed(after, &HashSet::new());
            }
        }
        next = list.event + 1;
    }
    assert!(states.is_empty(), "{text}");
}

/// The events of a log without one of them.
fn without(kept: &[usize], number: usize) -> Vec<usize> {
    kept.iter().copied().filter(|&other| other != number).collect()
}

/// The log of some of the events.
fn with(log: &Log, kept: &[usize]) -> Log {
    Log { events: kept.iter().map(|number| log.events[number - 1]).collect(), ..log.clone() }
}

/// Explains and shrinks a log, and checks both; says how many events are named and kept, if the log is impossible.
fn check(log: &Log, path: &Path) -> Option<(usize, usize)> {
    let number = usize::from(second::judge(log).first_impossible()?);
    fs::write(path, encode(log)).unwrap();
    let path = path.to_str().unwrap();
    let output = on_wide_page(&["explain", "--all", path]);
    let text = String::from_utf8(output.stdout.clone()).unwrap();
    assert_eq!(status(&output), 1, "{text}");
    assert!(text.starts_with(&format!("impossible: event {number}, ")), "{text}");
    let site = Site::new(log, log.events[number - 1].location);
    let named = text.lines().find_map(|line| line.strip_prefix("Another value is any but "));
    let named = named.map_or(Vec::new(), |named| numbers(named.trim_end_matches('.')));
    let explained = Reading { site: &site, named }.explanation(&text);
    assert_eq!(explained.kept.last(), Some(&number), "{text}");
    assert_argument(&site, &explained, &text);
    assert_whole_log(&site, &explained, &text);
    let kept = shrunk(log, path, number, &site);
    assert!(explained.kept.iter().all(|number| kept.contains(number)), "{kept:?}: {text}");
    let all_but_last = |&&other: &&usize| other != number;
    for &other in explained.kept.iter().filter(all_but_last) {
        assert!(!site.rule(&without(&explained.kept, other)), "{other} of {:?}: {text}", explained.kept);
    }
    for &other in kept.iter().filter(all_but_last) {
        let fewer = without(&kept, other);
        let at_last = second::judge(&with(log, &fewer)) == Verdict::Impossible(fewer.len() as u8);
        assert!(!(at_last && site.rule(&fewer)), "{other} of {kept:?}: {text}");
    }
    Some((explained.kept.len(), kept.len()))
}

/// The events of the smaller log, which is impossible at its last event and has the same head.
fn shrunk(log: &Log, path: &str, number: usize, site: &Site) -> Vec<usize> {
    let output = tool(&["shrink", path]);
    assert_eq!(status(&output), 1, "{path}");
    let said = String::from_utf8(output.stderr).unwrap();
    let (counts, kept) = said.trim_end().split_once(" events kept: ").unwrap();
    let kept: Vec<usize> = numbers(kept).into_iter().map(|number| number as usize).collect();
    assert_eq!(counts, format!("{} of {}", kept.len(), log.events.len()));
    let small = second::read(&output.stdout).unwrap();
    assert_eq!(small, with(log, &kept));
    assert_eq!(second::judge(&small), Verdict::Impossible(kept.len() as u8));
    assert!(kept.last() == Some(&number) && kept.windows(2).all(|pair| pair[0] < pair[1]), "{said}");
    assert!(site.rule(&kept), "{said}");
    kept
}

fn small_shape(random: &mut Random) -> Shape {
    let shape = Shape::random(random);
    Shape {
        machines: random.between(1, 4),
        locations: random.between(1, 3),
        events: random.between(1, 20),
        values: 3,
        ..shape
    }
}

/// A log of one of many sorts, of either edition.
fn some_log(random: &mut Random) -> Log {
    let log = match random.below(6) {
        0 => litmus(random),
        1 => power_loss(random),
        2 => shared(random),
        3 => two_kinds(random),
        4 => {
            let shape = small_shape(random);
            random_log(random, &shape)
        }
        _ => {
            let shape = small_shape(random);
            let log = plausible(random, &shape);
            change_one_load(random, &log, shape.values)
        }
    };
    if random.percent(40) {
        widened(random, &log)
    } else {
        log
    }
}

#[test]
fn small_logs_are_explained_and_shrunk() {
    let path = folder("explain-small").join("a.log");
    let mut random = Random::new(31);
    let mut checked = 0;
    while checked < 2000 {
        checked += usize::from(check(&some_log(&mut random), &path).is_some());
    }
}

/// Logs of up to 128 events, of which few are named.
#[test]
fn large_logs_are_explained_by_few_events() {
    let path = folder("explain-large").join("a.log");
    let mut random = Random::new(32);
    let mut named = Vec::new();
    while named.len() < 60 {
        let shape = Shape {
            machines: random.between(2, 3),
            locations: random.between(1, 3),
            events: 128,
            ..Shape::random(&mut random)
        };
        let shape = Shape { values: *random.pick(&[2, 3, 65536]), ..shape };
        let log = plausible(&mut random, &shape);
        let log = change_one_load(&mut random, &log, shape.values);
        if second::judge(&log).first_impossible().is_some_and(|number| number > 40) {
            named.extend(check(&log, &path).map(|(named, _)| named));
        }
    }
    named.sort_unstable();
    assert!(named[named.len() / 2] <= 2 && named[named.len() - 1] <= 8, "{named:?}");
}

fn marked(name: &str) -> String {
    root().join("examples/marked").join(name).to_str().unwrap().to_string()
}

#[test]
fn marked_logs_keep_what_rules_the_value_out() {
    for (name, enough, kept) in [
        ("02.log", "1 3", "2 of 3 events kept: 1 and 3\n"),
        ("05.log", "1 2 4", "3 of 4 events kept: 1, 2 and 4\n"),
        ("09.log", "1 6", "2 of 6 events kept: 1 and 6\n"),
        // That machine 2 loaded 1 is enough, but a log needs its store too.
        ("13.log", "2 3 4 5", "5 of 5 events kept: 1, 2, 3, 4 and 5\n"),
    ] {
        let text = String::from_utf8(tool(&["explain", &marked(name)]).stdout).unwrap();
        let listed = text.split("\n\n").nth(2).unwrap().lines().map(|line| line.split_whitespace().next().unwrap());
        assert_eq!(listed.collect::<Vec<_>>().join(" "), enough, "{text}");
        let shrunk = tool(&["shrink", &marked(name)]);
        assert_eq!((status(&shrunk), String::from_utf8(shrunk.stderr).unwrap()), (1, kept.to_string()));
    }
}

#[test]
fn only_impossible_logs_are_shrunk() {
    let folder = folder("shrink");
    let small = folder.join("small.log");
    let shrink = |log: &str| tool(&["shrink", log, "-o", small.to_str().unwrap()]);
    let allowed = shrink(&marked("04.log"));
    let said = String::from_utf8_lossy(&allowed.stderr).into_owned();
    assert_eq!((status(&allowed), small.exists()), (2, false));
    assert_eq!(said, format!("malluvom: {}: allowed, nothing to shrink\n", marked("04.log")));
    let bad = folder.join("bad.log");
    fs::write(&bad, [1, 2, 0, 9, 0]).unwrap();
    let (refused, explained) = (shrink(bad.to_str().unwrap()), tool(&["explain", bad.to_str().unwrap()]));
    assert_eq!((status(&refused), refused.stderr), (status(&explained), explained.stderr));
    assert!(!small.exists());
    assert_eq!(
        (status(&shrink(&marked("05.log"))), second::judge_bytes(&fs::read(&small).unwrap())),
        (1, Ok(Verdict::Impossible(3)))
    );
}

/// Runs and tables are broken at spaces where the page ends, which has 100 columns unless COLUMNS says otherwise.
#[test]
fn lines_fit_the_page() {
    let on_page = |path: &str, columns: &str| {
        let output = command().env("COLUMNS", columns).args(["explain", "--all", path]).output().unwrap();
        String::from_utf8(output.stdout).unwrap()
    };
    let words = |text: &str| text.split_whitespace().map(String::from).collect::<Vec<_>>();
    let mut longest = 0;
    for path in examples("log").iter().filter(|path| malluvom::read(&fs::read(path).unwrap()).is_ok()).step_by(5) {
        let path = path.to_str().unwrap();
        let wide = on_page(path, "10000");
        longest = longest.max(wide.lines().map(str::len).max().unwrap());
        for (columns, most) in [("61", 61), ("1", 40), ("0", 100), ("many", 100)] {
            let text = on_page(path, columns);
            assert!(text.lines().all(|line| line.len() <= most && line.trim_end() == line), "{columns}: {text}");
            assert_eq!(words(&text), words(&wide), "{path}");
        }
    }
    assert!(longest > 200);
}

/// The end of a table that is too long for the page, which has 40 lines unless LINES says otherwise.
#[test]
fn long_tables_are_cut() {
    let explain = |words: &[&str], lines: &str| {
        let output = command().env("LINES", lines).arg("explain").args(words).arg(marked("13.log")).output().unwrap();
        String::from_utf8(output.stdout).unwrap()
    };
    let whole = explain(&[], "40");
    assert_eq!(whole.lines().count(), 29);
    for (words, lines) in [(&[][..], "29"), (&[], "none"), (&["--all"], "20")] {
        assert_eq!(explain(words, lines), whole, "{lines}");
    }
    let (head, table) = whole.split_at(whole.find("  left out: 1").unwrap());
    let lines: Vec<&str> = table.split_inclusive('\n').collect();
    let (end, table) = (lines[lines.len() - 4..].concat(), &lines[..lines.len() - 4]);
    for (page, shown) in [("28", 11), ("27", 10), ("26", 10), ("1", 10)] {
        let cut = format!("  These are the last {shown} of {} lines; --all shows the whole table.\n", table.len());
        assert_eq!(explain(&[], page), format!("{head}{cut}{}{end}", table[table.len() - shown..].concat()), "{page}");
    }
}
