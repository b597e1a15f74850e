//! What was compared, and every difference.

use std::collections::{BTreeMap, BTreeSet};
use std::ops::RangeInclusive;

use second::{Edition, Home, Log, Operation, Refusal, Verdict};

/// So many differences are printed; the others are only counted.
const PRINTED: usize = 10;

/// After so many there is no point in going on.
const ENOUGH: usize = 1000;

/// The specification's refusals have these numbers.
const NUMBERS: RangeInclusive<u8> = 1..=17;

/// The longest accepted log of each edition has so many bytes.
const LONGEST: [usize; 2] = [1512, 2088];

/// Verdicts of one kind of logs.
#[derive(Default)]
pub struct Verdicts {
    pub allowed: usize,
    pub impossible: usize,
    pub refused: BTreeMap<u8, usize>,
    /// Accepted logs that have a read-modify-write.
    pub with_rmw: usize,
    /// Accepted logs that have a set crash.
    pub with_set_crash: usize,
    /// Accepted logs that have an initial value.
    pub with_initial: usize,
    /// Accepted logs that have a kind byte.
    pub with_kind: usize,
    /// Accepted logs of edition 2.
    pub in_edition_2: usize,
}

impl Verdicts {
    /// Counts an accepted log.
    pub fn count(&mut self, log: &Log, verdict: &Verdict) {
        match verdict {
            Verdict::Allowed(_) => self.allowed += 1,
            Verdict::Impossible(_) => self.impossible += 1,
        }
        let any = |is: fn(Operation) -> bool| usize::from(log.events.iter().any(|event| is(event.operation)));
        self.with_rmw += any(Operation::is_rmw);
        self.with_set_crash += any(|operation| operation == Operation::SetCrash);
        let some = |is: &dyn Fn(&Home) -> bool| usize::from(log.homes.iter().any(is));
        self.with_initial += some(&|home| home.initial != 0);
        self.with_kind += some(&|home| home.kind != log.kind_of(home.owner));
        self.in_edition_2 += usize::from(log.edition == Edition::Second);
    }

    /// How many of the accepted have what an accepted log may have, each in words.
    fn made(&self) -> [(usize, &'static str); 5] {
        [
            (self.with_rmw, "with read-modify-writes"),
            (self.with_set_crash, "with set crashes"),
            (self.with_initial, "with initial values"),
            (self.with_kind, "with kind bytes"),
            (self.in_edition_2, "in edition 2"),
        ]
    }
}

/// Counts of all that was compared.
#[derive(Default)]
pub struct Report {
    pub kinds: BTreeMap<&'static str, Verdicts>,
    /// How often each answer of another call came: call and answer.
    pub calls: BTreeMap<(&'static str, Result<&'static str, Refusal>), usize>,
    pub logs: usize,
    pub schedules: usize,
    pub steps: usize,
    pub steps_most: usize,
    /// The bytes of the longest accepted log of each edition.
    pub longest: [usize; 2],
    differences: usize,
}

impl Report {
    /// The verdicts of a kind of logs.
    pub fn verdicts(&mut self, kind: &'static str) -> &mut Verdicts {
        self.kinds.entry(kind).or_default()
    }

    /// Counts one answer of a call beside the judge's.
    pub fn call(&mut self, call: &'static str, answer: Result<&'static str, Refusal>) {
        *self.calls.entry((call, answer)).or_default() += 1;
    }

    /// A difference, with the log and what else is needed to see it again.
    pub fn differ(&mut self, what: &str, log: &[u8], detail: &str) {
        self.differences += 1;
        if self.differences <= PRINTED {
            println!("DIFFERENCE: {what}\n  {detail}\n  log {}", hex(log));
        }
    }

    /// Notes what was not made: each kind with fewer accepted logs than this that have one thing that a log may have, a
    /// refusal that no call gave, an edition without its longest log. A comparison that stopped has not made all.
    pub fn ask_made(&mut self, least: usize) {
        if self.is_hopeless() {
            return;
        }
        let mut missing = Vec::new();
        for (kind, verdicts) in &self.kinds {
            let few = verdicts.made().into_iter().filter(|(count, _)| *count < least);
            missing.extend(few.map(|(count, what)| format!("{count} logs {what} of {kind}")));
        }
        let refused = self.kinds.values().flat_map(|verdicts| verdicts.refused.keys().copied());
        let calls = self.calls.keys().filter_map(|(_, answer)| answer.err());
        let given: BTreeSet<u8> = refused.chain(calls.map(|refusal| refusal.0)).collect();
        missing.extend(NUMBERS.filter(|number| !given.contains(number)).map(|number| format!("no refusal {number}")));
        if self.longest != LONGEST {
            missing.push(format!("the longest logs have {:?} bytes, not {LONGEST:?}", self.longest));
        }
        for what in missing {
            self.differ("too little is compared", &[], &what);
        }
    }

    /// Whether so much differs that the comparison may stop.
    pub fn is_hopeless(&self) -> bool {
        self.differences >= ENOUGH
    }

    /// Notes a difference unless the two are equal.
    pub fn same<T: PartialEq + std::fmt::Debug>(&mut self, what: &str, log: &[u8], proved: T, second: T) {
        if proved != second {
            self.differ(what, log, &format!("proved {proved:?}, second {second:?}"));
        }
    }

    pub fn print(&self) {
        for (kind, verdicts) in &self.kinds {
            let Verdicts { allowed, impossible, refused, .. } = verdicts;
            let turned_away: usize = refused.values().sum();
            println!("{kind}: {} logs", allowed + impossible + turned_away);
            println!("    {allowed} allowed, {impossible} impossible, {turned_away} refused{}", numbers(refused));
            let made = verdicts.made().map(|(count, what)| format!("{count} {what}"));
            println!("    of the accepted {}", made.join(", "));
        }
        println!(
            "{} schedules replayed by both sides, {} silent steps, at most {} in one",
            self.schedules, self.steps, self.steps_most
        );
        println!("longest accepted logs: {} bytes in edition 1, {} in edition 2", self.longest[0], self.longest[1]);
        let mut last = "";
        for ((call, answer), count) in &self.calls {
            if *call != last {
                print!("{}{call}:", if last.is_empty() { "" } else { "\n" });
                last = call;
            }
            match answer {
                Ok(answer) => print!(" {answer} {count}"),
                Err(refusal) => print!(" refused {} {count}", refusal.0),
            }
        }
        println!();
    }

    /// The last line, and whether both sides agree on all.
    pub fn last_line(&self) -> bool {
        let stopped = if self.is_hopeless() { ", and stopped there" } else { "" };
        println!("{} logs compared, {} differences{stopped}", self.logs, self.differences);
        self.differences == 0
    }
}

fn numbers(refused: &BTreeMap<u8, usize>) -> String {
    if refused.is_empty() {
        return String::new();
    }
    let each: Vec<String> = refused.iter().map(|(number, count)| format!("{number}: {count}")).collect();
    format!(" ({})", each.join(", "))
}

/// Bytes in hexadecimal.
pub fn hex(bytes: &[u8]) -> String {
    bytes.iter().map(|byte| format!("{byte:02x}")).collect()
}
