//! How fast the proved judge is beside the second judge's straightforward searches with hash sets: in layers, for some
//! run (`second`), and two 0-1 breadth-first searches for the shortest schedule, one forward in the order of schedules
//! (`0-1 search`), one for what each state has to pay to the end, with a walk behind it (`0-1 costs`).
//!
//!     bench                      every table
//!     bench one CORPUS EDITION   the proved judge, replay and converter on one log of a corpus, once, for counting
//!                                instructions (callgrind.sh)

mod corpora;
mod hard;
mod scan;
mod timing;

use std::process::ExitCode;

use corpora::{Corpus, CORPORA};
use malluvom::SCRATCH_LEAST;
use second::Edition;
use timing::{agree, clearing, converting, converts, measure, Times, ROUNDS};

fn main() -> ExitCode {
    let words: Vec<String> = std::env::args().skip(1).collect();
    let words: Vec<&str> = words.iter().map(String::as_str).collect();
    match words[..] {
        [] => match tables() {
            Ok(()) => ExitCode::SUCCESS,
            Err(difference) => {
                eprintln!("bench: {difference}");
                ExitCode::FAILURE
            }
        },
        ["one", name, number] => {
            let corpus = CORPORA.iter().find(|corpus| corpus.name == name);
            let edition = Edition::ALL.into_iter().find(|edition| edition.number().to_string() == number);
            let (Some(corpus), Some(edition)) = (corpus, edition) else {
                return usage();
            };
            timing::once(&corpus.logs(edition)[0]);
            ExitCode::SUCCESS
        }
        _ => usage(),
    }
}

fn usage() -> ExitCode {
    let names: Vec<&str> = CORPORA.iter().map(|corpus| corpus.name).collect();
    eprintln!("usage: bench, or bench one CORPUS EDITION, where CORPUS is one of {}", names.join(", "));
    ExitCode::from(2)
}

fn tables() -> Result<(), String> {
    let clear = clearing(SCRATCH_LEAST);
    println!("Microseconds per log, mean over a corpus of the median of {ROUNDS} rounds; p99 over its logs.");
    println!("Steps are the silent steps of an allowed log, in the mean.");
    let measured = corpora()?;
    beside_the_scan(&measured);
    let share = 100.0 * clear / measured[0].times.proved.mean;
    println!("\nClearing {SCRATCH_LEAST} numbers takes {clear:.2} microseconds, {share:.0} % of a small log.");
    shortest(&measured);
    hard_logs()?;
    events()?;
    locations()?;
    converter()?;
    scratch();
    Ok(())
}

/// What a corpus took in an edition.
struct Measured {
    title: String,
    edition: u8,
    steps: f64,
    times: Times,
}

fn corpora() -> Result<Vec<Measured>, String> {
    let mut measured = Vec::new();
    for edition in Edition::ALL {
        for corpus in CORPORA {
            let logs = corpus.logs(edition);
            let (steps, times) = (agree(&logs)?, measure(&logs, SCRATCH_LEAST));
            measured.push(Measured { title: corpus.title(), edition: edition.number(), steps, times });
        }
    }
    Ok(measured)
}

fn beside_the_scan(measured: &[Measured]) {
    println!("\n| corpus | edition | proved | p99 | second | p99 | scan | second / proved | proved / scan |");
    println!("|---|---|---|---|---|---|---|---|---|");
    for Measured { title, edition, times, .. } in measured {
        let Times { proved, layers, scan, .. } = times;
        println!(
            "| {title} | {edition} | {:.2} | {:.2} | {:.2} | {:.2} | {:.3} | {:.1} | {:.1} |",
            proved.mean,
            proved.p99,
            layers.mean,
            layers.p99,
            scan.mean,
            layers.mean / proved.mean,
            proved.mean / scan.mean
        );
    }
}

fn shortest(measured: &[Measured]) {
    println!();
    println!(
        "| corpus | edition | steps | proved | 0-1 search | p99 | 0-1 costs | p99 | search / proved | costs / proved |"
    );
    println!("|---|---|---|---|---|---|---|---|---|---|");
    for Measured { title, edition, steps, times } in measured {
        let Times { proved, search, costs, .. } = times;
        println!(
            "| {title} | {edition} | {steps:.1} | {:.2} | {:.2} | {:.2} | {:.2} | {:.2} | {:.1} | {:.1} |",
            proved.mean,
            search.mean,
            search.p99,
            costs.mean,
            costs.p99,
            search.mean / proved.mean,
            costs.mean / proved.mean
        );
    }
}

fn converter() -> Result<(), String> {
    println!("\n| conversion | to edition | proved | p99 | second | second / proved |\n|---|---|---|---|---|---|");
    for corpus in CORPORA {
        let [first, second] = Edition::ALL.map(|edition| corpus.logs(edition));
        converts(&first, &second)?;
        for (to, logs) in [(Edition::Second, first), (Edition::First, second)] {
            let [proved, second] = converting(&logs);
            println!(
                "| {} | {} | {:.2} | {:.2} | {:.2} | {:.1} |",
                corpus.title(),
                to.number(),
                proved.mean,
                proved.p99,
                second.mean,
                second.mean / proved.mean
            );
        }
    }
    Ok(())
}

fn events() -> Result<(), String> {
    heading("events (6 machines, 4 locations)");
    for events in [16, 32, 64, 128] {
        row(events, &Corpus { machines: 6, locations: 4, events, ..CORPORA[1] })?;
    }
    Ok(())
}

fn locations() -> Result<(), String> {
    heading("locations (6 machines, 128 events)");
    for locations in [1, 4, 16, 32] {
        row(locations, &Corpus { machines: 6, locations, events: 128, ..CORPORA[1] })?;
    }
    Ok(())
}

fn heading(what: &str) {
    println!("\n| {what} | proved | second | 0-1 search | second / proved | search / proved |");
    println!("|---|---|---|---|---|---|");
}

fn row(size: usize, corpus: &Corpus) -> Result<(), String> {
    let logs = corpus.logs(Edition::First);
    agree(&logs)?;
    let Times { proved, layers, search, .. } = measure(&logs, SCRATCH_LEAST);
    println!(
        "| {size} | {:.2} | {:.2} | {:.2} | {:.1} | {:.1} |",
        proved.mean,
        layers.mean,
        search.mean,
        layers.mean / proved.mean,
        search.mean / proved.mean
    );
    Ok(())
}

fn hard_logs() -> Result<(), String> {
    println!();
    println!(
        "| 128 events | logs | steps | proved | slowest | 0-1 search | 0-1 costs | search / proved | costs / proved |"
    );
    println!("|---|---|---|---|---|---|---|---|---|");
    for (title, logs) in hard::rows() {
        let steps = agree(&logs)?;
        let Times { proved, search, costs, .. } = measure(&logs, SCRATCH_LEAST);
        println!(
            "| {title} | {} | {steps:.1} | {:.2} | {:.2} | {:.2} | {:.2} | {:.1} | {:.1} |",
            logs.len(),
            proved.mean,
            proved.most,
            search.mean,
            costs.mean,
            search.mean / proved.mean,
            costs.mean / proved.mean
        );
    }
    Ok(())
}

fn scratch() {
    println!("\n| scratch lent (small logs) | proved | clearing alone |\n|---|---|---|");
    let logs = CORPORA[0].logs(Edition::First);
    for numbers in [4096, 8192, 16384] {
        let times = measure(&logs, numbers);
        println!("| {numbers} | {:.2} | {:.2} |", times.proved.mean, clearing(numbers));
    }
}
