//! Measuring. The sides take turns on each log and the whole is repeated, so that a noisy machine moves both.

use std::hint::black_box;
use std::time::Instant;

use malluvom::{convert_into, judge_into, Judge, Judged, Replayed, CONVERT_LEAST, FILE_MOST, SCRATCH_LEAST};
use second::verdict_file::write;
use second::{judge_by_costs, judge_in_layers, read, Log, Verdict};

use crate::scan::scan;

/// How often the corpus is measured.
pub const ROUNDS: usize = 15;

/// Calls in one measurement, so that the clock does not count.
const CALLS: usize = 4;

/// Microseconds per log.
pub struct Side {
    pub mean: f64,
    pub p99: f64,
    /// Of the slowest log.
    pub most: f64,
}

/// The sides.
pub struct Times {
    pub proved: Side,
    /// The second judge's search in layers, for some run.
    pub layers: Side,
    /// The second judge, by its 0-1 search for the shortest schedule.
    pub search: Side,
    /// The same by what each state has to pay to the end.
    pub costs: Side,
    pub scan: Side,
}

/// The silent steps of the allowed logs, in the mean, if the sides agree on all logs.
pub fn agree(logs: &[Vec<u8>]) -> Result<f64, String> {
    let mut judge = Judge::new();
    let (mut allowed, mut steps) = (0, 0);
    for log in logs {
        match agreed(log, &mut judge) {
            Some(Verdict::Allowed(found)) => {
                allowed += 1;
                steps += found.len();
            }
            Some(Verdict::Impossible(_)) => {}
            None => return Err(format!("the sides differ on {log:02x?}")),
        }
    }
    Ok(steps as f64 / allowed.max(1) as f64)
}

/// The verdict on which the sides agree: the files of those that find the shortest schedule are the same to the byte,
/// the search in layers finds the same impossible event, the schedule of an allowed log replays, and the scan accepts.
fn agreed(log: &[u8], judge: &mut Judge) -> Option<Verdict> {
    let records = read(log).ok()?;
    let verdict = second::judge(&records);
    let (_, file) = judge.file(log).ok()?;
    let impossible = verdict.first_impossible();
    let same = file == write(&verdict)
        && file == write(&judge_by_costs(&records))
        && impossible == judge_in_layers(&records).first_impossible()
        && (impossible.is_some() || malluvom::replay(log, file) == Ok(Replayed::Yes))
        && scan(log);
    same.then_some(verdict)
}

/// Whether the proved converter makes each log of the second row of the same one in the first, and the other way round.
pub fn converts(first: &[Vec<u8>], second: &[Vec<u8>]) -> Result<(), String> {
    for (one, other) in first.iter().zip(second).chain(second.iter().zip(first)) {
        let converted = malluvom::convert(one);
        if converted.as_ref() != Ok(other) {
            return Err(format!("{one:02x?} is converted to {converted:02x?}"));
        }
    }
    Ok(())
}

fn time(mut call: impl FnMut()) -> f64 {
    let begun = Instant::now();
    for _ in 0..CALLS {
        call();
    }
    begun.elapsed().as_secs_f64() * 1e6 / CALLS as f64
}

/// Times the judges and the scan on each log. The proved judge is asked through the static library with buffers that
/// stay; reading, the verdict's bytes and clearing the scratch are included. The second judge, by each of its searches,
/// reads, judges and writes the verdict's bytes into fresh memory, and has no scratch to clear.
pub fn measure(logs: &[Vec<u8>], scratch: usize) -> Times {
    let mut out = vec![0; FILE_MOST];
    let mut scratch = vec![0; scratch];
    let second = |log: &[u8], judge: fn(&Log) -> Verdict| {
        time(|| {
            let _ = black_box(read(log).map(|log| write(&judge(&log))));
        })
    };
    let [proved, layers, search, costs, scan] = in_turn(logs, |log| {
        [
            time(|| {
                let _ = black_box(judge_into(log, &mut out, 0, &mut scratch));
            }),
            second(log, judge_in_layers),
            second(log, second::judge),
            second(log, judge_by_costs),
            time(|| {
                let _ = black_box(scan(black_box(log)));
            }),
        ]
    });
    Times { proved, layers, search, costs, scan }
}

/// Times the proved and the second converter on each log. Both read the log and write into an output that stays.
pub fn converting(logs: &[Vec<u8>]) -> [Side; 2] {
    let mut out = vec![0; CONVERT_LEAST];
    in_turn(logs, |log| {
        [
            time(|| {
                let _ = black_box(convert_into(log, &mut out));
            }),
            time(|| {
                let _ = black_box(second::convert(log, &mut out));
            }),
        ]
    })
}

/// What the sides took for each log, one after the other, in all rounds.
fn in_turn<const SIDES: usize>(logs: &[Vec<u8>], mut turn: impl FnMut(&[u8]) -> [f64; SIDES]) -> [Side; SIDES] {
    let mut samples = vec![[const { Vec::new() }; SIDES]; logs.len()];
    for _ in 0..ROUNDS {
        for (log, sides) in logs.iter().zip(&mut samples) {
            let times = turn(black_box(&log[..]));
            sides.iter_mut().zip(times).for_each(|(side, time)| side.push(time));
        }
    }
    std::array::from_fn(|side| summary(samples.iter_mut().map(|sides| median(&mut sides[side])).collect()))
}

fn median(times: &mut [f64]) -> f64 {
    times.sort_by(f64::total_cmp);
    times[times.len() / 2]
}

fn summary(mut times: Vec<f64>) -> Side {
    times.sort_by(f64::total_cmp);
    let count = times.len();
    Side { mean: times.iter().sum::<f64>() / count as f64, p99: times[count * 99 / 100], most: times[count - 1] }
}

/// Microseconds to set so many numbers to zero.
pub fn clearing(numbers: usize) -> f64 {
    let mut scratch = vec![1u64; numbers];
    let mut times: Vec<f64> = (0..1000).map(|_| time(|| black_box(&mut scratch).fill(0))).collect();
    median(&mut times)
}

/// The proved judge, the proved replay of its schedule and the proved converter on one log, once.
pub fn once(log: &[u8]) {
    let mut out = vec![0; FILE_MOST];
    let mut scratch = vec![0; SCRATCH_LEAST];
    match judge_into(log, &mut out, 0, &mut scratch) {
        Ok(Judged::Allowed { steps, length }) => {
            println!("allowed {steps}");
            if malluvom::replay(log, &out[..length.into()]) != Ok(Replayed::Yes) {
                println!("not replayed");
            }
        }
        Ok(Judged::Impossible { event, .. }) => println!("impossible {event}"),
        Err(refusal) => println!("{refusal}"),
    }
    if let Err(refusal) = convert_into(log, &mut vec![0; CONVERT_LEAST]) {
        println!("not converted: {refusal}");
    }
}
