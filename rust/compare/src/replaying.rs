//! Replay on schedules that are runs, nearly runs, or no schedules.

use corpus::{damage, random_schedule, Random};
use second::{replay_bytes, verdict_file, Log, Replayed, Step, Verdict};

use crate::report::{hex, Report};
use crate::{expected, proved};

/// Replays a few schedules on both sides.
pub fn compare(log: &[u8], records: Option<&Log>, steps: &[Step], random: &mut Random, report: &mut Report) {
    let Some(records) = records else {
        // A refused log is refused for its own number, whatever the schedule.
        let file = verdict_file::write(&Verdict::Allowed(Vec::new()));
        for file in [&file[..], &[]] {
            one(log, file, report);
        }
        return;
    };
    for wild in [false, false, true] {
        let steps = random_schedule(random, records, steps, wild);
        one(log, &verdict_file::write(&Verdict::Allowed(steps)), report);
    }
    let file = verdict_file::write(&Verdict::Allowed(steps.to_vec()));
    one(log, &damage(random, &file), report);
    if random.percent(2) {
        crowded(log, records, random, report);
    }
}

/// Schedules at the limit of 256 steps, whether or not they are runs.
fn crowded(log: &[u8], records: &Log, random: &mut Random, report: &mut Report) {
    let Some(home) = records.homes.first() else {
        return;
    };
    let machine = if home.owner == 1 && records.machines > 1 { 2 } else { 0 };
    let count = random.between(255, 257);
    let before = random.below(records.events.len() + 1) as u8;
    let steps = vec![Step { before, location: 0, machine }; count];
    one(log, &verdict_file::write(&Verdict::Allowed(steps)), report);
}

fn one(log: &[u8], file: &[u8], report: &mut Report) {
    let before = file.to_vec();
    let answer = proved::replay(log, file);
    report.same("the schedule itself was changed", log, file, &before[..]);
    let second = replay_bytes(log, file);
    if answer != expected::packed(second, expected::replay) {
        let detail = format!("proved {answer:#x}, second {second:?}, schedule {}", hex(file));
        report.differ("replay", log, &detail);
    }
    let told = second.map(|replayed| match replayed {
        Replayed::Yes => "yes",
        Replayed::No(_) => "no",
    });
    report.call("replay", told);
}
