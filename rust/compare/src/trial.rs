//! One log through every call on both sides.

use corpus::Random;
use second::{replay_bytes, verdict_file, Log, Refusal, Replayed, Step, Verdict};
use second::{FILE_MOST, SCRATCH_LEAST, STEPS_MOST};

use crate::report::{hex, Report};
use crate::{converting, expected, proved, recording, replaying};

/// What both judges must make of an accepted log: the answer, the file, and the silent steps in it.
#[derive(Default)]
pub struct Judged {
    pub answer: u64,
    pub file: Vec<u8>,
    pub steps: Vec<Step>,
}

/// Lent buffers, filled with noise, and what they were.
struct Areas {
    out: Vec<u8>,
    offset: usize,
    scratch: Vec<u64>,
    out_before: Vec<u8>,
    scratch_before: Vec<u64>,
}

impl Areas {
    fn new(random: &mut Random, out: usize, offset: usize, scratch: usize) -> Areas {
        let out = random.bytes(out);
        let scratch: Vec<u64> = (0..scratch).map(|_| random.bits()).collect();
        Areas { out_before: out.clone(), scratch_before: scratch.clone(), out, offset, scratch }
    }

    /// Long enough, by nothing or a little.
    fn enough(random: &mut Random) -> Areas {
        let (offset, spare, more) = (random.below(40), random.below(20), random.below(9));
        Areas::new(random, offset + FILE_MOST + spare, offset, SCRATCH_LEAST + more)
    }

    /// Too short in one of three ways, or in several.
    fn short(random: &mut Random) -> Areas {
        match random.below(4) {
            0 => {
                // The offset is past the output by one, or so far that adding to it goes round.
                let offset = *random.pick(&[FILE_MOST + 1, usize::MAX / 2, usize::MAX - FILE_MOST + 1, usize::MAX]);
                Areas::new(random, FILE_MOST, offset, SCRATCH_LEAST)
            }
            1 => {
                let offset = random.below(FILE_MOST) + 1;
                Areas::new(random, FILE_MOST + offset - 1, offset, SCRATCH_LEAST)
            }
            2 => Areas::new(random, FILE_MOST, 0, SCRATCH_LEAST - 1),
            _ => Areas::new(random, 0, usize::MAX, 0),
        }
    }

    fn unchanged(&self) -> bool {
        self.out == self.out_before && self.scratch == self.scratch_before
    }

    /// Whether exactly this file was written and the scratch is all zero.
    fn holds(&self, file: &[u8]) -> bool {
        let end = self.offset + file.len();
        self.out[..self.offset] == self.out_before[..self.offset]
            && self.out[self.offset..end] == *file
            && self.out[end..] == self.out_before[end..]
            && self.scratch.iter().all(|&number| number == 0)
    }
}

/// Puts one log through every call, unless too much differs already.
pub fn compare(kind: &'static str, log: &[u8], random: &mut Random, report: &mut Report) {
    if report.is_hopeless() {
        return;
    }
    let before = log.to_vec();
    let records = second::read(log);
    report.logs += 1;
    report.same("read", log, proved::read(log), expected::packed(records.as_ref().map_err(|r| *r), expected::read));
    short_areas(log, random, report);
    let judged = judged(kind, log, records.as_ref(), random, report);
    replaying::compare(log, records.as_ref().ok(), &judged.steps, random, report);
    recording::compare(log, records.as_ref().ok(), random, report);
    converting::compare(log, &judged, random, report);
    report.same("the log itself was changed", &before, log, &before[..]);
}

/// Buffers that are too short are refused before the log is looked at.
fn short_areas(log: &[u8], random: &mut Random, report: &mut Report) {
    if !random.percent(10) {
        return;
    }
    let mut areas = Areas::short(random);
    let answer = proved::judge(log, &mut areas.out, areas.offset, &mut areas.scratch);
    report.same("judge with short buffers", log, answer, u64::from(Refusal::BUFFER_TOO_SHORT.0));
    report.same("judge with short buffers left them unchanged", log, areas.unchanged(), true);
    report.call("judge with short buffers", Err(Refusal::BUFFER_TOO_SHORT));
}

/// The verdicts of both sides: the answers and every byte of the files are the same.
fn judged(
    kind: &'static str,
    log: &[u8],
    records: Result<&Log, &Refusal>,
    random: &mut Random,
    report: &mut Report,
) -> Judged {
    let mut areas = Areas::enough(random);
    let answer = proved::judge(log, &mut areas.out, areas.offset, &mut areas.scratch);
    let records = match records {
        Ok(records) => records,
        Err(refusal) => {
            *report.verdicts(kind).refused.entry(refusal.0).or_default() += 1;
            report.same("judge of a refused log", log, answer, u64::from(refusal.0));
            report.same("judge left the buffers of a refused log unchanged", log, areas.unchanged(), true);
            return Judged::default();
        }
    };
    let verdict = second::judge(records);
    report.verdicts(kind).count(records, &verdict);
    let longest = &mut report.longest[records.edition as usize];
    *longest = log.len().max(*longest);
    let file = verdict_file::write(&verdict);
    let expected = expected::verdict(&verdict, file.len());
    report.same("verdict", log, answer, expected);
    let written = &areas.out[areas.offset..][..file.len()];
    if written != file {
        report.differ("verdict file", log, &format!("proved {}, second {}", hex(written), hex(&file)));
    }
    report.same("buffers after a verdict", log, areas.holds(&file), true);
    let layers = second::judge_in_layers(records);
    report.same("first impossible event in layers", log, layers.first_impossible(), verdict.first_impossible());
    let steps = match verdict {
        Verdict::Impossible(_) => Vec::new(),
        Verdict::Allowed(steps) => {
            allowed(log, records, &steps, &file, report);
            let other = verdict_file::write(&layers);
            report.same("replay of another run", log, proved::replay(log, &other), 1 << 8);
            steps
        }
    };
    Judged { answer: expected, file, steps }
}

/// The schedule of an allowed log, held to all that the specification says of it.
fn allowed(log: &[u8], records: &Log, steps: &[Step], file: &[u8], report: &mut Report) {
    if steps.len() > records.steps_most().min(STEPS_MOST) {
        report.differ("more silent steps than the bound", log, &format!("{} steps", steps.len()));
    }
    report.same("second replay of the schedule", log, replay_bytes(log, file), Ok(Replayed::Yes));
    report.same("proved replay of the schedule", log, proved::replay(log, file), 1 << 8);
    report.schedules += 1;
    report.steps += steps.len();
    report.steps_most = report.steps_most.max(steps.len());
}
