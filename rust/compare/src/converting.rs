//! The converter on both sides, the way back, and the verdict in the other edition.

use corpus::Random;
use second::{Refusal, CONVERT_LEAST, FILE_MOST, SCRATCH_LEAST};

use crate::report::Report;
use crate::trial::Judged;
use crate::{expected, proved};

/// Converts one log in two. If it is not refused, there and back gives the same bytes, and the verdict is the one of
/// before.
pub fn compare(log: &[u8], judged: &Judged, random: &mut Random, report: &mut Report) {
    if random.percent(50) {
        return;
    }
    let length = match random.below(10) {
        0 => CONVERT_LEAST - 1,
        1 => random.below(CONVERT_LEAST),
        2 => CONVERT_LEAST + random.below(100),
        _ => CONVERT_LEAST,
    };
    let mut out = random.bytes(length);
    let Ok(length) = one(log, &mut out, report) else {
        return;
    };
    let converted = &out[..length];
    let mut back = vec![0xa5; CONVERT_LEAST];
    if let Ok(length) = one(converted, &mut back, report) {
        report.same("there and back", log, &back[..length], log);
    }
    let mut verdict = vec![0xa5; FILE_MOST];
    let answer = proved::judge(converted, &mut verdict, 0, &mut vec![1; SCRATCH_LEAST]);
    let file = &verdict[..judged.file.len()];
    report.same("verdict in the other edition", log, (answer, file), (judged.answer, &judged.file));
}

/// One log on both sides: the answer and every byte of the output. Gives the second side's answer.
fn one(log: &[u8], out: &mut [u8], report: &mut Report) -> Result<usize, Refusal> {
    let mut second = out.to_vec();
    let expected = second::convert(log, &mut second);
    let answer = proved::convert(log, out);
    if answer != expected::packed(expected, expected::bytes) || out != second {
        let (length, first) = (out.len(), out.iter().zip(&second).position(|(proved, second)| proved != second));
        let detail = format!("proved {answer:#x}, second {expected:?}, output of {length}, first other byte {first:?}");
        report.differ("convert", log, &detail);
    }
    let to = if log.first() == Some(&1) { "to edition 2" } else { "to edition 1" };
    report.call("convert", expected.map(|_| to));
    expected
}
