//! What the verdict program prints.

use crate::{Refusal, Verdict};

/// The lines for a log that was judged or refused.
pub fn printed(judged: &Result<Verdict, Refusal>) -> String {
    let mut text = match judged {
        Err(refusal) => format!("{refusal}\n"),
        Ok(Verdict::Impossible(event)) => format!("impossible {event}\n"),
        Ok(Verdict::Allowed(steps)) => {
            let lines = steps.iter().map(|step| format!("{} {} {}\n", step.before, step.location, step.machine));
            format!("allowed {}\n{}", steps.len(), lines.collect::<String>())
        }
    };
    text.push_str("end\n");
    text
}
