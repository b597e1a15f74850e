//! Judges a log from standard input and prints its verdict, as the verdict program does:
//! `cargo run -p malluvom --example verdict <../examples/marked/04.log`.

use std::io::Read;

use malluvom::{Judge, Verdict, LOG_MOST};

fn main() -> std::io::Result<()> {
    // More bytes than any accepted log has; what stands after them would not change the refusal.
    let mut log = Vec::new();
    std::io::stdin().take(2 * LOG_MOST as u64).read_to_end(&mut log)?;
    match Judge::new().judge(&log) {
        Ok(Verdict::Allowed(schedule)) => print!("allowed {}\n{schedule}", schedule.steps.len()),
        Ok(Verdict::Impossible { event }) => println!("impossible {event}"),
        Err(refusal) => println!("number {}", refusal.number()),
    }
    println!("end");
    Ok(())
}
