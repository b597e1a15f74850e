//! A second judge of CXL0 logs, written from the specification (document 01, requests W-201 to W-204, W-206 and
//! W-211) alone.
//!
//! It shares no code, no table and no idea of search with the proved judge: it reads the bytes, follows every choice of
//! silent steps breadth first, one location at a time, and remembers how it got to each state. It has three such
//! searches: by the number of silent steps, which is the judge's and finds the shortest schedule; by what each state
//! has to pay to the end, which finds the same; and in layers, event by event, which finds some run. [`whole`] does the
//! same on whole systems, which is the definition itself, and tests hold them to each other on small logs.

mod converter;
mod costs;
mod judge;
mod layers;
mod local;
pub mod log;
mod printing;
pub mod recorder;
mod refusal;
mod shortest;
pub mod system;
mod trail;
pub mod verdict_file;
pub mod whole;

pub use converter::{convert, CONVERT_LEAST};
pub use judge::{judge, judge_by_costs, judge_bytes, judge_in_layers, judge_into, Judged, Verdict, SCRATCH_LEAST};
pub use log::{read, Edition, Event, Home, Kind, Log, Operation};
pub use printing::printed;
pub use recorder::record;
pub use refusal::Refusal;
pub use system::{replay, replay_bytes, Replayed, System};
pub use verdict_file::{read_schedule, Step, FILE_MOST, STEPS_MOST};
