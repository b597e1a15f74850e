//! A proved judge of CXL0 logs.
//!
//! A log is a row of loads, stores, read-modify-writes, flushes and crashes of a Compute Express Link shared-memory
//! system. The judge says whether some choice of silent steps, copies that move between caches and to memory, explains
//! it, and gives the shortest. The calls are those of the proved library with typed answers; [`Judge`] keeps the
//! buffers that judging needs.
//!
//! ```
//! use malluvom::{Event, Judge, Recorder, Verdict};
//!
//! let mut recorder = Recorder::new(2, 0b11)?;   // two machines with persistent memory
//! recorder.location(2)?;                        // L0, in the memory of machine 2
//! recorder.push(Event::l_store(1, 0, 1))?;      // LStore by 1 to L0 of 1
//! recorder.push(Event::l_flush(1, 0))?;         // LFlush by 1 of L0
//! recorder.push(Event::crash(2))?;              // Crash of 2
//! recorder.push(Event::load(1, 0, 0))?;         // Load by 1 of L0, 0
//! let log = recorder.finish()?;
//! match Judge::new().judge(&log)? {
//!     Verdict::Allowed(schedule) => assert_eq!(schedule.to_string(), "1 0 1\n"),
//!     Verdict::Impossible { event } => panic!("no run explains event {event}"),
//! }
//! # Ok::<(), malluvom::RecordError>(())
//! ```
//!
//! A crate of another workspace depends on this one by its path:
//!
//! ```toml
//! [dependencies]
//! malluvom = { path = "<repository>/rust/malluvom" }
//! ```
//!
//! If the repository lies inside the folder of that workspace, the workspace leaves it out by
//! `exclude = ["<repository>"]`; without that, cargo takes this crate for one of its members. The proved library is
//! looked for in `target/staticlib` of the repository, or in the folder that the environment variable
//! `MALLUVOM_LIB_DIR` names by an absolute path.

mod calls;
mod edition;
mod event;
mod judging;
pub mod log;
mod machine_set;
mod record_error;
mod recorder;
mod refusal;
pub mod schedule;

pub use calls::{convert, convert_into, judge_into, read, record, replay, requests, Counts, Judged, Replayed};
pub use calls::{CONVERT_LEAST, FILE_MOST, LOG_MOST, SCRATCH_LEAST};
pub use edition::Edition;
pub use event::{Event, Operation};
pub use judging::{Judge, Verdict};
pub use log::{Home, Kind, Log};
pub use machine_set::MachineSet;
pub use record_error::RecordError;
pub use recorder::Recorder;
pub use refusal::Refusal;
pub use schedule::{Schedule, Step};
