//! CXL0 logs from fixed seeds, for tests, comparison and benchmark.

pub mod encode;
pub mod generate;
pub mod hard;
pub mod marked;
mod narrow;
mod random;
mod widen;

pub use encode::encode;
pub use generate::{change_one_load, damage, litmus, plausible, random_log, random_schedule, some_operations};
pub use generate::{crash, near_home, near_set_crash, other, other_part, plain, power_loss, power_on, set_crash};
pub use generate::{shared, simulated, two_kinds, Shape, CACHED, MIXED, MIXED_RMW};
pub use narrow::narrow;
pub use random::Random;
pub use widen::{change_high_half, widened};
