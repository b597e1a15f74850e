//! The four corpora, from fixed seeds.

use corpus::{change_one_load, encode, plausible, Random, Shape, MIXED};
use second::{Edition, Log};

/// So many logs in each.
const LOGS: usize = 400;

/// A corpus of plausible logs, every second one with one load changed.
#[derive(Clone, Copy)]
pub struct Corpus {
    pub name: &'static str,
    pub machines: usize,
    pub locations: usize,
    pub events: usize,
    /// Crashes in a hundred events.
    pub crashes: usize,
}

pub const CORPORA: [Corpus; 4] = [
    Corpus { name: "small", machines: 3, locations: 2, events: 16, crashes: 10 },
    Corpus { name: "large", machines: 6, locations: 32, events: 128, crashes: 10 },
    Corpus { name: "deep", machines: 6, locations: 1, events: 128, crashes: 10 },
    Corpus { name: "crashy", machines: 6, locations: 32, events: 128, crashes: 70 },
];

impl Corpus {
    pub fn title(&self) -> String {
        format!("{} ({}, {}, {})", self.name, self.machines, self.locations, self.events)
    }

    /// The logs' bytes in an edition; the same in every run.
    pub fn logs(&self, edition: Edition) -> Vec<Vec<u8>> {
        let mut random = Random::new(7);
        let shape = Shape {
            machines: self.machines,
            locations: self.locations,
            events: self.events,
            crashes: self.crashes,
            set_crashes: 0,
            patterns: 0,
            kinds: 0,
            values: 1000,
            operations: MIXED,
        };
        let mut logs = Vec::with_capacity(LOGS);
        for number in 0..LOGS {
            let log = plausible(&mut random, &shape);
            let odd = number % 2 == 1;
            let log = if odd { change_one_load(&mut random, &log, shape.values) } else { log };
            logs.push(encode(&Log { edition, ..log }));
        }
        logs
    }
}

#[cfg(test)]
mod tests {
    use super::CORPORA;
    use second::Edition;

    /// The times of one version are compared with those of another, so the logs must stay. This is their FNV-1a hash.
    #[test]
    fn the_logs_are_those_of_other_versions() {
        let hashes = CORPORA.map(|corpus| {
            let bytes = corpus.logs(Edition::First).concat();
            bytes
                .iter()
                .fold(0xcbf2_9ce4_8422_2325, |hash: u64, &byte| (hash ^ u64::from(byte)).wrapping_mul(0x100_0000_01b3))
        });
        assert_eq!(
            hashes,
            [0xdddc_9313_cc33_9d4a, 0xc2db_c08d_862b_2bf4, 0xeced_4355_b4f4_ebc3, 0x597d_fbf9_9a38_9430]
        );
    }
}
