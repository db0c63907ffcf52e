//! Numbers drawn for the drives, the same on every run.

use crate::kinds::{Kind, KINDS};

/// The generator of Park and Miller (MINSTD, multiplier 48271).
pub struct Generator {
    state: u64,
}

impl Generator {
    pub fn new() -> Generator {
        Generator { state: 1 }
    }

    pub fn pick(&mut self, n: u64) -> u64 {
        self.state = self.state * 48271 % 2147483647;
        self.state % n
    }

    /// A width from 1 to `most`; of so many tries one gives 0, one 16 and one
    /// 4294967295.
    pub fn width(&mut self, tries: u64, most: u64) -> u64 {
        match self.pick(tries) {
            0 => 0,
            1 => 16,
            2 => 4294967295,
            _ => 1 + self.pick(most),
        }
    }

    pub fn kind(&mut self) -> Kind {
        KINDS[self.pick(2) as usize]
    }
}
