//! The two kinds of table of document 02, L5, and all in which they differ. Each
//! difference is written down by itself, as the documents do; none is worked out
//! from another.

use crate::rules::power;

/// 'Tables get a kind, "plain" or "with one".'
#[derive(Clone, Copy, Debug, PartialEq)]
pub enum Kind {
    Plain,
    WithOne,
}

pub const KINDS: [Kind; 2] = [Kind::Plain, Kind::WithOne];

impl Kind {
    /// The kind's place in `KINDS`, which is what is drawn and folded for it.
    pub fn number(self) -> u64 {
        match self {
            Kind::Plain => 0,
            Kind::WithOne => 1,
        }
    }

    /// What stands after K and M in a printed line.
    pub fn mark(self) -> &'static str {
        match self {
            Kind::Plain => "",
            Kind::WithOne => " one",
        }
    }

    /// The largest field. Document 01: "a field f of m bits, from 0 to 2^m - 1".
    /// L5: "In the second, field 2^m is allowed and means 1.0".
    pub fn largest_field(self, m: i64) -> i64 {
        match self {
            Kind::Plain => power(m) - 1,
            Kind::WithOne => power(m),
        }
    }

    /// The largest value. Document 01: "never above 2^(m+1) - 1". L5: "the cap is
    /// 2^(m+1), and least is over values up to that."
    pub fn cap(self, m: i64) -> i64 {
        match self {
            Kind::Plain => power(m + 1) - 1,
            Kind::WithOne => power(m + 1),
        }
    }

    /// How many bits the digits of a memory text are for. L2: "as many digits as
    /// m bits need". L5: "Memory files of L2 for the new kind have as many digits
    /// as m+1 bits need."
    pub fn text_bits(self, m: u64) -> u64 {
        match self {
            Kind::Plain => m,
            Kind::WithOne => m + 1,
        }
    }
}
