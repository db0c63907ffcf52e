//! Mode 3: look-ups of every divisor in built tables, then of chosen divisors, bad
//! ones too, in lent cells before and after a build.

use crate::calls::{self, LookUp};
use crate::kinds::Kind::{self, Plain, WithOne};
use crate::kinds::KINDS;
use crate::{rules, widths};

/// The widths k, m of the tables in which every divisor is looked up.
const TABLES: [(u64, u64); 4] = [(1, 1), (5, 5), (15, 15), (12, 3)];

/// The chosen divisors.
const DIVISORS: [u64; 11] =
    [0, 1, 2, 3, 32767, 32768, 40960, 65535, 65536, 2147483648, 4294967295];

/// k, m, the kind and how many cells are lent to the look-up.
const LENT: [(u64, u64, Kind, usize); 8] = [
    (5, 5, Plain, 31),
    (5, 5, Plain, 32),
    (1, 15, Plain, 2),
    (15, 1, Plain, 32768),
    (0, 5, Plain, 32),
    (5, 16, Plain, 32),
    (12, 3, WithOne, 4096),
    (5, 3, WithOne, 32),
];

/// What every cell holds before the build. It is too wide for every m.
const FILL: u16 = 43981;

/// The cells that the build is lent: one more than the largest table has.
const CELLS: usize = 32769;

/// `K M DIGEST`, or `K M one DIGEST`
pub fn digest_line(k: u64, m: u64, kind: Kind) -> String {
    let fields = widths::fields(k as i64, m as i64, kind);
    let mut digest = 0;
    for x in 1..=65535 {
        for value in calls::look_up(k, m, kind, x, &fields).values() {
            digest = rules::fold(digest, value);
        }
    }
    format!("{k} {m}{} {digest}", kind.mark())
}

/// `NUMBER S N J`
fn answer(l: LookUp) -> String {
    l.values().map(|value| value.to_string()).join(" ")
}

/// `K M X LENT: NUMBER S N J, NUMBER S N J`, or `K M one X LENT: ...`
pub fn answers_line(k: u64, m: u64, kind: Kind, x: u64, lent: usize) -> String {
    let mut cells = [FILL; CELLS];
    let before = answer(calls::look_up(k, m, kind, x, &cells[..lent]));
    // "No refusal writes a cell": after a refused build the cells are as before.
    calls::build(k, m, kind, &mut cells);
    let after = answer(calls::look_up(k, m, kind, x, &cells[..lent]));
    format!("{k} {m}{} {x} {lent}: {before}, {after}", kind.mark())
}

pub fn run() {
    for kind in KINDS {
        for (k, m) in TABLES {
            println!("{}", digest_line(k, m, kind));
        }
    }
    for x in DIVISORS {
        for (k, m, kind, lent) in LENT {
            println!("{}", answers_line(k, m, kind, x, lent));
        }
    }
}
