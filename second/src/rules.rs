//! The definitions of document 01, "Numbers and their units" (the side after
//! document 02, L4) and "The best entry" (the last value tried after L5), and
//! nothing cleverer than them. What is best is found by trying every value; no
//! rounding rule and no midpoint takes part in the search.
//!
//! k and m are from 1 to 15 here, so every product below is at most 2^33 and
//! fits an i64 with room to spare.

use crate::kinds::Kind;

pub const LEFT: u64 = 0;
pub const RIGHT: u64 = 1;

pub fn power(exponent: i64) -> i64 {
    1 << exponent
}

/// "Let P = k+m+1." Errors count in parts of 2^P.
fn unit(k: i64, m: i64) -> i64 {
    power(k + m + 1)
}

/// "i = 2^k + n"
fn i_of(k: i64, n: i64) -> i64 {
    power(k) + n
}

/// "high = 2^P - i·j"
#[inline]
pub fn high(k: i64, m: i64, n: i64, j: i64) -> i64 {
    unit(k, m) - i_of(k, n) * j
}

/// "low = 2^P - (i+1)·j"
#[inline]
pub fn low(k: i64, m: i64, n: i64, j: i64) -> i64 {
    unit(k, m) - (i_of(k, n) + 1) * j
}

/// "The entry's worst error is the larger of the sizes of low and high"
#[inline]
pub fn worst(k: i64, m: i64, n: i64, j: i64) -> i64 {
    low(k, m, n, j).abs().max(high(k, m, n, j).abs())
}

/// "Its side is 'left' (0) where high is larger in size, 'right' (1) where
/// low is". Document 02, L4: "an entry's two errors never have equal size".
pub fn side(k: i64, m: i64, n: i64, j: i64) -> u64 {
    let low_size = low(k, m, n, j).abs();
    let high_size = high(k, m, n, j).abs();
    assert_ne!(low_size, high_size, "two errors of equal size: k={k} m={m} n={n} j={j}");
    if high_size > low_size {
        LEFT
    } else {
        RIGHT
    }
}

/// "'Least worst error' means over all j from 2^m to 2^(m+1) - 1"; with one, after
/// document 02, L5, "least is over values up to" 2^(m+1).
/// Looks at every such j; gives the least worst error and all j that reach it.
pub fn best(k: i64, m: i64, kind: Kind, n: i64) -> (i64, Vec<i64>) {
    let mut least = i64::MAX;
    let mut reach_it = Vec::new();
    for j in power(m)..kind.cap(m) + 1 {
        let w = worst(k, m, n, j);
        if w < least {
            least = w;
            reach_it.clear();
        }
        if w == least {
            reach_it.push(j);
        }
    }
    (least, reach_it)
}

/// How far j lies from 2^(k+m+2)/(2i+1), times 2i+1: an exact whole number.
/// For one interval 2i+1 is the same for all j, so these compare as the
/// distances themselves do.
pub fn distance(k: i64, m: i64, n: i64, j: i64) -> i64 {
    (j * (2 * i_of(k, n) + 1) - power(k + m + 2)).abs()
}

/// "Two neighbouring values can be equally good [...] The builder then takes
/// the value by the rule above", that is "the whole number nearest to
/// 2^(k+m+2)/(2i+1)". Picks from the values that `best` found, and only there.
pub fn builders_choice(k: i64, m: i64, n: i64, equally_good: &[i64]) -> i64 {
    let nearest = equally_good.iter().map(|&j| distance(k, m, n, j)).min().unwrap();
    let mut at_that_distance = equally_good.iter().filter(|&&j| distance(k, m, n, j) == nearest);
    let choice = *at_that_distance.next().unwrap();
    assert!(at_that_distance.next().is_none(), "the nearest value is not one value");
    choice
}

/// The digest every mode prints: "start d = 0, for each field
/// d = (d * 31 + f) mod 2^32".
pub fn digest(fields: &[u16]) -> u64 {
    fields.iter().fold(0, |d, &f| fold(d, f as u64))
}

/// One step of a digest.
pub fn fold(d: u64, value: u64) -> u64 {
    (d * 31 + value % 4294967296) % 4294967296
}
