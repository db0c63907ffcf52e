//! Mode 1: every table of both kinds for k and m from 1 to 15, by exhaustive
//! search.

use crate::kinds::{Kind, KINDS};
use crate::{calls, rules};

/// What was found for one interval: the field of the builder's value, and how
/// many values reach the least worst error.
#[derive(Clone, Copy, Default)]
struct Found {
    field: u16,
    equally_good: usize,
}

fn find(k: i64, m: i64, kind: Kind, n: i64) -> Found {
    let (_least, values) = rules::best(k, m, kind, n);
    let j = rules::builders_choice(k, m, n, &values);
    // "An entry is stored as a field f [...] j = 2^m + f"
    Found { field: (j - rules::power(m)) as u16, equally_good: values.len() }
}

/// The whole table, one half of the intervals on each of two threads.
fn table(k: i64, m: i64, kind: Kind) -> Vec<Found> {
    let mut found = vec![Found::default(); 1 << k];
    let half = found.len() / 2;
    std::thread::scope(|threads| {
        for (part, places) in found.chunks_mut(half).enumerate() {
            threads.spawn(move || {
                for (place, slot) in places.iter_mut().enumerate() {
                    *slot = find(k, m, kind, (part * half + place) as i64);
                }
            });
        }
    });
    found
}

fn fields_of(found: &[Found]) -> Vec<u16> {
    found.iter().map(|f| f.field).collect()
}

/// The fields of the built table, in index order.
pub fn fields(k: i64, m: i64, kind: Kind) -> Vec<u16> {
    fields_of(&table(k, m, kind))
}

/// `K M DIGEST WORST N SIDE TIES`, or `K M one DIGEST WORST N SIDE TIES`
pub fn line(k: i64, m: i64, kind: Kind) -> String {
    let found = table(k, m, kind);
    assert!(found.iter().all(|f| f.equally_good == 1 || f.equally_good == 2));
    let ties = found.iter().filter(|f| f.equally_good == 2).count();
    let fields = fields_of(&found);
    let survey = calls::survey(k as u64, m as u64, kind, &fields);
    assert_eq!(survey.number, 0);
    format!(
        "{k} {m}{} {} {} {} {} {ties}",
        kind.mark(),
        rules::digest(&fields),
        survey.worst,
        survey.n,
        survey.side
    )
}

pub fn run() {
    for kind in KINDS {
        for k in 1..=15 {
            for m in 1..=15 {
                println!("{}", line(k, m, kind));
            }
        }
    }
}
