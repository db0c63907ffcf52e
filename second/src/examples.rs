//! Document 01's own numbers, for the look-up those of document 02, L1, and for
//! the side what L4 says, as tests of this program. They speak of plain tables;
//! those of L5 are in kind_examples.rs.

use crate::calls::*;
use crate::hostile;
use crate::kinds::Kind::Plain;
use crate::kinds::KINDS;
use crate::lookups;
use crate::rules::{self, LEFT, RIGHT};
use crate::widths;
use std::collections::BTreeSet;

/// The values j of the built table.
fn built_values(k: u64, m: u64) -> Vec<u64> {
    fields(k, m).iter().map(|&f| (1 << m) + f as u64).collect()
}

fn fields(k: u64, m: u64) -> Vec<u16> {
    let mut cells = vec![0; 1 << k];
    assert_eq!(build(k, m, Plain, &mut cells), 0);
    cells
}

fn done(n: u64, worst: u64, side: u64) -> Survey {
    Survey { number: 0, n, worst, side }
}

fn error(low: i64, high: i64, worst: u64, side: u64) -> EntryError {
    EntryError { number: 0, n: 0, low, high, worst, side }
}

fn looked_up(s: u64, n: u64, j: u64) -> LookUp {
    LookUp { number: 0, s, n, j }
}

fn refused(number: u64, n: u64) -> LookUp {
    LookUp { number, s: 0, n, j: 0 }
}

// ---- The twelve examples ---------------------------------------------------

#[test]
fn example_01() {
    assert_eq!(built_values(1, 2), [6, 5]);
}

#[test]
fn example_02() {
    assert_eq!(check(1, 2, Plain, &[2, 0]), Check { yes: 1, ..Check::default() });
    assert_eq!(check(1, 2, Plain, &[2, 1]), Check { yes: 1, ..Check::default() });
    assert_eq!(rules::best(1, 2, Plain, 1), (4, vec![4, 5]));
}

#[test]
fn example_03() {
    assert_eq!(check(1, 2, Plain, &[3, 1]), Check { number: 0, yes: 0, n: 0, worst: 5, least: 4 });
}

#[test]
fn example_04() {
    assert_eq!(rules::best(1, 4, Plain, 0), (14, vec![25, 26]));
    assert_eq!(built_values(1, 4)[0], 26);
}

#[test]
fn example_05() {
    assert_eq!(built_values(2, 2), [7, 6, 5, 4]);
    assert_eq!(survey(2, 2, Plain, &fields(2, 2)), done(0, 4, LEFT));
}

#[test]
fn example_06() {
    assert_eq!(built_values(3, 3), [15, 13, 12, 11, 10, 9, 9, 8]);
    assert_eq!(survey(3, 3, Plain, &fields(3, 3)), done(1, 11, LEFT));
}

#[test]
fn example_07() {
    let values = built_values(5, 5);
    assert_eq!((values[8], values[18]), (51, 41));
    assert_eq!(entry_error(5, 5, Plain, 8, 51 - 32), error(-43, 8, 43, RIGHT));
    assert_eq!(entry_error(5, 5, Plain, 18, 41 - 32).worst, 43);
    assert_eq!(survey(5, 5, Plain, &fields(5, 5)), done(8, 43, RIGHT));
}

#[test]
fn example_08() {
    assert_eq!(built_values(5, 6)[3], 115);
    assert_eq!(entry_error(5, 6, Plain, 3, 115 - 64), error(-44, 71, 71, LEFT));
}

#[test]
fn example_09() {
    assert_eq!(built_values(4, 3)[0], 15);
    assert_eq!(entry_error(4, 3, Plain, 0, 15 - 8), error(1, 16, 16, LEFT));
}

#[test]
fn example_10() {
    assert_eq!(built_values(10, 10)[36], 1978);
    assert_eq!(entry_error(10, 10, Plain, 36, 1978 - 1024), error(-1506, 472, 1506, RIGHT));
    assert_eq!(survey(10, 10, Plain, &fields(10, 10)), done(36, 1506, RIGHT));
}

/// Document 02, L1: "In example 11, 32767 is no longer refused: s = 1, n = 31,
/// j = 32. Refusals: 6 now means X is 0 or above 65535."
#[test]
fn example_11() {
    let table = fields(5, 5);
    assert_eq!(look_up(5, 5, Plain, 40960, &table), looked_up(0, 8, 51));
    assert_eq!(look_up(5, 5, Plain, 65535, &table), looked_up(0, 31, 32));
    assert_eq!(look_up(5, 5, Plain, 32767, &table), looked_up(1, 31, 32));
    assert_eq!(look_up(5, 5, Plain, 65536, &table), refused(6, 0));
    assert_eq!(look_up(5, 5, Plain, 0, &table), refused(6, 0));
}

#[test]
fn example_12() {
    let table: Vec<u16> = (0..32).collect();
    assert_eq!(show_bank(5, 2, 3, &table), (0, &table[24..=31]));
    assert_eq!(show_bank(5, 2, 4, &table), (4, &[][..]));
    assert_eq!(show_bank(5, 6, 0, &table), (4, &[][..]));
    assert_eq!(show_bank(5, 5, 31, &table), (0, &table[31..=31]));
}

// ---- Other numbers and sentences of document 01 ----------------------------

#[test]
fn the_listing_for_1_2() {
    assert_eq!(entry_error(1, 2, Plain, 0, 2), error(-2, 4, 4, LEFT));
    assert_eq!(entry_error(1, 2, Plain, 1, 1), error(-4, 1, 4, RIGHT));
    assert_eq!(survey(1, 2, Plain, &fields(1, 2)), done(0, 4, LEFT));
}

#[test]
fn worst_errors_for_k_10() {
    for (m, worst) in [(10, 1506), (11, 2532), (12, 4517)] {
        assert_eq!(survey(10, m, Plain, &fields(10, m)).worst, worst);
    }
}

#[test]
fn errors_that_look_right() {
    assert_eq!(rules::worst(5, 5, 3, 59), 76);
    assert_eq!(rules::worst(5, 5, 3, 58), 40);
    assert_eq!(rules::best(5, 5, Plain, 3), (40, vec![58]));
}

/// Up to width 8, for both kinds: the value found by search is, of all values a
/// field can hold, the one nearest to 2^(k+m+2)/(2i+1); and it keeps the ceilings.
#[test]
fn the_rule_and_the_ceilings() {
    for (k, m) in (1..=8).flat_map(|k| (1..=8).map(move |m| (k, m))) {
        let ceiling = if m >= k { (1 << m) + (1 << (k - 1)) } else { (1 << k) + (1 << (m - 1)) };
        for kind in KINDS {
            let every: Vec<i64> = (1 << m..=kind.cap(m)).collect();
            for n in 0..1 << k {
                let (least, values) = rules::best(k, m, kind, n);
                let choice = rules::builders_choice(k, m, n, &values);
                assert_eq!(choice, rules::builders_choice(k, m, n, &every));
                assert!(least <= ceiling);
            }
        }
    }
}

#[test]
fn a_line_of_widths() {
    // fields 2, 1: digest 2 * 31 + 1; one tie, at n = 1 (example 2)
    assert_eq!(widths::line(1, 2, Plain), "1 2 63 4 0 0 1");
    // fields 3, 2, 1, 0
    assert_eq!(widths::line(2, 2, Plain), format!("2 2 {} 4 0 0 0", ((3 * 31 + 2) * 31 + 1) * 31));
}

/// Document 02, L4: "an entry's two errors never have equal size". Seen here up
/// to width 5, for everything that a cell can hold; `side` would panic.
#[test]
fn errors_never_have_equal_size() {
    for k in 1..=5 {
        for m in 1..=5 {
            for n in 0..1 << k {
                for f in 0..=65535 {
                    let j = (1 << m) + f;
                    let left = rules::high(k, m, n, j).abs() == rules::worst(k, m, n, j);
                    assert_eq!(rules::side(k, m, n, j), if left { LEFT } else { RIGHT });
                }
            }
        }
    }
}

// ---- Refusals --------------------------------------------------------------

/// "a buffer of 2^k - 1, 2^k and 2^k + 1 cells"; "No refusal writes a cell";
/// "Cells past the table [...] keep their values."
#[test]
fn buffers_around_the_table() {
    let mut short = [9; 3];
    assert_eq!((build(2, 2, Plain, &mut short), short), (3, [9; 3]));
    let mut exact = [9; 4];
    assert_eq!((build(2, 2, Plain, &mut exact), exact), (0, [3, 2, 1, 0]));
    let mut long = [9; 5];
    assert_eq!((build(2, 2, Plain, &mut long), long), (0, [3, 2, 1, 0, 9]));
    assert_eq!(survey(2, 2, Plain, &long), done(0, 4, LEFT)); // the 9 past the table is not read
    assert_eq!(check(2, 2, Plain, &long).yes, 1);
    let mut bank = [9; 4];
    assert_eq!((build_bank(2, 2, Plain, 1, 1, &mut bank), bank), (0, [9, 9, 1, 0]));
    assert_eq!((build_bank(2, 2, Plain, 1, 0, &mut bank), bank), (0, [3, 2, 1, 0]));
}

/// "Order in each call: 1, 2, 4 for h and b, 3, 4 for n, 6, 5"
#[test]
fn order_of_refusals() {
    assert_eq!(build_bank(0, 0, Plain, 9, 9, &mut []), 1);
    assert_eq!(build_bank(16, 2, Plain, 0, 0, &mut []), 1);
    assert_eq!(build_bank(2, 16, Plain, 9, 9, &mut []), 2);
    assert_eq!(build_bank(2, 2, Plain, 3, 0, &mut []), 4);
    assert_eq!(build_bank(2, 2, Plain, 1, 2, &mut []), 4);
    assert_eq!(build_bank(2, 2, Plain, 1, 1, &mut []), 3);
    assert_eq!(entry_error(2, 2, Plain, 4, 4).number, 4);
    let wide = EntryError { number: 5, n: 3, ..EntryError::default() };
    assert_eq!(entry_error(2, 2, Plain, 3, 4), wide);
    assert_eq!(look_up(0, 0, Plain, 0, &[9; 3]), refused(1, 0));
    assert_eq!(look_up(2, 0, Plain, 0, &[9; 3]), refused(2, 0));
    assert_eq!(look_up(2, 2, Plain, 0, &[9; 3]), refused(3, 0));
    assert_eq!(look_up(2, 2, Plain, 0, &[9; 4]), refused(6, 0));
    // "of all the cells, its answer depends on cell n alone"; s is not used by 5
    assert_eq!(look_up(2, 2, Plain, 65535, &[9, 9, 9, 9]), refused(5, 3));
    assert_eq!(look_up(2, 2, Plain, 65535, &[9, 9, 9, 0]), looked_up(0, 3, 4));
    assert_eq!(look_up(2, 2, Plain, 7, &[9, 9, 9, 9]), refused(5, 3));
    assert_eq!(look_up(2, 2, Plain, 7, &[9, 9, 9, 0]), looked_up(13, 3, 4));
    // 5 is looked for in the whole table before anything else is found
    assert_eq!(check(2, 2, Plain, &[0, 0, 0, 4]), Check { number: 5, n: 3, ..Check::default() });
    assert_eq!(survey(2, 2, Plain, &[3, 2, 7, 7]), Survey { number: 5, n: 2, worst: 0, side: 0 });
}

/// "a bank survey names that n in the whole table"
#[test]
fn bank_surveys() {
    let table = fields(5, 5);
    for b in 0..4 {
        let own = &table[b * 8..b * 8 + 8];
        let alone = survey_bank_alone(5, 5, Plain, 2, b as u64, own);
        assert_eq!(alone, survey_bank_in_table(5, 5, Plain, 2, b as u64, &table));
        assert!(alone.n / 8 == b as u64);
        assert_eq!(survey_bank_alone(5, 5, Plain, 2, b as u64, &own[..7]).number, 3);
        assert_eq!(survey_bank_in_table(5, 5, Plain, 2, b as u64, &table[..b * 8 + 7]).number, 3);
    }
    assert_eq!(survey_bank_alone(5, 5, Plain, 2, 1, &table[8..16]), done(8, 43, RIGHT));
    let wide = Survey { number: 5, n: 9, worst: 0, side: 0 };
    assert_eq!(survey_bank_alone(5, 5, Plain, 2, 1, &[0, 32, 0, 32, 0, 0, 0, 0]), wide);
}

#[test]
fn tally_agrees_with_survey() {
    let table = fields(5, 5);
    let mut tally = Tally::start(5, 5, Plain, 0);
    for &field in &table {
        let (number, n, after) = tally.take(field);
        assert_eq!((number, n), (0, 0));
        tally = after;
    }
    assert_eq!(tally, Tally { k: 5, m: 5, kind: Plain, next_n: 32, worst: 43, n: 8, side: RIGHT });
    assert_eq!(tally.take(99), (4, 0, tally)); // 4 before 5
    let fresh = Tally::start(5, 5, Plain, 7);
    assert_eq!(fresh.take(32), (5, 7, fresh));
    assert_eq!(Tally::start(0, 0, Plain, 7).take(32).0, 1);
    assert_eq!(Tally::start(5, 16, Plain, 99).take(32).0, 2);
}

// ---- Look-ups --------------------------------------------------------------

/// Every X and every k: the shift brings X to 32768 or more and not past 65535,
/// and "Interval n holds the x with i/2^k <= x < (i+1)/2^k", x = X·2^s/32768.
/// The fields are 0, 1, 2 and so on, so j tells which cell was read.
#[test]
fn every_divisor_finds_its_interval() {
    let cells: Vec<u16> = (0..32768).collect();
    for k in 1..=15 {
        for x in 1..=65535 {
            let LookUp { number, s, n, j } = look_up(k, 15, Plain, x, &cells[..1 << k]);
            let shifted = x * (1 << s);
            assert!(32768 <= shifted && shifted < 65536);
            let i = (1 << k) + n;
            assert!(i * 32768 <= shifted * (1 << k) && shifted * (1 << k) < (i + 1) * 32768);
            assert_eq!((number, j), (0, 32768 + n));
        }
    }
}

#[test]
fn the_tables_of_widths_are_the_built_ones() {
    for k in 1..=6 {
        for m in 1..=6 {
            assert_eq!(widths::fields(k, m, Plain), fields(k as u64, m as u64));
        }
    }
}

/// (1,1) has the values 3, 2. The X that are shifted by s run from 2^(15-s) to
/// 2^(16-s) - 1, and those from 3·2^(14-s) on lie in interval 1.
#[test]
fn a_digest_line_of_lookups() {
    let mut digest = 0;
    for s in (0..=15).rev() {
        for x in 1 << (15 - s)..1 << (16 - s) {
            let (n, j) = if 2 * x >= 3 << (15 - s) { (1, 2) } else { (0, 3) };
            digest = [0, s, n, j].iter().fold(digest, |d, &v| rules::fold(d, v));
        }
    }
    assert_eq!(lookups::digest_line(1, 1, Plain), format!("1 1 {digest}"));
}

#[test]
fn answer_lines_of_lookups() {
    assert_eq!(lookups::answers_line(5, 5, Plain, 40960, 32), "5 5 40960 32: 5 0 8 0, 0 0 8 51");
    assert_eq!(lookups::answers_line(5, 5, Plain, 32767, 32), "5 5 32767 32: 5 0 31 0, 0 1 31 32");
    assert_eq!(lookups::answers_line(5, 5, Plain, 32767, 31), "5 5 32767 31: 3 0 0 0, 3 0 0 0");
    assert_eq!(lookups::answers_line(5, 5, Plain, 65536, 32), "5 5 65536 32: 6 0 0 0, 6 0 0 0");
    assert_eq!(lookups::answers_line(0, 5, Plain, 40960, 32), "0 5 40960 32: 1 0 0 0, 1 0 0 0");
    assert_eq!(lookups::answers_line(5, 16, Plain, 40960, 32), "5 16 40960 32: 2 0 0 0, 2 0 0 0");
}

// ---- The drive -------------------------------------------------------------

/// The drive makes every call give every number it can give, and no other, with
/// each kind. Both answers of the check and every shift of a look-up come up.
#[test]
fn the_drive_reaches_every_refusal() {
    let mut seen = [vec![BTreeSet::new(); 10], vec![BTreeSet::new(); 10]];
    let (mut yes, mut no) = ([0; 2], [0; 2]);
    let mut shifts = BTreeSet::new();
    let mut drive = hostile::Drive::new();
    for _ in 0..hostile::CALLS {
        let (op, kind, values) = drive.next_call();
        let kind = kind.number() as usize;
        seen[kind][op as usize].insert(values[0]);
        if op == 7 && values[0] == 0 {
            if values[1] == 1 { yes[kind] += 1 } else { no[kind] += 1 }
        }
        if op == 8 && values[0] == 0 {
            shifts.insert(values[1]);
        }
    }
    let can_give: [&[u64]; 10] = [
        &[0, 1, 2, 3],          // build
        &[0, 1, 2, 3, 4],       // build a bank
        &[0, 1, 3, 4],          // show a bank
        &[0, 1, 2, 4, 5],       // entry error
        &[0, 1, 2, 3, 5],       // survey
        &[0, 1, 2, 3, 4, 5],    // bank survey, the bank's own cells
        &[0, 1, 2, 3, 4, 5],    // bank survey, the table
        &[0, 1, 2, 3, 5],       // check
        &[0, 1, 2, 3, 5, 6],    // look up
        &[0, 1, 2, 4, 5],       // damage and tally
    ];
    for seen in seen {
        for (op, numbers) in can_give.iter().enumerate() {
            assert!(seen[op].iter().eq(numbers.iter()), "op {op}: {:?}", seen[op]);
        }
    }
    println!("check said yes {yes:?} times, no {no:?} times (plain, with one)");
    assert!(yes.iter().chain(&no).all(|&times| times > 0));
    assert!(shifts.into_iter().eq(0..=15));
}
