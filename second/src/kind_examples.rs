//! What document 02, L5 says of the two kinds of table, as tests of this program,
//! and the numbers of the source's Table 2 that it speaks of.

use crate::calls::*;
use crate::kinds::Kind::{self, Plain, WithOne};
use crate::kinds::KINDS;
use crate::{lookups, memory, precision, rules, texts, widths};

fn fields(k: u64, m: u64, kind: Kind) -> Vec<u16> {
    let mut cells = vec![0; 1 << k];
    assert_eq!(build(k, m, kind, &mut cells), 0);
    cells
}

fn survey_of_built(k: u64, m: u64, kind: Kind) -> Survey {
    survey(k, m, kind, &fields(k, m, kind))
}

// ---- (12,3) ----------------------------------------------------------------

/// "Worst for (12,3) with one is 3856 of 65536." "we get 4.000, since index 0 is
/// capped at 15 of 16": 2^4 = 65536/4096.
#[test]
fn worst_of_12_3() {
    assert_eq!(rules::power(12 + 3 + 1), 65536);
    assert_eq!(survey_of_built(12, 3, WithOne).worst, 3856);
    assert_eq!(survey_of_built(12, 3, Plain).worst, 4096);
    assert_eq!(survey_of_built(12, 3, Plain).n, 0);
}

#[test]
fn index_0_of_12_3() {
    assert_eq!(rules::best(12, 3, Plain, 0), (4096, vec![15]));
    assert_eq!(rules::best(12, 3, WithOne, 0), (16, vec![16]));
    assert_eq!(fields(12, 3, Plain)[0], 7);
    assert_eq!(fields(12, 3, WithOne)[0], 8);
    let no = Check { number: 0, yes: 0, n: 0, worst: 4096, least: 16 };
    assert_eq!(check(12, 3, WithOne, &fields(12, 3, Plain)), no);
    assert_eq!(check(12, 3, WithOne, &fields(12, 3, WithOne)).yes, 1);
    // 1 times 1.0 is 1: no error at the left end
    let error = entry_error(12, 3, WithOne, 0, 8);
    assert_eq!((error.low, error.high, error.worst, error.side), (-16, 0, 16, rules::RIGHT));
    let found = look_up(12, 3, WithOne, 32768, &fields(12, 3, WithOne));
    assert_eq!(found, LookUp { number: 0, s: 0, n: 0, j: 16 });
}

// ---- Both kinds side by side -----------------------------------------------

/// "For m >= k both kinds build the same table." For m < k they do not here.
#[test]
fn same_table_where_m_is_at_least_k() {
    for k in 1..=8 {
        for m in 1..=8 {
            let same = fields(k, m, Plain) == fields(k, m, WithOne);
            assert_eq!(same, m >= k, "k={k} m={m}");
        }
    }
}

/// Demand 3: for each interval of the second table "its best entry's worst error,
/// as an exact fraction, is no larger than that of the best entry of the first
/// table whose interval contains it".
fn nothing_loosens(first: (i64, i64, Kind), second: (i64, i64, Kind)) -> bool {
    let ((k1, m1, kind1), (k2, m2, kind2)) = (first, second);
    (0..1 << k2).all(|n| {
        let n1 = n / rules::power(k2 - k1);
        let (least1, _) = rules::best(k1, m1, kind1, n1);
        let (least2, _) = rules::best(k2, m2, kind2, n);
        least2 * rules::power(k1 + m1 + 1) <= least1 * rules::power(k2 + m2 + 1)
    })
}

/// "Demands 2 and 3 hold per kind, and from plain to with one". Every two pairs of
/// widths up to 6, "the second with neither width smaller".
#[test]
fn demand_3() {
    for (k1, m1) in (1..=6).flat_map(|k| (1..=6).map(move |m| (k, m))) {
        for (k2, m2) in (k1..=6).flat_map(|k| (m1..=6).map(move |m| (k, m))) {
            for (kind1, kind2) in [(Plain, Plain), (WithOne, WithOne), (Plain, WithOne)] {
                assert!(nothing_loosens((k1, m1, kind1), (k2, m2, kind2)));
            }
        }
    }
}

/// "the step from with one to plain is not claimed": it fails.
#[test]
fn demand_3_fails_from_with_one_to_plain() {
    assert!(!nothing_loosens((12, 3, WithOne), (12, 3, Plain)));
    assert!(nothing_loosens((12, 3, Plain), (12, 3, WithOne)));
}

// ---- Number 5 --------------------------------------------------------------

/// The number of each call that looks at a field, and the n that it gives with it,
/// for a table of (2, m) whose entry 1 has this field and all others 0.
fn numbers(m: u64, kind: Kind, field: u16) -> Vec<(u64, u64)> {
    let cells = [0, field, 0, 0];
    let entry = entry_error(2, m, kind, 1, field);
    let table = survey(2, m, kind, &cells);
    let alone = survey_bank_alone(2, m, kind, 1, 0, &cells[..2]);
    let in_table = survey_bank_in_table(2, m, kind, 1, 0, &cells);
    let check = check(2, m, kind, &cells);
    let found = look_up(2, m, kind, 40960, &cells);
    let (taken, n, _) = Tally::start(2, m, kind, 1).take(field);
    let written = memory::write(2, m, kind, &cells, &mut [0; 99]);
    vec![
        (entry.number, entry.n),
        (table.number, table.n),
        (alone.number, alone.n),
        (in_table.number, in_table.n),
        (check.number, check.n),
        (found.number, found.n),
        (taken, n),
        (written.number, written.n),
    ]
}

/// "Refusals: 5 for fields above 2^m in the new kind"
#[test]
fn fields_that_are_refused() {
    for m in 1..=15 {
        let one = 1 << m;
        let refuses_all = |kind, field| numbers(m, kind, field) == [(5, 1); 8];
        let takes_all =
            |kind, field| numbers(m, kind, field).iter().all(|&(number, _)| number == 0);
        assert!(takes_all(Plain, one - 1) && takes_all(WithOne, one - 1));
        assert!(refuses_all(Plain, one) && takes_all(WithOne, one));
        assert!(refuses_all(Plain, one + 1) && refuses_all(WithOne, one + 1));
    }
}

/// "field 2^m is allowed and means 1.0", 2^(m+1) of 2^(m+1).
#[test]
fn field_of_exactly_one() {
    for m in 1..=15 {
        let cells = [0, 1 << m];
        assert_eq!(look_up(1, m, WithOne, 65535, &cells).j, 1 << (m + 1));
    }
}

#[test]
fn a_tally_keeps_its_kind() {
    for kind in KINDS {
        let fresh = Tally::start(5, 3, kind, 0);
        let (number, n, after) = fresh.take(7);
        assert_eq!((number, n, fresh.kind, after.kind), (0, 0, kind, kind));
        assert_eq!(after.take(9), (5, 1, after));
    }
    let (number, _, after) = Tally::start(5, 3, WithOne, 0).take(8);
    // 2^9 - 32*16 = 0 and 2^9 - 33*16 = -16
    let worst_16 =
        Tally { k: 5, m: 3, kind: WithOne, next_n: 1, worst: 16, n: 0, side: rules::RIGHT };
    assert_eq!((number, after), (0, worst_16));
}

// ---- Memory texts ----------------------------------------------------------

/// "Memory files of L2 for the new kind have as many digits as m+1 bits need."
/// Of each m: the digits of a line for a plain table and for one with one.
#[test]
fn digits_of_a_line() {
    for (m, plain, with_one) in [(1, 1, 1), (3, 1, 1), (4, 1, 2), (7, 2, 2), (8, 2, 3), (15, 4, 4)]
    {
        for (kind, digits) in [(Plain, plain), (WithOne, with_one)] {
            let written = memory::write(1, m, kind, &[0, 1], &mut [0; 99]);
            assert_eq!((written.number, written.length), (0, 2 * (digits + 1)));
        }
    }
}

#[test]
fn written_texts_with_one() {
    for (m, cells, text) in [
        (3, [8, 7], "8\n7\n"),
        (4, [16, 15], "10\n0f\n"),
        (8, [0, 256], "000\n100\n"),
        (15, [32768, 1], "8000\n0001\n"),
    ] {
        let mut buffer = vec![0; text.len()];
        assert_eq!(memory::write(1, m, WithOne, &cells, &mut buffer).number, 0);
        assert_eq!(buffer, text.as_bytes());
        let mut read_back = [0; 2];
        assert_eq!(memory::read(1, m, WithOne, &buffer, &mut read_back).number, 0);
        assert_eq!(read_back, cells);
        let one_byte_less = &mut buffer[1..];
        assert_eq!(memory::write(1, m, WithOne, &cells, one_byte_less).number, 17);
    }
}

/// "5 for fields above 2^m in the new kind, in L2's reader too"
#[test]
fn values_that_the_reader_refuses() {
    let too_wide = memory::Read { number: 5, offset: 2, n: 0 };
    for m in 1..=15 {
        for kind in KINDS {
            let one = 1 << m;
            for value in [one - 1, one, one + 1, 65535, 65536 + one] {
                let mut cells = [9; 2];
                let answer =
                    memory::read(1, m, kind, format!("0 {value:x}").as_bytes(), &mut cells);
                if value < one || (value == one && kind == WithOne) {
                    assert_eq!((answer, cells), (memory::Read::default(), [0, value as u16]));
                } else {
                    assert_eq!((&answer, cells), (&too_wide, [9; 2]));
                }
            }
        }
    }
}

// ---- Printed lines ---------------------------------------------------------

/// (2,1) with one: 32/9, 32/11, 32/13 and 32/15 are nearest to 4, 3, 2 and 2. The
/// errors low, high are -4, 0; -2, 1; 2, 4; 0, 2 of 16. One tie: at index 0 the
/// value 3 has 1, 4.
#[test]
fn lines_with_one() {
    let digest = [2, 1, 0, 0].iter().fold(0, |d, &f| rules::fold(d, f));
    assert_eq!(widths::line(2, 1, WithOne), format!("2 1 one {digest} 4 0 1 1"));
    assert!(lookups::digest_line(2, 1, WithOne).starts_with("2 1 one "));
    let answers = lookups::answers_line(2, 1, WithOne, 32768, 4);
    assert_eq!(answers, "2 1 one 32768 4: 5 0 0 0, 0 0 0 4");
    assert!(texts::table_line(2, 1, WithOne).starts_with("2 1 one 0 8 0 "));
}

// ---- Table 2 of the source -------------------------------------------------

/// The source: "-log2(43/2048) = 5.573...", "-log2(71/4096) = 5.850...". L5: "4.087
/// bits for 12 in and 3 out; we get 4.000".
#[test]
fn precisions_in_thousandths() {
    assert_eq!(precision::thousandths(11, 43), 5573);
    assert_eq!(precision::thousandths(12, 71), 5850);
    assert_eq!(precision::thousandths(16, 3856), 4087);
    assert_eq!(precision::thousandths(16, 4096), 4000);
    assert_eq!(precision::thousandths(16, 4097), 3999);
    assert_eq!(precision::thousandths(16, 65536), 0);
}

/// Ten rows of ten, "the same for all k, m in the table" but for the place that
/// document 01 names: "9.582 at row 11, column 9, against the claimed symmetry".
#[test]
fn table_2_as_printed() {
    let printed = precision::printed();
    assert_eq!(printed.len(), 100);
    for (&(k, m), number) in &printed {
        let misprint = (k, m) == (11, 9) || (k, m) == (9, 11);
        assert_eq!(*number == printed[&(m, k)], !misprint);
    }
    assert_eq!((printed[&(11, 9)].as_str(), printed[&(12, 3)].as_str()), ("9.582", "4.087"));
}

#[test]
fn lines_of_mode_1_as_input() {
    let lines = "12 3 1 4096 0 0 0\n12 3 one 1 3856 2 0 0\n2 3 one 1 9 9 0 0\n3 13 one 1 9 9 0 0\n";
    let worst_errors = precision::worst_errors(lines);
    assert!(worst_errors.into_iter().eq([((12, 3), 3856)]));
}
