//! Mode 5: the bits of precision of the tables with one, beside Table 2 of source
//! document 003. Document 02, L5: "The source's Table 2 prints 4.087 bits for 12 in
//! and 3 out". The worst errors come from standard input; none is worked out here.

use std::cmp::Ordering;
use std::collections::BTreeMap;
use std::io::Read;
use std::ops::RangeInclusive;

/// Table 2 has these widths, bits in (k) down and bits out (m) across.
const WIDTHS: RangeInclusive<u32> = 3..=12;

const TABLE_2: &str = include_str!("../table_2.txt");

/// One item for each pair of widths k, m.
type Cells<T> = BTreeMap<(u32, u32), T>;

// ---- Whole numbers of any size ---------------------------------------------

/// The digits in base 2^32, from the lowest to the highest, which is not 0.
struct Large(Vec<u32>);

impl Large {
    fn times(&mut self, factor: u32) {
        let mut carry = 0;
        for digit in &mut self.0 {
            let product = *digit as u64 * factor as u64 + carry;
            *digit = (product % 4294967296) as u32;
            carry = product / 4294967296;
        }
        if carry != 0 {
            self.0.push(carry as u32);
        }
    }

    /// By the count of digits first, then by the highest digit that differs.
    fn compare(&self, other: &Large) -> Ordering {
        let by_count = self.0.len().cmp(&other.0.len());
        by_count.then_with(|| self.0.iter().rev().cmp(other.0.iter().rev()))
    }
}

fn power(base: u32, exponent: u32) -> Large {
    let mut product = Large(vec![1]);
    for _ in 0..exponent {
        product.times(base);
    }
    product
}

// ---- Precision -------------------------------------------------------------

/// The bits of precision of a worst error of `worst` parts in 2^p, in thousandths
/// and rounded down: the largest t with t/1000 <= log2(2^p / worst). That is
/// 2^(t/1000) <= 2^p / worst, and, both sides taken 1000 times as a factor,
/// worst^1000 * 2^t <= 2^(1000 p): whole numbers only. Every t is tried in order;
/// t = 0 holds, since worst is at most 2^p.
pub fn thousandths(p: u32, worst: u32) -> u32 {
    assert!(
        0 < worst && worst as u64 <= 1 << p,
        "worst {worst} of 2^{p}"
    );
    let limit = power(2, 1000 * p);
    let mut next = power(worst, 1000);
    next.times(2);
    let mut t = 0;
    while next.compare(&limit) != Ordering::Greater {
        next.times(2);
        t += 1;
    }
    t
}

/// As the source prints it, with three decimals. "Let P = k+m+1."
fn computed(k: u32, m: u32, worst: u32) -> String {
    let t = thousandths(k + m + 1, worst);
    format!("{}.{:03}", t / 1000, t % 1000)
}

// ---- What is read ----------------------------------------------------------

/// The numbers of Table 2 as they are printed.
pub fn printed() -> Cells<String> {
    let mut cells = Cells::new();
    let rows = TABLE_2.lines().filter(|line| !line.starts_with('#'));
    for (k, row) in WIDTHS.zip(rows) {
        for (m, number) in WIDTHS.zip(row.split(' ')) {
            cells.insert((k, m), number.to_string());
        }
    }
    cells
}

/// The worst error in each line `K M one DIGEST WORST N SIDE TIES` of mode 1 whose
/// widths are those of Table 2.
pub fn worst_errors(lines: &str) -> Cells<u32> {
    let number = |word: &str| word.parse().expect("a number in a line of mode 1");
    let mut cells = Cells::new();
    for line in lines.lines() {
        let words: Vec<&str> = line.split(' ').collect();
        if let [k, m, "one", _digest, worst, _n, _side, _ties] = words[..] {
            let (k, m) = (number(k), number(m));
            if WIDTHS.contains(&k) && WIDTHS.contains(&m) {
                let before = cells.insert((k, m), number(worst));
                assert_eq!(before, None, "two lines for {k} {m} one");
            }
        }
    }
    cells
}

// ---- What is printed -------------------------------------------------------

/// The computed values, one line for each k; the cells that differ; how many agree.
pub fn report(worst_errors: &Cells<u32>) -> Vec<String> {
    let printed = printed();
    let mut rows = Vec::new();
    let mut differing = Vec::new();
    for k in WIDTHS {
        let mut row = Vec::new();
        for m in WIDTHS {
            let worst = worst_errors.get(&(k, m));
            let worst = *worst.unwrap_or_else(|| panic!("no line for {k} {m} one"));
            let (source, here) = (&printed[&(k, m)], computed(k, m, worst));
            if *source != here {
                differing.push(format!("{k} {m}: {source} in the source, {here} here"));
            }
            row.push(here);
        }
        rows.push(row.join(" "));
    }
    let agree = format!("{} of 100 agree", 100 - differing.len());
    [rows, differing, vec![agree]].concat()
}

pub fn run() {
    let mut lines = String::new();
    let read = std::io::stdin().read_to_string(&mut lines);
    read.expect("the lines of mode 1 on standard input");
    for line in report(&worst_errors(&lines)) {
        println!("{line}");
    }
}
