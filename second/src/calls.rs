//! The calls of document 01 after its prose, with its refusal numbers.
//! Look up and number 6 are those of document 02, L1, and number 5 is that of L5;
//! they decide where they change document 01. A call that takes m takes the kind
//! of L5 after it.
//! Every answer starts as all zeros: "Fields that an answer doesn't use are
//! zero, with any number, 0 and 5 too."

use crate::kinds::Kind;
use crate::rules;

// ---- The refusal table and its order ---------------------------------------

/// Which cells a call was lent, and so when number 3 is due.
enum Lent {
    /// A whole table: "fewer than 2^k cells lent".
    Table(usize),
    /// A bank's own cells: "for a bank survey, fewer than 2^(k-h) in the bank".
    BankAlone(usize),
    /// A table of which only the bank is read: 3 if the bank's last cell isn't lent.
    BankInTable(usize),
}

/// What a call is to test; None where "a call hasn't got" the test.
#[derive(Default)]
struct Tests {
    k: u64,
    m: Option<u64>,
    bank: Option<(u64, u64)>, // h, b
    lent: Option<Lent>,
    n: Option<u64>,
    x: Option<u64>,
}

/// "Order in each call: 1, 2, 4 for h and b, 3, 4 for n, 6, 5; tests a call
/// hasn't got are skipped." Number 5 comes last and is left to the calls.
fn refusal(tests: Tests) -> u64 {
    let k = tests.k;
    if !(1..=15).contains(&k) {
        return 1;
    }
    if let Some(m) = tests.m {
        if !(1..=15).contains(&m) {
            return 2;
        }
    }
    // Without h and b the bank is the whole table, h = 0 and b = 0: never a 4.
    let (h, b) = tests.bank.unwrap_or((0, 0));
    if h > k || b >= 1 << h {
        return 4;
    }
    if let Some(lent) = tests.lent {
        let enough = match lent {
            Lent::Table(cells) => cells as u64 >= 1 << k,
            Lent::BankAlone(cells) => cells as u64 >= 1 << (k - h),
            Lent::BankInTable(cells) => cells as u64 >= (b + 1) << (k - h),
        };
        if !enough {
            return 3;
        }
    }
    if let Some(n) = tests.n {
        if n >= 1 << k {
            return 4;
        }
    }
    if let Some(x) = tests.x {
        // Document 02, L1: "6 now means X is 0 or above 65535."
        if x == 0 || x > 65535 {
            return 6;
        }
    }
    0
}

/// The numbers 1, 2 and 3, in that order, of a call on a whole table.
pub fn table_refusal(k: u64, m: u64, cells: usize) -> u64 {
    refusal(Tests { k, m: Some(m), lent: Some(Lent::Table(cells)), ..Tests::default() })
}

/// "5: a field >= 2^m"; document 02, L5: "5 for fields above 2^m in the new kind".
pub fn too_wide(m: u64, kind: Kind, field: u16) -> bool {
    field as i64 > kind.largest_field(m as i64)
}

/// "j = 2^m + f"
fn j_of(m: u64, field: u16) -> i64 {
    rules::power(m as i64) + field as i64
}

fn worst_of(k: u64, m: u64, n: u64, field: u16) -> u64 {
    rules::worst(k as i64, m as i64, n as i64, j_of(m, field)) as u64
}

fn side_of(k: u64, m: u64, n: u64, field: u16) -> u64 {
    rules::side(k as i64, m as i64, n as i64, j_of(m, field))
}

// ---- Build, build a bank, show a bank --------------------------------------

/// "bank b (0 to 2^h - 1) is the 2^(k-h) entries from b·2^(k-h) on"
fn bank_places(k: u64, h: u64, b: u64) -> std::ops::Range<usize> {
    let size = 1usize << (k - h);
    let first = b as usize * size;
    first..first + size
}

/// The field the builder writes at n, found by trying every value.
fn built_field(k: u64, m: u64, kind: Kind, n: u64) -> u16 {
    let (k, m, n) = (k as i64, m as i64, n as i64);
    let (_least, values) = rules::best(k, m, kind, n);
    (rules::builders_choice(k, m, n, &values) - rules::power(m)) as u16
}

/// "Build writes fields 0 to 2^k - 1. Cells after them keep their value."
pub fn build(k: u64, m: u64, kind: Kind, cells: &mut [u16]) -> u64 {
    let number = table_refusal(k, m, cells.len());
    if number == 0 {
        for n in 0..1 << k {
            cells[n] = built_field(k, m, kind, n as u64);
        }
    }
    number
}

/// "The call fills only that bank's cells, in their place within the lent table."
pub fn build_bank(k: u64, m: u64, kind: Kind, h: u64, b: u64, cells: &mut [u16]) -> u64 {
    let number = refusal(Tests {
        k,
        m: Some(m),
        bank: Some((h, b)),
        lent: Some(Lent::Table(cells.len())),
        ..Tests::default()
    });
    if number == 0 {
        for n in bank_places(k, h, b) {
            cells[n] = built_field(k, m, kind, n as u64);
        }
    }
    number
}

/// "hands the caller that stretch of the lent table itself. [...] A shown bank
/// is never empty; an empty stretch means refusal". The number comes along.
pub fn show_bank(k: u64, h: u64, b: u64, cells: &[u16]) -> (u64, &[u16]) {
    let number = refusal(Tests {
        k,
        bank: Some((h, b)),
        lent: Some(Lent::Table(cells.len())),
        ..Tests::default()
    });
    if number != 0 {
        return (number, &[]);
    }
    (0, &cells[bank_places(k, h, b)])
}

// ---- Entry error -----------------------------------------------------------

/// n is used by number 5 only.
#[derive(Debug, Default, PartialEq)]
pub struct EntryError {
    pub number: u64,
    pub n: u64,
    pub low: i64,
    pub high: i64,
    pub worst: u64,
    pub side: u64,
}

/// "takes k, m, n, f and gives low, high, worst and side"
pub fn entry_error(k: u64, m: u64, kind: Kind, n: u64, field: u16) -> EntryError {
    let number = refusal(Tests { k, m: Some(m), n: Some(n), ..Tests::default() });
    if number != 0 {
        return EntryError { number, ..EntryError::default() };
    }
    if too_wide(m, kind, field) {
        return EntryError { number: 5, n, ..EntryError::default() };
    }
    let j = j_of(m, field);
    EntryError {
        number: 0,
        n: 0,
        low: rules::low(k as i64, m as i64, n as i64, j),
        high: rules::high(k as i64, m as i64, n as i64, j),
        worst: worst_of(k, m, n, field),
        side: side_of(k, m, n, field),
    }
}

// ---- Survey, of a table and of a bank --------------------------------------

#[derive(Debug, Default, PartialEq)]
pub struct Survey {
    pub number: u64,
    pub n: u64,
    pub worst: u64,
    pub side: u64,
}

impl Survey {
    fn refused(number: u64) -> Survey {
        Survey { number, ..Survey::default() }
    }
}

/// "the largest worst error, the smallest n that has it, and that entry's
/// side", over exactly these fields, the first of which has index `first_n`.
/// "Survey and check look for 5 in the whole lent table (or bank) first".
fn survey_fields(k: u64, m: u64, kind: Kind, first_n: u64, fields: &[u16]) -> Survey {
    let entries = || (first_n..).zip(fields.iter().copied());
    if let Some((n, _)) = entries().find(|&(_, f)| too_wide(m, kind, f)) {
        return Survey { number: 5, n, ..Survey::default() };
    }
    let worst = entries().map(|(n, f)| worst_of(k, m, n, f)).max().unwrap();
    let (n, field) = entries().find(|&(n, f)| worst_of(k, m, n, f) == worst).unwrap();
    Survey { number: 0, n, worst, side: side_of(k, m, n, field) }
}

/// "Survey reads any table, optimal or not"
pub fn survey(k: u64, m: u64, kind: Kind, cells: &[u16]) -> Survey {
    let number = table_refusal(k, m, cells.len());
    if number != 0 {
        return Survey::refused(number);
    }
    // "Cells past the table change no answer"
    survey_fields(k, m, kind, 0, &cells[..1 << k])
}

/// "A bank can be surveyed by itself, given its number; it then answers with n
/// counted in the whole table." Of the cells lent, those of the bank are the
/// first, or lie at its place in the table.
fn survey_bank(k: u64, m: u64, kind: Kind, h: u64, b: u64, lent: Lent, cells: &[u16]) -> Survey {
    let in_table = matches!(lent, Lent::BankInTable(_));
    let number = refusal(Tests {
        k,
        m: Some(m),
        bank: Some((h, b)),
        lent: Some(lent),
        ..Tests::default()
    });
    if number != 0 {
        return Survey::refused(number);
    }
    let places = bank_places(k, h, b);
    let from = if in_table { places.start } else { 0 };
    survey_fields(k, m, kind, places.start as u64, &cells[from..from + places.len()])
}

/// A bank survey that is lent the bank's own cells.
pub fn survey_bank_alone(k: u64, m: u64, kind: Kind, h: u64, b: u64, cells: &[u16]) -> Survey {
    survey_bank(k, m, kind, h, b, Lent::BankAlone(cells.len()), cells)
}

/// A bank survey that is lent the table the bank lies in.
pub fn survey_bank_in_table(k: u64, m: u64, kind: Kind, h: u64, b: u64, cells: &[u16]) -> Survey {
    survey_bank(k, m, kind, h, b, Lent::BankInTable(cells.len()), cells)
}

// ---- The running tally -----------------------------------------------------

/// "It holds the widths, the next n and the finding so far", and the kind.
#[derive(Clone, Copy, Debug, PartialEq)]
pub struct Tally {
    pub k: u64,
    pub m: u64,
    pub kind: Kind,
    pub next_n: u64,
    pub worst: u64,
    pub n: u64,
    pub side: u64,
}

impl Tally {
    /// "its finding is worst 0, n 0, side 0, and starting is never refused"
    pub fn start(k: u64, m: u64, kind: Kind, first_n: u64) -> Tally {
        Tally { k, m, kind, next_n: first_n, worst: 0, n: 0, side: 0 }
    }

    /// "takes the field of that next n". Gives number, n (used by 5 only) and
    /// the tally handed back. "It is tested for 1, 2, 4 (next n) and 5 in that
    /// order; a refused tally comes back as it was, and 5 names that n."
    pub fn take(self, field: u16) -> (u64, u64, Tally) {
        let Tally { k, m, kind, next_n, .. } = self;
        let number = refusal(Tests { k, m: Some(m), n: Some(next_n), ..Tests::default() });
        if number != 0 {
            return (number, 0, self);
        }
        if too_wide(m, kind, field) {
            return (5, next_n, self);
        }
        let mut after = self;
        let worst = worst_of(k, m, next_n, field);
        // "An entry replaces the finding only where its worst is larger."
        if worst > self.worst {
            after.worst = worst;
            after.n = next_n;
            after.side = side_of(k, m, next_n, field);
        }
        after.next_n = next_n + 1;
        (0, 0, after)
    }
}

// ---- Check -----------------------------------------------------------------

#[derive(Debug, Default, PartialEq)]
pub struct Check {
    pub number: u64,
    pub yes: u64,
    pub n: u64,
    pub worst: u64,
    pub least: u64,
}

/// "answers yes, or the smallest n whose entry is not best, with its worst
/// error and the least one." An entry is best if it reaches the least worst
/// error, so of two equally good values "the checker accepts both".
pub fn check(k: u64, m: u64, kind: Kind, cells: &[u16]) -> Check {
    let number = table_refusal(k, m, cells.len());
    if number != 0 {
        return Check { number, ..Check::default() };
    }
    let table = &cells[..1 << k];
    for (n, &field) in (0..).zip(table) {
        if too_wide(m, kind, field) {
            return Check { number: 5, n, ..Check::default() };
        }
    }
    for (n, &field) in (0..).zip(table) {
        let worst = worst_of(k, m, n, field);
        let (least, _) = rules::best(k as i64, m as i64, kind, n as i64);
        let least = least as u64;
        if worst != least {
            return Check { number: 0, yes: 0, n, worst, least };
        }
    }
    Check { yes: 1, ..Check::default() }
}

// ---- Look up ---------------------------------------------------------------

/// Document 02, L1: it is to "give s with n and j".
#[derive(Debug, Default, PartialEq)]
pub struct LookUp {
    pub number: u64,
    pub s: u64,
    pub n: u64,
    pub j: u64,
}

impl LookUp {
    /// The answer's values in the order in which they are folded and printed.
    pub fn values(&self) -> [u64; 4] {
        [self.number, self.s, self.n, self.j]
    }
}

/// Document 02, L1: "the least s that brings it to 32768 or more". Every s is
/// tried in order; x is not 0, so one of them does.
fn least_shift(x: u64) -> u64 {
    let mut s = 0;
    while x << s < 32768 {
        s += 1;
    }
    s
}

/// Document 02, L1: "Lookup shall take any X from 1 to 65535, shift it left by
/// the least s that brings it to 32768 or more, and give s with n and j." For
/// the shifted X document 01 stands: "The index is floor(X/2^(15-k)) - 2^k."
pub fn look_up(k: u64, m: u64, kind: Kind, x: u64, cells: &[u16]) -> LookUp {
    let number = refusal(Tests {
        k,
        m: Some(m),
        lent: Some(Lent::Table(cells.len())),
        x: Some(x),
        ..Tests::default()
    });
    if number != 0 {
        return LookUp { number, ..LookUp::default() };
    }
    let s = least_shift(x);
    let n = (x << s) / (1 << (15 - k)) - (1 << k);
    let field = cells[n as usize];
    if too_wide(m, kind, field) {
        return LookUp { number: 5, n, ..LookUp::default() };
    }
    LookUp { number: 0, s, n, j: j_of(m, field) as u64 }
}
