//! Mode 2: a pseudo-random drive of every call, good inputs and bad ones mixed,
//! over one buffer that is never cleaned, so that damaged tables arise.
//! The order of the draws is part of the format; README.md writes it out.

use crate::calls::{self, Tally};
use crate::drawing::Generator;
use crate::kinds::Kind;
use crate::rules;

pub const CALLS: u64 = 40000;

pub struct Drive {
    generator: Generator,
    cells: [u16; 64],
    pub digest: u64,
}

impl Drive {
    pub fn new() -> Drive {
        Drive { generator: Generator::new(), cells: [0; 64], digest: 0 }
    }

    fn pick(&mut self, n: u64) -> u64 {
        self.generator.pick(n)
    }

    fn width(&mut self) -> u64 {
        self.generator.width(20, 6)
    }

    /// The good ones are drawn so that every shift comes up.
    fn divisor(&mut self) -> u64 {
        match self.pick(8) {
            0 => 0,
            1 => 65536,
            2 => 2147483648,
            3 => 4294967295,
            _ => {
                let y = 32768 + self.pick(32768);
                let t = self.pick(16);
                y / (1 << t)
            }
        }
    }

    /// Draws one call's inputs, makes the call and folds its answer in.
    /// Gives op, the kind and the values folded after op; the first one is the
    /// number.
    pub fn next_call(&mut self) -> (u64, Kind, Vec<u64>) {
        let op = self.pick(10);
        let k = self.width();
        let m = self.width();
        let kind = self.generator.kind();
        let h = self.pick(8);
        let b = self.pick(70);
        let n = self.pick(70);
        let f = self.pick(200) as u16;
        let x = self.divisor();
        let lent = self.pick(65) as usize;

        let values = match op {
            0 => {
                let number = calls::build(k, m, kind, &mut self.cells[..lent]);
                self.with_all_cells(number)
            }
            1 => {
                let number = calls::build_bank(k, m, kind, h, b, &mut self.cells[..lent]);
                self.with_all_cells(number)
            }
            2 => {
                let (number, stretch) = calls::show_bank(k, h, b, &self.cells[..lent]);
                vec![number, stretch.len() as u64, rules::digest(stretch)]
            }
            3 => {
                let e = calls::entry_error(k, m, kind, n, f);
                let (low_sign, low_size) = sign_and_size(e.low);
                let (high_sign, high_size) = sign_and_size(e.high);
                vec![e.number, e.n, low_sign, low_size, high_sign, high_size, e.worst, e.side]
            }
            4 => survey_values(calls::survey(k, m, kind, &self.cells[..lent])),
            5 => survey_values(calls::survey_bank_alone(k, m, kind, h, b, &self.cells[..lent])),
            6 => survey_values(calls::survey_bank_in_table(k, m, kind, h, b, &self.cells[..lent])),
            7 => {
                let c = calls::check(k, m, kind, &self.cells[..lent]);
                vec![c.number, c.yes, c.n, c.worst, c.least]
            }
            8 => calls::look_up(k, m, kind, x, &self.cells[..lent]).values().to_vec(),
            _ => {
                self.cells[n as usize % 64] = f;
                let (number1, n1, tally) = Tally::start(k, m, kind, n).take(f);
                let (number2, n2, t) = tally.take(f % 4);
                let kind = t.kind.number();
                vec![number1, n1, number2, n2, t.k, t.m, kind, t.next_n, t.worst, t.n, t.side]
            }
        };

        self.digest = rules::fold(self.digest, op);
        for &value in &values {
            self.digest = rules::fold(self.digest, value);
        }
        (op, kind, values)
    }

    fn with_all_cells(&self, number: u64) -> Vec<u64> {
        let mut values = vec![number];
        values.extend(self.cells.iter().map(|&cell| cell as u64));
        values
    }
}

/// A signed value as two: 1 if it is negative, else 0; then its size.
fn sign_and_size(v: i64) -> (u64, u64) {
    ((v < 0) as u64, v.unsigned_abs())
}

fn survey_values(s: calls::Survey) -> Vec<u64> {
    vec![s.number, s.n, s.worst, s.side]
}

pub fn run() {
    let mut drive = Drive::new();
    for c in 0..CALLS {
        drive.next_call();
        if (c + 1) % 1000 == 0 {
            println!("{} {}", c + 1, drive.digest);
        }
    }
}
