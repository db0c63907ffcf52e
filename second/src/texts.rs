//! Mode 4: memory texts. Built tables of both kinds are written and read back;
//! then a pseudo-random drive reads good texts and damaged ones, and writes.
//! The order of the draws is part of the format; README.md writes it out.

use crate::drawing::Generator;
use crate::kinds::{Kind, KINDS};
use crate::memory::{self, Read, Written};
use crate::{calls, rules};
use std::collections::BTreeMap;

// ---- Part 1: built tables --------------------------------------------------

/// The widths k, m of the tables that are written and read back.
const TABLES: [(u64, u64); 6] = [(1, 1), (5, 6), (10, 4), (12, 13), (15, 15), (12, 3)];

/// The buffer lent to the writer: one byte more than the longest text has.
const BUFFER: usize = 163841;

/// What every byte of it holds before.
const BUFFER_FILL: u8 = 35;

/// The cells lent to the reader.
const CELLS: usize = 32768;

/// What every one of them holds before.
const CELL_FILL: u16 = 43981;

fn digest_of_bytes(bytes: &[u8]) -> u64 {
    bytes.iter().fold(0, |d, &b| rules::fold(d, b as u64))
}

/// `K M NUMBER LENGTH N DIGEST NUMBER OFFSET N DIGEST`, or `K M one NUMBER ...`
pub fn table_line(k: u64, m: u64, kind: Kind) -> String {
    let mut table = vec![0; 1 << k];
    calls::build(k, m, kind, &mut table);
    let mut buffer = vec![BUFFER_FILL; BUFFER];
    let written = memory::write(k, m, kind, &table, &mut buffer);
    let text = &buffer[..written.length as usize];
    let mut cells = vec![CELL_FILL; CELLS];
    let read = memory::read(k, m, kind, text, &mut cells);
    format!(
        "{k} {m}{} {} {} {} {} {} {} {} {}",
        kind.mark(),
        written.number,
        written.length,
        written.n,
        digest_of_bytes(&buffer),
        read.number,
        read.offset,
        read.n,
        rules::digest(&cells)
    )
}

// ---- Part 2: the text of a round -------------------------------------------

/// Bytes that matter to a reader, and some that have no place in a text.
const PALETTE: [u8; 16] = [
    b'0', b'9', b'a', b'F', b'_', b'@', 32, 10, 9, 12, 13, b'/', b'*', b'x', b'g', 0,
];

const ROOM: usize = 600;

/// The bytes B and how many of them are the text.
struct Text {
    bytes: [u8; ROOM],
    len: usize,
}

impl Text {
    fn push(&mut self, byte: u8) {
        if self.len < ROOM {
            self.bytes[self.len] = byte;
            self.len += 1;
        }
    }

    fn push_all(&mut self, bytes: &[u8]) {
        for &byte in bytes {
            self.push(byte);
        }
    }

    /// The bytes after p move down by one.
    fn drop_byte(&mut self, p: usize) {
        for place in p + 1..self.len {
            self.bytes[place - 1] = self.bytes[place];
        }
        self.len -= 1;
    }

    /// The bytes from p on move up by one; byte p stays where it was too.
    fn double_byte(&mut self, p: usize) {
        if self.len < ROOM {
            for place in (p..self.len).rev() {
                self.bytes[place + 1] = self.bytes[place];
            }
            self.len += 1;
        }
    }
}

// ---- Part 2: the drive -----------------------------------------------------

pub const ROUNDS: u64 = 12000;

pub struct Drive {
    generator: Generator,
    cells: [u16; 64],
    text: Text,
    pub digest: u64,
    /// How often the reader and the writer gave each number.
    pub read: BTreeMap<u64, u64>,
    pub written: BTreeMap<u64, u64>,
}

impl Drive {
    pub fn new() -> Drive {
        Drive {
            generator: Generator::new(),
            cells: [0; 64],
            text: Text {
                bytes: [0; ROOM],
                len: 0,
            },
            digest: 0,
            read: BTreeMap::new(),
            written: BTreeMap::new(),
        }
    }

    fn pick(&mut self, n: u64) -> u64 {
        self.generator.pick(n)
    }

    fn width(&mut self) -> u64 {
        self.generator.width(30, 4)
    }

    fn lent(&mut self) -> usize {
        match self.pick(8) {
            0 => self.pick(17) as usize,
            _ => 64,
        }
    }

    fn room(&mut self) -> usize {
        match self.pick(6) {
            0 => self.pick(100) as usize,
            _ => ROOM,
        }
    }

    fn palette(&mut self) -> u8 {
        PALETTE[self.pick(16) as usize]
    }

    /// White space or a comment.
    fn gap(&mut self) {
        match self.pick(8) {
            0 => self.text.push(32),
            1 => self.text.push(10),
            2 => self.text.push(9),
            3 => self.text.push(12),
            4 => {
                let byte = self.palette();
                self.text.push_all(&[b'/', b'/', byte, 10]);
            }
            5 => self.text.push_all(b"/**/"),
            6 => {
                let byte = self.palette();
                self.text.push_all(&[b'/', b'*', byte, b'*', b'/']);
            }
            _ => self.text.push_all(&[10, 10]),
        }
    }

    /// v is at most 16, one digit or two.
    fn numeral(&mut self, v: u64) {
        for _ in 0..self.pick(3) {
            self.text.push(b'0');
        }
        let digits = match self.pick(4) {
            0 => format!("{v:X}"),
            1 => format!("{v:x}_"),
            _ => format!("{v:x}"),
        };
        self.text.push_all(digits.as_bytes());
    }

    fn address(&mut self, n: u64) {
        self.gap();
        self.text.push(b'@');
        self.numeral(n);
    }

    /// A good text for k, m and the kind, or for 1 where a width is not from 1 to
    /// 4. It begins at a drawn address and comes round to the one before it.
    fn make_text(&mut self, k: u64, m: u64, kind: Kind) {
        let small = |width| if (1..=4).contains(&width) { width } else { 1 };
        let count = 1 << small(k);
        self.text.len = 0;
        let first = self.pick(count);
        let a = self.pick(2);
        if first != 0 || a == 0 {
            self.address(first);
        }
        for c in 0..count {
            let n = (first + c) % count;
            if n == 0 && c != 0 {
                self.address(n);
            }
            self.gap();
            let value = self.pick((1 << small(m)) + kind.number());
            self.numeral(value);
        }
        self.gap();
    }

    /// Cuts the text off, or drops, doubles or overwrites one byte.
    fn damage(&mut self) {
        if self.text.len == 0 {
            return;
        }
        let way = self.pick(10);
        let p = self.pick(self.text.len as u64) as usize;
        match way {
            0 => self.text.len = p,
            1 | 2 => self.text.drop_byte(p),
            3 | 4 => self.text.double_byte(p),
            _ => self.text.bytes[p] = self.palette(),
        }
    }

    fn fold(&mut self, value: u64) {
        self.digest = rules::fold(self.digest, value);
    }

    /// Reads the first `len` bytes of B; folds the answer and all cells in.
    fn read(&mut self, k: u64, m: u64, kind: Kind, len: usize, lent: usize) {
        let text = &self.text.bytes[..len];
        let cells = &mut self.cells[..lent];
        let Read { number, offset, n } = memory::read(k, m, kind, text, cells);
        for value in [number, offset, n] {
            self.fold(value);
        }
        for cell in self.cells {
            self.fold(cell as u64);
        }
        *self.read.entry(number).or_insert(0) += 1;
    }

    /// Writes into the first `room` bytes of B; folds the answer and all bytes
    /// in. Gives the answer.
    fn write(&mut self, k: u64, m: u64, kind: Kind, lent: usize, room: usize) -> Written {
        let buffer = &mut self.text.bytes[..room];
        let written = memory::write(k, m, kind, &self.cells[..lent], buffer);
        for value in [written.number, written.length, written.n] {
            self.fold(value);
        }
        for byte in self.text.bytes {
            self.fold(byte as u64);
        }
        *self.written.entry(written.number).or_insert(0) += 1;
        written
    }

    pub fn next_round(&mut self) {
        let k = self.width();
        let m = self.width();
        let kind = self.generator.kind();
        let lent = self.lent();
        self.make_text(k, m, kind);
        self.read(k, m, kind, self.text.len, lent);
        for _ in 0..1 + self.pick(2) {
            self.damage();
        }
        self.read(k, m, kind, self.text.len, lent);
        if self.pick(8) == 0 {
            let p = self.pick(64) as usize;
            self.cells[p] = self.pick(40) as u16;
        }
        let room = self.room();
        let written = self.write(k, m, kind, lent, room);
        if written.number == 0 {
            self.read(k, m, kind, written.length as usize, lent);
        }
    }
}

// ---- Part 3: the counts ----------------------------------------------------

/// The numbers that the reader can give, and those that the writer can.
pub const READER_GIVES: [u64; 9] = [0, 1, 2, 3, 5, 8, 9, 10, 11];
pub const WRITER_GIVES: [u64; 6] = [0, 1, 2, 3, 5, 17];

/// The name, then ` NUMBER:COUNT` for each number.
pub fn counts_line(name: &str, numbers: &[u64], counts: &BTreeMap<u64, u64>) -> String {
    let mut line = name.to_string();
    for number in numbers {
        let count = counts.get(number).unwrap_or(&0);
        line += &format!(" {number}:{count}");
    }
    line
}

pub fn run() {
    for kind in KINDS {
        for (k, m) in TABLES {
            println!("{}", table_line(k, m, kind));
        }
    }
    let mut drive = Drive::new();
    for r in 1..=ROUNDS {
        drive.next_round();
        if r % 1000 == 0 {
            println!("{r} {}", drive.digest);
        }
    }
    println!("{}", counts_line("read", &READER_GIVES, &drive.read));
    println!("{}", counts_line("written", &WRITER_GIVES, &drive.written));
}
