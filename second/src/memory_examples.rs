//! Small memory texts with their answers after document 02, L2, as tests of
//! this program. They are for plain tables; those of L5 are in kind_examples.rs.

use crate::kinds::Kind::Plain;
use crate::memory::*;
use crate::rules;
use crate::texts;

/// What every lent cell holds before a reading. It is too wide for every m.
const BEFORE: u16 = 43981;

/// What every lent byte holds before a writing.
const BLANK: u8 = 35;

/// Reads with one cell more than the table has; gives the answer and the cells.
fn reading(k: u64, m: u64, text: &[u8]) -> (Read, Vec<u16>) {
    let mut cells = vec![BEFORE; (1 << k) + 1];
    let answer = read(k, m, Plain, text, &mut cells);
    (answer, cells)
}

/// The reading is done and gives these fields; the cell past them stays.
fn gives<T: AsRef<[u8]>>(k: u64, m: u64, text: T, fields: &[u16]) {
    let after = [fields, &[BEFORE]].concat();
    assert_eq!(reading(k, m, text.as_ref()), (Read::default(), after));
}

/// The reading is refused with this answer; "a refused file leaves the lent
/// cells as they stood".
fn refuses<T: AsRef<[u8]>>(k: u64, m: u64, text: T, number: u64, offset: u64, n: u64) {
    let before = vec![BEFORE; (1 << k) + 1];
    let answer = Read { number, offset, n };
    assert_eq!(reading(k, m, text.as_ref()), (answer, before));
}

/// The first faulty token has this number and stands at this offset.
fn fault<T: AsRef<[u8]>>(k: u64, m: u64, text: T, number: u64, offset: u64) {
    refuses(k, m, text, number, offset, 0);
}

/// There is no faulty token, and n is the smallest that is missing.
fn missing<T: AsRef<[u8]>>(k: u64, m: u64, text: T, n: u64) {
    refuses(k, m, text, 11, 0, n);
}

/// Zeros as many as asked for.
fn zeros(count: usize) -> String {
    "0".repeat(count)
}

// ---- The reader: white space and comments ----------------------------------

/// "white space (blank, tab, newline, form feed)"
#[test]
fn white_space() {
    gives(1, 4, "3 5", &[3, 5]);
    gives(1, 4, "3\t5", &[3, 5]);
    gives(1, 4, "3\n5\n", &[3, 5]);
    gives(1, 4, b"3\x0c5", &[3, 5]);
    gives(1, 4, b" \t\n\x0c3 \t\n\x0c5 \t\n\x0c", &[3, 5]);
    missing(1, 4, "", 0);
    missing(1, 4, b" \t\n\x0c", 0);
    missing(1, 4, "\n3\n", 1);
}

/// Nothing else is white space: it makes the token faulty, or is one by itself.
#[test]
fn not_white_space() {
    fault(1, 4, "3\r\n5\r\n", 8, 0);
    fault(1, 4, "3 \r\n5", 8, 2);
    fault(1, 4, b"3\x0b5", 8, 0);
    fault(1, 4, b"3 5 \x00", 8, 4);
    fault(1, 4, "3,5", 8, 0);
    fault(1, 4, b"3 \xa0 5", 8, 2);
}

/// "A token ends at white space, a comment or the end, which also ends a //
/// comment."
#[test]
fn line_comments() {
    gives(1, 4, "// x @ /* \n3// 9\n5//", &[3, 5]);
    gives(1, 4, "3 5// the end", &[3, 5]);
    gives(1, 4, "3//\n5", &[3, 5]);
    gives(1, 4, "///\n3////*\n5", &[3, 5]);
    missing(1, 4, "3// 5", 1);
    missing(1, 4, "//3\n//5", 0);
    missing(1, 4, "// 3\r 5", 0);
    fault(1, 4, "3 //x\nx", 8, 6);
}

#[test]
fn block_comments() {
    gives(1, 4, "/* x\n// */3/**/5/***/", &[3, 5]);
    gives(1, 4, "3/*/*/5", &[3, 5]);
    gives(1, 4, "3/*//*/5", &[3, 5]);
    gives(1, 4, "/*3*/3/**//**/5", &[3, 5]);
    gives(1, 4, "3/**///*\n5", &[3, 5]);
    missing(1, 4, "3/* 5 */", 1);
    // not nested: the first */ ends it, and the second is a token
    fault(1, 4, "/* /* */ */3 5", 8, 9);
}

/// "8 for [...] an unfinished comment", at the offset of its slash.
#[test]
fn unfinished_comments() {
    fault(1, 4, "/*", 8, 0);
    fault(1, 4, "3 5 /*/", 8, 4);
    fault(1, 4, "3 5/*", 8, 3);
    fault(1, 4, "3 5/* * /", 8, 3);
    fault(1, 4, "3/* 5 // */ 5/**", 8, 13);
    fault(1, 4, "\n/*/ 3 5", 8, 1);
    // the token before it comes first
    fault(1, 4, "10/*", 5, 0);
    fault(1, 4, "3 5 7/*", 9, 4);
}

// ---- The reader: tokens ----------------------------------------------------

/// One token up to the next white space or comment, whatever it is made of.
#[test]
fn bad_characters() {
    fault(1, 4, "12@5", 8, 0);
    fault(1, 4, "3@1 5", 8, 0);
    fault(1, 4, "3 1/2", 8, 2);
    fault(1, 4, "3 1/", 8, 2);
    fault(1, 4, "3 1/ /2", 8, 2);
    fault(1, 4, "3 /", 8, 2);
    fault(1, 4, "3 5 * /", 8, 4);
    fault(1, 4, "3 5*/", 8, 2);
    fault(1, 4, "3 -5", 8, 2);
    fault(1, 4, "3 5 g", 8, 4);
    fault(1, 4, "0x3 5", 8, 0);
}

/// "Unknown digits x and z have no place in a ROM."
#[test]
fn unknown_digits() {
    for digit in ["x", "X", "z", "Z", "0x", "1z", "?"] {
        fault(1, 4, format!("3 {digit}"), 8, 2);
        fault(1, 4, format!("@{digit} 3"), 8, 0);
    }
}

/// "underscores after a first digit of either, upper case too"
#[test]
fn underscores_and_case() {
    gives(1, 8, "1_2 1__", &[0x12, 1]);
    gives(1, 8, "aF fA", &[0xaf, 0xfa]);
    gives(1, 8, "@1_ 3 @0__ 5", &[5, 3]);
    gives(
        4,
        8,
        "@A 3 @0 0 1 2 3 4 5 6 7 8 9 @b_ 4 5 6 7 8",
        &[0, 1, 2, 3, 4, 5, 6, 7, 8, 9, 3, 4, 5, 6, 7, 8],
    );
    fault(1, 8, "_1 2", 8, 0);
    fault(1, 8, "1 _", 8, 2);
    fault(1, 8, "@_1 2", 8, 0);
    fault(1, 8, "@ 1 2", 8, 0);
    fault(1, 8, "1 2 @", 8, 4);
    fault(1, 8, "1 @/**/1 2", 8, 2);
    fault(1, 8, "@@1 2", 8, 0);
}

/// Every byte between two digits: a digit more, an underscore, the end of the
/// token, or a fault.
#[test]
fn every_byte_within_a_token() {
    for byte in 0..=255 {
        let text = [b'1', byte, b'1'];
        match byte {
            b' ' | b'\t' | b'\n' | 12 => gives(1, 15, text, &[1, 1]),
            b'_' => missing(1, 15, text, 1),
            b'0'..=b'9' | b'a'..=b'f' | b'A'..=b'F' => missing(1, 15, text, 1),
            _ => fault(1, 15, text, 8, 0),
        }
    }
}

/// Every byte as a token of its own, after a good value.
#[test]
fn every_byte_alone() {
    for byte in 0..=255 {
        let text = [b'1', b'\n', byte];
        match (byte as char).to_digit(16) {
            Some(digit) => gives(1, 15, text, &[1, digit as u16]),
            None if [32, 9, 10, 12].contains(&byte) => missing(1, 15, text, 1),
            None => fault(1, 15, text, 8, 2),
        }
    }
}

// ---- The reader: addresses, widths, cells given twice, cells missing -------

#[test]
fn addresses() {
    gives(1, 4, "@0 3 5", &[3, 5]);
    gives(1, 4, "@1 5 @0 3", &[3, 5]);
    gives(1, 4, "@1 @0 @0 3 @1 5 @0", &[3, 5]);
    gives(2, 4, "@2 3 4 @0 1 2", &[1, 2, 3, 4]);
    gives(2, 4, "@0002 3 4 @0_0 1 2", &[1, 2, 3, 4]);
    fault(1, 4, "3 5 @2", 9, 4);
    fault(1, 4, "@2", 9, 0);
    fault(2, 4, "@10 3", 9, 0);
    fault(1, 4, "3 5 7", 9, 4);
    fault(1, 4, "@1 3 5", 9, 5);
}

/// "at one token in the order 8, 9, 5, 10"; the first faulty token decides.
#[test]
fn order_at_one_token() {
    fault(1, 1, "1 1 2x", 8, 4); // past the table and too wide as well
    fault(1, 1, "1 1 @2x", 8, 4);
    fault(1, 1, "1 1 2", 9, 4); // too wide as well
    fault(1, 1, "1 @0 2", 5, 5); // cell 0 is given twice as well
    fault(1, 1, "1 @0 1", 10, 5);
    fault(1, 1, "2 x", 5, 0);
    fault(1, 1, "@2 x", 9, 0);
    fault(1, 1, "x 2", 8, 0);
    fault(1, 1, "1 @0 1 @2", 10, 5);
    fault(1, 1, "2", 5, 0); // cell 1 is missing as well
}

/// "Width is judged by value, so leading zeros do no harm."
#[test]
fn widths_by_value() {
    gives(1, 1, "0001 00", &[1, 0]);
    gives(1, 5, "1f 1F", &[31, 31]);
    gives(1, 15, "7fff 0_7_f_f_f", &[32767, 32767]);
    fault(1, 1, "1 2", 5, 2);
    fault(1, 5, "20 1", 5, 0);
    fault(1, 15, "0 8000", 5, 2);
    fault(1, 15, "0 10000", 5, 2);
    fault(1, 15, "0 10000000000000001", 5, 2);
}

/// Any number of digits may come.
#[test]
fn long_numerals() {
    let z = zeros(1000);
    gives(1, 1, format!("{z}1 {z}"), &[1, 0]);
    gives(1, 1, format!("@{z}1 1 @{z} 0"), &[0, 1]);
    gives(1, 1, format!("0{} 1", "_".repeat(1000)), &[0, 1]);
    fault(1, 1, format!("0 {z}2"), 5, 2);
    fault(1, 15, format!("0 1{z}"), 5, 2);
    fault(15, 15, format!("0 @{}", "f".repeat(1000)), 9, 2);
    fault(1, 1, format!("0 @1{z}"), 9, 2);
    fault(1, 1, format!("0 1 {}", "f".repeat(1000)), 9, 4);
    fault(1, 1, format!("{z}{z}x"), 8, 0);
}

/// "10 cell given twice", with the same value too.
#[test]
fn cells_given_twice() {
    fault(1, 4, "3 5 @0 3", 10, 7);
    fault(2, 4, "@1 1 @0 0 1", 10, 10);
    fault(2, 4, "@3 3 @3 3", 10, 8);
}

/// "Without a faulty token, 11 gives the smallest missing n."
#[test]
fn cells_missing() {
    missing(1, 4, "@1 3", 0);
    missing(2, 4, "1 2 3", 3);
    missing(2, 4, "1 @3 4", 1);
    missing(2, 4, "1 2 @3 4", 2);
    missing(1, 4, "@1", 0);
    missing(15, 15, "1 @7fff 1", 1);
}

/// "Refusals: 1, 2, 3 first."
#[test]
fn numbers_1_2_3_of_the_reader() {
    let first = |k, m, lent: usize| {
        let mut cells = vec![BEFORE; lent];
        let answer = read(k, m, Plain, b"3 5 x", &mut cells);
        assert_eq!((answer.offset, answer.n), (0, 0));
        assert_eq!(cells, vec![BEFORE; lent]);
        answer.number
    };
    assert_eq!(
        [first(0, 0, 0), first(16, 1, 9), first(4294967295, 16, 0)],
        [1; 3]
    );
    assert_eq!(
        [first(1, 0, 0), first(15, 16, 9), first(1, 4294967295, 2)],
        [2; 3]
    );
    assert_eq!(
        [first(1, 1, 1), first(15, 15, 32767), first(1, 1, 0)],
        [3; 3]
    );
}

#[test]
fn cells_lent_to_the_reader() {
    let mut exact = [BEFORE; 2];
    assert_eq!(read(1, 4, Plain, b"3 5", &mut exact), Read::default());
    assert_eq!(exact, [3, 5]);
    let mut more = [BEFORE; 5];
    assert_eq!(read(1, 4, Plain, b"7 8", &mut more), Read::default());
    assert_eq!(more, [7, 8, BEFORE, BEFORE, BEFORE]);
    // a cell past the table is no cell of the text
    assert_eq!(read(1, 4, Plain, b"1 2 @2 3", &mut more).number, 9);
    assert_eq!(more, [7, 8, BEFORE, BEFORE, BEFORE]);
}

// ---- The writer ------------------------------------------------------------

/// Writes with two bytes more than the text has; they stay.
fn writes(k: u64, m: u64, cells: &[u16], text: &str) {
    let mut buffer = vec![BLANK; text.len() + 2];
    let answer = write(k, m, Plain, cells, &mut buffer);
    let length = text.len() as u64;
    assert_eq!(
        answer,
        Written {
            number: 0,
            length,
            n: 0
        }
    );
    assert_eq!(buffer, [text.as_bytes(), &[BLANK; 2]].concat());
}

/// The writing is refused with this answer, and no byte is written.
fn writes_nothing(k: u64, m: u64, cells: &[u16], room: usize, number: u64, n: u64) {
    let mut buffer = vec![BLANK; room];
    let answer = write(k, m, Plain, cells, &mut buffer);
    assert_eq!(
        answer,
        Written {
            number,
            length: 0,
            n
        }
    );
    assert_eq!(buffer, vec![BLANK; room]);
}

/// "one field per line, a newline after each, lower-case hex, as many digits as
/// m bits need, index order"
#[test]
fn written_texts() {
    writes(1, 1, &[1, 0], "1\n0\n");
    writes(1, 4, &[15, 10], "f\na\n");
    writes(1, 5, &[31, 10], "1f\n0a\n");
    writes(1, 8, &[255, 0], "ff\n00\n");
    writes(1, 9, &[256, 255], "100\n0ff\n");
    writes(1, 12, &[4095, 1], "fff\n001\n");
    writes(1, 13, &[4096, 8191], "1000\n1fff\n");
    writes(1, 15, &[32767, 2989], "7fff\n0bad\n");
    writes(2, 2, &[3, 2, 1, 0], "3\n2\n1\n0\n");
    // "Cells past the table change no answer"
    writes(1, 1, &[1, 0, 65535], "1\n0\n");
}

/// "Refusals: 1, 2, 3 first. The writer then gives 5, then 17"
#[test]
fn refused_writings() {
    writes_nothing(0, 0, &[9], 0, 1, 0);
    writes_nothing(16, 1, &[9], 9, 1, 0);
    writes_nothing(1, 0, &[9], 0, 2, 0);
    writes_nothing(1, 16, &[9], 9, 2, 0);
    writes_nothing(1, 1, &[9], 0, 3, 0);
    writes_nothing(1, 1, &[9, 9], 0, 5, 0);
    writes_nothing(2, 2, &[0, 3, 4, 4], 99, 5, 2);
    writes_nothing(1, 15, &[0, 32768], 0, 5, 1);
    writes_nothing(1, 1, &[1, 1], 0, 17, 0);
    writes_nothing(1, 1, &[1, 1], 3, 17, 0);
    writes_nothing(1, 5, &[1, 1], 5, 17, 0);
}

#[test]
fn buffer_of_exactly_the_length() {
    let mut buffer = [BLANK; 4];
    assert_eq!(write(1, 1, Plain, &[0, 1], &mut buffer).number, 0);
    assert_eq!(&buffer, b"0\n1\n");
}

/// "Read back, a written table is the same table". Every width m, and in turn
/// every field.
#[test]
fn written_and_read_back() {
    for m in 1..=15 {
        for k in [1, 5, 15] {
            let table: Vec<u16> = (0..1 << k)
                .map(|n: u64| (n * 5 % (1 << m)) as u16)
                .collect();
            let mut buffer = vec![BLANK; 163840];
            let written = write(k, m, Plain, &table, &mut buffer);
            assert_eq!((written.number, written.n), (0, 0));
            gives(k, m, &buffer[..written.length as usize], &table);
        }
    }
}

// ---- The drive -------------------------------------------------------------

/// (1,1) has the values 3, 2 and so the fields 1, 0.
#[test]
fn a_table_line() {
    let mut buffer = b"1\n0\n".to_vec();
    buffer.resize(163841, 35);
    let of_bytes = buffer
        .iter()
        .fold(0, |d, &byte| rules::fold(d, byte as u64));
    let mut cells = vec![1, 0];
    cells.resize(32768, 43981);
    let of_cells = rules::digest(&cells);
    assert_eq!(
        texts::table_line(1, 1, Plain),
        format!("1 1 0 4 0 {of_bytes} 0 0 0 {of_cells}")
    );
}

/// The drive makes both calls give every number they can give, and no other.
/// Every round reads twice, writes once, and reads a text that was written.
#[test]
fn the_drive_of_texts_reaches_every_refusal() {
    let mut drive = texts::Drive::new();
    for _ in 0..texts::ROUNDS {
        drive.next_round();
    }
    assert!(drive.read.keys().eq(texts::READER_GIVES.iter()));
    assert!(drive.written.keys().eq(texts::WRITER_GIVES.iter()));
    assert_eq!(drive.written.values().sum::<u64>(), texts::ROUNDS);
    assert_eq!(
        drive.read.values().sum::<u64>(),
        2 * texts::ROUNDS + drive.written[&0]
    );
}
