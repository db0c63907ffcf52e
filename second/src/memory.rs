//! The hex memory text of document 02, L2, for both kinds of table of L5: its
//! writer and its reader.
//! The reader cuts the whole text into pieces first, each with the offset of
//! its first byte, and then takes the pieces in order. A numeral is held as the
//! string of its digits, so that no number of digits is too many.
//! As in `calls`, every answer starts as all zeros.

use crate::calls;
use crate::kinds::Kind;

// ---- The writer ------------------------------------------------------------

/// n is used by number 5 only.
#[derive(Debug, Default, PartialEq)]
pub struct Written {
    pub number: u64,
    pub length: u64,
    pub n: u64,
}

/// "lower-case hex"
const DIGITS: &[u8; 16] = b"0123456789abcdef";

/// "as many digits as m bits need", or m+1 bits: the least count of digits that
/// has 2^bits numerals. Every count is tried in order.
fn digits_needed(bits: u64) -> u32 {
    let mut count = 1;
    while 16u64.pow(count) < 1 << bits {
        count += 1;
    }
    count
}

/// "one field per line, a newline after each"
fn line(count: u32, field: u16) -> Vec<u8> {
    let mut line = Vec::new();
    for place in (0..count).rev() {
        let digit = field as u64 / 16u64.pow(place) % 16;
        line.push(DIGITS[digit as usize]);
    }
    line.push(b'\n');
    line
}

/// "Refusals: 1, 2, 3 first. The writer then gives 5, then 17 if the lent text
/// buffer is too short, and writes nothing in either case." Else "it gives the
/// length, and bytes past the text stay".
pub fn write(k: u64, m: u64, kind: Kind, cells: &[u16], buffer: &mut [u8]) -> Written {
    let number = calls::table_refusal(k, m, cells.len());
    if number != 0 {
        return Written {
            number,
            ..Written::default()
        };
    }
    let table = &cells[..1 << k];
    let mut text = Vec::new();
    for (n, &field) in (0..).zip(table) {
        if calls::too_wide(m, kind, field) {
            return Written {
                number: 5,
                n,
                ..Written::default()
            };
        }
        text.extend(line(digits_needed(kind.text_bits(m)), field));
    }
    if buffer.len() < text.len() {
        return Written {
            number: 17,
            ..Written::default()
        };
    }
    buffer[..text.len()].copy_from_slice(&text);
    Written {
        number: 0,
        length: text.len() as u64,
        n: 0,
    }
}

// ---- The reader: the text is cut into pieces -------------------------------

/// What stands at a place between two pieces.
#[derive(PartialEq)]
enum Here {
    White,
    LineComment,
    BlockComment,
    Token,
}

/// "white space (blank, tab, newline, form feed), both comment kinds". A slash
/// that begins no comment is a byte of a token like any other.
fn here(text: &[u8], at: usize) -> Here {
    match (text[at], text.get(at + 1)) {
        (32 | 9 | 10 | 12, _) => Here::White,
        (b'/', Some(b'/')) => Here::LineComment,
        (b'/', Some(b'*')) => Here::BlockComment,
        _ => Here::Token,
    }
}

/// The place of the newline, or the end, "which also ends a // comment".
fn line_comment_end(text: &[u8], at: usize) -> usize {
    let mut end = at + 2;
    while end < text.len() && text[end] != b'\n' {
        end += 1;
    }
    end
}

/// The place after the first `*/` that stands after the `/*`; None if there is
/// none. The star of `/*` is no part of the `*/`.
fn block_comment_end(text: &[u8], at: usize) -> Option<usize> {
    let mut star = at + 2;
    while star + 1 < text.len() {
        if text[star] == b'*' && text[star + 1] == b'/' {
            return Some(star + 2);
        }
        star += 1;
    }
    None
}

/// "A token ends at white space, a comment or the end".
fn token_end(text: &[u8], at: usize) -> usize {
    let mut end = at;
    while end < text.len() && here(text, end) == Here::Token {
        end += 1;
    }
    end
}

/// What the reader has to look at, in the order of the text.
enum Piece<'a> {
    Token(&'a [u8]),
    UnfinishedComment,
}

/// Every piece with the offset of its first byte. White space and finished
/// comments only part them. Nothing stands after an unfinished comment.
fn cut(text: &[u8]) -> Vec<(usize, Piece<'_>)> {
    let mut pieces = Vec::new();
    let mut at = 0;
    while at < text.len() {
        at = match here(text, at) {
            Here::White => at + 1,
            Here::LineComment => line_comment_end(text, at),
            Here::BlockComment => match block_comment_end(text, at) {
                Some(end) => end,
                None => {
                    pieces.push((at, Piece::UnfinishedComment));
                    text.len()
                }
            },
            Here::Token => {
                let end = token_end(text, at);
                pieces.push((at, Piece::Token(&text[at..end])));
                end
            }
        };
    }
    pieces
}

// ---- The reader: what a piece says -----------------------------------------

/// The digits of a numeral from the highest to the lowest, each from 0 to 15,
/// without leading zeros; none at all is zero.
#[derive(Debug, PartialEq)]
struct Numeral(Vec<u8>);

/// "upper case too"; "Unknown digits x and z have no place in a ROM."
fn digit(byte: u8) -> Option<u8> {
    match byte {
        b'0'..=b'9' => Some(byte - b'0'),
        b'a'..=b'f' => Some(byte - b'a' + 10),
        b'A'..=b'F' => Some(byte - b'A' + 10),
        _ => None,
    }
}

/// Hex digits, at least one, and "underscores after a first digit". None where
/// the bytes have another form.
fn numeral(bytes: &[u8]) -> Option<Numeral> {
    let first = digit(*bytes.first()?)?;
    let mut digits = vec![first];
    for &byte in &bytes[1..] {
        if byte != b'_' {
            digits.push(digit(byte)?);
        }
    }
    // "Width is judged by value, so leading zeros do no harm."
    let stripped = digits.into_iter().skip_while(|&digit| digit == 0);
    Some(Numeral(stripped.collect()))
}

/// The number itself, if it is at most 65535. More than four digits, the first of
/// them not 0, are 65536 or more: past every table and too wide for every m.
fn small_number(numeral: &Numeral) -> Option<u16> {
    if numeral.0.len() > 4 {
        return None;
    }
    let mut number = 0;
    for &digit in &numeral.0 {
        number = number * 16 + digit as u16;
    }
    Some(number)
}

/// A piece after its form.
enum Saying {
    Address(Numeral),
    Value(Numeral),
    Malformed,
}

/// "8 for a bad character, an @ without digits or an unfinished comment".
fn saying(piece: &Piece) -> Saying {
    let Piece::Token(bytes) = piece else {
        return Saying::Malformed;
    };
    let (is_address, digits) = match bytes {
        [b'@', rest @ ..] => (true, rest),
        all => (false, *all),
    };
    match (is_address, numeral(digits)) {
        (_, None) => Saying::Malformed,
        (true, Some(number)) => Saying::Address(number),
        (false, Some(number)) => Saying::Value(number),
    }
}

// ---- The reader ------------------------------------------------------------

/// offset is used by 8, 9, 5 and 10 only, n by 11 only.
#[derive(Debug, Default, PartialEq)]
pub struct Read {
    pub number: u64,
    pub offset: u64,
    pub n: u64,
}

/// The reading so far. The cells that no value was given yet are None.
struct Reading {
    m: u64,
    kind: Kind,
    address: usize,
    given: Vec<Option<u16>>,
}

impl Reading {
    /// "@ addresses in hex (0 at the start)"
    fn start(k: u64, m: u64, kind: Kind) -> Reading {
        Reading {
            m,
            kind,
            address: 0,
            given: vec![None; 1 << k],
        }
    }

    /// Takes the next piece. Gives 0 or the number of its fault, "at one token
    /// in the order 8, 9, 5, 10".
    fn take(&mut self, piece: &Piece) -> u64 {
        match saying(piece) {
            Saying::Malformed => 8,
            Saying::Address(number) => self.take_address(&number),
            Saying::Value(number) => self.take_value(&number),
        }
    }

    /// "9 for an @ address past the table"
    fn take_address(&mut self, number: &Numeral) -> u64 {
        match small_number(number) {
            Some(address) if (address as usize) < self.given.len() => {
                self.address = address as usize;
                0
            }
            _ => 9,
        }
    }

    /// 9 for "a value that would be stored past it; 5 value too wide; 10 cell
    /// given twice". L5: "5 for fields above 2^m in the new kind, in L2's reader
    /// too".
    fn take_value(&mut self, number: &Numeral) -> u64 {
        if self.address >= self.given.len() {
            return 9;
        }
        match small_number(number) {
            Some(field) if !calls::too_wide(self.m, self.kind, field) => self.store(field),
            _ => 5,
        }
    }

    fn store(&mut self, field: u16) -> u64 {
        if self.given[self.address].is_some() {
            return 10;
        }
        self.given[self.address] = Some(field);
        self.address += 1;
        0
    }
}

/// "Refusals: 1, 2, 3 first. [...] The reader stops at the first faulty token
/// and gives the offset of its first byte [...] Without a faulty token, 11
/// gives the smallest missing n." And "a refused file leaves the lent cells as
/// they stood": they are written at the very end only.
pub fn read(k: u64, m: u64, kind: Kind, text: &[u8], cells: &mut [u16]) -> Read {
    let number = calls::table_refusal(k, m, cells.len());
    if number != 0 {
        return Read {
            number,
            ..Read::default()
        };
    }
    let mut reading = Reading::start(k, m, kind);
    for (offset, piece) in cut(text) {
        let number = reading.take(&piece);
        if number != 0 {
            return Read {
                number,
                offset: offset as u64,
                n: 0,
            };
        }
    }
    let mut fields = Vec::new();
    for (n, given) in (0..).zip(reading.given) {
        match given {
            Some(field) => fields.push(field),
            None => {
                return Read {
                    number: 11,
                    offset: 0,
                    n,
                }
            }
        }
    }
    cells[..fields.len()].copy_from_slice(&fields);
    Read::default()
}
