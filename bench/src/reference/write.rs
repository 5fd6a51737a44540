//! Writing a formula: the header, a line for each run of one quantifier, a line for each clause.

use super::prefix::entries;
use super::tables::check_tables;
use super::{Reason, Refusal};

/// The formula's text, refused where it is longer than the room for it.
pub fn write(prefix: &[i32], clauses: &[i32], room: usize) -> Result<Vec<u8>, Refusal> {
    let counts = check_tables(prefix, clauses)?;
    let entries = entries(prefix);
    let largest = entries.iter().map(|entry| entry.variable).max();
    let mut text = Text::new(HEADER + SET_WORD * entries.len() + LITERAL * clauses.len());
    text.push(b"p cnf ");
    text.push_number(largest.unwrap_or(0) as u32, b' ');
    text.push_number(counts.clauses as u32, b'\n');
    for run in entries.chunk_by(|a, b| a.quantifier == b.quantifier) {
        text.push(if run[0].is_universal() { b"a " } else { b"e " });
        for entry in run {
            text.push_number(entry.variable as u32, b' ');
        }
        text.push(b"0\n");
    }
    for &word in clauses {
        text.push_literal(word, if word == 0 { b'\n' } else { b' ' });
    }
    text.bytes.truncate(text.used);
    if text.bytes.len() > room {
        return Err(Reason::NoRoom.at(0));
    }
    Ok(text.bytes)
}

/// The most bytes of the header, of a set's number with a letter and a closing 0 for it, of a literal.
const HEADER: usize = 16;
const SET_WORD: usize = 9;
const LITERAL: usize = 6;

/// A text in the making, with room for all of it and for a number's eight bytes.
struct Text {
    bytes: Vec<u8>,
    used: usize,
}

impl Text {
    fn new(length: usize) -> Text {
        Text {
            bytes: vec![0; length + 8],
            used: 0,
        }
    }

    fn push(&mut self, bytes: &[u8]) {
        self.bytes[self.used..self.used + bytes.len()].copy_from_slice(bytes);
        self.used += bytes.len();
    }

    fn push_literal(&mut self, word: i32, after: u8) {
        self.bytes[self.used] = b'-';
        self.used += usize::from(word < 0);
        self.push_number(word.unsigned_abs(), after);
    }

    /// Appends the digits of a number below 10,000 and the byte after them, all in one store.
    fn push_number(&mut self, number: u32, after: u8) {
        let high = DIGIT_PAIRS[(number / 100) as usize];
        let low = DIGIT_PAIRS[(number % 100) as usize];
        let four = u64::from(high) | u64::from(low) << 16 | u64::from(after) << 32;
        let leading =
            usize::from(number < 10) + usize::from(number < 100) + usize::from(number < 1000);
        let eight = (four >> (8 * leading)).to_le_bytes();
        self.bytes[self.used..self.used + 8].copy_from_slice(&eight);
        self.used += 5 - leading;
    }
}

/// The two digits of each number below 100, the first in the low byte.
static DIGIT_PAIRS: [u16; 100] = {
    let mut pairs = [0; 100];
    let mut number = 0;
    while number < 100 {
        let digits = [b'0' + number as u8 / 10, b'0' + number as u8 % 10];
        pairs[number] = u16::from_le_bytes(digits);
        number += 1;
    }
    pairs
};

#[cfg(test)]
mod tests {
    use super::super::prefix::records;
    use super::*;

    #[test]
    fn lines() {
        let prefix = records(&[10, 2, -3, 4, 1024]);
        let text = write(&prefix, &[10, -1024, 0, 0], 100).unwrap();
        let expected = "p cnf 1024 2\ne 10 2 0\na 3 0\ne 4 1024 0\n10 -1024 0\n0\n";
        assert_eq!(text, expected.as_bytes());
        assert_eq!(write(&[], &[], 10).unwrap(), b"p cnf 0 0\n");
        assert_eq!(write(&[], &[], 9), Err(Reason::NoRoom.at(0)));
        assert_eq!(write(&[], &[1], 0), Err(Reason::Unbound.at(0)));
    }

    #[test]
    fn numbers() {
        for number in 0..10_000 {
            let mut text = Text::new(5);
            text.push_number(number, b' ');
            let written = &text.bytes[..text.used];
            assert_eq!(written, format!("{number} ").as_bytes());
        }
    }

    /// Sets of one variable are the longest way to write a prefix.
    #[test]
    fn room_for_the_longest() {
        let short: Vec<i32> = (1..=1024)
            .map(|v| if v % 2 == 0 { v } else { -v })
            .collect();
        let clauses = [-1024, 0].repeat(8192);
        let text = write(&records(&short), &clauses, usize::MAX).unwrap();
        assert_eq!(text.iter().filter(|&&byte| byte == b'\n').count(), 9217);
    }
}
