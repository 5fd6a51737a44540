//! Reading a formula's text in one pass: comments, the header, quantifier sets, clauses. Tokens are judged
//! from the left; the first wrong one refuses. Every place is a byte of the text. Variables that no set lists
//! are put before the prefix at the end. The reader lists the prefix in short; records are made of it last.

use super::prefix::{records, ENTRY_WORDS};
use super::tables::Seen;
use super::{Reason, Refusal, MAX_CLAUSES, MAX_CLAUSE_WORDS, MAX_TEXT, MAX_VARIABLE, ROW_BYTES};

#[derive(Clone, Debug, PartialEq, Eq)]
pub struct Reading {
    pub prefix: Vec<i32>,
    pub clauses: Vec<i32>,
    pub count: usize,
}

/// Reads the text into tables that have room for so many words each. A refusal has its place's line and column.
pub fn read(text: &[u8], prefix_room: usize, clause_room: usize) -> Result<Reading, Refusal> {
    read_tokens(text, prefix_room, clause_room).map_err(|refusal| refusal.in_text(text))
}

fn read_tokens(text: &[u8], prefix_room: usize, clause_room: usize) -> Result<Reading, Refusal> {
    if text.len() > MAX_TEXT {
        return Err(Reason::Oversized.at(0));
    }
    let mut tokens = Tokens { text, at: 0 };
    let (largest, count) = tokens.header()?;
    let mut seen = Seen::new();
    let room = prefix_room / ENTRY_WORDS;
    let (listed, first) = tokens.sets(largest, count, &mut seen, room)?;
    let room = clause_room;
    let clauses = tokens.clauses(first, largest, count, &mut seen, room)?;
    let mut completed = unlisted(&listed, &clauses);
    completed.extend(listed);
    let prefix = records(&completed);
    if prefix.len() > prefix_room {
        return Err(Reason::NoRoom.at(text.len()));
    }
    Ok(Reading {
        prefix,
        clauses,
        count,
    })
}

/// The variables that occur in a clause and that no set lists, rising.
fn unlisted(listed: &[i32], clauses: &[i32]) -> Vec<i32> {
    let mut free = [false; ROW_BYTES];
    for word in clauses {
        free[word.unsigned_abs() as usize] = true;
    }
    for word in listed {
        free[word.unsigned_abs() as usize] = false;
    }
    (1..ROW_BYTES as i32)
        .filter(|&variable| free[variable as usize])
        .collect()
}

/// A token and the place of its first byte.
#[derive(Clone, Copy)]
struct Token {
    place: usize,
    kind: Kind,
}

#[derive(Clone, Copy)]
enum Kind {
    /// A number, those of ten digits and more as VAST.
    Number(i32),
    /// One byte that is no number.
    Letter(u8),
    Other,
}

/// Above every bound: what longer numbers count as.
const VAST: i32 = 1_000_000_000;

struct Tokens<'a> {
    text: &'a [u8],
    at: usize,
}

fn is_blank(byte: u8) -> bool {
    matches!(byte, b' ' | b'\t' | b'\r' | b'\n')
}

impl Tokens<'_> {
    /// The next token. Past one that is no number and no letter the text is not read on: it refuses.
    #[inline(always)]
    fn next(&mut self) -> Option<Token> {
        let mut at = self.at;
        while is_blank(*self.text.get(at)?) {
            at += 1;
        }
        let place = at;
        let negative = self.text[at] == b'-';
        at += usize::from(negative);
        let digits = at;
        let mut value: i32 = 0;
        let after = loop {
            let byte = *self.text.get(at).unwrap_or(&b' ');
            let digit = byte.wrapping_sub(b'0');
            if digit > 9 {
                break byte;
            }
            value = value.wrapping_mul(10).wrapping_add(i32::from(digit));
            at += 1;
        };
        self.at = at;
        let length = at - digits;
        let kind = if !is_blank(after) || length == 0 {
            self.letter(place)
        } else if self.text[digits] == b'0' {
            // 0 itself is a number; -0 and 01 are none.
            if at - place == 1 {
                Kind::Number(0)
            } else {
                Kind::Other
            }
        } else {
            let value = if length > 9 { VAST } else { value };
            Kind::Number(if negative { -value } else { value })
        };
        Some(Token { place, kind })
    }

    /// A token that is no number: moves past it if it is one byte.
    #[cold]
    fn letter(&mut self, place: usize) -> Kind {
        self.at = place + 1;
        if self.text.get(self.at).is_none_or(|&byte| is_blank(byte)) {
            return Kind::Letter(self.text[place]);
        }
        Kind::Other
    }

    /// Moves past blanks and comment lines, to the first token or the end.
    fn skip_comments(&mut self) {
        while let Some(&byte) = self.text.get(self.at) {
            let line_start = self.at == 0 || self.text[self.at - 1] == b'\n';
            if line_start && byte == b'c' {
                let rest = &self.text[self.at..];
                let line = rest.iter().position(|&byte| byte == b'\n');
                self.at += line.unwrap_or(rest.len());
            } else if is_blank(byte) {
                self.at += 1;
            } else {
                return;
            }
        }
    }

    /// V and C.
    fn header(&mut self) -> Result<(usize, usize), Refusal> {
        self.skip_comments();
        self.header_word(b"p")?;
        self.header_word(b"cnf")?;
        let largest = self.header_number(MAX_VARIABLE)?;
        let count = self.header_number(MAX_CLAUSES)?;
        Ok((largest, count))
    }

    fn header_word(&mut self, word: &[u8]) -> Result<(), Refusal> {
        let rest = &self.text[self.at..];
        let blanks = rest.iter().position(|&byte| !is_blank(byte));
        let place = self.at + blanks.unwrap_or(rest.len());
        let rest = &self.text[place..];
        self.at = place + word.len();
        if rest.starts_with(word) && rest.get(word.len()).is_none_or(|&byte| is_blank(byte)) {
            return Ok(());
        }
        Err(Reason::Headless.at(place))
    }

    fn header_number(&mut self, bound: usize) -> Result<usize, Refusal> {
        let end = Reason::Headless.at(self.text.len());
        let token = self.next().ok_or(end)?;
        match token.kind {
            Kind::Number(value) if value > bound as i32 => Err(Reason::Oversized.at(0)),
            Kind::Number(value) if value >= 0 => Ok(value as usize),
            _ => Err(Reason::Headless.at(token.place)),
        }
    }

    fn unfinished(&self) -> Refusal {
        Reason::Unfinished.at(self.text.len())
    }

    /// The variables of the sets in short, for a table of so many entries, and the token after them.
    fn sets(
        &mut self,
        largest: usize,
        count: usize,
        seen: &mut Seen,
        room: usize,
    ) -> Result<(Vec<i32>, Option<Token>), Refusal> {
        let mut listed = Vec::with_capacity(largest.min(room));
        while let Some(token) = self.next() {
            let sign = match token.kind {
                Kind::Letter(b'a') => -1,
                Kind::Letter(b'e') => 1,
                _ if count == 0 => return Err(Reason::Miscount.at(token.place)),
                _ => return Ok((listed, Some(token))),
            };
            let before = listed.len();
            loop {
                let token = self.next().ok_or_else(|| self.unfinished())?;
                let variable = match token.kind {
                    Kind::Number(0) if listed.len() > before => break,
                    Kind::Number(value) if value > 0 => value as usize,
                    _ => return Err(Reason::BadToken.at(token.place)),
                };
                if variable > largest {
                    return Err(Reason::OutOfRange.at(token.place));
                }
                if !seen.bind(variable) {
                    return Err(Reason::BoundTwice.at(token.place));
                }
                if listed.len() == room {
                    return Err(Reason::NoRoom.at(token.place));
                }
                listed.push(sign * variable as i32);
            }
        }
        Ok((listed, None))
    }

    /// The words of so many clauses, from this token on, and then the end.
    fn clauses(
        &mut self,
        first: Option<Token>,
        largest: usize,
        count: usize,
        seen: &mut Seen,
        room: usize,
    ) -> Result<Vec<i32>, Refusal> {
        let most = (self.text.len() / 2).min(MAX_CLAUSE_WORDS).min(room);
        let mut clauses = Vec::with_capacity(most);
        let mut next = first;
        for _ in 0..count {
            let mut token = next.ok_or(Reason::Miscount.at(self.text.len()))?;
            loop {
                let Kind::Number(value) = token.kind else {
                    return Err(Reason::BadToken.at(token.place));
                };
                let variable = value.unsigned_abs() as usize;
                if variable > largest {
                    return Err(Reason::OutOfRange.at(token.place));
                }
                if clauses.len() == MAX_CLAUSE_WORDS {
                    return Err(Reason::Oversized.at(0));
                }
                if value != 0 {
                    let entered = seen.enter(variable);
                    entered.map_err(|reason| reason.at(token.place))?;
                }
                if clauses.len() == room {
                    return Err(Reason::NoRoom.at(token.place));
                }
                clauses.push(value);
                if value == 0 {
                    break;
                }
                token = self.next().ok_or_else(|| self.unfinished())?;
            }
            seen.next_clause();
            next = self.next();
        }
        match next {
            Some(token) => Err(Reason::Miscount.at(token.place)),
            None => Ok(clauses),
        }
    }
}

#[cfg(test)]
mod tests {
    use super::*;

    fn refused(text: &str) -> (u32, usize) {
        let refusal = read(text.as_bytes(), 3072, 65_536).unwrap_err();
        (refusal.reason.number(), refusal.place)
    }

    fn tables(text: &str) -> (Vec<i32>, Vec<i32>, usize) {
        let reading = read(text.as_bytes(), 3072, 65_536).unwrap();
        (reading.prefix, reading.clauses, reading.count)
    }

    #[test]
    fn a_line_end_closes_nothing() {
        let expected = (vec![1, 1, 1, 2, 1, 1], vec![1, 2, 0], 1);
        assert_eq!(tables("p cnf 2 1\ne 1 2 0\n1\n2 0\n"), expected);
        assert_eq!(tables("p\ncnf\r\n2\t1 e 1 0 e 2 0 1 2 0"), expected);
    }

    #[test]
    fn header() {
        assert_eq!(refused(""), (1, 0));
        assert_eq!(refused(" \n\t"), (1, 3));
        assert_eq!(refused("c only"), (1, 6));
        assert_eq!(refused("c one\nc two\n"), (1, 12));
        assert_eq!(refused(" c one\np cnf 0 0"), (1, 1));
        assert_eq!(refused("\rc one\np cnf 0 0"), (1, 1));
        assert_eq!(refused("p cnf 1025 x"), (2, 0));
        assert_eq!(refused("p cnf 1 8193"), (2, 0));
        assert_eq!(refused("p cnf 1 99999999999999999999999"), (2, 0));
        assert_eq!(refused("p cnf -1 0"), (1, 6));
        assert_eq!(refused("p cnf 01 0"), (1, 6));
        assert_eq!(refused("p cnf -0 0"), (1, 6));
        assert_eq!(refused("p cnf 1"), (1, 7));
        assert_eq!(refused("p\nc no\ncnf 1 0"), (1, 2));
        assert_eq!(refused("pcnf 1 0"), (1, 0));
        assert_eq!(tables("cnf is a comment\np cnf 0 0"), (vec![], vec![], 0));
        assert_eq!(tables("p\ncnf 5 0 \n"), (vec![], vec![], 0));
    }

    #[test]
    fn sets() {
        assert_eq!(refused("p cnf 2 1\ne 0 1 0"), (4, 12));
        assert_eq!(refused("p cnf 2 1\ne -1 0 1 0"), (4, 12));
        assert_eq!(refused("p cnf 2 1\ne -9 0 1 0"), (4, 12));
        assert_eq!(refused("p cnf 2 1\ne 9 0 1 0"), (5, 12));
        assert_eq!(refused("p cnf 2 1\ne 4294967297 0 1 0"), (5, 12));
        assert_eq!(refused("p cnf 2 1\ne 1 0 a 2 1 0"), (6, 20));
        assert_eq!(refused("p cnf 2 1\ne 1 a 2 0"), (4, 14));
        assert_eq!(refused("p cnf 2 1\ne"), (9, 11));
        assert_eq!(refused("p cnf 2 1\ne 1"), (9, 13));
        assert_eq!(refused("p cnf 2 0\ne 1 0 x"), (10, 16));
        assert_eq!(refused("p cnf 2 0\n0"), (10, 10));
        assert_eq!(refused("p cnf 2 0\ne x"), (4, 12));
    }

    /// Neighbouring sets of one letter share a block, and so do added variables and a first set of existentials.
    #[test]
    fn blocks() {
        let prefix = |text| tables(text).0;
        assert_eq!(prefix("p cnf 2 0\na 2 0 a 1 0\n"), [2, 2, 1, 1, 2, 1]);
        let text = "p cnf 9 0 e 9 0 a 3 0 a 5 4 0 e 1 0 e 2 0 a 8 0";
        assert_eq!(prefix(text), records(&[9, -3, -5, -4, 1, 2, -8]));
        assert_eq!(prefix(text)[18..], [8, 2, 4]);
        let text = "p cnf 3 1\na 2 0\n3 -2 1 0";
        assert_eq!(prefix(text), [1, 1, 1, 3, 1, 1, 2, 2, 2]);
        let text = "p cnf 3 1\ne 2 0 a 1 0\n3 -2 1 0";
        assert_eq!(prefix(text), [3, 1, 1, 2, 1, 1, 1, 2, 2]);
    }

    #[test]
    fn clauses() {
        assert_eq!(refused("p cnf 2 1\ne 1 2 0\n1,2 0\n"), (4, 18));
        assert_eq!(refused("p cnf 2 1\ne 1 2 0\n1 c 0\n"), (4, 20));
        assert_eq!(refused("p cnf 2 2\ne 1 2 0\n1 0 a\n"), (4, 22));
        assert_eq!(refused("p cnf 2 1\ne 1 2 0\n1 0 a\n"), (10, 22));
        assert_eq!(refused("p cnf 2 1\ne 1 2 0\n3 0\n"), (5, 18));
        assert_eq!(refused("p cnf 2 1\ne 1 2 0\n1 2 -2 -1 0\n"), (8, 22));
        assert_eq!(refused("p cnf 2 1\ne 1 2 0\n1 2"), (9, 21));
        assert_eq!(refused("p cnf 2 2\ne 1 2 0\n1 2 0"), (10, 23));
        assert_eq!(refused("p cnf 2 1\ne 1 2 0\n-0"), (4, 18));
        assert_eq!(tables("p cnf 0 2 0 0"), (vec![], vec![0, 0], 2));
    }

    #[test]
    fn free_variables() {
        let prefix = |text| tables(text).0;
        let expected = |short| records(short);
        assert_eq!(prefix("p cnf 3 1\n3 -1 0\n"), expected(&[1, 3]));
        let text = "p cnf 4 2\na 3 0\n4 -2 0 3 2 0\n";
        assert_eq!(prefix(text), expected(&[2, 4, -3]));
        let text = "p cnf 4 1\ne 2 4 0\n-1 2 0\n";
        assert_eq!(prefix(text), expected(&[1, 2, 4]));
        assert_eq!(refused("p cnf 2 1\ne 1 0\n2 1 -2 0\n"), (8, 20));
        assert_eq!(refused("p cnf 2 1\n3 0\n"), (5, 10));
        let text = b"p cnf 3 1\ne 1 0\n2 3 0\n";
        assert!(read(text, 9, 9).is_ok());
        for room in [3, 5, 6, 8] {
            let crowded = read(text, room, 9).unwrap_err();
            assert_eq!((crowded.reason, crowded.place), (Reason::NoRoom, 22));
            assert_eq!((crowded.line, crowded.column), (4, 1));
            assert_eq!(read(&text[..19], room, 9).unwrap_err().reason.number(), 9);
        }
        let crowded = read(text, 2, 9).unwrap_err();
        assert_eq!((crowded.reason, crowded.place), (Reason::NoRoom, 12));
    }

    #[test]
    fn lines_and_columns() {
        let told = |text: &[u8]| read(text, 3072, 65_536).map_err(|r| (r.line, r.column));
        assert_eq!(told(b""), Err((1, 1)));
        assert_eq!(told(b"p cnf 2 1\ne 1 2 0\n1,2 0\n"), Err((3, 1)));
        assert_eq!(told(b"c \xff\r\n\rp cnf 1 1\r\n\tx 0"), Err((3, 2)));
        assert_eq!(told(b"p cnf 1 1\ne 1 0\n"), Err((3, 1)));
        assert_eq!(told(b"p cnf 1 1\ne 1 0"), Err((2, 6)));
        assert_eq!(told(b"\np cnf 1025 x"), Err((0, 0)));
    }

    #[test]
    fn room() {
        let text = b"p cnf 2 1\ne 1 2 0\n1 2 0\n";
        let place = |prefix, clauses| read(text, prefix, clauses).map_err(|r| r.place);
        assert!(place(6, 3).is_ok());
        assert!(place(7, 3).is_ok());
        assert_eq!(
            [5, 4, 3].map(|words| place(words, 3)),
            [const { Err(14) }; 3]
        );
        assert_eq!(
            [2, 1, 0].map(|words| place(words, 0)),
            [const { Err(12) }; 3]
        );
        assert_eq!(place(6, 2), Err(22));
        assert_eq!(place(6, 0), Err(18));
        let text = b"p cnf 2 1\ne 1 2 0\n1 1 0\n";
        assert_eq!(read(text, 6, 1).map_err(|r| r.reason), Err(Reason::Clash));
        let twice = b"p cnf 2 1\ne 1 1 0\n";
        let answer = read(twice, 3, 1).map_err(|r| r.reason);
        assert_eq!(answer, Err(Reason::BoundTwice));
    }

    #[test]
    fn bounds() {
        let mut text = b"p cnf 0 0".to_vec();
        text.resize(MAX_TEXT, b' ');
        assert!(read(&text, 0, 0).is_ok());
        text.push(b' ');
        assert_eq!(read(&text, 0, 0), Err(Reason::Oversized.at(0)));
    }
}
