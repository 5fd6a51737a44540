//! Texts: formulas spelled with odd spacing and comments, then damaged by tokens or by bytes, or cut at
//! every byte.

use super::prefixes::prefix_room;
use super::tables::{damaged_tables, room};
use super::{Case, Random, Shape, Tables};
use crate::reference::prefix::ENTRY_WORDS;
use crate::reference::text::read;
use crate::reference::MAX_VARIABLE;

const BLANKS: [&str; 10] = [
    " ", " ", " ", "\n", "\t", "\r\n", "\r", "  ", " \n\n ", "\n\t",
];

/// Tokens that belong nowhere, or elsewhere, or near a bound.
const ODD_TOKENS: [&str; 36] = [
    "0",
    "-0",
    "+1",
    "01",
    "00",
    "-01",
    "1",
    "-1",
    "2",
    "--1",
    "-",
    "a",
    "e",
    "c",
    "p",
    "cnf",
    "ae",
    "a1",
    "1a",
    "1,2",
    "\0",
    "1\0",
    "\u{e9}",
    "1024",
    "1025",
    "-1024",
    "-1025",
    "8192",
    "8193",
    "2147483647",
    "-2147483648",
    "2147483649",
    "4294967296",
    "4294967297",
    "18446744073709551617",
    "-99999999999999999999999999999999999999999",
];

/// The tokens of a formula's text, header first; sets may be split or lack variables, V and C may be off.
pub fn tokens(random: &mut Random, tables: &Tables) -> Vec<String> {
    let records = tables.prefix.chunks_exact(ENTRY_WORDS);
    let largest = records.clone().map(|entry| entry[0].unsigned_abs()).max();
    let largest = largest.unwrap_or(0) as usize;
    let count = tables.count();
    let (declared, stated) = match random.below(20) {
        0 => (largest.saturating_sub(1), count),
        1 => (largest, count + 1),
        2 => (largest, count.saturating_sub(1)),
        3 => (largest, 0),
        4..=9 => (MAX_VARIABLE.min(largest + random.below(4)), count),
        _ => (largest, count),
    };
    let mut tokens = vec!["p".to_string(), "cnf".to_string()];
    tokens.push(declared.to_string());
    tokens.push(stated.to_string());
    let mut open: Option<bool> = None;
    let lacking = random.one_in(4);
    for entry in records {
        if lacking && random.one_in(3) {
            continue;
        }
        let universal = entry[1] == 2;
        if open != Some(universal) || random.one_in(8) {
            if open.is_some() {
                tokens.push("0".to_string());
            }
            tokens.push(if universal { "a" } else { "e" }.to_string());
            open = Some(universal);
        }
        tokens.push(entry[0].unsigned_abs().to_string());
    }
    if open.is_some() {
        tokens.push("0".to_string());
    }
    tokens.extend(tables.clauses.iter().map(|word| word.to_string()));
    tokens
}

/// Spells tokens with blanks between them, and comments ahead.
pub fn spell(random: &mut Random, tokens: &[String]) -> Vec<u8> {
    let plain = random.one_in(3);
    let mut text = Vec::new();
    let comments = random.pick(&[0, 0, 1, 3]);
    for _ in 0..comments {
        let comment = random.pick(&["c\n", "c a comment\r\n", "cnf 1 1\n", "c p cnf 1 1\n", "\n"]);
        text.extend_from_slice(comment.as_bytes());
    }
    if random.one_in(6) {
        text.extend_from_slice(random.pick(&BLANKS).as_bytes());
    }
    for (place, token) in tokens.iter().enumerate() {
        if place > 0 {
            let blank = if !plain {
                random.pick(&BLANKS)
            } else if token == "a" || token == "e" || tokens[place - 1] == "0" {
                "\n"
            } else {
                " "
            };
            text.extend_from_slice(blank.as_bytes());
        }
        text.extend_from_slice(token.as_bytes());
    }
    text.extend_from_slice(random.pick(&["", "\n", "\n", "\r\n", " \t\n"]).as_bytes());
    text
}

pub fn damage_tokens(random: &mut Random, tokens: &mut Vec<String>) {
    let place = random.below(tokens.len());
    match random.below(8) {
        0 => {
            tokens.remove(place);
        }
        1 => {
            let token = random.pick(tokens);
            tokens.insert(place, token);
        }
        2 => tokens.truncate(place),
        3 => {
            let other = random.below(tokens.len());
            tokens.swap(place, other);
        }
        4 => tokens[place] = random.pick(tokens),
        5 => tokens.insert(place, random.pick(&ODD_TOKENS).to_string()),
        _ => tokens[place] = random.pick(&ODD_TOKENS).to_string(),
    }
    if tokens.is_empty() {
        tokens.push("p".to_string());
    }
}

pub fn damage_bytes(random: &mut Random, text: &mut Vec<u8>) {
    const BYTES: &[u8] = b"0123456789-- \n\r\tcpaenf,+\0\xff\x0b";
    let byte = random.pick(BYTES);
    let place = random.below(text.len() + 1);
    match random.below(3) {
        0 => text.insert(place, byte),
        _ if place == text.len() => text.push(byte),
        1 => text[place] = byte,
        _ => {
            text.remove(place);
        }
    }
}

/// Room near what the text needs, or near what the tables have if it is not read.
fn read_case(random: &mut Random, tables: &Tables, text: Vec<u8>) -> Case {
    let reading = read(&text, usize::MAX, usize::MAX);
    let prefix = reading.map_or(tables.prefix.len(), |reading| reading.prefix.len());
    Case::Read {
        text,
        prefix_room: prefix_room(random, prefix),
        clause_room: room(random, tables.clauses.len()),
    }
}

pub fn text_batch(random: &mut Random) -> Vec<Case> {
    let tables = Shape::any(random).tables(random);
    let mut cases = Vec::new();
    for turn in 0..8 {
        let mut spelled = tokens(random, &tables);
        if turn % 4 == 1 || turn % 4 == 2 {
            for _ in 0..random.pick(&[1, 1, 2]) {
                damage_tokens(random, &mut spelled);
            }
        }
        let mut text = spell(random, &spelled);
        if turn % 4 == 3 {
            for _ in 0..random.pick(&[1, 1, 2, 5]) {
                damage_bytes(random, &mut text);
            }
        }
        cases.push(read_case(random, &tables, text));
    }
    let damaged = damaged_tables(random, &tables);
    let spelled = tokens(random, &damaged);
    let text = spell(random, &spelled);
    cases.push(read_case(random, &damaged, text));
    cases
}

/// One text cut at every byte.
pub fn cut_texts(random: &mut Random) -> Vec<Case> {
    let mut shape = Shape::small(random);
    shape.clauses = shape.clauses.min(4);
    let tables = shape.tables(random);
    let spelled = tokens(random, &tables);
    let text = spell(random, &spelled);
    (0..=text.len())
        .map(|end| Case::Read {
            text: text[..end].to_vec(),
            prefix_room: tables.prefix.len(),
            clause_room: tables.clauses.len(),
        })
        .collect()
}
