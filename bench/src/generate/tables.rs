//! Inputs made of tables: for the check of tables, writing, rows and games. Damage changes words here and
//! there, repeats them, or cuts a table off.

use super::prefixes::damage_prefix;
use super::scratch::{self, row_case};
use super::{Case, Random, Shape, Tables};
use crate::reference::write::write;
use crate::reference::ROW_BYTES;

pub fn tables_batch(random: &mut Random) -> Vec<Case> {
    let tables = Shape::any(random).tables(random);
    let mut cases: Vec<Case> = (0..12)
        .map(|_| damaged_tables(random, &tables))
        .map(|tables| Case::CheckTables { tables })
        .collect();
    cases.push(Case::CheckTables { tables });
    cases
}

/// Numbers that no table admits, and those next to them.
const ODD_WORDS: [i32; 12] = [
    0,
    1,
    -1,
    1023,
    1024,
    -1024,
    1025,
    -1025,
    2049,
    i32::MAX,
    -i32::MAX,
    i32::MIN,
];

pub fn odd_word(random: &mut Random) -> i32 {
    match random.below(4) {
        0 => random.next() as i32,
        1 => random.below(20) as i32 - 10,
        _ => random.pick(&ODD_WORDS),
    }
}

pub fn damaged_tables(random: &mut Random, tables: &Tables) -> Tables {
    let mut tables = tables.clone();
    for _ in 0..random.pick(&[1, 1, 1, 2, 3]) {
        let Tables { prefix, clauses } = &mut tables;
        match random.below(9) {
            0 => {
                clauses.pop();
            }
            1..=3 => damage_prefix(random, prefix),
            4 | 5 => repeat_in_clause(random, clauses),
            6 => {
                let place = random.below(clauses.len() + 1);
                clauses.truncate(place);
            }
            _ => damage_words(random, clauses),
        }
    }
    tables
}

/// Repeats or opposes a literal one to three words after it.
fn repeat_in_clause(random: &mut Random, clauses: &mut Vec<i32>) {
    if !clauses.is_empty() {
        let place = random.below(clauses.len());
        let word = clauses[place].wrapping_mul(random.pick(&[1, -1]));
        clauses.insert((place + random.between(1, 3)).min(clauses.len()), word);
    }
}

pub fn damage_words(random: &mut Random, words: &mut Vec<i32>) {
    if words.is_empty() || random.one_in(4) {
        words.insert(random.below(words.len() + 1), odd_word(random));
        return;
    }
    let place = random.below(words.len());
    match random.below(6) {
        0 => {
            words.remove(place);
        }
        1 => words[place] = words[place].wrapping_neg(),
        2 => words[place] = words[place].wrapping_add(random.pick(&[1, -1])),
        3 => words[place] = random.pick(words),
        _ => words[place] = odd_word(random),
    }
}

/// A room near what is needed: mostly enough, sometimes one short, seldom none.
pub fn room(random: &mut Random, needed: usize) -> usize {
    match random.below(12) {
        0 => needed.saturating_sub(1),
        1 => random.below(needed + 1),
        2 => 0,
        3..=7 => needed + random.below(40),
        _ => needed,
    }
}

pub fn write_batch(random: &mut Random) -> Vec<Case> {
    let tables = Shape::any(random).tables(random);
    let mut cases = Vec::new();
    for _ in 0..6 {
        let length = write(&tables.prefix, &tables.clauses, usize::MAX);
        cases.push(Case::Write {
            tables: tables.clone(),
            room: room(random, length.map_or(0, |text| text.len())),
        });
    }
    for _ in 0..4 {
        cases.push(Case::Write {
            tables: damaged_tables(random, &tables),
            room: random.below(400),
        });
    }
    cases
}

/// A byte buffer around the least length: that, one less, none, or more.
fn buffer(random: &mut Random, least: usize) -> usize {
    match random.below(40) {
        0 => least - 1,
        1 => random.below(least),
        2 => 0,
        3..=12 => least + random.below(100),
        _ => least,
    }
}

pub fn row_batch(random: &mut Random) -> Vec<Case> {
    let shape = match random.below(8) {
        0 => Shape::middling(random),
        _ => Shape::any(random),
    };
    let mut tables = shape.tables(random);
    if random.one_in(2) {
        tables.renumber(random);
    }
    let mut entries = tables.entries();
    random.shuffle(&mut entries);
    entries.retain(|entry| entry.is_universal() || random.one_in(8));
    entries.truncate(10);
    let mut variables: Vec<i32> = entries.iter().map(|entry| entry.variable).collect();
    variables.push(odd_word(random));
    let mut cases: Vec<Case> = variables
        .iter()
        .map(|&variable| {
            let variable = if random.one_in(20) {
                variable.wrapping_neg()
            } else {
                variable
            };
            let row_room = buffer(random, ROW_BYTES);
            row_case(&tables, variable, row_room, scratch::room(random))
        })
        .collect();
    for _ in 0..4 {
        let damaged = damaged_tables(random, &tables);
        let row_room = buffer(random, ROW_BYTES);
        let scratch_room = scratch::room_for_damaged(random);
        cases.push(row_case(&damaged, variables[0], row_room, scratch_room));
    }
    cases
}

pub fn game_batch(random: &mut Random) -> Vec<Case> {
    let mut cases = Vec::new();
    for _ in 0..6 {
        let mut shape = Shape::tight(random);
        match random.below(40) {
            0 => shape = Shape::middling(random),
            1 => {
                shape.variables = random.between(14, 18);
                shape.largest = shape.variables + 5;
                shape.clauses = random.between(10, 80);
            }
            _ => shape.variables += random.below(3),
        }
        shape.largest = shape.largest.max(shape.variables);
        let tables = shape.tables(random);
        if random.one_in(2) {
            let tables = damaged_tables(random, &tables);
            cases.push(Case::Evaluate { tables });
        }
        cases.push(Case::Evaluate { tables });
    }
    cases
}
