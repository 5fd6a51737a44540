//! Inputs of the two programs: the bytes of a formula and of a proof file, each whole or damaged, with room
//! about what they need, for the line too.

use super::blocked::blocked;
use super::ends::{ended, filled, gone_on, short_ends, with_each_tail};
use super::files::{damage_file, note};
use super::pairs::{paired, short_pairs};
use super::prefixes::prefix_room;
use super::proofs::{damage_steps, in_family, lawful, numbered, step_places};
use super::tables::{damaged_tables, room};
use super::texts::{damage_bytes, damage_tokens, spell, tokens};
use super::{Case, Random, Tables};
use crate::reference::file::write_proof;
use crate::reference::program::{check_line, dependency_lines, printed, Room, LINES_BYTES};
use crate::reference::steps::Family;
use crate::reference::write::write;
use crate::reference::{MAX_STEP_WORDS, MAX_TEXT, SCRATCH_BYTES, SMALL_SCRATCH_BYTES};

/// The bytes that hold every line of the first program.
const LONGEST_LINE: usize = 160;

pub fn line_batch(random: &mut Random) -> Vec<Case> {
    let (tables, steps) = match random.below(8) {
        0 | 1 => blocked(random),
        2 => ended(random),
        3 | 4 => paired(random),
        _ => lawful(random),
    };
    let mut cases = Vec::new();
    for turn in 0..10 {
        let (mut tables, mut steps) = (tables.clone(), steps.clone());
        match turn {
            1 | 2 => damage_steps(random, &tables, &mut steps),
            3 => tables = damaged_tables(random, &tables),
            7 | 8 => steps = gone_on(random, &tables, &steps),
            _ => {}
        }
        let mut proof = write_proof(&note(random), &steps, tables.count() as u32);
        if turn == 4 {
            damage_file(random, &mut proof);
        }
        let mut spelled = tokens(random, &tables);
        if turn == 5 {
            damage_tokens(random, &mut spelled);
        }
        let mut formula = spell(random, &spelled);
        if turn == 6 {
            damage_bytes(random, &mut formula);
        }
        let lent = drawn_room(random, &tables, &steps, formula.len(), proof.len());
        cases.push(check_case(random, &formula, &proof, lent));
        if turn == 0 || turn >= 5 {
            cases.push(dependency_case(random, &formula, lent));
        }
    }
    cases
}

/// Enough of everything, or more; seldom one part short.
fn drawn_room(
    random: &mut Random,
    tables: &Tables,
    steps: &[i32],
    formula: usize,
    proof: usize,
) -> Room {
    let numbered = tables.count() + step_places(steps).len();
    let mut more = |needed: usize| needed + random.pick(&[0, 0, 1, 30]);
    let mut lent = Room {
        file: more(formula.max(proof)),
        prefix: more(tables.prefix.len()),
        clauses: more(tables.clauses.len()),
        steps: more(steps.len()),
        scratch: more(SCRATCH_BYTES),
        starts: more(numbered),
    };
    match random.below(30) {
        0 => lent.file = random.pick(&[formula, proof]).saturating_sub(1),
        1 => lent.file = random.pick(&[formula, proof]),
        2 | 3 => lent.prefix = prefix_room(random, tables.prefix.len()),
        4 => lent.clauses = room(random, tables.clauses.len()),
        5 => lent.steps = room(random, steps.len()),
        6 => lent.scratch = random.pick(&[0, SMALL_SCRATCH_BYTES, SCRATCH_BYTES - 1]),
        7 => lent.starts = random.below(lent.starts + 1),
        8 => lent.starts = numbered.saturating_sub(1),
        9..=14 => lent.file = 65_536,
        _ => lent.file = usize::MAX,
    }
    lent
}

/// A buffer for a line of so many bytes, or a little too short for it.
fn line_room(random: &mut Random, length: usize) -> usize {
    match random.below(20) {
        0 => length.saturating_sub(1),
        1 => random.below(length + 1),
        2 => 0,
        3..=8 => length,
        _ => length + 100,
    }
}

pub fn check_case(random: &mut Random, formula: &[u8], proof: &[u8], room: Room) -> Case {
    let line = printed(check_line(room, formula, || proof));
    Case::CheckLine {
        formula: formula.to_vec(),
        proof: proof.to_vec(),
        room,
        line_room: line_room(random, line.len()),
    }
}

pub fn dependency_case(random: &mut Random, formula: &[u8], room: Room) -> Case {
    let text = printed(dependency_lines(room, formula));
    Case::DependencyLines {
        formula: formula.to_vec(),
        room,
        text_room: line_room(random, text.len()),
    }
}

/// Files at each bound and one past it, with the programs' room and with all the room there can be.
pub fn edge_lines(random: &mut Random) -> Vec<Case> {
    const FORMULA: &[u8] = b"p cnf 2 3\ne 1 0\na 2 0\n1 0\n-1 0\n2 0\n";
    let refutation = [1, 1, 2, 1, 0];
    let mut pairs = Vec::new();
    for length in [65_536, 65_537, MAX_TEXT, MAX_TEXT + 1] {
        let mut text = FORMULA.to_vec();
        text.resize(length, b' ');
        pairs.push((text, write_proof(b"", &refutation, 3)));
        let note = vec![b'n'; length - 12 - 4 * refutation.len()];
        pairs.push((FORMULA.to_vec(), write_proof(&note, &refutation, 3)));
    }
    for words in [16_384, 16_388, MAX_STEP_WORDS, MAX_STEP_WORDS + 4] {
        let (tables, mut steps) = filled(words);
        let formula = write(&tables.prefix, &tables.clauses, MAX_TEXT).unwrap_or_default();
        for family in Family::BOTH {
            let proof = write_proof(b"", &in_family(&steps, family), 3);
            pairs.push((formula.clone(), proof));
        }
        steps[words - 2] = -2;
        pairs.push((formula, write_proof(b"", &steps, 3)));
        // Ended at once, and words up to the bound behind it.
        let steps = refutation.into_iter().cycle().take(words);
        let proof = write_proof(b"", &steps.collect::<Vec<i32>>(), 3);
        pairs.push((FORMULA.to_vec(), proof));
    }
    let mut cases = Vec::new();
    for (formula, proof) in pairs {
        for room in [Room::PROGRAMS, Room::FULL] {
            cases.push(check_case(random, &formula, &proof, room));
            cases.push(dependency_case(random, &formula, room));
        }
    }
    let formula = all_dependent();
    let length = printed(dependency_lines(Room::FULL, &formula)).len();
    cases.extend(
        [length - 1, length, LINES_BYTES].map(|text_room| Case::DependencyLines {
            formula: formula.clone(),
            room: Room::FULL,
            text_room,
        }),
    );
    cases
}

/// Short proofs that have ended, with words of each kind behind them.
pub fn edge_end_lines(random: &mut Random) -> Vec<Case> {
    let mut cases = Vec::new();
    for (tables, steps) in short_ends() {
        let last = numbered(&tables, &steps).len();
        for words in with_each_tail(&steps) {
            cases.extend(in_short_rooms(random, &tables, &words, last));
        }
    }
    cases
}

/// Short proofs about pairs.
pub fn edge_pair_lines(random: &mut Random) -> Vec<Case> {
    let (tables, proofs) = short_pairs();
    let mut cases = Vec::new();
    for steps in proofs {
        let last = numbered(&tables, &steps).len() - 1;
        cases.extend(in_short_rooms(random, &tables, &steps, last));
    }
    cases
}

/// A proof with all the room it needs, for its line too; and with a line that may not fit, without a start for the last
/// input clause or for a clause behind the one of this number, and with little scratch.
fn in_short_rooms(random: &mut Random, tables: &Tables, words: &[i32], last: usize) -> Vec<Case> {
    let Tables { prefix, clauses } = tables;
    let formula = write(prefix, clauses, MAX_TEXT).unwrap_or_default();
    let inputs = tables.count();
    let proof = write_proof(b"", words, inputs as u32);
    let rooms = [
        (SCRATCH_BYTES, last + 1),
        (SCRATCH_BYTES, last),
        (SCRATCH_BYTES, inputs - 1),
        (SCRATCH_BYTES - 1, last + 1),
    ];
    let room = |(scratch, starts)| Room {
        file: usize::MAX,
        prefix: prefix.len(),
        clauses: clauses.len(),
        steps: words.len(),
        scratch,
        starts,
    };
    let mut cases = vec![Case::CheckLine {
        formula: formula.clone(),
        proof: proof.clone(),
        room: room(rooms[0]),
        line_room: LONGEST_LINE,
    }];
    cases.extend(rooms.map(|lent| check_case(random, &formula, &proof, room(lent))));
    cases
}

/// 512 universals, and 512 existentials that depend on each: the longest text but for some digits.
fn all_dependent() -> Vec<u8> {
    let numbers = |sign: i32| {
        let literals = (1..=1024).map(|v| (sign * v).to_string());
        literals.collect::<Vec<String>>()
    };
    let (all, none) = (numbers(1), numbers(-1).join(" "));
    let (universals, existentials) = (all[..512].join(" "), all[512..].join(" "));
    let all = all.join(" ");
    format!("p cnf 1024 2\na {universals} 0\ne {existentials} 0\n{all} 0\n{none} 0\n").into_bytes()
}
