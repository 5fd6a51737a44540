//! What inputs draw beyond the numbers of refusals, and must: the word of an entry that is at fault, the words that a
//! set's variable found left, which of several dependents blocks a reduction, and what `ends` and `pairs` know of.

use super::ends::{Proof, AHEAD, ENDS};
use super::pairs::{self, ALLOWED, ANSWERS, OTHERS, WRONG};
use crate::generate::proofs::{numbered, step_places};
use crate::generate::{Case, Tables};
use crate::reference::file::read_proof;
use crate::reference::prefix::{Entry, ENTRY_WORDS};
use crate::reference::program::Room;
use crate::reference::row::row;
use crate::reference::tables::check_tables;
use crate::reference::text::read;
use crate::reference::{Reason, ROW_BYTES, SCRATCH_BYTES};

const TABLES: [&str; 8] = [
    "5 at a variable",
    "6 at a variable",
    "5 at a quantifier",
    "6 at a block",
    "9, a word over threes",
    "9, two words over",
    "5 in a clause",
    "9 behind the clauses",
];

const ROOM: [&str; 5] = [
    "3 at a set, no word left",
    "3 at a set, a word left",
    "3 at a set, two words left",
    "3 for added variables",
    "3 in a clause",
];

/// How the dependents in a blocked clause lie; the first is the one that the clause has first, the smallest the one of
/// the smallest number.
const BLOCKED: [&str; 6] = [
    "17, one dependent",
    "17, several of one block",
    "17, several blocks",
    "17, leftmost not the first",
    "17, leftmost not the smallest",
    "17, leftmost in a block without these two",
];

/// What the inputs of a case's entry must draw.
pub fn due(case: &Case) -> Vec<&'static str> {
    match case {
        Case::Read { .. } | Case::DependencyLines { .. } => ROOM.to_vec(),
        Case::CheckLine { .. } => [&ROOM[..], &of_proofs(), &AHEAD[..2]].concat(),
        Case::Check { .. } => [&TABLES[..], &of_proofs(), &AHEAD].concat(),
        Case::ReadProof { .. } => vec![],
        _ => TABLES.to_vec(),
    }
}

/// What every entry that checks proofs must draw.
fn of_proofs() -> Vec<&'static str> {
    let [plain, long_distance] = &ANSWERS;
    let of_families = [&plain[..], long_distance, &OTHERS, &ALLOWED, &WRONG];
    [&BLOCKED[..], &ENDS, &of_families.concat()].concat()
}

/// What an input draws, the reference having answered with this number.
pub fn drawn(case: &Case, number: usize) -> Vec<&'static str> {
    match case {
        Case::CheckTables { tables }
        | Case::Write { tables, .. }
        | Case::Row { tables, .. }
        | Case::Evaluate { tables } => of_tables(tables, number),
        Case::Check {
            size,
            tables,
            steps,
            scratch_room,
            starts_room,
        } => {
            let proof = Proof {
                tables,
                steps,
                short_scratch: *scratch_room < size.scratch(),
                starts: *starts_room,
            };
            [of_tables(tables, number), of_proof(&proof, number)].concat()
        }
        Case::Read {
            text,
            prefix_room,
            clause_room,
        } => of_room(text, *prefix_room, *clause_room),
        Case::DependencyLines { formula, room, .. } if number == 3 => {
            of_room(formula, room.prefix, room.clauses)
        }
        Case::CheckLine {
            formula,
            proof,
            room,
            ..
        } => of_line(formula, proof, room, number),
        _ => vec![],
    }
}

/// What a proof file draws, or where it or the formula is not read, the formula.
fn of_line(formula: &[u8], proof: &[u8], room: &Room, number: usize) -> Vec<&'static str> {
    match formula_and_steps(formula, proof, room) {
        Some((tables, steps)) => {
            let proof = Proof {
                tables: &tables,
                steps: &steps,
                short_scratch: room.scratch < SCRATCH_BYTES,
                starts: room.starts,
            };
            of_proof(&proof, number)
        }
        None if number == 3 => of_room(formula, room.prefix, room.clauses),
        None => vec![],
    }
}

/// How the dependents of a blocked reduction lie, or what stands at the proof's end; and what `pairs` knows of.
fn of_proof(proof: &Proof, number: usize) -> Vec<&'static str> {
    let of_number = match number {
        17 => of_blocked(proof.tables, proof.steps),
        _ => proof.drawn(number),
    };
    [of_number, pairs::drawn(proof, number)].concat()
}

fn formula_and_steps(formula: &[u8], proof: &[u8], room: &Room) -> Option<(Tables, Vec<i32>)> {
    let reading = read(formula, room.prefix, room.clauses).ok()?;
    let steps = read_proof(proof, reading.count as u32, room.steps).ok()?;
    let tables = Tables {
        prefix: reading.prefix,
        clauses: reading.clauses,
    };
    Some((tables, steps))
}

/// The word of the prefix, or the clauses, at which tables are refused.
fn of_tables(tables: &Tables, number: usize) -> Vec<&'static str> {
    let in_prefix = check_tables(&tables.prefix, &[]).err();
    let word = in_prefix.map(|refusal| refusal.place % ENTRY_WORDS);
    let kind = match (number, word) {
        (5, Some(0)) => 0,
        (6, Some(0)) => 1,
        (5, Some(1)) => 2,
        (6, Some(2)) => 3,
        (9, Some(1)) => 4,
        (9, Some(2)) => 5,
        (5, None) => 6,
        (9, None) => 7,
        _ => return vec![],
    };
    vec![TABLES[kind]]
}

/// What found no room: a set's variable, the variables added at the end, or a clause's word.
fn of_room(text: &[u8], prefix: usize, clauses: usize) -> Vec<&'static str> {
    let refused = |prefix, clauses| {
        let refusal = read(text, prefix, clauses).err();
        refusal.filter(|refusal| refusal.reason == Reason::NoRoom)
    };
    let Some(refusal) = refused(prefix, clauses) else {
        return vec![];
    };
    let kind = match refused(prefix, usize::MAX) {
        None => 4,
        Some(_) if refusal.place == text.len() => 3,
        Some(_) => prefix % ENTRY_WORDS,
    };
    vec![ROOM[kind]]
}

/// How the dependents of the blocked clause lie.
fn of_blocked(tables: &Tables, steps: &[i32]) -> Vec<&'static str> {
    let found = dependents(tables, steps);
    let smallest = found.iter().min_by_key(|entry| entry.variable);
    let leftmost = tables.entries().into_iter().find(|e| found.contains(e));
    let (Some(leftmost), Some(smallest)) = (leftmost, smallest) else {
        return vec![];
    };
    let several = found.len() > 1;
    let apart = found.iter().any(|entry| entry.block != found[0].block);
    let holds = [
        !several,
        several && !apart,
        apart,
        found[0] != leftmost,
        *smallest != leftmost,
        found[0].block != leftmost.block && smallest.block != leftmost.block,
    ];
    let kinds = BLOCKED.into_iter().zip(holds);
    kinds.filter(|kind| kind.1).map(|kind| kind.0).collect()
}

/// The entries of the dependents that block the first blocked reduction, in its clause's order.
pub fn dependents(tables: &Tables, steps: &[i32]) -> Vec<Entry> {
    let clauses = numbered(tables, steps);
    let blocked = step_places(steps).into_iter().find_map(|at| {
        let [2 | 4, i, literal, ..] = steps[at..] else {
            return None;
        };
        let clause = clauses.get(usize::try_from(i).ok()?.checked_sub(1)?)?;
        let found = dependents_in(tables, clause, literal.checked_abs()?);
        (!found.is_empty()).then_some(found)
    });
    blocked.unwrap_or_default()
}

/// The entries of a clause's variables that depend on a universal, in the clause's order.
fn dependents_in(tables: &Tables, clause: &[i32], universal: i32) -> Vec<Entry> {
    let Tables { prefix, clauses } = tables;
    let row = row(
        prefix,
        clauses,
        universal,
        ROW_BYTES,
        SCRATCH_BYTES,
        SCRATCH_BYTES,
    );
    let Ok(row) = row else {
        return vec![];
    };
    let entries = tables.entries();
    let entry = |literal: &i32| {
        let held = entries.iter().find(|e| e.variable == literal.abs())?;
        (row[held.variable as usize] == 1).then_some(*held)
    };
    clause.iter().filter_map(entry).collect()
}
