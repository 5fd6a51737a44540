//! The two programs: what they print for a formula's text and a proof file, with the room they are lent.

use super::file::read_proof;
use super::prefix::{entries, Entry, ENTRY_WORDS};
use super::row::Occurrences;
use super::steps::{check, Rows};
use super::tables::Counts;
use super::text::{read, Reading};
use super::{
    Reason, Refusal, MAX_CLAUSES, MAX_CLAUSE_WORDS, MAX_PREFIX_WORDS, MAX_STEP_WORDS, MAX_VARIABLE,
    SCRATCH_BYTES,
};

/// The longest file that is taken, and the lengths of the tables and of the scratch.
#[derive(Clone, Copy, Debug, PartialEq, Eq)]
pub struct Room {
    pub file: usize,
    pub prefix: usize,
    pub clauses: usize,
    pub steps: usize,
    pub scratch: usize,
    pub starts: usize,
}

impl Room {
    /// What the specification gives the two programs.
    pub const PROGRAMS: Room = Room {
        file: 65_536,
        prefix: MAX_PREFIX_WORDS,
        clauses: 16_384,
        steps: 16_384,
        scratch: SCRATCH_BYTES,
        starts: 16_384,
    };

    /// What suffices for every formula and proof within the bounds: a step has four words at least.
    pub const FULL: Room = Room {
        file: usize::MAX,
        prefix: MAX_PREFIX_WORDS,
        clauses: MAX_CLAUSE_WORDS,
        steps: MAX_STEP_WORDS,
        scratch: SCRATCH_BYTES,
        starts: MAX_CLAUSES + MAX_STEP_WORDS / 4,
    };
}

/// Holds every text of the second program: a line has six bytes at most for its universal and five for each
/// dependent, and there are no more pairs of a universal and an existential than 512 times 512.
pub const LINES_BYTES: usize = 6 * MAX_VARIABLE + 5 * (MAX_VARIABLE / 2) * (MAX_VARIABLE / 2);

/// What a program prints for an answer. A blocked reduction alone has numbers behind its column.
pub fn printed(answer: Result<String, Refusal>) -> String {
    answer.unwrap_or_else(|refusal| {
        let (number, word) = (refusal.reason.number(), refusal.reason.word());
        let (place, line, column) = (refusal.place, refusal.line, refusal.column);
        let blocker = match (refusal.reason, refusal.blocker) {
            (Reason::Blocked, [variable, block]) => format!(" {variable} {block}"),
            _ => String::new(),
        };
        format!("refused {number} {word} {place} {line} {column}{blocker}\n")
    })
}

/// The line of the first program. The proof file is asked for once the formula is settled.
pub fn check_line<P: AsRef<[u8]>>(
    room: Room,
    formula: &[u8],
    proof: impl FnOnce() -> P,
) -> Result<String, Refusal> {
    let reading = read_formula(room, formula)?;
    let proof = proof();
    let proof = proof.as_ref();
    if proof.len() > room.file {
        return Err(Reason::Oversized.at(0));
    }
    let steps = read_proof(proof, reading.count as u32, room.steps)?;
    let verdict = check(
        &reading.prefix,
        &reading.clauses,
        &steps,
        room.scratch,
        SCRATCH_BYTES,
        room.starts,
        Rows::Kept,
    )?;
    Ok(format!(
        "accepted {} {} {} {}\n",
        reading.prefix.len() / ENTRY_WORDS,
        reading.count,
        verdict.steps,
        verdict.empty
    ))
}

/// The lines of the second program.
pub fn dependency_lines(room: Room, formula: &[u8]) -> Result<String, Refusal> {
    let reading = read_formula(room, formula)?;
    if room.scratch < SCRATCH_BYTES {
        return Err(Reason::NoRoom.at(0));
    }
    let entries = entries(&reading.prefix);
    let counts = Counts {
        variables: entries.len(),
        clauses: reading.count,
    };
    let occurrences = Occurrences::of(&reading.clauses, counts);
    let mut lines = String::new();
    for universal in entries.iter().filter(|entry| entry.is_universal()) {
        let row = occurrences.row(&entries, universal.variable);
        lines += &format!("{}:", universal.variable);
        for Entry { variable, .. } in &entries {
            if row[*variable as usize] == 1 {
                lines += &format!(" {variable}");
            }
        }
        lines.push('\n');
    }
    Ok(lines)
}

fn read_formula(room: Room, formula: &[u8]) -> Result<Reading, Refusal> {
    if formula.len() > room.file {
        return Err(Reason::Oversized.at(0));
    }
    read(formula, room.prefix, room.clauses)
}
