//! What the reference says of an input, buffers included.

use super::seen::UNFIT;
use super::{Answer, Buffer};
use crate::generate::Case;
use crate::reference::steps::Rows;
use crate::reference::tables::Counts;
use crate::reference::{file, play, program, row, steps, tables, text, write, Refusal};

/// What the reference says of an input: 0, a refusal's number or UNFIT, and the answer with buffers.
pub fn reference_answer(case: &Case) -> (usize, Answer) {
    match case {
        Case::CheckTables { tables: given } => {
            let answer = tables::check_tables(&given.prefix, &given.clauses);
            let out = |counts: &Counts| [counts.variables as u64, counts.clauses as u64, 0];
            numbered(&answer, out, vec![])
        }
        Case::Read {
            text: given,
            prefix_room,
            clause_room,
        } => {
            let answer = text::read(given, *prefix_room, *clause_room);
            let (prefix, clauses) = match &answer {
                Ok(reading) => (&reading.prefix[..], &reading.clauses[..]),
                Err(_) => (&[][..], &[][..]),
            };
            let buffers = vec![
                Buffer::Words(padded(prefix, *prefix_room)),
                Buffer::Words(padded(clauses, *clause_room)),
            ];
            let out = |reading: &text::Reading| {
                let used = (reading.prefix.len() as u64, reading.clauses.len() as u64);
                [used.0, used.1, reading.count as u64]
            };
            numbered(&answer, out, buffers)
        }
        Case::Write {
            tables: given,
            room,
        } => {
            let answer = write::write(&given.prefix, &given.clauses, *room);
            let text = answer.as_deref().unwrap_or(&[]);
            let buffers = vec![Buffer::Bytes(padded(text, *room))];
            numbered(&answer, |text| [text.len() as u64, 0, 0], buffers)
        }
        Case::Row {
            size,
            tables: given,
            variable,
            row_room,
            scratch_room,
        } => {
            let answer = row::row(
                &given.prefix,
                &given.clauses,
                *variable,
                *row_room,
                *scratch_room,
                size.scratch(),
            );
            let row = answer.as_ref().map_or(&[][..], |row| &row[..]);
            let buffers = vec![
                Buffer::Bytes(padded(row, *row_room)),
                Buffer::Bytes(vec![0; *scratch_room]),
            ];
            numbered(&answer, |_| [0, 0, 0], buffers)
        }
        Case::ReadProof {
            file: given,
            clause_count,
            room,
        } => {
            let answer = file::read_proof(given, *clause_count, *room);
            let steps = answer.as_deref().unwrap_or(&[]);
            let buffers = vec![Buffer::Words(padded(steps, *room))];
            numbered(&answer, |steps| [steps.len() as u64, 0, 0], buffers)
        }
        Case::Check {
            size,
            tables: given,
            steps: words,
            scratch_room,
            starts_room,
        } => {
            let answer = steps::check(
                &given.prefix,
                &given.clauses,
                words,
                *scratch_room,
                size.scratch(),
                *starts_room,
                Rows::Kept,
            );
            let buffers = vec![
                Buffer::Bytes(vec![0; *scratch_room]),
                Buffer::Starts(vec![0; *starts_room]),
            ];
            let out = |verdict: &steps::Verdict| [verdict.empty as u64, verdict.steps as u64, 0];
            numbered(&answer, out, buffers)
        }
        Case::Evaluate { tables: given } => {
            let answer = play::evaluate(&given.prefix, &given.clauses);
            numbered(&answer, |&holds| [u64::from(holds), 0, 0], vec![])
        }
        Case::CheckLine {
            formula,
            proof,
            room,
            line_room,
        } => {
            let answer = program::check_line(*room, formula, || proof);
            let buffers = vec![
                Buffer::Words(vec![0; room.prefix]),
                Buffer::Words(vec![0; room.clauses]),
                Buffer::Words(vec![0; room.steps]),
                Buffer::Bytes(vec![0; room.scratch]),
                Buffer::Starts(vec![0; room.starts]),
            ];
            printed(answer, *line_room, buffers)
        }
        Case::DependencyLines {
            formula,
            room,
            text_room,
        } => {
            let answer = program::dependency_lines(*room, formula);
            let buffers = vec![
                Buffer::Words(vec![0; room.prefix]),
                Buffer::Words(vec![0; room.clauses]),
                Buffer::Bytes(vec![0; room.scratch]),
            ];
            printed(answer, *text_room, buffers)
        }
    }
}

fn numbered<T>(
    answer: &Result<T, Refusal>,
    out: impl Fn(&T) -> [u64; 3],
    buffers: Vec<Buffer>,
) -> (usize, Answer) {
    let (number, out) = match answer {
        Ok(value) => {
            let [a, b, c] = out(value);
            (0, [a, b, c, 0, 0])
        }
        Err(refusal) => (refusal.reason.number(), refused(refusal)),
    };
    let answer = Answer {
        returned: number.into(),
        out,
        buffers,
    };
    (number as usize, answer)
}

/// The words of `out` after a refusal.
fn refused(refusal: &Refusal) -> [u64; 5] {
    let [variable, block] = refusal.blocker;
    let Refusal {
        place,
        line,
        column,
        ..
    } = *refusal;
    [place, line, column, variable, block].map(|number| number as u64)
}

/// The answer of an entry that prints, its buffer of so many bytes last.
fn printed(
    answer: Result<String, Refusal>,
    room: usize,
    mut buffers: Vec<Buffer>,
) -> (usize, Answer) {
    let number = answer
        .as_ref()
        .map_or_else(|refusal| refusal.reason.number() as usize, |_| 0);
    let line = program::printed(answer);
    let (drawn, line) = if line.len() <= room {
        (number, line.as_bytes())
    } else {
        (UNFIT, &[][..])
    };
    buffers.push(Buffer::Bytes(padded(line, room)));
    let answer = Answer {
        returned: line.len() as u64,
        out: [0; 5],
        buffers,
    };
    (drawn, answer)
}

fn padded<T: Clone + Default>(used: &[T], length: usize) -> Vec<T> {
    let mut buffer = used.to_vec();
    buffer.resize(length, T::default());
    buffer
}
