//! What the proved library says of an input, each buffer lent between margins that must stay as they are and
//! full of other values beforehand.

use super::{Answer, Buffer};
use crate::ffi::*;
use crate::generate::{Case, Random, Size};
use crate::reference::program::Room;

/// What the proved library says of an input, its buffers full of other values beforehand.
pub fn proved_answer(case: &Case, random: &mut Random) -> Answer {
    let lent = case.clone();
    let answer = call(&lent, random);
    assert!(lent == *case, "an input was written:\n{case}");
    answer
}

/// What the proved library says where every table and buffer is a null pointer of length 0; of the input the numbers
/// alone are used.
pub fn null_answer(case: &Case) -> Answer {
    let mut out = [u64::MAX; 5];
    let returned = match case {
        Case::CheckTables { .. } => null::qdr_check_tables(&mut out).into(),
        Case::Read { .. } => null::qdr_read(&mut out).into(),
        Case::Write { .. } => null::qdr_write(&mut out).into(),
        Case::Row { size, variable, .. } => {
            let call = match size {
                Size::Large => null::qdr_row,
                Size::Small => null::qdr_row_small,
            };
            call(*variable, &mut out).into()
        }
        Case::ReadProof { clause_count, .. } => {
            null::qdr_read_proof(*clause_count, &mut out).into()
        }
        Case::Check { size, .. } => {
            let call = match size {
                Size::Large => null::qdr_check,
                Size::Small => null::qdr_check_small,
            };
            call(&mut out).into()
        }
        Case::Evaluate { .. } => null::qdr_evaluate(&mut out).into(),
        Case::CheckLine { room, .. } => {
            out = [0; 5];
            null::qdr_check_line(room.file) as u64
        }
        Case::DependencyLines { room, .. } => {
            out = [0; 5];
            null::qdr_dependency_lines(room.file) as u64
        }
    };
    Answer {
        returned,
        out,
        buffers: vec![],
    }
}

fn call(case: &Case, random: &mut Random) -> Answer {
    // Whatever the library leaves of it shows.
    let mut out = [u64::MAX; 5];
    let (returned, buffers) = match case {
        Case::CheckTables { tables } => {
            let number = qdr_check_tables(&tables.prefix, &tables.clauses, &mut out);
            (number.into(), vec![])
        }
        Case::Read {
            text,
            prefix_room,
            clause_room,
        } => {
            let mut prefix = Lent::new(*prefix_room, random);
            let mut clauses = Lent::new(*clause_room, random);
            let number = qdr_read(text, prefix.lend(), clauses.lend(), &mut out);
            (number.into(), vec![prefix.returned(), clauses.returned()])
        }
        Case::Write { tables, room } => {
            let mut text = Lent::new(*room, random);
            let number = qdr_write(&tables.prefix, &tables.clauses, text.lend(), &mut out);
            (number.into(), vec![text.returned()])
        }
        Case::Row {
            size,
            tables,
            variable,
            row_room,
            scratch_room,
        } => {
            let mut row = Lent::new(*row_room, random);
            let mut scratch = Lent::new(*scratch_room, random);
            let call = match size {
                Size::Large => qdr_row,
                Size::Small => qdr_row_small,
            };
            let number = call(
                &tables.prefix,
                &tables.clauses,
                *variable,
                row.lend(),
                scratch.lend(),
                &mut out,
            );
            (number.into(), vec![row.returned(), scratch.returned()])
        }
        Case::ReadProof {
            file,
            clause_count,
            room,
        } => {
            let mut steps = Lent::new(*room, random);
            let number = qdr_read_proof(file, *clause_count, steps.lend(), &mut out);
            (number.into(), vec![steps.returned()])
        }
        Case::Check {
            size,
            tables,
            steps,
            scratch_room,
            starts_room,
        } => {
            let mut scratch = Lent::new(*scratch_room, random);
            let mut starts = Lent::new(*starts_room, random);
            let call = match size {
                Size::Large => qdr_check,
                Size::Small => qdr_check_small,
            };
            let number = call(
                &tables.prefix,
                &tables.clauses,
                steps,
                scratch.lend(),
                starts.lend(),
                &mut out,
            );
            (number.into(), vec![scratch.returned(), starts.returned()])
        }
        Case::Evaluate { tables } => {
            let number = qdr_evaluate(&tables.prefix, &tables.clauses, &mut out);
            (number.into(), vec![])
        }
        Case::CheckLine {
            formula,
            proof,
            room,
            line_room,
        } => {
            out = [0; 5];
            check_line(formula, proof, room, *line_room, random)
        }
        Case::DependencyLines {
            formula,
            room,
            text_room,
        } => {
            out = [0; 5];
            dependency_lines(formula, room, *text_room, random)
        }
    };
    Answer {
        returned,
        out,
        buffers,
    }
}

fn check_line(
    formula: &[u8],
    proof: &[u8],
    room: &Room,
    line_room: usize,
    random: &mut Random,
) -> (u64, Vec<Buffer>) {
    let mut prefix = Lent::new(room.prefix, random);
    let mut clauses = Lent::new(room.clauses, random);
    let mut steps = Lent::new(room.steps, random);
    let mut scratch = Lent::new(room.scratch, random);
    let mut starts = Lent::new(room.starts, random);
    let mut line = Lent::new(line_room, random);
    let length = qdr_check_line(
        formula,
        proof,
        room.file,
        prefix.lend(),
        clauses.lend(),
        steps.lend(),
        scratch.lend(),
        starts.lend(),
        line.lend(),
    );
    let buffers = vec![
        prefix.returned(),
        clauses.returned(),
        steps.returned(),
        scratch.returned(),
        starts.returned(),
        line.returned(),
    ];
    (length as u64, buffers)
}

fn dependency_lines(
    formula: &[u8],
    room: &Room,
    text_room: usize,
    random: &mut Random,
) -> (u64, Vec<Buffer>) {
    let mut prefix = Lent::new(room.prefix, random);
    let mut clauses = Lent::new(room.clauses, random);
    let mut scratch = Lent::new(room.scratch, random);
    let mut text = Lent::new(text_room, random);
    let length = qdr_dependency_lines(
        formula,
        room.file,
        prefix.lend(),
        clauses.lend(),
        scratch.lend(),
        text.lend(),
    );
    let buffers = vec![
        prefix.returned(),
        clauses.returned(),
        scratch.returned(),
        text.returned(),
    ];
    (length as u64, buffers)
}

/// A buffer to lend, between two margins.
struct Lent<T> {
    whole: Vec<T>,
    filling: T,
}

const MARGIN: usize = 16;

impl<T: Item> Lent<T> {
    fn new(length: usize, random: &mut Random) -> Lent<T> {
        let filling = T::odd(random.next());
        Lent {
            whole: vec![filling; length + 2 * MARGIN],
            filling,
        }
    }

    fn lend(&mut self) -> &mut [T] {
        let end = self.whole.len() - MARGIN;
        &mut self.whole[MARGIN..end]
    }

    fn returned(mut self) -> Buffer {
        let after = self.whole.split_off(self.whole.len() - MARGIN);
        let lent = self.whole.split_off(MARGIN);
        let margins = [self.whole, after].concat();
        let filling = self.filling;
        assert!(
            margins.iter().all(|item| *item == filling),
            "written outside a buffer"
        );
        T::buffer(lent)
    }
}

/// What a buffer can hold.
trait Item: Copy + PartialEq {
    /// A value that is not 0.
    fn odd(bits: u64) -> Self;
    fn buffer(items: Vec<Self>) -> Buffer;
}

macro_rules! item {
    ($type:ty, $buffer:path) => {
        impl Item for $type {
            fn odd(bits: u64) -> $type {
                bits as $type | 1
            }

            fn buffer(items: Vec<$type>) -> Buffer {
                $buffer(items)
            }
        }
    };
}

item!(u8, Buffer::Bytes);
item!(i32, Buffer::Words);
item!(u32, Buffer::Starts);
