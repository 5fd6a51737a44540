//! Lengths of the scratch, about what each of the two sizes asks for; and tables that are refused, a row and a proof with
//! each of these lengths.

use super::proofs::in_family;
use super::{Case, Random, Size, Tables};
use crate::reference::prefix::records;
use crate::reference::steps::Family;
use crate::reference::{ROW_BYTES, SCRATCH_BYTES, SMALL_SCRATCH_BYTES};

/// None, one byte, a bit for each variable, what either size asks for, and those next to them.
pub const ROOMS: [usize; 10] = [
    0,
    1,
    127,
    128,
    SMALL_SCRATCH_BYTES - 1,
    SMALL_SCRATCH_BYTES,
    SMALL_SCRATCH_BYTES + 1,
    SCRATCH_BYTES - 1,
    SCRATCH_BYTES,
    SCRATCH_BYTES + 1,
];

/// Lengths that are short for both sizes, with each of which every refusal of tables must be drawn.
pub const SHORT: [usize; 4] = [0, 127, 128, SMALL_SCRATCH_BYTES - 1];

/// Mostly enough for both sizes, sometimes for the small one alone, seldom for neither.
pub fn room(random: &mut Random) -> usize {
    match random.below(40) {
        0..=7 => random.pick(&ROOMS),
        8 => random.below(SMALL_SCRATCH_BYTES),
        9 => random.between(SMALL_SCRATCH_BYTES, SCRATCH_BYTES),
        10..=15 => SMALL_SCRATCH_BYTES,
        16..=23 => SCRATCH_BYTES + random.below(100),
        _ => SCRATCH_BYTES,
    }
}

/// The same, half of them short: for tables that may be refused, whatever the scratch.
pub fn room_for_damaged(random: &mut Random) -> usize {
    match random.below(2) {
        0 => random.pick(&SHORT),
        _ => room(random),
    }
}

/// Tables refused in each way, and tables of a right refutation, with every length: rows of a universal, of another
/// variable and with a short row; proofs of either family with and without starts.
pub fn edge_scratch() -> Vec<Case> {
    let mut cases = Vec::new();
    for tables in refused_tables() {
        for scratch_room in ROOMS {
            cases.push(row_case(&tables, 2, ROW_BYTES, scratch_room));
            cases.push(row_case(&tables, 1, 0, scratch_room));
            cases.push(check_case(&tables, &[5], scratch_room, 9));
            cases.push(check_case(&tables, &[], scratch_room, 0));
        }
    }
    let tables = Tables::new(&[1, -2, 3], vec![1, 2, 0, -1, 0, 3, 2, 0, -3, -2, 0]);
    let refutation = [1, 1, 2, 1, 2, 0, 2, 5, 2, 0];
    let blocked = [2, 3, 2, 3, 0];
    for scratch_room in ROOMS {
        for (variable, row_room) in [(2, 1025), (2, 1100), (2, 1024), (2, 0), (1, 1025), (-2, 0)] {
            cases.push(row_case(&tables, variable, row_room, scratch_room));
        }
        for starts_room in [6, 7, 5, 4, 3, 0] {
            for family in Family::BOTH {
                let check = |steps: &[i32]| {
                    let steps = in_family(steps, family);
                    check_case(&tables, &steps, scratch_room, starts_room)
                };
                cases.extend([check(&refutation), check(&blocked)]);
            }
        }
    }
    cases
}

/// 5, 6 and 9 in the prefix, and 5, 7, 8 and 9 in the clauses, at the first word that can be refused so and at a later one.
pub fn refused_tables() -> Vec<Tables> {
    let right = records(&[1, -2, 3]);
    let words = [1, -2, 0, 3, 2, 0];
    let with = |place: usize, word: i32| {
        let mut prefix = right.clone();
        prefix[place] = word;
        (prefix, words.to_vec())
    };
    let mut all = vec![with(0, 0), with(6, 1025), with(1, 0), with(7, 3)];
    all.extend([with(3, 1), with(6, 2), with(2, 0), with(8, 2)]);
    all.push((right[..1].to_vec(), words.to_vec()));
    all.push((right[..8].to_vec(), words.to_vec()));
    let clauses: [&[i32]; 10] = [
        &[1025],
        &[1, -2, 0, 3, -1025, 0],
        &[i32::MIN, 0],
        &[4, 0],
        &[1, -2, 0, 3, -1024, 0],
        &[1, 1, 0],
        &[1, -2, 0, 3, 1, -3, 0],
        &[1],
        &[1, -2, 0, 3],
        &[0, 0, 2],
    ];
    all.extend(clauses.map(|clauses| (right.clone(), clauses.to_vec())));
    let tables = |(prefix, clauses)| Tables { prefix, clauses };
    all.into_iter().map(tables).collect()
}

pub fn row_case(tables: &Tables, variable: i32, row_room: usize, scratch_room: usize) -> Case {
    Case::Row {
        size: Size::Large,
        tables: tables.clone(),
        variable,
        row_room,
        scratch_room,
    }
}

pub fn check_case(tables: &Tables, steps: &[i32], scratch_room: usize, starts_room: usize) -> Case {
    Case::Check {
        size: Size::Large,
        tables: tables.clone(),
        steps: steps.to_vec(),
        scratch_room,
        starts_room,
    }
}

#[cfg(test)]
mod tests {
    use super::*;
    use crate::reference::tables::check_tables;

    /// Each refusal of tables, from the prefix where it can be and from the clauses.
    #[test]
    fn refusals() {
        let refusal = |tables: &Tables| {
            let refusal = check_tables(&tables.prefix, &tables.clauses).unwrap_err();
            (refusal.reason.number(), refusal.place)
        };
        let expected = [
            (5, 0),
            (5, 6),
            (5, 1),
            (5, 7),
            (6, 3),
            (6, 6),
            (6, 2),
            (6, 8),
            (9, 1),
            (9, 8),
            (5, 0),
            (5, 4),
            (5, 0),
            (7, 0),
            (7, 4),
            (8, 1),
            (8, 5),
            (9, 1),
            (9, 4),
            (9, 3),
        ];
        let found: Vec<(u32, usize)> = refused_tables().iter().map(refusal).collect();
        assert_eq!(found, expected);
    }

    /// Every length is drawn, and some about each bound.
    #[test]
    fn lengths() {
        let random = &mut Random::new(1);
        let drawn: Vec<usize> = (0..2000).map(|_| room(random)).collect();
        for length in ROOMS {
            assert!(drawn.contains(&length), "{length}");
        }
        let within = |low, high| drawn.iter().filter(|&&l| (low..high).contains(&l)).count();
        for (low, high) in [(0, 640), (640, 8200), (8200, 8300)] {
            assert!(within(low, high) > 100, "{low}");
        }
        let drawn: Vec<usize> = (0..200).map(|_| room_for_damaged(random)).collect();
        for length in SHORT {
            assert!(drawn.iter().filter(|&&l| l == length).count() > 10);
        }
    }
}
