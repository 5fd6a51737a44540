//! The specification's known positions, a to l and the unlettered ones, with prefixes given in short, and the proofs
//! of outside solvers where QDR_OUTSIDE_PROOFS names their folder.

use std::fs;
use std::io::Write;
use std::path::Path;

use super::file::write_proof;
use super::prefix::records;
use super::program::{self, printed, Room};
use super::row::row;
use super::steps::{check, Rows, Verdict};
use super::tables::check_tables;
use super::text::read;
use super::write::write;

const PREFIX: [i32; 4] = [1, -2, 3, 4];
const CLAUSES: [i32; 12] = [2, 3, 0, -2, 4, 0, -4, 1, 0, -1, -3, 0];
const STEPS: [i32; 27] = [
    2, 1, 2, 3, 0, 2, 2, -2, 4, 0, 1, 6, 3, 4, 1, 0, 1, 5, 4, 3, -1, 0, 1, 7, 8, 1, 0,
];

fn dependents(short: &[i32], clauses: &[i32], variable: i32) -> Vec<usize> {
    let prefix = records(short);
    let large = row(&prefix, clauses, variable, 1025, 8200, 8200);
    let small = row(&prefix, clauses, variable, 1025, 640, 640);
    assert_eq!(large, small);
    let row = large.unwrap();
    (0..1025).filter(|&v| row[v] == 1).collect()
}

/// The lines of the two programs, with their room.
fn check_line(formula: &[u8], proof: impl FnOnce() -> Vec<u8>) -> String {
    printed(program::check_line(Room::PROGRAMS, formula, proof))
}

fn dependency_lines(formula: &[u8]) -> String {
    printed(program::dependency_lines(Room::PROGRAMS, formula))
}

/// The empty clause and the number of steps, or the refusal's number and place.
fn judged(short: &[i32], clauses: &[i32], steps: &[i32]) -> Result<(usize, usize), (u32, usize)> {
    let prefix = records(short);
    let large = check(&prefix, clauses, steps, 8200, 8200, 1000, Rows::Kept);
    let small = check(&prefix, clauses, steps, 640, 640, 1000, Rows::Kept);
    assert_eq!(large, small);
    match large {
        Ok(Verdict { empty, steps }) => Ok((empty, steps)),
        Err(refusal) => Err((refusal.reason.number(), refusal.place)),
    }
}

#[test]
fn a_b_the_example() {
    assert_eq!(dependents(&PREFIX, &CLAUSES, 2), vec![]);
    assert_eq!(judged(&PREFIX, &CLAUSES, &STEPS), Ok((9, 5)));
    let mut changed = STEPS;
    changed[8] = 3;
    assert_eq!(judged(&PREFIX, &CLAUSES, &changed), Err((18, 6)));
}

#[test]
fn c_d_both_rows_hold_3() {
    let (prefix, clauses) = ([-1, -2, 3], [1, 2, -3, 0, -1, -2, 3, 0]);
    assert_eq!(dependents(&prefix, &clauses, 1), vec![3]);
    assert_eq!(dependents(&prefix, &clauses, 2), vec![3]);
    let steps = [2, 1, 1, 2, -3, 0];
    assert_eq!(judged(&prefix, &clauses, &steps), Err((17, 3)));
    for asked in [8200, 640] {
        let answer = check(
            &records(&prefix),
            &clauses,
            &steps,
            asked,
            asked,
            3,
            Rows::Kept,
        );
        assert_eq!(answer.unwrap_err().blocker, [3, 2]);
    }
}

#[test]
fn e_a_path_through_the_dependent() {
    let clauses = [1, 2, 0, -1, 2, 0, -2, 3, 0, -2, -3, 0];
    assert_eq!(dependents(&[-1, 2, 3], &clauses, 1), vec![2, 3]);
}

#[test]
fn f_to_i_conclusions() {
    assert_eq!(judged(&[], &[], &[]), Err((19, 0)));
    assert_eq!(judged(&[], &[0], &[]), Ok((1, 0)));
    assert_eq!(judged(&[1, -2], &[1, 2, 0], &[2, 1, 2, 1, 0]), Err((19, 2)));
    assert_eq!(judged(&[-1], &[1, 0], &[2, 1, 1, 0]), Ok((2, 1)));
}

#[test]
fn j_k_wrong_pivot_and_tautology() {
    assert_eq!(
        judged(&[-1], &[1, 0, -1, 0], &[1, 1, 2, 1, 0]),
        Err((15, 3))
    );
    let steps = [1, 1, 2, 1, 2, -2, 0];
    assert_eq!(judged(&[1, 2], &[1, 2, 0, -1, -2, 0], &steps), Err((16, 3)));
}

#[test]
fn l_one_path_is_not_enough() {
    assert_eq!(dependents(&[-1, 2], &[1, 2, 0, -1, 2, 0], 1), vec![]);
}

#[test]
fn texts() {
    let refusal = read(b"p cnf 2 1\ne 1 2 0\n1,2 0\n", 3072, 1024).unwrap_err();
    assert_eq!((refusal.reason.number(), refusal.place), (4, 18));
    assert_eq!((refusal.line, refusal.column), (3, 1));
    let reading = read(b"p cnf 2 1\ne 1 2 0\n1\n2 0\n", 3072, 1024).unwrap();
    assert_eq!(reading.prefix, vec![1, 1, 1, 2, 1, 1]);
    assert_eq!(reading.clauses, vec![1, 2, 0]);
}

#[test]
fn bounds() {
    let short: Vec<i32> = (1..=1025).collect();
    let prefix = records(&short);
    assert!(check_tables(&prefix[..3072], &[]).is_ok());
    assert_eq!(
        check_tables(&prefix, &[]).unwrap_err().reason.number(),
        2,
        "1,025 variables"
    );
    for asked in [8200, 640] {
        assert!(row(&records(&[-1]), &[], 1, 1025, asked, asked).is_ok());
        assert!(row(&records(&[-1]), &[], 1, 1025, asked - 1, asked).is_err());
    }
}

#[test]
fn programs_on_the_example() {
    let formula = write(&records(&PREFIX), &CLAUSES, 1000).unwrap();
    let file = write_proof(b"", &STEPS, 4);
    assert_eq!(file.len(), 120);
    assert_eq!(file[108..112], [108, 0, 0, 0]);
    assert_eq!(check_line(&formula, || file), "accepted 4 4 5 9\n");
    assert_eq!(dependency_lines(&formula), "2:\n");
}

#[test]
fn programs_refuse() {
    let unasked = || -> Vec<u8> { panic!("the proof is looked at") };
    assert_eq!(check_line(b"", unasked), "refused 1 headless 0 1 1\n");
    let long = vec![b' '; 65_537];
    assert_eq!(check_line(&long, unasked), "refused 2 oversized 0 0 0\n");
    assert_eq!(
        check_line(&long[1..], unasked),
        "refused 1 headless 65536 1 65537\n"
    );
    assert_eq!(dependency_lines(&long), "refused 2 oversized 0 0 0\n");
    let formula = b"p cnf 0 0";
    assert_eq!(
        check_line(formula, Vec::new),
        "refused 11 no trailer 0 0 0\n"
    );
    assert_eq!(check_line(formula, || long), "refused 2 oversized 0 0 0\n");
    assert_eq!(dependency_lines(formula), "");
    let formula = b"p cnf 3 2 a 1 2 0 e 3 0 1 2 -3 0 -1 -2 3 0";
    let file = write_proof(b"note", &[2, 1, 1, 2, -3, 0], 2);
    assert_eq!(
        check_line(formula, || file),
        "refused 17 blocked 3 0 0 3 2\n"
    );
    assert_eq!(dependency_lines(formula), "1: 3\n2: 3\n");
}

#[test]
fn programs_refuse_steps_behind_an_empty_clause() {
    let formula = b"p cnf 1 2\na 1 0\n1 0\n0\n";
    let line = |steps: &[i32]| check_line(formula, || write_proof(b"note", steps, 2));
    assert_eq!(line(&[]), "accepted 1 2 0 2\n");
    assert_eq!(line(&[2, 1, 1, 0]), "refused 23 afterword 3 0 0\n");
    assert_eq!(line(&[9]), "refused 23 afterword 3 0 0\n");
    let formula = b"p cnf 1 1\na 1 0\n1 0\n";
    let line = |steps: &[i32]| check_line(formula, || write_proof(b"", steps, 1));
    assert_eq!(line(&[2, 1, 1, 0]), "accepted 1 1 1 2\n");
    let twice = [2, 1, 1, 0, 2, 1, 1, 0];
    assert_eq!(line(&twice), "refused 23 afterword 3 0 0\n");
}

/// Each folder has a formula and a proof; `expected.txt` has a line `folder: line` for each.
#[test]
fn outside_proofs() {
    let Some(folder) = std::env::var_os("QDR_OUTSIDE_PROOFS") else {
        // Past the capture of tests that pass.
        let notice = b"outside proofs skipped: QDR_OUTSIDE_PROOFS is not set\n";
        std::io::stderr().write_all(notice).unwrap();
        return;
    };
    let folder = Path::new(&folder);
    let expected = fs::read_to_string(folder.join("expected.txt")).unwrap();
    let mut cases = 0;
    for case in expected.lines() {
        let (name, line) = case.split_once(": ").unwrap();
        let formula = fs::read(folder.join(name).join("formula.qdimacs")).unwrap();
        let proof = fs::read(folder.join(name).join("proof.qdr")).unwrap();
        assert_eq!(check_line(&formula, || proof).trim_end(), line, "{name}");
        cases += 1;
    }
    assert!(cases > 0);
    writeln!(std::io::stderr(), "{cases} outside proofs as expected").unwrap();
}
