//! The inputs at each bound and one past it, and those without anything.

use super::chains::{chain, reductions, Order};
use super::derive::long_derivation;
use super::ends::{edge_ends, filled};
use super::lines::{edge_end_lines, edge_lines, edge_pair_lines};
use super::pairs::edge_pairs;
use super::prefixes::{edge_prefixes, edge_sets, every_room, full_prefix, small_prefixes};
use super::proofs::{in_family, numbered};
use super::scratch::{self, edge_scratch};
use super::texts::{spell, tokens};
use super::{push_clause, Case, Random, Shape, Size, Tables};
use crate::reference::file::write_proof;
use crate::reference::program::Room;
use crate::reference::steps::Family;
use crate::reference::{
    MAX_CLAUSES, MAX_CLAUSE_WORDS, MAX_PREFIX_WORDS, MAX_STEP_WORDS, MAX_TEXT, ROW_BYTES,
    SCRATCH_BYTES, SMALL_SCRATCH_BYTES,
};

pub fn edges(random: &mut Random) -> Vec<Case> {
    let mut cases = Vec::new();
    for tables in edge_tables(random) {
        let plain: Vec<String> = tokens(random, &tables);
        cases.push(Case::Read {
            text: spell(random, &plain),
            prefix_room: MAX_PREFIX_WORDS,
            clause_room: MAX_CLAUSE_WORDS + 1,
        });
        cases.extend(of_tables(&tables));
    }
    for prefix in edge_prefixes(random) {
        for clauses in [vec![1, 0], vec![2000], vec![0; MAX_CLAUSES + 1]] {
            let prefix = prefix.clone();
            cases.extend(of_tables(&Tables { prefix, clauses }));
        }
    }
    cases.extend(small_prefixes());
    cases.extend(edge_sets(random));
    cases.extend(every_room());
    cases.extend(edge_texts());
    cases.extend(edge_proofs(random));
    cases.extend(edge_chains(random));
    cases.extend(edge_scratch());
    cases.extend(edge_ends());
    cases.extend(edge_lines(random));
    cases.extend(edge_end_lines(random));
    cases.extend(edge_pairs());
    cases.extend(edge_pair_lines(random));
    cases
}

/// Every entry that takes tables, on these.
fn of_tables(tables: &Tables) -> Vec<Case> {
    let row = |variable, scratch_room| scratch::row_case(tables, variable, 2000, scratch_room);
    let steps = [1, 1, 2, 1, 0];
    let check = |scratch_room| scratch::check_case(tables, &steps, scratch_room, MAX_CLAUSES + 1);
    let tables = || tables.clone();
    let mut cases = vec![
        Case::CheckTables { tables: tables() },
        Case::Write {
            tables: tables(),
            room: 400_000,
        },
        Case::Evaluate { tables: tables() },
    ];
    let enough = [SMALL_SCRATCH_BYTES, SCRATCH_BYTES];
    cases.extend(enough.map(|scratch_room| row(1024, scratch_room)));
    for scratch_room in [0, 127, 128, 639, 640, 8199, 8200] {
        cases.extend([row(1, scratch_room), check(scratch_room)]);
    }
    cases
}

/// Each entry once, with every table empty and no room in any buffer.
pub fn empty() -> [Case; 11] {
    let tables = Tables {
        prefix: vec![],
        clauses: vec![],
    };
    let row = |size| Case::Row {
        size,
        tables: tables.clone(),
        variable: 1,
        row_room: 0,
        scratch_room: 0,
    };
    let check = |size| Case::Check {
        size,
        tables: tables.clone(),
        steps: vec![],
        scratch_room: 0,
        starts_room: 0,
    };
    let room = Room {
        file: usize::MAX,
        prefix: 0,
        clauses: 0,
        steps: 0,
        scratch: 0,
        starts: 0,
    };
    [
        Case::CheckTables {
            tables: tables.clone(),
        },
        Case::Read {
            text: vec![],
            prefix_room: 0,
            clause_room: 0,
        },
        Case::Write {
            tables: tables.clone(),
            room: 0,
        },
        row(Size::Large),
        row(Size::Small),
        Case::ReadProof {
            file: vec![],
            clause_count: 0,
            room: 0,
        },
        check(Size::Large),
        check(Size::Small),
        Case::Evaluate {
            tables: tables.clone(),
        },
        Case::CheckLine {
            formula: vec![],
            proof: vec![],
            room,
            line_room: 0,
        },
        Case::DependencyLines {
            formula: vec![],
            room,
            text_room: 0,
        },
    ]
}

/// Tables at each bound, one past it, and with a fault found only after all of it.
fn edge_tables(random: &mut Random) -> Vec<Tables> {
    let full = full_prefix(random);
    let over = [&full[..], &[3]].concat();
    let mut words = Vec::new();
    let mut numbers: Vec<i32> = (1..=1024).collect();
    for _ in 0..MAX_CLAUSES {
        push_clause(random, &mut numbers, 7, &mut words);
    }
    let mut longer = words.clone();
    longer.insert(0, 1);
    let mut unclosed = words.clone();
    unclosed[MAX_CLAUSE_WORDS - 1] = words[MAX_CLAUSE_WORDS - 9 - 7];
    let mut late_clash = words.clone();
    late_clash[MAX_CLAUSE_WORDS - 2] = -words[MAX_CLAUSE_WORDS - 8];
    let mut wide: Vec<i32> = (1..=1024).collect();
    let mut wide_clash = wide.clone();
    wide.push(0);
    wide_clash.push(-1);
    let all = [
        (&full, words),
        (&full, longer),
        (&full, unclosed),
        (&full, late_clash),
        (&full, wide),
        (&full, wide_clash),
        (&full, vec![0; MAX_CLAUSES]),
        (&full, vec![0; MAX_CLAUSES + 1]),
        (&over, vec![]),
        (&over, vec![0]),
    ];
    all.map(|(short, clauses)| Tables::new(short, clauses))
        .to_vec()
}

fn edge_texts() -> Vec<Case> {
    let mut texts = Vec::new();
    for length in [MAX_TEXT - 1, MAX_TEXT, MAX_TEXT + 1] {
        for head in ["", "p cnf 3 0 e 3 0", "c no line end", "c line\np cnf 1 1 "] {
            let mut text = head.as_bytes().to_vec();
            text.resize(length, b' ');
            texts.push(text);
        }
        let mut digits = b"p cnf 3 1 e 1 0 ".to_vec();
        digits.resize(length, b'7');
        texts.push(digits);
    }
    let short = "1 0 ".repeat(MAX_CLAUSES - 92);
    texts.push(format!("p cnf 2 8192 e 1 0\n{short}").into_bytes());
    // Clause words up to the bound, and then each kind of token beyond it.
    let mut full = String::from("p cnf 1024 8192 e");
    for variable in 1..=1023 {
        full += &format!(" {variable}");
    }
    full += " 0\n";
    let widest = full[full.find('e').unwrap_or(0) + 2..].to_string();
    full += &widest.repeat(MAX_CLAUSE_WORDS / 1024);
    for tail in ["", "1", "0", "1024", "1025", "-1025", "x", "a"] {
        texts.push([full.as_bytes(), tail.as_bytes()].concat());
    }
    texts
        .into_iter()
        .flat_map(|text| {
            [MAX_CLAUSE_WORDS, MAX_CLAUSE_WORDS + 9, 5].map(|clause_room| Case::Read {
                text: text.clone(),
                prefix_room: MAX_PREFIX_WORDS,
                clause_room,
            })
        })
        .collect()
}

/// Rows and reductions, of the two families by turns, on long chains, without a dependent, and with a clause more that
/// makes all of the chain depend on the first universal.
fn edge_chains(random: &mut Random) -> Vec<Case> {
    let mut cases = Vec::new();
    let mut families = Family::BOTH;
    for order in [Order::Near, Order::Far, Order::Shuffled, Order::Zigzag] {
        families.reverse();
        let free = chain(random, 124, 900, order);
        let mut bound = free.clone();
        bound.clauses.extend([1, -1024, 0]);
        for (tables, family) in [free, bound].into_iter().zip(families) {
            let steps = in_family(&reductions(&tables, 6), family);
            for scratch_room in [SMALL_SCRATCH_BYTES, SCRATCH_BYTES] {
                let starts_room = tables.count() + 6;
                cases.push(scratch::check_case(
                    &tables,
                    &steps,
                    scratch_room,
                    starts_room,
                ));
                let row = |variable| scratch::row_case(&tables, variable, ROW_BYTES, scratch_room);
                cases.extend([1, 2].map(row));
            }
        }
    }
    cases
}

fn edge_proofs(random: &mut Random) -> Vec<Case> {
    let mut cases = Vec::new();
    for words in [MAX_STEP_WORDS, MAX_STEP_WORDS + 1] {
        let steps: Vec<i32> = (0..words).map(|_| random.next() as i32).collect();
        for (clause_count, room) in [(3, words), (3, MAX_STEP_WORDS - 1), (4, words)] {
            cases.push(Case::ReadProof {
                file: write_proof(b"a note", &steps, 3),
                clause_count,
                room,
            });
        }
    }
    // The shortest steps, as many as fit: all right, with a word over, and with the last one wrong.
    let (tables, right) = filled(MAX_STEP_WORDS);
    let over = [&right[..], &[0]].concat();
    let mut wrong = right.clone();
    wrong[MAX_STEP_WORDS - 2] = -2;
    let count = numbered(&tables, &right).len();
    for steps in [&right, &wrong].map(|steps| in_family(steps, Family::LongDistance)) {
        let check = |scratch| scratch::check_case(&tables, &steps, scratch, count);
        cases.push(check(SCRATCH_BYTES));
    }
    for steps in [right, over, wrong] {
        let check = |scratch, starts| scratch::check_case(&tables, &steps, scratch, starts);
        for starts_room in [MAX_STEP_WORDS, count, count - 1, 2] {
            cases.push(check(SCRATCH_BYTES, starts_room));
        }
        for scratch_room in [0, SMALL_SCRATCH_BYTES - 1, SMALL_SCRATCH_BYTES] {
            cases.push(check(scratch_room, count));
        }
    }
    let mut shape = Shape::large(random);
    shape.longest = 9;
    shape.clauses = 6000;
    let tables = shape.tables(random);
    for family in Family::BOTH {
        let steps = long_derivation(random, &tables, family, 60_000, 30, 12);
        let starts = MAX_CLAUSES + 15_000;
        let check = |scratch| scratch::check_case(&tables, &steps, scratch, starts);
        cases.extend([SMALL_SCRATCH_BYTES, SCRATCH_BYTES].map(check));
    }
    cases
}
