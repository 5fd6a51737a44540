//! Times each entry at full size, the proved library against one reference or several: best and median of
//! some runs, and the ratio of each. Without the library the references are timed alone.

use std::hint::black_box;
use std::time::{Duration, Instant};

use crate::generate::derive::long_derivation;
use crate::generate::long::refutation;
use crate::generate::proofs::in_family;
use crate::generate::{Random, Shape, Size, Tables};
use crate::reference::file::{read_proof, write_proof};
use crate::reference::play::{evaluate, evaluate_by_words};
use crate::reference::program::{check_line, dependency_lines, Room};
use crate::reference::row::{row, row_by_passes};
use crate::reference::steps::{check, Family, Rows, Verdict};
use crate::reference::tables::check_tables;
use crate::reference::text::read;
use crate::reference::write::write;
use crate::reference::{
    Reason, Refusal, MAX_CLAUSES, MAX_CLAUSE_WORDS, MAX_PREFIX_WORDS, MAX_STEP_WORDS, MAX_TEXT,
    MAX_VARIABLE, ROW_BYTES,
};

/// The best and the median of some runs, in milliseconds.
#[derive(Clone, Copy)]
pub struct Times {
    pub best: f64,
    pub median: f64,
}

impl Times {
    fn of(mut runs: Vec<f64>) -> Times {
        runs.sort_by(f64::total_cmp);
        Times {
            best: runs[0],
            median: runs[runs.len() / 2],
        }
    }
}

fn milliseconds(work: &mut dyn FnMut()) -> f64 {
    let start = Instant::now();
    work();
    start.elapsed().as_secs_f64() * 1000.0
}

/// How often something is run: so often, or less if it takes long, but some times in any case. References are
/// run REPEATED times at least.
#[derive(Clone, Copy)]
pub struct Runs {
    pub most: usize,
    pub least: usize,
}

const LONG: Duration = Duration::from_secs(6);
const REPEATED: usize = 3;
const RUNS: Runs = Runs {
    most: 15,
    least: REPEATED,
};

/// A reference's name and its work.
pub type Reference<'a> = (&'a str, &'a mut dyn FnMut());

/// Prints a line for each reference, and the proved times on the first; hands back the proved times, if there is
/// a library, and those of each reference. All take turns, so that a busy spell of the machine falls on each.
pub fn report(
    name: &str,
    runs: Runs,
    mut proved: Option<impl FnMut()>,
    references: &mut [Reference],
) -> (Option<Times>, Vec<Times>) {
    let mut proved_runs = Vec::new();
    let mut reference_runs = vec![Vec::new(); references.len()];
    let begun = Instant::now();
    for turn in 0..runs.most {
        if turn >= runs.least && begun.elapsed() > LONG {
            break;
        }
        for ((_, work), runs) in references.iter_mut().zip(&mut reference_runs) {
            runs.push(milliseconds(work));
        }
        if let Some(work) = &mut proved {
            proved_runs.push(milliseconds(work));
        }
    }
    for ((_, work), runs) in references.iter_mut().zip(&mut reference_runs) {
        while runs.len() < REPEATED {
            runs.push(milliseconds(work));
        }
    }
    let proved = (!proved_runs.is_empty()).then(|| Times::of(proved_runs));
    print!("{name:<54}");
    match proved {
        Some(times) => print!("{:>10.3} {:>10.3}", times.best, times.median),
        None => print!("{:>21}", ""),
    }
    let reference_times: Vec<Times> = reference_runs.into_iter().map(Times::of).collect();
    for (turn, ((label, _), times)) in references.iter().zip(&reference_times).enumerate() {
        if turn > 0 {
            print!("{:75}", "");
        }
        print!("{:>11.3} {:>10.3}", times.best, times.median);
        match proved {
            Some(proved) => {
                ratio(proved.best / times.best);
                ratio(proved.median / times.median);
            }
            None => print!("{:>18}", ""),
        }
        println!("  {label}");
    }
    (proved, reference_times)
}

fn ratio(ratio: f64) {
    let decimals = if ratio < 100.0 { 2 } else { 0 };
    print!("{ratio:>9.decimals$}");
}

pub fn heading() {
    println!(
        "{:<54}{:>10} {:>10}{:>11} {:>10}{:>9}{:>9}  reference",
        "milliseconds", "proved", "median", "reference", "median", "ratio", "median"
    );
}

/// The library's call, where there is a library.
macro_rules! proved {
    ($call:expr) => {{
        #[cfg(proved)]
        let call = Some(|| {
            std::hint::black_box($call);
        });
        #[cfg(not(proved))]
        let call: Option<fn()> = None;
        call
    }};
}

/// A reference's call.
macro_rules! reference {
    ($call:expr) => {
        &mut || {
            std::hint::black_box($call).ok();
        }
    };
}

pub fn time() {
    heading();
    let mut random = Random::new(3);
    let tables = full_tables(&mut random);
    time_tables(&tables);
    let shorter = half_universal(&mut Random::new(5), MAX_CLAUSES, 3);
    let fewer = half_universal(&mut Random::new(5), 1_200, 3);
    for (tables, over) in [
        (&tables, "65,536 clause words"),
        (&shorter, "32,768 clause words"),
        (&fewer, "1,200 clauses of 3"),
    ] {
        for (size, entry) in [(Size::Large, "row"), (Size::Small, "row_small")] {
            let name = format!("{entry}, each of 512 universals, {over}");
            time_rows(&name, RUNS, tables, size, true);
        }
    }
    time_proof_file(&mut random);
    time_checks(&mut random, &tables);
    time_games(&mut random);
    time_lines(&tables);
}

/// 512 universals among 1,024 variables and 8,192 clauses of seven literals: 65,536 clause words.
pub fn full_tables(random: &mut Random) -> Tables {
    half_universal(random, MAX_CLAUSES, 7)
}

/// 512 universals among 1,024 variables and so many clauses of so many literals.
fn half_universal(random: &mut Random, clauses: usize, literals: usize) -> Tables {
    let shape = Shape {
        variables: MAX_VARIABLE,
        largest: MAX_VARIABLE,
        universal: 0,
        clauses,
        shortest: literals,
        longest: literals,
    };
    let mut tables = shape.tables(random);
    let mut universal: Vec<bool> = (0..MAX_VARIABLE).map(|place| place % 2 == 0).collect();
    random.shuffle(&mut universal);
    tables.quantify(|place| universal[place]);
    tables
}

fn time_tables(tables: &Tables) {
    time_check_tables("check_tables, clauses of 7, 65,536 words", tables);
    let entries = tables.entries();
    let variables = entries[..1023].iter().map(|entry| entry.variable);
    let wide: Vec<i32> = variables.chain([0]).collect();
    let wide = Tables {
        prefix: tables.prefix.clone(),
        clauses: wide.repeat(64),
    };
    time_check_tables("check_tables, clauses of 1,023, 65,536 words", &wide);
    let Tables { prefix, clauses } = tables;
    let text = write(prefix, clauses, MAX_TEXT).unwrap_or_default();
    #[cfg(proved)]
    let mut room = vec![0; MAX_TEXT];
    report(
        &format!("write, 65,536 clause words, {} bytes", text.len()),
        RUNS,
        proved!(crate::ffi::qdr_write(
            prefix,
            clauses,
            &mut room,
            &mut [0; 5]
        )),
        &mut [("", reference!(write(prefix, clauses, MAX_TEXT)))],
    );
    time_read("read, the same text", &text);
    time_read("read, the same spread to a megabyte", &spread(&text));
}

fn time_check_tables(name: &str, tables: &Tables) {
    let Tables { prefix, clauses } = tables;
    report(
        name,
        RUNS,
        proved!(crate::ffi::qdr_check_tables(prefix, clauses, &mut [0; 5])),
        &mut [("", reference!(check_tables(prefix, clauses)))],
    );
}

/// The text with a comment ahead and more blanks, up to the bound.
fn spread(text: &[u8]) -> Vec<u8> {
    let mut spread = b"c spread over a megabyte\n".to_vec();
    let blanks = text.iter().filter(|byte| **byte == b' ').count();
    let more = (MAX_TEXT - spread.len() - text.len()) / blanks;
    for &byte in text {
        spread.push(byte);
        if byte == b' ' {
            spread.extend(std::iter::repeat_n(b' ', more));
        }
    }
    spread.resize(MAX_TEXT, b'\n');
    spread
}

fn time_read(name: &str, text: &[u8]) {
    #[cfg(proved)]
    let (mut prefix, mut clauses) = (vec![0; MAX_PREFIX_WORDS], vec![0; MAX_CLAUSE_WORDS]);
    report(
        name,
        RUNS,
        proved!(crate::ffi::qdr_read(
            text,
            &mut prefix,
            &mut clauses,
            &mut [0; 5]
        )),
        &mut [(
            "",
            reference!(read(text, MAX_PREFIX_WORDS, MAX_CLAUSE_WORDS)),
        )],
    );
}

/// Every row, with the scratch that this size asks for, against a search by worklist and, where that is of interest, one
/// by passes.
pub fn time_rows(name: &str, runs: Runs, tables: &Tables, size: Size, with_passes: bool) {
    let Tables { prefix, clauses } = tables;
    let asked = size.scratch();
    let universals = tables.universals();
    let universals = || universals.iter().copied();
    let by_worklist = &mut || {
        for variable in universals() {
            black_box(row(prefix, clauses, variable, ROW_BYTES, asked, asked)).ok();
        }
    };
    let by_passes = &mut || {
        for variable in universals() {
            black_box(row_by_passes(prefix, clauses, variable)).ok();
        }
    };
    #[cfg(proved)]
    let (mut bytes, mut scratch) = (vec![0; ROW_BYTES], vec![0; asked]);
    #[cfg(proved)]
    let call = match size {
        Size::Large => crate::ffi::qdr_row,
        Size::Small => crate::ffi::qdr_row_small,
    };
    let references: &mut [Reference] =
        &mut [("by worklist", by_worklist), ("by passes", by_passes)];
    report(
        name,
        runs,
        proved!(for variable in universals() {
            let (row, scratch) = (&mut bytes[..], &mut scratch[..]);
            call(prefix, clauses, variable, row, scratch, &mut [0; 5]);
        }),
        &mut references[..1 + usize::from(with_passes)],
    );
}

fn time_proof_file(random: &mut Random) {
    let steps: Vec<i32> = (0..MAX_STEP_WORDS).map(|_| random.next() as i32).collect();
    let file = write_proof(b"note", &steps, 5);
    #[cfg(proved)]
    let mut room = vec![0; MAX_STEP_WORDS];
    report(
        "read_proof, 1,048,576 step words",
        RUNS,
        proved!(crate::ffi::qdr_read_proof(&file, 5, &mut room, &mut [0; 5])),
        &mut [("", reference!(read_proof(&file, 5, MAX_STEP_WORDS)))],
    );
}

fn time_checks(random: &mut Random, full: &Tables) {
    let plain = timed_proofs(random, full, MAX_STEP_WORDS);
    let long_distance = long_distance_proofs(&plain, MAX_STEP_WORDS);
    for (name, tables, steps, kinds) in plain.into_iter().chain(long_distance) {
        time_both_checks(name, &tables, &steps, kinds);
    }
}

/// A proof under its name, with the references that it is timed against.
type TimedProof = (&'static str, Tables, Vec<i32>, &'static [Rows]);

/// One reduction in so many draws is none.
const NEVER: usize = u32::MAX as usize;

/// Derivations that fill so many step words but for a few.
fn timed_proofs(random: &mut Random, full: &Tables, words: usize) -> [TimedProof; 3] {
    let shape = Shape {
        variables: 60,
        largest: 60,
        universal: 3,
        clauses: 200,
        shortest: 3,
        longest: 6,
    };
    let tables = shape.tables(random);
    let plain = Family::Plain;
    let resolutions = long_derivation(random, &tables, plain, words, 14, NEVER);
    let mixed = long_derivation(random, &tables, plain, words, 14, 2);
    let few = long_derivation(random, full, plain, words, 20, 200);
    let name = "resolutions, 1,048,576 step words";
    let every = &[Rows::Kept, Rows::Last, Rows::LastByPasses, Rows::Anew];
    [
        (name, tables.clone(), resolutions, &[Rows::Kept]),
        ("the same with reductions", tables, mixed, every),
        (
            "few reductions, 65,536 clause words",
            full.clone(),
            few,
            every,
        ),
    ]
}

/// Derivations of the long-distance family: the plain resolutions by its kind, which have no pair; others on the formula
/// with its universals innermost, so that all may be merged; and reductions between resolutions, with existentials
/// behind the universals. What is drawn here changes nothing that is drawn for other lines.
fn long_distance_proofs(plain: &[TimedProof; 3], words: usize) -> [TimedProof; 3] {
    let random = &mut Random::new(7);
    let family = Family::LongDistance;
    let [(_, tables, resolutions, _), ..] = plain;
    let [mut innermost, mut inner] = [tables.clone(), tables.clone()];
    innermost.quantify(|place| place >= 25);
    inner.quantify(|place| (25..50).contains(&place));
    let merges = long_derivation(random, &innermost, family, words, 20, NEVER);
    let mixed = long_derivation(random, &inner, family, words, 20, 2);
    let same = in_family(resolutions, family);
    let kept = &[Rows::Kept];
    let every = &[Rows::Kept, Rows::LastByPasses];
    [
        (
            "the first resolutions as kind 3",
            tables.clone(),
            same,
            kept,
        ),
        ("resolutions with merges, kind 3", innermost, merges, kept),
        (
            "resolutions and reductions, kinds 3 and 4",
            inner,
            mixed,
            every,
        ),
    ]
}

/// A proof by each size, on lines of its own.
fn time_both_checks(name: &str, tables: &Tables, steps: &[i32], kinds: &[Rows]) {
    for (size, entry) in [(Size::Large, "check"), (Size::Small, "check_small")] {
        let name = format!("{entry}, {name}");
        time_check(&name, RUNS, tables, steps, size, kinds);
    }
}

/// A proof, with the scratch that this size asks for, against references that keep their rows in these ways. The
/// proved times, if there is a library, and those of each reference. A proof refused at one of its steps is not timed.
pub fn time_check(
    name: &str,
    runs: Runs,
    tables: &Tables,
    steps: &[i32],
    size: Size,
    kinds: &[Rows],
) -> (Option<Times>, Vec<Times>) {
    let Tables { prefix, clauses } = tables;
    let (asked, room) = (size.scratch(), Room::FULL.starts);
    let answer = check(prefix, clauses, steps, asked, asked, room, Rows::Kept);
    assert!(every_step_is_right(&answer), "{name}: {answer:?}");
    #[cfg(proved)]
    let (mut scratch, mut starts) = (vec![0; asked], vec![0; room]);
    #[cfg(proved)]
    let call = match size {
        Size::Large => crate::ffi::qdr_check,
        Size::Small => crate::ffi::qdr_check_small,
    };
    let mut work: Vec<_> = kinds
        .iter()
        .map(|&rows| {
            move || {
                black_box(check(prefix, clauses, steps, asked, asked, room, rows)).ok();
            }
        })
        .collect();
    let mut references: Vec<Reference> = Vec::new();
    for (work, rows) in work.iter_mut().zip(kinds) {
        let label = match rows {
            Rows::Kept => "rows kept",
            Rows::Last => "the last row kept",
            Rows::LastByPasses => "the last row kept, by passes",
            Rows::Anew => "a row for each reduction",
        };
        references.push((label, work));
    }
    report(
        name,
        runs,
        proved!(call(
            prefix,
            clauses,
            steps,
            &mut scratch,
            &mut starts,
            &mut [0; 5]
        )),
        &mut references,
    )
}

/// Whether a proof was judged to its last step.
fn every_step_is_right(answer: &Result<Verdict, Refusal>) -> bool {
    answer.map_or_else(|refusal| refusal.reason == Reason::NoConclusion, |_| true)
}

fn time_games(random: &mut Random) {
    let shape = Shape {
        variables: 16,
        largest: 16,
        universal: 0,
        clauses: 1000,
        shortest: 10,
        longest: 10,
    };
    let mut drawn = shape.tables(random);
    drawn.quantify(|place| place % 2 == 1);
    time_game("evaluate, 16 variables, 1,000 clauses", &drawn);
    // Nothing ends early: each play is lost, by the last clause but one or the last.
    let shape = Shape {
        clauses: 998,
        shortest: 16,
        longest: 16,
        ..shape
    };
    let mut hard = shape.tables(random);
    hard.clauses.extend([1, 0, -1, 0]);
    time_game("evaluate, the same, every play in full", &hard);
}

fn time_game(name: &str, tables: &Tables) {
    let Tables { prefix, clauses } = tables;
    report(
        name,
        RUNS,
        proved!(crate::ffi::qdr_evaluate(prefix, clauses, &mut [0; 5])),
        &mut [
            ("masks", reference!(evaluate(prefix, clauses))),
            (
                "clause words",
                reference!(evaluate_by_words(prefix, clauses)),
            ),
        ],
    );
}

/// The two entries that go from bytes to bytes.
fn time_lines(full: &Tables) {
    let room = Room::FULL;
    let (tables, steps) = refutation(MAX_STEP_WORDS);
    let formula = write(&tables.prefix, &tables.clauses, MAX_TEXT).unwrap_or_default();
    let proof = write_proof(b"", &steps, tables.count() as u32);
    #[cfg(proved)]
    let (mut prefix, mut clauses) = (vec![0; room.prefix], vec![0; room.clauses]);
    #[cfg(proved)]
    let (mut scratch, mut starts) = (vec![0; room.scratch], vec![0; room.starts]);
    #[cfg(proved)]
    let (mut words, mut text) = (
        vec![0; room.steps],
        vec![0; crate::reference::program::LINES_BYTES],
    );
    report(
        &format!("check_line, refutation of {} words", steps.len()),
        RUNS,
        proved!(crate::ffi::qdr_check_line(
            &formula,
            &proof,
            room.file,
            &mut prefix,
            &mut clauses,
            &mut words,
            &mut scratch,
            &mut starts,
            &mut text
        )),
        &mut [(
            "rows kept",
            reference!(check_line(room, &formula, || &proof)),
        )],
    );
    let formula = write(&full.prefix, &full.clauses, MAX_TEXT).unwrap_or_default();
    report(
        "dependency_lines, 512 universals, 65,536 clause words",
        RUNS,
        proved!(crate::ffi::qdr_dependency_lines(
            &formula,
            room.file,
            &mut prefix,
            &mut clauses,
            &mut scratch,
            &mut text
        )),
        &mut [("by worklist", reference!(dependency_lines(room, &formula)))],
    );
}

#[cfg(test)]
mod tests {
    use super::*;
    use crate::generate::proofs::{numbered, step_places};
    use crate::pairs::{pairs, signs};

    /// None of the derivations is cut short, by an empty clause or otherwise, and each has the words asked for but for a few.
    #[test]
    fn timed_proofs_are_right_to_the_end() {
        let random = &mut Random::new(3);
        let full = full_tables(random);
        let plain = timed_proofs(random, &full, 200_000);
        let long_distance = long_distance_proofs(&plain, 200_000);
        for (name, tables, steps, _) in plain.into_iter().chain(long_distance) {
            let Tables { prefix, clauses } = &tables;
            let answer = check(prefix, clauses, &steps, 640, 640, 60_000, Rows::Kept);
            let last = tables.count() + step_places(&steps).len();
            assert_eq!(answer, Err(Reason::NoConclusion.at(last)), "{name}");
            assert!(steps.len() + 25 > 200_000, "{name}");
        }
    }

    /// Of the long-distance lines the first has no pair, the second many and none reduced, the third many that are.
    #[test]
    fn timed_pairs() {
        let random = &mut Random::new(3);
        let full = full_tables(random);
        let proofs = long_distance_proofs(&timed_proofs(random, &full, 200_000), 200_000);
        let [none, merged, reduced] = proofs.map(|(_, tables, steps, _)| {
            let clauses = numbered(&tables, &steps);
            let clause = |number: i32| clauses[number as usize - 1];
            let (mut with_pairs, mut of_both) = (0, 0);
            for at in step_places(&steps) {
                match steps[at..] {
                    [3, i, j, pivot, ..] => {
                        let found = pairs(clause(i), clause(j), pivot);
                        with_pairs += usize::from(!found.is_empty());
                    }
                    [4, i, literal, ..] => {
                        let both = signs(clause(i), literal) == [true; 2];
                        of_both += usize::from(both);
                    }
                    _ => panic!("a kind of the other family"),
                }
            }
            (with_pairs, of_both)
        });
        assert_eq!(none, (0, 0));
        assert!(merged.0 > 5000 && merged.1 == 0, "{merged:?}");
        assert!(reduced.0 > 1000 && reduced.1 > 200, "{reduced:?}");
    }

    #[test]
    fn proofs_cut_short_are_not_timed() {
        let tables = Tables::new(&[1, -2], vec![1, 0, -1, 0, 2, 0]);
        let right = |steps: &[i32]| {
            let Tables { prefix, clauses } = &tables;
            every_step_is_right(&check(prefix, clauses, steps, 640, 640, 9, Rows::Kept))
        };
        assert!(right(&[]));
        assert!(right(&[1, 1, 2, 1, 0]));
        assert!(!right(&[1, 1, 2, 1, 0, 2, 3, 2, 0]));
        assert!(!right(&[1, 1, 2, 2, 0]));
    }
}
