//! Times long runs of reductions over a full table: all on one variable, where a check that keeps the row it made
//! last makes one row, against two variables by turns, where it makes a row for each. The proved library against a
//! reference that keeps its last row too. The run on one variable must take less than a quarter of the other.

use crate::generate::{Random, Size, Tables};
use crate::reference::prefix::{places, Entry};
use crate::reference::program::Room;
use crate::reference::row::row;
use crate::reference::steps::{check, Rows};
use crate::reference::{Reason, ROW_BYTES, SMALL_SCRATCH_BYTES};
use crate::time::{full_tables, heading, time_check, Runs, Times};

/// What takes long is run once.
const RUNS: Runs = Runs { most: 3, least: 1 };
const REDUCTIONS: usize = 10_000;
/// The run on one variable takes less than the other over this.
const LEAST_GAIN: f64 = 4.0;

/// Every run, and whether each was short enough.
pub fn reductions() -> Result<(), String> {
    println!(
        "{REDUCTIONS} reductions over 65,536 clause words, on one variable and on two by turns"
    );
    heading();
    let tables = full_tables(&mut Random::new(3));
    let mut faults = Vec::new();
    for (name, run) in [
        ("universals only", universals_only(&tables)),
        ("with existentials", with_existentials(&tables)),
    ] {
        let run = run.ok_or(format!("{name}: no such clause was drawn"))?;
        faults.extend(time_run(name, &run)?);
    }
    if faults.is_empty() {
        Ok(())
    } else {
        Err(faults.join("\n"))
    }
}

/// A formula, and a clause of it by its number from 1 with two universal literals that nothing blocks.
#[derive(Debug)]
struct Run {
    tables: Tables,
    number: usize,
    clause: Vec<i32>,
    literals: [i32; 2],
}

impl Run {
    /// So many reductions, of the first so many of the two literals by turns.
    fn steps(&self, literals: usize, count: usize) -> Vec<i32> {
        let mut steps = Vec::new();
        for &reduced in self.literals[..literals].iter().cycle().take(count) {
            steps.extend([2, self.number as i32, reduced]);
            steps.extend(self.clause.iter().filter(|&&literal| literal != reduced));
            steps.push(0);
        }
        steps
    }

    /// How many variables depend on each of the two.
    fn dependents(&self) -> [usize; 2] {
        let Tables { prefix, clauses } = &self.tables;
        let asked = SMALL_SCRATCH_BYTES;
        self.literals.map(|literal| {
            let row = row(prefix, clauses, literal.abs(), ROW_BYTES, asked, asked);
            row.map_or(0, |row| row.iter().filter(|&&byte| byte == 1).count())
        })
    }
}

/// Of the clauses whose literals are all universal, the one with two literals leftmost in the prefix.
fn universals_only(tables: &Tables) -> Option<Run> {
    leftmost(tables, |rest| rest.iter().all(Entry::is_universal))
}

/// Of the clauses with existentials, all of them right of two universals, the one with these leftmost in the prefix. Its
/// existentials get the sign that they have in it wherever they stand: without opposites they depend on nothing.
fn with_existentials(tables: &Tables) -> Option<Run> {
    let mut run = leftmost(tables, |rest| !rest.iter().all(Entry::is_universal))?;
    let existential = |literal: &i32| {
        let entries = run.tables.entries();
        let bound = |entry: &Entry| entry.variable == literal.abs() && !entry.is_universal();
        entries.iter().any(bound)
    };
    let one_sided: Vec<i32> = run.clause.iter().copied().filter(existential).collect();
    for word in &mut run.tables.clauses {
        if one_sided.contains(&-*word) {
            *word = -*word;
        }
    }
    Some(run)
}

/// Of the clauses that begin, in prefix order, with two universals and whose other entries are as asked, the one
/// whose second is leftmost in the prefix.
fn leftmost(tables: &Tables, asked: impl Fn(&[Entry]) -> bool) -> Option<Run> {
    let entries = tables.entries();
    let places = places(&entries);
    let place = |literal: &i32| places[literal.unsigned_abs() as usize];
    let clauses = tables.clauses.split(|&word| word == 0).zip(1..);
    let sorted = clauses.filter_map(|(clause, number)| {
        let mut sorted = clause.to_vec();
        sorted.sort_by_key(place);
        let held: Vec<Entry> = sorted.iter().map(|l| entries[place(l)]).collect();
        let (first, rest) = held.split_at_checked(2)?;
        let fits = first.iter().all(Entry::is_universal) && asked(rest);
        fits.then_some((sorted, clause, number))
    });
    let (sorted, clause, number) = sorted.min_by_key(|(sorted, ..)| place(&sorted[1]))?;
    Some(Run {
        tables: tables.clone(),
        number,
        clause: clause.to_vec(),
        literals: [sorted[0], sorted[1]],
    })
}

/// Times both runs by both sizes, and says where the run on one variable took too long.
fn time_run(name: &str, run: &Run) -> Result<Vec<String>, String> {
    let mut faults = Vec::new();
    let [first, second] = run.dependents();
    let about = format!(
        "{name}, {} literals, {first} and {second} dependents",
        run.clause.len()
    );
    let runs = [1, 2].map(|literals| run.steps(literals, REDUCTIONS));
    let wrong = |answer: String| format!("{name}: {answer}");
    for steps in &runs {
        right_by_reference(&run.tables, steps).map_err(wrong)?;
    }
    for (size, entry) in [(Size::Large, "check"), (Size::Small, "check_small")] {
        #[cfg(proved)]
        for steps in &runs {
            right_by_library(&run.tables, steps, size).map_err(wrong)?;
        }
        let timed = |kind: &str, steps: &[i32]| {
            let name = format!("{entry}, {name}, {kind}");
            time_check(&name, RUNS, &run.tables, steps, size, &[Rows::LastByPasses])
        };
        let (one, reference_one) = timed("one variable", &runs[0]);
        let (two, reference_two) = timed("two by turns", &runs[1]);
        say("reference", &about, reference_one[0], reference_two[0]);
        if let (Some(one), Some(two)) = (one, two) {
            say(entry, &about, one, two);
            if one.best * LEAST_GAIN >= two.best {
                faults.push(format!(
                    "{entry}, {name}: {:.3} ms on one variable are not under a quarter of {:.3} ms by turns",
                    one.best, two.best
                ));
            }
        }
    }
    Ok(faults)
}

fn say(who: &str, about: &str, one: Times, two: Times) {
    println!(
        "{who}: one variable {:.3} ms, by turns {:.3} ms, ratio {:.4}  ({about})",
        one.best,
        two.best,
        one.best / two.best
    );
}

/// That the reference finds every step right and no clause empty, in both sizes, which ask the same of it but for the scratch.
fn right_by_reference(tables: &Tables, steps: &[i32]) -> Result<(), String> {
    let Tables { prefix, clauses } = tables;
    let due = Reason::NoConclusion.at(tables.count() + REDUCTIONS);
    for (size, rows) in [(Size::Large, Rows::Kept), (Size::Small, Rows::Last)] {
        let (asked, room) = (size.scratch(), Room::FULL.starts);
        let answer = check(prefix, clauses, steps, asked, asked, room, rows);
        if answer != Err(due) {
            return Err(format!("{answer:?} by the reference, {rows:?}"));
        }
    }
    Ok(())
}

/// That the library says the same.
#[cfg(proved)]
fn right_by_library(tables: &Tables, steps: &[i32], size: Size) -> Result<(), String> {
    let call = match size {
        Size::Large => crate::ffi::qdr_check,
        Size::Small => crate::ffi::qdr_check_small,
    };
    let (mut scratch, mut starts) = (vec![0; size.scratch()], vec![0; Room::FULL.starts]);
    let mut out = [0; 5];
    let Tables { prefix, clauses } = tables;
    let number = call(prefix, clauses, steps, &mut scratch, &mut starts, &mut out);
    let last = tables.count() + REDUCTIONS;
    if (number, out) == (Reason::NoConclusion.number(), [last as u64, 0, 0, 0, 0]) {
        Ok(())
    } else {
        Err(format!("{number} with {out:?} by the library, {size:?}"))
    }
}

#[cfg(test)]
mod tests {
    use super::*;

    /// Both runs are of a full table, on variables with many dependents, with existentials or without, and right whichever rows
    /// are kept.
    #[test]
    fn both_runs_are_right() {
        let drawn = full_tables(&mut Random::new(3));
        let only = universals_only(&drawn).unwrap();
        let mixed = with_existentials(&drawn).unwrap();
        assert_eq!(only.tables, drawn);
        assert_eq!(mixed.tables.prefix, drawn.prefix);
        let universals = drawn.universals();
        let existentials = |run: &Run| {
            let existential = |literal: &&i32| !universals.contains(&literal.abs());
            run.clause.iter().filter(existential).count()
        };
        assert_eq!(existentials(&only), 0);
        assert!(existentials(&mixed) > 0);
        for run in [only, mixed] {
            let Tables { prefix, clauses } = &run.tables;
            assert_eq!((prefix.len(), clauses.len()), (3072, 65_536));
            let named = clauses.split(|&word| word == 0).nth(run.number - 1);
            assert_eq!(named, Some(&run.clause[..]));
            assert_ne!(run.literals[0].abs(), run.literals[1].abs());
            let dependents = run.dependents();
            assert!(dependents.iter().all(|&n| n > 250), "{dependents:?}");
            for literals in [1, 2] {
                let steps = run.steps(literals, 20);
                for rows in [Rows::Kept, Rows::Last, Rows::LastByPasses, Rows::Anew] {
                    let answer = check(prefix, clauses, &steps, 640, 640, 9000, rows);
                    assert_eq!(answer, Err(Reason::NoConclusion.at(8192 + 20)));
                }
            }
        }
    }
}
