//! Every clause that kinds 3 and 4 derive from small formulas, up to a bound. Each candidate step, every two clauses on
//! every pivot and every clause by every universal literal, is judged by the library and by the reference, behind a right
//! derivation of the clauses known. No true formula may come to the empty clause; a false one of which every clause was
//! derived must.

use std::fmt;

use crate::compare::{judged, Answer, Difference};
use crate::generate::derive::{reduction, resolution, Numbered};
use crate::generate::proofs::head;
use crate::generate::{pairs::tables_of_pairs, Case, Random, Shape, Size, Tables};
use crate::pairs::{pairs, signs, Pair};
use crate::reference::prefix::places;
use crate::reference::steps::Family;
use crate::reference::ROW_BYTES;

/// The most clauses derived of a formula.
const MOST: usize = 60;
/// How many right steps of each kind, in true formulas too, and how many false formulas with the empty clause there must be.
const LEAST: usize = 1000;

/// What was judged, and what came of it, in false formulas and in true ones.
#[derive(Default)]
pub struct Tally {
    of: [Counts; 2],
    /// A true formula with steps that refute it.
    unsound: Option<String>,
}

#[derive(Default)]
struct Counts {
    formulas: usize,
    /// Formulas with the empty clause derived; those of which clauses were left out; those with neither.
    refuted: usize,
    bounded: usize,
    open: usize,
    right: usize,
    refused: [usize; 24],
    /// Pairs in right steps; of those carried whole also how many have the pivot right of them.
    merged: usize,
    carried: usize,
    carried_over: usize,
    met: [usize; 2],
    /// Right reductions of both signs.
    reduced: usize,
}

impl Tally {
    /// What must not be, or was too seldom.
    pub fn faults(&self) -> Vec<String> {
        let [of_false, of_true] = &self.of;
        let mut faults = Vec::from_iter(self.unsound.clone());
        if of_false.open > 0 {
            faults.push(format!("{} false formulas not refuted", of_false.open));
        }
        let kinds = [("false", of_false), ("true", of_true)];
        let counts = kinds.map(|(name, counts)| counts.steps().map(|(n, what)| (n, what, name)));
        let refuted = (of_false.refuted, "refutations", "false");
        for (count, what, name) in counts.concat().into_iter().chain([refuted]) {
            if count < LEAST {
                faults.push(format!(
                    "{count} {what} in {name} formulas, and {LEAST} are due"
                ));
            }
        }
        faults
    }

    /// Counts a formula.
    fn end(&mut self, holds: bool, saturation: &Saturation) {
        let counts = &mut self.of[usize::from(holds)];
        counts.formulas += 1;
        counts.bounded += usize::from(saturation.bounded);
        counts.refuted += usize::from(saturation.refutation.is_some());
        let is_open = saturation.refutation.is_none() && !saturation.bounded;
        counts.open += usize::from(is_open);
        if let (true, Some(steps)) = (holds, &saturation.refutation) {
            let tables = saturation.tables;
            self.unsound = Some(format!("true, and refuted:\n{tables}\nsteps {steps:?}"));
        }
    }
}

impl Counts {
    /// The right steps that there must be in number.
    fn steps(&self) -> [(usize, &'static str); 4] {
        [
            (self.merged, "merges"),
            (self.carried, "pairs carried"),
            (
                self.carried_over,
                "pairs carried, the pivot right of the pair",
            ),
            (self.reduced, "reductions of both signs"),
        ]
    }

    /// Counts a pair of a right step.
    fn pair(&mut self, pair: Pair, pivot_is_right: bool) {
        match pair {
            Pair::Merged => self.merged += 1,
            Pair::Carried => {
                self.carried += 1;
                self.carried_over += usize::from(pivot_is_right);
            }
            Pair::MetByOne => self.met[0] += 1,
            Pair::MetByBoth => self.met[1] += 1,
        }
    }
}

impl fmt::Display for Tally {
    fn fmt(&self, f: &mut fmt::Formatter) -> fmt::Result {
        for (counts, name) in self.of.iter().zip(["false", "true"]) {
            writeln!(f, "{:>9}  {name} formulas", counts.formulas)?;
            writeln!(f, "{counts}")?;
        }
        Ok(())
    }
}

impl fmt::Display for Counts {
    fn fmt(&self, f: &mut fmt::Formatter) -> fmt::Result {
        let [by_one, by_both] = self.met;
        let of_formulas = [
            (self.refuted, "with the empty clause derived"),
            (self.open, "without it, every clause derived"),
            (self.bounded, "with clauses left out"),
            (self.right, "steps right"),
        ];
        let met = [
            (by_one, "pairs met by one sign"),
            (by_both, "pairs met by both"),
        ];
        for (count, what) in [&of_formulas[..], &self.steps(), &met].concat() {
            writeln!(f, "{count:>9}  {what}")?;
        }
        let refused = self.refused.iter().enumerate();
        for (number, count) in refused.filter(|(_, count)| **count > 0) {
            writeln!(f, "{count:>9}  steps refused with {number}")?;
        }
        Ok(())
    }
}

/// Saturates so many formulas, up to the first difference.
pub fn saturate(
    library: impl Fn(&Case, &mut Random) -> Answer,
    seed: u64,
    formulas: usize,
) -> Result<Tally, Box<Difference>> {
    let mut random = Random::new(seed);
    let mut filling = Random::new(seed + 1);
    let mut judge = |case: &Case| judged(&library, case, &mut filling);
    let mut tally = Tally::default();
    for _ in 0..formulas {
        let tables = drawn(&mut random);
        let game = Case::Evaluate {
            tables: tables.clone(),
        };
        let holds = judge(&game)?.1.out[0] == 1;
        let mut saturation = Saturation::new(&tables);
        saturation.run(&mut judge, &mut tally.of[usize::from(holds)])?;
        tally.end(holds, &saturation);
    }
    Ok(tally)
}

/// A formula of few variables, of any kind or with many pairs, of which a part of the clauses is left out, so that more
/// are true.
fn drawn(random: &mut Random) -> Tables {
    let variables = random.between(3, 6);
    let shape = Shape {
        variables,
        largest: variables,
        universal: random.between(2, 5),
        clauses: random.between(2, 2 * variables),
        shortest: random.pick(&[1, 2, 2]),
        longest: random.between(2, 4),
    };
    if random.one_in(3) {
        return shape.tables(random);
    }
    let mut tables = tables_of_pairs(random);
    let clauses: Vec<&[i32]> = tables.clauses.split_inclusive(|&word| word == 0).collect();
    let kept = clauses
        .into_iter()
        .filter(|clause| clause.len() > 2 && !random.one_in(4));
    tables.clauses = kept.collect::<Vec<&[i32]>>().concat();
    tables
}

/// The clauses of a formula as they are derived, each sorted, and the steps that derive them.
struct Saturation<'a> {
    tables: &'a Tables,
    universals: Vec<i32>,
    places: [usize; ROW_BYTES],
    known: Vec<Vec<i32>>,
    steps: Vec<i32>,
    /// The first steps found that come to the empty clause.
    refutation: Option<Vec<i32>>,
    /// Whether a clause was left out.
    bounded: bool,
    /// How many steps were judged: the two sizes of the check take turns.
    turn: usize,
}

/// What judges an input: the reference's number and the answer of both.
type Judge<'a> = dyn FnMut(&Case) -> Result<(usize, Answer), Box<Difference>> + 'a;

impl<'a> Saturation<'a> {
    fn new(tables: &'a Tables) -> Saturation<'a> {
        let inputs = tables.clauses.split(|&word| word == 0).take(tables.count());
        Saturation {
            tables,
            universals: tables.universals(),
            places: places(&tables.entries()),
            known: inputs.map(sorted).collect(),
            steps: Vec::new(),
            refutation: None,
            bounded: false,
            turn: 0,
        }
    }

    /// Judges every candidate on every clause, those derived on the way too.
    fn run(&mut self, judge: &mut Judge, counts: &mut Counts) -> Result<(), Box<Difference>> {
        let mut last = 0;
        while last < self.known.len() {
            for step in self.candidates(last) {
                if self.is_right(judge, counts, &step)? {
                    self.count(counts, &step);
                    self.take(&step);
                }
            }
            last += 1;
        }
        Ok(())
    }

    fn numbered(&self, at: usize) -> Numbered<'_> {
        (at as i32 + 1, &self.known[at])
    }

    /// The reductions of this clause by every universal literal, whether it is there or not, and its resolutions with every
    /// earlier one on each existential that they have in opposite signs.
    fn candidates(&self, last: usize) -> Vec<Vec<i32>> {
        let family = Family::LongDistance;
        let clause = self.numbered(last);
        let literals = self.universals.iter().flat_map(|&u| [u, -u]);
        let mut steps: Vec<Vec<i32>> = literals.map(|l| reduction(family, clause, l)).collect();
        for other in (0..last).map(|at| self.numbered(at)) {
            let is_pivot = |literal: &&i32| {
                other.1.contains(&-**literal) && !self.universals.contains(&literal.abs())
            };
            let pivots = clause.1.iter().filter(is_pivot);
            steps.extend(pivots.map(|&pivot| resolution(family, [clause, other], pivot)));
        }
        steps
    }

    /// Whether a candidate is right as the last step.
    fn is_right(
        &mut self,
        judge: &mut Judge,
        counts: &mut Counts,
        step: &[i32],
    ) -> Result<bool, Box<Difference>> {
        self.turn += 1;
        let size = [Size::Large, Size::Small][self.turn % 2];
        let case = Case::Check {
            size,
            tables: self.tables.clone(),
            steps: [&self.steps, step].concat(),
            scratch_room: size.scratch(),
            starts_room: self.known.len() + 1,
        };
        let (number, _) = judge(&case)?;
        // Without an empty clause a proof of right steps has no conclusion.
        let is_right = [0, 19].contains(&number);
        if is_right {
            counts.right += 1;
        } else {
            counts.refused[number] += 1;
        }
        Ok(is_right)
    }

    /// Counts the pairs of a right step.
    fn count(&self, counts: &mut Counts, step: &[i32]) {
        let clause = |number: i32| &self.known[number as usize - 1][..];
        match *step {
            [3, i, j, pivot, ..] => {
                let place = |variable: i32| self.places[variable as usize];
                for (variable, pair) in pairs(clause(i), clause(j), pivot) {
                    counts.pair(pair, place(pivot) > place(variable));
                }
            }
            [_, i, literal, ..] => {
                let both = signs(clause(i), literal) == [true; 2];
                counts.reduced += usize::from(both);
            }
            _ => {}
        }
    }

    /// Takes a right step into the derivation where its clause is new; behind an empty clause no step may stand.
    fn take(&mut self, step: &[i32]) {
        let clause = sorted(&step[head(step[0])..step.len() - 1]);
        if clause.is_empty() {
            let steps = || [&self.steps, step].concat();
            self.refutation.get_or_insert_with(steps);
        } else if !self.known.contains(&clause) {
            if self.known.len() == self.tables.count() + MOST {
                self.bounded = true;
                return;
            }
            self.known.push(clause);
            self.steps.extend(step);
        }
    }
}

fn sorted(clause: &[i32]) -> Vec<i32> {
    let mut clause = clause.to_vec();
    clause.sort();
    clause
}

#[cfg(test)]
mod tests {
    use super::*;
    use crate::compare::reference_answer;

    fn run(library: impl Fn(&Case, &mut Random) -> Answer) -> Result<Tally, Box<Difference>> {
        saturate(library, 1, 300)
    }

    /// The reference against itself: sound, complete below the bound, and with pairs of each kind.
    #[test]
    fn small_formulas() {
        let tally = run(|case, _| reference_answer(case).1);
        let tally = tally.unwrap_or_else(|difference| panic!("{difference}"));
        let [of_false, of_true] = &tally.of;
        assert_eq!(of_false.formulas + of_true.formulas, 300);
        assert_eq!((of_true.refuted, of_false.open), (0, 0));
        assert!(tally.unsound.is_none());
        for counts in &tally.of {
            assert!(counts.formulas > 60, "{tally}");
            assert!(
                counts.steps().iter().all(|(count, _)| *count > 60),
                "{tally}"
            );
            assert!(
                [15, 16, 17].iter().all(|&n| counts.refused[n] > 60),
                "{tally}"
            );
        }
        // So few formulas are too few for each demand in turn.
        assert!(tally
            .faults()
            .iter()
            .all(|fault| fault.ends_with("are due")));
        assert!(!tally.faults().is_empty());
    }

    /// A library that judges one candidate step otherwise, whatever the number, or one game, is found out.
    #[test]
    fn faults_are_found() {
        for number in [0, 15, 16, 17, 19] {
            let faulty = |case: &Case, _: &mut Random| {
                let (given, mut answer) = reference_answer(case);
                let is_check = matches!(case, Case::Check { .. });
                answer.returned += u64::from(is_check && given == number);
                answer
            };
            assert!(run(faulty).is_err(), "{number}");
        }
        let faulty = |case: &Case, _: &mut Random| {
            let (_, mut answer) = reference_answer(case);
            answer.out[0] ^= u64::from(matches!(case, Case::Evaluate { .. }));
            answer
        };
        assert!(run(faulty).is_err());
    }

    /// Every clause of {1, 2} and {-1, -2} with existential 1 and universal 2 on the right: each candidate once.
    #[test]
    fn one_formula() {
        let tables = Tables::new(&[1, -2], vec![1, 2, 0, -1, -2, 0]);
        let mut saturation = Saturation::new(&tables);
        let mut counts = Counts::default();
        let mut judge = |case: &Case| Ok(reference_answer(case));
        saturation.run(&mut judge, &mut counts).ok();
        let known = [&[1, 2][..], &[-2, -1], &[1], &[-2, 2], &[-1], &[-2], &[2]];
        assert!(known
            .iter()
            .all(|clause| saturation.known.iter().any(|k| k == clause)));
        assert_eq!(saturation.known.len(), known.len());
        assert!(saturation.refutation.is_some() && !saturation.bounded);
        assert_eq!((counts.merged, counts.reduced, counts.carried), (1, 2, 0));
    }
}
