//! Lawful derivations of either family, drawn by resolving and reducing the clauses known so far; and what the two rules
//! make of clauses, lawfully or not.

use super::proofs::numbered;
use super::{Random, Tables};
use crate::reference::prefix::places;
use crate::reference::row::{row, Row};
use crate::reference::steps::Family;
use crate::reference::tables::check_tables;
use crate::reference::{ROW_BYTES, SCRATCH_BYTES};

/// The literals of both clauses but for those of the pivot's variable, each once.
pub fn resolvent(left: &[i32], right: &[i32], pivot: i32) -> Vec<i32> {
    let mut result = without(left, pivot);
    for literal in without(right, pivot) {
        if !result.contains(&literal) {
            result.push(literal);
        }
    }
    result
}

/// The clause without either sign of a literal's variable.
pub fn without(clause: &[i32], literal: i32) -> Vec<i32> {
    let is_other = |other: &&i32| other.unsigned_abs() != literal.unsigned_abs();
    clause.iter().filter(is_other).copied().collect()
}

/// A clause and its number, from 1.
pub type Numbered<'a> = (i32, &'a [i32]);

/// The resolution of two clauses on a literal of the first, its result stated, lawful or not.
pub fn resolution(family: Family, [one, other]: [Numbered; 2], literal: i32) -> Vec<i32> {
    let (i, j) = if literal > 0 {
        (one.0, other.0)
    } else {
        (other.0, one.0)
    };
    let mut step = vec![family.resolution(), i, j, literal.wrapping_abs()];
    step.extend(resolvent(one.1, other.1, literal));
    step.push(0);
    step
}

/// The reduction of a literal, its result stated, lawful or not.
pub fn reduction(family: Family, (number, clause): Numbered, literal: i32) -> Vec<i32> {
    let mut step = vec![family.reduction(), number, literal];
    step.extend(without(clause, literal));
    step.push(0);
    step
}

/// The numbered clauses of a derivation as it grows.
struct Derivation {
    family: Family,
    known: Vec<Vec<i32>>,
    steps: Vec<i32>,
    /// The row of each universal variable.
    rows: Vec<Option<Row>>,
    /// Where each variable stands in the prefix.
    places: [usize; ROW_BYTES],
}

/// A lawful derivation of so many steps at most, no clause longer than `longest`. It prefers short
/// antecedents, and ends with the empty clause; where an input clause is empty it has no steps.
pub fn derivation(
    random: &mut Random,
    tables: &Tables,
    family: Family,
    count: usize,
    longest: usize,
) -> Vec<i32> {
    let mut derivation = Derivation::new(tables, family);
    let mut ended = derivation.known.iter().any(Vec::is_empty);
    let mut tries = 6 * count;
    let mut left = count;
    while left > 0 && tries > 0 && !ended {
        tries -= 1;
        if derivation.try_step(random, longest) {
            left -= 1;
            ended = derivation.known.last().is_some_and(Vec::is_empty);
        }
    }
    derivation.steps
}

/// A lawful derivation by so many tries, three in four of them resolutions, no clause longer than `longest`. Each step
/// comes to a clause that is new and not empty.
pub fn varied(
    random: &mut Random,
    tables: &Tables,
    family: Family,
    tries: usize,
    longest: usize,
) -> Vec<i32> {
    let mut derivation = Derivation::new(tables, family);
    for _ in 0..tries {
        let before = derivation.steps.len();
        let at = random.below(derivation.known.len());
        let found = match random.below(4) {
            0 => derivation.try_reduction(random, at),
            _ => derivation.try_resolution(random, at, longest),
        };
        if found && !derivation.has_news() {
            derivation.known.pop();
            derivation.steps.truncate(before);
        }
    }
    derivation.steps
}

/// A step of this family behind these, of whichever family they are, and whether or not they have ended, that is lawful
/// but for that; nothing where none was found.
pub fn next_step(
    random: &mut Random,
    tables: &Tables,
    family: Family,
    steps: &[i32],
    longest: usize,
) -> Vec<i32> {
    let mut derivation = Derivation::new(tables, family);
    let known = numbered(tables, steps).into_iter();
    derivation.known = known.map(<[i32]>::to_vec).collect();
    let mut tries = 30;
    while derivation.steps.is_empty() && tries > 0 {
        tries -= 1;
        derivation.try_step(random, longest);
    }
    derivation.steps
}

/// A lawful derivation that fills so many step words but for a few, resolutions and reductions mixed, without
/// the empty clause, behind which no step is checked. `one_reduction_in` thins the reductions out.
pub fn long_derivation(
    random: &mut Random,
    tables: &Tables,
    family: Family,
    words: usize,
    longest: usize,
    one_reduction_in: usize,
) -> Vec<i32> {
    let mut derivation = Derivation::new(tables, family);
    while derivation.steps.len() + longest + 5 <= words {
        let at = random.below(derivation.known.len());
        let clause = &derivation.known[at];
        if without(clause, *clause.first().unwrap_or(&0)).is_empty() {
            // A clause of two variables keeps a literal whatever it is resolved with.
            continue;
        }
        if random.one_in(one_reduction_in) {
            derivation.try_reduction(random, at);
        } else {
            derivation.try_resolution(random, at, longest);
        }
    }
    derivation.steps
}

impl Derivation {
    fn new(tables: &Tables, family: Family) -> Derivation {
        let count = check_tables(&tables.prefix, &tables.clauses).map_or(0, |c| c.clauses);
        let known = tables.clauses.split(|&word| word == 0).take(count);
        let mut rows = vec![None; ROW_BYTES];
        for variable in tables.universals() {
            let row = row(
                &tables.prefix,
                &tables.clauses,
                variable,
                ROW_BYTES,
                SCRATCH_BYTES,
                SCRATCH_BYTES,
            );
            rows[variable as usize] = row.ok();
        }
        Derivation {
            family,
            known: known.map(|clause| clause.to_vec()).collect(),
            steps: Vec::new(),
            rows,
            places: places(&tables.entries()),
        }
    }

    /// Whether the last clause is not empty and not one of those before it.
    fn has_news(&self) -> bool {
        let Some((last, before)) = self.known.split_last() else {
            return false;
        };
        let same = |other: &Vec<i32>| {
            other.len() == last.len() && other.iter().all(|literal| last.contains(literal))
        };
        !last.is_empty() && !before.iter().any(same)
    }

    fn try_step(&mut self, random: &mut Random, longest: usize) -> bool {
        if self.known.is_empty() {
            return false;
        }
        let choices = [0; 3].map(|_| random.below(self.known.len()));
        let at = *choices
            .iter()
            .min_by_key(|&&at| self.known[at].len())
            .unwrap_or(&0);
        self.try_reduction(random, at) || self.try_resolution(random, at, longest)
    }

    /// Reduces some universal literal of the clause that nothing blocks.
    fn try_reduction(&mut self, random: &mut Random, at: usize) -> bool {
        let clause = &self.known[at];
        let free = clause.iter().copied().filter(|literal| {
            let row = &self.rows[literal.unsigned_abs() as usize];
            row.is_some_and(|row| {
                !clause
                    .iter()
                    .any(|other| row[other.unsigned_abs() as usize] == 1)
            })
        });
        let free: Vec<i32> = free.collect();
        if free.is_empty() {
            return false;
        }
        let reduced = random.pick(&free);
        let result = without(clause, reduced);
        let head = [self.family.reduction(), at as i32 + 1, reduced];
        self.push(random, &head, result);
        true
    }

    /// Whether one antecedent may hold this literal and the other its opposite.
    fn may_oppose(&self, literal: i32, pivot: i32) -> bool {
        let [variable, pivot] = [literal, pivot].map(|l| l.unsigned_abs() as usize);
        self.family == Family::LongDistance
            && self.rows[variable].is_some()
            && self.places[variable] > self.places[pivot]
    }

    /// Resolves the clause with some other on some existential literal.
    fn try_resolution(&mut self, random: &mut Random, at: usize, longest: usize) -> bool {
        let clause = &self.known[at];
        let existential = |l: &i32| self.rows[l.unsigned_abs() as usize].is_none();
        let pivots: Vec<i32> = clause.iter().copied().filter(existential).collect();
        if pivots.is_empty() {
            return false;
        }
        let pivot = random.pick(&pivots);
        let offset = random.below(self.known.len());
        let count = self.known.len();
        let Some(other) = (0..count.min(400))
            .map(|turn| (offset + turn) % count)
            .find(|&other| self.known[other].contains(&-pivot))
        else {
            return false;
        };
        let mut added = self.known[other].iter().filter(|&&l| l != -pivot);
        if added.any(|&l| clause.contains(&-l) && !self.may_oppose(l, pivot)) {
            return false;
        }
        let result = resolvent(clause, &self.known[other], pivot);
        if result.len() > longest {
            return false;
        }
        let (i, j) = if pivot > 0 { (at, other) } else { (other, at) };
        let [i, j] = [i, j].map(|place| place as i32 + 1);
        let head = [self.family.resolution(), i, j, pivot.abs()];
        self.push(random, &head, result);
        true
    }

    fn push(&mut self, random: &mut Random, head: &[i32], mut result: Vec<i32>) {
        random.shuffle(&mut result);
        self.steps.extend_from_slice(head);
        self.steps.extend_from_slice(&result);
        self.steps.push(0);
        self.known.push(result);
    }
}
