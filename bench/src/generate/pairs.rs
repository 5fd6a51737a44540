//! Proofs about pairs: clauses that merge into one with both signs of a universal, and a last step on such a clause, a
//! resolution or a reduction, lawful or not.

use super::derive::{resolution, varied, Numbered};
use super::proofs::{check_case, family_behind, in_family, numbered, wild_reduction};
use super::{scratch, Case, Random, Tables};
use crate::pairs::signs;
use crate::reference::steps::Family;

pub fn pairs_batch(random: &mut Random) -> Vec<Case> {
    let mut cases = Vec::new();
    for _ in 0..3 {
        let tables = tables_of_pairs(random);
        for _ in 0..4 {
            let steps = paired_steps(random, &tables);
            cases.push(check_case(random, &tables, &steps));
        }
    }
    cases
}

/// A formula of existential 1 and 4, universal 2, and existential 3, which depends on it; with steps that merge: clause 15
/// is {4, 2, -2, 3}, 16 is {4, 2, -2, -3} and 17 is {-4, 2, -2}.
pub fn merged() -> (Tables, Vec<i32>) {
    let clauses: [&[i32]; 14] = [
        &[1, 2, 3, 4, 0],
        &[-1, -2, 4, 0],
        &[1, 2, -3, 4, 0],
        &[1, 2, -4, 0],
        &[-1, -2, -4, 0],
        &[-4, 0],
        &[-4, 2, 0],
        &[-4, -2, 0],
        &[3, 0],
        &[3, 2, 0],
        &[3, -2, 0],
        &[-3, 0],
        &[-3, 2, 0],
        &[-3, -2, 0],
    ];
    let steps = [
        &[3, 1, 2, 1, 4, 2, -2, 3, 0][..],
        &[3, 3, 2, 1, -3, -2, 2, 4, 0],
        &[3, 4, 5, 1, -2, -4, 2, 0],
    ];
    (
        Tables::new(&[1, 4, -2, 3], clauses.concat()),
        steps.concat(),
    )
}

/// Each way to merge, carry, meet and reduce a pair, allowed and not, behind these clauses; and the other family, behind
/// them and ahead.
pub fn short_pairs() -> (Tables, Vec<Vec<i32>>) {
    let (tables, merges) = merged();
    let mut last: Vec<Vec<i32>> = [[15, 6, 4], [15, 7, 4], [15, 8, 4], [15, 17, 4]]
        .map(|[i, j, pivot]| vec![3, i, j, pivot, 3, -2, 2, 0])
        .to_vec();
    let met = [[15, 12], [9, 16], [15, 13], [15, 14], [15, 16], [10, 16]];
    last.extend(met.map(|[i, j]| vec![3, i, j, 3, 4, 2, -2, 0]));
    last.push(vec![3, 10, 14, 3, 2, -2, 0]);
    last.push(vec![3, 1, 5, 1, 2, -2, 3, 4, -4, 0]);
    last.push(vec![3, 1, 5, 4, 2, -2, 3, 1, -1, 0]);
    for sign in [2, -2] {
        last.push(vec![4, 17, sign, -4, 0]);
        last.push(vec![4, 17, sign, -4, -sign, 0]);
        last.push(vec![4, 7, sign, -4, 0]);
        last.push(vec![4, 15, sign, 4, 3, 0]);
        last.push(vec![2, 7, sign, -4, 0]);
    }
    let behind = last.into_iter().map(|step| [&merges[..], &step].concat());
    let mut proofs: Vec<Vec<i32>> = behind.collect();
    proofs.push(in_family(&merges, Family::Plain));
    proofs.push([&[2, 7, 2, -4, 0], &merges[..]].concat());
    proofs.push(merges);
    (tables, proofs)
}

/// These with scratch about either bound, and starts about what the last step needs.
pub fn edge_pairs() -> Vec<Case> {
    let (tables, proofs) = short_pairs();
    let mut cases = Vec::new();
    for steps in proofs {
        let last = numbered(&tables, &steps).len();
        for scratch in [639, 640, 8199, 8200] {
            let check = |starts| scratch::check_case(&tables, &steps, scratch, starts);
            cases.extend([last - 1, last, last + 1].map(check));
        }
    }
    cases
}

/// A formula, and steps that end in one about a pair.
pub fn paired(random: &mut Random) -> (Tables, Vec<i32>) {
    let tables = tables_of_pairs(random);
    let steps = paired_steps(random, &tables);
    (tables, steps)
}

/// Existentials outside, universals, existentials inside, and at times a universal innermost; numbered in any order. Some
/// clauses come by twos that merge on an outer existential, and some are drawn from all variables.
pub fn tables_of_pairs(random: &mut Random) -> Tables {
    let counts = [(1, 3), (1, 2), (1, 3), (0, 1)].map(|(low, high)| random.between(low, high));
    let mut numbers: Vec<i32> = (1..=counts.iter().sum::<usize>() as i32).collect();
    random.shuffle(&mut numbers);
    let groups = counts.map(|count| numbers.split_off(numbers.len() - count));
    let mut clauses = Vec::new();
    push_twos(random, &groups, &mut clauses);
    for _ in 0..random.between(2, 6) {
        let length = random.between(1, 3);
        push_with(random, &[], &groups, length, &mut clauses);
    }
    let [outside, universals, inside, innermost] = groups;
    let negative = |group: Vec<i32>| group.into_iter().map(|word| -word).collect();
    let short = [outside, negative(universals), inside, negative(innermost)].concat();
    let mut tables = Tables::new(&short, clauses);
    if random.one_in(3) {
        tables.renumber(random);
    }
    tables
}

/// Appends clauses by twos that have opposite signs of an outer existential and of a universal. A further existential is in
/// some of them, its signs by turns, so that what the twos merge into can be resolved.
fn push_twos(random: &mut Random, groups: &[Vec<i32>; 4], clauses: &mut Vec<i32>) {
    let existentials = [&groups[0][..], &groups[2]].concat();
    let mut link = random.pick(&existentials);
    for _ in 0..random.between(1, 4) {
        let (pivot, universal) = (random.pick(&groups[0]), random.pick(&groups[1]));
        let sign = random.pick(&[1, -1]);
        let mut first = vec![pivot, sign * universal];
        if link.abs() != pivot {
            first.push(link);
        }
        link = -link;
        for literals in [&first[..], &[-pivot, -sign * universal]] {
            let more = random.below(2);
            push_with(random, literals, groups, more, clauses);
        }
    }
}

/// Appends a clause of these literals and up to so many more, of other variables.
fn push_with(
    random: &mut Random,
    literals: &[i32],
    groups: &[Vec<i32>; 4],
    more: usize,
    clauses: &mut Vec<i32>,
) {
    let mut clause = literals.to_vec();
    for _ in 0..more {
        let variable = random.pick(&groups.concat());
        if held(&clause, variable) == 0 {
            clause.push(variable * random.pick(&[1, -1]));
        }
    }
    random.shuffle(&mut clause);
    clauses.extend(clause);
    clauses.push(0);
}

/// Some lawful steps, seldom of the plain family, and one more about a pair if there is one, seldom of the other family.
fn paired_steps(random: &mut Random, tables: &Tables) -> Vec<i32> {
    let drawn = match random.below(6) {
        0 => Family::Plain,
        _ => Family::LongDistance,
    };
    let tries = random.pick(&[2, 6, 20, 60]);
    let mut steps = varied(random, tables, drawn, tries, 12);
    let family = match steps[..] {
        [] => drawn,
        _ => family_behind(random, &steps),
    };
    let aim = Aim::new(random, tables, family, &steps);
    let last = match random.below(3) {
        0 => wild_reduction(random, family, aim.clause, aim.literal),
        _ => aim.resolution(random),
    };
    steps.extend(last);
    steps
}

/// How many signs of a literal's variable a clause holds.
fn held(clause: &[i32], literal: i32) -> usize {
    signs(clause, literal).map(usize::from).iter().sum()
}

/// What a step about a pair is drawn from: the numbered clauses, one of them, and a literal of a universal, of which the
/// clause holds both signs, or else one, if such a clause was found.
struct Aim<'a> {
    family: Family,
    clauses: Vec<&'a [i32]>,
    universals: Vec<i32>,
    clause: Numbered<'a>,
    literal: i32,
}

impl<'a> Aim<'a> {
    fn new(random: &mut Random, tables: &'a Tables, family: Family, steps: &'a [i32]) -> Aim<'a> {
        let clauses = numbered(tables, steps);
        let universals = tables.universals();
        let choices = [0; 6].map(|_| random.below(clauses.len()));
        let of_signs = |count: usize| {
            choices.into_iter().find_map(|at| {
                let fits = |variable: &&i32| held(clauses[at], **variable) == count;
                Some((at, *universals.iter().find(fits)?))
            })
        };
        let found = of_signs(2).or_else(|| of_signs(1));
        let (at, variable) = found.unwrap_or((choices[0], universals[0]));
        Aim {
            family,
            clause: (at as i32 + 1, clauses[at]),
            clauses,
            universals,
            literal: variable * random.pick(&[1, -1]),
        }
    }

    /// Resolves the clause on one of its existentials with some other, mostly one that holds a sign of the universal or
    /// both, if there is any; nothing where there is none.
    fn resolution(&self, random: &mut Random) -> Vec<i32> {
        let is_existential = |literal: &&i32| !self.universals.contains(&literal.abs());
        let pivots: Vec<&i32> = self.clause.1.iter().filter(is_existential).collect();
        if pivots.is_empty() {
            return vec![];
        }
        let pivot = *random.pick(&pivots);
        let clauses = (1..).zip(self.clauses.iter().copied());
        let fits = |other: &Numbered| other.1.contains(&-pivot);
        let mut others: Vec<Numbered> = clauses.filter(fits).collect();
        let wanted = random.pick(&[&[][..], &[1, 2], &[2]]);
        let meets = |other: &Numbered| wanted.contains(&held(other.1, self.literal));
        if others.iter().any(meets) {
            others.retain(meets);
        }
        if others.is_empty() {
            return vec![];
        }
        let other = random.pick(&others);
        resolution(self.family, [self.clause, other], pivot)
    }
}
