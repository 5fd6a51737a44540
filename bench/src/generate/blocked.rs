//! Blocked reductions, and rows of the same formulas: existentials in several blocks depend on a universal, and the
//! clauses to be reduced hold some of them, in any order and under any numbers, beside variables that do not depend
//! on it.

use super::proofs::{check_case, numbered, unended, wild_reduction};
use super::{scratch, Case, Random, Tables};
use crate::reference::steps::Family;
use crate::reference::{MAX_VARIABLE, ROW_BYTES};

pub fn blocked_batch(random: &mut Random) -> Vec<Case> {
    let mut cases = Vec::new();
    for _ in 0..3 {
        let tables = tables(random);
        for _ in 0..3 {
            let steps = blocked_steps(random, &tables);
            cases.push(check_case(random, &tables, &steps));
        }
        let variable = random.pick(&tables.universals());
        let scratch_room = scratch::room(random);
        cases.push(scratch::row_case(
            &tables,
            variable,
            ROW_BYTES,
            scratch_room,
        ));
    }
    cases
}

/// A formula, and steps that end in a reduction, mostly a blocked one.
pub fn blocked(random: &mut Random) -> (Tables, Vec<i32>) {
    let tables = tables(random);
    let steps = blocked_steps(random, &tables);
    (tables, steps)
}

/// A few lawful steps of either family, and the reduction of a universal literal of some clause, its result rightly
/// stated or not.
fn blocked_steps(random: &mut Random, tables: &Tables) -> Vec<i32> {
    let count = random.pick(&[0, 1, 3, 8]);
    let family = random.pick(&Family::BOTH);
    let mut steps = unended(random, tables, family, count, 30);
    let clauses = numbered(tables, &steps);
    let universals = tables.universals();
    let choices = [0; 3].map(|_| random.below(clauses.len()));
    // The longest of three, so that several dependents are in it.
    let longest = choices.into_iter().max_by_key(|&at| clauses[at].len());
    let at = longest.unwrap_or(0);
    let is_universal = |literal: &&i32| universals.contains(&literal.abs());
    let held: Vec<i32> = clauses[at].iter().filter(is_universal).copied().collect();
    let reduced = match held[..] {
        [] => random.pick(&universals),
        _ => random.pick(&held),
    };
    let mut step = wild_reduction(random, family, (at as i32 + 1, clauses[at]), reduced);
    if random.one_in(6) && step.len() > 4 {
        step.remove(3);
    }
    steps.extend(step);
    steps
}

/// Some entries outside, a universal u, and entries inside, of which some existentials d stand in a clause with u and
/// their opposites in one with -u: they depend on it. Further clauses hold u or -u and any others, d or not.
fn tables(random: &mut Random) -> Tables {
    let (outside, inside) = (random.below(4), random.between(3, 12));
    let short = short_prefix(random, outside, inside);
    let (before, after) = short.split_at(outside);
    let universal = after[0].abs();
    let inner = &after[1..];
    let mut dependents: Vec<i32> = inner.iter().copied().filter(|&word| word > 0).collect();
    dependents.retain(|_| !random.one_in(4));
    for word in &mut dependents {
        *word *= random.pick(&[1, -1]);
    }
    let opposites: Vec<i32> = dependents.iter().map(|literal| -literal).collect();
    let bystanders: Vec<i32> = [before, inner]
        .concat()
        .into_iter()
        .filter(|word| !dependents.contains(word) && !opposites.contains(word))
        .collect();
    let mut clauses = vec![
        [&[universal], &dependents[..]].concat(),
        [&[-universal], &opposites[..]].concat(),
    ];
    for _ in 0..random.below(5) {
        let mut clause = vec![universal];
        clause.extend(dependents.iter().filter(|_| random.one_in(2)));
        clauses.push(clause);
    }
    for clause in &mut clauses[..] {
        clause.extend(bystanders.iter().filter(|_| random.one_in(4)));
    }
    for clause in &mut clauses[2..] {
        for literal in clause {
            *literal *= random.pick(&[1, -1]);
        }
    }
    listed(random, &short, clauses)
}

/// The tables of clauses, these and their literals in any order.
fn listed(random: &mut Random, short: &[i32], mut clauses: Vec<Vec<i32>>) -> Tables {
    random.shuffle(&mut clauses);
    let mut words = Vec::new();
    for mut clause in clauses {
        random.shuffle(&mut clause);
        words.extend(clause);
        words.push(0);
    }
    let mut tables = Tables::new(short, words);
    if random.one_in(3) {
        tables.renumber(random);
    }
    tables
}

/// So many entries, a universal, and so many more, numbered in any order; three in five are existential.
fn short_prefix(random: &mut Random, outside: usize, inside: usize) -> Vec<i32> {
    let count = outside + 1 + inside;
    let largest = random.pick(&[count, count + 6, MAX_VARIABLE]);
    let mut short: Vec<i32> = (1..=largest as i32).collect();
    random.shuffle(&mut short);
    short.truncate(count);
    for (place, word) in short.iter_mut().enumerate() {
        if place == outside || random.below(5) < 2 {
            *word = -*word;
        }
    }
    short
}

#[cfg(test)]
mod tests {
    use super::*;
    use crate::reference::steps::{check, Rows};

    /// Most reductions are blocked, and none stands behind an empty clause.
    #[test]
    fn reductions_are_looked_at() {
        let random = &mut Random::new(4);
        let mut numbers = [0; 24];
        for _ in 0..2000 {
            let (tables, steps) = blocked(random);
            let Tables { prefix, clauses } = &tables;
            let answer = check(prefix, clauses, &steps, 640, 640, 1000, Rows::Kept);
            let number = answer.map_or_else(|refusal| refusal.reason.number(), |_| 0);
            numbers[number as usize] += 1;
        }
        assert!(numbers[17] > 1000, "{numbers:?}");
        assert_eq!(numbers[23], 0);
    }
}
