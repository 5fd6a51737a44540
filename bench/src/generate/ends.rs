//! Proofs at their end: refutations, and formulas with an empty clause, whole and with words behind the empty clause; and
//! what is refused ahead of such words.

use super::derive::{derivation, next_step};
use super::proofs::{check_case, family_behind, in_family, numbered, wild_step};
use super::scratch::{self, refused_tables, ROOMS, SHORT};
use super::tables::{damaged_tables, odd_word};
use super::{Case, Random, Shape, Tables};
use crate::reference::steps::Family;
use crate::reference::{MAX_STEP_WORDS, SCRATCH_BYTES};

const LONGEST: usize = 16;

pub fn ends_batch(random: &mut Random) -> Vec<Case> {
    let (tables, steps) = ended(random);
    let mut cases = vec![check_case(random, &tables, &steps)];
    for _ in 0..6 {
        let words = gone_on(random, &tables, &steps);
        cases.push(check_case(random, &tables, &words));
    }
    let words = gone_on(random, &tables, &steps);
    let damaged = damaged_tables(random, &tables);
    cases.push(check_case(random, &damaged, &words));
    // Little scratch, no start for some input clause, and none for the step behind the empty clause.
    let (inputs, last) = (tables.count(), numbered(&tables, &steps).len());
    let rooms = [
        (random.pick(&SHORT), last + 1),
        (SCRATCH_BYTES, random.below(inputs)),
        (SCRATCH_BYTES, last),
    ];
    cases.extend(
        rooms.map(|(scratch, starts)| scratch::check_case(&tables, &words, scratch, starts)),
    );
    cases
}

/// A formula and a proof that is accepted: a refutation, or no steps where some input clause is empty.
pub fn ended(random: &mut Random) -> (Tables, Vec<i32>) {
    loop {
        let mut tables = Shape::tight(random).tables(random);
        if random.one_in(3) {
            tables.renumber(random);
        }
        if random.one_in(3) {
            for _ in 0..random.between(1, 2) {
                insert_empty(random, &mut tables.clauses);
            }
        }
        let family = random.pick(&Family::BOTH);
        let steps = derivation(random, &tables, family, 60, LONGEST);
        let has_ended = |clause: &&[i32]| clause.is_empty();
        if numbered(&tables, &steps).iter().any(has_ended) {
            return (tables, steps);
        }
    }
}

/// Puts an empty clause ahead of some clause or behind the last.
fn insert_empty(random: &mut Random, clauses: &mut Vec<i32>) {
    let places = (0..=clauses.len()).filter(|&at| at == 0 || clauses[at - 1] == 0);
    let places: Vec<usize> = places.collect();
    clauses.insert(random.pick(&places), 0);
}

/// The steps, and behind them a right step, another, a broken one, one of the other family, a lone word, or more than one
/// step.
pub fn gone_on(random: &mut Random, tables: &Tables, steps: &[i32]) -> Vec<i32> {
    let family = family_behind(random, steps);
    let mut words = match random.below(3) {
        0 => wild_step(random, tables, steps),
        _ => next_step(random, tables, family, steps, LONGEST),
    };
    match random.below(7) {
        0 => words = vec![odd_word(random)],
        1 => {
            words.pop();
        }
        2 => {
            if let Some(kind) = words.first_mut() {
                *kind = random.pick(&[0, 5, -1, i32::MIN]);
            }
        }
        3 => words.extend(wild_step(random, tables, &[steps, &words].concat())),
        _ => {}
    }
    [steps, &words].concat()
}

/// A formula and a refutation of exactly so many words, 28 or more, in steps as short as can be: each leaves a literal, or
/// two so that the number comes out, but for the last. No step of a right proof but the last has four words.
pub fn filled(words: usize) -> (Tables, Vec<i32>) {
    let tables = Tables::new(&[1, 3, -2], vec![1, 2, 0, 1, 3, 2, 0, 2, 0]);
    let longer = (words - 4) % 5;
    let mut steps = [2, 2, 2, 1, 3, 0].repeat(longer);
    steps.extend([2, 1, 2, 1, 0].repeat((words - 4 - 6 * longer) / 5));
    steps.extend([2, 3, 2, 0]);
    (tables, steps)
}

/// Short proofs that have ended, with words of each kind behind them and every number of starts; more words behind an
/// empty clause than there may be; and tables refused in each way that have an empty clause, with a step.
pub fn edge_ends() -> Vec<Case> {
    let mut cases = Vec::new();
    for (tables, steps) in short_ends() {
        let last = numbered(&tables, &steps).len();
        for words in with_each_tail(&steps) {
            for starts in 0..=last + 1 {
                let check = |scratch| scratch::check_case(&tables, &words, scratch, starts);
                cases.extend([639, 640, 8200].map(check));
            }
        }
        for length in [MAX_STEP_WORDS, MAX_STEP_WORDS + 1] {
            let mut words = steps.clone();
            words.resize(length, 9);
            cases.push(scratch::check_case(&tables, &words, SCRATCH_BYTES, last));
        }
    }
    for mut tables in refused_tables() {
        tables.clauses.insert(0, 0);
        cases.extend(ROOMS.map(|room| scratch::check_case(&tables, &[2, 2, 2, 0], room, 9)));
    }
    cases
}

/// Refutations of one step and of two by either family, formulas with an empty clause first, last and alone, and a pair
/// merged and reduced.
pub fn short_ends() -> Vec<(Tables, Vec<i32>)> {
    let ends: [(&[i32], &[i32]); 5] = [
        (&[1, 0, -1, 0, 2, 0], &[1, 1, 2, 1, 0]),
        (&[1, 2, 0, -1, 0, 2, 0], &[2, 1, 2, 1, 0, 1, 4, 2, 1, 0]),
        (&[0, -1, 0, 2, 0], &[]),
        (&[1, 0, -1, 0, 2, 0, 0], &[]),
        (&[0], &[]),
    ];
    let tables = |clauses: &[i32]| Tables::new(&[1, -2], clauses.to_vec());
    let of_family =
        |family| ends.map(|(clauses, steps)| (tables(clauses), in_family(steps, family)));
    let merged = Tables::new(&[1, -2], vec![1, 2, 0, -1, -2, 0]);
    let of_both = vec![3, 1, 2, 1, 2, -2, 0, 4, 3, -2, 0];
    let mut all = Family::BOTH.map(of_family).concat();
    all.push((merged, of_both));
    all
}

/// The steps of a short end with nothing behind them, and with lone words, right steps of either family, broken ones and
/// wrong ones.
pub fn with_each_tail(steps: &[i32]) -> Vec<Vec<i32>> {
    let tails: [&[i32]; 12] = [
        &[],
        &[0],
        &[9],
        &[i32::MIN],
        &[1, 1, 2, 1, 0],
        &[2, 3, 2, 0],
        &[2, 3, 2],
        &[3, 1, 2, 1, 0],
        &[4, 3, 2, 0],
        &[4, 3, 2],
        &[5, 1, 2, 0],
        &[2, 9, 2, 0],
    ];
    tails.map(|tail| [steps, tail].concat()).to_vec()
}

#[cfg(test)]
mod tests {
    use super::*;
    use crate::reference::steps::{check, Rows, Verdict};
    use crate::reference::Reason;

    fn judged(tables: &Tables, steps: &[i32]) -> Result<Verdict, (Reason, usize)> {
        let Tables { prefix, clauses } = tables;
        let starts = tables.count() + steps.len();
        let answer = check(prefix, clauses, steps, 640, 640, starts, Rows::Kept);
        answer.map_err(|refusal| (refusal.reason, refusal.place))
    }

    /// What has ended is accepted, by its last clause or with no steps, and is refused at the next number with anything
    /// behind it.
    #[test]
    fn ended_and_gone_on() {
        let random = &mut Random::new(4);
        let (mut without_steps, mut longer) = (0, 0);
        for _ in 0..400 {
            let (tables, steps) = ended(random);
            let (inputs, last) = (tables.count(), numbered(&tables, &steps).len());
            let verdict = judged(&tables, &steps).unwrap();
            assert_eq!(verdict.steps, last - inputs);
            assert!(verdict.empty == last || steps.is_empty());
            without_steps += usize::from(steps.is_empty());
            let words = gone_on(random, &tables, &steps);
            if words.len() > steps.len() {
                longer += 1;
                assert_eq!(judged(&tables, &words), Err((Reason::Afterword, last + 1)));
            } else {
                assert_eq!(judged(&tables, &words), Ok(verdict));
            }
        }
        assert!((100..300).contains(&without_steps), "{without_steps}");
        assert!(longer > 300, "{longer}");
    }

    #[test]
    fn as_many_steps_as_fit() {
        for (words, count) in [(28, 5), (29, 6), (16_384, 3277), (MAX_STEP_WORDS, 209_715)] {
            let (tables, steps) = filled(words);
            assert_eq!(steps.len(), words);
            let due = Verdict {
                empty: 3 + count,
                steps: count,
            };
            assert_eq!(judged(&tables, &steps), Ok(due));
        }
    }
}
