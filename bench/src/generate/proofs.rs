//! Proofs: lawful derivations, then damaged step by step or word by word, with buffers around the
//! lengths they need.

use super::derive::{derivation, reduction, resolution, Numbered};
use super::tables::{damage_words, damaged_tables, odd_word};
use super::{scratch, Case, Random, Shape, Tables};
use crate::reference::steps::Family;

/// The words of a step of this kind ahead of what it states.
pub fn head(kind: i32) -> usize {
    match kind {
        1 | 3 => 4,
        _ => 3,
    }
}

/// The places at which steps begin, up to the first that is broken.
pub fn step_places(steps: &[i32]) -> Vec<usize> {
    let mut places = Vec::new();
    let mut at = 0;
    while at < steps.len() {
        places.push(at);
        let stated = at + head(steps[at]);
        let rest = steps.get(stated..).unwrap_or(&[]);
        match rest.iter().position(|&word| word == 0) {
            Some(length) => at = stated + length + 1,
            None => break,
        }
    }
    places
}

/// The numbered clauses: those of the tables, and what each step states.
pub fn numbered<'a>(tables: &'a Tables, steps: &'a [i32]) -> Vec<&'a [i32]> {
    let input = tables.clauses.split(|&word| word == 0);
    let mut clauses: Vec<&[i32]> = input.take(tables.count()).collect();
    let places = step_places(steps);
    for (turn, &at) in places.iter().enumerate() {
        let stated = at + head(steps[at]);
        let end = places.get(turn + 1).copied().unwrap_or(steps.len());
        clauses.push(steps.get(stated..end - 1).unwrap_or(&[]));
    }
    clauses
}

/// The same steps by the kinds of this family: lawful ones without a pair are as lawful.
pub fn in_family(steps: &[i32], family: Family) -> Vec<i32> {
    let mut steps = steps.to_vec();
    for at in step_places(&steps) {
        steps[at] = match head(steps[at]) {
            4 => family.resolution(),
            _ => family.reduction(),
        };
    }
    steps
}

/// The family of these steps, or either where there are none; seldom the other one.
pub fn family_behind(random: &mut Random, steps: &[i32]) -> Family {
    match Family::of_steps(steps) {
        Some(family) if random.one_in(8) => family.other(),
        Some(family) => family,
        None => random.pick(&Family::BOTH),
    }
}

/// A formula, mostly tight, and a lawful derivation of either family.
pub fn lawful(random: &mut Random) -> (Tables, Vec<i32>) {
    let shape = match random.below(60) {
        0 => Shape::middling(random),
        1..=5 => Shape::small(random),
        _ => Shape::tight(random),
    };
    let mut tables = shape.tables(random);
    if random.one_in(3) {
        tables.renumber(random);
    }
    let count = random.pick(&[3, 10, 30, 60]);
    let family = random.pick(&Family::BOTH);
    let steps = derivation(random, &tables, family, count, 16);
    (tables, steps)
}

/// A lawful derivation that has not ended: without its last step where that comes to the empty clause, behind which no
/// step is looked at.
pub fn unended(
    random: &mut Random,
    tables: &Tables,
    family: Family,
    count: usize,
    longest: usize,
) -> Vec<i32> {
    let mut steps = derivation(random, tables, family, count, longest);
    if let (Some([]), Some(&last)) = (numbered(tables, &steps).last(), step_places(&steps).last()) {
        steps.truncate(last);
    }
    steps
}

pub fn proof_batch(random: &mut Random) -> Vec<Case> {
    let (tables, steps) = lawful(random);
    let mut cases = vec![check_case(random, &tables, &steps)];
    for _ in 0..8 {
        let mut damaged = steps.clone();
        for _ in 0..random.pick(&[1, 1, 1, 2]) {
            damage_steps(random, &tables, &mut damaged);
        }
        cases.push(check_case(random, &tables, &damaged));
    }
    for _ in 0..2 {
        let damaged = damaged_tables(random, &tables);
        let scratch_room = scratch::room_for_damaged(random);
        let starts_room = starts_room(random, &damaged, &steps);
        cases.push(scratch::check_case(
            &damaged,
            &steps,
            scratch_room,
            starts_room,
        ));
    }
    cases
}

pub fn check_case(random: &mut Random, tables: &Tables, steps: &[i32]) -> Case {
    let starts_room = starts_room(random, tables, steps);
    scratch::check_case(tables, steps, scratch::room(random), starts_room)
}

/// Mostly a start for each clause and each step or more, seldom fewer.
fn starts_room(random: &mut Random, tables: &Tables, steps: &[i32]) -> usize {
    let inputs = tables.count();
    let numbered = inputs + step_places(steps).len();
    match random.below(40) {
        0 => inputs.saturating_sub(1),
        1 => inputs,
        2 => 0,
        3 => random.below(numbered + 1),
        4 => numbered.saturating_sub(1),
        5..=14 => numbered + random.below(30),
        _ => numbered,
    }
}

pub fn damage_steps(random: &mut Random, tables: &Tables, steps: &mut Vec<i32>) {
    let places = step_places(steps);
    if places.is_empty() || random.one_in(6) {
        steps.extend(wild_step(random, tables, steps));
        return;
    }
    let which = random.below(places.len());
    let at = places[which];
    let end = places.get(which + 1).copied().unwrap_or(steps.len());
    match random.below(10) {
        0 => damage_words(random, steps),
        1 => steps.truncate(random.between(at, end)),
        2 => steps[at] = random.pick(&[0, 1, 2, 3, 4, 5, -1, i32::MIN]),
        3 if at + 3 < end => steps.swap(at + 1, at + 2),
        4 => {
            // A field of the head changed by one or to a far number.
            let place = (at + random.between(1, 3)).min(steps.len() - 1);
            steps[place] = match random.below(3) {
                0 => odd_word(random),
                _ => steps[place].wrapping_add(random.pick(&[1, -1])),
            };
        }
        5 => {
            // A literal stated too many: a new one, a repeated one or an opposite.
            let literal = random
                .pick(&steps[at..end])
                .wrapping_mul(random.pick(&[1, -1]));
            steps.insert(end - 1, literal);
        }
        6 if end - at > 5 => {
            steps.remove(end - 2);
        }
        7 => {
            // A step inserted: the numbers after it no longer mean what they did.
            let step = wild_step(random, tables, &steps[..at]);
            steps.splice(at..at, step);
        }
        8 => {
            steps.drain(at..end);
        }
        _ => {
            let place = random.between(at, end - 1);
            steps[place] = odd_word(random);
        }
    }
}

/// A step behind these with its result stated, lawful or not: wrong pivots, blocked reductions, pairs that are not
/// allowed and kinds of the other family come from here.
pub fn wild_step(random: &mut Random, tables: &Tables, before: &[i32]) -> Vec<i32> {
    let family = family_behind(random, before);
    let clauses = numbered(tables, before);
    let choose = |random: &mut Random| {
        let at = random.below(clauses.len().max(1));
        (at as i32 + 1, clauses.get(at).copied().unwrap_or(&[]))
    };
    let one = choose(random);
    let literal = if one.1.is_empty() {
        odd_word(random)
    } else {
        random.pick(one.1)
    };
    if random.one_in(12) {
        let far = clauses.len() as i32 + random.below(3) as i32;
        return vec![family.reduction(), far, literal, 0];
    }
    if random.one_in(2) {
        let universals = tables.universals();
        let universal = one
            .1
            .iter()
            .find(|l| universals.contains(&l.wrapping_abs()));
        return wild_reduction(random, family, one, *universal.unwrap_or(&literal));
    }
    let mut other = choose(random);
    for _ in 0..8 {
        if !other.1.contains(&literal.wrapping_neg()) {
            other = choose(random);
        }
    }
    resolution(family, [one, other], literal)
}

/// The reduction of a literal; now and then it leaves the opposite sign, or names that one.
pub fn wild_reduction(
    random: &mut Random,
    family: Family,
    clause: Numbered,
    literal: i32,
) -> Vec<i32> {
    let mut step = reduction(family, clause, literal);
    let opposite = literal.wrapping_neg();
    if random.one_in(4) && clause.1.contains(&opposite) {
        step.insert(3, opposite);
    }
    if random.one_in(8) {
        step[2] = opposite;
    }
    step
}
