//! What inputs draw about the two families of steps, and must: every answer to a step by each of them, kinds of the other
//! one, and how both signs of a variable are merged, carried, met and reduced, allowed and not.

use super::ends::Proof;
use crate::generate::derive::without;
use crate::generate::proofs::{head, numbered, step_places};
use crate::generate::Tables;
use crate::pairs::{pairs, signs, Pair};
use crate::reference::prefix::{bindings, places, Quantifier};
use crate::reference::steps::{check, Family, Rows};
use crate::reference::{Reason, ROW_BYTES, SCRATCH_BYTES};

/// The answers that steps get, 0 being acceptance.
const NUMBERS: [usize; 9] = [0, 13, 14, 15, 16, 17, 18, 19, 23];

/// These by the kind of the first step.
pub const ANSWERS: [[&str; NUMBERS.len()]; 2] = [
    [
        "accepted, kinds 1 and 2",
        "13, kinds 1 and 2",
        "14, kinds 1 and 2",
        "15, kinds 1 and 2",
        "16, kinds 1 and 2",
        "17, kinds 1 and 2",
        "18, kinds 1 and 2",
        "19, kinds 1 and 2",
        "23, kinds 1 and 2",
    ],
    [
        "accepted, kinds 3 and 4",
        "13, kinds 3 and 4",
        "14, kinds 3 and 4",
        "15, kinds 3 and 4",
        "16, kinds 3 and 4",
        "17, kinds 3 and 4",
        "18, kinds 3 and 4",
        "19, kinds 3 and 4",
        "23, kinds 3 and 4",
    ],
];

/// A step of the other family that is whole.
pub const OTHERS: [&str; 4] = [
    "13, kind 3 or 4 behind 1 or 2",
    "13, kind 1 or 2 behind 3 or 4",
    "23, kind 3 or 4 behind 1 or 2",
    "23, kind 1 or 2 behind 3 or 4",
];

/// Right steps with both signs of a variable.
pub const ALLOWED: [&str; 7] = [
    "right, a merge",
    "right, a pair carried, its pivot left",
    "right, a pair carried, its pivot right",
    "right, a pair met by one sign",
    "right, a pair met by both",
    "right, both signs reduced by v",
    "right, both signs reduced by -v",
];

/// Wrong ones; of a resolution no other variable is at fault.
pub const WRONG: [&str; 9] = [
    "16, a merge of a universal left",
    "16, a merge of an existential left",
    "16, a merge of an existential right",
    "16, a pair met by one sign",
    "16, a pair met by both",
    "16, kind 1, a merge that kind 3 allows",
    "15, kind 4, the opposite sign alone",
    "17, kind 4, both signs",
    "18, kind 4, one sign is left",
];

/// What the proof draws, answered with this number.
pub fn drawn(proof: &Proof, number: usize) -> Vec<&'static str> {
    let answer = NUMBERS.iter().position(|&due| due == number);
    let (Some(answer), Some(family)) = (answer, Family::of_steps(proof.steps)) else {
        return vec![];
    };
    let steps = Steps::of(proof, family);
    let refused = steps.refused(proof);
    let mut drawn = vec![ANSWERS[family as usize][answer]];
    for turn in 0..refused.unwrap_or(steps.places.len()) {
        for kind in steps.allowed(turn) {
            if !drawn.contains(&kind) {
                drawn.push(kind);
            }
        }
    }
    drawn.extend(refused.and_then(|turn| steps.wrong(turn, number)));
    drawn
}

/// The steps of a proof of a family, with its numbered clauses.
struct Steps<'a> {
    family: Family,
    words: &'a [i32],
    places: Vec<usize>,
    known: Vec<&'a [i32]>,
    /// Of each variable its place in the prefix, and what binds it.
    order: [usize; ROW_BYTES],
    bindings: [Option<Quantifier>; ROW_BYTES],
}

impl<'a> Steps<'a> {
    fn of(proof: &Proof<'a>, family: Family) -> Steps<'a> {
        let entries = proof.tables.entries();
        Steps {
            family,
            words: proof.steps,
            places: step_places(proof.steps),
            known: numbered(proof.tables, proof.steps),
            order: places(&entries),
            bindings: bindings(&entries),
        }
    }

    /// Which step is refused, from 0, if one is.
    fn refused(&self, proof: &Proof) -> Option<usize> {
        let Tables { prefix, clauses } = proof.tables;
        let (asked, starts) = (SCRATCH_BYTES, proof.starts);
        let answer = check(
            prefix,
            clauses,
            self.words,
            asked,
            asked,
            starts,
            Rows::Kept,
        );
        let refusal = answer.err()?;
        let of_step = refusal.reason != Reason::NoConclusion;
        of_step.then(|| refusal.place - proof.tables.count() - 1)
    }

    fn clause(&self, number: i32) -> Option<&'a [i32]> {
        let index = usize::try_from(number).ok()?.checked_sub(1)?;
        self.known.get(index).copied()
    }

    /// Both signs of variables in the antecedents of a resolution.
    fn pairs(&self, [i, j]: [i32; 2], pivot: i32) -> Vec<(i32, Pair)> {
        match (self.clause(i), self.clause(j)) {
            (Some(left), Some(right)) => pairs(left, right, pivot),
            _ => vec![],
        }
    }

    /// Whether the variable of a clause's literal is universal.
    fn is_universal(&self, literal: i32) -> bool {
        self.bindings[literal.unsigned_abs() as usize] == Some(Quantifier::Universal)
    }

    /// Whether a variable is universal, and whether it stands right of the pivot.
    fn stands(&self, variable: i32, pivot: i32) -> (bool, bool) {
        let [place, of_pivot] = [variable, pivot].map(|v| self.order[v as usize]);
        (self.is_universal(variable), place > of_pivot)
    }

    /// What a right step draws.
    fn allowed(&self, turn: usize) -> Vec<&'static str> {
        let kind = |pivot, (variable, pair)| match (pair, self.stands(variable, pivot)) {
            (Pair::Merged, _) => ALLOWED[0],
            (Pair::Carried, (_, true)) => ALLOWED[1],
            (Pair::Carried, (_, false)) => ALLOWED[2],
            (Pair::MetByOne, _) => ALLOWED[3],
            (Pair::MetByBoth, _) => ALLOWED[4],
        };
        match self.words[self.places[turn]..] {
            [3, i, j, pivot, ..] => {
                let pairs = self.pairs([i, j], pivot).into_iter();
                pairs.map(|pair| kind(pivot, pair)).collect()
            }
            [4, i, literal, ..] => {
                let both = |clause: &[i32]| signs(clause, literal) == [true; 2];
                let reduced = self.clause(i).is_some_and(both);
                Vec::from_iter(reduced.then_some(ALLOWED[5 + usize::from(literal < 0)]))
            }
            _ => vec![],
        }
    }

    /// What the refused step draws.
    fn wrong(&self, turn: usize, number: usize) -> Option<&'static str> {
        let words = &self.words[self.places[turn]..];
        let family = Family::of(words[0])?;
        match (number, words) {
            (13 | 23, _) if family != self.family => {
                let whole = words.get(head(words[0])..)?.contains(&0);
                let behind = 2 * usize::from(number == 23) + self.family as usize;
                whole.then_some(OTHERS[behind])
            }
            (16, [kind, i, j, pivot, ..]) => self.opposed(*kind, [*i, *j], *pivot),
            (15 | 17 | 18, [4, i, literal, stated @ ..]) => {
                let length = stated.iter().position(|&word| word == 0)?;
                self.reduced(*i, *literal, &stated[..length], number)
            }
            _ => None,
        }
    }

    /// What a resolution draws that one variable alone makes wrong.
    fn opposed(&self, kind: i32, antecedents: [i32; 2], pivot: i32) -> Option<&'static str> {
        let mut pairs = self.pairs(antecedents, pivot);
        let lawful = (true, true);
        pairs.retain(|(variable, pair)| {
            pair.is_opposed() && (kind == 1 || self.stands(*variable, pivot) != lawful)
        });
        let [(variable, pair)] = pairs[..] else {
            return None;
        };
        let wrong = match (kind, pair, self.stands(variable, pivot)) {
            (3, Pair::Merged, (true, _)) => 0,
            (3, Pair::Merged, (false, false)) => 1,
            (3, Pair::Merged, (false, true)) => 2,
            (3, Pair::MetByOne, _) => 3,
            (3, Pair::MetByBoth, _) => 4,
            (1, _, stands) if stands == lawful => 5,
            _ => return None,
        };
        Some(WRONG[wrong])
    }

    /// What a reduction of the long-distance family draws that is refused with this number.
    fn reduced(&self, i: i32, literal: i32, stated: &[i32], number: usize) -> Option<&'static str> {
        let clause = self.clause(i)?;
        // No variable has the number of the least word.
        literal.checked_neg()?;
        let kind = match (number, signs(clause, literal)) {
            (15, [false, true]) if self.is_universal(-literal) => 6,
            (17, [true, true]) => 7,
            (18, [true, true]) if leaves_one(clause, literal, stated) => 8,
            _ => return None,
        };
        Some(WRONG[kind])
    }
}

/// Whether these are the clause's literals but for one of the two signs.
fn leaves_one(clause: &[i32], literal: i32, stated: &[i32]) -> bool {
    let [yes, no] = signs(stated, literal);
    let rest = |clause: &[i32]| {
        let mut rest = without(clause, literal);
        rest.sort();
        rest
    };
    yes != no && rest(stated) == rest(clause)
}

#[cfg(test)]
mod tests {
    use super::*;

    /// What steps draw on existential 1 and 4, universal 2 and existential 3, of clauses numbered from 1.
    fn drawn(steps: &[i32]) -> Vec<&'static str> {
        let clauses: [&[i32]; 7] = [
            &[1, 2, 4, 0],
            &[-1, -2, 3, 0],
            &[-4, 2, 0],
            &[-3, 0],
            &[-3, 2, 0],
            &[-4, 0],
            &[-1, 3, -4, 0],
        ];
        let tables = &Tables::new(&[1, 4, -2, 3], clauses.concat());
        let answer = check(
            &tables.prefix,
            &tables.clauses,
            steps,
            640,
            640,
            99,
            Rows::Kept,
        );
        let number = answer.map_or_else(|refusal| refusal.reason.number(), |_| 0);
        let proof = Proof {
            tables,
            steps,
            short_scratch: false,
            starts: 99,
        };
        super::drawn(&proof, number as usize)
    }

    /// Clause 8 is {4, 2, -2, 3}.
    const MERGE: [i32; 9] = [3, 1, 2, 1, 2, -2, 4, 3, 0];

    #[test]
    fn resolutions() {
        let behind = |step: &[i32]| drawn(&[&MERGE, step].concat());
        let [right, wrong] = [ANSWERS[1][7], ANSWERS[1][4]];
        let merge = ALLOWED[0];
        assert_eq!(drawn(&MERGE), [right, merge]);
        let step = [3, 8, 4, 3, 2, -2, 4, 0];
        assert_eq!(behind(&step), [right, merge, ALLOWED[2]]);
        let step = [3, 8, 6, 4, 2, -2, 3, 0];
        assert_eq!(behind(&step), [right, merge, ALLOWED[1]]);
        let step = [3, 8, 3, 4, 2, -2, 3, 0];
        assert_eq!(behind(&step), [right, merge, ALLOWED[3]]);
        let step = [3, 8, 5, 3, 2, -2, 4, 0];
        assert_eq!(behind(&step), [wrong, merge, WRONG[3]]);
        assert_eq!(drawn(&[1, 1, 2, 1, 0]), [ANSWERS[0][4], WRONG[5]]);
        let step = [3, 1, 7, 1, 2, 4, 3, -4, 0];
        assert_eq!(drawn(&step), [wrong, WRONG[2]]);
    }

    #[test]
    fn reductions() {
        // Clause 9 is {4, 2, -2}; 3 depends on 2.
        let with_pair = [&MERGE[..], &[3, 8, 4, 3, 2, -2, 4, 0]].concat();
        let behind = |step: &[i32]| {
            let mut kinds = drawn(&[&with_pair, step].concat());
            kinds.retain(|kind| ![ALLOWED[0], ALLOWED[2]].contains(kind));
            kinds
        };
        let [wrong, blocked, misstated, right] = [3, 5, 6, 7].map(|at| ANSWERS[1][at]);
        assert_eq!(behind(&[4, 9, 2, 4, 0]), [right, ALLOWED[5]]);
        assert_eq!(behind(&[4, 9, -2, 4, 0]), [right, ALLOWED[6]]);
        assert_eq!(behind(&[4, 9, -2, 4, 2, 0]), [misstated, WRONG[8]]);
        assert_eq!(behind(&[4, 9, -2, -2, 4, 0]), [misstated, WRONG[8]]);
        assert_eq!(behind(&[4, 9, -2, 4, 2, -2, 0]), [misstated]);
        assert_eq!(behind(&[4, 9, -2, 2, 0]), [misstated]);
        assert_eq!(behind(&[4, 3, -2, -4, 0]), [wrong, WRONG[6]]);
        assert_eq!(behind(&[4, 3, 4, 2, 0]), [wrong]);
        assert_eq!(behind(&[4, 8, 2, 4, 3, 0]), [blocked, WRONG[7]]);
        assert_eq!(behind(&[4, 5, 2, -3, 0]), [blocked]);
    }

    #[test]
    fn the_other_family() {
        for (steps, kind) in [
            (&[2, 3, 2, -4, 0, 4, 3, 2, -4, 0][..], 0),
            (&[4, 3, 2, -4, 0, 2, 3, 2, -4, 0], 1),
            (&[2, 3, 2, -4, 0, 3, 9, 9, 9, 9, 0], 0),
        ] {
            assert_eq!(drawn(steps), [ANSWERS[kind][1], OTHERS[kind]]);
        }
        for steps in [
            &[2, 3, 2, -4, 0, 4, 3, 2, -4][..],
            &[2, 3, 2, -4, 0, 5, 3, 2, -4, 0],
        ] {
            assert_eq!(drawn(steps), [ANSWERS[0][1]]);
        }
        assert!(drawn(&[]).is_empty());
    }
}
