//! What inputs draw about the end of a proof, and must: what stands behind an empty clause, an empty input clause with steps
//! and without, and what is refused ahead of a step behind an empty clause.

use crate::generate::proofs::{numbered, step_places};
use crate::generate::Tables;
use crate::reference::steps::{is_right, Family};
use crate::reference::tables::check_tables;

/// The step that 23 refuses, and acceptance without steps.
pub const ENDS: [&str; 7] = [
    "23, a right step",
    "23, a wrong step",
    "23, a broken step",
    "23, a lone word",
    "23, an empty input clause",
    "23, no start for the step",
    "accepted, no steps",
];

/// What is refused ahead of words behind an empty clause. The entry that reads its tables and step words draws the first
/// two alone.
pub const AHEAD: [&str; 4] = [
    "3 ahead of 23, scratch",
    "3 ahead of 23, an input's start",
    "2 ahead of 23, step words",
    "tables ahead of 23",
];

/// A proof on tables and step words, whether its scratch was short, and how many starts were lent.
pub struct Proof<'a> {
    pub tables: &'a Tables,
    pub steps: &'a [i32],
    pub short_scratch: bool,
    pub starts: usize,
}

impl Proof<'_> {
    /// What the proof draws, answered with this number.
    pub fn drawn(&self, number: usize) -> Vec<&'static str> {
        let Some(place) = self.behind() else {
            let without = number == 0 && self.steps.is_empty();
            return Vec::from_iter(without.then_some(ENDS[6]));
        };
        let Tables { prefix, clauses } = self.tables;
        match number {
            23 => self.refused(place),
            _ if check_tables(prefix, clauses).is_err() => vec![AHEAD[3]],
            2 => vec![AHEAD[2]],
            3 if self.short_scratch => vec![AHEAD[0]],
            3 if self.starts < self.tables.count() => vec![AHEAD[1]],
            _ => vec![],
        }
    }

    /// Where the words behind the first empty clause begin, if there are any.
    fn behind(&self) -> Option<usize> {
        let clauses = numbered(self.tables, self.steps);
        let empty = clauses.iter().position(|clause| clause.is_empty())?;
        let derived = (empty + 1).saturating_sub(self.tables.count());
        step_places(self.steps).get(derived).copied()
    }

    /// What 23 refuses at this word.
    fn refused(&self, place: usize) -> Vec<&'static str> {
        let Tables { prefix, clauses } = self.tables;
        let (before, words) = self.steps.split_at(place);
        let known = numbered(self.tables, before);
        let holds = [
            before.is_empty().then_some(ENDS[4]),
            (self.starts <= known.len()).then_some(ENDS[5]),
        ];
        let family = Family::of_steps(before);
        let step = match is_right(prefix, clauses, known, words, family) {
            Some(true) => 0,
            Some(false) => 1,
            None if words.len() > 1 => 2,
            None => 3,
        };
        [Some(ENDS[step])]
            .into_iter()
            .chain(holds)
            .flatten()
            .collect()
    }
}

#[cfg(test)]
mod tests {
    use super::*;

    /// What a proof of {1}, {-1}, {2} and of some more clauses draws.
    fn drawn(
        more: &[i32],
        steps: &[i32],
        (short_scratch, starts): (bool, usize),
        number: usize,
    ) -> Vec<&'static str> {
        let clauses = [&[1, 0, -1, 0, 2, 0], more].concat();
        let tables = &Tables::new(&[1, -2], clauses);
        let proof = Proof {
            tables,
            steps,
            short_scratch,
            starts,
        };
        proof.drawn(number)
    }

    #[test]
    fn steps_behind_an_empty_clause() {
        for (behind, kind) in [
            (&[2, 3, 2, 0][..], 0),
            (&[2, 3, 2, 0, 9], 0),
            (&[2, 4, 2, 0], 1),
            (&[1, 1, 2, 1, 2, 0], 1),
            (&[2, 3, 2], 2),
            (&[5, 3, 2, 0], 2),
            (&[0], 3),
            (&[2], 3),
        ] {
            let steps = [&[1, 1, 2, 1, 0], behind].concat();
            assert_eq!(drawn(&[], &steps, (false, 5), 23), [ENDS[kind]]);
            assert_eq!(drawn(&[], &steps, (false, 4), 23), [ENDS[kind], ENDS[5]]);
            let with_input = [ENDS[kind], ENDS[4]];
            assert_eq!(drawn(&[0], behind, (false, 5), 23), with_input);
        }
        let right = [2, 3, 2, 0];
        assert_eq!(drawn(&[0], &[], (false, 4), 0), [ENDS[6]]);
        assert!(drawn(&[], &right, (false, 4), 0).is_empty());
        assert!(drawn(&[], &[], (false, 4), 19).is_empty());
    }

    #[test]
    fn ahead_of_a_step_behind_one() {
        let right = [2, 3, 2, 0];
        let both = [right, right].concat();
        for (more, steps) in [(&[0][..], &right[..]), (&[], &both)] {
            let inputs = 3 + more.len();
            assert_eq!(drawn(more, steps, (true, 0), 3), [AHEAD[0]]);
            assert_eq!(drawn(more, steps, (false, inputs - 1), 3), [AHEAD[1]]);
            assert!(drawn(more, steps, (false, inputs), 3).is_empty());
            assert_eq!(drawn(more, steps, (true, 0), 2), [AHEAD[2]]);
            assert!(drawn(more, steps, (false, 9), 15).is_empty());
            let refused = [more, &[3, 0]].concat();
            assert_eq!(drawn(&refused, steps, (true, 0), 7), [AHEAD[3]]);
        }
        assert!(drawn(&[], &right, (true, 0), 3).is_empty());
        assert!(drawn(&[3, 0], &right, (true, 0), 7).is_empty());
    }
}
