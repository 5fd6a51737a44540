//! The game of a small formula, played in full: every position is settled from the two after it, and a
//! position with nothing left to set from the clauses.

use super::prefix::{entries, places, Entry, Quantifier};
use super::tables::check_tables;
use super::{Reason, Refusal, MAX_PLAYED, ROW_BYTES};

/// Whether the formula is true.
pub fn evaluate(prefix: &[i32], clauses: &[i32]) -> Result<bool, Refusal> {
    let mut game = Game {
        entries: played(prefix, clauses)?,
        clauses: Vec::new(),
    };
    let depth_of = places(&game.entries);
    let mut masks = Masks::default();
    for &word in clauses {
        let bit = 1 << depth_of[word.unsigned_abs() as usize];
        match word {
            0 => game.clauses.push(std::mem::take(&mut masks)),
            1.. => masks.positive |= bit,
            _ => masks.negative |= bit,
        }
    }
    Ok(game.holds(0, 0))
}

/// The entries of tables that are played in full.
fn played(prefix: &[i32], clauses: &[i32]) -> Result<Vec<Entry>, Refusal> {
    if check_tables(prefix, clauses)?.variables > MAX_PLAYED {
        return Err(Reason::Oversized.at(0));
    }
    Ok(entries(prefix))
}

/// A clause as sets of entries, one bit each.
#[derive(Default)]
struct Masks {
    positive: u32,
    negative: u32,
}

struct Game {
    entries: Vec<Entry>,
    clauses: Vec<Masks>,
}

impl Game {
    /// Whether the position is true, `values` having the values of the entries below `depth`.
    fn holds(&self, depth: usize, values: u32) -> bool {
        let Some(entry) = self.entries.get(depth) else {
            return self
                .clauses
                .iter()
                .all(|clause| values & clause.positive | !values & clause.negative != 0);
        };
        let after = |bit: u32| self.holds(depth + 1, values | bit << depth);
        match entry.quantifier {
            Quantifier::Existential => after(0) || after(1),
            Quantifier::Universal => after(0) && after(1),
        }
    }
}

/// The same answer from the clause words themselves, literal by literal: what the masks are worth.
pub fn evaluate_by_words(prefix: &[i32], clauses: &[i32]) -> Result<bool, Refusal> {
    let entries = played(prefix, clauses)?;
    Ok(holds_by_words(&entries, clauses, &mut [false; ROW_BYTES]))
}

fn holds_by_words(left: &[Entry], clauses: &[i32], values: &mut [bool; ROW_BYTES]) -> bool {
    let Some((entry, rest)) = left.split_first() else {
        // Without leaving a clause early: the unforeseen branch would cost more than the words.
        let mut satisfied = false;
        for &word in clauses {
            if word != 0 {
                satisfied |= values[word.unsigned_abs() as usize] == (word > 0);
            } else if satisfied {
                satisfied = false;
            } else {
                return false;
            }
        }
        return true;
    };
    let variable = entry.variable as usize;
    values[variable] = false;
    let first = holds_by_words(rest, clauses, values);
    if first != entry.is_universal() {
        return first;
    }
    values[variable] = true;
    holds_by_words(rest, clauses, values)
}

#[cfg(test)]
mod tests {
    use super::super::prefix::records;
    use super::*;
    use crate::generate::{Random, Shape};

    fn evaluate(short: &[i32], clauses: &[i32]) -> Result<bool, Refusal> {
        super::evaluate(&records(short), clauses)
    }

    #[test]
    fn small_games() {
        assert_eq!(evaluate(&[], &[]), Ok(true));
        assert_eq!(evaluate(&[], &[0]), Ok(false));
        assert_eq!(evaluate(&[1], &[1, 0]), Ok(true));
        assert_eq!(evaluate(&[-1], &[1, 0]), Ok(false));
        let equal = [1, -2, 0, -1, 2, 0];
        assert_eq!(evaluate(&[-1, 2], &equal), Ok(true));
        assert_eq!(evaluate(&[2, -1], &equal), Ok(false));
        assert_eq!(evaluate(&[-7, 3], &[]), Ok(true));
    }

    #[test]
    fn refusals_in_order() {
        let prefix: Vec<i32> = (1..=17).collect();
        assert_eq!(evaluate(&prefix[..16], &[16, 0]), Ok(true));
        assert_eq!(evaluate(&prefix, &[1, 0]), Err(Reason::Oversized.at(0)));
        assert_eq!(evaluate(&prefix, &[18, 0]), Err(Reason::Unbound.at(0)));
    }

    #[test]
    fn both_ways_agree() {
        let mut random = Random::new(5);
        let mut lost = 0;
        for _ in 0..4000 {
            let tables = Shape::tight(&mut random).tables(&mut random);
            let (prefix, clauses) = (&tables.prefix, &tables.clauses);
            let answer = super::evaluate(prefix, clauses);
            assert_eq!(answer, evaluate_by_words(prefix, clauses));
            lost += usize::from(answer == Ok(false));
        }
        assert!((500..3500).contains(&lost), "{lost}");
    }
}
