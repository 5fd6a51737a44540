//! The check of tables: lengths and clause count, then whether the prefix is in threes, then its entries word by
//! word, then the clause words, each from the left.

use super::prefix::{Quantifier, ENTRY_WORDS};
use super::{
    Reason, Refusal, MAX_CLAUSES, MAX_CLAUSE_WORDS, MAX_PREFIX_WORDS, MAX_VARIABLE, ROW_BYTES,
};

#[derive(Clone, Copy, Debug, PartialEq, Eq)]
pub struct Counts {
    pub variables: usize,
    pub clauses: usize,
}

pub fn check_tables(prefix: &[i32], clauses: &[i32]) -> Result<Counts, Refusal> {
    if prefix.len() > MAX_PREFIX_WORDS || clauses.len() > MAX_CLAUSE_WORDS {
        return Err(Reason::Oversized.at(0));
    }
    let count = clauses.iter().filter(|&&word| word == 0).count();
    if count > MAX_CLAUSES {
        return Err(Reason::Oversized.at(0));
    }
    let mut seen = Seen::new();
    check_prefix(prefix, &mut seen)?;
    check_clauses(clauses, &mut seen)?;
    Ok(Counts {
        variables: prefix.len() / ENTRY_WORDS,
        clauses: count,
    })
}

/// Whole entries alone, and of each entry the variable, the quantifier and the block.
fn check_prefix(prefix: &[i32], seen: &mut Seen) -> Result<(), Refusal> {
    if !prefix.len().is_multiple_of(ENTRY_WORDS) {
        return Err(Reason::Unfinished.at(prefix.len()));
    }
    let mut last = None;
    let mut blocks = 0;
    for (index, entry) in prefix.chunks_exact(ENTRY_WORDS).enumerate() {
        let place = ENTRY_WORDS * index;
        let variable = usize::try_from(entry[0]).unwrap_or(0);
        if variable == 0 || variable > MAX_VARIABLE {
            return Err(Reason::OutOfRange.at(place));
        }
        if !seen.bind(variable) {
            return Err(Reason::BoundTwice.at(place));
        }
        let quantifier = Quantifier::of(entry[1]);
        if quantifier.is_none() {
            return Err(Reason::OutOfRange.at(place + 1));
        }
        blocks += i32::from(quantifier != last);
        last = quantifier;
        if entry[2] != blocks {
            return Err(Reason::BoundTwice.at(place + 2));
        }
    }
    Ok(())
}

fn check_clauses(clauses: &[i32], seen: &mut Seen) -> Result<(), Refusal> {
    for (place, &word) in clauses.iter().enumerate() {
        if word == 0 {
            seen.next_clause();
            continue;
        }
        let variable = word.unsigned_abs() as usize;
        if variable > MAX_VARIABLE {
            return Err(Reason::OutOfRange.at(place));
        }
        seen.meet(variable).map_err(|reason| reason.at(place))?;
    }
    if clauses.last().is_some_and(|&word| word != 0) {
        return Err(Reason::Unfinished.at(clauses.len()));
    }
    Ok(())
}

/// For each variable: 0 unbound, 1 bound, else the mark of the last clause that holds it.
pub struct Seen {
    last: [u32; ROW_BYTES],
    mark: u32,
}

impl Seen {
    pub fn new() -> Seen {
        Seen {
            last: [0; ROW_BYTES],
            mark: 2,
        }
    }

    /// False where the variable is bound already.
    pub fn bind(&mut self, variable: usize) -> bool {
        let fresh = self.last[variable] == 0;
        self.last[variable] = 1;
        fresh
    }

    /// Notes a variable of the current clause, which must be bound and new to the clause.
    pub fn meet(&mut self, variable: usize) -> Result<(), Reason> {
        if self.last[variable] == 0 {
            return Err(Reason::Unbound);
        }
        self.enter(variable)
    }

    /// Notes a variable of the current clause, bound or not, which must be new to the clause.
    pub fn enter(&mut self, variable: usize) -> Result<(), Reason> {
        if self.last[variable] == self.mark {
            return Err(Reason::Clash);
        }
        self.last[variable] = self.mark;
        Ok(())
    }

    pub fn next_clause(&mut self) {
        self.mark += 1;
    }
}

#[cfg(test)]
mod tests {
    use super::super::prefix::records;
    use super::*;

    fn refused(prefix: &[i32], clauses: &[i32]) -> (u32, usize) {
        let refusal = check_tables(prefix, clauses).unwrap_err();
        (refusal.reason.number(), refusal.place)
    }

    #[test]
    fn each_word_of_an_entry() {
        for variable in [0, -1, -1024, 1025, i32::MAX, i32::MIN] {
            assert_eq!(refused(&[variable, 0, 0], &[5]), (5, 0), "{variable}");
            let second = [1, 1, 1, variable, 3, 9];
            assert_eq!(refused(&second, &[]), (5, 3), "{variable}");
        }
        assert_eq!(refused(&[1, 1, 1, 1, 3, 9], &[]), (6, 3));
        assert_eq!(refused(&[2, 1, 1, 1, 1, 1, 2, 2, 2, 0, 0, 0], &[]), (6, 6));
        for quantifier in [0, 3, -1, -2, i32::MAX, i32::MIN] {
            let second = [1, 1, 1, 2, quantifier, 0, 2, 1, 1];
            assert_eq!(refused(&second, &[]), (5, 4), "{quantifier}");
        }
        for block in [0, 1, 2, 4, -3, i32::MAX, i32::MIN] {
            let fourth = [3, 1, 1, 1, 2, 2, 2, 2, 2, 4, 1, block, 9, 9, 9];
            assert_eq!(refused(&fourth, &[0, 1]), (6, 11), "{block}");
        }
        for first in [[1, 1, 0], [1, 2, 0], [1, 1, 2], [1, 2, 2], [1, 1, -1]] {
            assert_eq!(refused(&first, &[]), (6, 2));
        }
    }

    /// The same block while the quantifier stays, one more where it changes.
    #[test]
    fn blocks() {
        let mut words = records(&[5, -3, -4, 1, -2, 7]);
        assert!(check_tables(&words, &[]).is_ok());
        for (place, due) in [(2, 1), (5, 2), (8, 2), (11, 3), (14, 4), (17, 5)] {
            assert_eq!(words[place], due);
            for wrong in [due - 1, due + 1] {
                words[place] = wrong;
                assert_eq!(refused(&words, &[]), (6, place));
            }
            words[place] = due;
        }
        words[7] = 1;
        assert_eq!(refused(&words, &[]), (6, 8));
        words[8] = 3;
        assert!(check_tables(&words, &[]).is_ok());
    }

    #[test]
    fn whole_entries() {
        assert_eq!(refused(&[1], &[5]), (9, 1));
        assert_eq!(refused(&[0, 0], &[]), (9, 2));
        assert_eq!(refused(&[1, 1, 1, 1], &[]), (9, 4));
        assert_eq!(refused(&[1, 1, 1, 2, 1], &[0]), (9, 5));
    }

    #[test]
    fn each_refusal_at_its_word() {
        let refused = |short: &[i32], clauses: &[i32]| refused(&records(short), clauses);
        assert_eq!(refused(&[1, 1, 0], &[]), (6, 3));
        assert_eq!(refused(&[1, -1], &[]), (6, 3));
        assert_eq!(refused(&[1], &[1, 1, 2000, 0]), (8, 1));
        assert_eq!(refused(&[1, 2], &[1, 2, -2, -1, 0]), (8, 2));
        assert_eq!(refused(&[1], &[1, 0, i32::MIN]), (5, 2));
        assert_eq!(refused(&[1], &[1, 0, -1025]), (5, 2));
        assert_eq!(refused(&[1], &[1, 0, 2]), (7, 2));
        assert_eq!(refused(&[1], &[1, 0, -1]), (9, 3));
    }

    #[test]
    fn bounds() {
        let short: Vec<i32> = (1..=1025).collect();
        let prefix = records(&short);
        let counts = |variables, clauses| Ok(Counts { variables, clauses });
        assert_eq!(check_tables(&prefix[..3072], &[]), counts(1024, 0));
        for length in [3073, 3074, 3075] {
            assert_eq!(refused(&prefix[..length], &[]), (2, 0));
        }
        for length in [3070, 3071] {
            assert_eq!(refused(&prefix[..length], &[1025]), (9, length));
        }
        assert_eq!(check_tables(&[], &[0; 8192]), counts(0, 8192));
        assert_eq!(refused(&[0], &[0; 8193]), (2, 0));
        assert_eq!(refused(&prefix[..3], &[1; 65_537]), (2, 0));
        assert_eq!(refused(&prefix[..3], &[1; 65_536]), (8, 1));
    }
}
