//! Dependency rows. A search along resolution paths from a literal of the universal variable visits
//! each clause at most twice: the first entry reaches every literal but itself, a second one that too.

use super::prefix::{entries, Entry};
use super::tables::{check_tables, Counts};
use super::{literal_index, Reason, Refusal, LITERALS, ROW_BYTES};

pub type Row = [u8; ROW_BYTES];

/// The row of a universal variable, for buffers of so many bytes, where so many are asked for as scratch.
pub fn row(
    prefix: &[i32],
    clauses: &[i32],
    variable: i32,
    row_room: usize,
    scratch_room: usize,
    scratch_asked: usize,
) -> Result<Row, Refusal> {
    let counts = check_tables(prefix, clauses)?;
    let entries = with_universal(prefix, variable)?;
    if row_room < ROW_BYTES || scratch_room < scratch_asked {
        return Err(Reason::NoRoom.at(0));
    }
    Ok(Occurrences::of(clauses, counts).row(&entries, variable))
}

/// The entries of an admitted prefix, one of which must be a universal of this number.
fn with_universal(prefix: &[i32], variable: i32) -> Result<Vec<Entry>, Refusal> {
    let entries = entries(prefix);
    let asked = |entry: &Entry| entry.is_universal() && entry.variable == variable;
    if entries.iter().any(asked) {
        Ok(entries)
    } else {
        Err(Reason::NotUniversal.at(0))
    }
}

/// The same row by passes over the clause words, in turn from the first and from the last, until nothing
/// changes. It needs no occurrences and is the faster way to a single row of a dense formula; a long chain
/// of clauses in no order can cost it a pass for every few links.
pub fn row_by_passes(prefix: &[i32], clauses: &[i32], variable: i32) -> Result<Row, Refusal> {
    check_tables(prefix, clauses)?;
    let entries = with_universal(prefix, variable)?;
    Ok(made_by_passes(&entries, clauses, variable))
}

/// The row of a universal of these entries, by passes over clauses that were checked.
pub fn made_by_passes(entries: &[Entry], clauses: &[i32], variable: i32) -> Row {
    let scope = Scope::of(entries, variable);
    scope.row(variable, |start| {
        let (reached, _) = reached_by_passes(clauses, start, &scope);
        reached
    })
}

/// How many passes the longer of the two searches takes, the last of which changes nothing.
pub fn passes(prefix: &[i32], clauses: &[i32], variable: i32) -> usize {
    let scope = Scope::of(&entries(prefix), variable);
    let passes = |start| reached_by_passes(clauses, start, &scope).1;
    passes(variable).max(passes(-variable))
}

/// The existential variables right of a universal one.
struct Scope {
    variables: Vec<i32>,
    holds: [bool; ROW_BYTES],
}

impl Scope {
    fn of(entries: &[Entry], variable: i32) -> Scope {
        let right = entries
            .iter()
            .skip_while(|entry| entry.variable != variable);
        let existentials = right.filter(|entry| !entry.is_universal());
        let variables: Vec<i32> = existentials.map(|entry| entry.variable).collect();
        let mut holds = [false; ROW_BYTES];
        for &variable in &variables {
            holds[variable as usize] = true;
        }
        Scope { variables, holds }
    }

    fn holds(&self, literal: i32) -> bool {
        self.holds[literal.unsigned_abs() as usize]
    }

    /// The row, from the literals of the scope that paths reach from each literal of the variable.
    fn row(&self, variable: i32, reached: impl Fn(i32) -> [bool; LITERALS]) -> Row {
        let (positive, negative) = (reached(variable), reached(-variable));
        let mut row = [0; ROW_BYTES];
        for &word in &self.variables {
            let (yes, no) = (literal_index(word), literal_index(-word));
            let straight = positive[yes] && negative[no];
            let crossed = positive[no] && negative[yes];
            row[word as usize] = u8::from(straight || crossed);
        }
        row
    }
}

/// The literals reached, and the passes it took.
fn reached_by_passes(clauses: &[i32], start: i32, scope: &Scope) -> ([bool; LITERALS], usize) {
    let mut search = Search::from(start, scope);
    let mut before = usize::MAX;
    let mut passes = 0;
    while search.left > 0 && search.left < before {
        before = search.left;
        let in_order = clauses.split(|&word| word == 0);
        match passes % 2 {
            0 => in_order.for_each(|clause| search.visit(clause, scope)),
            _ => in_order
                .rev()
                .for_each(|clause| search.visit(clause, scope)),
        }
        passes += 1;
    }
    (search.reached, passes)
}

/// A search by passes: what it reached, the literals from which paths go on, and how many of the scope's
/// literals it has not reached.
struct Search {
    reached: [bool; LITERALS],
    entries: [bool; LITERALS],
    left: usize,
}

impl Search {
    fn from(start: i32, scope: &Scope) -> Search {
        let mut entries = [false; LITERALS];
        entries[literal_index(start)] = true;
        Search {
            reached: [false; LITERALS],
            entries,
            left: 2 * scope.variables.len(),
        }
    }

    /// Reaches the literals of a clause that have an entry beside them.
    fn visit(&mut self, clause: &[i32], scope: &Scope) {
        let is_entry = |literal: &&i32| self.entries[literal_index(**literal)];
        let mut entered = clause.iter().filter(is_entry);
        let Some(&first) = entered.next() else {
            return;
        };
        let several = entered.next().is_some();
        for &literal in clause {
            let index = literal_index(literal);
            if (several || literal != first) && scope.holds(literal) && !self.reached[index] {
                self.reached[index] = true;
                self.entries[literal_index(-literal)] = true;
                self.left -= 1;
            }
        }
    }
}

/// Where each clause begins, and for each literal the clauses that hold it.
pub struct Occurrences<'a> {
    clauses: &'a [i32],
    starts: Vec<u32>,
    /// The clauses of literal index k are `holders[from[k]..from[k + 1]]`.
    from: Vec<u32>,
    holders: Vec<u32>,
}

impl<'a> Occurrences<'a> {
    /// The occurrences in admitted clause words.
    pub fn of(clauses: &'a [i32], counts: Counts) -> Occurrences<'a> {
        let mut from = vec![0; LITERALS + 2];
        for &word in clauses {
            from[literal_index(word) + 2] += 1;
        }
        for index in 2..from.len() {
            from[index] += from[index - 1];
        }
        let mut starts = Vec::with_capacity(counts.clauses + 1);
        starts.push(0);
        let mut holders = vec![0; clauses.len()];
        for (place, &word) in clauses.iter().enumerate() {
            let next = &mut from[literal_index(word) + 1];
            holders[*next as usize] = starts.len() as u32 - 1;
            *next += 1;
            if word == 0 {
                starts.push(place as u32 + 1);
            }
        }
        Occurrences {
            clauses,
            starts,
            from,
            holders,
        }
    }

    /// The row of a universal variable of the prefix.
    pub fn row(&self, entries: &[Entry], variable: i32) -> Row {
        let scope = Scope::of(entries, variable);
        scope.row(variable, |start| self.reached(start, &scope))
    }

    /// The literals of the scope at which a resolution path from this one ends.
    fn reached(&self, start: i32, scope: &Scope) -> [bool; LITERALS] {
        let mut reached = [false; LITERALS];
        let mut left = 2 * scope.variables.len();
        let mut first_entry = vec![0; self.starts.len()];
        let mut entries = vec![start];
        while let Some(entry) = entries.pop() {
            if left == 0 {
                break;
            }
            let index = literal_index(entry);
            for &clause in &self.holders[self.from[index] as usize..self.from[index + 1] as usize] {
                let clause = clause as usize;
                let mut reach = |literal: i32| {
                    let reached = &mut reached[literal_index(literal)];
                    if scope.holds(literal) && !*reached {
                        *reached = true;
                        entries.push(-literal);
                        left -= 1;
                    }
                };
                match first_entry[clause] {
                    0 => {
                        first_entry[clause] = entry;
                        let words = self.starts[clause] as usize..self.starts[clause + 1] as usize;
                        // The closing 0 is in no scope.
                        for &literal in &self.clauses[words] {
                            if literal != entry {
                                reach(literal);
                            }
                        }
                    }
                    FINISHED => {}
                    first => {
                        first_entry[clause] = FINISHED;
                        reach(first);
                    }
                }
            }
        }
        reached
    }
}

/// Marks a clause entered twice; no literal of an admitted table.
const FINISHED: i32 = i32::MAX;

#[cfg(test)]
mod tests {
    use super::super::prefix::records;
    use super::*;
    use crate::generate::{Random, Shape};

    /// The definition itself: pairs of literals joined by a path, grown until nothing is added.
    fn joined(clauses: &[i32], start: i32, passable: &[i32]) -> Vec<i32> {
        let mut ends: Vec<i32> = Vec::new();
        loop {
            let before = ends.len();
            let mut entries = vec![start];
            entries.extend(
                ends.iter()
                    .filter(|l| passable.contains(&l.abs()))
                    .map(|l| -l),
            );
            for clause in clauses.split(|&word| word == 0) {
                for entry in &entries {
                    for literal in clause {
                        let apart = literal.abs() != entry.abs();
                        if clause.contains(entry) && apart && !ends.contains(literal) {
                            ends.push(*literal);
                        }
                    }
                }
            }
            if ends.len() == before {
                return ends;
            }
        }
    }

    #[test]
    fn rows_agree_with_the_definition() {
        let mut random = Random::new(7);
        let mut dependents = 0;
        for _ in 0..3000 {
            let mut shape = Shape::small(&mut random);
            if random.one_in(2) {
                shape = Shape::tight(&mut random);
            }
            let tables = shape.tables(&mut random);
            let (prefix, clauses) = (&tables.prefix, &tables.clauses);
            for place in (0..prefix.len()).step_by(3) {
                if prefix[place + 1] == 1 {
                    continue;
                }
                let right = prefix[place + 3..].chunks(3);
                let right = right.filter(|words| words[1] == 1);
                let right: Vec<i32> = right.map(|words| words[0]).collect();
                let universal = prefix[place];
                let positive = joined(clauses, universal, &right);
                let negative = joined(clauses, -universal, &right);
                let row = row(prefix, clauses, universal, 1025, 8200, 8200).unwrap();
                assert_eq!(row_by_passes(prefix, clauses, universal), Ok(row));
                for variable in 0..1025 {
                    let both = |sign: i32| {
                        positive.contains(&(sign * variable))
                            && negative.contains(&(-sign * variable))
                    };
                    let depends = right.contains(&variable) && (both(1) || both(-1));
                    dependents += usize::from(depends);
                    assert_eq!(row[variable as usize], u8::from(depends), "{tables:?}");
                }
            }
        }
        assert!(dependents > 1000, "{dependents}");
    }

    #[test]
    fn refusals_in_order() {
        for asked in [8200, 640] {
            let refused = |clauses: &[i32], variable, row_room, scratch_room| {
                let answer = row(
                    &records(&[1, -2]),
                    clauses,
                    variable,
                    row_room,
                    scratch_room,
                    asked,
                );
                answer.map_err(|r| (r.reason.number(), r.place))
            };
            for scratch in [0, 127, 128, 639, asked - 1, asked] {
                assert_eq!(refused(&[2, 3], 1, 0, scratch), Err((7, 1)));
                for variable in [0, 1, -2, 3, 1025, i32::MAX, i32::MIN] {
                    assert_eq!(refused(&[], variable, 0, scratch), Err((20, 0)));
                }
                assert_eq!(refused(&[], 2, 1024, scratch), Err((3, 0)));
                assert_eq!(refused(&[], 2, 1025, scratch).is_ok(), scratch == asked);
            }
            assert_eq!(refused(&[], 2, 1025, asked - 1), Err((3, 0)));
            assert!(refused(&[], 2, 1025, asked + 1).is_ok());
        }
    }

    /// How much scratch is asked for changes nothing but which scratch is short.
    #[test]
    fn both_sizes_have_the_same_row() {
        let clauses = [1, 2, 0, -1, 2, 0, -2, 3, 0, -2, -3, 0];
        let made = |scratch, asked| row(&records(&[-1, 2, 3]), &clauses, 1, 1025, scratch, asked);
        let whole = made(8200, 8200).unwrap();
        assert_eq!(whole.iter().filter(|&&byte| byte == 1).count(), 2);
        for (scratch, asked) in [
            (640, 640),
            (641, 640),
            (8199, 640),
            (8200, 640),
            (8201, 8200),
        ] {
            assert_eq!(made(scratch, asked), Ok(whole));
        }
        assert_eq!(made(8199, 8200), Err(Reason::NoRoom.at(0)));
        assert_eq!(made(639, 640), Err(Reason::NoRoom.at(0)));
    }
}
