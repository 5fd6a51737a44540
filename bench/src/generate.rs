//! Seeded inputs for every entry, short and long, valid and damaged. Here: the generator of numbers,
//! formulas drawn by shape, and what an input is. The files below draw each kind of input.

mod blocked;
pub mod chains;
pub mod derive;
mod edges;
pub mod ends;
mod files;
mod lines;
pub mod long;
pub mod pairs;
mod prefixes;
pub mod proofs;
pub mod scratch;
mod tables;
mod texts;

use std::fmt;

use crate::reference::prefix::{entries, records, Entry, ENTRY_WORDS};
use crate::reference::program::Room;
use crate::reference::{
    MAX_CLAUSES, MAX_CLAUSE_WORDS, MAX_VARIABLE, SCRATCH_BYTES, SMALL_SCRATCH_BYTES,
};

pub use edges::{edges, empty};

/// Marsaglia's xorshift, multiplied at the end.
pub struct Random(u64);

impl Random {
    pub fn new(seed: u64) -> Random {
        Random(seed.wrapping_mul(0x9e37_79b9_7f4a_7c15) | 1)
    }

    pub fn next(&mut self) -> u64 {
        self.0 ^= self.0 >> 12;
        self.0 ^= self.0 << 25;
        self.0 ^= self.0 >> 27;
        self.0.wrapping_mul(0x2545_f491_4f6c_dd1d)
    }

    pub fn below(&mut self, bound: usize) -> usize {
        (((self.next() >> 32) * bound as u64) >> 32) as usize
    }

    /// A number from `low` to `high`, both included.
    pub fn between(&mut self, low: usize, high: usize) -> usize {
        low + self.below(high - low + 1)
    }

    pub fn one_in(&mut self, count: usize) -> bool {
        self.below(count) == 0
    }

    pub fn pick<T: Clone>(&mut self, choices: &[T]) -> T {
        choices[self.below(choices.len())].clone()
    }

    pub fn shuffle<T>(&mut self, items: &mut [T]) {
        for place in (1..items.len()).rev() {
            items.swap(place, self.below(place + 1));
        }
    }
}

#[derive(Clone, Debug, PartialEq, Eq)]
pub struct Tables {
    pub prefix: Vec<i32>,
    pub clauses: Vec<i32>,
}

impl Tables {
    /// Tables with the prefix given in short: v existential, -v universal.
    pub fn new(short: &[i32], clauses: Vec<i32>) -> Tables {
        Tables {
            prefix: records(short),
            clauses,
        }
    }

    /// The entries of the prefix.
    pub fn entries(&self) -> Vec<Entry> {
        entries(&self.prefix)
    }

    /// Makes the variables at those places universal for which `universal` says so, and the others existential.
    pub fn quantify(&mut self, universal: impl Fn(usize) -> bool) {
        let sign = |place| if universal(place) { -1 } else { 1 };
        let entries = self.entries().into_iter().enumerate();
        let short = entries.map(|(place, entry)| sign(place) * entry.variable);
        self.prefix = records(&short.collect::<Vec<i32>>());
    }

    /// Gives the variables of admitted tables other numbers: those about powers of two first, in any order.
    pub fn renumber(&mut self, random: &mut Random) {
        let mut numbers: Vec<i32> = (1..=MAX_VARIABLE as i32).collect();
        random.shuffle(&mut numbers);
        let about_a_power = |n: &i32| (-1..=1).any(|by| (n + by) as u32 & (n + by - 1) as u32 == 0);
        numbers.sort_by_key(|n| !about_a_power(n));
        let mut new = [0; MAX_VARIABLE + 1];
        for (words, number) in self.prefix.chunks_exact_mut(ENTRY_WORDS).zip(numbers) {
            new[words[0] as usize] = number;
            words[0] = number;
        }
        for word in &mut self.clauses {
            *word = word.signum() * new[word.unsigned_abs() as usize];
        }
    }

    /// The numbers of the universal variables, in prefix order.
    pub fn universals(&self) -> Vec<i32> {
        let universals = self.entries().into_iter().filter(Entry::is_universal);
        universals.map(|entry| entry.variable).collect()
    }

    /// The number of closed clauses.
    pub fn count(&self) -> usize {
        self.clauses.iter().filter(|&&word| word == 0).count()
    }
}

/// What a random formula looks like.
#[derive(Clone, Debug)]
pub struct Shape {
    pub variables: usize,
    /// The largest variable number, at least the number of variables.
    pub largest: usize,
    /// How many of 8 variables are universal.
    pub universal: usize,
    pub clauses: usize,
    pub shortest: usize,
    pub longest: usize,
}

impl Shape {
    pub fn small(random: &mut Random) -> Shape {
        let variables = random.below(9);
        Shape {
            variables,
            largest: random.pick(&[variables, variables + 3, MAX_VARIABLE]),
            universal: random.below(9),
            clauses: random.below(14),
            shortest: random.pick(&[0, 1, 1, 2]),
            longest: random.between(2, 5),
        }
    }

    /// Few variables and many short clauses, so that games are lost and proofs end.
    pub fn tight(random: &mut Random) -> Shape {
        let variables = random.between(2, 8);
        Shape {
            variables,
            largest: variables,
            universal: random.between(1, 5),
            clauses: random.between(2, 4 * variables),
            shortest: random.pick(&[1, 2, 2]),
            longest: random.between(2, 4),
        }
    }

    pub fn middling(random: &mut Random) -> Shape {
        let variables = random.between(10, 120);
        Shape {
            variables,
            largest: random.pick(&[variables, MAX_VARIABLE]),
            universal: random.between(1, 7),
            clauses: random.between(5, 300),
            shortest: 1,
            longest: random.between(3, 12),
        }
    }

    pub fn large(random: &mut Random) -> Shape {
        let longest = random.between(4, 60);
        Shape {
            variables: MAX_VARIABLE,
            largest: MAX_VARIABLE,
            universal: random.between(1, 7),
            clauses: MAX_CLAUSES.min(MAX_CLAUSE_WORDS / (longest + 1)),
            shortest: 1,
            longest,
        }
    }

    pub fn any(random: &mut Random) -> Shape {
        match random.below(1000) {
            0 => Shape::large(random),
            1..=40 => Shape::middling(random),
            41..=400 => Shape::tight(random),
            _ => Shape::small(random),
        }
    }

    pub fn tables(&self, random: &mut Random) -> Tables {
        let mut numbers: Vec<i32> = (1..=self.largest as i32).collect();
        random.shuffle(&mut numbers);
        numbers.truncate(self.variables);
        if random.one_in(3) {
            numbers.sort();
        }
        let short: Vec<i32> = numbers
            .iter()
            .map(|&v| {
                if random.below(8) < self.universal {
                    -v
                } else {
                    v
                }
            })
            .collect();
        let mut clauses = Vec::new();
        for _ in 0..self.clauses {
            let length = random.between(self.shortest, self.longest);
            push_clause(random, &mut numbers, length, &mut clauses);
        }
        Tables::new(&short, clauses)
    }
}

/// Appends a clause of distinct variables among these, shuffling some of them to the front.
fn push_clause(random: &mut Random, numbers: &mut [i32], length: usize, clauses: &mut Vec<i32>) {
    for place in 0..length.min(numbers.len()) {
        numbers.swap(place, random.between(place, numbers.len() - 1));
        let sign = random.pick(&[1, -1]);
        clauses.push(sign * numbers[place]);
    }
    clauses.push(0);
}

/// Rows and the check of proofs have two entries each, which differ in the scratch that they ask for.
#[derive(Clone, Copy, Debug, PartialEq, Eq)]
pub enum Size {
    Large,
    Small,
}

impl Size {
    /// The bytes of scratch asked for.
    pub fn scratch(self) -> usize {
        match self {
            Size::Large => SCRATCH_BYTES,
            Size::Small => SMALL_SCRATCH_BYTES,
        }
    }
}

/// One input of one entry, with the lengths of the buffers lent.
#[derive(Clone, PartialEq, Eq)]
pub enum Case {
    CheckTables {
        tables: Tables,
    },
    Read {
        text: Vec<u8>,
        prefix_room: usize,
        clause_room: usize,
    },
    Write {
        tables: Tables,
        room: usize,
    },
    Row {
        size: Size,
        tables: Tables,
        variable: i32,
        row_room: usize,
        scratch_room: usize,
    },
    ReadProof {
        file: Vec<u8>,
        clause_count: u32,
        room: usize,
    },
    Check {
        size: Size,
        tables: Tables,
        steps: Vec<i32>,
        scratch_room: usize,
        starts_room: usize,
    },
    Evaluate {
        tables: Tables,
    },
    CheckLine {
        formula: Vec<u8>,
        proof: Vec<u8>,
        room: Room,
        line_room: usize,
    },
    DependencyLines {
        formula: Vec<u8>,
        room: Room,
        text_room: usize,
    },
}

impl Case {
    /// The same input in this size, where the entry has two.
    pub fn in_size(&self, wanted: Size) -> Option<Case> {
        let mut case = self.clone();
        match &mut case {
            Case::Row { size, .. } | Case::Check { size, .. } => *size = wanted,
            _ => return None,
        }
        Some(case)
    }

    /// The size and the length of the scratch, where the entry has two sizes.
    pub fn scratch(&self) -> Option<(Size, usize)> {
        match *self {
            Case::Row {
                size, scratch_room, ..
            }
            | Case::Check {
                size, scratch_room, ..
            } => Some((size, scratch_room)),
            _ => None,
        }
    }
}

impl fmt::Display for Case {
    fn fmt(&self, f: &mut fmt::Formatter) -> fmt::Result {
        match self {
            Case::CheckTables { tables } | Case::Evaluate { tables } => write!(f, "{tables}"),
            Case::Read {
                text,
                prefix_room,
                clause_room,
            } => {
                writeln!(f, "text b\"{}\"", text.escape_ascii())?;
                write!(f, "room for {prefix_room} and {clause_room} words")
            }
            Case::Write { tables, room } => write!(f, "{tables}\nroom for {room} bytes"),
            Case::Row {
                tables,
                variable,
                row_room,
                scratch_room,
                ..
            } => {
                writeln!(f, "{tables}\nvariable {variable}")?;
                write!(f, "row of {row_room} bytes, scratch of {scratch_room}")
            }
            Case::ReadProof {
                file,
                clause_count,
                room,
            } => {
                writeln!(f, "file {file:?}")?;
                write!(f, "{clause_count} clauses, room for {room} words")
            }
            Case::Check {
                tables,
                steps,
                scratch_room,
                starts_room,
                ..
            } => {
                writeln!(f, "{tables}\nsteps {steps:?}")?;
                write!(f, "scratch of {scratch_room} bytes, {starts_room} starts")
            }
            Case::CheckLine {
                formula,
                proof,
                room,
                line_room,
            } => {
                writeln!(f, "formula b\"{}\"", formula.escape_ascii())?;
                writeln!(f, "proof {proof:?}")?;
                write!(f, "{room:?}, line of {line_room} bytes")
            }
            Case::DependencyLines {
                formula,
                room,
                text_room,
            } => {
                writeln!(f, "formula b\"{}\"", formula.escape_ascii())?;
                write!(f, "{room:?}, text of {text_room} bytes")
            }
        }
    }
}

impl fmt::Display for Tables {
    fn fmt(&self, f: &mut fmt::Formatter) -> fmt::Result {
        write!(f, "prefix {:?}\nclauses {:?}", self.prefix, self.clauses)
    }
}

/// Some inputs of one kind, drawn together where they share a formula.
pub fn batch(random: &mut Random) -> Vec<Case> {
    match random.below(26) {
        0 | 1 => tables::tables_batch(random),
        2 => texts::cut_texts(random),
        3..=6 => texts::text_batch(random),
        7 => tables::write_batch(random),
        8 | 9 => tables::row_batch(random),
        10 => files::file_batch(random),
        11..=15 => proofs::proof_batch(random),
        16 => blocked::blocked_batch(random),
        17 | 18 => ends::ends_batch(random),
        19..=22 => lines::line_batch(random),
        23 | 24 => pairs::pairs_batch(random),
        _ => tables::game_batch(random),
    }
}

#[cfg(test)]
mod tests {
    use super::*;
    use crate::reference::row::row;

    /// Other numbers, among them the largest, and nothing else: the rows are the same but for the numbers.
    #[test]
    fn renumbered_tables() {
        let random = &mut Random::new(9);
        let mut largest = 0;
        for turn in 0..200 {
            let shape = if turn == 0 {
                Shape::large(random)
            } else {
                Shape::tight(random)
            };
            let old = shape.tables(random);
            let mut new = old.clone();
            new.renumber(random);
            let (before, after) = (old.entries(), new.entries());
            assert_eq!(before.len(), after.len());
            let dependents = |tables: &Tables, universal: &Entry| {
                let Tables { prefix, clauses } = tables;
                let row = row(prefix, clauses, universal.variable, 1025, 640, 640).unwrap();
                let depends = |entry: Entry| row[entry.variable as usize];
                tables
                    .entries()
                    .into_iter()
                    .map(depends)
                    .collect::<Vec<u8>>()
            };
            for (old_entry, new_entry) in before.iter().zip(&after).take(10) {
                assert_eq!(old_entry.block, new_entry.block);
                assert_eq!(old_entry.quantifier, new_entry.quantifier);
                if old_entry.is_universal() {
                    assert_eq!(dependents(&old, old_entry), dependents(&new, new_entry));
                }
            }
            largest += usize::from(after.iter().any(|entry| entry.variable == 1024));
        }
        assert!((20..100).contains(&largest), "{largest}");
    }
}
