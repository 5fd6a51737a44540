//! What the inputs of a comparison drew, for each entry: numbers, tables refused with a short scratch, and what else
//! `drawn` knows of.

use std::fmt;

use super::drawn;
use crate::generate::scratch::SHORT;
use crate::generate::{empty, Case, Size};

/// Counts with the refusals where a line does not fit its buffer: a number that is no reason's.
pub const UNFIT: usize = 25;

/// The entries in the order of the counts, and the refusals each can give.
pub const ENTRIES: [(&str, &[usize]); 11] = [
    ("check_tables", &[2, 5, 6, 7, 8, 9]),
    ("read", &[1, 2, 3, 4, 5, 6, 8, 9, 10]),
    ("write", &[2, 3, 5, 6, 7, 8, 9]),
    ("row", &ROW),
    ("row_small", &ROW),
    ("read_proof", &[2, 3, 11, 12]),
    ("check", &CHECK),
    ("check_small", &CHECK),
    ("evaluate", &[2, 5, 6, 7, 8, 9]),
    (
        "check_line",
        &[
            1, 2, 3, 4, 5, 6, 8, 9, 10, 11, 12, 13, 14, 15, 16, 17, 18, 19, 23, UNFIT,
        ],
    ),
    ("dependency_lines", &[1, 2, 3, 4, 5, 6, 8, 9, 10, UNFIT]),
];

const ROW: [usize; 8] = [2, 3, 5, 6, 7, 8, 9, 20];
const CHECK: [usize; 15] = [2, 3, 5, 6, 7, 8, 9, 13, 14, 15, 16, 17, 18, 19, 23];

pub fn entry(case: &Case) -> usize {
    match case {
        Case::CheckTables { .. } => 0,
        Case::Read { .. } => 1,
        Case::Write { .. } => 2,
        Case::Row { size, .. } => 3 + usize::from(*size == Size::Small),
        Case::ReadProof { .. } => 5,
        Case::Check { size, .. } => 6 + usize::from(*size == Size::Small),
        Case::Evaluate { .. } => 8,
        Case::CheckLine { .. } => 9,
        Case::DependencyLines { .. } => 10,
    }
}

/// The refusals of tables that stand at a word: they come ahead of any about the scratch.
const OF_TABLES: [usize; 5] = [5, 6, 7, 8, 9];

/// How often each refusal of tables was drawn with each scratch that is short for both sizes.
type WithShort = [[usize; OF_TABLES.len()]; SHORT.len()];

/// How often each entry gave each number, 0 being acceptance, and drew what it is to draw beyond numbers.
pub struct Seen {
    /// How many inputs were drawn; of two sizes both have the same ones.
    pub inputs: usize,
    /// The inputs of two sizes that had scratch enough for both, on which their answers were compared.
    pub alike: usize,
    numbers: [[usize; UNFIT + 1]; ENTRIES.len()],
    /// None for an entry of one size.
    with_short: [Option<WithShort>; ENTRIES.len()],
    drawn: [Vec<(&'static str, usize)>; ENTRIES.len()],
}

impl Seen {
    pub fn new() -> Seen {
        let none = |case: &Case| drawn::due(case).into_iter().map(|kind| (kind, 0)).collect();
        let cases = empty();
        let cases = cases.each_ref();
        Seen {
            inputs: 0,
            alike: 0,
            numbers: Default::default(),
            with_short: cases.map(|case| case.scratch().map(|_| WithShort::default())),
            drawn: cases.map(none),
        }
    }

    pub fn count(&mut self, case: &Case, number: usize) {
        let entry = entry(case);
        self.numbers[entry][number] += 1;
        if let (Some(counts), Some((_, room))) = (&mut self.with_short[entry], case.scratch()) {
            let length = SHORT.iter().position(|&length| length == room);
            let refusal = OF_TABLES.iter().position(|&refusal| refusal == number);
            if let (Some(length), Some(refusal)) = (length, refusal) {
                counts[length][refusal] += 1;
            }
        }
        let kinds = drawn::drawn(case, number);
        for (kind, count) in &mut self.drawn[entry] {
            *count += usize::from(kinds.contains(kind));
        }
    }

    /// The refusals that an entry can give, and what else it is to draw, that no input drew, as `entry number`.
    pub fn missing(&self) -> Vec<String> {
        let mut missing = Vec::new();
        for (at, (name, refusals)) in ENTRIES.iter().enumerate() {
            for &number in refusals.iter().chain(&[0]) {
                if self.numbers[at][number] == 0 {
                    missing.push(format!("{name} {number}"));
                }
            }
            for (length, counts) in SHORT.iter().zip(self.with_short[at].iter().flatten()) {
                let refusals = OF_TABLES.iter().zip(counts);
                let never = refusals.filter(|(_, count)| **count == 0);
                missing.extend(
                    never.map(|(number, _)| {
                        format!("{name} {number} with {length} bytes of scratch")
                    }),
                );
            }
            let kinds = self.drawn[at].iter().filter(|(_, count)| *count == 0);
            missing.extend(kinds.map(|(kind, _)| format!("{name} {kind}")));
        }
        if self.alike == 0 {
            missing.push("scratch enough for both sizes".to_string());
        }
        missing
    }
}

impl fmt::Display for Seen {
    fn fmt(&self, f: &mut fmt::Formatter) -> fmt::Result {
        writeln!(
            f,
            "{:<17}{:>8} {:>9}  refused, number: inputs ({UNFIT}: a line that does not fit)",
            "entry", "inputs", "accepted"
        )?;
        for (counts, (name, _)) in self.numbers.iter().zip(ENTRIES) {
            let inputs: usize = counts.iter().sum();
            write!(f, "{name:<17}{inputs:>8} {:>9} ", counts[0])?;
            for (number, count) in counts.iter().enumerate().skip(1) {
                if *count > 0 {
                    write!(f, " {number}: {count} ")?;
                }
            }
            writeln!(f)?;
        }
        for (kinds, (name, _)) in self.drawn.iter().zip(ENTRIES) {
            for (kind, count) in kinds {
                writeln!(f, "{name:<17}{count:>8}  {kind}")?;
            }
        }
        writeln!(
            f,
            "{:<17}{:>8}  tables refused, number: inputs",
            "entry", "scratch"
        )?;
        for (lengths, (name, _)) in self.with_short.iter().zip(ENTRIES) {
            for (length, counts) in SHORT.iter().zip(lengths.iter().flatten()) {
                write!(f, "{name:<17}{length:>8} ")?;
                for (number, count) in OF_TABLES.iter().zip(counts) {
                    write!(f, " {number}: {count} ")?;
                }
                writeln!(f)?;
            }
        }
        writeln!(
            f,
            "{} rows and proofs with scratch enough for both sizes, the same by both",
            self.alike
        )
    }
}

#[cfg(test)]
mod tests {
    use super::*;
    use crate::generate::scratch::{check_case, refused_tables, row_case};
    use crate::generate::Tables;
    use crate::reference::tables::check_tables;

    /// Each refusal of tables is due with each short scratch, of both sizes, and is due no more once it is drawn.
    #[test]
    fn refusals_with_a_short_scratch() {
        let mut seen = Seen::new();
        let due = |seen: &Seen| {
            let with_scratch = |missing: &String| missing.ends_with(" bytes of scratch");
            seen.missing().into_iter().filter(with_scratch).count()
        };
        assert_eq!(due(&seen), 4 * 4 * 5);
        let tables = refused_tables();
        let number = |tables: &Tables| {
            let refusal = check_tables(&tables.prefix, &tables.clauses).unwrap_err();
            refusal.reason.number() as usize
        };
        for (turn, length) in [0, 127, 128, 639].into_iter().enumerate() {
            for tables in &tables {
                let cases = [
                    row_case(tables, 1, 0, length),
                    check_case(tables, &[], length, 0),
                ];
                for case in cases
                    .iter()
                    .flat_map(|case| [Size::Large, Size::Small].map(|size| case.in_size(size)))
                {
                    seen.count(&case.unwrap(), number(tables));
                }
            }
            assert_eq!(due(&seen), (3 - turn) * 4 * 5);
        }
    }

    /// 23 and what stands about it are due of the entries that check proofs, and of no other.
    #[test]
    fn ends_of_proofs() {
        let missing = Seen::new().missing();
        for kind in [
            "23",
            "23, a right step",
            "23, a lone word",
            "23, an empty input clause",
            "accepted, no steps",
            "3 ahead of 23, scratch",
        ] {
            let is_due = |name: &&str| missing.contains(&format!("{name} {kind}"));
            let due = ENTRIES.iter().map(|entry| entry.0).filter(is_due);
            assert!(due.eq(["check", "check_small", "check_line"]), "{kind}");
        }
    }

    /// Other lengths, other numbers and other entries do not count.
    #[test]
    fn other_lengths_and_numbers() {
        let mut seen = Seen::new();
        let before = seen.missing();
        let tables = &refused_tables()[0];
        for length in [1, 126, 129, 638, 640, 8199, 8200] {
            seen.count(&row_case(tables, 1, 0, length), 5);
        }
        for number in [2, 3, 20] {
            seen.count(&row_case(tables, 1, 0, 127), number);
        }
        let with_scratch = |missing: &&String| missing.ends_with(" bytes of scratch");
        let after = seen.missing();
        assert!(before
            .iter()
            .filter(with_scratch)
            .eq(after.iter().filter(with_scratch)));
    }
}
