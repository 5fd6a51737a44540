//! Compares a library's answers with the reference's on many inputs: the answer, and the contents of every
//! buffer lent. Rows and proofs go through both sizes of their entry, which must agree where both have their
//! scratch. Counts what was seen for each entry, and stops at the first difference.

mod drawn;
mod ends;
mod expected;
mod pairs;
#[cfg(proved)]
mod proved;
mod seen;

use std::fmt;

#[cfg(any(proved, test))]
use crate::generate::empty;
use crate::generate::{batch, edges, Case, Random, Size};
use seen::{entry, Seen, ENTRIES};

pub use expected::reference_answer;
#[cfg(proved)]
pub use proved::{null_answer, proved_answer};

/// An entry's answer: what it returned, the five words of `out`, the buffers after it. An entry that prints
/// returns how many bytes, and has no `out`; every other one returns 0 or a refusal's number.
#[derive(Clone, Debug, PartialEq, Eq)]
pub struct Answer {
    pub returned: u64,
    pub out: [u64; 5],
    pub buffers: Vec<Buffer>,
}

#[derive(Clone, PartialEq, Eq)]
pub enum Buffer {
    Bytes(Vec<u8>),
    Words(Vec<i32>),
    Starts(Vec<u32>),
}

impl fmt::Debug for Buffer {
    fn fmt(&self, f: &mut fmt::Formatter) -> fmt::Result {
        // Long ends of zeros are told by their length.
        fn short<T: PartialEq + Default + fmt::Debug>(
            f: &mut fmt::Formatter,
            items: &[T],
        ) -> fmt::Result {
            let used = items.iter().rposition(|item| *item != T::default());
            let used = used.map_or(0, |place| place + 1);
            write!(f, "{:?} and {} zeros", &items[..used], items.len() - used)
        }
        match self {
            Buffer::Bytes(bytes) => short(f, bytes),
            Buffer::Words(words) => short(f, words),
            Buffer::Starts(starts) => short(f, starts),
        }
    }
}

/// The first input on which two disagree: the reference and the library, or the library's two sizes.
pub struct Difference {
    pub case: Case,
    pub who: [&'static str; 2],
    pub expected: Answer,
    pub found: Answer,
}

const REFERENCE_AND_LIBRARY: [&str; 2] = ["reference", "library"];
const BOTH_SIZES: [&str; 2] = ["large", "small"];

impl fmt::Display for Difference {
    fn fmt(&self, f: &mut fmt::Formatter) -> fmt::Result {
        writeln!(f, "difference in {}", ENTRIES[entry(&self.case)].0)?;
        writeln!(f, "{}", self.case)?;
        let [one, other] = self.who;
        for (who, answer) in [(one, &self.expected), (other, &self.found)] {
            writeln!(f, "{who}: {} {:?}", answer.returned, answer.out)?;
        }
        let buffers = self.expected.buffers.iter().zip(&self.found.buffers);
        for (place, (expected, found)) in buffers.enumerate() {
            if expected != found {
                writeln!(f, "buffer {place}: {one} {expected:?}")?;
                writeln!(f, "buffer {place}: {other} {found:?}")?;
            }
        }
        Ok(())
    }
}

/// Runs at least so many drawn inputs, then the edges; each row and each proof by both sizes.
pub fn compare(
    library: impl Fn(&Case, &mut Random) -> Answer,
    seed: u64,
    inputs: usize,
) -> Result<Seen, Box<Difference>> {
    let mut random = Random::new(seed);
    let mut filling = Random::new(seed + 1);
    let mut seen = Seen::new();
    while seen.inputs < inputs {
        for case in batch(&mut random) {
            compare_sizes(&library, case, &mut filling, &mut seen)?;
        }
    }
    for case in edges(&mut random) {
        compare_sizes(&library, case, &mut filling, &mut seen)?;
    }
    Ok(seen)
}

/// Compares an input, that of two sizes by each, and the two with each other.
fn compare_sizes(
    library: impl Fn(&Case, &mut Random) -> Answer,
    case: Case,
    filling: &mut Random,
    seen: &mut Seen,
) -> Result<(), Box<Difference>> {
    seen.inputs += 1;
    let large = compare_one(&library, &case, filling, seen)?;
    let Some(case) = case.in_size(Size::Small) else {
        return Ok(());
    };
    let small = compare_one(&library, &case, filling, seen)?;
    seen.alike += usize::from(alike(case, large, small)?);
    Ok(())
}

/// The library's answer, which is the reference's.
fn compare_one(
    library: impl Fn(&Case, &mut Random) -> Answer,
    case: &Case,
    filling: &mut Random,
    seen: &mut Seen,
) -> Result<Answer, Box<Difference>> {
    let (number, found) = judged(library, case, filling)?;
    seen.count(case, number);
    Ok(found)
}

/// The number of the reference's answer and the library's answer, which is the same.
pub fn judged(
    library: impl Fn(&Case, &mut Random) -> Answer,
    case: &Case,
    filling: &mut Random,
) -> Result<(usize, Answer), Box<Difference>> {
    let (number, expected) = reference_answer(case);
    let found = library(case, filling);
    agreed(REFERENCE_AND_LIBRARY, case, expected, &found)?;
    Ok((number, found))
}

/// Whether there is scratch enough for both sizes, so that their answers are to be the same, and are.
fn alike(case: Case, large: Answer, small: Answer) -> Result<bool, Box<Difference>> {
    let enough = |(_, room)| room >= Size::Large.scratch();
    if !case.scratch().is_some_and(enough) {
        return Ok(false);
    }
    agreed(BOTH_SIZES, &case, large, &small)?;
    Ok(true)
}

/// Runs each entry once with every table empty and no room in any buffer, and answers how many. The library is
/// to be handed null pointers; it has no buffers to show.
#[cfg(any(proved, test))]
pub fn compare_empty(library: impl Fn(&Case) -> Answer) -> Result<usize, Box<Difference>> {
    let cases = empty();
    let count = cases.len();
    for case in cases {
        let (_, mut expected) = reference_answer(&case);
        expected.buffers.clear();
        let found = library(&case);
        agreed(REFERENCE_AND_LIBRARY, &case, expected, &found)?;
    }
    Ok(count)
}

fn agreed(
    who: [&'static str; 2],
    case: &Case,
    expected: Answer,
    found: &Answer,
) -> Result<(), Box<Difference>> {
    if expected == *found {
        return Ok(());
    }
    Err(Box::new(Difference {
        case: case.clone(),
        who,
        expected,
        found: found.clone(),
    }))
}

#[cfg(test)]
mod tests {
    use super::*;
    use crate::generate::scratch::{row_case, SHORT};
    use crate::generate::Tables;
    use crate::reference::prefix::Entry;

    /// The reference against itself: the inputs draw every refusal of every entry.
    #[test]
    fn every_refusal_is_drawn() {
        let seen = compare(|case, _| reference_answer(case).1, 1, 20_000);
        let seen = seen.unwrap_or_else(|difference| panic!("{difference}"));
        println!("{seen}");
        assert_eq!(seen.missing(), Vec::<String>::new());
    }

    /// What the specification says where every table is empty and no buffer has room, by the reference: what is
    /// returned, and the words of `out`, which are a refusal's place, line, column, variable and block.
    const EMPTY: [(u64, [u64; 5]); 11] = [
        (0, [0; 5]),
        (1, [0, 1, 1, 0, 0]),
        (3, [0; 5]),
        (20, [0; 5]),
        (20, [0; 5]),
        (11, [0; 5]),
        (3, [0; 5]),
        (3, [0; 5]),
        (0, [1, 0, 0, 0, 0]),
        (0, [0; 5]),
        (0, [0; 5]),
    ];

    fn empty_answer(case: &Case) -> Answer {
        let (returned, out) = EMPTY[entry(case)];
        Answer {
            returned,
            out,
            buffers: vec![],
        }
    }

    #[test]
    fn empty_slices() {
        assert!(empty().iter().map(entry).eq(0..ENTRIES.len()));
        let run = compare_empty(empty_answer);
        assert_eq!(run.unwrap_or_else(|difference| panic!("{difference}")), 11);
        #[cfg(proved)]
        for case in empty() {
            assert_eq!(null_answer(&case), empty_answer(&case));
        }
    }

    /// A fault in any entry's answer to empty slices is found out.
    #[test]
    fn faults_on_empty_slices_are_found() {
        for faulty in 0..ENTRIES.len() {
            let library = |case: &Case| {
                let mut answer = empty_answer(case);
                answer.returned += u64::from(entry(case) == faulty);
                answer
            };
            let difference = compare_empty(library).err();
            assert_eq!(difference.map(|found| entry(&found.case)), Some(faulty));
        }
    }

    /// A library that names another dependent than the leftmost, or another block, is found out.
    #[test]
    fn faults_in_what_blocks_are_found() {
        type Choice = fn(&[Entry]) -> Option<&Entry>;
        let choices: [Choice; 7] = [
            |found| found.first(),
            |found| found.last(),
            |found| found.iter().min_by_key(|entry| entry.variable),
            |found| found.iter().max_by_key(|entry| entry.variable),
            |found| found.iter().max_by_key(|entry| entry.block),
            |found| found.iter().min_by_key(|entry| entry.block),
            |found| found.iter().min_by_key(|e| (e.block, e.variable)),
        ];
        for choose in choices {
            let faulty = |case: &Case, _: &mut Random| {
                let (number, mut answer) = reference_answer(case);
                if let (Case::Check { tables, steps, .. }, 17) = (case, number) {
                    let found = drawn::dependents(tables, steps);
                    let entry = choose(&found).expect("a dependent blocks");
                    answer.out[3] = entry.variable as u64;
                    answer.out[4] = entry.block as u64;
                }
                answer
            };
            assert!(compare(faulty, 1, 20_000).is_err());
        }
    }

    /// The leftmost dependent is the one of the least block, and of that block the one whose entry comes first.
    #[test]
    fn the_leftmost_is_named() {
        let leftmost = |case: &Case, _: &mut Random| {
            let (number, mut answer) = reference_answer(case);
            if let (Case::Check { tables, steps, .. }, 17) = (case, number) {
                let found = drawn::dependents(tables, steps);
                let places = tables.entries();
                let place = |entry: &&Entry| places.iter().position(|other| other == *entry);
                let entry = found.iter().min_by_key(place).expect("a dependent blocks");
                assert!(found.iter().all(|other| other.block >= entry.block));
                answer.out[3] = entry.variable as u64;
                answer.out[4] = entry.block as u64;
            }
            answer
        };
        let run = compare(leftmost, 2, 20_000);
        run.unwrap_or_else(|difference| panic!("{difference}"));
    }

    /// A library with one fault is found out, whichever part of the answer the fault is in.
    #[test]
    fn faults_are_found() {
        let faults: [fn(&Case, &mut Answer); 8] = [
            |_, answer| {
                if answer.returned == 18 {
                    answer.returned = 15;
                }
            },
            |_, answer| answer.out[0] += u64::from(answer.returned == 8),
            |case, answer| answer.out[1] += u64::from(is_check(case) && answer.returned == 0),
            |case, answer| {
                if let (true, Some(Buffer::Starts(starts))) =
                    (is_check(case), answer.buffers.get_mut(1))
                {
                    if let Some(last) = starts.last_mut() {
                        *last = u32::from(answer.returned == 17);
                    }
                }
            },
            |case, answer| {
                if let (1, Some(Buffer::Words(words))) = (entry(case), answer.buffers.get_mut(1)) {
                    if answer.returned == 10 && !words.is_empty() {
                        words[0] = 1;
                    }
                }
            },
            |_, answer| answer.out[4] += u64::from(answer.returned == 7),
            |_, answer| answer.out[2] += u64::from(answer.returned == 9),
            |case, answer| {
                // A line cut off where it does not fit.
                if let (9, Some(Buffer::Bytes(line))) = (entry(case), answer.buffers.last_mut()) {
                    if answer.returned == 0 && !line.is_empty() {
                        line[0] = b'r';
                    }
                }
            },
        ];
        assert_eq!(faults.map(is_found), [true; 8]);
    }

    fn is_check(case: &Case) -> bool {
        matches!(case, Case::Check { .. })
    }

    /// Whether a library is found out that has the reference's answers but for this fault.
    fn is_found(fault: impl Fn(&Case, &mut Answer)) -> bool {
        let faulty = |case: &Case, _: &mut Random| {
            let (_, mut answer) = reference_answer(case);
            fault(case, &mut answer);
            answer
        };
        compare(faulty, 1, 20_000).is_err()
    }

    /// A library that takes words behind an empty clause for a step like any other, or looks for them too early, is found
    /// out, and so is one that names another number or prints another word.
    #[test]
    fn faults_at_the_end_are_found() {
        let [right, wrong, broken, lone, input, no_start, without] = ends::ENDS;
        let others = [
            (right, 0),
            (wrong, 15),
            (broken, 13),
            (lone, 13),
            (input, 0),
            (no_start, 3),
            (without, 19),
        ];
        let early = ends::AHEAD.map(|kind| (kind, 23));
        for (kind, returned) in others.into_iter().chain(early) {
            assert!(is_found(|case, answer| {
                let drawn = || drawn::drawn(case, answer.returned as usize);
                if is_check(case) && drawn().contains(&kind) {
                    answer.returned = returned;
                }
            }));
        }
        assert!(is_found(|_, answer| {
            answer.out[0] -= u64::from(answer.returned == 23);
        }));
        assert!(is_found(|case, answer| {
            if let (9, Some(Buffer::Bytes(line))) = (entry(case), answer.buffers.last_mut()) {
                if line.starts_with(b"refused 23 afterword") {
                    line[11] = b'A';
                }
            }
        }));
    }

    /// A library that refuses a pair that is allowed, lets one pass that is not, or a step of the other family, is found out.
    #[test]
    fn faults_about_pairs_are_found() {
        let allowed = pairs::ALLOWED.map(|kind| (kind, 16));
        let wrong = pairs::WRONG.map(|kind| (kind, 19));
        let others = pairs::OTHERS.map(|kind| (kind, 19));
        for (kind, returned) in [&allowed[..], &wrong, &others].concat() {
            let is_other = |answer: &Answer| answer.returned != returned;
            assert!(is_found(|case, answer| {
                let drawn = || drawn::drawn(case, answer.returned as usize);
                if is_check(case) && is_other(answer) && drawn().contains(&kind) {
                    answer.returned = returned;
                }
            }));
        }
    }

    /// A library with a fault in one size alone, or at one length of the scratch, is found out.
    #[test]
    fn faults_of_a_size_are_found() {
        let in_other = |case: &Case, size| {
            let case = case.in_size(size).expect("an entry of two sizes");
            reference_answer(&case).1
        };
        for wrong in [Size::Large, Size::Small] {
            // Asks for the other's scratch.
            let other = match wrong {
                Size::Large => Size::Small,
                Size::Small => Size::Large,
            };
            for rows in [true, false] {
                assert!(is_found(|case, answer| {
                    if is_sized(case, wrong) && rows != is_check(case) {
                        *answer = in_other(case, other);
                    }
                }));
                // Asks for a byte more, or for a byte less.
                for (less, returned) in [(0, 3), (1, 0)] {
                    assert!(is_found(|case, answer| {
                        let short = wrong.scratch() - less;
                        if case.scratch() == Some((wrong, short)) && rows != is_check(case) {
                            let whole = [0, 3].contains(&answer.returned);
                            answer.returned = if whole { returned } else { answer.returned };
                        }
                    }));
                }
            }
        }
    }

    /// A library that looks at the scratch ahead of the tables, or leaves a byte of it, is found out.
    #[test]
    fn faults_in_the_scratch_are_found() {
        for rows in [true, false] {
            for length in SHORT {
                assert!(is_found(|case, answer| {
                    let refused = (5..=9).contains(&answer.returned);
                    let own = case.scratch() == Some((Size::Small, length));
                    if own && refused && rows != is_check(case) {
                        answer.returned = 3;
                        answer.out = [0; 5];
                    }
                }));
            }
            for (length, place, accepted) in [
                (127, 126, false),
                (640, 639, true),
                (641, 640, true),
                (8201, 640, true),
                (8201, 8200, false),
            ] {
                assert!(is_found(|case, answer| {
                    let own = case.scratch() == Some((Size::Small, length));
                    let number = answer.returned;
                    let scratch = answer.buffers.iter_mut().find_map(|buffer| match buffer {
                        Buffer::Bytes(bytes) if bytes.len() == length => Some(bytes),
                        _ => None,
                    });
                    if let (true, Some(scratch)) = (own && rows != is_check(case), scratch) {
                        scratch[place] = u8::from((number == 0) == accepted);
                    }
                }));
            }
        }
    }

    /// The two sizes are held against each other wherever both have their scratch, all of the answer.
    #[test]
    fn sizes_that_differ_are_found() {
        let tables = Tables::new(&[-1, 2], vec![1, 2, 0, -1, -2, 0]);
        let case = |scratch_room| row_case(&tables, 1, 1025, scratch_room);
        let answers = |case: &Case| {
            let case = case.in_size(Size::Small).expect("a row");
            let (_, answer) = reference_answer(&case);
            assert_eq!(answer.returned, 0);
            (case, answer)
        };
        let faults: [fn(&mut Answer); 4] = [
            |answer| answer.returned = 3,
            |answer| answer.out[4] = 1,
            |answer| answer.buffers[0] = Buffer::Bytes(vec![0; 1025]),
            |answer| answer.buffers[1] = Buffer::Bytes(vec![1; 8200]),
        ];
        for fault in faults {
            for room in [8200, 8201, 20_000] {
                let (case, small) = answers(&case(room));
                let mut large = small.clone();
                assert!(matches!(
                    alike(case.clone(), large.clone(), small.clone()),
                    Ok(true)
                ));
                fault(&mut large);
                let difference = alike(case, large, small).err();
                assert_eq!(difference.map(|found| found.who), Some(BOTH_SIZES));
            }
            let (case, small) = answers(&case(8199));
            let mut large = small.clone();
            fault(&mut large);
            assert!(matches!(alike(case, large, small), Ok(false)));
        }
    }

    fn is_sized(case: &Case, wanted: Size) -> bool {
        case.scratch().is_some_and(|(size, _)| size == wanted)
    }

    /// A library that leaves out either of the two numbers of a blocked reduction is found out.
    #[test]
    fn blocked_without_a_number_is_found() {
        let faults: [fn(&Case, &mut Answer); 3] = [
            |_, answer| answer.out[3] *= u64::from(answer.returned != 17),
            |_, answer| answer.out[4] *= u64::from(answer.returned != 17),
            |case, answer| {
                // A blocked line without its last number.
                if let (9, Some(Buffer::Bytes(line))) = (entry(case), answer.buffers.last_mut()) {
                    if line.starts_with(b"refused 17") {
                        let end = line.iter().rposition(|&byte| byte == b' ');
                        line[end.unwrap_or(0)..].fill(0);
                    }
                }
            },
        ];
        assert_eq!(faults.map(is_found), [true; 3]);
    }
}
