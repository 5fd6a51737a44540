//! Long refutations in which every step but the last few uses the one before it: a clause is carried round
//! and round a ring of implications, and takes up universal literals that are reduced at once.

use super::Tables;

/// The ring: side literals z, universals a, the ring's existentials x, universals b, one existential w.
/// Each a stands in one sign alone, so that x depends on none of them though it is right of them; b is right
/// of x; w depends on each b.
const SIDES: i32 = 3;
const OUTER: i32 = 6;
const RING: i32 = 48;
const INNER: i32 = 3;

/// The first a, x and b, and w.
const A: i32 = 1 + SIDES;
const X: i32 = A + OUTER;
const B: i32 = X + RING;
const W: i32 = B + INNER;

/// A formula and a refutation of it of so many words, or some 500 less.
pub fn refutation(words: usize) -> (Tables, Vec<i32>) {
    let ring = ring();
    let mut carried = Carried::new(&ring);
    let begun = carried.steps.len();
    carried.round(&ring);
    let round = carried.steps.len() - begun;
    while carried.steps.len() + round + CLOSING <= words {
        carried.round(&ring);
    }
    carried.close();
    (ring, carried.steps)
}

/// The words of the last steps, which take out x1 and the side literals.
const CLOSING: usize = 8 + 7 + 6 + 5;

/// The clauses: the start, a link for each x, one clause against x1 and against each z, and two for each b.
fn ring() -> Tables {
    let mut short: Vec<i32> = (1..A).collect();
    short.extend((A..X).map(|a| -a));
    short.extend(X..B);
    short.extend((B..W).map(|b| -b));
    short.push(W);
    let mut clauses: Vec<i32> = (1..A).chain([X, A, 0]).collect();
    for link in 0..RING {
        clauses.extend([-(X + link), X + (link + 1) % RING]);
        clauses.extend(taken_up(link));
        clauses.push(0);
    }
    for unit in [X].into_iter().chain(1..A) {
        clauses.extend([-unit, 0]);
    }
    for b in B..W {
        clauses.extend([b, W, 0, -b, -W, 0]);
    }
    Tables::new(&short, clauses)
}

/// The universal literal of a link, if it has one: every fourth has, an a and a b by turns, each b in both signs.
fn taken_up(link: i32) -> Option<i32> {
    let turn = link / 8;
    match link % 8 {
        0 => Some(A + turn),
        4 if turn < INNER => Some(B + turn),
        4 => Some(-(B + turn - INNER)),
        _ => None,
    }
}

/// The clause carried round, with the steps that led to it.
struct Carried {
    clause: Vec<i32>,
    number: i32,
    next: i32,
    steps: Vec<i32>,
}

/// The number of the link that leads away from an x, and of the clause against a unit; the start is clause 1.
const FIRST_LINK: i32 = 2;
const FIRST_UNIT: i32 = FIRST_LINK + RING;

impl Carried {
    fn new(ring: &Tables) -> Carried {
        let mut carried = Carried {
            clause: (1..A).chain([X, A]).collect(),
            number: 1,
            next: ring.count() as i32 + 1,
            steps: Vec::new(),
        };
        carried.reduce(A);
        carried
    }

    /// Once round the ring, from x1 to x1.
    fn round(&mut self, ring: &Tables) {
        let clauses: Vec<&[i32]> = ring.clauses.split(|&word| word == 0).collect();
        for link in 0..RING {
            let number = FIRST_LINK + link;
            self.resolve(number, X + link, &clauses[number as usize - 1][1..]);
            if let Some(literal) = taken_up(link) {
                self.reduce(literal);
            }
        }
    }

    /// Takes out x1 and the side literals, up to the empty clause.
    fn close(&mut self) {
        self.resolve(FIRST_UNIT, X, &[]);
        for z in 1..A {
            self.resolve(FIRST_UNIT + z, z, &[]);
        }
    }

    /// Resolves the carried clause, which holds the pivot, with a numbered one, which adds these literals.
    fn resolve(&mut self, with: i32, pivot: i32, added: &[i32]) {
        self.steps.extend([1, self.number, with, pivot]);
        self.clause.retain(|&literal| literal != pivot);
        self.clause.extend(added);
        self.state();
    }

    fn reduce(&mut self, literal: i32) {
        self.steps.extend([2, self.number, literal]);
        self.clause.retain(|&other| other != literal);
        self.state();
    }

    /// States the clause, in an order that changes from step to step.
    fn state(&mut self) {
        if !self.clause.is_empty() {
            self.clause.rotate_left(1);
        }
        self.steps.extend(&self.clause);
        self.steps.push(0);
        self.number = self.next;
        self.next += 1;
    }
}

/// The same steps with one word changed: the last literal stated by the tenth step from the end is negated.
pub fn damaged(mut steps: Vec<i32>) -> Vec<i32> {
    let places = super::proofs::step_places(&steps);
    let after = places[places.len() - 9];
    steps[after - 2] = -steps[after - 2];
    steps
}

#[cfg(test)]
mod tests {
    use super::*;
    use crate::reference::file::write_proof;
    use crate::reference::program::{check_line, printed, Room};
    use crate::reference::row::row;
    use crate::reference::write::write;
    use crate::reference::{MAX_STEP_WORDS, MAX_TEXT};

    fn line(tables: &Tables, steps: &[i32]) -> String {
        let formula = write(&tables.prefix, &tables.clauses, MAX_TEXT).unwrap();
        let proof = write_proof(b"", steps, tables.count() as u32);
        printed(check_line(Room::FULL, &formula, || proof))
    }

    #[test]
    fn accepted_and_refused() {
        for words in [0, 1000, 17_500, 300_000, MAX_STEP_WORDS] {
            let (tables, steps) = refutation(words);
            assert!(steps.len() <= words.max(1100), "{}", steps.len());
            assert!(steps.len() + 600 > words, "{}", steps.len());
            let line = line(&tables, &steps);
            let numbers: Vec<usize> = line
                .split_whitespace()
                .filter_map(|word| word.parse().ok())
                .collect();
            assert!(line.starts_with("accepted"), "{line}");
            let [variables, clauses, count, empty] = numbers[..] else {
                panic!("{line}")
            };
            assert_eq!(variables, W as usize);
            assert_eq!((clauses, clauses + count), (tables.count(), empty));
            let refused = super::damaged(steps);
            let place = empty - 9;
            let expected = format!("refused 18 misstated {place} 0 0\n");
            assert_eq!(self::line(&tables, &refused), expected);
        }
    }

    #[test]
    fn rows() {
        let ring = ring();
        let universals = ring.universals();
        assert_eq!(universals.len() as i32, OUTER + INNER);
        for variable in universals {
            let row = row(&ring.prefix, &ring.clauses, variable, 1025, 8200, 8200).unwrap();
            let dependents: Vec<i32> = (0..1025).filter(|&v| row[v as usize] == 1).collect();
            let expected = if variable < X { vec![] } else { vec![W] };
            assert_eq!(dependents, expected, "{variable}");
        }
    }
}
