//! The check of a proof on tables and step words. A step's result is built by marks, one for each
//! literal, and ticked off against what the step states; no mark is ever wiped, each step has its own.
//! Steps come in two families, and a proof is of one of them.

use super::prefix::{bindings, entries, places, Entry, Quantifier};
use super::row::{made_by_passes, Occurrences, Row};
use super::tables::{check_tables, Counts};
use super::{literal_index, Reason, Refusal, LITERALS, MAX_STEP_WORDS, MAX_VARIABLE, ROW_BYTES};

/// Kinds 1 and 2 make up one family and 3 and 4 the other, the resolution first and then the reduction. The family of a
/// proof is that of its first step.
#[derive(Clone, Copy, Debug, PartialEq, Eq)]
pub enum Family {
    Plain,
    LongDistance,
}

impl Family {
    pub const BOTH: [Family; 2] = [Family::Plain, Family::LongDistance];

    /// The family of a kind of step; none for any other word.
    pub fn of(kind: i32) -> Option<Family> {
        match kind {
            1 | 2 => Some(Family::Plain),
            3 | 4 => Some(Family::LongDistance),
            _ => None,
        }
    }

    /// The family that the first of these steps fixes.
    pub fn of_steps(steps: &[i32]) -> Option<Family> {
        Family::of(*steps.first()?)
    }

    pub fn other(self) -> Family {
        match self {
            Family::Plain => Family::LongDistance,
            Family::LongDistance => Family::Plain,
        }
    }

    /// The kind of this family's resolutions.
    pub fn resolution(self) -> i32 {
        match self {
            Family::Plain => 1,
            Family::LongDistance => 3,
        }
    }

    /// The kind of this family's reductions.
    pub fn reduction(self) -> i32 {
        self.resolution() + 1
    }
}

#[derive(Clone, Copy, Debug, PartialEq, Eq)]
pub struct Verdict {
    /// The number of the empty clause: the last one, or with no steps the lowest of the input clauses that are empty.
    pub empty: usize,
    pub steps: usize,
}

/// Which rows are kept for later reductions: all that were made, the one of the last reduction, or none. The last one is made by
/// a worklist over an index of the clauses, as all others are, or by passes over the clause words, which need no index.
#[derive(Clone, Copy, Debug, PartialEq, Eq)]
pub enum Rows {
    Kept,
    Last,
    LastByPasses,
    Anew,
}

/// The rows that are kept.
struct Shelf {
    rows: Rows,
    kept: Vec<Option<Box<Row>>>,
    /// The variable of the last reduction, 0 ahead of the first.
    last: usize,
}

impl Shelf {
    fn new(rows: Rows) -> Shelf {
        Shelf {
            rows,
            kept: vec![None; ROW_BYTES],
            last: 0,
        }
    }

    /// The row of this variable, made if it is not kept.
    fn row(&mut self, variable: usize, make: impl FnOnce() -> Row) -> &Row {
        let drops = match self.rows {
            Rows::Kept => false,
            Rows::Last | Rows::LastByPasses => self.last != variable,
            Rows::Anew => true,
        };
        if drops {
            self.kept[self.last] = None;
        }
        self.last = variable;
        self.kept[variable].get_or_insert_with(|| Box::new(make()))
    }
}

/// The verdict on a proof, for a scratch of so many bytes, where so many are asked for, and so many starts. Behind an empty
/// clause no step may stand, whatever its words.
pub fn check(
    prefix: &[i32],
    clauses: &[i32],
    steps: &[i32],
    scratch_room: usize,
    scratch_asked: usize,
    starts_room: usize,
    rows: Rows,
) -> Result<Verdict, Refusal> {
    let counts = check_tables(prefix, clauses)?;
    if steps.len() > MAX_STEP_WORDS {
        return Err(Reason::Oversized.at(0));
    }
    if scratch_room < scratch_asked {
        return Err(Reason::NoRoom.at(0));
    }
    if starts_room < counts.clauses {
        return Err(Reason::NoRoom.at(starts_room + 1));
    }
    let mut run = Run::new(prefix, clauses, steps, counts, rows);
    let family = Family::of_steps(steps);
    let mut at = 0;
    while at < steps.len() {
        let number = run.known.len() + 1;
        if run.empty.is_some() {
            return Err(Reason::Afterword.at(number));
        }
        let parsed = Step::parse(steps, at, family);
        let (step, next) = parsed.ok_or(Reason::BrokenStep.at(number))?;
        if starts_room < number {
            return Err(Reason::NoRoom.at(number));
        }
        run.judge(&step).map_err(|fault| fault.at(number))?;
        run.number(step.stated);
        at = next;
    }
    match run.empty {
        Some(empty) => Ok(Verdict {
            empty,
            steps: run.known.len() - counts.clauses,
        }),
        None => Err(Reason::NoConclusion.at(run.known.len())),
    }
}

/// Whether the first step of these words is right behind these numbered clauses of admitted tables, be one of them empty or
/// not, in a proof of this family, or of either; none where the step is broken or of the other family. Tells apart what
/// stands behind an empty clause.
pub fn is_right<'a>(
    prefix: &[i32],
    clauses: &'a [i32],
    known: Vec<&'a [i32]>,
    words: &'a [i32],
    family: Option<Family>,
) -> Option<bool> {
    let family = family.or_else(|| Family::of_steps(words));
    let (step, _) = Step::parse(words, 0, family)?;
    let counts = check_tables(prefix, clauses).ok()?;
    let mut run = Run::new(prefix, clauses, words, counts, Rows::Kept);
    run.known = known;
    Some(run.judge(&step).is_ok())
}

enum Rule {
    Resolve { i: i32, j: i32, pivot: i32 },
    Reduce { i: i32, literal: i32 },
}

struct Step<'a> {
    family: Family,
    rule: Rule,
    stated: &'a [i32],
}

impl<'a> Step<'a> {
    /// The step at this word and the place of the next; none where it is broken or not of the proof's family.
    fn parse(words: &'a [i32], at: usize, proof: Option<Family>) -> Option<(Step<'a>, usize)> {
        let family = Family::of(words[at]).filter(|own| Some(*own) == proof)?;
        let (rule, rest) = match words[at..] {
            [1 | 3, i, j, pivot, ..] => (Rule::Resolve { i, j, pivot }, at + 4),
            [2 | 4, i, literal, ..] => (Rule::Reduce { i, literal }, at + 3),
            _ => return None,
        };
        let length = words[rest..].iter().position(|&word| word == 0)?;
        let step = Step {
            family,
            rule,
            stated: &words[rest..rest + length],
        };
        Some((step, rest + length + 1))
    }
}

/// Why a step is refused, and with a blocked reduction what blocks it.
struct Fault {
    reason: Reason,
    blocker: [usize; 2],
}

impl From<Reason> for Fault {
    fn from(reason: Reason) -> Fault {
        let blocker = [0, 0];
        Fault { reason, blocker }
    }
}

impl Fault {
    /// Names the first entry from the left whose variable is in the clause and in the row.
    fn blocked(entries: &[Entry], clause: &[i32], row: &Row) -> Fault {
        let blocks = |entry: &&Entry| {
            let held = clause.contains(&entry.variable) || clause.contains(&-entry.variable);
            held && row[entry.variable as usize] == 1
        };
        let leftmost = entries.iter().find(blocks);
        Fault {
            reason: Reason::Blocked,
            blocker: leftmost.map_or([0, 0], |e| [e.variable, e.block].map(|n| n as usize)),
        }
    }

    fn at(self, place: usize) -> Refusal {
        Refusal {
            blocker: self.blocker,
            ..self.reason.at(place)
        }
    }
}

/// The marks of a step: for the literals of the left antecedent, or of the one that is reduced; for those of the right
/// alone; and for those ticked off.
const MARKS: u32 = 3;

struct Run<'a> {
    entries: Vec<Entry>,
    bindings: [Option<Quantifier>; ROW_BYTES],
    /// Where each variable stands in the prefix, from the left.
    places: [usize; ROW_BYTES],
    clauses: &'a [i32],
    occurrences: Occurrences<'a>,
    shelf: Shelf,
    /// The numbered clauses so far, clause n at n - 1.
    known: Vec<&'a [i32]>,
    /// The lowest number of an empty one among them.
    empty: Option<usize>,
    marks: Box<[u32; LITERALS]>,
    mark: u32,
}

impl<'a> Run<'a> {
    fn new(
        prefix: &[i32],
        clauses: &'a [i32],
        steps: &'a [i32],
        counts: Counts,
        rows: Rows,
    ) -> Run<'a> {
        let entries = entries(prefix);
        let mut run = Run {
            bindings: bindings(&entries),
            places: places(&entries),
            entries,
            clauses,
            occurrences: Occurrences::of(clauses, counts),
            shelf: Shelf::new(rows),
            known: Vec::with_capacity(counts.clauses + steps.len() / 8),
            empty: None,
            marks: Box::new([0; LITERALS]),
            mark: 0,
        };
        for clause in clauses.split(|&word| word == 0).take(counts.clauses) {
            run.number(clause);
        }
        run
    }

    /// Gives a clause the next number.
    fn number(&mut self, clause: &'a [i32]) {
        self.known.push(clause);
        if clause.is_empty() {
            self.empty.get_or_insert(self.known.len());
        }
    }

    fn judge(&mut self, step: &Step) -> Result<(), Fault> {
        self.mark += MARKS;
        let size = match step.rule {
            Rule::Resolve { i, j, pivot } => {
                let (left, right) = (self.antecedent(i)?, self.antecedent(j)?);
                self.resolve(left, right, pivot, step.family)?
            }
            Rule::Reduce { i, literal } => {
                let clause = self.antecedent(i)?;
                self.reduce(clause, literal)?
            }
        };
        if self.states(step.stated, size) {
            Ok(())
        } else {
            Err(Reason::Misstated.into())
        }
    }

    fn antecedent(&self, number: i32) -> Result<&'a [i32], Reason> {
        let index = usize::try_from(number).ok().and_then(|n| n.checked_sub(1));
        let clause = index.and_then(|index| self.known.get(index));
        clause.copied().ok_or(Reason::NotEarlier)
    }

    fn binding(&self, literal: i32) -> Option<Quantifier> {
        let variable = literal.unsigned_abs() as usize;
        *self.bindings.get(variable)?
    }

    /// Whether one antecedent may hold this literal and the other its opposite.
    fn may_oppose(&self, literal: i32, pivot: i32, family: Family) -> bool {
        let place = |literal: i32| self.places[literal.unsigned_abs() as usize];
        family == Family::LongDistance
            && self.binding(literal) == Some(Quantifier::Universal)
            && place(literal) > place(pivot)
    }

    /// Gives the literals of a clause that stay the step's first mark, and counts them.
    fn mark(&mut self, clause: &[i32], stays: impl Fn(i32) -> bool) -> usize {
        let mut size = 0;
        for &literal in clause.iter().filter(|&&literal| stays(literal)) {
            self.marks[literal_index(literal)] = self.mark;
            size += 1;
        }
        size
    }

    /// Marks the resolvent and counts its literals. What the left antecedent holds has a mark of its own, so that a pair
    /// that the right one holds whole is none that opposes the left.
    fn resolve(
        &mut self,
        left: &[i32],
        right: &[i32],
        pivot: i32,
        family: Family,
    ) -> Result<usize, Reason> {
        if pivot <= 0 || self.binding(pivot) != Some(Quantifier::Existential) {
            return Err(Reason::WrongPivot);
        }
        let (of_left, of_right) = (self.mark, self.mark + 1);
        let mut size = self.mark(left, |literal| literal != pivot);
        let left_holds = size < left.len();
        let (mut right_holds, mut allowed) = (false, true);
        for &literal in right {
            if literal == -pivot {
                right_holds = true;
                continue;
            }
            if self.marks[literal_index(-literal)] == of_left {
                allowed &= self.may_oppose(literal, pivot, family);
            }
            let own = &mut self.marks[literal_index(literal)];
            if *own != of_left {
                *own = of_right;
                size += 1;
            }
        }
        if !left_holds || !right_holds {
            return Err(Reason::WrongPivot);
        }
        if !allowed {
            return Err(Reason::Tautology);
        }
        Ok(size)
    }

    /// Marks the reduced clause and counts its literals. It holds neither sign of the variable, of which a clause of plain
    /// steps has one alone.
    fn reduce(&mut self, clause: &[i32], reduced: i32) -> Result<usize, Fault> {
        if self.binding(reduced) != Some(Quantifier::Universal) || !clause.contains(&reduced) {
            return Err(Reason::WrongPivot.into());
        }
        let variable = reduced.unsigned_abs() as usize;
        let rows = self.shelf.rows;
        let make = || match rows {
            Rows::LastByPasses => made_by_passes(&self.entries, self.clauses, variable as i32),
            _ => self.occurrences.row(&self.entries, variable as i32),
        };
        let row = self.shelf.row(variable, make);
        let depends = |literal: &i32| row[literal.unsigned_abs() as usize] == 1;
        if clause.iter().any(depends) {
            return Err(Fault::blocked(&self.entries, clause, row));
        }
        Ok(self.mark(clause, |literal| literal != reduced && literal != -reduced))
    }

    /// Whether these are the marked literals, each once. A literal ticked gets the step's last mark.
    fn states(&mut self, stated: &[i32], size: usize) -> bool {
        stated.len() == size
            && stated.iter().all(|&literal| {
                if literal.unsigned_abs() as usize > MAX_VARIABLE {
                    return false;
                }
                let own = &mut self.marks[literal_index(literal)];
                let marked = *own == self.mark || *own == self.mark + 1;
                *own = self.mark + MARKS - 1;
                marked
            })
    }
}

#[cfg(test)]
mod tests {
    use super::super::prefix::records;
    use super::*;
    use crate::generate::derive::derivation;
    use crate::generate::{Random, Shape};
    use crate::reference::play;

    fn refusal(short: &[i32], clauses: &[i32], steps: &[i32]) -> Refusal {
        check(&records(short), clauses, steps, 8200, 8200, 100, Rows::Kept).unwrap_err()
    }

    fn refused(short: &[i32], clauses: &[i32], steps: &[i32]) -> (u32, usize) {
        let refusal = refusal(short, clauses, steps);
        assert_eq!(refusal.blocker, [0, 0]);
        (refusal.reason.number(), refusal.place)
    }

    /// 9, 2, 7 and 4 stand with 6 and their opposites with -6, so that they depend on it; 8 and 10 have no opposite,
    /// 3 is left of it, 5 a universal. Of the first clause's dependents 4 stands first, 2 is the smallest number,
    /// and the entry of 9 is the leftmost.
    #[test]
    fn the_leftmost_dependent_blocks() {
        let short = [3, -6, 8, 9, -5, 2, 7, -1, 4, 10];
        let clauses = [
            [4, 3, -2, 8, 7, 6, 5, -9, 0],
            [-4, 3, 2, 10, -7, -6, 5, 9, 0],
        ];
        let blocker = |clauses: &[i32], steps: &[i32]| {
            let refusal = refusal(&short, clauses, steps);
            assert_eq!((refusal.reason.number(), refusal.line), (17, 0));
            (refusal.place, refusal.blocker)
        };
        let both = clauses.concat();
        assert_eq!(blocker(&both, &[2, 1, 6, 0]), (3, [9, 3]));
        assert_eq!(blocker(&both, &[2, 2, -6, 0]), (3, [9, 3]));
        // Clauses that hold fewer of them, and one derived that has lost 9.
        let fewer = [&both[..], &[4, 6, 7, 0, 6, -4, 0, 9, 3, 0]].concat();
        assert_eq!(blocker(&fewer, &[2, 3, 6, 0]), (6, [7, 5]));
        assert_eq!(blocker(&fewer, &[2, 4, 6, 0]), (6, [4, 7]));
        let derived = [1, 5, 1, 9, 4, 3, -2, 8, 7, 6, 5, 0, 2, 6, 6, 0];
        assert_eq!(blocker(&fewer, &derived), (7, [2, 5]));
    }

    #[test]
    fn order_of_refusals() {
        let refused = |steps: &[i32]| refused(&[1, 2, -3], &[1, 2, 3, 0, -1, 2, 0], steps);
        assert_eq!(refused(&[0]), (13, 3));
        assert_eq!(refused(&[i32::MIN, 0]), (13, 3));
        assert_eq!(refused(&[1, 0, 0, 0]), (13, 3));
        assert_eq!(refused(&[2, 0, 0]), (13, 3));
        assert_eq!(refused(&[1]), (13, 3));
        assert_eq!(refused(&[1, 0, 0, 0, 0]), (14, 3));
        assert_eq!(refused(&[1, 1, 3, 7, 0]), (14, 3));
        assert_eq!(refused(&[1, 1, i32::MIN, 7, 0]), (14, 3));
        assert_eq!(refused(&[1, 1, 3, 7, 0, 9]), (14, 3));
        assert_eq!(refused(&[2, 3, 3, 0]), (14, 3));
        for pivot in [0, 2, 3, -1, 4, 5000, i32::MIN, i32::MAX] {
            assert_eq!(refused(&[1, 1, 2, pivot, 2, 3, 0]), (15, 3), "{pivot}");
        }
        assert_eq!(refused(&[1, 2, 1, 1, 2, 3, 0]), (15, 3));
        assert_eq!(refused(&[1, 1, 1, 1, 2, 3, 0]), (15, 3));
        for literal in [0, 1, -3, 4, 5000, i32::MIN, i32::MAX] {
            assert_eq!(refused(&[2, 1, literal, 1, 2, 0]), (15, 3), "{literal}");
        }
        for stated in [[2, 2], [2, -3], [3, 1], [2, i32::MIN], [2, 5000]] {
            let steps = [1, 1, 2, 1, stated[0], stated[1], 0];
            assert_eq!(refused(&steps), (18, 3), "{stated:?}");
        }
        assert_eq!(refused(&[1, 1, 2, 1, 2, 0]), (18, 3));
        assert_eq!(refused(&[1, 1, 2, 1, 3, 2, 1, 0]), (18, 3));
        assert_eq!(refused(&[1, 1, 2, 1, 3, 2, 0]), (19, 3));
        assert_eq!(refused(&[1, 1, 2, 1, 3, 2, 0, 2, 3, 3, 2, 0]), (19, 4));
        assert_eq!(refused(&[2, 1, 3, 2, 1, 0, 2, 1, 3, 2, 0]), (18, 4));
    }

    #[test]
    fn room() {
        let long = vec![0; MAX_STEP_WORDS + 1];
        for asked in [8200, 640] {
            let refused = |clauses: &[i32], steps: &[i32], scratch, starts| {
                let prefix = records(&[-1, -2]);
                let answer = check(&prefix, clauses, steps, scratch, asked, starts, Rows::Kept);
                answer.map_err(|r| (r.reason.number(), r.place))
            };
            // Tables first, then the step words, then scratch, then starts.
            for scratch in [0, 127, 128, 639, asked] {
                assert_eq!(refused(&[1, 1], &long, scratch, 0), Err((8, 1)));
            }
            let refused =
                |steps: &[i32], scratch, starts| refused(&[1, 2, 0, -1, 0], steps, scratch, starts);
            let right = [2, 1, 1, 2, 0, 2, 2, -1, 0];
            let verdict = Verdict { empty: 4, steps: 2 };
            assert_eq!(refused(&right, asked, 4), Ok(verdict));
            assert_eq!(refused(&right, 8201, 4), Ok(verdict));
            for scratch in [0, 639, asked - 1] {
                assert_eq!(refused(&right, scratch, 4), Err((3, 0)));
                assert_eq!(refused(&right, scratch, 0), Err((3, 0)));
                assert_eq!(refused(&[5], scratch, 4), Err((3, 0)));
            }
            assert_eq!(refused(&right, asked, 3), Err((3, 4)));
            assert_eq!(refused(&right, asked, 2), Err((3, 3)));
            assert_eq!(refused(&[5], asked, 2), Err((13, 3)));
            assert_eq!(refused(&[5], asked, 1), Err((3, 2)));
            assert_eq!(refused(&[5], asked, 0), Err((3, 1)));
            assert_eq!(refused(&long, 0, 0), Err((2, 0)));
            assert_eq!(refused(&long[1..], asked, 2), Err((13, 3)));
        }
    }

    /// The empty clause and the number of steps, or the refusal's number and place, with a prefix of existential 1 and
    /// universal 2.
    fn judged(clauses: &[i32], steps: &[i32]) -> Result<(usize, usize), (u32, usize)> {
        let prefix = records(&[1, -2]);
        let answer = check(&prefix, clauses, steps, 640, 640, 100, Rows::Kept);
        let verdict = answer.map(|verdict| (verdict.empty, verdict.steps));
        verdict.map_err(|refusal| (refusal.reason.number(), refusal.place))
    }

    /// Words that answer for themselves ahead of the empty clause are refused as one behind it.
    #[test]
    fn words_behind_an_empty_clause() {
        let clauses = [1, 0, -1, 0, 2, 0];
        for (words, alone) in [
            (&[1, 1, 2, 1, 0][..], Ok((4, 1))),
            (&[2, 3, 2, 0], Ok((4, 1))),
            (&[0], Err((13, 4))),
            (&[1], Err((13, 4))),
            (&[9], Err((13, 4))),
            (&[i32::MIN], Err((13, 4))),
            (&[2, 3, 2], Err((13, 4))),
            (&[5, 3, 2, 0], Err((13, 4))),
            (&[2, 5, 2, 0], Err((14, 4))),
            (&[2, 1, 2, 0], Err((15, 4))),
            (&[2, 3, 2, 1, 0], Err((18, 4))),
        ] {
            assert_eq!(judged(&clauses, words), alone);
            let behind = [&[2, 3, 2, 0], words].concat();
            assert_eq!(judged(&clauses, &behind), Err((23, 5)), "{words:?}");
            let further = [&behind[..], &[9]].concat();
            assert_eq!(judged(&clauses, &further), Err((23, 5)), "{words:?}");
        }
        // The second step ends the proof; a step that is refused does not.
        let clauses = [1, 2, 0, -1, 0];
        let right = [2, 1, 2, 1, 0, 1, 3, 2, 1, 0];
        assert_eq!(judged(&clauses, &right), Ok((4, 2)));
        assert_eq!(judged(&clauses, &[&right[..], &[9]].concat()), Err((23, 5)));
        assert_eq!(judged(&clauses, &[2, 1, 2, 1, 0, 9]), Err((13, 4)));
        assert_eq!(judged(&clauses, &[2, 1, 2, 0, 9]), Err((18, 3)));
    }

    #[test]
    fn empty_input_clauses() {
        let clauses = [1, 0, 0, -1, 0, 0];
        assert_eq!(judged(&clauses, &[]), Ok((2, 0)));
        for words in [&[1, 1, 3, 1, 0][..], &[2, 1, 2, 0], &[1, 1, 3], &[9]] {
            assert_eq!(judged(&clauses, words), Err((23, 5)), "{words:?}");
        }
        assert_eq!(judged(&[0], &[]), Ok((1, 0)));
        assert_eq!(judged(&[0], &[9]), Err((23, 2)));
        assert_eq!(judged(&[2, 0, 0], &[]), Ok((2, 0)));
        assert_eq!(judged(&[2, 0, 0], &[2, 1, 2, 0]), Err((23, 3)));
        assert_eq!(judged(&[], &[9]), Err((13, 1)));
    }

    /// Tables, step words, scratch and the starts of input clauses come ahead of a step behind an empty clause, its own
    /// start behind it.
    #[test]
    fn ahead_of_words_behind_an_empty_clause() {
        let long = vec![9; MAX_STEP_WORDS + 1];
        for asked in [8200, 640] {
            let refused = |clauses: &[i32], steps: &[i32], scratch, starts| {
                let prefix = records(&[1, -2]);
                let answer = check(&prefix, clauses, steps, scratch, asked, starts, Rows::Kept);
                let refusal = answer.unwrap_err();
                (refusal.reason.number(), refusal.place)
            };
            assert_eq!(refused(&[1, 0, 0, 3, 0], &long, 0, 0), (7, 3));
            assert_eq!(refused(&[1, 0, 0], &long, 0, 0), (2, 0));
            assert_eq!(refused(&[1, 0, 0], &long[1..], asked - 1, 0), (3, 0));
            assert_eq!(refused(&[1, 0, 0], &[9], 0, 9), (3, 0));
            for (starts, due) in [(0, (3, 1)), (1, (3, 2)), (2, (23, 3)), (3, (23, 3))] {
                assert_eq!(refused(&[1, 0, 0], &[9], asked, starts), due);
                assert_eq!(refused(&[1, 0, 0], &long[1..], asked, starts), due);
            }
            let derived = [2, 3, 2, 0, 2, 3, 2, 0];
            for (starts, due) in [(2, (3, 3)), (3, (3, 4)), (4, (23, 5)), (5, (23, 5))] {
                assert_eq!(refused(&[1, 0, -1, 0, 2, 0], &derived, asked, starts), due);
            }
        }
    }

    #[test]
    fn right_steps_wherever_they_stand() {
        let (prefix, clauses) = (records(&[1, -2]), [1, 0, -1, 0, 2, 0]);
        let known = [&[1][..], &[-1], &[2], &[]];
        let right_in = |words, family| is_right(&prefix, &clauses, known.to_vec(), words, family);
        let right = |words| right_in(words, None);
        assert_eq!(right(&[1, 1, 2, 1, 0]), Some(true));
        assert_eq!(right(&[2, 3, 2, 0, 9]), Some(true));
        assert_eq!(right(&[2, 4, 2, 0]), Some(false));
        assert_eq!(right(&[2, 3, 2, 1, 0]), Some(false));
        assert_eq!(right(&[2, 3, 2]), None);
        assert_eq!(right(&[9]), None);
        assert_eq!(right(&[4, 3, 2, 0]), Some(true));
        for (words, own) in [
            (&[2, 3, 2, 0], Family::Plain),
            (&[4, 3, 2, 0], Family::LongDistance),
        ] {
            assert_eq!(right_in(words, Some(own)), Some(true));
            assert_eq!(right_in(words, Some(own.other())), None);
        }
    }

    /// Which of some rows asked for one after the other are made, and that each is the one asked for.
    #[test]
    fn rows_made() {
        let asked = [5, 5, 5, 3, 3, 5, 1024, 1024, 3, 5];
        let made = |rows| {
            let mut shelf = Shelf::new(rows);
            let mut made = Vec::new();
            for (turn, &variable) in asked.iter().enumerate() {
                let row = shelf.row(variable, || {
                    made.push(turn);
                    let mut row = [0; ROW_BYTES];
                    row[variable] = 1;
                    row
                });
                assert_eq!(row.iter().position(|&byte| byte == 1), Some(variable));
                let kept = shelf.kept.iter().flatten().count();
                assert!(rows == Rows::Kept || kept == 1, "{kept}");
            }
            made
        };
        assert_eq!(made(Rows::Kept), [0, 3, 6]);
        assert_eq!(made(Rows::Last), [0, 3, 5, 6, 8, 9]);
        assert_eq!(made(Rows::Anew), [0, 1, 2, 3, 4, 5, 6, 7, 8, 9]);
    }

    /// Existential 3 depends on 1 and not on 2, 4 on 2 and not on 1: a row kept too long would let a blocked reduction pass
    /// or block a right one.
    #[test]
    fn the_last_row_is_of_the_variable_reduced() {
        let short = [-1, -2, 3, 4];
        let clauses = [1, 3, 0, -1, -3, 0, 2, 4, 0, -2, -4, 0, 1, 4, 0, 2, 3, 0];
        let answer = |steps: &[i32], rows| {
            let answer = check(&records(&short), &clauses, steps, 640, 640, 100, rows);
            answer.map_err(|r| (r.reason.number(), r.place, r.blocker))
        };
        let [first, second] = [[2, 5, 1, 4, 0], [2, 6, 2, 3, 0]];
        let by_turns = [first, second, second, first, first, second].concat();
        for rows in [Rows::Kept, Rows::Last, Rows::Anew] {
            assert_eq!(answer(&by_turns, rows), Err((19, 12, [0, 0])));
            for (before, blocked, by) in [
                (first, [2, 3, 2, 4, 0], 4),
                (second, [2, 3, 2, 4, 0], 4),
                (second, [2, 1, 1, 3, 0], 3),
                (first, [2, 1, 1, 3, 0], 3),
            ] {
                let steps = [&before[..], &blocked].concat();
                assert_eq!(answer(&steps, rows), Err((17, 8, [by, 2])));
            }
        }
    }

    #[test]
    fn random_derivations_are_right_and_refute_false_formulas_alone() {
        let mut random = Random::new(11);
        let mut accepted = 0;
        for turn in 0..4000 {
            let tables = Shape::tight(&mut random).tables(&mut random);
            let (prefix, clauses) = (&tables.prefix, &tables.clauses);
            let family = Family::BOTH[turn % 2];
            let steps = derivation(&mut random, &tables, family, 40, 12);
            let answer = check(prefix, clauses, &steps, 8200, 8200, 9000, Rows::Kept);
            for rows in [Rows::Last, Rows::LastByPasses, Rows::Anew] {
                let other = check(prefix, clauses, &steps, 8200, 8200, 9000, rows);
                assert_eq!(answer, other, "{rows:?}");
            }
            let small = check(prefix, clauses, &steps, 640, 640, 9000, Rows::Kept);
            assert_eq!(answer, small);
            match answer {
                Ok(verdict) => {
                    accepted += 1;
                    assert_eq!(verdict.empty, tables.count() + verdict.steps);
                    assert_eq!(play::evaluate(prefix, clauses), Ok(false), "{tables:?}");
                }
                Err(refusal) => assert_eq!(refusal.reason, Reason::NoConclusion),
            }
        }
        assert!(accepted > 500, "{accepted}");
    }
}
