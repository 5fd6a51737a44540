//! How the antecedents of a resolution hold both signs of a variable: what a comparison and a saturation count.

/// A variable of which both signs come together.
#[derive(Clone, Copy, Debug, PartialEq, Eq)]
pub enum Pair {
    /// One sign is in one antecedent and the opposite in the other.
    Merged,
    /// One antecedent holds both, the other neither.
    Carried,
    /// One antecedent holds both, the other one of them.
    MetByOne,
    /// Each antecedent holds both.
    MetByBoth,
}

impl Pair {
    /// Whether a sign in one antecedent is opposed by the other: the others alone have no condition.
    pub fn is_opposed(self) -> bool {
        self != Pair::Carried
    }
}

/// Whether a clause holds v, and whether it holds -v.
pub fn signs(clause: &[i32], variable: i32) -> [bool; 2] {
    [variable, -variable].map(|literal| clause.contains(&literal))
}

/// The variables, but for the pivot, of which two antecedents hold both signs, each once.
pub fn pairs(left: &[i32], right: &[i32], pivot: i32) -> Vec<(i32, Pair)> {
    let mut found: Vec<(i32, Pair)> = Vec::new();
    for variable in left.iter().chain(right).map(|literal| literal.abs()) {
        let is_new = variable != pivot && found.iter().all(|(other, _)| *other != variable);
        if let (true, Some(pair)) = (is_new, pair(left, right, variable)) {
            found.push((variable, pair));
        }
    }
    found
}

fn pair(left: &[i32], right: &[i32], variable: i32) -> Option<Pair> {
    const BOTH: [bool; 2] = [true; 2];
    const NEITHER: [bool; 2] = [false; 2];
    match (signs(left, variable), signs(right, variable)) {
        (BOTH, BOTH) => Some(Pair::MetByBoth),
        (BOTH, NEITHER) | (NEITHER, BOTH) => Some(Pair::Carried),
        (BOTH, _) | (_, BOTH) => Some(Pair::MetByOne),
        ([true, _], [_, true]) | ([_, true], [true, _]) => Some(Pair::Merged),
        _ => None,
    }
}

#[cfg(test)]
mod tests {
    use super::*;

    #[test]
    fn every_way_to_hold_a_variable() {
        let clauses: [&[i32]; 4] = [&[], &[2], &[-2], &[-2, 2]];
        let found = clauses.map(|left| {
            clauses.map(|right| {
                let [left, right] = [[&[1, 3], left].concat(), [right, &[3, -1]].concat()];
                match pairs(&left, &right, 1)[..] {
                    [] => 0,
                    [(2, Pair::Merged)] => 1,
                    [(2, Pair::Carried)] => 2,
                    [(2, Pair::MetByOne)] => 3,
                    [(2, Pair::MetByBoth)] => 4,
                    _ => 5,
                }
            })
        });
        assert_eq!(
            found,
            [[0, 0, 0, 2], [0, 0, 1, 3], [0, 1, 0, 3], [2, 3, 3, 4]]
        );
        let two = pairs(&[1, 2, -4], &[4, -1, -2], 1);
        assert_eq!(two, [(2, Pair::Merged), (4, Pair::Merged)]);
    }
}
