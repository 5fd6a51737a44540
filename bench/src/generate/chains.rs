//! Formulas whose resolution paths are as long as can be, with the clauses listed in orders that make a
//! search by passes slow; and proofs that ask for their rows again and again.

use super::{Random, Tables};

/// The order of a chain's clauses.
#[derive(Clone, Copy, Debug, PartialEq, Eq)]
pub enum Order {
    /// Along the path: a pass from the first clause follows all of it.
    Near,
    /// Against the path: a pass from the last clause follows all of it.
    Far,
    Shuffled,
    /// Links by turns in the front half and in the back half: passes from the two sides by turns follow one each.
    Zigzag,
}

/// So many universals outside, then so many existentials x1, x2, ..; for each universal u the clauses {u, x1}
/// and {-u, x1}, and for each neighbours the clause {-x, x'}. Paths from u and from -u run through the whole
/// chain, reach every positive literal and no negative one: every row is empty.
pub fn chain(random: &mut Random, universals: i32, existentials: i32, order: Order) -> Tables {
    let first = universals + 1;
    let last = universals + existentials;
    let mut links: Vec<[i32; 3]> = (1..=universals)
        .flat_map(|u| [[u, first, 0], [-u, first, 0]])
        .collect();
    links.extend((first..last).map(|x| [-x, x + 1, 0]));
    match order {
        Order::Near => {}
        Order::Far => links.reverse(),
        Order::Shuffled => random.shuffle(&mut links),
        Order::Zigzag => {
            let halves = |part: usize| links.iter().copied().skip(part).step_by(2);
            links = halves(0).chain(halves(1)).collect();
        }
    }
    let short: Vec<i32> = (1..=last).map(|v| if v < first { -v } else { v }).collect();
    Tables::new(&short, links.concat())
}

/// So many reductions, of the first two universals by turns, each of which leaves {x1}.
pub fn reductions(tables: &Tables, count: usize) -> Vec<i32> {
    let clauses: Vec<&[i32]> = tables.clauses.split(|&word| word == 0).collect();
    let step = |u: i32| {
        let holder = clauses.iter().position(|clause| clause.contains(&u));
        let holder = holder.map_or(0, |place| place + 1);
        [2, holder as i32, u, clauses[holder - 1][1], 0]
    };
    let steps = [step(1), step(2)];
    steps
        .iter()
        .cycle()
        .take(count)
        .flatten()
        .copied()
        .collect()
}

#[cfg(test)]
mod tests {
    use super::*;
    use crate::reference::row::{passes, row};
    use crate::reference::steps::{check, Rows};

    #[test]
    fn rows_and_passes() {
        let orders = [Order::Near, Order::Far, Order::Shuffled, Order::Zigzag];
        let taken = orders.map(|order| {
            let mut tables = chain(&mut Random::new(5), 124, 900, order);
            let row_of = |tables: &Tables, variable| {
                let row = row(&tables.prefix, &tables.clauses, variable, 1025, 640, 640).unwrap();
                row.iter().filter(|&&byte| byte == 1).count()
            };
            assert_eq!([1, 2, 124].map(|u| row_of(&tables, u)), [0; 3]);
            let steps = reductions(&tables, 4000);
            let answer = check(
                &tables.prefix,
                &tables.clauses,
                &steps,
                8200,
                8200,
                9000,
                Rows::Kept,
            );
            let refusal = answer.unwrap_err();
            let last = tables.count() + 4000;
            assert_eq!((refusal.reason.number(), refusal.place), (19, last));
            let taken = passes(&tables.prefix, &tables.clauses, 1);
            tables.clauses.extend([1, -1024, 0]);
            assert_eq!([1, 2].map(|u| row_of(&tables, u)), [900, 0]);
            taken
        });
        let [near, far, shuffled, zigzag] = taken;
        assert_eq!((near, far), (2, 3));
        assert!((500..650).contains(&shuffled), "{shuffled}");
        assert!((895..905).contains(&zigzag), "{zigzag}");
    }
}
