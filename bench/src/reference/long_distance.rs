//! Tests of the long-distance family, kinds 3 and 4: what may be merged and carried, what a reduction takes out, and the
//! order of refusals. Prefixes are given in short.

use super::prefix::records;
use super::steps::{check, Rows, Verdict};
use crate::generate::pairs::merged;
use crate::generate::Tables;

/// The empty clause and the number of steps, or the refusal's number, place, and what blocks.
type Judged = Result<(usize, usize), (u32, usize, [usize; 2])>;

fn judged(short: &[i32], clauses: &[i32], steps: &[i32]) -> Judged {
    judged_in(&records(short), clauses, steps)
}

/// The same by both sizes and whichever rows are kept.
fn judged_in(prefix: &[i32], clauses: &[i32], steps: &[i32]) -> Judged {
    let answer = check(prefix, clauses, steps, 8200, 8200, 100, Rows::Kept);
    for rows in [Rows::Kept, Rows::Last, Rows::LastByPasses, Rows::Anew] {
        let other = check(prefix, clauses, steps, 640, 640, 100, rows);
        assert_eq!(answer, other);
    }
    let verdict = answer.map(|Verdict { empty, steps }| (empty, steps));
    verdict.map_err(|refusal| (refusal.reason.number(), refusal.place, refusal.blocker))
}

/// The number and the place of a refusal that nothing blocks.
fn refused(short: &[i32], clauses: &[i32], steps: &[i32]) -> (u32, usize) {
    let (number, place, blocker) = judged(short, clauses, steps).unwrap_err();
    assert_eq!(blocker, [0, 0]);
    (number, place)
}

/// Every step right, the last of this number, and no clause empty.
fn right(last: usize) -> (u32, usize) {
    (19, last)
}

#[test]
fn merges() {
    let clauses = [1, 2, 0, -1, -2, 0];
    // A universal right of the pivot, stated in any order.
    for stated in [[2, -2], [-2, 2]] {
        let steps = [3, 1, 2, 1, stated[0], stated[1], 0];
        assert_eq!(refused(&[1, -2], &clauses, &steps), right(3));
        assert_eq!(refused(&[3, 1, 4, -5, -2], &clauses, &steps), right(3));
        // Left of the pivot, though its number is larger; and an existential on either side of it.
        for short in [[-2, 1], [2, 1], [1, 2]] {
            assert_eq!(refused(&short, &clauses, &steps), (16, 3), "{short:?}");
        }
        // The same in the other family, which merges nothing.
        let plain = [1, 1, 2, 1, stated[0], stated[1], 0];
        assert_eq!(refused(&[1, -2], &clauses, &plain), (16, 3));
    }
    // Two pairs at once, and of two one that is not allowed, whichever comes first.
    let clauses = [1, 2, 3, 0, -1, -2, -3, 0];
    let steps = [3, 1, 2, 1, 3, -2, -3, 2, 0];
    assert_eq!(refused(&[1, -2, -3], &clauses, &steps), right(3));
    for short in [[-2, 1, -3], [-3, 1, -2], [1, -2, 3], [1, 2, -3]] {
        assert_eq!(refused(&short, &clauses, &steps), (16, 3), "{short:?}");
    }
    // Without a pair both families do the same.
    let clauses = [1, 2, 0, -1, 2, 3, 0];
    for kind in [1, 3] {
        let steps = [kind, 1, 2, 1, 3, 2, 0];
        assert_eq!(refused(&[1, -2, -3], &clauses, &steps), right(3));
    }
}

/// What a step answers behind the merged clauses, its own number being 18.
fn behind_merges(step: &[i32]) -> Judged {
    let (Tables { prefix, clauses }, merges) = merged();
    judged_in(&prefix, &clauses, &[&merges, step].concat())
}

fn refused_behind_merges(step: &[i32]) -> (u32, usize) {
    let (number, place, blocker) = behind_merges(step).unwrap_err();
    assert_eq!(blocker, [0, 0]);
    (number, place)
}

/// The other antecedent knows nothing of the variable: there is no condition, on whichever side of the pair the pivot
/// stands and whichever antecedent holds it.
#[test]
fn pairs_carried_whole() {
    for step in [
        [3, 15, 6, 4, 3, 2, -2, 0],
        [3, 15, 12, 3, 4, 2, -2, 0],
        [3, 9, 16, 3, -2, 4, 2, 0],
    ] {
        assert_eq!(refused_behind_merges(&step), right(18), "{step:?}");
        let mut less = step.to_vec();
        less.remove(5);
        assert_eq!(refused_behind_merges(&less), (18, 18), "{less:?}");
    }
}

/// Where the other antecedent holds one of the two signs, or both, the pair must stand right of the pivot.
#[test]
fn pairs_that_are_met() {
    for other in [7, 8, 17] {
        let step = [3, 15, other, 4, 3, 2, -2, 0];
        assert_eq!(refused_behind_merges(&step), right(18), "{other}");
        let step = [3, 15, other, 4, 3, 2, 0];
        assert_eq!(refused_behind_merges(&step), (18, 18), "{other}");
    }
    for [left, other] in [[15, 13], [15, 14], [15, 16], [10, 16], [11, 16]] {
        for stated in [&[4, 2, -2, 0][..], &[4, 2, 0], &[4, 0]] {
            let step = [&[3, left, other, 3], stated].concat();
            assert_eq!(refused_behind_merges(&step), (16, 18), "{step:?}");
        }
    }
}

#[test]
fn reductions_of_both_signs() {
    for sign in [2, -2] {
        assert_eq!(refused_behind_merges(&[4, 17, sign, -4, 0]), right(18));
        // What is left of the variable is misstated: one sign, the other, both.
        for left in [&[-4, 2, 0][..], &[-4, -2, 0], &[-4, 2, -2, 0]] {
            let step = [&[4, 17, sign], left].concat();
            assert_eq!(refused_behind_merges(&step), (18, 18), "{step:?}");
        }
        // Of one sign, the one that is there alone can be named.
        let single = 7 + i32::from(sign < 0);
        assert_eq!(refused_behind_merges(&[4, single, sign, -4, 0]), right(18));
        let step = [4, single, -sign, -4, 0];
        assert_eq!(refused_behind_merges(&step), (15, 18));
        // 3 depends on 2, wrongly stated or not; blocks are counted from 1.
        for stated in [&[4, 3, 0][..], &[4, 3, sign, 0], &[0]] {
            let step = [&[4, 15, sign], stated].concat();
            assert_eq!(behind_merges(&step), Err((17, 18, [3, 3])), "{step:?}");
        }
    }
    assert_eq!(behind_merges(&[4, 10, 2, 3, 0]), Err((17, 18, [3, 3])));
}

/// A pair that is all of a clause goes in one step, and the clause is empty.
#[test]
fn an_empty_clause() {
    let (short, clauses) = ([1, -2], [1, 2, 0, -1, -2, 0]);
    for sign in [2, -2] {
        let steps = [3, 1, 2, 1, 2, -2, 0, 4, 3, sign, 0];
        assert_eq!(judged(&short, &clauses, &steps), Ok((4, 2)));
        for more in [&[4, 3, sign, 0][..], &[2, 3, sign, 0], &[9]] {
            let steps = [&steps[..], more].concat();
            assert_eq!(refused(&short, &clauses, &steps), (23, 5), "{more:?}");
        }
    }
}

/// The first step fixes the family, whatever comes of it; the other family's kinds are broken steps, whether they
/// would be right or not.
#[test]
fn families() {
    let (short, clauses) = ([1, -2], [1, 2, 0, -1, 2, 0, 2, 1, 0]);
    let refused = |steps: &[&[i32]]| refused(&short, &clauses, &steps.concat());
    let resolution = |kind: i32| [kind, 1, 2, 1, 2, 0];
    let reduction = |kind: i32| [kind, 1, 2, 1, 0];
    for [kind, other] in [[1, 3], [3, 1]] {
        let (resolve, reduce) = (resolution(kind), reduction(kind + 1));
        let (late_resolve, late_reduce) = (resolution(other), reduction(other + 1));
        for first in [&resolve[..], &reduce] {
            assert_eq!(refused(&[first]), right(4));
            assert_eq!(refused(&[first, &resolve]), right(5));
            assert_eq!(refused(&[first, &reduce]), right(5));
            assert_eq!(refused(&[first, &late_resolve]), (13, 5));
            assert_eq!(refused(&[first, &late_reduce]), (13, 5));
            assert_eq!(refused(&[first, &late_reduce[..3]]), (13, 5));
            assert_eq!(refused(&[first, &[other, 9, 9, 9, 0]]), (13, 5));
            assert_eq!(refused(&[first, &reduce, &late_resolve]), (13, 6));
        }
    }
    for kind in [0, 5, 6, -1, -3, -4, i32::MIN, i32::MAX] {
        for first in [&[][..], &resolution(1), &resolution(3)] {
            let place = 4 + usize::from(!first.is_empty());
            assert_eq!(refused(&[first, &resolution(kind)]), (13, place), "{kind}");
        }
    }
}

/// The order is that of kinds 1 and 2.
#[test]
fn order_of_refusals() {
    let refused = |steps: &[i32]| refused(&[1, 2, -3], &[1, 2, 3, 0, -1, 2, 0], steps);
    assert_eq!(refused(&[3, 0, 0, 0]), (13, 3));
    assert_eq!(refused(&[4, 0, 0]), (13, 3));
    assert_eq!(refused(&[3]), (13, 3));
    assert_eq!(refused(&[3, 0, 0, 0, 0]), (14, 3));
    assert_eq!(refused(&[3, 1, 3, 7, 0]), (14, 3));
    assert_eq!(refused(&[3, 1, i32::MIN, 7, 0]), (14, 3));
    assert_eq!(refused(&[3, 1, 3, 7, 0, 9]), (14, 3));
    assert_eq!(refused(&[4, 3, 3, 0]), (14, 3));
    for pivot in [0, 2, 3, -1, 4, 5000, i32::MIN, i32::MAX] {
        assert_eq!(refused(&[3, 1, 2, pivot, 2, 3, 0]), (15, 3), "{pivot}");
    }
    assert_eq!(refused(&[3, 2, 1, 1, 2, 3, 0]), (15, 3));
    assert_eq!(refused(&[3, 1, 1, 1, 2, 3, 0]), (15, 3));
    for literal in [0, 1, -3, 4, 5000, i32::MIN, i32::MAX] {
        assert_eq!(refused(&[4, 1, literal, 1, 2, 0]), (15, 3), "{literal}");
    }
    for stated in [[2, 2], [2, -3], [3, 1], [2, i32::MIN], [2, 5000]] {
        let steps = [3, 1, 2, 1, stated[0], stated[1], 0];
        assert_eq!(refused(&steps), (18, 3), "{stated:?}");
    }
    assert_eq!(refused(&[3, 1, 2, 1, 2, 0]), (18, 3));
    assert_eq!(refused(&[3, 1, 2, 1, 3, 2, 1, 0]), (18, 3));
    assert_eq!(refused(&[3, 1, 2, 1, 3, 2, 0]), right(3));
    assert_eq!(refused(&[3, 1, 2, 1, 3, 2, 0, 4, 3, 3, 2, 0]), right(4));
    assert_eq!(refused(&[4, 1, 3, 2, 1, 0, 4, 1, 3, 2, 0]), (18, 4));
}

/// 15 comes ahead of 16 and of 17, and both ahead of 18, whatever the step states.
#[test]
fn wrong_pivots_ahead_of_pairs() {
    let (short, clauses) = ([-2, 1, 3], [1, 2, 3, 0, -1, -2, 3, 0, -3, -2, 0]);
    let refused = |steps: &[i32]| refused(&short, &clauses, steps);
    for stated in [&[2, -2, 3, 0][..], &[2, 3, 0], &[5000, 0], &[0]] {
        let step = |i, j, pivot| [&[3, i, j, pivot], stated].concat();
        assert_eq!(refused(&step(1, 2, 1)), (16, 4));
        assert_eq!(refused(&step(2, 1, 1)), (15, 4));
        assert_eq!(refused(&step(1, 2, 3)), (15, 4));
        assert_eq!(refused(&step(1, 2, 2)), (15, 4));
        assert_eq!(refused(&step(1, 3, 3)), (16, 4));
        assert_eq!(refused(&step(1, 4, 1)), (14, 4));
    }
}
