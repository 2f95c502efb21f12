//! Which lines are solved, and which variable each equation solves.

use crate::counts::Counts;
use crate::literal::{Claim, Conjunction};
use crate::tree::{repeated, Functor, Hedge, Variables};

/// Whether each literal of a line is solved; the counts are the line's.
pub fn is_solved(line: &Conjunction, counts: &Counts) -> bool {
    let shared_by_memberships =
        repeated(line.literals().iter().map(|literal| match literal.claim() {
            Claim::Membership(..) => literal.variables(),
            Claim::Equation(..) => Variables::NONE,
        }));
    line.literals().iter().all(|literal| match literal.claim() {
        Claim::Equation(left, right) => solved_side(left, right, counts).is_some(),
        Claim::Membership(hedge, _) => {
            is_lone_variable(hedge) && !hedge.variables().meets(shared_by_memberships)
        }
    })
}

/// The solved side of an equation and the side that gives its value; where
/// both sides qualify, the left is the solved one.
pub fn solved_side<'a>(
    left: &'a Hedge,
    right: &'a Hedge,
    counts: &Counts,
) -> Option<(&'a Hedge, &'a Hedge)> {
    if solves(left, right, counts) {
        Some((left, right))
    } else if solves(right, left, counts) {
        Some((right, left))
    } else {
        None
    }
}

/// Whether `side` is one variable that occurs nowhere else in the line, and
/// the opposite side is what such a variable may take.
fn solves(side: &Hedge, opposite: &Hedge, counts: &Counts) -> bool {
    let fits = match (side.lone_bare(), side.lone_term_variable()) {
        (Some(Functor::Variable(_)), _) => opposite.lone_bare().is_some(),
        (_, Some(_)) => opposite.is_lone_term(),
        _ => side.lone_hedge_variable().is_some(),
    };
    fits && counts.all_once(side.variables())
}

fn is_lone_variable(hedge: &Hedge) -> bool {
    hedge.lone_term_variable().is_some() || hedge.lone_hedge_variable().is_some()
}
