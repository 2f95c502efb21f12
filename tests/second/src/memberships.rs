//! When each rule applies to a membership.

use crate::equations::leading;
use crate::expression::Expression;
use crate::read::Declared;
use crate::rules::Rule;
use crate::tree::{Functor, Hedge, Item};

/// Whether a rule applies to a membership.
type Applies = fn(&Declared, &Hedge, &Expression) -> bool;

/// The rules of memberships in their order.
pub const MEMBERSHIP_RULES: &[(Rule, Applies)] = &[
    (Rule::R2, |_, hedge, expression| r2(hedge, expression)),
    (Rule::F5, |_, hedge, expression| f5(hedge, expression)),
    (Rule::F6, |_, hedge, expression| f6(hedge, expression)),
    (Rule::F7, |_, hedge, expression| f7(hedge, expression)),
    (Rule::M1, |_, hedge, expression| m1(hedge, expression)),
    (Rule::M2, |_, hedge, expression| m2(hedge, expression)),
    (Rule::M3, |_, hedge, expression| m3(hedge, expression)),
    (Rule::M4, |_, hedge, expression| m4(hedge, expression)),
    (Rule::M5, |_, hedge, expression| m5(hedge, expression)),
    (Rule::M6, |_, hedge, expression| m6(hedge, expression)),
    (Rule::M7, |_, hedge, expression| m7(hedge, expression)),
    (Rule::M10, |_, hedge, expression| m10(hedge, expression)),
    (Rule::M11, m11),
    (Rule::M12, m12),
];

/// The empty hedge in R, where it is a member.
fn r2(hedge: &Hedge, expression: &Expression) -> bool {
    hedge.is_empty() && expression.has_empty()
}

/// f(H) in g(R), f not g.
fn f5(hedge: &Hedge, expression: &Expression) -> bool {
    match (hedge.lone_over(), expression) {
        (Some((Functor::Symbol(f), _)), Expression::Over(g, _)) => f != *g,
        _ => false,
    }
}

/// The empty hedge in R, not a member.
fn f6(hedge: &Hedge, expression: &Expression) -> bool {
    hedge.is_empty() && !expression.has_empty()
}

/// A hedge with a top-level term, in eps.
fn f7(hedge: &Hedge, expression: &Expression) -> bool {
    expression.is_eps() && hedge.has_term()
}

/// Hedge variables alone, one or more, in eps.
fn m1(hedge: &Hedge, expression: &Expression) -> bool {
    expression.is_eps() && !hedge.is_empty() && !hedge.has_term()
}

/// (t, H) in R, H not empty, R not eps.
fn m2(hedge: &Hedge, expression: &Expression) -> bool {
    match hedge.items() {
        [t, _, ..] => t.is_term() && !expression.is_eps(),
        _ => false,
    }
}

/// (p, H) in f(R), H not empty.
fn m3(hedge: &Hedge, expression: &Expression) -> bool {
    leading(hedge).is_some() && matches!(expression, Expression::Over(..))
}

/// t in a star.
fn m4(hedge: &Hedge, expression: &Expression) -> bool {
    hedge.is_lone_term() && matches!(expression, Expression::Star(_))
}

/// t in a concatenation.
fn m5(hedge: &Hedge, expression: &Expression) -> bool {
    hedge.is_lone_term() && matches!(expression, Expression::Concatenation(_))
}

/// t in a choice.
fn m6(hedge: &Hedge, expression: &Expression) -> bool {
    hedge.is_lone_term() && matches!(expression, Expression::Choice(_))
}

/// (p, H) in a choice; H may be empty.
fn m7(hedge: &Hedge, expression: &Expression) -> bool {
    matches!(hedge.items().first(), Some(Item::HedgeVariable(_)))
        && matches!(expression, Expression::Choice(_))
}

/// X(H) in f(R).
fn m10(hedge: &Hedge, expression: &Expression) -> bool {
    matches!(hedge.lone_over(), Some((Functor::Variable(_), _)))
        && matches!(expression, Expression::Over(..))
}

/// f(H) in f(R), f ordered.
fn m11(declared: &Declared, hedge: &Hedge, expression: &Expression) -> bool {
    same_symbol(hedge, expression).is_some_and(|f| !declared.is_unordered(f))
}

/// f(T) in f(R), f unordered, T terms.
fn m12(declared: &Declared, hedge: &Hedge, expression: &Expression) -> bool {
    let terms = |(_, children): (Functor, &Hedge)| children.items().iter().all(Item::is_term);
    same_symbol(hedge, expression).is_some_and(|f| declared.is_unordered(f))
        && hedge.lone_over().is_some_and(terms)
}

/// The symbol of a single term and of an expression over it.
fn same_symbol(hedge: &Hedge, expression: &Expression) -> Option<u8> {
    match (hedge.lone_over(), expression) {
        (Some((Functor::Symbol(f), _)), Expression::Over(g, _)) if f == *g => Some(f),
        _ => None,
    }
}
