//! What the rules of memberships leave.

use super::{from, over, upto, Place, Results};
use crate::expression::{Expression, Two};
use crate::literal::Literal;
use crate::rules::Rule;
use crate::substitution::Substitution;
use crate::tree::{Functor, Hedge};

pub fn on_membership(place: Place, rule: Rule, hedge: &Hedge, expression: &Expression) -> Results {
    match (rule, expression) {
        (Rule::R2, _) => place.leaves(&[]),
        (Rule::F5 | Rule::F6 | Rule::F7, _) => Ok(Vec::new()),
        (Rule::M1, _) => m1(place, hedge),
        (Rule::M2, _) => m2(place, hedge, expression),
        (Rule::M3, _) => m3(place, hedge, expression),
        (Rule::M4, Expression::Star(one)) => {
            place.leaves(&[Literal::membership(hedge.clone(), one.inner.clone())])
        }
        (Rule::M5, Expression::Concatenation(two)) => m5(place, hedge, two),
        (Rule::M6 | Rule::M7, Expression::Choice(two)) => Ok(vec![
            place.result(&[Literal::membership(hedge.clone(), two.left.clone())], None)?,
            place.result(&[Literal::membership(hedge.clone(), two.right.clone())], None)?,
        ]),
        (Rule::M10, Expression::Over(f, _)) => m10(place, hedge, *f, expression),
        (Rule::M11, Expression::Over(_, one)) => {
            let (_, children) = over(hedge);
            place.leaves(&[Literal::membership(children.clone(), one.inner.clone())])
        }
        (Rule::M12, Expression::Over(_, one)) => {
            let (_, children) = over(hedge);
            let in_order = |order| Literal::membership(order, one.inner.clone());
            place.for_each_order(children, in_order)
        }
        _ => unreachable!("{rule:?} is no rule of this membership"),
    }
}

/// M1: hedge variables in eps: each is empty, once for each place.
fn m1(place: Place, hedge: &Hedge) -> Results {
    let new: Vec<_> = hedge
        .items()
        .iter()
        .map(|item| Literal::equation(Hedge::one(item.clone()), Hedge::EMPTY))
        .collect();
    let substitution = Substitution::Hedges(hedge.variables().hedge, Hedge::EMPTY);
    Ok(vec![place.result(&new, Some(&substitution))?])
}

/// M2: (t, H) in R: for each monomial of R, t in its head and H in its rest.
fn m2(place: Place, hedge: &Hedge, expression: &Expression) -> Results {
    let first = upto(hedge, 1);
    let rest = from(hedge, 1);
    let mut results = Vec::new();
    for monomial in expression.linear_form() {
        let new = [
            Literal::membership(first.clone(), monomial.head),
            Literal::membership(rest.clone(), monomial.rest),
        ];
        results.push(place.result(&new, None)?);
    }
    Ok(results)
}

/// M3: (p, H) in f(R): p in f(R) and H = ε, or p = ε and H in f(R).
fn m3(place: Place, hedge: &Hedge, expression: &Expression) -> Results {
    let variable = upto(hedge, 1);
    let rest = from(hedge, 1);
    let taken = [
        Literal::membership(variable.clone(), expression.clone()),
        Literal::equation(rest.clone(), Hedge::EMPTY),
    ];
    let left =
        [Literal::equation(variable, Hedge::EMPTY), Literal::membership(rest, expression.clone())];
    Ok(vec![place.result(&taken, None)?, place.result(&left, None)?])
}

/// M5: t in R1·R2: t in R1 and ε in R2, or ε in R1 and t in R2.
fn m5(place: Place, hedge: &Hedge, two: &Two) -> Results {
    let in_left = [
        Literal::membership(hedge.clone(), two.left.clone()),
        Literal::membership(Hedge::EMPTY, two.right.clone()),
    ];
    let in_right = [
        Literal::membership(Hedge::EMPTY, two.left.clone()),
        Literal::membership(hedge.clone(), two.right.clone()),
    ];
    Ok(vec![place.result(&in_left, None)?, place.result(&in_right, None)?])
}

/// M10: X(H) in f(R): X() = f(), f(H) in f(R).
fn m10(place: Place, hedge: &Hedge, f: u8, expression: &Expression) -> Results {
    let (Functor::Variable(x), _) = over(hedge) else {
        unreachable!("M10 has a function variable")
    };
    let symbol = Functor::Symbol(f);
    let substitution = Substitution::Function(x, symbol);
    let new = [
        Literal::equation(Hedge::bare(Functor::Variable(x)), Hedge::bare(symbol)),
        Literal::membership(substitution.in_hedge(hedge), expression.clone()),
    ];
    Ok(vec![place.result(&new, Some(&substitution))?])
}
