//! What the rules of equations leave.

use super::{from, over, upto, Place, Results};
use crate::equations::{leading, shared_element, terms_before};
use crate::literal::{Conjunction, Literal};
use crate::rules::Rule;
use crate::substitution::Substitution;
use crate::tree::{Functor, Hedge, Item};
use crate::words::Refusal;

pub fn on_equation(place: Place, rule: Rule, left: &Hedge, right: &Hedge) -> Results {
    match rule {
        Rule::R1 => place.leaves(&[]),
        Rule::F1 | Rule::F2 | Rule::F3 | Rule::F4 => Ok(Vec::new()),
        Rule::Del1 => place.leaves(&[Literal::equation(from(left, 1), from(right, 1))]),
        Rule::Del2 => del2(place, left, right),
        Rule::Del3 => del3(place, left, right),
        Rule::D1 => {
            let (_, h1) = over(left);
            let (_, h2) = over(right);
            place.for_each_order(h2, |order| Literal::equation(h1.clone(), order))
        }
        Rule::D2 => place.leaves(&[
            Literal::equation(upto(left, 1), upto(right, 1)),
            Literal::equation(from(left, 1), from(right, 1)),
        ]),
        Rule::D0 => {
            let (_, h1) = over(left);
            let (_, h2) = over(right);
            place.leaves(&[Literal::equation(h1.clone(), h2.clone())])
        }
        Rule::E1 | Rule::E2 | Rule::E5 => eliminate(place, left, right),
        Rule::E3 => cuts(place, left, right, right.items().len()),
        Rule::E4 => {
            let p = leading(left).expect("E4 has a leading hedge variable");
            let most = terms_before(right, p).expect("E4 has a term that holds it");
            cuts(place, left, right, most)
        }
        Rule::E6 => e6(place, left, right),
        Rule::E7 => e7(place, left, right),
        _ => unreachable!("{rule:?} is no rule of equations"),
    }
}

/// Del2: the first shared element is struck from both sides.
fn del2(place: Place, left: &Hedge, right: &Hedge) -> Results {
    let (f, h1) = over(left);
    let (_, h2) = over(right);
    let (at, other) = shared_element(h1, h2).expect("a shared element");
    let without = |hedge: &Hedge, at: usize| {
        let rest = [&hedge.items()[..at], &hedge.items()[at + 1..]].concat();
        Hedge::one(Item::Over(f, Hedge::new(rest)))
    };
    place.leaves(&[Literal::equation(without(h1, at), without(h2, other))])
}

/// Del3: lone p = (H1, p, H2), H1 not empty, first such p: H1 = ε, H2 = ε.
fn del3(place: Place, left: &Hedge, right: &Hedge) -> Results {
    let p = left.lone_hedge_variable().expect("a lone hedge variable");
    let found = right.items()[1..].iter().position(|item| item.is_hedge_variable(p));
    let at = 1 + found.expect("the same hedge variable opposite");
    place.leaves(&[
        Literal::equation(upto(right, at), Hedge::EMPTY),
        Literal::equation(from(right, at + 1), Hedge::EMPTY),
    ])
}

/// E1, E2, E5: the variable on the left goes from the other literals.
fn eliminate(place: Place, left: &Hedge, right: &Hedge) -> Results {
    let substitution = match left.lone() {
        Some(Item::TermVariable(x)) => Substitution::Term(*x, right.items()[0].clone()),
        Some(Item::HedgeVariable(p)) => Substitution::hedge(*p, right.clone()),
        Some(Item::Over(Functor::Variable(x), _)) => Substitution::Function(*x, over(right).0),
        _ => unreachable!("no variable to eliminate"),
    };
    let equation = Literal::equation(left.clone(), right.clone());
    Ok(vec![place.result(&[equation], Some(&substitution))?])
}

/// E3, E4: (p, H) against a hedge whose first `most` elements are terms
/// without p: for each cut of those, p is the first part and H meets the rest.
fn cuts(place: Place, left: &Hedge, right: &Hedge, most: usize) -> Results {
    let p = leading(left).expect("a leading hedge variable");
    let variable = Hedge::one(Item::HedgeVariable(p));
    let rest = from(left, 1);
    let mut results = Vec::with_capacity(most + 1);
    for cut in 0..=most {
        let first = upto(right, cut);
        let substitution = Substitution::hedge(p, first.clone());
        let new = [
            Literal::equation(variable.clone(), first),
            Literal::equation(
                substitution.in_hedge(&rest),
                substitution.in_hedge(&from(right, cut)),
            ),
        ];
        results.push(place.result(&new, Some(&substitution))?);
    }
    Ok(results)
}

/// E6: X(H1) = F(H2): X() = F(), F(H1) = F(H2).
fn e6(place: Place, left: &Hedge, right: &Hedge) -> Results {
    Ok(vec![named(place, left, right, over(right).0)?])
}

/// E7: X(H1) = X(H2): the same for each declared symbol.
fn e7(place: Place, left: &Hedge, right: &Hedge) -> Results {
    let symbols = 0..place.setting.declared.symbols;
    symbols.map(|f| named(place, left, right, Functor::Symbol(f as u8))).collect()
}

/// X(H1) = F(H2) with f for X: X() = f(), f(H1) = f(H2).
fn named(place: Place, left: &Hedge, right: &Hedge, f: Functor) -> Result<Conjunction, Refusal> {
    let (Functor::Variable(x), h1) = over(left) else {
        unreachable!("a function variable stands on the left")
    };
    let (_, h2) = over(right);
    let substitution = Substitution::Function(x, f);
    let new = [
        Literal::equation(Hedge::bare(Functor::Variable(x)), Hedge::bare(f)),
        Literal::equation(
            Hedge::one(Item::Over(f, substitution.in_hedge(h1))),
            Hedge::one(Item::Over(f, substitution.in_hedge(h2))),
        ),
    ];
    place.result(&new, Some(&substitution))
}
