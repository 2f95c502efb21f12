//! When each rule applies to an equation, read in one way.

use crate::read::Declared;
use crate::rules::Rule;
use crate::tree::{Functor, Hedge, Item, Variables};

/// Whether a rule applies to an equation of these sides; E1, E2 and E5 ask
/// for more, of the other literals.
type Applies = fn(&Declared, &Hedge, &Hedge) -> bool;

/// The rules of equations in their order.
pub const EQUATION_RULES: &[(Rule, Applies)] = &[
    (Rule::R1, |_, left, right| r1(left, right)),
    (Rule::F1, |_, left, right| f1(left, right)),
    (Rule::F2, |_, left, right| f2(left, right)),
    (Rule::F3, |_, left, right| f3(left, right)),
    (Rule::F4, |_, left, right| f4(left, right)),
    (Rule::Del1, |_, left, right| del1(left, right)),
    (Rule::Del2, del2),
    (Rule::Del3, |_, left, right| del3(left, right)),
    (Rule::D1, d1),
    (Rule::D2, |_, left, right| d2(left, right)),
    (Rule::D0, d0),
    (Rule::E1, |_, left, right| e1(left, right)),
    (Rule::E2, |_, left, right| e2(left, right)),
    (Rule::E3, |_, left, right| e3(left, right)),
    (Rule::E4, |_, left, right| e4(left, right)),
    (Rule::E5, |_, left, right| e5(left, right)),
    (Rule::E6, |_, left, right| e6(left, right)),
    (Rule::E7, e7),
];

/// H = H, the same words.
fn r1(left: &Hedge, right: &Hedge) -> bool {
    left == right
}

/// x = hedge with a top-level F(H) holding x.
fn f1(left: &Hedge, right: &Hedge) -> bool {
    let Some(x) = left.lone_term_variable() else { return false };
    let holds_x = |item: &Item| match item {
        Item::Over(_, children) => children.variables().holds(Variables::term(x)),
        _ => false,
    };
    right.items().iter().any(holds_x)
}

/// A lone p = hedge that has a top-level term and holds p.
fn f2(left: &Hedge, right: &Hedge) -> bool {
    let Some(p) = left.lone_hedge_variable() else { return false };
    right.variables().holds(Variables::hedge(p)) && right.has_term()
}

/// Single terms with different symbols.
fn f3(left: &Hedge, right: &Hedge) -> bool {
    match (left.lone_over(), right.lone_over()) {
        (Some((Functor::Symbol(f), _)), Some((Functor::Symbol(g), _))) => f != g,
        _ => false,
    }
}

/// The empty hedge = hedge with a top-level term.
fn f4(left: &Hedge, right: &Hedge) -> bool {
    left.is_empty() && right.has_term()
}

/// Both sides start with the same hedge variable.
fn del1(left: &Hedge, right: &Hedge) -> bool {
    match (left.items().first(), right.items().first()) {
        (Some(Item::HedgeVariable(p)), Some(Item::HedgeVariable(q))) => p == q,
        _ => false,
    }
}

/// f(H1, h, H2) = f(H3, h, H4), f unordered: an element with the same words.
fn del2(declared: &Declared, left: &Hedge, right: &Hedge) -> bool {
    same_unordered(declared, left, right)
        .is_some_and(|(children, others)| shared_element(children, others).is_some())
}

/// The children of single terms with the same unordered symbol.
fn same_unordered<'a>(
    declared: &Declared,
    left: &'a Hedge,
    right: &'a Hedge,
) -> Option<(&'a Hedge, &'a Hedge)> {
    match (left.lone_over(), right.lone_over()) {
        (Some((Functor::Symbol(f), children)), Some((Functor::Symbol(g), others)))
            if f == g && declared.is_unordered(f) =>
        {
            Some((children, others))
        }
        _ => None,
    }
}

/// The places of the first element that two hedges share: earliest in the
/// left one, then in the right.
pub fn shared_element(left: &Hedge, right: &Hedge) -> Option<(usize, usize)> {
    left.items().iter().enumerate().find_map(|(at, item)| {
        let other = right.items().iter().position(|other| other == item)?;
        Some((at, other))
    })
}

/// A lone p = (H1, p, H2), H1 not empty.
fn del3(left: &Hedge, right: &Hedge) -> bool {
    let Some(p) = left.lone_hedge_variable() else { return false };
    right.items().iter().skip(1).any(|item| item.is_hedge_variable(p))
}

/// f(H) = f(T), f unordered, T terms, and no element shared.
fn d1(declared: &Declared, left: &Hedge, right: &Hedge) -> bool {
    same_unordered(declared, left, right).is_some_and(|(children, others)| {
        others.items().iter().all(Item::is_term) && shared_element(children, others).is_none()
    })
}

/// (t1, H1) = (t2, H2), not both rests empty.
fn d2(left: &Hedge, right: &Hedge) -> bool {
    match (left.items(), right.items()) {
        ([t1, h1 @ ..], [t2, h2 @ ..]) => {
            t1.is_term() && t2.is_term() && !(h1.is_empty() && h2.is_empty())
        }
        _ => false,
    }
}

/// Single terms with the same functor: an ordered symbol, or a function
/// variable where no symbol is unordered.
fn d0(declared: &Declared, left: &Hedge, right: &Hedge) -> bool {
    let ordered = |functor| match functor {
        Functor::Symbol(f) => !declared.is_unordered(f),
        Functor::Variable(_) => declared.unordered == 0,
    };
    match (left.lone_over(), right.lone_over()) {
        (Some((f, _)), Some((g, _))) => f == g && ordered(f),
        _ => false,
    }
}

/// x = t, x not in t.
fn e1(left: &Hedge, right: &Hedge) -> bool {
    let Some(x) = left.lone_term_variable() else { return false };
    right.is_lone_term() && !right.variables().holds(Variables::term(x))
}

/// A lone p = H, p not in H.
fn e2(left: &Hedge, right: &Hedge) -> bool {
    let Some(p) = left.lone_hedge_variable() else { return false };
    !right.variables().holds(Variables::hedge(p))
}

/// The p of a (p, H), H not empty.
pub fn leading(hedge: &Hedge) -> Option<u8> {
    match hedge.items() {
        [Item::HedgeVariable(p), _, ..] => Some(*p),
        _ => None,
    }
}

/// (p, H) = T, H not empty, p not in T.
fn e3(left: &Hedge, right: &Hedge) -> bool {
    let Some(p) = leading(left) else { return false };
    !right.variables().holds(Variables::hedge(p)) && right.items().iter().all(Item::is_term)
}

/// (p, H) = (T, t, H2), H not empty, p in t and not in T.
fn e4(left: &Hedge, right: &Hedge) -> bool {
    leading(left).is_some_and(|p| terms_before(right, p).is_some())
}

/// How many terms without p stand before the first term that holds p, where
/// only terms stand before it.
pub fn terms_before(hedge: &Hedge, p: u8) -> Option<usize> {
    for (before, item) in hedge.items().iter().enumerate() {
        if !item.is_term() {
            return None;
        }
        if item.variables().holds(Variables::hedge(p)) {
            return Some(before);
        }
    }
    None
}

/// X() = F(), X not F.
fn e5(left: &Hedge, right: &Hedge) -> bool {
    match (left.lone_bare(), right.lone_bare()) {
        (Some(x @ Functor::Variable(_)), Some(f)) => x != f,
        _ => false,
    }
}

/// X(H1) = F(H2), X not F, children not both empty.
fn e6(left: &Hedge, right: &Hedge) -> bool {
    match (left.lone_over(), right.lone_over()) {
        (Some((x @ Functor::Variable(_), h1)), Some((f, h2))) => {
            x != f && !(h1.is_empty() && h2.is_empty())
        }
        _ => false,
    }
}

/// X(H1) = X(H2) where a symbol is unordered, H1 not H2.
fn e7(declared: &Declared, left: &Hedge, right: &Hedge) -> bool {
    match (left.lone_over(), right.lone_over()) {
        (Some((x @ Functor::Variable(_), h1)), Some((f, h2))) => {
            declared.unordered > 0 && x == f && h1 != h2
        }
        _ => false,
    }
}
