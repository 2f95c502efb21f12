//! Questions made around a filling, so that the filling is an answer.

use std::rc::Rc;

use super::pieces::{conjunction, shuffled, Pieces};
use super::random::Random;
use crate::expression::Expression;
use crate::filling::Filling;
use crate::literal::{Conjunction, Literal};
use crate::read::Declared;
use crate::tree::{Functor, Hedge, Item};

/// A random filling; values of at most `most` elements, `depth` deep.
pub fn filling(random: &mut Random, declared: &Declared, depth: usize, most: usize) -> Filling {
    let ground = ground(declared);
    Filling {
        terms: (0..declared.terms).map(|_| Hedge::one(ground.term(random, depth))).collect(),
        hedges: (0..declared.hedges).map(|_| ground.hedge(random, depth, most)).collect(),
        functions: (0..declared.functions)
            .map(|_| Functor::Symbol(ground.symbol(random)))
            .collect(),
    }
}

/// Pieces without variables.
pub fn ground(declared: &Declared) -> Pieces {
    Pieces { declared: Declared { terms: 0, hedges: 0, functions: 0, ..*declared } }
}

/// A conjunction that the filling meets.
pub fn planted(
    random: &mut Random,
    pieces: &Pieces,
    filling: &Filling,
    literals: usize,
) -> Conjunction {
    let literals: Vec<_> = (0..literals).map(|_| literal(random, pieces, filling)).collect();
    conjunction(&literals)
}

fn literal(random: &mut Random, pieces: &Pieces, filling: &Filling) -> Rc<Literal> {
    let hedge = pieces.hedge(random, 2, 4);
    let value = other_order(random, pieces, &filling.filled(&hedge));
    if random.chance(1, 2) {
        let other = hidden(random, filling, &value);
        if random.chance(1, 2) {
            Literal::equation(hedge, other)
        } else {
            Literal::equation(other, hedge)
        }
    } else {
        Literal::membership(hedge, around(random, pieces, &value))
    }
}

/// A hedge that is the same, the children of unordered symbols shuffled.
fn other_order(random: &mut Random, pieces: &Pieces, value: &Hedge) -> Hedge {
    if pieces.declared.unordered == 0 {
        return value.clone();
    }
    let mut items = Vec::new();
    for item in value.items() {
        let Item::Over(Functor::Symbol(f), children) = item else {
            unreachable!("a value has no variables")
        };
        let children = other_order(random, pieces, children);
        let children = match pieces.declared.is_unordered(*f) {
            true => shuffled(random, children.items().to_vec()),
            false => children,
        };
        items.push(Item::Over(Functor::Symbol(*f), children));
    }
    Hedge::new(items)
}

/// A hedge with the given value, parts of it replaced by variables.
pub fn hidden(random: &mut Random, filling: &Filling, value: &Hedge) -> Hedge {
    let values = value.items();
    let mut items = Vec::new();
    let mut at = 0;
    loop {
        if !filling.hedges.is_empty() && random.chance(1, 3) {
            let p = random.below(filling.hedges.len());
            let part = filling.hedges[p].items();
            if values[at..].starts_with(part) && (!part.is_empty() || random.chance(1, 2)) {
                items.push(Item::HedgeVariable(p as u8));
                at += part.len();
                continue;
            }
        }
        let Some(item) = values.get(at) else { return Hedge::new(items) };
        items.push(hidden_item(random, filling, item));
        at += 1;
    }
}

fn hidden_item(random: &mut Random, filling: &Filling, item: &Item) -> Item {
    let same = filling.terms.iter().position(|term| term.lone() == Some(item));
    if let (Some(x), true) = (same, random.chance(1, 2)) {
        return Item::TermVariable(x as u8);
    }
    let Item::Over(functor, children) = item else { return item.clone() };
    let same = filling.functions.iter().position(|value| value == functor);
    let functor = match same {
        Some(x) if random.chance(1, 2) => Functor::Variable(x as u8),
        _ => *functor,
    };
    Item::Over(functor, hidden(random, filling, children))
}

/// An expression that has the given value as a member.
pub fn around(random: &mut Random, pieces: &Pieces, value: &Hedge) -> Expression {
    let mut whole: Option<Expression> = None;
    for item in value.items() {
        let Item::Over(Functor::Symbol(f), children) = item else {
            unreachable!("a value has no variables")
        };
        let one = Expression::over(*f, around(random, pieces, children));
        let one = widened(random, pieces, one);
        whole = Some(match whole {
            None => one,
            Some(before) => Expression::concatenation(before, one),
        });
    }
    match whole {
        Some(expression) if random.chance(1, 4) => widened(random, pieces, expression),
        Some(expression) => expression,
        None => match random.below(3) {
            0 => Expression::Eps,
            1 => Expression::star(pieces.expression(random, 1)),
            _ => Expression::choice(pieces.expression(random, 1), Expression::Eps),
        },
    }
}

/// An expression with at least the same members.
fn widened(random: &mut Random, pieces: &Pieces, expression: Expression) -> Expression {
    match random.below(10) {
        0 => Expression::star(expression),
        1 => Expression::choice(expression, pieces.expression(random, 1)),
        2 => Expression::choice(pieces.expression(random, 1), expression),
        3 => {
            let before = Expression::star(pieces.expression(random, 1));
            Expression::concatenation(before, expression)
        }
        4 => Expression::concatenation(expression, Expression::Eps),
        _ => expression,
    }
}
