//! Questions in which one variable has two memberships and more.

use super::pieces::{self, conjunction, question_words, Pieces};
use super::planted::{around, ground};
use super::random::Random;
use crate::desk::Desk;
use crate::expression::Expression;
use crate::literal::{Conjunction, Literal};
use crate::read::{Declared, Question};
use crate::tree::{Hedge, Item};

/// Memberships of one variable, small or with long walks, and now and then
/// another alternative.
pub fn question(random: &mut Random, desk: &Desk) -> Vec<u16> {
    let mut question = match random.below(8) {
        0 => long_walk(random),
        1 => deep_walk(random),
        _ => small(random, desk),
    };
    if random.chance(1, 3) {
        let at = random.below(question.conjunctions.len() + 1);
        question.conjunctions.insert(at, Conjunction::default());
    }
    question_words(&question)
}

/// A lone variable of either kind.
fn variable(random: &mut Random) -> Hedge {
    Hedge::one(random.pick(&[Item::TermVariable(0), Item::HedgeVariable(0)]))
}

/// Two to four memberships: random expressions, or those around one value, so
/// that they share it.
fn small(random: &mut Random, desk: &Desk) -> Question {
    let mut declared = pieces::declared(random, desk);
    declared.terms = declared.terms.max(1);
    declared.hedges = declared.hedges.max(1);
    let pieces = Pieces { declared };
    let variable = variable(random);
    let value = match variable.lone_term_variable() {
        Some(_) => Hedge::one(ground(&declared).term(random, 2)),
        None => ground(&declared).hedge(random, 2, 3),
    };
    let mut literals = Vec::new();
    for _ in 0..random.range(2, 4) {
        let expression = if random.chance(1, 2) {
            around(random, &pieces, &value)
        } else {
            let size = random.range(1, 7);
            pieces.expression(random, size)
        };
        literals.push(Literal::membership(variable.clone(), expression));
    }
    if random.chance(1, 4) {
        literals.insert(random.below(literals.len() + 1), pieces.literal(random));
    }
    Question { declared, conjunctions: vec![conjunction(&literals)] }
}

fn leaf(symbol: u8) -> Expression {
    Expression::over(symbol, Expression::Eps)
}

/// (a·..·a)*, `count` of them.
fn turns(count: usize) -> Expression {
    Expression::star((1..count).fold(leaf(0), |rest, _| Expression::concatenation(leaf(0), rest)))
}

/// Runs of two lengths: about as many pairs as a walk may reach. What stands
/// behind them tells whether they share a member.
fn long_walk(random: &mut Random) -> Question {
    let variable = Hedge::one(Item::HedgeVariable(0));
    let (first, second) = random.pick(&[(63, 65), (64, 65), (61, 67), (62, 67), (60, 61), (7, 9)]);
    let behind = |expression, symbol| Expression::concatenation(expression, leaf(symbol));
    let expressions = match random.below(3) {
        0 => [turns(first), turns(second)],
        1 => [behind(turns(first), 1), behind(turns(second), 2)],
        _ => [behind(turns(first), 1), behind(turns(second), 1)],
    };
    let mut literals: Vec<_> = expressions
        .into_iter()
        .map(|expression| Literal::membership(variable.clone(), expression))
        .collect();
    if random.chance(1, 3) {
        // A clash that is looked at before the long walk, or after it.
        let other = Hedge::one(Item::TermVariable(0));
        let at = random.below(3);
        literals.insert(at, Literal::membership(other.clone(), leaf(0)));
        literals.insert(at, Literal::membership(other, leaf(1)));
    }
    let declared = Declared { symbols: 3, unordered: 0, terms: 1, hedges: 1, functions: 0 };
    Question { declared, conjunctions: vec![conjunction(&literals)] }
}

/// Stars within stars, and symbols within symbols.
fn deep_walk(random: &mut Random) -> Question {
    let variable = variable(random);
    let deep = random.range(20, 120);
    let mut tower = |bottom: Expression| {
        let nested = random.chance(1, 2);
        (0..deep).fold(bottom, |inner, _| match nested {
            true => Expression::over(0, inner),
            false => Expression::star(inner),
        })
    };
    let expressions = [tower(leaf(0)), tower(leaf(1))];
    let literals: Vec<_> = expressions
        .into_iter()
        .map(|expression| Literal::membership(variable.clone(), Expression::over(0, expression)))
        .collect();
    let declared = Declared { symbols: 2, unordered: 0, terms: 1, hedges: 1, functions: 0 };
    Question { declared, conjunctions: vec![conjunction(&literals)] }
}
