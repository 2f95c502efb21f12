//! Fillings to try on a question, and questions made for long fillings.

use super::damage;
use super::pieces::{conjunction, question_words};
use super::planted::filling as random_filling;
use super::random::Random;
use crate::desk::Desk;
use crate::example::write;
use crate::expression::Expression;
use crate::filling::Filling;
use crate::literal::Literal;
use crate::read::{self, Declared, Question};
use crate::tree::{Functor, Hedge, Item};
use crate::words::{FILLED_MOST, FILLING_MOST};

/// Adds random fillings of the right form for a question, where its header
/// can be made out, and damaged ones.
pub fn more(random: &mut Random, desk: &Desk, question: &[u16], fillings: &mut Vec<Vec<u16>>) {
    let declared = match read::question(question, desk) {
        Ok(question) => question.declared,
        Err(_) => Declared { symbols: 2, unordered: 0, terms: 1, hedges: 1, functions: 1 },
    };
    let deep = random.range(0, 2);
    fillings.push(write(&random_filling(random, &declared, deep, 3)));
    for at in 0..fillings.len() {
        if random.chance(1, 3) {
            let mut near = fillings[at].clone();
            damage::filling(random, &mut near);
            fillings.push(near);
        }
    }
    if random.chance(1, 40) {
        fillings.push(Vec::new());
    }
}

/// A question with a variable many times, and a filling that makes a literal
/// about 8,192 words long.
pub fn wide(random: &mut Random) -> (Vec<u16>, Vec<u16>) {
    let declared = Declared { symbols: 2, unordered: 0, terms: 0, hedges: 2, functions: 0 };
    let times = random.range(3, 8);
    let mut items = vec![Item::HedgeVariable(0); times];
    items.push(Item::HedgeVariable(1));
    let hedge = Hedge::new(items);
    let leaf = Item::Over(Functor::Symbol(0), Hedge::EMPTY);
    let wanted = FILLED_MOST - 6 + random.below(14);
    let (literal, own) = if random.chance(1, 2) {
        (Literal::equation(hedge.clone(), hedge), 3 + wanted / 2)
    } else {
        let mut expression = Expression::over(0, Expression::Eps);
        for _ in 0..random.range(1, 4) {
            expression = Expression::star(expression);
        }
        let own = 2 + expression.words();
        (Literal::membership(hedge, expression), own)
    };
    let leaves = wanted.saturating_sub(own) / 2;
    let each = (leaves / times).saturating_sub(random.below(40)).min(1400);
    let last = (leaves - times * each).min(600);
    let mut values = vec![vec![leaf.clone(); each], vec![leaf; last]];
    if random.chance(1, 3) {
        let odd = Item::Over(Functor::Symbol(1), Hedge::EMPTY);
        values[1].pop();
        values[1].push(odd);
    }
    let mut values = values.into_iter().map(Hedge::new);
    let filling = Filling {
        terms: Vec::new(),
        hedges: vec![values.next().unwrap(), values.next().unwrap()],
        functions: Vec::new(),
    };
    let mut conjunctions = vec![conjunction(&[literal])];
    if random.chance(1, 2) {
        conjunctions.insert(random.below(2), conjunction(&[]));
    }
    (question_words(&Question { declared, conjunctions }), write(&filling))
}

/// A question whose example is about 4,096 words long: q = (p, ..., p), and p
/// in an expression with a long sample.
pub fn long_example(random: &mut Random) -> Vec<u16> {
    let declared = Declared { symbols: 1, unordered: 0, terms: 0, hedges: 2, functions: 0 };
    let leaves = random.range(10, 100);
    let leaf = Expression::over(0, Expression::Eps);
    let expression =
        (1..leaves).fold(leaf.clone(), |rest, _| Expression::concatenation(leaf.clone(), rest));
    // The filling has 4 + (2 leaves + 1) + (2 leaves times + 1) words.
    let about = (FILLING_MOST - 6 - 2 * leaves) / (2 * leaves);
    let times = (about + random.below(3)).max(2) - 1;
    let copies = Hedge::new(vec![Item::HedgeVariable(0); times.min(300)]);
    let first = if random.chance(1, 3) {
        // The same on both sides: the example is short, but fills these up.
        let side = match random.below(2) {
            0 => copies,
            _ => Hedge::new([copies.items(), copies.items()].concat()),
        };
        Literal::equation(side.clone(), side)
    } else {
        Literal::equation(Hedge::one(Item::HedgeVariable(1)), copies)
    };
    let sampled = Literal::membership(Hedge::one(Item::HedgeVariable(0)), expression);
    let literals = [first, sampled];
    question_words(&Question { declared, conjunctions: vec![conjunction(&literals)] })
}
