//! Questions made to reach a limit, or to stop just short of it.

use std::rc::Rc;

use super::pieces::{conjunction, question_words};
use super::random::Random;
use crate::desk::Desk;
use crate::expression::Expression;
use crate::literal::{Conjunction, Literal};
use crate::read::{Declared, Question};
use crate::tree::{Functor, Hedge, Item};
use crate::words::FIRST_LINE;

const A: Functor = Functor::Symbol(0);

/// A question that reaches one of the numbers 7 to 10, or almost.
pub fn question(random: &mut Random, desk: &Desk) -> Vec<u16> {
    let limits = &desk.limits;
    if desk.shuffles && random.chance(1, 6) {
        return orders(random, desk);
    }
    match random.below(10) {
        0 => doubling(random),
        1 => swelling(random, limits.result),
        2 => cut_run(random, limits.waiting, desk.beside()),
        3 => cut_run(random, limits.answer - FIRST_LINE, desk.beside()),
        4 => products(random),
        5 => counted_steps(random),
        6 => many_cuts(random),
        7 => nested_stars(random),
        8 => swelling_cuts(random),
        _ => full_question(random, limits.question),
    }
}

fn declared(symbols: u16, terms: u16, hedges: u16, functions: u16) -> Declared {
    Declared { symbols, unordered: 0, terms, hedges, functions }
}

fn words(declared: Declared, conjunctions: Vec<Conjunction>) -> Vec<u16> {
    question_words(&Question { declared, conjunctions })
}

/// a, so many times.
fn leaves(count: usize) -> Vec<Item> {
    vec![Item::Over(A, Hedge::EMPTY); count]
}

fn term_variable(number: u8) -> Hedge {
    Hedge::one(Item::TermVariable(number))
}

fn hedge_variable(number: u8) -> Hedge {
    Hedge::one(Item::HedgeVariable(number))
}

/// A literal of exactly `words` words, 5 or more, that no rule touches as
/// long as its hedge variable is nowhere else.
fn padding(number: u8, words: usize) -> Rc<Literal> {
    let stars = (4..words).fold(Expression::Eps, |inner, _| Expression::star(inner));
    Literal::membership(hedge_variable(number), stars)
}

/// A small number around 0, added to `base`.
fn around(random: &mut Random, base: usize) -> usize {
    base + random.below(6) - 3
}

/// x0 = f(x1, x1), x1 = f(x2, x2) and so on, in terms or in hedges.
fn doubling(random: &mut Random) -> Vec<u16> {
    let count = random.range(4, 10) as u8;
    let times = random.range(2, 3);
    let in_hedges = random.chance(1, 2);
    let mut literals = Vec::new();
    for number in 0..count {
        literals.push(if in_hedges {
            let twice = vec![Item::HedgeVariable(number + 1); times];
            Literal::equation(hedge_variable(number), Hedge::new(twice))
        } else {
            let twice = Hedge::new(vec![Item::TermVariable(number + 1); times]);
            Literal::equation(term_variable(number), Hedge::one(Item::Over(A, twice)))
        });
    }
    if in_hedges && random.chance(1, 2) {
        literals.push(Literal::equation(hedge_variable(count), Hedge::new(leaves(2))));
    }
    words(declared(1, 11, 11, 0), vec![conjunction(&literals)])
}

/// y = f(x, ..., x), x = t, and padding, so that the result of the first step
/// has about `most` words.
fn swelling(random: &mut Random, most: usize) -> Vec<u16> {
    let times = random.range(2, 12);
    let leaf_count = random.range(5, 25);
    let term = Item::Over(A, Hedge::new(leaves(leaf_count)));
    let long = 10 + (times + 1) * (2 + 2 * leaf_count);
    let copies = Hedge::one(Item::Over(A, Hedge::new(vec![Item::TermVariable(0); times])));
    let mut literals = vec![
        Literal::equation(term_variable(1), copies),
        Literal::equation(term_variable(0), Hedge::one(term)),
    ];
    let wanted = around(random, most);
    if wanted >= long + 5 {
        literals.push(padding(0, wanted - long));
    }
    words(declared(1, 2, 1, 0), vec![conjunction(&literals)])
}

/// (p, q) = (a, ..., a) and padding in two alternatives, so that the results
/// of the first step and what waits take about `total` words, `beside` more for
/// each conjunction counted in.
fn cut_run(random: &mut Random, total: usize, beside: usize) -> Vec<u16> {
    let count = random.range(14, 45);
    let total = around(random, total);
    let each = (total - 12) / (count + 1);
    let rest = total - (count + 1) * each;
    // A result has 8 words of its own, 2 for each a, and the padding.
    let pad = each - 8 - beside - 2 * count;
    let left = Hedge::new(vec![Item::HedgeVariable(0), Item::HedgeVariable(1)]);
    let first = [Literal::equation(left, Hedge::new(leaves(count))), padding(2, pad)];
    let second = [padding(2, rest - beside)];
    words(declared(1, 0, 3, 0), vec![conjunction(&first), conjunction(&second)])
}

/// a + a + ... + a.
fn choices(count: usize) -> Expression {
    let leaf = Expression::over(0, Expression::Eps);
    (1..count).fold(leaf.clone(), |rest, _| Expression::choice(leaf.clone(), rest))
}

/// Variables each in a choice: about 512 lines in all.
fn products(random: &mut Random) -> Vec<u16> {
    let pairs = [(16, 32), (8, 64), (19, 27), (7, 73), (22, 23), (23, 23), (4, 128), (3, 171)];
    let (first, second) = random.pick(&pairs);
    let literals = [
        Literal::membership(term_variable(0), choices(first)),
        Literal::membership(term_variable(1), choices(second)),
    ];
    let mut conjunctions = vec![conjunction(&literals)];
    for _ in 0..random.below(3) {
        let empty = Conjunction::default();
        if random.chance(1, 2) {
            conjunctions.push(empty);
        } else {
            conjunctions.insert(0, empty);
        }
    }
    words(declared(1, 2, 0, 0), conjunctions)
}

/// Choices that all end in failure, 2·n·m·k - 1 steps for them, and then
/// alternatives of one step each: about 10,000 steps.
fn counted_steps(random: &mut Random) -> Vec<u16> {
    let factors =
        [(10, 20, 25), (20, 10, 25), (5, 40, 25), (25, 25, 8), (50, 10, 10), (10, 10, 49)];
    let (n, m, k) = random.pick(&factors);
    let b = Hedge::bare(Functor::Symbol(1));
    let failing = [
        Literal::membership(term_variable(0), choices(n)),
        Literal::membership(term_variable(1), choices(m)),
        Literal::membership(b.clone(), choices(k)),
    ];
    let mut conjunctions = vec![conjunction(&failing)];
    for _ in 0..random.below(4) {
        let clash = Literal::equation(Hedge::bare(A), b.clone());
        conjunctions.push(conjunction(&[clash]));
    }
    if random.chance(1, 2) {
        conjunctions.push(Conjunction::default());
    }
    if random.chance(1, 3) {
        let times = Hedge::one(Item::Over(A, Hedge::new(vec![Item::TermVariable(0); 30])));
        let long = Hedge::one(Item::Over(A, Hedge::new(leaves(40))));
        conjunctions.push(conjunction(&[
            Literal::equation(term_variable(1), times),
            Literal::equation(term_variable(0), long),
        ]));
    }
    words(declared(2, 2, 0, 0), conjunctions)
}

/// Several hedge variables against a run of terms, with something after it.
fn many_cuts(random: &mut Random) -> Vec<u16> {
    let variables = random.range(3, 6);
    let count = random.range(4, 11);
    let mut left: Vec<Item> = (0..variables).map(|p| Item::HedgeVariable(p as u8)).collect();
    let mut right = leaves(count);
    if random.chance(1, 2) {
        left.push(Item::Over(Functor::Symbol(1), Hedge::EMPTY));
        right.push(Item::Over(Functor::Symbol(random.below(3) as u8), Hedge::EMPTY));
    }
    let sides = (Hedge::new(left), Hedge::new(right));
    let mut literals = vec![if random.chance(1, 2) {
        Literal::equation(sides.0.clone(), sides.1)
    } else {
        Literal::equation(sides.1, sides.0.clone())
    }];
    if random.chance(1, 2) {
        let a = Expression::over(0, Expression::Eps);
        let b = Expression::over(1, Expression::Eps);
        let expression = Expression::concatenation(Expression::star(a), b);
        literals.push(Literal::membership(sides.0, expression));
    }
    words(declared(3, 0, 6, 0), vec![conjunction(&literals)])
}

/// Terms in stars within stars and concatenations: the rests grow, with the
/// square of the depth where there are stars alone, past 65,535 words.
fn nested_stars(random: &mut Random) -> Vec<u16> {
    if random.chance(1, 6) {
        let leaf = Expression::over(0, Expression::Eps);
        let deep = random.pick(&[80, 89, 90, 250, 361, 362, 400]);
        let stars = (0..deep).fold(leaf, |inner, _| Expression::star(inner));
        let literal = Literal::membership(Hedge::new(leaves(2)), stars);
        return words(declared(2, 0, 1, 0), vec![conjunction(&[literal])]);
    }
    let deep = random.range(3, 45);
    let mut expression = Expression::over(0, Expression::Eps);
    for _ in 0..deep {
        expression = match random.below(5) {
            0 => Expression::concatenation(expression.clone(), Expression::star(Expression::Eps)),
            1 if expression.words() < 200 => {
                Expression::concatenation(expression.clone(), expression)
            }
            2 if expression.words() < 200 => Expression::choice(expression.clone(), expression),
            _ => Expression::star(expression),
        };
    }
    let mut items = leaves(random.range(2, 30));
    if random.chance(1, 2) {
        items.push(Item::HedgeVariable(0));
    }
    let literal = Literal::membership(Hedge::new(items), expression);
    words(declared(2, 0, 1, 0), vec![conjunction(&[literal])])
}

/// f(T) = f(T') or f(T) in f(R) with f unordered, and padding, so that the
/// orders of T take about as many words as may wait, or are too many.
fn orders(random: &mut Random, desk: &Desk) -> Vec<u16> {
    let count = random.pick(&[2, 3, 3, 4, 4, 5, 5, 6, 7, 9, 40]);
    let f = |items| Hedge::one(Item::Over(Functor::Symbol(2), Hedge::new(items)));
    let other = vec![Item::Over(Functor::Symbol(1), Hedge::EMPTY); count];
    let first = match random.below(3) {
        0 => Literal::membership(f(leaves(count)), Expression::over(2, choices(2))),
        1 => Literal::equation(f(leaves(count)), f(other)),
        _ => Literal::equation(f(vec![Item::HedgeVariable(0)]), f(leaves(count))),
    };
    let mut literals = vec![first];
    // A result has two or four words less than the question.
    let results: usize = (1..=count.min(8)).product();
    let each = desk.limits.waiting / results;
    let own = literals[0].words() + desk.beside();
    if (own + 10..desk.limits.result - 20).contains(&each) {
        literals.push(padding(1, around(random, each - own + 3)));
    }
    words(Declared { unordered: 1, ..declared(3, 0, 2, 0) }, vec![conjunction(&literals)])
}

/// (p, q) = (a, ..., a), and p many times elsewhere: a late cut is too long.
fn swelling_cuts(random: &mut Random) -> Vec<u16> {
    let count = random.range(5, 40);
    let times = random.range(2, 40);
    let left = Hedge::new(vec![Item::HedgeVariable(0), Item::HedgeVariable(1)]);
    let copies = Hedge::one(Item::Over(A, Hedge::new(vec![Item::HedgeVariable(0); times])));
    let literals = [
        Literal::equation(left, Hedge::new(leaves(count))),
        Literal::equation(term_variable(0), copies),
    ];
    words(declared(1, 1, 2, 0), vec![conjunction(&literals)])
}

/// About `most` words in one literal: wide, deep, or an expression.
fn full_question(random: &mut Random, most: usize) -> Vec<u16> {
    let wanted = around(random, most) - 7;
    let literal = match random.below(4) {
        0 => padding(0, wanted),
        1 => Literal::equation(hedge_variable(0), Hedge::new(leaves((wanted - 4) / 2))),
        2 => {
            let deep = |count: usize, bottom: Hedge| {
                (0..count).fold(bottom, |inner, _| Hedge::one(Item::Over(A, inner)))
            };
            let half = (wanted - 3) / 4;
            Literal::equation(deep(half, hedge_variable(0)), deep(half, Hedge::EMPTY))
        }
        _ => {
            let mut expression = Expression::Eps;
            for _ in 0..(wanted - 6) / 4 {
                let part = Expression::over(1, Expression::star(expression.clone()));
                expression = match random.below(2) {
                    0 => Expression::choice(part, Expression::Eps),
                    _ => Expression::concatenation(Expression::Eps, part),
                };
            }
            Literal::membership(Hedge::one(Item::TermVariable(0)), expression)
        }
    };
    words(declared(2, 1, 1, 0), vec![conjunction(&[literal])])
}
