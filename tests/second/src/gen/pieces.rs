//! Random terms, hedges, expressions and literals, and the words of a question.

use std::rc::Rc;

use super::random::Random;
use crate::desk::Desk;
use crate::expression::Expression;
use crate::literal::{Conjunction, Literal};
use crate::read::{Declared, Question};
use crate::tree::{Functor, Hedge, Item};

/// The words of a question.
pub fn question_words(question: &Question) -> Vec<u16> {
    let declared = &question.declared;
    let count = question.conjunctions.len();
    let mut words = vec![
        declared.first_word(),
        declared.terms,
        declared.hedges,
        declared.functions,
        count as u16,
    ];
    words.push(6 + count as u16);
    words.resize(6 + count, 0);
    for (number, conjunction) in question.conjunctions.iter().enumerate() {
        conjunction.write(&mut words);
        words[6 + number] = words.len() as u16;
    }
    words
}

pub fn conjunction(literals: &[Rc<Literal>]) -> Conjunction {
    let mut conjunction = Conjunction::with_room(literals.len());
    for literal in literals {
        conjunction.push(literal.clone());
    }
    conjunction
}

/// Counts of symbols and variables: mostly few, so that they meet. In half of
/// the questions of a desk that knows them, some symbols are unordered.
pub fn declared(random: &mut Random, desk: &Desk) -> Declared {
    let (symbols, variables) = match random.chance(1, 30) {
        true => (desk.limits.kind as usize, [desk.limits.kind as usize; 3]),
        false => (4, [3, 3, 2]),
    };
    let symbols = random.range(1, symbols);
    let unordered = match desk.shuffles && random.chance(1, 2) {
        true => random.range(1, symbols.min(3)),
        false => 0,
    };
    let [terms, hedges, functions] = variables.map(|most| random.range(0, most) as u16);
    Declared { symbols: symbols as u16, unordered: unordered as u16, terms, hedges, functions }
}

/// The same elements in another order.
pub fn shuffled(random: &mut Random, mut items: Vec<Item>) -> Hedge {
    for at in (1..items.len()).rev() {
        items.swap(at, random.below(at + 1));
    }
    Hedge::new(items)
}

/// What hedges and expressions are drawn from.
#[derive(Clone, Copy)]
pub struct Pieces {
    pub declared: Declared,
}

impl Pieces {
    pub fn symbol(&self, random: &mut Random) -> u8 {
        random.below(self.declared.symbols as usize) as u8
    }

    pub fn functor(&self, random: &mut Random) -> Functor {
        match self.function_variable(random) {
            Some(x) if random.chance(1, 4) => Functor::Variable(x),
            _ => Functor::Symbol(self.symbol(random)),
        }
    }

    fn number(random: &mut Random, count: u16) -> Option<u8> {
        (count > 0).then(|| random.below(count as usize) as u8)
    }

    pub fn term_variable(&self, random: &mut Random) -> Option<u8> {
        Pieces::number(random, self.declared.terms)
    }

    pub fn hedge_variable(&self, random: &mut Random) -> Option<u8> {
        Pieces::number(random, self.declared.hedges)
    }

    pub fn function_variable(&self, random: &mut Random) -> Option<u8> {
        Pieces::number(random, self.declared.functions)
    }

    /// A term with or without variables.
    pub fn term(&self, random: &mut Random, depth: usize) -> Item {
        match self.term_variable(random) {
            Some(x) if random.chance(1, 3) => Item::TermVariable(x),
            _ => {
                let functor = self.functor(random);
                let children = match depth {
                    0 => Hedge::EMPTY,
                    _ => self.hedge(random, depth - 1, 3),
                };
                Item::Over(functor, children)
            }
        }
    }

    /// A term with a functor.
    pub fn term_over(&self, random: &mut Random, depth: usize) -> Item {
        Item::Over(self.functor(random), self.hedge(random, depth, 3))
    }

    pub fn item(&self, random: &mut Random, depth: usize) -> Item {
        match self.hedge_variable(random) {
            Some(p) if random.chance(1, 3) => Item::HedgeVariable(p),
            _ => self.term(random, depth),
        }
    }

    /// At most `most` elements.
    pub fn hedge(&self, random: &mut Random, depth: usize, most: usize) -> Hedge {
        let count = random.below(most + 1);
        Hedge::new((0..count).map(|_| self.item(random, depth)).collect())
    }

    /// Terms alone, at most `most`.
    pub fn terms(&self, random: &mut Random, depth: usize, most: usize) -> Vec<Item> {
        let count = random.below(most + 1);
        (0..count).map(|_| self.term(random, depth)).collect()
    }

    /// An expression of about `size` operators and symbols.
    pub fn expression(&self, random: &mut Random, size: usize) -> Expression {
        if size == 0 {
            return match random.below(3) {
                0 => Expression::Eps,
                _ => Expression::over(self.symbol(random), Expression::Eps),
            };
        }
        match random.below(9) {
            0..=2 => {
                let left = random.below(size);
                let left_part = self.expression(random, left);
                Expression::concatenation(left_part, self.expression(random, size - 1 - left))
            }
            3..=4 => {
                let left = random.below(size);
                let left_part = self.expression(random, left);
                Expression::choice(left_part, self.expression(random, size - 1 - left))
            }
            5..=6 => Expression::star(self.expression(random, size - 1)),
            _ => Expression::over(self.symbol(random), self.expression(random, size - 1)),
        }
    }

    pub fn literal(&self, random: &mut Random) -> Rc<Literal> {
        if random.chance(11, 20) {
            self.equation(random)
        } else {
            self.membership(random)
        }
    }

    /// A lone variable of a kind that is declared, or else a short hedge.
    fn lone_variable(&self, random: &mut Random) -> Hedge {
        let hedge_first = random.chance(1, 2);
        let p = self.hedge_variable(random).map(Item::HedgeVariable);
        let x = self.term_variable(random).map(Item::TermVariable);
        let item = if hedge_first { p.or(x) } else { x.or(p) };
        item.map_or_else(|| self.hedge(random, 1, 2), Hedge::one)
    }

    /// Hedge variables alone, where any are declared.
    fn hedge_variables(&self, random: &mut Random, most: usize) -> Vec<Item> {
        let count = random.range(1, most);
        (0..count).filter_map(|_| self.hedge_variable(random)).map(Item::HedgeVariable).collect()
    }

    /// An equation, of one of the shapes the rules look for; sides swapped in
    /// half of them.
    pub fn equation(&self, random: &mut Random) -> Rc<Literal> {
        let (left, right) = self.sides(random);
        if random.chance(1, 2) {
            Literal::equation(left, right)
        } else {
            Literal::equation(right, left)
        }
    }

    fn sides(&self, random: &mut Random) -> (Hedge, Hedge) {
        match random.below(14) {
            // A lone variable.
            0 => (self.lone_variable(random), Hedge::one(self.term(random, 2))),
            1 => (self.lone_variable(random), self.hedge(random, 2, 4)),
            // A hedge variable and more, against terms.
            2 | 3 => {
                let mut left = self.hedge_variables(random, 2);
                left.extend_from_slice(self.hedge(random, 1, 2).items());
                (Hedge::new(left), Hedge::new(self.terms(random, 1, 4)))
            }
            // The same, where a term may hold the variable.
            4 => {
                let mut left = self.hedge_variables(random, 1);
                let mut right = self.terms(random, 1, 2);
                let mut inner = self.hedge(random, 1, 2).items().to_vec();
                inner.extend(left.iter().cloned());
                right.push(Item::Over(self.functor(random), Hedge::new(inner)));
                right.extend_from_slice(self.hedge(random, 1, 1).items());
                left.extend_from_slice(self.hedge(random, 1, 2).items());
                (Hedge::new(left), Hedge::new(right))
            }
            // A variable within what it should equal.
            5 => {
                let lone = self.lone_variable(random);
                let mut right = self.hedge_variables(random, 3);
                right.extend(lone.items().iter().cloned());
                if random.chance(1, 2) {
                    right.extend(self.hedge_variables(random, 2));
                }
                if random.chance(1, 3) {
                    right = vec![Item::Over(self.functor(random), Hedge::new(right))];
                }
                (lone, Hedge::new(right))
            }
            // Functors.
            6 => (Hedge::bare(self.functor(random)), Hedge::bare(self.functor(random))),
            7 | 8 => (Hedge::one(self.term_over(random, 2)), Hedge::one(self.term_over(random, 2))),
            // Sides that start alike, or are alike.
            9 => {
                let mut left = self.hedge(random, 1, 2).items().to_vec();
                let mut right = left.clone();
                left.extend_from_slice(self.hedge(random, 1, 2).items());
                right.extend_from_slice(self.hedge(random, 1, 2).items());
                (Hedge::new(left), Hedge::new(right))
            }
            // The same functor over elements of the one and the other, some shared.
            10 | 11 => {
                let functor = self.functor(random);
                let shared = self.hedge(random, 1, 2);
                let mut side = || {
                    let more = self.hedge(random, 1, 3);
                    let items = [shared.items(), more.items()].concat();
                    Hedge::one(Item::Over(functor, shuffled(random, items)))
                };
                (side(), side())
            }
            // Terms against terms.
            12 => (Hedge::new(self.terms(random, 2, 3)), Hedge::new(self.terms(random, 2, 3))),
            _ => (self.hedge(random, 2, 4), self.hedge(random, 2, 4)),
        }
    }

    pub fn membership(&self, random: &mut Random) -> Rc<Literal> {
        let size = random.below(6);
        let hedge = match random.below(10) {
            0..=2 => self.lone_variable(random),
            3 => Hedge::one(self.term_over(random, 2)),
            4 => Hedge::new(self.hedge_variables(random, 3)),
            5 => Hedge::new(self.terms(random, 1, 3)),
            _ => self.hedge(random, 2, 3),
        };
        let expression = match (random.below(8), hedge.lone_over()) {
            (0, _) => Expression::Eps,
            (1..=3, Some((Functor::Symbol(f), _))) => {
                Expression::over(f, self.expression(random, size))
            }
            _ => self.expression(random, size),
        };
        Literal::membership(hedge, expression)
    }
}
