//! Putting terms, hedges and functors for variables. Parts that hold none of
//! the variables are shared, not built again.

use crate::literal::{Claim, Literal};
use crate::tree::{Functor, Hedge, Item, Variables};
use std::rc::Rc;

/// What is put for which variables.
pub enum Substitution {
    Term(u8, Item),
    /// The same hedge for each variable of a set.
    Hedges(u128, Hedge),
    Function(u8, Functor),
}

impl Substitution {
    pub fn hedge(number: u8, value: Hedge) -> Substitution {
        Substitution::Hedges(1 << number, value)
    }

    /// The variables that go.
    pub fn variables(&self) -> Variables {
        match self {
            Substitution::Term(number, _) => Variables::term(*number),
            Substitution::Hedges(set, _) => Variables { hedge: *set, ..Variables::NONE },
            Substitution::Function(number, _) => Variables::function(*number),
        }
    }

    pub fn in_hedge(&self, hedge: &Hedge) -> Hedge {
        if !hedge.variables().meets(self.variables()) {
            return hedge.clone();
        }
        let mut items = Vec::with_capacity(hedge.items().len());
        for item in hedge.items() {
            match (item, self) {
                (Item::TermVariable(number), Substitution::Term(gone, term)) if number == gone => {
                    items.push(term.clone());
                }
                (Item::HedgeVariable(number), Substitution::Hedges(set, value))
                    if set & (1 << number) != 0 =>
                {
                    items.extend_from_slice(value.items());
                }
                (Item::Over(functor, children), _) => {
                    items.push(Item::Over(self.in_functor(*functor), self.in_hedge(children)));
                }
                _ => items.push(item.clone()),
            }
        }
        Hedge::new(items)
    }

    pub fn in_functor(&self, functor: Functor) -> Functor {
        match (functor, self) {
            (Functor::Variable(number), Substitution::Function(gone, value)) if number == *gone => {
                *value
            }
            _ => functor,
        }
    }

    pub fn in_literal(&self, literal: &Rc<Literal>) -> Rc<Literal> {
        if !literal.variables().meets(self.variables()) {
            return literal.clone();
        }
        match literal.claim() {
            Claim::Equation(left, right) => {
                Literal::equation(self.in_hedge(left), self.in_hedge(right))
            }
            Claim::Membership(hedge, expression) => {
                Literal::membership(self.in_hedge(hedge), expression.clone())
            }
        }
    }
}
