//! One step: what the chosen rule leaves in place of the conjunction.

mod equations;
mod memberships;

use std::rc::Rc;

use crate::literal::{Claim, Conjunction, Literal};
use crate::orders::Orders;
use crate::rules::{later_equal, Choice, Rule, Setting, Way};
use crate::substitution::Substitution;
use crate::tree::{Functor, Hedge};
use crate::words::Refusal;

use equations::on_equation;
use memberships::on_membership;

/// The results of a step, in order; number 7 where one is too long.
pub type Results = Result<Vec<Conjunction>, Refusal>;

/// Uses the chosen rule.
pub fn step(setting: &Setting, conjunction: &Conjunction, choice: Choice) -> Results {
    let place = Place { conjunction, at: choice.at, setting };
    if choice.rule == Rule::Clash {
        return Ok(Vec::new());
    }
    if choice.rule == Rule::Fold {
        let later = later_equal(conjunction.literals(), choice.at).expect("a later equal");
        return Place { at: later, ..place }.leaves(&[]);
    }
    match (conjunction.literals()[choice.at].claim(), choice.way) {
        (Claim::Equation(left, right), Way::Written) => {
            on_equation(place, choice.rule, left, right)
        }
        (Claim::Equation(left, right), Way::Swapped) => {
            on_equation(place, choice.rule, right, left)
        }
        (Claim::Membership(hedge, expression), _) => {
            on_membership(place, choice.rule, hedge, expression)
        }
    }
}

/// A literal's place in a conjunction.
#[derive(Clone, Copy)]
struct Place<'a> {
    conjunction: &'a Conjunction,
    at: usize,
    setting: &'a Setting,
}

impl Place<'_> {
    /// The conjunction with new literals in the place of the old, and the
    /// substitution made in the rest.
    fn result(
        self,
        new: &[Rc<Literal>],
        substitution: Option<&Substitution>,
    ) -> Result<Conjunction, Refusal> {
        let old = self.conjunction.literals();
        let mut result = Conjunction::with_room(old.len() - 1 + new.len());
        let in_rest = |literal: &Rc<Literal>| match substitution {
            None => literal.clone(),
            Some(substitution) => substitution.in_literal(literal),
        };
        let before = old[..self.at].iter().map(in_rest);
        let after = old[self.at + 1..].iter().map(in_rest);
        for literal in before.chain(new.iter().cloned()).chain(after) {
            result.push(literal);
            if result.words() > self.setting.desk.limits.result {
                return Err(Refusal::ResultTooLong);
            }
        }
        Ok(result)
    }

    /// One result, without a substitution.
    fn leaves(self, new: &[Rc<Literal>]) -> Results {
        Ok(vec![self.result(new, None)?])
    }

    /// One result for each order of the terms, without a substitution. They
    /// are of one length, so 7 is decided by the first; and where they pass
    /// what may wait, 8 is, and the others are not made.
    fn for_each_order(self, terms: &Hedge, literal: impl Fn(Hedge) -> Rc<Literal>) -> Results {
        let mut results = Vec::new();
        let mut room = 0;
        for order in Orders::of(terms.items().len()) {
            let items = order.iter().map(|at| terms.items()[*at].clone()).collect();
            let result = self.result(&[literal(Hedge::new(items))], None)?;
            room += result.words() + self.setting.desk.beside();
            results.push(result);
            if room > self.setting.desk.limits.waiting {
                break;
            }
        }
        Ok(results)
    }
}

/// The first `count` elements.
fn upto(hedge: &Hedge, count: usize) -> Hedge {
    Hedge::of_slice(&hedge.items()[..count])
}

/// The elements behind the first `count`.
fn from(hedge: &Hedge, count: usize) -> Hedge {
    Hedge::of_slice(&hedge.items()[count..])
}

/// The functor and children of a lone term that is known to have them.
fn over(hedge: &Hedge) -> (Functor, &Hedge) {
    hedge.lone_over().expect("a lone term with a functor")
}
