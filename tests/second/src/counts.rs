//! How often each variable occurs in a conjunction: the table that is kept
//! beside the first waiting one, so that no rule rereads the literals to see
//! whether a variable stands elsewhere.

use std::rc::Rc;

use crate::literal::{Claim, Conjunction, Literal};
use crate::tree::{Functor, Hedge, Item, Variables};
use crate::words::KIND_MOST;

/// One number for each variable.
#[derive(Clone, PartialEq, Eq, Debug)]
pub struct Counts {
    terms: [u16; KIND_MOST as usize],
    hedges: [u16; KIND_MOST as usize],
    functions: [u16; KIND_MOST as usize],
}

impl Counts {
    /// The count taken afresh.
    pub fn of(conjunction: &Conjunction) -> Counts {
        let none = [0; KIND_MOST as usize];
        let mut counts = Counts { terms: none, hedges: none, functions: none };
        for literal in conjunction.literals() {
            counts.change(literal, |count| *count += 1);
        }
        counts
    }

    /// Goes on from a conjunction to a result of a step. Literals at either
    /// end that the step left as they were are not looked at.
    pub fn follow(&mut self, before: &Conjunction, after: &Conjunction) {
        let (before, after) = (before.literals(), after.literals());
        let kept = |pair: &(&Rc<Literal>, &Rc<Literal>)| Rc::ptr_eq(pair.0, pair.1);
        let first = before.iter().zip(after).take_while(kept).count();
        let (before, after) = (&before[first..], &after[first..]);
        let last = before.iter().rev().zip(after.iter().rev()).take_while(kept).count();
        for literal in &before[..before.len() - last] {
            self.change(literal, |count| *count -= 1);
        }
        for literal in &after[..after.len() - last] {
            self.change(literal, |count| *count += 1);
        }
    }

    /// Whether each of the variables occurs twice or more.
    pub fn all_repeated(&self, variables: Variables) -> bool {
        self.all(variables, |count| count >= 2)
    }

    /// Whether each of the variables occurs once.
    pub fn all_once(&self, variables: Variables) -> bool {
        self.all(variables, |count| count == 1)
    }

    fn all(&self, variables: Variables, holds: fn(u16) -> bool) -> bool {
        let kinds = [
            (variables.term, &self.terms),
            (variables.hedge, &self.hedges),
            (variables.function, &self.functions),
        ];
        kinds.into_iter().all(|(mut set, counts)| {
            while set != 0 {
                if !holds(counts[set.trailing_zeros() as usize]) {
                    return false;
                }
                set &= set - 1;
            }
            true
        })
    }

    /// Changes the count of each occurrence in a literal.
    fn change(&mut self, literal: &Literal, by: fn(&mut u16)) {
        match literal.claim() {
            Claim::Equation(left, right) => {
                self.change_hedge(left, by);
                self.change_hedge(right, by);
            }
            Claim::Membership(hedge, _) => self.change_hedge(hedge, by),
        }
    }

    fn change_hedge(&mut self, hedge: &Hedge, by: fn(&mut u16)) {
        if hedge.variables().is_empty() {
            return;
        }
        for item in hedge.items() {
            match item {
                Item::TermVariable(number) => by(&mut self.terms[*number as usize]),
                Item::HedgeVariable(number) => by(&mut self.hedges[*number as usize]),
                Item::Over(functor, children) => {
                    if let Functor::Variable(number) = functor {
                        by(&mut self.functions[*number as usize]);
                    }
                    self.change_hedge(children, by);
                }
            }
        }
    }
}
