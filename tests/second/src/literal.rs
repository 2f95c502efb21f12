//! Literals and conjunctions. A literal knows its length, its variables and
//! the rule it allows by itself; conjunctions share their literals.

use std::cell::OnceCell;
use std::rc::Rc;

use crate::expression::Expression;
use crate::read::Declared;
use crate::rules::{reach, Reach};
use crate::tree::{mixed, Hedge, Variables};
use crate::words::{END, EQUATION, MEMBERSHIP};

/// What a literal says.
#[derive(Clone, PartialEq, Debug)]
pub enum Claim {
    Equation(Hedge, Hedge),
    Membership(Hedge, Expression),
}

#[derive(Debug)]
pub struct Literal {
    claim: Claim,
    words: usize,
    variables: Variables,
    reach: OnceCell<Reach>,
}

impl Literal {
    pub fn new(claim: Claim) -> Rc<Literal> {
        let (words, variables) = match &claim {
            Claim::Equation(left, right) => {
                (3 + left.words() + right.words(), left.variables().union(right.variables()))
            }
            Claim::Membership(hedge, expression) => {
                (2 + hedge.words() + expression.words(), hedge.variables())
            }
        };
        Rc::new(Literal { claim, words, variables, reach: OnceCell::new() })
    }

    pub fn equation(left: Hedge, right: Hedge) -> Rc<Literal> {
        Literal::new(Claim::Equation(left, right))
    }

    pub fn membership(hedge: Hedge, expression: Expression) -> Rc<Literal> {
        Literal::new(Claim::Membership(hedge, expression))
    }

    pub fn claim(&self) -> &Claim {
        &self.claim
    }

    pub fn words(&self) -> usize {
        self.words
    }

    /// A number that differs for most literals with different words.
    pub fn hash(&self) -> u64 {
        match &self.claim {
            Claim::Equation(left, right) => {
                mixed(mixed(EQUATION as u64, left.hash()), right.hash())
            }
            Claim::Membership(hedge, expression) => {
                mixed(mixed(MEMBERSHIP as u64, hedge.hash()), expression.hash())
            }
        }
    }

    /// The same words.
    pub fn same(&self, other: &Literal) -> bool {
        self.words == other.words && self.claim == other.claim
    }

    pub fn variables(&self) -> Variables {
        self.variables
    }

    /// The rule it allows by itself, looked for once: a literal belongs to one
    /// question, and so to one declaration.
    pub fn reach(&self, declared: &Declared) -> &Reach {
        self.reach.get_or_init(|| reach(declared, &self.claim))
    }

    pub fn write(&self, out: &mut Vec<u16>) {
        match &self.claim {
            Claim::Equation(left, right) => {
                out.push(EQUATION);
                left.write(out);
                out.push(END);
                right.write(out);
                out.push(END);
            }
            Claim::Membership(hedge, expression) => {
                out.push(MEMBERSHIP);
                hedge.write(out);
                out.push(END);
                expression.write(out);
            }
        }
    }
}

/// A conjunction and its length in words.
#[derive(Clone, Default, Debug)]
pub struct Conjunction {
    literals: Vec<Rc<Literal>>,
    words: usize,
}

impl Conjunction {
    pub fn with_room(literals: usize) -> Conjunction {
        Conjunction { literals: Vec::with_capacity(literals), words: 0 }
    }

    pub fn push(&mut self, literal: Rc<Literal>) {
        self.words += literal.words();
        self.literals.push(literal);
    }

    pub fn literals(&self) -> &[Rc<Literal>] {
        &self.literals
    }

    pub fn words(&self) -> usize {
        self.words
    }

    pub fn write(&self, out: &mut Vec<u16>) {
        for literal in &self.literals {
            literal.write(out);
        }
    }
}
