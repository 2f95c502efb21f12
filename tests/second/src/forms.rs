//! Expressions kept once each, by a number, and their linear forms.
//!
//! A rest can have far more words than the expression it comes from, but its
//! parts are few: each is kept once.

use std::collections::HashMap;
use std::rc::Rc;

use crate::expression::Expression;

/// The number of an expression; equal words have equal numbers.
pub type Number = u32;

/// An expression by the numbers of its parts.
#[derive(Clone, Copy, PartialEq, Eq, Hash)]
enum Node {
    Eps,
    Concatenation(Number, Number),
    Choice(Number, Number),
    Star(Number),
    Over(u8, Number),
}

/// A monomial: a term of the symbol over `inner`, then a hedge in `rest`.
#[derive(Clone, Copy, PartialEq, Eq, PartialOrd, Ord)]
pub struct Monomial {
    pub symbol: u8,
    pub inner: Number,
    pub rest: Number,
}

/// The expressions met so far, the linear forms asked for, each monomial once,
/// and which expressions have the empty hedge.
#[derive(Default)]
pub struct Forms {
    numbers: HashMap<Node, Number>,
    nodes: Vec<Node>,
    empty: Vec<bool>,
    linear: Vec<Option<Rc<[Monomial]>>>,
}

impl Forms {
    /// The number of an expression.
    pub fn number(&mut self, expression: &Expression) -> Number {
        let node = match expression {
            Expression::Eps => Node::Eps,
            Expression::Concatenation(two) => {
                Node::Concatenation(self.number(&two.left), self.number(&two.right))
            }
            Expression::Choice(two) => {
                Node::Choice(self.number(&two.left), self.number(&two.right))
            }
            Expression::Star(one) => Node::Star(self.number(&one.inner)),
            Expression::Over(symbol, one) => Node::Over(*symbol, self.number(&one.inner)),
        };
        self.keep(node)
    }

    pub fn has_empty(&self, number: Number) -> bool {
        self.empty[number as usize]
    }

    fn keep(&mut self, node: Node) -> Number {
        if let Some(number) = self.numbers.get(&node) {
            return *number;
        }
        let empty = match node {
            Node::Eps | Node::Star(_) => true,
            Node::Concatenation(left, right) => self.has_empty(left) && self.has_empty(right),
            Node::Choice(left, right) => self.has_empty(left) || self.has_empty(right),
            Node::Over(..) => false,
        };
        let number = self.nodes.len() as Number;
        self.numbers.insert(node, number);
        self.nodes.push(node);
        self.empty.push(empty);
        self.linear.push(None);
        number
    }

    /// The different monomials of an expression's linear form, by symbol.
    pub fn linear(&mut self, number: Number) -> Rc<[Monomial]> {
        if let Some(form) = &self.linear[number as usize] {
            return form.clone();
        }
        let mut form = match self.nodes[number as usize] {
            Node::Eps => Vec::new(),
            Node::Over(symbol, inner) => {
                vec![Monomial { symbol, inner, rest: self.keep(Node::Eps) }]
            }
            Node::Choice(left, right) => [&self.linear(left)[..], &self.linear(right)[..]].concat(),
            Node::Star(inner) => self.followed(inner, number),
            Node::Concatenation(left, right) => {
                let mut form = self.followed(left, right);
                if self.has_empty(left) {
                    form.extend_from_slice(&self.linear(right));
                }
                form
            }
        };
        form.sort_unstable();
        form.dedup();
        let form: Rc<[Monomial]> = form.into();
        self.linear[number as usize] = Some(form.clone());
        form
    }

    /// The monomials of an expression, each followed by another expression.
    fn followed(&mut self, number: Number, by: Number) -> Vec<Monomial> {
        let eps = self.keep(Node::Eps);
        let mut form = self.linear(number).to_vec();
        if by == eps {
            return form;
        }
        for monomial in &mut form {
            monomial.rest = match monomial.rest == eps {
                true => by,
                false => self.keep(Node::Concatenation(monomial.rest, by)),
            };
        }
        form
    }
}
