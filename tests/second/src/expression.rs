//! Regular hedge expressions: whether the empty hedge is a member, the linear
//! form, and the sample.

use std::rc::Rc;

use crate::tree::{mixed, Functor, Hedge, Item};
use crate::words::{CHOICE, CONCATENATION, EPS, STAR, SYMBOL};

/// An expression; its parts are shared with the expressions made from it.
#[derive(Clone, PartialEq, Debug)]
pub enum Expression {
    Eps,
    Concatenation(Rc<Two>),
    Choice(Rc<Two>),
    Star(Rc<One>),
    Over(u8, Rc<One>),
}

/// The part of a star or of a symbol, and what is known of the whole.
#[derive(Debug)]
pub struct One {
    pub inner: Expression,
    words: usize,
    hash: u64,
}

/// The parts of a concatenation or a choice, and what is known of the whole.
#[derive(Debug)]
pub struct Two {
    pub left: Expression,
    pub right: Expression,
    words: usize,
    has_empty: bool,
    hash: u64,
}

impl Expression {
    pub fn concatenation(left: Expression, right: Expression) -> Expression {
        let words = 1 + left.words() + right.words();
        let has_empty = left.has_empty() && right.has_empty();
        let hash = mixed(mixed(CONCATENATION as u64, left.hash()), right.hash());
        Expression::Concatenation(Rc::new(Two { left, right, words, has_empty, hash }))
    }

    pub fn choice(left: Expression, right: Expression) -> Expression {
        let words = 1 + left.words() + right.words();
        let has_empty = left.has_empty() || right.has_empty();
        let hash = mixed(mixed(CHOICE as u64, left.hash()), right.hash());
        Expression::Choice(Rc::new(Two { left, right, words, has_empty, hash }))
    }

    pub fn star(inner: Expression) -> Expression {
        let words = 1 + inner.words();
        let hash = mixed(STAR as u64, inner.hash());
        Expression::Star(Rc::new(One { inner, words, hash }))
    }

    pub fn over(symbol: u8, inner: Expression) -> Expression {
        let words = 1 + inner.words();
        let hash = mixed((SYMBOL + symbol as u16) as u64, inner.hash());
        Expression::Over(symbol, Rc::new(One { inner, words, hash }))
    }

    pub fn is_eps(&self) -> bool {
        matches!(self, Expression::Eps)
    }

    pub fn words(&self) -> usize {
        match self {
            Expression::Eps => 1,
            Expression::Concatenation(two) | Expression::Choice(two) => two.words,
            Expression::Star(one) | Expression::Over(_, one) => one.words,
        }
    }

    pub fn hash(&self) -> u64 {
        match self {
            Expression::Eps => EPS as u64,
            Expression::Concatenation(two) | Expression::Choice(two) => two.hash,
            Expression::Star(one) | Expression::Over(_, one) => one.hash,
        }
    }

    /// Whether the empty hedge is a member.
    pub fn has_empty(&self) -> bool {
        match self {
            Expression::Eps | Expression::Star(_) => true,
            Expression::Concatenation(two) | Expression::Choice(two) => two.has_empty,
            Expression::Over(..) => false,
        }
    }

    /// Whether such a symbol stands anywhere in it.
    pub fn mentions(&self, such: &dyn Fn(u8) -> bool) -> bool {
        match self {
            Expression::Eps => false,
            Expression::Concatenation(two) | Expression::Choice(two) => {
                two.left.mentions(such) || two.right.mentions(such)
            }
            Expression::Star(one) => one.inner.mentions(such),
            Expression::Over(symbol, one) => such(*symbol) || one.inner.mentions(such),
        }
    }

    pub fn write(&self, out: &mut Vec<u16>) {
        match self {
            Expression::Eps => out.push(EPS),
            Expression::Concatenation(two) => two.write(CONCATENATION, out),
            Expression::Choice(two) => two.write(CHOICE, out),
            Expression::Star(one) => one.write(STAR, out),
            Expression::Over(symbol, one) => one.write(SYMBOL + *symbol as u16, out),
        }
    }

    /// The linear form, in the order of its equations, equal monomials kept.
    pub fn linear_form(&self) -> Vec<Monomial> {
        let mut form = Vec::new();
        self.add_linear_form(&mut form);
        form
    }

    fn add_linear_form(&self, form: &mut Vec<Monomial>) {
        let start = form.len();
        match self {
            Expression::Eps => {}
            Expression::Over(..) => {
                form.push(Monomial { head: self.clone(), rest: Expression::Eps });
            }
            Expression::Choice(two) => {
                two.left.add_linear_form(form);
                two.right.add_linear_form(form);
            }
            Expression::Star(one) => {
                one.inner.add_linear_form(form);
                follow(&mut form[start..], self);
            }
            Expression::Concatenation(two) => {
                two.left.add_linear_form(form);
                follow(&mut form[start..], &two.right);
                if two.left.has_empty() {
                    two.right.add_linear_form(form);
                }
            }
        }
    }

    /// The sample, a member: eps and star give the empty hedge, choice its
    /// left, concatenation both, a symbol the term over its part's sample.
    pub fn sample(&self) -> Hedge {
        let mut items = Vec::new();
        self.add_sample(&mut items);
        Hedge::new(items)
    }

    fn add_sample(&self, items: &mut Vec<Item>) {
        match self {
            Expression::Eps | Expression::Star(_) => {}
            Expression::Choice(two) => two.left.add_sample(items),
            Expression::Concatenation(two) => {
                two.left.add_sample(items);
                two.right.add_sample(items);
            }
            Expression::Over(symbol, one) => {
                items.push(Item::Over(Functor::Symbol(*symbol), one.inner.sample()));
            }
        }
    }
}

impl One {
    fn write(&self, head: u16, out: &mut Vec<u16>) {
        out.push(head);
        self.inner.write(out);
    }
}

impl Two {
    fn write(&self, head: u16, out: &mut Vec<u16>) {
        out.push(head);
        self.left.write(out);
        self.right.write(out);
    }
}

/// The same words, since parts determine them; the lengths and hashes come
/// first because they mostly tell.
impl PartialEq for One {
    fn eq(&self, other: &One) -> bool {
        std::ptr::eq(self, other)
            || (self.hash == other.hash && self.words == other.words && self.inner == other.inner)
    }
}

impl PartialEq for Two {
    fn eq(&self, other: &Two) -> bool {
        std::ptr::eq(self, other)
            || (self.hash == other.hash
                && self.words == other.words
                && self.left == other.left
                && self.right == other.right)
    }
}

/// One way to start a member: a term in `head`, then a hedge in `rest`.
#[derive(Clone, Debug)]
pub struct Monomial {
    pub head: Expression,
    pub rest: Expression,
}

/// The operation that lets `next` follow each monomial, in its place.
fn follow(form: &mut [Monomial], next: &Expression) {
    if next.is_eps() {
        return;
    }
    for monomial in form {
        monomial.rest = if monomial.rest.is_eps() {
            next.clone()
        } else {
            Expression::concatenation(monomial.rest.clone(), next.clone())
        };
    }
}
