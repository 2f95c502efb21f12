//! Whether a hedge without variables is a member of an expression.
//!
//! The hedge is read term by term. At each moment some symbols of the
//! expression may have been the last one read; a part of the expression is
//! *ended* if such a symbol can be the last of that part. A term moves the
//! marks on, once through the expression, so the whole takes no more than the
//! words of the hedge times the words of the expression.

use crate::any_order::some_order;
use crate::expression::Expression;
use crate::read::Declared;
use crate::tree::{Functor, Hedge, Item};

/// Membership as in the paper; under an unordered symbol some order of the
/// children has to be a member.
pub fn is_member(declared: &Declared, hedge: &Hedge, expression: &Expression) -> bool {
    if hedge.is_empty() {
        return expression.has_empty();
    }
    let mut ended = Vec::new();
    number_parts(expression, &mut ended);
    let mut whole = false;
    for (place, item) in hedge.items().iter().enumerate() {
        let mut pass = Pass { declared, item, ended: &mut ended, next: 0, alive: false };
        whole = pass.shift(expression, place == 0);
        if !pass.alive {
            return false;
        }
    }
    whole
}

/// Gives each part a place, in the order of writing; the parts within a
/// symbol are of another hedge and have none.
fn number_parts(expression: &Expression, ended: &mut Vec<bool>) {
    ended.push(false);
    match expression {
        Expression::Eps | Expression::Over(..) => {}
        Expression::Star(one) => number_parts(&one.inner, ended),
        Expression::Concatenation(two) | Expression::Choice(two) => {
            number_parts(&two.left, ended);
            number_parts(&two.right, ended);
        }
    }
}

/// One term read.
struct Pass<'a> {
    declared: &'a Declared,
    item: &'a Item,
    /// For each part, whether it was ended before this term; then, after.
    ended: &'a mut [bool],
    next: usize,
    /// Whether any symbol can have been the one read.
    alive: bool,
}

impl Pass<'_> {
    /// Moves the marks of a part over the term; `open` says that the part may
    /// start at this term. Says whether the part is ended by the term.
    fn shift(&mut self, expression: &Expression, open: bool) -> bool {
        let place = self.next;
        self.next += 1;
        let ended = match expression {
            Expression::Eps => false,
            Expression::Over(symbol, one) => {
                let read = open && is_over(self.declared, self.item, *symbol, &one.inner);
                self.alive |= read;
                read
            }
            Expression::Star(one) => {
                let again = self.ended[self.next];
                self.shift(&one.inner, open || again)
            }
            Expression::Choice(two) => {
                let left = self.shift(&two.left, open);
                let right = self.shift(&two.right, open);
                left || right
            }
            Expression::Concatenation(two) => {
                let left_before = self.ended[self.next];
                let left = self.shift(&two.left, open);
                let right = self.shift(&two.right, left_before || (open && two.left.has_empty()));
                right || (left && two.right.has_empty())
            }
        };
        self.ended[place] = ended;
        ended
    }
}

/// Whether a term is the symbol over a member of the expression.
pub fn is_over(declared: &Declared, item: &Item, symbol: u8, inner: &Expression) -> bool {
    match item {
        Item::Over(Functor::Symbol(f), children) if *f == symbol => {
            if declared.is_unordered(symbol) {
                some_order(declared, children.items(), inner)
            } else {
                is_member(declared, children, inner)
            }
        }
        _ => false,
    }
}
