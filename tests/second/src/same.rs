//! Complete hedges that agree up to the order of children under unordered
//! symbols, at any depth.

use std::collections::HashMap;

use crate::read::Declared;
use crate::tree::{Functor, Hedge, Item};

/// Whether two hedges without variables are the same.
pub fn same(declared: &Declared, left: &Hedge, right: &Hedge) -> bool {
    if declared.unordered == 0 || left == right {
        return left == right;
    }
    let mut classes = Classes { declared, numbers: HashMap::new() };
    left.words() == right.words() && classes.of(left) == classes.of(right)
}

/// A number for each class of terms that are the same. A term's class is that
/// of its symbol and its children's classes, sorted under an unordered symbol.
struct Classes<'a> {
    declared: &'a Declared,
    numbers: HashMap<(u8, Vec<usize>), usize>,
}

impl Classes<'_> {
    fn of(&mut self, hedge: &Hedge) -> Vec<usize> {
        hedge.items().iter().map(|item| self.of_term(item)).collect()
    }

    fn of_term(&mut self, item: &Item) -> usize {
        let Item::Over(Functor::Symbol(f), children) = item else {
            unreachable!("a complete hedge has no variables")
        };
        let mut classes = self.of(children);
        if self.declared.is_unordered(*f) {
            classes.sort_unstable();
        }
        let next = self.numbers.len();
        *self.numbers.entry((*f, classes)).or_insert(next)
    }
}
