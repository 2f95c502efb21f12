//! Whether some order of terms is a member of an expression.
//!
//! Terms that can be the same symbols of the expression are of one kind, and
//! only how many of each kind are read matters: what can have been the last
//! symbol read, over all orders of these, is one set. So the work is bounded by
//! the number of such selections and not by the number of orders. With many
//! kinds that is still much; the question is as hard as exact cover.

use std::collections::HashMap;

use crate::expression::Expression;
use crate::member::is_over;
use crate::read::Declared;
use crate::tree::Item;

/// A set of the expression's symbols, by their places.
#[derive(Clone, PartialEq, Eq, Hash)]
struct Set(Vec<u64>);

impl Set {
    fn none(places: usize) -> Set {
        Set(vec![0; places.div_ceil(64)])
    }

    fn add(&mut self, place: usize) {
        self.0[place / 64] |= 1 << (place % 64);
    }

    fn unite(&mut self, other: &Set) {
        for (word, more) in self.0.iter_mut().zip(&other.0) {
            *word |= more;
        }
    }

    fn common(&self, other: &Set) -> Set {
        Set(self.0.iter().zip(&other.0).map(|(a, b)| a & b).collect())
    }

    fn is_empty(&self) -> bool {
        self.0.iter().all(|word| *word == 0)
    }

    fn places(&self) -> impl Iterator<Item = usize> + '_ {
        self.0.iter().enumerate().flat_map(|(number, word)| {
            (0..64).filter(move |bit| word >> bit & 1 == 1).map(move |bit| 64 * number + bit)
        })
    }
}

/// The symbols of an expression that terms of a member can be, in the order of
/// writing, and for each which may stand next.
struct Symbols<'a> {
    list: Vec<(u8, &'a Expression)>,
    next: Vec<Set>,
}

/// Which symbols may be the first and the last of a part.
struct Ends {
    first: Set,
    last: Set,
}

impl<'a> Symbols<'a> {
    /// Lists the symbols of an expression.
    fn collect(&mut self, expression: &'a Expression) {
        match expression {
            Expression::Eps => {}
            Expression::Over(symbol, one) => self.list.push((*symbol, &one.inner)),
            Expression::Star(one) => self.collect(&one.inner),
            Expression::Choice(two) | Expression::Concatenation(two) => {
                self.collect(&two.left);
                self.collect(&two.right);
            }
        }
    }

    /// Fills in what may stand next; `from` is the first symbol not yet met.
    fn connect(&mut self, expression: &Expression, from: &mut usize) -> Ends {
        let none = Set::none(self.list.len());
        match expression {
            Expression::Eps => Ends { first: none.clone(), last: none },
            Expression::Over(..) => {
                let mut own = none;
                own.add(*from);
                *from += 1;
                Ends { first: own.clone(), last: own }
            }
            Expression::Star(one) => {
                let ends = self.connect(&one.inner, from);
                self.lead(&ends.last, &ends.first);
                ends
            }
            Expression::Choice(two) => {
                let mut left = self.connect(&two.left, from);
                let right = self.connect(&two.right, from);
                left.first.unite(&right.first);
                left.last.unite(&right.last);
                left
            }
            Expression::Concatenation(two) => {
                let mut left = self.connect(&two.left, from);
                let mut right = self.connect(&two.right, from);
                self.lead(&left.last, &right.first);
                if two.left.has_empty() {
                    left.first.unite(&right.first);
                }
                if two.right.has_empty() {
                    right.last.unite(&left.last);
                }
                Ends { first: left.first, last: right.last }
            }
        }
    }

    fn lead(&mut self, last: &Set, first: &Set) {
        for place in last.places() {
            self.next[place].unite(first);
        }
    }
}

/// Whether some order of the terms is a member.
pub fn some_order(declared: &Declared, terms: &[Item], expression: &Expression) -> bool {
    if terms.is_empty() {
        return expression.has_empty();
    }
    let mut symbols = Symbols { list: Vec::new(), next: Vec::new() };
    symbols.collect(expression);
    let count = symbols.list.len();
    symbols.next = vec![Set::none(count); count];
    let ends = symbols.connect(expression, &mut 0);
    let Some(kinds) = kinds(declared, terms, &symbols) else { return false };
    // For each selection of so many of each kind: what can be the last symbol
    // read, as what may stand next.
    let mut selections = HashMap::from([(vec![0; kinds.len()], ends.first)]);
    for read in 1..=terms.len() {
        let mut more: HashMap<Vec<u16>, Set> = HashMap::new();
        for (selection, next) in &selections {
            for (number, (fits, times)) in kinds.iter().enumerate() {
                let now = next.common(fits);
                if selection[number] == *times || now.is_empty() {
                    continue;
                }
                let mut selected = selection.clone();
                selected[number] += 1;
                more.entry(selected).or_insert_with(|| Set::none(count)).unite(&now);
            }
        }
        if read == terms.len() {
            return more.values().any(|now| !now.common(&ends.last).is_empty());
        }
        selections =
            more.into_iter().map(|(selected, now)| (selected, symbols.after(&now))).collect();
    }
    unreachable!("there are terms")
}

impl Symbols<'_> {
    /// What may stand next after any of the symbols.
    fn after(&self, now: &Set) -> Set {
        let mut next = Set::none(self.list.len());
        for place in now.places() {
            next.unite(&self.next[place]);
        }
        next
    }
}

/// The kinds of the terms: which symbols they can be, and how many there are;
/// nothing where a term can be none.
fn kinds(declared: &Declared, terms: &[Item], symbols: &Symbols) -> Option<Vec<(Set, u16)>> {
    let mut kinds: Vec<(Set, u16)> = Vec::new();
    for term in terms {
        let mut fits = Set::none(symbols.list.len());
        for (place, (symbol, inner)) in symbols.list.iter().enumerate() {
            if is_over(declared, term, *symbol, inner) {
                fits.add(place);
            }
        }
        if fits.is_empty() {
            return None;
        }
        match kinds.iter_mut().find(|kind| kind.0 == fits) {
            Some(kind) => kind.1 += 1,
            None => kinds.push((fits, 1)),
        }
    }
    Some(kinds)
}
