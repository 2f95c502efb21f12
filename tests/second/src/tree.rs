//! Terms and hedges as trees. A hedge knows its length in words and its
//! variables, and shares its parts with the hedges made from it.

use std::rc::Rc;

use crate::words::{END, FUNCTION_VARIABLE, HEDGE_VARIABLE, SYMBOL, TERM_VARIABLE};

/// A set of variables, one bit for each number of each kind.
#[derive(Clone, Copy, PartialEq, Eq, Default, Debug)]
pub struct Variables {
    pub term: u128,
    pub hedge: u128,
    pub function: u128,
}

impl Variables {
    pub const NONE: Variables = Variables { term: 0, hedge: 0, function: 0 };

    pub fn term(number: u8) -> Variables {
        Variables { term: 1 << number, ..Variables::NONE }
    }

    pub fn hedge(number: u8) -> Variables {
        Variables { hedge: 1 << number, ..Variables::NONE }
    }

    pub fn function(number: u8) -> Variables {
        Variables { function: 1 << number, ..Variables::NONE }
    }

    pub fn is_empty(self) -> bool {
        self == Variables::NONE
    }

    pub fn union(self, other: Variables) -> Variables {
        Variables {
            term: self.term | other.term,
            hedge: self.hedge | other.hedge,
            function: self.function | other.function,
        }
    }

    pub fn common(self, other: Variables) -> Variables {
        Variables {
            term: self.term & other.term,
            hedge: self.hedge & other.hedge,
            function: self.function & other.function,
        }
    }

    pub fn meets(self, other: Variables) -> bool {
        !self.common(other).is_empty()
    }

    pub fn holds(self, other: Variables) -> bool {
        self.common(other) == other
    }
}

/// The variables that stand in two or more of the given sets.
pub fn repeated(sets: impl Iterator<Item = Variables>) -> Variables {
    let mut once = Variables::NONE;
    let mut twice = Variables::NONE;
    for set in sets {
        twice = twice.union(once.common(set));
        once = once.union(set);
    }
    twice
}

/// Numbers mixed into one, by which different trees are told apart quickly.
pub fn mixed(hash: u64, number: u64) -> u64 {
    let mixed = (hash ^ number).wrapping_mul(0x9E37_79B9_7F4A_7C15);
    mixed ^ (mixed >> 29)
}

/// A symbol or a function variable.
#[derive(Clone, Copy, PartialEq, Eq, Debug)]
pub enum Functor {
    Symbol(u8),
    Variable(u8),
}

impl Functor {
    pub fn word(self) -> u16 {
        match self {
            Functor::Symbol(number) => SYMBOL + number as u16,
            Functor::Variable(number) => FUNCTION_VARIABLE + number as u16,
        }
    }

    pub fn variables(self) -> Variables {
        match self {
            Functor::Symbol(_) => Variables::NONE,
            Functor::Variable(number) => Variables::function(number),
        }
    }
}

/// One element of a hedge: a term (the first and the last) or a hedge variable.
#[derive(Clone, PartialEq, Debug)]
pub enum Item {
    TermVariable(u8),
    HedgeVariable(u8),
    Over(Functor, Hedge),
}

impl Item {
    pub fn is_term(&self) -> bool {
        !matches!(self, Item::HedgeVariable(_))
    }

    pub fn is_hedge_variable(&self, number: u8) -> bool {
        matches!(self, Item::HedgeVariable(other) if *other == number)
    }

    pub fn words(&self) -> usize {
        match self {
            Item::TermVariable(_) | Item::HedgeVariable(_) => 1,
            Item::Over(_, children) => 2 + children.words(),
        }
    }

    pub fn variables(&self) -> Variables {
        match self {
            Item::TermVariable(number) => Variables::term(*number),
            Item::HedgeVariable(number) => Variables::hedge(*number),
            Item::Over(functor, children) => functor.variables().union(children.variables()),
        }
    }

    fn hash(&self) -> u64 {
        match self {
            Item::TermVariable(number) => (TERM_VARIABLE + *number as u16) as u64,
            Item::HedgeVariable(number) => (HEDGE_VARIABLE + *number as u16) as u64,
            Item::Over(functor, children) => mixed(functor.word() as u64, children.hash()),
        }
    }

    fn write(&self, out: &mut Vec<u16>) {
        match self {
            Item::TermVariable(number) => out.push(TERM_VARIABLE + *number as u16),
            Item::HedgeVariable(number) => out.push(HEDGE_VARIABLE + *number as u16),
            Item::Over(functor, children) => {
                out.push(functor.word());
                children.write(out);
                out.push(END);
            }
        }
    }
}

/// A hedge; the empty one takes no room.
#[derive(Clone, Default, Debug)]
pub struct Hedge(Option<Rc<Node>>);

#[derive(Debug)]
struct Node {
    items: Vec<Item>,
    words: usize,
    variables: Variables,
    hash: u64,
}

impl Hedge {
    pub const EMPTY: Hedge = Hedge(None);

    pub fn new(items: Vec<Item>) -> Hedge {
        if items.is_empty() {
            return Hedge::EMPTY;
        }
        let words = items.iter().map(Item::words).sum();
        let variables = items.iter().fold(Variables::NONE, |set, item| set.union(item.variables()));
        let hash = items.iter().fold(1, |hash, item| mixed(hash, item.hash()));
        Hedge(Some(Rc::new(Node { items, words, variables, hash })))
    }

    pub fn one(item: Item) -> Hedge {
        Hedge::new(vec![item])
    }

    /// A functor without children, alone.
    pub fn bare(functor: Functor) -> Hedge {
        Hedge::one(Item::Over(functor, Hedge::EMPTY))
    }

    pub fn of_slice(items: &[Item]) -> Hedge {
        Hedge::new(items.to_vec())
    }

    pub fn items(&self) -> &[Item] {
        match &self.0 {
            None => &[],
            Some(node) => &node.items,
        }
    }

    pub fn is_empty(&self) -> bool {
        self.0.is_none()
    }

    /// The length in words, the closing 0 left out.
    pub fn words(&self) -> usize {
        self.0.as_ref().map_or(0, |node| node.words)
    }

    pub fn variables(&self) -> Variables {
        self.0.as_ref().map_or(Variables::NONE, |node| node.variables)
    }

    pub fn hash(&self) -> u64 {
        self.0.as_ref().map_or(0, |node| node.hash)
    }

    pub fn has_term(&self) -> bool {
        self.items().iter().any(Item::is_term)
    }

    /// The only element, where there is one alone.
    pub fn lone(&self) -> Option<&Item> {
        match self.items() {
            [item] => Some(item),
            _ => None,
        }
    }

    pub fn lone_term_variable(&self) -> Option<u8> {
        match self.lone() {
            Some(Item::TermVariable(number)) => Some(*number),
            _ => None,
        }
    }

    pub fn lone_hedge_variable(&self) -> Option<u8> {
        match self.lone() {
            Some(Item::HedgeVariable(number)) => Some(*number),
            _ => None,
        }
    }

    /// The functor and children of a lone term that has them.
    pub fn lone_over(&self) -> Option<(Functor, &Hedge)> {
        match self.lone() {
            Some(Item::Over(functor, children)) => Some((*functor, children)),
            _ => None,
        }
    }

    /// The functor of a lone term without children.
    pub fn lone_bare(&self) -> Option<Functor> {
        match self.lone_over() {
            Some((functor, children)) if children.is_empty() => Some(functor),
            _ => None,
        }
    }

    pub fn is_lone_term(&self) -> bool {
        self.lone().is_some_and(Item::is_term)
    }

    /// Adds the words, the closing 0 left out.
    pub fn write(&self, out: &mut Vec<u16>) {
        for item in self.items() {
            item.write(out);
        }
    }
}

/// The same words.
impl PartialEq for Hedge {
    fn eq(&self, other: &Hedge) -> bool {
        match (&self.0, &other.0) {
            (None, None) => true,
            (Some(a), Some(b)) => {
                Rc::ptr_eq(a, b) || (a.hash == b.hash && a.words == b.words && a.items == b.items)
            }
            _ => false,
        }
    }
}
