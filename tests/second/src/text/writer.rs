//! Writing a question as a text: 2 to 6, then 20 numbered or counted otherwise
//! than a text would be read, then 19 past the room lent.

use crate::desk::Desk;
use crate::expression::Expression;
use crate::literal::{Claim, Literal};
use crate::read::{self, Declared};
use crate::tree::{Functor, Hedge, Item};
use crate::words::{classify, Refusal, Refused, Word, KIND_MOST};

impl Desk {
    /// The text of a question, in a room of so many bytes.
    pub fn write_text(&self, question: &[u16], room: usize) -> Result<Vec<u8>, Refused> {
        let read = read::question(question, self)?;
        let body = 6 + read.conjunctions.len();
        if !as_read(&read.declared, &question[body..]) {
            return Err(Refusal::Numbering.into());
        }
        let mut text = String::new();
        for conjunction in &read.conjunctions {
            let literals: Vec<String> =
                conjunction.literals().iter().map(|literal| literal_text(literal)).collect();
            match literals.is_empty() {
                true => text.push_str("()"),
                false => text.push_str(&literals.join(", ")),
            }
            text.push('\n');
        }
        match text.len() <= room {
            true => Ok(text.into_bytes()),
            false => Err(Refusal::TextRoom.into()),
        }
    }
}

/// Whether the numbers of each kind stand in order of first appearance and are
/// counted by those that appear, with one symbol where none does.
fn as_read(declared: &Declared, words: &[u16]) -> bool {
    let mut next = [0u16; 4];
    for word in words {
        let (kind, number) = match classify(*word, KIND_MOST) {
            Word::Symbol(number) => (0, number as u16),
            Word::TermVariable(number) => (1, number as u16),
            Word::HedgeVariable(number) => (2, number as u16),
            Word::FunctionVariable(number) => (3, number as u16),
            _ => continue,
        };
        if number > next[kind] {
            return false;
        }
        next[kind] = next[kind].max(number + 1);
    }
    let counted = [declared.symbols, declared.terms, declared.hedges, declared.functions];
    declared.unordered == 0 && [next[0].max(1), next[1], next[2], next[3]] == counted
}

fn literal_text(literal: &Literal) -> String {
    match literal.claim() {
        Claim::Equation(left, right) => format!("{} = {}", side(left), side(right)),
        Claim::Membership(hedge, expression) => {
            format!("{} in {}", side(hedge), choice(expression))
        }
    }
}

/// A side: brackets unless it is one element.
fn side(hedge: &Hedge) -> String {
    match hedge.items() {
        [item] => element(item),
        _ => format!("({})", elements(hedge)),
    }
}

fn elements(hedge: &Hedge) -> String {
    let elements: Vec<String> = hedge.items().iter().map(element).collect();
    elements.join(", ")
}

fn element(item: &Item) -> String {
    match item {
        Item::TermVariable(number) => format!("?x{number}"),
        Item::HedgeVariable(number) => format!("*p{number}"),
        Item::Over(functor, children) => {
            let functor = match functor {
                Functor::Symbol(number) => format!("a{number}"),
                Functor::Variable(number) => format!("%X{number}"),
            };
            match children.is_empty() {
                true => functor,
                false => format!("{functor}({})", elements(children)),
            }
        }
    }
}

/// A choice; what stands on its left is a choice only in brackets.
fn choice(expression: &Expression) -> String {
    match expression {
        Expression::Choice(two) => format!("{} + {}", starred(&two.left), choice(&two.right)),
        _ => starred(expression),
    }
}

fn starred(expression: &Expression) -> String {
    match expression {
        Expression::Star(one) => format!("{}*", starred(&one.inner)),
        _ => atom(expression),
    }
}

/// A symbol, or anything in brackets.
fn atom(expression: &Expression) -> String {
    match expression {
        Expression::Over(number, one) if one.inner.is_eps() => format!("a{number}"),
        Expression::Over(number, one) => format!("a{number}({})", list(&one.inner)),
        Expression::Eps => String::from("()"),
        _ => format!("({})", list(expression)),
    }
}

/// What stands in brackets; on the left a concatenation has brackets of its own.
fn list(expression: &Expression) -> String {
    match expression {
        Expression::Concatenation(two) => {
            let first = match &two.left {
                left @ Expression::Concatenation(_) => atom(left),
                left => choice(left),
            };
            format!("{first}, {}", list(&two.right))
        }
        _ => choice(expression),
    }
}
