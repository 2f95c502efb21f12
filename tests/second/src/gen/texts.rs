//! Texts: questions spelt in some way of the grammar, and damaged texts.

use super::random::Random;
use crate::desk::Desk;
use crate::expression::Expression;
use crate::literal::Claim;
use crate::read;
use crate::tree::{Functor, Hedge, Item};
use crate::words::{
    classify, Word, CONJUNCTIONS_MOST, FUNCTION_VARIABLE, HEDGE_VARIABLE, KIND_MOST, SYMBOL,
    TERM_VARIABLE,
};

/// A question with its numbers in order of first appearance and counted by
/// those that appear, where it can be read and has no unordered symbols.
pub fn in_order(desk: &Desk, question: &[u16]) -> Option<Vec<u16>> {
    let read = read::question(question, desk).ok()?;
    let mut words = question.to_vec();
    let mut met: [Vec<u8>; 4] = Default::default();
    for word in &mut words[6 + read.conjunctions.len()..] {
        let (kind, number) = match classify(*word, KIND_MOST) {
            Word::Symbol(number) => (0, number),
            Word::TermVariable(number) => (1, number),
            Word::HedgeVariable(number) => (2, number),
            Word::FunctionVariable(number) => (3, number),
            _ => continue,
        };
        let place = met[kind].iter().position(|other| *other == number);
        let place = place.unwrap_or_else(|| {
            met[kind].push(number);
            met[kind].len() - 1
        });
        let first = [SYMBOL, TERM_VARIABLE, HEDGE_VARIABLE, FUNCTION_VARIABLE][kind];
        *word = first + place as u16;
    }
    let counts = met.map(|numbers| numbers.len() as u16);
    words[..4].copy_from_slice(&[counts[0].max(1), counts[1], counts[2], counts[3]]);
    (read.declared.unordered == 0).then_some(words)
}

/// A text of a question that can be read: other names, idle brackets, blanks.
pub fn spelt(random: &mut Random, desk: &Desk, question: &[u16]) -> Vec<u8> {
    let read = read::question(question, desk).expect("a question that can be read");
    let mut text = Speller { random, out: Vec::new() };
    for conjunction in &read.conjunctions {
        if text.random.chance(1, 6) {
            text.put("\n");
        }
        for (number, literal) in conjunction.literals().iter().enumerate() {
            if number > 0 {
                text.put(",");
            }
            match literal.claim() {
                Claim::Equation(left, right) => {
                    text.side(left);
                    text.put("=");
                    text.side(right);
                }
                Claim::Membership(hedge, expression) => {
                    text.side(hedge);
                    text.word("in");
                    text.choice(expression);
                }
            }
        }
        if conjunction.literals().is_empty() {
            text.put("(");
            text.put(")");
        }
        text.put("\n");
    }
    if text.random.chance(1, 2) && text.out.last() == Some(&b'\n') {
        text.out.pop();
    }
    text.out
}

/// Writes a text token by token.
struct Speller<'a> {
    random: &'a mut Random,
    out: Vec<u8>,
}

impl Speller<'_> {
    /// A token, and now and then a blank.
    fn put(&mut self, token: &str) {
        self.out.extend_from_slice(token.as_bytes());
        if self.random.chance(1, 4) {
            let blank = self.random.pick(&[" ", " ", "  ", "\t", "\r"]);
            self.out.extend_from_slice(blank.as_bytes());
        }
    }

    /// A name, which is kept apart from one before it.
    fn word(&mut self, name: &str) {
        if self.out.last().is_some_and(u8::is_ascii_alphanumeric) {
            self.out.push(b' ');
        }
        self.put(name);
    }

    /// A name for a number: `in` is as good as any.
    fn name(number: u8) -> String {
        match number {
            0 => String::from("in"),
            1 => String::from("1"),
            2 => String::from("eps"),
            _ => format!("tank{number}A"),
        }
    }

    fn side(&mut self, hedge: &Hedge) {
        let one = hedge.lone().is_some();
        if one && self.random.chance(4, 5) {
            self.element(&hedge.items()[0]);
        } else {
            self.elements(hedge);
        }
    }

    /// Elements in brackets.
    fn elements(&mut self, hedge: &Hedge) {
        self.put("(");
        for (number, item) in hedge.items().iter().enumerate() {
            if number > 0 {
                self.put(",");
            }
            self.element(item);
        }
        self.put(")");
    }

    fn element(&mut self, item: &Item) {
        match item {
            Item::TermVariable(number) => self.put(&format!("?{}", Self::name(*number))),
            Item::HedgeVariable(number) => self.put(&format!("*{}", Self::name(*number))),
            Item::Over(functor, children) => {
                match functor {
                    Functor::Symbol(number) => self.word(&Self::name(*number)),
                    Functor::Variable(number) => self.put(&format!("%{}", Self::name(*number))),
                }
                if !children.is_empty() || self.random.chance(1, 5) {
                    self.elements(children);
                }
            }
        }
    }

    fn choice(&mut self, expression: &Expression) {
        match expression {
            Expression::Choice(two) => {
                self.starred(&two.left);
                self.put("+");
                self.choice(&two.right);
            }
            _ => self.starred(expression),
        }
    }

    fn starred(&mut self, expression: &Expression) {
        match expression {
            Expression::Star(one) => {
                self.starred(&one.inner);
                self.put("*");
            }
            _ => self.atom(expression),
        }
    }

    fn atom(&mut self, expression: &Expression) {
        match expression {
            Expression::Over(number, one) if self.random.chance(5, 6) => {
                self.word(&Self::name(*number));
                if !one.inner.is_eps() || self.random.chance(1, 5) {
                    self.brackets(&one.inner);
                }
            }
            _ => self.brackets(expression),
        }
    }

    /// A list in brackets; idle ones now and then.
    fn brackets(&mut self, expression: &Expression) {
        self.put("(");
        match self.random.chance(1, 8) {
            true => self.brackets(expression),
            false if expression.is_eps() => {}
            false => self.list(expression),
        }
        self.put(")");
    }

    fn list(&mut self, expression: &Expression) {
        match expression {
            Expression::Concatenation(two) => {
                match &two.left {
                    left @ Expression::Concatenation(_) => self.atom(left),
                    left => self.choice(left),
                }
                self.put(",");
                self.list(&two.right);
            }
            _ => self.choice(expression),
        }
    }
}

/// A text with about as many names of a kind, lines or words as a question may
/// have.
pub fn large(random: &mut Random, desk: &Desk) -> Vec<u8> {
    let about = |random: &mut Random, most: usize| random.range(most - 2, most + 2);
    if random.chance(1, 5) {
        return b"()\n".repeat(about(random, CONJUNCTIONS_MOST as usize));
    }
    let mark = random.pick(&["", "?", "*", "%"]);
    if random.chance(1, 2) {
        let count = about(random, desk.limits.kind as usize);
        let names: Vec<String> = (0..count).map(|number| format!("{mark}n{number}")).collect();
        return format!("({}) = ()", names.join(",")).into_bytes();
    }
    // the header, the offsets, the equation and the ends of its sides
    let words = about(random, desk.limits.question) - 10;
    let each = if matches!(mark, "?" | "*") { 1 } else { 2 };
    let mut names = vec![format!("{mark}n"); words / each];
    names.resize(names.len() + words % each, String::from("?m"));
    format!("({}) = ()", names.join(",")).into_bytes()
}

/// Changes a text in one or two places.
pub fn damage(random: &mut Random, text: &mut Vec<u8>) {
    const BYTES: &[u8] = b"()()()**??%%,,++==aa0 \n\tin-_.#";
    for _ in 0..random.range(1, 2) {
        let at = random.below(text.len() + 1);
        match random.below(4) {
            0 if at < text.len() => {
                text.remove(at);
            }
            1 if at < text.len() => text[at] = random.pick(BYTES),
            2 if at < text.len() => text[at] = random.draw() as u8,
            _ => text.insert(at, random.pick(BYTES)),
        }
    }
}
