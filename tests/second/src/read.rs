//! Reading: from words to trees, the question's header and the numbers 2 to 6.

use crate::desk::Desk;
use crate::expression::Expression;
use crate::literal::{Conjunction, Literal};
use crate::tree::{Functor, Hedge, Item};
use crate::words::{
    classify, Refusal, Refused, Word, CONJUNCTIONS_MOST, KIND_MOST, QUESTION_LEAST,
};
use std::rc::Rc;

/// How many symbols and variables a question declares.
#[derive(Clone, Copy, Debug)]
pub struct Declared {
    pub symbols: u16,
    /// How many of the symbols are unordered: the last ones.
    pub unordered: u16,
    pub terms: u16,
    pub hedges: u16,
    pub functions: u16,
}

impl Declared {
    pub fn variables(&self) -> usize {
        (self.terms + self.hedges + self.functions) as usize
    }

    /// Whether the order of children under a symbol does not matter.
    pub fn is_unordered(&self, symbol: u8) -> bool {
        symbol as u16 >= self.symbols - self.unordered
    }

    /// Word 0 of a question.
    pub fn first_word(&self) -> u16 {
        self.symbols + 256 * self.unordered
    }

    /// Whether a word is no number of a symbol or variable left undeclared.
    pub fn allows(&self, word: u16) -> bool {
        match classify(word, KIND_MOST) {
            Word::TermVariable(number) => (number as u16) < self.terms,
            Word::HedgeVariable(number) => (number as u16) < self.hedges,
            Word::Symbol(number) => (number as u16) < self.symbols,
            Word::FunctionVariable(number) => (number as u16) < self.functions,
            _ => true,
        }
    }
}

/// A question that was read whole.
#[derive(Clone, Debug)]
pub struct Question {
    pub declared: Declared,
    pub conjunctions: Vec<Conjunction>,
}

/// Reads a question, or gives the first of the numbers 2 to 6 that holds, and
/// for 5 and 6 the word where it stopped.
pub fn question(words: &[u16], desk: &Desk) -> Result<Question, Refused> {
    let limits = &desk.limits;
    if words.len() < QUESTION_LEAST || words.len() > limits.question {
        return Err(Refusal::Length.into());
    }
    let (symbols, unordered) = match desk.shuffles {
        true => (words[0] % 256, words[0] / 256),
        false => (words[0], 0),
    };
    let in_range = (1..=limits.kind).contains(&symbols)
        && unordered <= symbols
        && words[1..4].iter().all(|count| *count <= limits.kind)
        && words[4] <= CONJUNCTIONS_MOST;
    if !in_range {
        return Err(Refusal::Count.into());
    }
    let declared =
        Declared { symbols, unordered, terms: words[1], hedges: words[2], functions: words[3] };
    let count = words[4] as usize;
    let offsets = offsets(words, 5, count).ok_or(Refusal::Offset)?;
    let mut conjunctions = Vec::with_capacity(count);
    for ends in offsets.windows(2) {
        let start = ends[0] as usize;
        let read = conjunction(&words[start..ends[1] as usize], limits.kind);
        let stopped = |at| Refused { refusal: Refusal::Form, place: start + at };
        conjunctions.push(read.map_err(stopped)?);
    }
    let body = 6 + count;
    if let Some(at) = words[body..].iter().position(|word| !declared.allows(*word)) {
        return Err(Refused { refusal: Refusal::Undeclared, place: body + at });
    }
    Ok(Question { declared, conjunctions })
}

/// The `count + 1` offsets that stand from word `at`, where they are as they
/// should be: the first just behind them, none falling, the last the length.
pub fn offsets(words: &[u16], at: usize, count: usize) -> Option<&[u16]> {
    let behind = at + count + 1;
    let offsets = words.get(at..behind)?;
    let right = offsets[0] as usize == behind
        && offsets.windows(2).all(|two| two[0] <= two[1])
        && offsets[count] as usize == words.len();
    right.then_some(offsets)
}

/// Reads words that are exactly literals, or gives the first word that cannot
/// continue one, which is the end where they break off.
pub fn conjunction(words: &[u16], kind: u16) -> Result<Conjunction, usize> {
    let mut reader = Reader { words, at: 0, kind };
    let mut conjunction = Conjunction::default();
    while !reader.at_end() {
        match reader.literal() {
            Some(literal) => conjunction.push(literal),
            None => return Err(reader.at),
        }
    }
    Ok(conjunction)
}

/// Reads words that are exactly one hedge and its 0.
pub fn whole_hedge(words: &[u16]) -> Option<Hedge> {
    let mut reader = Reader { words, at: 0, kind: KIND_MOST };
    let hedge = reader.hedge()?;
    reader.at_end().then_some(hedge)
}

/// Words, how many of them are read, and how many words each kind has. Each
/// call gives nothing on words that are malformed or end too soon, and then
/// stands before the first word that it cannot take.
struct Reader<'a> {
    words: &'a [u16],
    at: usize,
    kind: u16,
}

impl Reader<'_> {
    fn at_end(&self) -> bool {
        self.at == self.words.len()
    }

    /// Takes the next word if it is one that can stand here.
    fn next(&mut self, fits: fn(Word) -> bool) -> Option<Word> {
        let word = classify(*self.words.get(self.at)?, self.kind);
        self.at += fits(word) as usize;
        fits(word).then_some(word)
    }

    fn literal(&mut self) -> Option<Rc<Literal>> {
        match self.next(|word| matches!(word, Word::Equation | Word::Membership))? {
            Word::Equation => {
                let left = self.hedge()?;
                let right = self.hedge()?;
                Some(Literal::equation(left, right))
            }
            Word::Membership => {
                let hedge = self.hedge()?;
                let expression = self.expression()?;
                Some(Literal::membership(hedge, expression))
            }
            _ => unreachable!("no other word fits"),
        }
    }

    /// A hedge and its 0.
    fn hedge(&mut self) -> Option<Hedge> {
        let mut items = Vec::new();
        loop {
            let item = match self.next(in_hedge)? {
                Word::End => return Some(Hedge::new(items)),
                Word::TermVariable(number) => Item::TermVariable(number),
                Word::HedgeVariable(number) => Item::HedgeVariable(number),
                Word::Symbol(number) => Item::Over(Functor::Symbol(number), self.hedge()?),
                Word::FunctionVariable(number) => {
                    Item::Over(Functor::Variable(number), self.hedge()?)
                }
                _ => unreachable!("no other word fits"),
            };
            items.push(item);
        }
    }

    fn expression(&mut self) -> Option<Expression> {
        match self.next(in_expression)? {
            Word::Eps => Some(Expression::Eps),
            Word::Concatenation => {
                let left = self.expression()?;
                Some(Expression::concatenation(left, self.expression()?))
            }
            Word::Choice => {
                let left = self.expression()?;
                Some(Expression::choice(left, self.expression()?))
            }
            Word::Star => Some(Expression::star(self.expression()?)),
            Word::Symbol(number) => Some(Expression::over(number, self.expression()?)),
            _ => unreachable!("no other word fits"),
        }
    }
}

fn in_hedge(word: Word) -> bool {
    matches!(
        word,
        Word::End
            | Word::TermVariable(_)
            | Word::HedgeVariable(_)
            | Word::Symbol(_)
            | Word::FunctionVariable(_)
    )
}

fn in_expression(word: Word) -> bool {
    matches!(word, Word::Eps | Word::Concatenation | Word::Choice | Word::Star | Word::Symbol(_))
}
