//! Fillings: reading them, putting them in, and trying them on a question.

use crate::literal::{Claim, Literal};
use crate::member::is_member;
use crate::read::{offsets, whole_hedge, Declared, Question};
use crate::same::same;
use crate::tree::{Functor, Hedge, Item};
use crate::words::{Refusal, FILLED_MOST, FILLING_MOST};

/// A value for each declared variable. A term variable's is a hedge of one
/// term, a function variable's a symbol.
#[derive(Clone, Debug)]
pub struct Filling {
    pub terms: Vec<Hedge>,
    pub hedges: Vec<Hedge>,
    pub functions: Vec<Functor>,
}

/// Reads a filling for a question, or gives 11 or 12.
pub fn read_filling(words: &[u16], declared: &Declared) -> Result<Filling, Refusal> {
    let count = declared.variables();
    if words.len() > FILLING_MOST || words.first() != Some(&(count as u16)) {
        return Err(Refusal::FillingLayout);
    }
    let offsets = offsets(words, 1, count).ok_or(Refusal::FillingLayout)?;
    let mut filling = Filling { terms: Vec::new(), hedges: Vec::new(), functions: Vec::new() };
    for (number, ends) in offsets.windows(2).enumerate() {
        let value = value(&words[ends[0] as usize..ends[1] as usize], declared)?;
        if number < declared.terms as usize {
            if !value.is_lone_term() {
                return Err(Refusal::FillingValue);
            }
            filling.terms.push(value);
        } else if number < (declared.terms + declared.hedges) as usize {
            filling.hedges.push(value);
        } else {
            filling.functions.push(value.lone_bare().ok_or(Refusal::FillingValue)?);
        }
    }
    Ok(filling)
}

/// A hedge and its 0, without variables, of declared symbols.
fn value(words: &[u16], declared: &Declared) -> Result<Hedge, Refusal> {
    let hedge = whole_hedge(words).ok_or(Refusal::FillingValue)?;
    let right = hedge.variables().is_empty() && words.iter().all(|word| declared.allows(*word));
    right.then_some(hedge).ok_or(Refusal::FillingValue)
}

impl Filling {
    /// The length in words of a hedge with the filling put in.
    pub fn filled_words(&self, hedge: &Hedge) -> usize {
        if hedge.variables().is_empty() {
            return hedge.words();
        }
        let of_item = |item: &Item| match item {
            Item::TermVariable(number) => self.terms[*number as usize].words(),
            Item::HedgeVariable(number) => self.hedges[*number as usize].words(),
            Item::Over(_, children) => 2 + self.filled_words(children),
        };
        hedge.items().iter().map(of_item).sum()
    }

    /// A hedge with the filling put in.
    pub fn filled(&self, hedge: &Hedge) -> Hedge {
        if hedge.variables().is_empty() {
            return hedge.clone();
        }
        let mut items = Vec::with_capacity(hedge.items().len());
        for item in hedge.items() {
            match item {
                Item::TermVariable(number) => {
                    items.extend_from_slice(self.terms[*number as usize].items());
                }
                Item::HedgeVariable(number) => {
                    items.extend_from_slice(self.hedges[*number as usize].items());
                }
                Item::Over(functor, children) => {
                    items.push(Item::Over(self.functor(*functor), self.filled(children)));
                }
            }
        }
        Hedge::new(items)
    }

    /// A functor with the filling put in.
    pub fn functor(&self, functor: Functor) -> Functor {
        match functor {
            Functor::Symbol(_) => functor,
            Functor::Variable(number) => self.functions[number as usize],
        }
    }

    /// The length in words of a literal with the filling put in.
    fn literal_words(&self, literal: &Literal) -> usize {
        match literal.claim() {
            Claim::Equation(left, right) => 3 + self.filled_words(left) + self.filled_words(right),
            Claim::Membership(hedge, expression) => {
                2 + self.filled_words(hedge) + expression.words()
            }
        }
    }

    /// Whether the filling meets a literal.
    fn meets(&self, declared: &Declared, literal: &Literal) -> bool {
        match literal.claim() {
            Claim::Equation(left, right) => same(declared, &self.filled(left), &self.filled(right)),
            Claim::Membership(hedge, expression) => {
                is_member(declared, &self.filled(hedge), expression)
            }
        }
    }

    /// Whether the filling meets some conjunction of a question; 13 where a
    /// literal of any conjunction would be too long.
    pub fn answers(&self, question: &Question) -> Result<bool, Refusal> {
        let mut literals = question.conjunctions.iter().flat_map(|one| one.literals());
        if literals.any(|literal| self.literal_words(literal) > FILLED_MOST) {
            return Err(Refusal::FilledTooLong);
        }
        let meets = |literal: &std::rc::Rc<Literal>| self.meets(&question.declared, literal);
        Ok(question.conjunctions.iter().any(|one| one.literals().iter().all(meets)))
    }
}
