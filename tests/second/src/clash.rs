//! The last rule: two memberships of one lone variable that share no member.
//!
//! Expressions are kept once each, by a number, so that pairs are different
//! exactly where their words are. A walk goes from a pair to all it reaches;
//! then it is settled which pairs have a hedge in both: those that both have
//! the empty one, and those with two monomials of one symbol whose inner
//! expressions and whose rests have.

use std::collections::HashMap;
use std::rc::Rc;

use crate::forms::{Forms, Number};
use crate::literal::{Claim, Literal};
use crate::read::Declared;
use crate::tree::Item;
use crate::words::Refusal;

/// The most pairs of a walk.
pub const PAIRS_MOST: usize = 4096;

/// The earliest literal that clashes with a later one: pairs are looked at in
/// the order of their literals until one clashes or gives 21.
pub fn first_clash(
    declared: &Declared,
    literals: &[Rc<Literal>],
) -> Result<Option<usize>, Refusal> {
    let mut walks = Walks::default();
    for at in 0..literals.len() {
        if walks.clash_at(declared, literals, at)? {
            return Ok(Some(at));
        }
    }
    Ok(None)
}

/// Whether the literal clashes with a later one.
pub fn clashes(declared: &Declared, literals: &[Rc<Literal>], at: usize) -> Result<bool, Refusal> {
    Walks::default().clash_at(declared, literals, at)
}

/// The walks made so far, by the numbers of the expressions: whether a hedge
/// and whether a term lies in both, or 21.
#[derive(Default)]
struct Walks {
    forms: Forms,
    done: HashMap<(Number, Number), Result<Shared, Refusal>>,
}

/// What two expressions share.
#[derive(Clone, Copy)]
struct Shared {
    hedge: bool,
    term: bool,
}

/// The variable of a membership of one variable alone, where the expression
/// mentions no unordered symbol.
fn lone<'a>(declared: &Declared, literal: &'a Literal) -> Option<&'a Item> {
    let Claim::Membership(hedge, expression) = literal.claim() else { return None };
    let variable = hedge.lone().filter(|item| !matches!(item, Item::Over(..)))?;
    (!expression.mentions(&|symbol| declared.is_unordered(symbol))).then_some(variable)
}

impl Walks {
    fn clash_at(
        &mut self,
        declared: &Declared,
        literals: &[Rc<Literal>],
        at: usize,
    ) -> Result<bool, Refusal> {
        let Some(variable) = lone(declared, &literals[at]) else { return Ok(false) };
        for later in &literals[at + 1..] {
            if lone(declared, later) != Some(variable) {
                continue;
            }
            let shared = self.shared(&literals[at], later)?;
            let clash = match variable {
                Item::TermVariable(_) => !shared.term,
                _ => !shared.hedge,
            };
            if clash {
                return Ok(true);
            }
        }
        Ok(false)
    }

    /// What the expressions of two memberships share.
    fn shared(&mut self, first: &Literal, second: &Literal) -> Result<Shared, Refusal> {
        let (Claim::Membership(_, left), Claim::Membership(_, right)) =
            (first.claim(), second.claim())
        else {
            unreachable!("both are memberships")
        };
        let pair = (self.forms.number(left), self.forms.number(right));
        if let Some(done) = self.done.get(&pair) {
            return *done;
        }
        let shared = walk(&mut self.forms, pair);
        self.done.insert(pair, shared);
        shared
    }
}

/// From a pair: two monomials with the same symbol lead to the pair of their
/// inner expressions and the pair of their rests, both by their places.
type Onward = Vec<(u16, u16)>;

/// Walks from a pair to all pairs it reaches.
fn walk(forms: &mut Forms, start: (Number, Number)) -> Result<Shared, Refusal> {
    let mut pairs = vec![start];
    let mut places = HashMap::from([(start, 0)]);
    let mut onward: Vec<Onward> = Vec::new();
    while onward.len() < pairs.len() {
        let (left, right) = pairs[onward.len()];
        let (left, right) = (forms.linear(left), forms.linear(right));
        let mut leads = Onward::new();
        for one in left.iter() {
            for other in right.iter().filter(|other| other.symbol == one.symbol) {
                let mut place = |pair| {
                    let next = pairs.len() as u16;
                    let place = *places.entry(pair).or_insert(next);
                    if place == next {
                        pairs.push(pair);
                    }
                    place
                };
                leads.push((place((one.inner, other.inner)), place((one.rest, other.rest))));
                if pairs.len() > PAIRS_MOST {
                    return Err(Refusal::WalkTooLong);
                }
            }
        }
        onward.push(leads);
    }
    let settled = settle(forms, &pairs, &onward);
    // A term in both: a member of both inner expressions, and empty rests.
    let ends = |place: u16| {
        let (left, right) = pairs[place as usize];
        forms.has_empty(left) && forms.has_empty(right)
    };
    let term = onward[0].iter().any(|(inner, rest)| settled[*inner as usize] && ends(*rest));
    Ok(Shared { hedge: settled[0], term })
}

/// Which pairs have a hedge in both: sweeps, the last pair first, until one
/// finds nothing new.
fn settle(forms: &Forms, pairs: &[(Number, Number)], onward: &[Onward]) -> Vec<bool> {
    let empty =
        |(left, right): &(Number, Number)| forms.has_empty(*left) && forms.has_empty(*right);
    let mut settled: Vec<bool> = pairs.iter().map(empty).collect();
    loop {
        let mut news = false;
        for place in (0..pairs.len()).rev().filter(|place| !settled[*place]).collect::<Vec<_>>() {
            let leads = onward[place].iter();
            let found = leads.clone().any(|(a, b)| settled[*a as usize] && settled[*b as usize]);
            settled[place] = found;
            news |= found;
        }
        if !news {
            return settled;
        }
    }
}
