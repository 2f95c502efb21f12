//! Questions in which every hedge variable stands last among its siblings, at
//! the top too, without memberships and without unordered symbols: no line of
//! theirs is open.

use super::pieces::{self, conjunction, question_words, Pieces};
use super::random::Random;
use crate::desk::Desk;
use crate::literal::Literal;
use crate::read::Question;
use crate::tree::{Hedge, Item};

/// One to three alternatives of such equations.
pub fn question(random: &mut Random, desk: &Desk) -> Vec<u16> {
    let mut declared = pieces::declared(random, desk);
    declared.unordered = 0;
    let pieces = Pieces { declared };
    let conjunctions = (0..random.range(1, 3)).map(|_| {
        let literals: Vec<_> = (0..random.range(1, 5))
            .map(|_| {
                let left = hedge(random, &pieces, 2);
                let right = match random.chance(1, 4) {
                    true => left.clone(),
                    false => hedge(random, &pieces, 2),
                };
                Literal::equation(left, right)
            })
            .collect();
        conjunction(&literals)
    });
    let conjunctions = conjunctions.collect();
    question_words(&Question { declared, conjunctions })
}

/// A few terms, then perhaps a hedge variable.
fn hedge(random: &mut Random, pieces: &Pieces, depth: usize) -> Hedge {
    let count = random.pick(&[0, 1, 1, 1, 2, 3]);
    let mut items: Vec<Item> = (0..count).map(|_| term(random, pieces, depth)).collect();
    if random.chance(1, 2) {
        items.extend(pieces.hedge_variable(random).map(Item::HedgeVariable));
    }
    Hedge::new(items)
}

fn term(random: &mut Random, pieces: &Pieces, depth: usize) -> Item {
    match pieces.term_variable(random) {
        Some(x) if random.chance(1, 3) => Item::TermVariable(x),
        _ => {
            let children = match depth {
                0 => Hedge::EMPTY,
                _ => hedge(random, pieces, depth - 1),
            };
            Item::Over(pieces.functor(random), children)
        }
    }
}
