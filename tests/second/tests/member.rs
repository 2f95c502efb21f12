//! Membership of a filled hedge against its definition, read word for word.

use second::expression::Expression;
use second::gen::pieces::Pieces;
use second::gen::planted::around;
use second::gen::random::Random;
use second::member::is_member;
use second::read::Declared;
use second::tree::{Functor, Hedge, Item};

/// The definition, trying every cut.
fn by_definition(items: &[Item], expression: &Expression) -> bool {
    match expression {
        Expression::Eps => items.is_empty(),
        Expression::Choice(two) => {
            by_definition(items, &two.left) || by_definition(items, &two.right)
        }
        Expression::Concatenation(two) => (0..=items.len()).any(|cut| {
            by_definition(&items[..cut], &two.left) && by_definition(&items[cut..], &two.right)
        }),
        Expression::Star(one) => {
            items.is_empty()
                || (1..=items.len()).any(|cut| {
                    by_definition(&items[..cut], &one.inner)
                        && by_definition(&items[cut..], expression)
                })
        }
        Expression::Over(symbol, one) => match items {
            [Item::Over(Functor::Symbol(f), children)] => {
                f == symbol && by_definition(children.items(), &one.inner)
            }
            _ => false,
        },
    }
}

#[test]
fn agrees_with_the_definition() {
    let declared = Declared { symbols: 2, unordered: 0, terms: 0, hedges: 0, functions: 0 };
    let pieces = Pieces { declared };
    let mut members = 0;
    for index in 0..20_000 {
        let mut random = Random::of_case(7, index);
        let hedge = pieces.hedge(&mut random, 2, 4);
        let expression = if random.chance(1, 3) {
            let value = pieces.hedge(&mut random, 2, 4);
            around(&mut random, &pieces, &value)
        } else if random.chance(1, 2) {
            around(&mut random, &pieces, &hedge)
        } else {
            let size = random.below(7);
            pieces.expression(&mut random, size)
        };
        let expected = by_definition(hedge.items(), &expression);
        assert_eq!(
            is_member(&declared, &hedge, &expression),
            expected,
            "{hedge:?} in {expression:?}"
        );
        members += expected as u32;
    }
    assert!(members > 2_000 && members < 18_000);
}

#[test]
fn long_hedges_in_nested_stars_take_no_ages() {
    let leaf = Expression::over(0, Expression::Eps);
    let mut expression = Expression::choice(leaf.clone(), Expression::star(leaf.clone()));
    for _ in 0..200 {
        expression =
            Expression::star(Expression::concatenation(expression, Expression::star(leaf.clone())));
    }
    let mut items = vec![Item::Over(Functor::Symbol(0), Hedge::EMPTY); 4000];
    let declared = Declared { symbols: 2, unordered: 0, terms: 0, hedges: 0, functions: 0 };
    assert!(is_member(&declared, &Hedge::new(items.clone()), &expression));
    items.push(Item::Over(Functor::Symbol(1), Hedge::EMPTY));
    assert!(!is_member(&declared, &Hedge::new(items), &expression));
}
