//! Request 6: parts in any order.

use second::expression::Expression;
use second::gen::pieces::Pieces;
use second::gen::planted::around;
use second::gen::random::Random;
use second::gen::{case, SEED};
use second::member::is_member;
use second::orders::Orders;
use second::read::Declared;
use second::same::same;
use second::stack::deep;
use second::tree::{Functor, Hedge, Item};
use second::Desk;

const DECLARED: Declared = Declared { symbols: 3, unordered: 1, terms: 0, hedges: 0, functions: 0 };

/// All hedges that are the same as a complete one: every order of the children
/// under the unordered symbol, at any depth.
fn all_same(items: &[Item]) -> Vec<Vec<Item>> {
    let Some((first, rest)) = items.split_first() else { return vec![Vec::new()] };
    let Item::Over(functor, children) = first else { unreachable!("no variables") };
    let rests = all_same(rest);
    let mut all = Vec::new();
    for inner in all_same(children.items()) {
        let orders: Vec<Vec<Item>> = match functor {
            Functor::Symbol(2) => Orders::of(inner.len())
                .map(|order| order.iter().map(|at| inner[*at].clone()).collect())
                .collect(),
            _ => vec![inner],
        };
        for order in orders {
            let term = Item::Over(*functor, Hedge::new(order));
            all.extend(rests.iter().map(|rest| [std::slice::from_ref(&term), &rest[..]].concat()));
        }
    }
    all
}

#[test]
fn same_is_some_order() {
    let pieces = Pieces { declared: DECLARED };
    let mut seen = [0; 2];
    for index in 0..6_000 {
        let mut random = Random::of_case(6, index);
        let left = pieces.hedge(&mut random, 2, 3);
        let orders = all_same(left.items());
        let right = match random.below(3) {
            0 => pieces.hedge(&mut random, 2, 3),
            _ => Hedge::new(random.pick(&orders)),
        };
        let expected = orders.iter().any(|order| order == right.items());
        assert_eq!(same(&DECLARED, &left, &right), expected, "{left:?} {right:?}");
        seen[expected as usize] += 1;
    }
    assert!(seen[0] > 1_000 && seen[1] > 1_000, "{seen:?}");
}

#[test]
fn a_member_is_a_member_in_some_order() {
    let pieces = Pieces { declared: DECLARED };
    let plain = Declared { unordered: 0, ..DECLARED };
    let mut seen = [0; 3];
    for index in 0..6_000 {
        let mut random = Random::of_case(66, index);
        let hedge = pieces.hedge(&mut random, 2, 3);
        let orders = all_same(hedge.items());
        let expression = if random.chance(1, 2) {
            let order = Hedge::new(random.pick(&orders));
            around(&mut random, &pieces, &order)
        } else {
            let size = random.below(7);
            Expression::over(2, pieces.expression(&mut random, size))
        };
        let in_order =
            |order: &Vec<Item>| is_member(&plain, &Hedge::new(order.clone()), &expression);
        let expected = orders.iter().any(in_order);
        assert_eq!(is_member(&DECLARED, &hedge, &expression), expected, "{hedge:?} {expression:?}");
        seen[expected as usize] += 1;
        seen[2] += (expected && !is_member(&plain, &hedge, &expression)) as u32;
    }
    assert!(seen[0] > 500 && seen[1] > 1_000 && seen[2] > 200, "{seen:?}");
}

/// Sixty parts of two kinds: by kinds, and not order after order.
#[test]
fn many_parts_take_no_ages() {
    let part = |f| Item::Over(Functor::Symbol(f), Hedge::EMPTY);
    let over = |f| Expression::over(f, Expression::Eps);
    let parts = [vec![part(0); 30], vec![part(1); 30]].concat();
    let pairs = Expression::star(Expression::concatenation(over(1), over(0)));
    let whole = |parts| Hedge::one(Item::Over(Functor::Symbol(2), Hedge::new(parts)));
    let expression = Expression::over(2, pairs);
    assert!(is_member(&DECLARED, &whole(parts.clone()), &expression));
    assert!(!is_member(&DECLARED, &whole(parts[1..].to_vec()), &expression));
}

/// Lines, open lines and steps over a, b and the unordered f.
fn outcome(variables: [u16; 3], literals: &[u16]) -> (u16, u16, u32) {
    let [terms, hedges, functions] = variables;
    let end = 7 + literals.len() as u16;
    let header = [3 + 256, terms, hedges, functions, 1, 7, end];
    let out = Desk::up_to(6).solve(&[&header, literals].concat());
    assert_eq!(out.refusal, 0);
    (out.lines, out.open, out.steps)
}

#[test]
fn the_four_rules() {
    // f(a, b) = f(b, a): Del2, R1.
    let swapped = [5000, 3002, 3000, 0, 3001, 0, 0, 0, 3002, 3001, 0, 3000, 0, 0, 0];
    assert_eq!(outcome([0; 3], &swapped), (1, 0, 2));
    // f(p) = f(a, b): D1, two orders.
    let orders = [5000, 3002, 2000, 0, 0, 3002, 3000, 0, 3001, 0, 0, 0];
    assert_eq!(outcome([0, 1, 0], &orders), (2, 0, 1));
    // f(p) = f(q): no rule, open.
    assert_eq!(outcome([0, 2, 0], &[5000, 3002, 2000, 0, 0, 3002, 2001, 0, 0]), (1, 1, 0));
    // X(a, b) = X(b, a): E7 over three symbols, and only f is left.
    let by_variable = [5000, 4000, 3000, 0, 3001, 0, 0, 0, 4000, 3001, 0, 3000, 0, 0, 0];
    let (lines, open, _) = outcome([0, 0, 1], &by_variable);
    assert_eq!((lines, open), (1, 0));
    // f(a, b) in f(b·a): M12, two orders, one of them a member.
    let member = [6000, 3002, 3000, 0, 3001, 0, 0, 0, 3002, 7001, 3001, 7000, 3000, 7000];
    let (lines, open, _) = outcome([0; 3], &member);
    assert_eq!((lines, open), (1, 0));
}

#[test]
fn header_and_orders_that_pass_the_limits() {
    let refusal = |first: u16| Desk::up_to(6).solve(&[first, 0, 0, 0, 0, 6]).refusal;
    assert_eq!([1, 257, 513, 128, 128 + 256 * 128, 129, 256].map(refusal), [0, 0, 3, 0, 0, 3, 3]);
    // f(p) = f(a, .., a), 6 and 7 of them.
    let orders = |count: usize| {
        let literal =
            [&[5000, 3000, 2000, 0, 0, 3000], &[3001, 0].repeat(count)[..], &[0, 0]].concat();
        let end = 7 + literal.len() as u16;
        let header = [2 + 256 * 2, 0, 1, 0, 1, 7, end];
        Desk::up_to(6).solve(&[&header, &literal[..]].concat()).refusal
    };
    assert_eq!((orders(5), orders(6), orders(7), orders(500)), (0, 9, 8, 8));
}

/// Questions with u = 0 answer as before.
#[test]
fn without_unordered_symbols_as_before() {
    deep(|| {
        let (before, after) = (Desk::up_to(13), Desk::up_to(6));
        for index in 0..1_500 {
            let question = case(&before, SEED, index).question;
            if question.first().is_some_and(|first| *first >= 256) {
                continue;
            }
            let (old, new) = (before.solve(&question), after.solve(&question));
            assert_eq!((old.refusal, old.steps, old.place), (new.refusal, new.steps, new.place));
            assert_eq!(old.answer, new.answer);
        }
    });
}
