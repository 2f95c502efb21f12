//! Request 7: two shapes that clash.

use second::clash::clashes;
use second::expression::Expression;
use second::gen::pieces::Pieces;
use second::gen::random::Random;
use second::literal::Literal;
use second::member::is_member;
use second::read::Declared;
use second::stack::deep;
use second::tree::{Functor, Hedge, Item};
use second::Desk;

const DECLARED: Declared = Declared { symbols: 2, unordered: 0, terms: 1, hedges: 1, functions: 0 };

/// All complete hedges of at most so many symbols.
fn hedges(most: usize) -> Vec<Vec<Item>> {
    let mut by_size: Vec<Vec<Vec<Item>>> = vec![vec![Vec::new()]];
    for size in 1..=most {
        let mut all = Vec::new();
        for inner in 0..size {
            for children in &by_size[inner] {
                for rest in &by_size[size - 1 - inner] {
                    for f in 0..2 {
                        let term = Item::Over(Functor::Symbol(f), Hedge::new(children.clone()));
                        all.push([&[term], &rest[..]].concat());
                    }
                }
            }
        }
        by_size.push(all);
    }
    by_size.concat()
}

/// Small expressions: they clash exactly where no small hedge lies in both.
#[test]
fn a_clash_is_that_no_member_is_shared() {
    let hedges: Vec<Hedge> = hedges(6).into_iter().map(Hedge::new).collect();
    let pieces = Pieces { declared: DECLARED };
    let mut seen = [0; 4];
    for index in 0..400 {
        let mut random = Random::of_case(7, index);
        let mut expression = || {
            let size = random.range(1, 5);
            pieces.expression(&mut random, size)
        };
        let (left, right) = (expression(), expression());
        let in_both = |hedge: &&Hedge| {
            is_member(&DECLARED, hedge, &left) && is_member(&DECLARED, hedge, &right)
        };
        let hedge = hedges.iter().any(|hedge| in_both(&hedge));
        let term = hedges.iter().filter(in_both).any(Hedge::is_lone_term);
        let clash = |item: Item| {
            let literal = |expression: &Expression| {
                Literal::membership(Hedge::one(item.clone()), expression.clone())
            };
            clashes(&DECLARED, &[literal(&left), literal(&right)], 0).unwrap()
        };
        assert_eq!(clash(Item::HedgeVariable(0)), !hedge, "{left:?} {right:?}");
        assert_eq!(clash(Item::TermVariable(0)), !term, "{left:?} {right:?}");
        seen[hedge as usize] += 1;
        seen[2 + term as usize] += 1;
    }
    assert!(seen.iter().all(|times| *times > 40), "{seen:?}");
}

/// Refusal, lines, open lines and steps of one conjunction over a, b, f.
fn outcome(first: u16, literals: &[u16]) -> (u16, u16, u16, u32) {
    let end = 7 + literals.len() as u16;
    let out = Desk::up_to(7).solve(&[&[first, 1, 1, 0, 1, 7, end], literals].concat());
    (out.refusal, out.lines, out.open, out.steps)
}

#[test]
fn p12_is_none_after_2_steps() {
    let p12 = [6000, 1000, 1000, 0, 7001, 3000, 7000, 3001, 7000];
    assert_eq!(outcome(3, &p12), (0, 0, 0, 2));
}

#[test]
fn a_term_or_a_hedge() {
    // p in a*, p in b*: the empty hedge. x in f(a*), x in f(b*): f().
    let runs = [6000, 2000, 0, 7003, 3000, 7000, 6000, 2000, 0, 7003, 3001, 7000];
    assert_eq!(outcome(3, &runs), (0, 1, 1, 0));
    let terms = [6000, 1000, 0, 3002, 7003, 3000, 7000, 6000, 1000, 0, 3002, 7003, 3001, 7000];
    assert_eq!(outcome(3, &terms), (0, 1, 1, 0));
    // f unordered: x in f(a·b), x in f(b·a) is passed over.
    let tests = [
        6000, 1000, 0, 3002, 7001, 3000, 7000, 3001, 7000, //
        6000, 1000, 0, 3002, 7001, 3001, 7000, 3000, 7000,
    ];
    assert_eq!(outcome(3, &tests), (0, 0, 0, 1));
    assert_eq!(outcome(3 + 256, &tests), (0, 1, 1, 0));
}

/// (a·..·a)*, as often as said.
fn turns(count: usize) -> Vec<u16> {
    [&[7003][..], &[7001, 3000, 7000].repeat(count - 1), &[3000, 7000]].concat()
}

#[test]
fn walks_of_4096_pairs() {
    let runs = |first: usize, second: usize| {
        let literals = [&[6000, 2000, 0], &turns(first)[..], &[6000, 2000, 0], &turns(second)];
        deep(|| outcome(3, &literals.concat()))
    };
    // The start and one pair for each place in both: 63 · 65 + 1.
    assert_eq!(runs(63, 65), (0, 1, 1, 0));
    assert_eq!(runs(64, 65), (21, 0, 0, 0));
}
