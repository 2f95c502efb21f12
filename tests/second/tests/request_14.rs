//! Request 14: it ends without the ceiling. Every step, the first that applies
//! or not, lowers a measure of the conjunction, and no line is open where hedge
//! variables stand last.
//!
//! A variable is settled where it stands once, and there it is a side of an
//! equation, alone, as a solved variable is. The measure is, the first decisive:
//! the variables not settled; the sum over memberships of a weight of the
//! hedge's places; the sum over all literals of their own weights.

use second::counts::Counts;
use second::desk::Limits;
use second::expression::Expression;
use second::gen::pieces::{declared, Pieces};
use second::gen::random::Random;
use second::gen::{last, SEED};
use second::literal::{Claim, Conjunction, Literal};
use second::read::{self, Declared};
use second::rules::{choose, Setting};
use second::stack::deep;
use second::step::step;
use second::trail::all_steps;
use second::tree::{Functor, Hedge, Item, Variables};
use second::Desk;

/// The desk without limits 7 and 8.
fn unlimited() -> Desk {
    let limits = Limits { result: usize::MAX, waiting: usize::MAX, ..Limits::WIDE };
    Desk { limits, ..Desk::up_to(14) }
}

/// Symbols and variables that stand in a hedge.
fn places(hedge: &Hedge) -> usize {
    let of_item = |item: &Item| match item {
        Item::Over(_, children) => 1 + places(children),
        _ => 1,
    };
    hedge.items().iter().map(of_item).sum()
}

/// 0, 1, 3, 5, ..: two parts weigh less than the whole.
fn odd(count: usize) -> usize {
    (2 * count).saturating_sub(1)
}

fn size(expression: &Expression) -> usize {
    match expression {
        Expression::Eps => 1,
        Expression::Concatenation(two) | Expression::Choice(two) => {
            1 + size(&two.left) + size(&two.right)
        }
        Expression::Star(one) | Expression::Over(_, one) => 1 + size(&one.inner),
    }
}

/// The variable that a side is, alone, where the other side is what it may be.
fn own(side: &Hedge, opposite: &Hedge) -> Option<Variables> {
    match side.lone()? {
        Item::HedgeVariable(p) => Some(Variables::hedge(*p)),
        Item::TermVariable(x) => opposite.is_lone_term().then_some(Variables::term(*x)),
        Item::Over(Functor::Variable(x), children) => (children.is_empty()
            && opposite.lone_bare().is_some())
        .then_some(Variables::function(*x)),
        Item::Over(..) => None,
    }
}

fn measure(declared: &Declared, conjunction: &Conjunction) -> (usize, usize, usize) {
    let counts = Counts::of(conjunction);
    let mut settled = Variables::NONE;
    let (mut members, mut weights) = (0, 0);
    for literal in conjunction.literals() {
        match literal.claim() {
            Claim::Equation(left, right) => {
                for variable in [own(left, right), own(right, left)].into_iter().flatten() {
                    if counts.all_once(variable) {
                        settled = settled.union(variable);
                    }
                }
                weights += odd(places(left) + places(right)).max(1);
            }
            Claim::Membership(hedge, expression) => {
                members += odd(places(hedge));
                weights += size(expression);
            }
        }
    }
    let ones =
        settled.term.count_ones() + settled.hedge.count_ones() + settled.function.count_ones();
    (declared.variables() - ones as usize, members, weights)
}

/// A few literals, some of them the same.
fn random_conjunction(random: &mut Random, pieces: &Pieces) -> Conjunction {
    let mut conjunction = Conjunction::default();
    for _ in 0..random.range(1, 4) {
        let literal = pieces.literal(random);
        if random.chance(1, 6) {
            conjunction.push(literal.clone());
        }
        conjunction.push(literal);
    }
    conjunction
}

#[test]
fn every_step_lowers_the_measure() {
    deep(|| {
        let mut steps = 0;
        for index in 0..3_000 {
            let mut random = Random::of_case(14, index);
            let pieces = Pieces { declared: declared(&mut random, &Desk::up_to(14)) };
            let setting = Setting { desk: unlimited(), declared: pieces.declared };
            let mut at = random_conjunction(&mut random, &pieces);
            loop {
                let possible = all_steps(&setting, &at, &Counts::of(&at)).expect("short walks");
                if possible.is_empty() {
                    break;
                }
                let before = measure(&pieces.declared, &at);
                let choice = random.pick(&possible);
                let results = step(&setting, &at, choice).expect("no limit");
                for result in &results {
                    let after = measure(&pieces.declared, result);
                    assert!(after < before, "{choice:?} from {before:?} to {after:?} in {at:?}");
                    // What is not settled never grows.
                    assert!(after.0 <= before.0);
                }
                steps += 1;
                match results.is_empty() {
                    true => break,
                    false => at = random.pick(&results),
                }
            }
        }
        assert!(steps > 9_000, "{steps}");
    });
}

/// The worked case of the request's first paper: x = g(y), x in g(h), y in h.
#[test]
fn the_case_that_the_old_measure_fails_on() {
    let g = |inner| Expression::over(0, inner);
    let h = Expression::over(1, Expression::Eps);
    let term = |item| Hedge::one(item);
    let (x, y) = (term(Item::TermVariable(0)), term(Item::TermVariable(1)));
    let g_of_y = term(Item::Over(Functor::Symbol(0), y.clone()));
    let mut at = Conjunction::default();
    at.push(Literal::equation(x.clone(), g_of_y));
    at.push(Literal::membership(x, g(h.clone())));
    at.push(Literal::membership(y, h));
    let declared = Declared { symbols: 2, unordered: 0, terms: 2, hedges: 0, functions: 0 };
    let setting = Setting { desk: unlimited(), declared };
    let mut measures = vec![measure(&declared, &at)];
    while let Some(choice) = choose(&setting, &at, &Counts::of(&at)).unwrap() {
        at = step(&setting, &at, choice).unwrap().remove(0);
        measures.push(measure(&declared, &at));
    }
    // The fold then takes the second y in h away.
    assert_eq!(measures, [(2, 2, 10), (1, 4, 10), (1, 2, 9), (1, 1, 7)]);
}

#[test]
fn no_line_is_open_where_hedge_variables_stand_last() {
    deep(|| {
        let (desk, mut lines) = (Desk::up_to(14), 0);
        for index in 0..4_000 {
            let mut random = Random::of_case(SEED, index);
            let words = last::question(&mut random, &desk);
            assert!(read::question(&words, &desk).is_ok());
            let out = desk.solve(&words);
            assert_eq!(out.open, 0, "{words:?}");
            lines += out.lines;
        }
        assert!(lines > 500, "{lines}");
    });
}
