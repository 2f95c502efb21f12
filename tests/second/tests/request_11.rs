//! Request 11: a trail, and its replay.

use second::rules::{Rule, ALL};
use second::{Ask, Desk, SolveOut, Trail};

fn desk() -> Desk {
    Desk::up_to(11)
}

/// One conjunction over a, b, f, g.
fn question(terms: u16, hedges: u16, literals: &[u16]) -> Vec<u16> {
    let end = 7 + literals.len() as u16;
    [&[4, terms, hedges, 0, 1, 7, end], literals].concat()
}

fn replay(asked: &[u16], trail: &[u16]) -> SolveOut {
    desk().replay(asked, &Trail::of(trail))
}

/// (p, p) = (a, a), which takes four steps.
fn p5() -> Vec<u16> {
    question(0, 1, &[5000, 2000, 2000, 0, 3000, 0, 3000, 0, 0])
}

#[test]
fn places_of_the_rules() {
    let place = |rule: Rule| ALL.iter().position(|other| *other == rule);
    assert_eq!(place(Rule::Fold), Some(2));
    assert_eq!(place(Rule::Del2), Some(11));
    assert_eq!(place(Rule::D0), Some(15));
    assert_eq!(place(Rule::E7), Some(22));
    assert_eq!(place(Rule::M10), Some(30));
    assert_eq!(place(Rule::Clash), Some(33));
}

#[test]
fn the_trail_of_a_solve() {
    let out = desk().solve_with_trail(&p5(), 12);
    assert_eq!((out.refusal, out.steps, out.trail.len()), (0, 4, 12));
    assert_eq!(out.trail[..3], [Rule::E3 as u16, 0, 0]);
    let again = replay(&p5(), &out.trail);
    assert_eq!((again.refusal, again.answer), (0, out.answer));
    let short = desk().solve_with_trail(&p5(), 11);
    assert_eq!((short.refusal, short.trail), (29, vec![0; 11]));
}

#[test]
fn trails_that_are_no_trails() {
    let trail = desk().solve_with_trail(&p5(), 12).trail;
    let refusal = |trail: &[u16]| replay(&p5(), trail).refusal;
    assert_eq!(refusal(&trail[..11]), 27);
    assert_eq!(refusal(&trail[..9]), 27);
    assert_eq!(refusal(&[]), 27);
    assert_eq!(refusal(&[&trail[..], &[0]].concat()), 28);
    let with = |at: usize, word: u16| {
        let mut other = trail.clone();
        other[at] = word;
        refusal(&other)
    };
    // Another rule, no rule, another literal, sides swapped, and neither.
    assert_eq!([with(0, 0), with(0, 34), with(1, 1), with(2, 1), with(2, 2)], [26; 5]);
}

/// x = a, x = b: E1 at either literal, and F3 after both.
#[test]
fn a_step_need_not_be_the_first() {
    let asked = question(1, 0, &[5000, 1000, 0, 3000, 0, 0, 5000, 1000, 0, 3001, 0, 0]);
    let (e1, f3) = (Rule::E1 as u16, Rule::F3 as u16);
    assert_eq!(replay(&asked, &[e1, 0, 0, f3, 1, 0]).refusal, 0);
    assert_eq!(replay(&asked, &[e1, 1, 0, f3, 0, 1]).refusal, 0);
    assert_eq!(replay(&asked, &[e1, 1, 0, f3, 1, 0]).refusal, 26);
}

#[test]
fn swapped_on_a_membership_or_a_fold() {
    let test = [6000, 1000, 0, 7002, 3000, 7000, 3001, 7000];
    let asked = question(1, 0, &test.repeat(2));
    let (fold, m6) = (Rule::Fold as u16, Rule::M6 as u16);
    assert_eq!(replay(&asked, &[fold, 0, 0, m6, 0, 0]).refusal, 0);
    assert_eq!(replay(&asked, &[fold, 0, 1, m6, 0, 0]).refusal, 26);
    assert_eq!(replay(&asked, &[fold, 0, 0, m6, 0, 1]).refusal, 26);
    // The later one has no later equal.
    assert_eq!(replay(&asked, &[fold, 1, 0, m6, 0, 0]).refusal, 26);
}

/// p = (p, a, p): Del3 takes the first p with something before it.
#[test]
fn del3_where_del1_would_be_first() {
    let asked = question(0, 1, &[5000, 2000, 0, 2000, 3000, 0, 2000, 0]);
    let (del3, f4) = (Rule::Del3 as u16, Rule::F4 as u16);
    let trail = [del3, 0, 0, f4, 0, 1];
    assert_eq!((replay(&asked, &trail).refusal, replay(&asked, &trail).lines), (0, 0));
}

#[test]
fn the_example_by_a_trail() {
    let trail = desk().solve_with_trail(&p5(), 12).trail;
    let shown = |trail: &[u16], line: usize, room: usize| {
        let ask = Ask { line, room, old_sheets: false };
        desk().example_with_trail(&p5(), &Trail::of(trail), ask).map_err(|no| no.number())
    };
    assert_eq!(shown(&trail, 0, 6), Ok(vec![1, 3, 6, 3000, 0, 0]));
    assert_eq!(shown(&trail, 0, 5), Err(16));
    assert_eq!(shown(&trail, 1, 6), Err(14));
    assert_eq!(shown(&trail[..6], 0, 6), Err(27));
}

/// x = a, x = b: E1 at the second literal leaves b = a; a result stands behind its
/// length and the number given.
#[test]
fn one_step() {
    let asked = question(1, 0, &[5000, 1000, 0, 3000, 0, 0, 5000, 1000, 0, 3001, 0, 0]);
    let made = |asked: &[u16], step| desk().one_step(asked, 9, step).map_err(|no| no.number());
    let (e1, f3) = (Rule::E1 as u16, Rule::F3 as u16);
    let left = made(&asked, [e1, 1, 0]).expect("a step");
    assert_eq!(left[..2], [left.len() as u16 - 2, 9]);
    let next = question(1, 0, &left[2..]);
    assert_eq!(made(&next, [f3, 0, 1]), Ok(vec![]));
    assert_eq!(made(&next, [f3, 1, 0]), Err(26));
    assert_eq!(made(&asked, [e1, 2, 0]), Err(26));
    assert_eq!(made(&asked, [e1, 1, 2]), Err(26));
    assert_eq!(made(&asked[..5], [e1, 1, 0]), Err(2));
    assert_eq!(made(&[4, 1, 0, 0, 0, 6], [e1, 0, 0]), Err(3));
    assert_eq!(made(&[4, 1, 0, 0, 2, 8, 8, 8], [e1, 0, 0]), Err(3));
}
