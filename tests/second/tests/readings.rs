//! Points of the request that are easily read another way and that few other
//! cases tell apart.

use second::Desk;

/// One conjunction over three symbols a, b, c.
fn question(terms: u16, hedges: u16, literals: &[u16]) -> Vec<u16> {
    let end = 7 + literals.len() as u16;
    [&[3, terms, hedges, 0, 1, 7, end], literals].concat()
}

/// Monomials stand in the order of their symbols: what follows them is added
/// to each in its place.
#[test]
fn monomials_in_their_places() {
    // (x, p) in (a + a·b)·c
    let expression = [7001, 7002, 3000, 7000, 7001, 3000, 7000, 3001, 7000, 3002, 7000];
    let asked = question(1, 1, &[&[6000, 1000, 2000, 0], &expression[..]].concat());
    let out = Desk::BASE.solve(&asked);
    assert_eq!((out.refusal, out.lines, out.open, out.steps), (0, 2, 0, 1));
    let first = [1, 6000, 1000, 0, 3000, 7000, 6000, 2000, 0, 3002, 7000];
    let second = [1, 6000, 1000, 0, 3000, 7000, 6000, 2000, 0, 7001, 3001, 7000, 3002, 7000];
    assert_eq!(out.answer[515..515 + 25], [&first[..], &second[..]].concat());
}

/// M1 writes a repeated variable once for each place; E2 and R1 then take
/// the second equation away.
#[test]
fn m1_once_for_each_place() {
    let out = Desk::BASE.solve(&question(0, 1, &[6000, 2000, 2000, 0, 7000]));
    assert_eq!((out.refusal, out.lines, out.open, out.steps), (0, 1, 0, 3));
    assert_eq!(out.answer[515..520], [1, 5000, 2000, 0, 0]);
}

/// One result too long gives 7, though the results together would give 8.
#[test]
fn seven_before_eight() {
    let mut literals = vec![5000, 2000, 2001, 0];
    literals.extend([3000, 0].repeat(40));
    literals.extend([0, 5000, 1000, 0, 3000]);
    literals.extend([2000].repeat(40));
    literals.extend([0, 0]);
    assert_eq!(Desk::BASE.solve(&question(1, 2, &literals)).refusal, 7);
}
