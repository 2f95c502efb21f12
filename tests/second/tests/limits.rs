//! The limits of a run and of a filling, met exactly and passed by one.

use second::{Desk, Refused};

fn question(header: [u16; 4], conjunctions: &[Vec<u16>]) -> Vec<u16> {
    let count = conjunctions.len() as u16;
    let mut words = header.to_vec();
    words.extend([count, 6 + count]);
    let mut end = 6 + count;
    for conjunction in conjunctions {
        end += conjunction.len() as u16;
        words.push(end);
    }
    words.extend(conjunctions.concat());
    words
}

/// Words of a membership that no rule touches: a hedge variable under stars.
fn padding(variable: u16, words: usize) -> Vec<u16> {
    let mut literal = vec![6000, variable, 0];
    literal.resize(words - 1, 7003);
    literal.push(7000);
    literal
}

/// a + ... + a.
fn choices(count: usize) -> Vec<u16> {
    let mut words = [7002, 3000, 7000].repeat(count - 1);
    words.extend([3000, 7000]);
    words
}

fn membership(term: &[u16], expression: Vec<u16>) -> Vec<u16> {
    [&[6000], term, &[0], &expression[..]].concat()
}

#[test]
fn result_of_1024_words() {
    // y = f(x, x), x = f(a, ..., a) becomes 10 + 3 * 102 words, and padding.
    let refusal = |pad: usize| {
        let mut literals = vec![5000, 1001, 0, 3000, 1000, 1000, 0, 0, 5000, 1000, 0, 3000];
        literals.extend([3000, 0].repeat(50));
        literals.extend([0, 0]);
        literals.extend(padding(2000, pad));
        Desk::BASE.solve(&question([1, 2, 1, 0], &[literals])).refusal
    };
    assert_eq!(refusal(1024 - 316), 0);
    assert_eq!(refusal(1024 - 316 + 1), 7);
}

/// (p, q) = 20 times a, with padding: 21 results of 48 words and padding.
fn cuts(pad: usize, second: usize) -> Vec<u16> {
    let mut literals = vec![5000, 2000, 2001, 0];
    literals.extend([3000, 0].repeat(20));
    literals.push(0);
    literals.extend(padding(2002, pad));
    question([1, 0, 3, 0], &[literals, padding(2002, second)])
}

#[test]
fn waiting_8192_words() {
    // 21 * (49 + 340) = 8169, and 23 for the second alternative.
    assert_eq!(Desk::BASE.solve(&cuts(340, 22)).refusal, 9);
    assert_eq!(Desk::BASE.solve(&cuts(340, 23)).refusal, 8);
}

#[test]
fn last_word_of_an_answer() {
    // 515 + 21 * (49 + 315) = 8159, and 33 for the second alternative.
    let out = Desk::BASE.solve(&cuts(315, 32));
    assert_eq!((out.refusal, out.lines), (0, 22));
    assert_eq!(out.answer[2 + 22], 8192);
    assert_eq!(out.answer[8191], 7000);
    assert_eq!(Desk::BASE.solve(&cuts(315, 33)).refusal, 9);
}

#[test]
fn lines_512() {
    let product = [membership(&[1000], choices(16)), membership(&[1001], choices(32))].concat();
    let out = Desk::BASE.solve(&question([1, 2, 0, 0], std::slice::from_ref(&product)));
    assert_eq!((out.refusal, out.lines, out.steps), (0, 512, 15 + 16 * 31));
    assert_eq!(Desk::BASE.solve(&question([1, 2, 0, 0], &[product, vec![]])).refusal, 9);
}

#[test]
fn steps_10000() {
    let failing = [
        membership(&[1000], choices(10)),
        membership(&[1001], choices(20)),
        membership(&[3001, 0], choices(25)),
    ]
    .concat();
    let clash = vec![5000, 3000, 0, 0, 3001, 0, 0];
    let steps = |more: &[Vec<u16>]| {
        let out = Desk::BASE
            .solve(&question([2, 2, 0, 0], &[std::slice::from_ref(&failing), more].concat()));
        (out.refusal, out.lines, out.steps)
    };
    assert_eq!(steps(&[]), (0, 0, 9_999));
    assert_eq!(steps(std::slice::from_ref(&clash)), (0, 0, 10_000));
    assert_eq!(steps(&[clash.clone(), vec![]]), (0, 1, 10_000));
    assert_eq!(steps(&[clash.clone(), clash]), (10, 0, 0));
}

/// A filling of one hedge variable with so many leaves.
fn leaves(count: usize) -> Vec<u16> {
    let mut filling = vec![1, 3, (4 + 2 * count) as u16];
    filling.extend([3000, 0].repeat(count));
    filling.push(0);
    filling
}

#[test]
fn filled_literal_of_8192_words() {
    // Four times 2,044 words, 2 of the literal's own, and the expression's.
    let tried = |stars: usize| {
        let mut literal = vec![6000, 2000, 2000, 2000, 2000, 0];
        literal.extend([7003].repeat(stars));
        literal.extend([3000, 7000]);
        // An empty alternative is met, but the length is decided before.
        Desk::BASE
            .try_filling(&question([1, 0, 1, 0], &[vec![], literal]), &leaves(1022))
            .map_err(Refused::number)
    };
    assert_eq!(tried(12), Ok(true));
    assert_eq!(tried(13), Err(13));
}

#[test]
fn filling_of_4096_words() {
    let asked = question([1, 0, 1, 0], &[vec![]]);
    assert_eq!(leaves(2046).len(), 4096);
    assert_eq!(Desk::BASE.try_filling(&asked, &leaves(2046)).map_err(Refused::number), Ok(true));
    assert_eq!(Desk::BASE.try_filling(&asked, &leaves(2047)).map_err(Refused::number), Err(11));
}

#[test]
fn deep_filling_in_a_deep_question() {
    // f(f(...p...)) in f(f(...a*...)), the value as deep as can be.
    let deep = 300;
    let mut literal = vec![6000];
    literal.extend([3000].repeat(deep));
    literal.push(2000);
    literal.extend([0].repeat(deep + 1));
    literal.extend([3000].repeat(deep));
    literal.extend([7003, 3000, 7003, 3000, 7000]);
    let mut filling = vec![1, 3, 4096];
    filling.extend([3000].repeat(2046));
    filling.resize(4096, 0);
    let asked = question([1, 0, 1, 0], &[literal]);
    assert_eq!(Desk::BASE.try_filling(&asked, &filling).map_err(Refused::number), Ok(false));
    assert_eq!(Desk::BASE.try_filling(&asked, &leaves(1000)).map_err(Refused::number), Ok(true));
}
