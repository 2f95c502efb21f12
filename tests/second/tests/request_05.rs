//! Request 5: which alternative a line comes from.

use second::Desk;

/// A question over a, b and two hedge variables, or more of these.
fn question(hedges: u16, conjunctions: &[Vec<u16>]) -> Vec<u16> {
    let count = conjunctions.len() as u16;
    let mut words = vec![2, 0, hedges, 0, count, 6 + count];
    let mut end = 6 + count;
    for conjunction in conjunctions {
        end += conjunction.len() as u16;
        words.push(end);
    }
    words.extend(conjunctions.concat());
    words
}

/// (p, q) = (a, b).
fn p4() -> Vec<u16> {
    vec![5000, 2000, 2001, 0, 3000, 0, 3001, 0, 0]
}

#[test]
fn offsets_of_p4() {
    let out = Desk::up_to(5).solve(&question(2, &[p4()]));
    assert_eq!(out.answer[..6], [3, 0, 515, 529, 543, 557]);
    assert_eq!(out.answer[515..519], [1, 0, 5000, 2000]);
}

#[test]
fn alternatives_without_lines_are_counted() {
    // a = b, then (p, q) = (a, b), then nothing.
    let out =
        Desk::up_to(5).solve(&question(2, &[vec![5000, 3000, 0, 0, 3001, 0, 0], p4(), vec![]]));
    assert_eq!((out.refusal, out.lines), (0, 4));
    let numbers: Vec<u16> =
        out.answer[2..6].iter().map(|offset| out.answer[*offset as usize + 1]).collect();
    assert_eq!(numbers, [1, 1, 1, 2]);
}

/// A membership of so many words that no rule touches.
fn padding(words: usize) -> Vec<u16> {
    [&[6000, 2002, 0][..], &vec![7003; words - 4], &[7000]].concat()
}

/// (p, q) = 20 times a, with padding: 21 results of 48 words and padding.
fn cuts(pad: usize, second: usize) -> Vec<u16> {
    let first = [&[5000, 2000, 2001, 0][..], &[3000, 0].repeat(20), &[0], &padding(pad)].concat();
    question(3, &[first, padding(second)])
}

#[test]
fn eight_and_nine_count_the_added_words() {
    let desk = Desk::up_to(5);
    // 21 * (50 + 730) = 16,380, and the second alternative's words and two.
    assert_eq!(desk.solve(&cuts(725, 107)).refusal, 9);
    assert_eq!(desk.solve(&cuts(725, 108)).refusal, 8);
    // 515 + 21 * (50 + 700) = 16,265, and the second's words and two.
    let out = desk.solve(&cuts(700, 117));
    assert_eq!((out.refusal, out.lines, out.answer[2 + 22]), (0, 22, 16_384));
    assert_eq!(desk.solve(&cuts(700, 118)).refusal, 9);
}
