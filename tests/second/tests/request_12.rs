//! Request 12: bigger sheets.

use second::desk::Limits;
use second::gen::{case, SEED};
use second::stack::deep;
use second::Desk;

/// A question of one conjunction.
fn question(header: [u16; 4], literals: &[u16]) -> Vec<u16> {
    let end = 7 + literals.len() as u16;
    [&header[..], &[1, 7, end], literals].concat()
}

/// p = so many terms that the question has `words` words.
fn long_question(words: usize) -> Vec<u16> {
    let mut literal = vec![5000, 2000, 0];
    literal.resize(words - 7 - 1, 1000);
    literal.push(0);
    question([1, 1, 1, 0], &literal)
}

#[test]
fn new_numbers_met_and_passed() {
    let desk = Desk::up_to(12);
    assert_eq!(desk.limits, Limits::WIDE);
    assert_eq!(desk.solve(&long_question(4096)).refusal, 0);
    assert_eq!(desk.solve(&long_question(4097)).refusal, 2);
    let with = |symbols: u16, symbol: u16| {
        desk.solve(&question([symbols, 0, 1, 0], &[5000, 2000, 0, symbol, 0, 0])).refusal
    };
    assert_eq!(with(128, 3127), 0);
    assert_eq!(with(127, 3127), 6);
    assert_eq!(with(128, 3128), 5);
    assert_eq!(with(129, 3000), 3);
    assert_eq!(desk.solve(&question([1, 0, 1, 0], &[5000, 2000, 0, 0])).answer.len(), 16_384);
}

#[test]
fn result_of_4096_words() {
    // y = f(x, x), x = f(a, ..., a) becomes 10 + 3 * 102 words, and padding.
    let refusal = |pad: usize| {
        let mut literals = vec![5000, 1001, 0, 3000, 1000, 1000, 0, 0, 5000, 1000, 0, 3000];
        literals.extend([3000, 0].repeat(50));
        literals.extend([0, 0, 6000, 2000, 0]);
        literals.extend([7003].repeat(pad - 4));
        literals.push(7000);
        Desk::up_to(12).solve(&question([1, 2, 1, 0], &literals)).refusal
    };
    assert_eq!(deep(|| refusal(4096 - 316)), 0);
    assert_eq!(deep(|| refusal(4096 - 316 + 1)), 7);
}

/// What was answered under the old limits has the same lines and steps under
/// the new, and an old desk refuses what is past its limits with 2 or 3.
#[test]
fn stored_questions_read_as_before() {
    deep(compare_old_and_new);
}

fn compare_old_and_new() {
    let (old, new) = (Desk::BASE, Desk::up_to(12));
    let (mut answered, mut refused) = (0, 0);
    for index in 0..4_000 {
        let desk = if index % 2 == 0 { &old } else { &new };
        let question = case(desk, SEED, index).question;
        let (before, after) = (old.solve(&question), new.solve(&question));
        if before.refusal == 0 {
            assert_eq!((after.refusal, after.steps), (0, before.steps));
            assert_eq!(after.answer[..8192], before.answer);
            assert!(after.answer[8192..].iter().all(|word| *word == 0));
            answered += 1;
        }
        let past = question.len() > 1024 || question.iter().take(4).any(|count| *count > 32);
        if after.refusal == 0 && past {
            assert!(before.refusal == 2 || before.refusal == 3);
            refused += 1;
        }
    }
    assert!(answered > 1_000 && refused > 50, "{answered} {refused}");
}
