//! Request 1: at which word the reader stopped.

use second::gen::{case, SEED};
use second::stack::deep;
use second::words::{classify, Word};
use second::{Ask, Desk};

fn desk() -> Desk {
    Desk::up_to(1)
}

/// x = a over two symbols, and its number and place after a word is put in.
fn with(at: usize, word: u16) -> (u16, usize) {
    let mut asked = vec![2, 1, 0, 0, 1, 7, 13, 5000, 1000, 0, 3000, 0, 0];
    asked[at] = word;
    let out = desk().solve(&asked);
    (out.refusal, out.place)
}

#[test]
fn the_first_word_that_cannot_continue() {
    assert_eq!(with(7, 5000), (0, 0));
    assert_eq!(with(7, 3000), (5, 7));
    assert_eq!(with(8, 5000), (5, 8));
    assert_eq!(with(10, 7000), (5, 10));
    // The literal is whole before the last word, or not before the end.
    assert_eq!(with(10, 0), (5, 11));
    assert_eq!(with(11, 1000), (5, 13));
    assert_eq!(with(12, 3001), (5, 13));
}

#[test]
fn the_first_undeclared_number() {
    assert_eq!(with(8, 1001), (6, 8));
    assert_eq!(with(10, 3002), (6, 10));
    // A mistake of form is told first, wherever it stands.
    let asked = [2, 0, 0, 0, 1, 7, 13, 5000, 1000, 0, 3000, 0, 7000];
    let out = desk().solve(&asked);
    assert_eq!((out.refusal, out.place), (5, 12));
}

#[test]
fn trouble_elsewhere_has_no_place() {
    assert_eq!(with(0, 129), (3, 0));
    assert_eq!(with(6, 12), (4, 0));
    assert_eq!(desk().place(&[]), 0);
}

/// Whether words are the beginning of some conjunction: read by a count of
/// what is still open, apart from the reader.
fn can_continue(words: &[u16], kind: u16) -> bool {
    // What is still to come, the next last: a hedge, or an expression.
    let mut open: Vec<char> = Vec::new();
    for word in words {
        match (open.pop(), classify(*word, kind)) {
            (None, Word::Equation) => open.extend(['h', 'h']),
            (None, Word::Membership) => open.extend(['e', 'h']),
            (Some('h'), Word::End) => {}
            (Some('h'), Word::TermVariable(_) | Word::HedgeVariable(_)) => open.push('h'),
            (Some('h'), Word::Symbol(_) | Word::FunctionVariable(_)) => open.extend(['h', 'h']),
            (Some('e'), Word::Eps) => {}
            (Some('e'), Word::Star | Word::Symbol(_)) => open.push('e'),
            (Some('e'), Word::Concatenation | Word::Choice) => open.extend(['e', 'e']),
            _ => return false,
        }
    }
    true
}

/// On damaged questions: the words before the place can go on, the word there
/// cannot; and solving, trying and the example hand on the same place.
#[test]
fn the_place_is_the_first() {
    deep(|| {
        let (desk, mut seen) = (desk(), [0; 2]);
        for index in 0..3_000 {
            let words = case(&desk, SEED, index).question;
            let out = desk.solve(&words);
            if out.refusal == 5 {
                let ends = &words[5..6 + words[4] as usize];
                let mut after = ends.windows(2).filter(|two| two[1] as usize >= out.place);
                let two = after.next().expect("the conjunction of the place");
                let (start, end) = (two[0] as usize, two[1] as usize);
                let kind = desk.limits.kind;
                assert!(can_continue(&words[start..out.place], kind), "case {index}");
                if out.place < end {
                    assert!(!can_continue(&words[start..=out.place], kind), "case {index}");
                }
                seen[0] += 1;
            }
            if out.refusal == 5 || out.refusal == 6 {
                let ask = Ask { line: 0, room: 0, old_sheets: false };
                assert_eq!(desk.example(&words, ask).unwrap_err().place, out.place);
                assert_eq!(desk.try_filling(&words, &[]).unwrap_err().place, out.place);
                seen[1] += 1;
            }
        }
        assert!(seen[0] > 200 && seen[1] > seen[0] + 20, "{seen:?}");
    });
}
