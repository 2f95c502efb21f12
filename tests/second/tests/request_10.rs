//! Request 10: the overlap desk.

use second::gen::overlaps::pair;
use second::gen::planted::{filling, ground};
use second::gen::random::Random;
use second::overlap::{read_sheet, write_sheet, Action, LiveRule, Meeting, Sheet};
use second::read::Declared;
use second::stack::deep;
use second::tree::Hedge;
use second::Desk;

fn desk() -> Desk {
    Desk::up_to(10)
}

/// Three symbols a, b, f, and room enough.
const SHEET: Sheet = Sheet { first_word: 3, room: 4096, old_sheets: false };

fn meet(first: &[u16], second: &[u16]) -> Result<Meeting, u16> {
    desk().overlap(&SHEET, first, second)
}

#[test]
fn three_things_that_can_be_said() {
    // f(x, b) and f(a, x): the blanks are kept apart.
    let report = vec![3002, 3000, 0, 3001, 0, 0];
    let meeting = meet(&[3002, 1000, 3001, 0, 0], &[3002, 3000, 0, 1000, 0]);
    assert_eq!(meeting, Ok(Meeting::CanMeet(report)));
    assert_eq!(meet(&[3000, 0], &[3001, 0]), Ok(Meeting::CannotMeet));
    // f(p, a) and f(a, p, p): no line is settled.
    let open = meet(&[3002, 2000, 3000, 0, 0], &[3002, 3000, 0, 2000, 2000, 0]);
    assert_eq!(open, Ok(Meeting::NotSettled));
    // Free blanks take the last symbol.
    assert_eq!(meet(&[1000], &[1007]), Ok(Meeting::CanMeet(vec![3002, 0])));
}

#[test]
fn a_pattern_is_one_term() {
    let wrong: [&[u16]; 7] = [
        &[],
        &[2000],
        &[1000, 1000],
        &[3000],
        &[3000, 0, 0],
        &[0],
        &[1000, 0, 1000, 0, 5000, 1000],
    ];
    for pattern in wrong {
        assert_eq!(meet(pattern, &[3000, 0]), Err(5), "{pattern:?}");
        assert_eq!(meet(&[3000, 0], pattern), Err(5), "{pattern:?}");
    }
    assert_eq!(meet(&[3003, 0], &[3000, 0]), Err(6));
    assert_eq!(desk().overlap(&Sheet { first_word: 0, ..SHEET }, &[], &[]), Err(3));
}

#[test]
fn blanks_room_and_rules() {
    let blanks = |count: u16| [vec![3000], (2000..2000 + count).collect(), vec![0]].concat();
    assert_ne!(meet(&blanks(64), &blanks(64)), Err(25));
    assert_eq!(meet(&blanks(64), &blanks(65)), Err(25));
    let small = |room: usize| desk().overlap(&Sheet { room, ..SHEET }, &[3000, 0], &[1000]);
    assert_eq!((small(2), small(1)), (Ok(Meeting::CanMeet(vec![3000, 0])), Err(16)));
    let rule = LiveRule { action: Action::Drop, pattern: vec![1000] };
    assert_eq!(desk().overlaps(&SHEET, &vec![rule.clone(); 33]), Err(24));
    assert_eq!(desk().overlaps(&SHEET, &vec![rule; 32]).unwrap().len(), 32 * 31 / 2);
}

#[test]
fn a_sheet_is_its_pairs() {
    let patterns: [&[u16]; 4] = [&[3002, 1000, 0], &[4000, 2000, 0], &[3001, 0], &[2000]];
    let actions = [Action::Keep, Action::Drop, Action::Forward, Action::Keep];
    let rule = |(pattern, action): (&&[u16], &Action)| LiveRule {
        action: *action,
        pattern: pattern.to_vec(),
    };
    let rules: Vec<LiveRule> = patterns.iter().zip(&actions).map(rule).collect();
    let rows = desk().overlaps(&SHEET, &rules).unwrap();
    let places: Vec<[usize; 2]> = rows.iter().map(|row| row.rules).collect();
    assert_eq!(places, [[0, 1], [0, 2], [0, 3], [1, 2], [1, 3], [2, 3]]);
    for row in rows {
        let [first, second] = row.rules;
        assert_eq!(row.actions, [actions[first], actions[second]]);
        assert_eq!(row.meeting, meet(patterns[first], patterns[second]));
    }
}

/// A sheet in words: what is written is read back, and else 4 or 24.
#[test]
fn a_sheet_in_words() {
    let rule = |action, pattern: &[u16]| LiveRule { action, pattern: pattern.to_vec() };
    let rules = [rule(Action::Drop, &[3000, 0]), rule(Action::Forward, &[])];
    let words = write_sheet(3, &rules);
    assert_eq!(words, [3, 2, 1, 2, 3000, 0, 2, 0]);
    let (first_word, read) = read_sheet(&words).unwrap();
    assert_eq!((first_word, write_sheet(first_word, &read)), (3, words));
    let number = |words: &[u16]| read_sheet(words).map(|_| ()).unwrap_err();
    assert_eq!(read_sheet(&[3, 0]).unwrap().1.len(), 0);
    for wrong in [&[][..], &[3], &[3, 1], &[3, 1, 0], &[3, 1, 3, 0], &[3, 1, 0, 1], &[3, 0, 0]] {
        assert_eq!(number(wrong), 4, "{wrong:?}");
    }
    assert_eq!((number(&[3, 33]), number(&[3, 32])), (24, 4));
}

/// Whether a complete report matches a pattern: the solver settles that.
fn matches(first_word: u16, report: &[u16], pattern: &[u16]) -> bool {
    let sheet = Sheet { first_word, ..SHEET };
    match desk().overlap(&sheet, pattern, report) {
        Ok(Meeting::CanMeet(_)) => true,
        Ok(Meeting::CannotMeet) => false,
        other => panic!("{other:?} of a pattern and a complete report"),
    }
}

/// A report that is given matches both; where rules cannot meet, no report
/// that the first matches is matched by the second.
#[test]
fn what_is_said_is_so() {
    deep(|| {
        let mut seen = [0; 3];
        for index in 0..1_200 {
            let mut random = Random::of_case(10, index);
            let (first_word, first, second) = pair(&mut random, &desk());
            let sheet = Sheet { first_word, ..SHEET };
            match desk().overlap(&sheet, &first, &second) {
                Ok(Meeting::CanMeet(report)) if report.len() < 60 => {
                    assert!(matches(first_word, &report, &first), "case {index}");
                    assert!(matches(first_word, &report, &second), "case {index}");
                    seen[0] += 1;
                }
                Ok(Meeting::CannotMeet) => {
                    for _ in 0..3 {
                        let Some(report) = some_match(&mut random, first_word, &first) else {
                            continue;
                        };
                        assert!(!matches(first_word, &report, &second), "case {index}");
                        seen[1] += 1;
                    }
                }
                Ok(Meeting::NotSettled) => seen[2] += 1,
                _ => {}
            }
        }
        assert!(seen[0] > 300 && seen[1] > 200 && seen[2] > 20, "{seen:?}");
    });
}

/// A random report that matches a pattern, if it is short.
fn some_match(random: &mut Random, first_word: u16, pattern: &[u16]) -> Option<Vec<u16>> {
    let (symbols, unordered) = (first_word % 256, first_word / 256);
    let declared = Declared { symbols, unordered, terms: 128, hedges: 128, functions: 128 };
    let values = filling(random, &declared, 1, 1);
    let hedge = second::read::whole_hedge(&[pattern, &[0]].concat())?;
    let mut report = Vec::new();
    values.filled(&hedge).write(&mut report);
    (report.len() < 60).then_some(report)
}

/// Complete patterns meet exactly where they are the same.
#[test]
fn complete_patterns() {
    let declared = Declared { symbols: 3, unordered: 1, terms: 0, hedges: 0, functions: 0 };
    let mut met = 0;
    for index in 0..2_000 {
        let mut random = Random::of_case(100, index);
        let term = |random: &mut Random| Hedge::one(ground(&declared).term(random, 2));
        let (left, right) = (term(&mut random), term(&mut random));
        let words = |hedge: &Hedge| {
            let mut words = Vec::new();
            hedge.write(&mut words);
            words
        };
        let expected = second::same::same(&declared, &left, &right);
        assert_eq!(matches(3 + 256, &words(&left), &words(&right)), expected);
        met += expected as u32;
    }
    assert!(met > 20, "{met}");
}
