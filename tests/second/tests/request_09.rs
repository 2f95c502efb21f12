//! Request 9: a day's sheets in one call.

use second::gen::days::sheet;
use second::gen::random::Random;
use second::stack::deep;
use second::words::Refusal;
use second::Desk;

fn desk() -> Desk {
    Desk::up_to(9)
}

/// P4, refused and P3 as a sheet.
fn three() -> Vec<u16> {
    let p4 = [4, 0, 2, 0, 1, 7, 16, 5000, 2000, 2001, 0, 3000, 0, 3001, 0, 0];
    let refused = [0, 0, 0, 0, 0, 6];
    let p3 = [4, 0, 0, 0, 1, 7, 14, 5000, 3000, 0, 0, 3001, 0, 0];
    let offsets = [9, 0, 25, 0, 31, 0, 45, 0];
    [&[3], &offsets[..], &p4, &refused, &p3].concat()
}

#[test]
fn each_answer_is_that_of_the_question_alone() {
    let words = desk().day(&three(), 5_000).unwrap();
    // 9 of the header, 1 + 557 for P4, 1 for the refusal, 1 + 515 for P3.
    assert_eq!(words[..9], [3, 9, 0, 567, 0, 568, 0, 1084, 0]);
    assert_eq!(words.len(), 1084);
    assert_eq!((words[9], words[567], words[568]), (0, 3, 0));
    assert_eq!(words[10..567], desk().solve(&three()[9..25]).answer[..557]);
}

#[test]
fn room_and_header() {
    assert!(desk().day(&three(), 1084).is_ok());
    assert_eq!(desk().day(&three(), 1083), Err(Refusal::DayRoom));
    let with = |at: usize, word: u16| {
        let mut sheet = three();
        sheet[at] = word;
        desk().day(&sheet, 5_000).err()
    };
    let header = Some(Refusal::SheetHeader);
    assert_eq!(
        [with(0, 2), with(0, 65), with(1, 8), with(3, 32), with(7, 44), with(8, 1)],
        [header; 6]
    );
    assert_eq!(with(3, 24), None);
    assert_eq!(desk().day(&[0, 3, 0], 3), Ok(vec![0, 3, 0]));
    assert_eq!(desk().day(&[], 3), Err(Refusal::SheetHeader));
}

/// The answers, cut by their offsets, one by one.
#[test]
fn random_days() {
    deep(|| {
        let mut answered = 0;
        for index in 0..150 {
            let mut random = Random::of_case(9, index);
            let sheet = sheet(&mut random, &desk(), 99);
            let Ok(words) = desk().day(&sheet, usize::MAX) else { continue };
            let ends = |words: &[u16]| -> Vec<usize> {
                let header = words[1..3 + 2 * words[0] as usize].chunks(2);
                header.map(|two| two[0] as usize + 65_536 * two[1] as usize).collect()
            };
            assert_eq!(words[0], sheet[0]);
            assert_eq!(ends(&words).last(), Some(&words.len()));
            for (asked, given) in ends(&sheet).windows(2).zip(ends(&words).windows(2)) {
                let out = desk().solve(&sheet[asked[0]..asked[1]]);
                let answer = &words[given[0]..given[1]];
                assert_eq!(answer[0], out.refusal);
                if out.refusal == 0 {
                    assert!(out.answer.starts_with(&answer[1..]));
                    assert!(out.answer[answer.len() - 1..].iter().all(|word| *word == 0));
                    answered += 1;
                }
            }
        }
        assert!(answered > 100, "{answered}");
    });
}
