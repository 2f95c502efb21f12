//! This desk called as a C program calls the proved one: on bytes, with every
//! byte that is lent.

use crate::desk::Desk;
use crate::example::Ask;
use crate::overlap::{read_sheet, Meeting, Sheet};
use crate::request::{words, Request};
use crate::trail::{Trail, STEP};
use crate::words::{Refusal, Refused};

/// What a lent byte holds before a call.
pub const LENT: u8 = 0xA5;
/// What comes back beside the refusals.
pub const NO: u32 = 100;
pub const YES: u32 = 101;
pub const SHOWN: u32 = 100;
pub const CANNOT_MEET: u32 = 100;
pub const NOT_SETTLED: u32 = 101;
pub const CAN_MEET: u32 = 200;

/// Makes a call: the number that comes back. What the desk writes goes to the
/// start of the lent bytes, the others stay.
pub fn call(desk: &Desk, request: &Request, lent: &mut [u8]) -> u32 {
    match request {
        Request::Solve { question, .. } => solve(desk, question, lent),
        Request::Try { question, filling } => {
            match desk.try_filling(&words(question), &words(filling)) {
                Ok(true) => YES,
                Ok(false) => NO,
                Err(refused) => refused.number() as u32,
            }
        }
        Request::Place { question } => desk.place(&words(question)) as u32,
        Request::Day { sheet, .. } => day(desk, sheet, lent),
        Request::ReadText { text, .. } => match desk.read_text(text, lent.len() / 2) {
            Ok(question) => {
                put(&question, lent);
                SHOWN + question.len() as u32
            }
            Err(refusal) => refusal.number() as u32,
        },
        Request::WriteText { question, .. } => {
            match desk.write_text(&words(question), lent.len()) {
                Ok(text) => {
                    lent[..text.len()].copy_from_slice(&text);
                    SHOWN + text.len() as u32
                }
                Err(refused) => refused.number() as u32,
            }
        }
        Request::Overlap { first, second, first_word, .. } => {
            // A number that is no word declares too many symbols.
            let first_word = u16::try_from(*first_word).unwrap_or(u16::MAX);
            let sheet = Sheet { first_word, room: lent.len() / 2, old_sheets: false };
            met(desk.overlap(&sheet, &words(first), &words(second)), |report| put(report, lent))
        }
        Request::OverlapSheet { sheet, report, .. } => {
            overlap_sheet(desk, &words(sheet), *report as usize, lent)
        }
        Request::SolveTrail { question, answer, .. } => {
            let (answer, trail) = lent.split_at_mut(*answer);
            solve_trail(desk, question, answer, trail)
        }
        Request::Replay { question, trail, .. } => replay(desk, question, trail, lent),
        Request::ExampleTrail { question, trail, line, old_sheets, .. } => {
            let ask = ask(*line, *old_sheets, lent.len());
            let steps = whole_words(trail);
            let trail = Trail { words: &steps, half: trail.len() % 2 == 1 };
            filling_shown(desk.example_with_trail(&words(question), &trail, ask), lent)
        }
        Request::Step { question, number, step, .. } => {
            // A number that is no word is the last one.
            let word = |number: u32| u16::try_from(number).unwrap_or(u16::MAX);
            one_step(desk, question, word(*number), step.map(word), lent)
        }
        Request::Example { question, line, old_sheets, .. } => {
            let ask = ask(*line, *old_sheets, lent.len());
            let shown = desk.example(&words(question), ask);
            filling_shown(shown, lent)
        }
    }
}

fn put(words: &[u16], out: &mut [u8]) {
    for (word, pair) in words.iter().zip(out.chunks_exact_mut(2)) {
        pair.copy_from_slice(&word.to_le_bytes());
    }
}

fn solve(desk: &Desk, question: &[u8], answer: &mut [u8]) -> u32 {
    if answer.len() < 2 * desk.limits.answer {
        return 1;
    }
    let out = desk.solve(&words(question));
    put(&out.answer, answer);
    out.refusal as u32
}

fn solve_trail(desk: &Desk, question: &[u8], answer: &mut [u8], trail: &mut [u8]) -> u32 {
    if answer.len() < 2 * desk.limits.answer {
        return 1;
    }
    let out = desk.solve_with_trail(&words(question), trail.len() / 2);
    put(&out.answer, answer);
    put(&out.trail, trail);
    match out.refusal {
        0 => SHOWN + out.steps,
        refusal => refusal as u32,
    }
}

fn replay(desk: &Desk, question: &[u8], trail: &[u8], answer: &mut [u8]) -> u32 {
    if answer.len() < 2 * desk.limits.answer {
        return 1;
    }
    let steps = whole_words(trail);
    let trail = Trail { words: &steps, half: trail.len() % 2 == 1 };
    let out = desk.replay(&words(question), &trail);
    put(&out.answer, answer);
    out.refusal as u32
}

/// The results stand at the end of the room, behind zeros; after 7 and more it
/// is zeros.
fn one_step(desk: &Desk, question: &[u8], number: u16, step: [u16; STEP], room: &mut [u8]) -> u32 {
    let whole = desk.limits.answer;
    if room.len() < 2 * whole {
        return 1;
    }
    match desk.one_step(&words(question), number, step) {
        Ok(results) => {
            let begin = whole - results.len();
            put(&[vec![0; begin], results].concat(), room);
            SHOWN + begin as u32
        }
        Err(refused) => {
            if refused.number() >= 7 {
                put(&vec![0; whole], room);
            }
            refused.number() as u32
        }
    }
}

/// An odd count of bytes is no sheet, and has no words here.
fn day(desk: &Desk, sheet: &[u8], room: &mut [u8]) -> u32 {
    match desk.day(&words(sheet), room.len() / 2) {
        Ok(answers) => {
            put(&answers, room);
            0
        }
        Err(refusal) => {
            if refusal == Refusal::DayRoom {
                put(&vec![0; room.len() / 2], room);
            }
            refusal.number() as u32
        }
    }
}

/// The number of what a pair comes to; a report is shown.
fn met(meeting: Result<Meeting, u16>, mut show: impl FnMut(&[u16])) -> u32 {
    match meeting {
        Ok(Meeting::CannotMeet) => CANNOT_MEET,
        Ok(Meeting::NotSettled) => NOT_SETTLED,
        Ok(Meeting::CanMeet(report)) => {
            show(&report);
            CAN_MEET + report.len() as u32
        }
        Err(refusal) => refusal as u32,
    }
}

/// A row for each pair: two actions, the pair's number of two words, the report.
fn overlap_sheet(desk: &Desk, words: &[u16], report: usize, room: &mut [u8]) -> u32 {
    let (first_word, rules) = match read_sheet(words) {
        Ok(read) => read,
        Err(refusal) => return refusal as u32,
    };
    let row_bytes = 2 * (report + 4);
    let pairs = rules.len() * rules.len().saturating_sub(1) / 2;
    if room.len() / 2 < pairs * (report + 4) {
        return 1;
    }
    let sheet = Sheet { first_word, room: report, old_sheets: false };
    let rows = desk.overlaps(&sheet, &rules).expect("not too many rules");
    for (row, lent) in rows.into_iter().zip(room.chunks_exact_mut(row_bytes)) {
        let (head, behind) = lent.split_at_mut(8);
        let number = met(row.meeting, |report| put(report, behind));
        let [first, second] = row.actions.map(|action| action.number());
        put(&[first, second, number as u16, (number >> 16) as u16], head);
    }
    0
}

/// The whole words of bytes; an odd last byte is left out.
fn whole_words(bytes: &[u8]) -> Vec<u16> {
    words(&bytes[..bytes.len() - bytes.len() % 2])
}

/// Any number but 0 is for old sheets.
fn ask(line: u32, old_sheets: u32, room: usize) -> Ask {
    Ask { line: line as usize, room: room / 2, old_sheets: old_sheets != 0 }
}

fn filling_shown(shown: Result<Vec<u16>, Refused>, room: &mut [u8]) -> u32 {
    match shown {
        Ok(filling) => {
            put(&filling, room);
            SHOWN + filling.len() as u32
        }
        Err(refused) => refused.number() as u32,
    }
}
