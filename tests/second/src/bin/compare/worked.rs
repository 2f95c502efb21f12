//! The worked answers.

use std::path::Path;

use second::host::{LENT, NO, SHOWN};
use second::overlap::{write_sheet, RULES_MOST};
use second::proved::{self, Folder, Held};
use second::records::{cases, Case};
use second::request::{bytes, Request};
use second::worked::{rules, run_folder};

use crate::random;
use crate::tally::Tally;

/// Lent bytes after a call that wrote `written` at their start.
fn left(length: usize, written: &[u8]) -> Vec<u8> {
    let mut left = vec![LENT; length];
    left[..written.len()].copy_from_slice(written);
    left
}

/// Each record of a file, where the folder has it.
fn records(folder: &Path, file: &str) -> Vec<Case> {
    let path = folder.join(file);
    if path.exists() {
        cases(&path)
    } else {
        Vec::new()
    }
}

/// Puts the questions of a folder to both desks, and says how many of its
/// answers the second desk gives as they stand: the others need a request that
/// the proved desk does not know, or came before one that it does.
pub fn asked(tally: &mut Tally, folder: &Folder) {
    if matches!(folder.held, Held::Whole) {
        worked(tally, &folder.path);
    } else {
        asked_again(tally, &folder.path);
    }
    later(tally, &folder.path);
    let outcome = run_folder(&folder.path, &tally.desk);
    let (as_they_stand, others) = (outcome.passed, outcome.failed.len() as u64);
    let least = match folder.held {
        Held::Whole => as_they_stand + others,
        Held::AtLeast(least) => least,
        Held::Older => 0,
    };
    let name = &folder.name;
    println!("{name}: {as_they_stand} of {} answers as they stand", as_they_stand + others);
    tally.note(as_they_stand >= least, || format!("{name}: {least} answers should be so"));
}

/// What is expected of the proved desk by the worked answers themselves.
fn worked(tally: &mut Tally, folder: &Path) {
    let whole = 2 * tally.desk.limits.answer;
    for case in records(folder, "solve.txt") {
        let request = Request::Solve { question: bytes(&case.words('Q')), answer: whole };
        let expected = case.needed('R')[0];
        let expected_left = match case.field('A') {
            Some(_) => {
                let mut left = bytes(&case.words('A'));
                left.resize(whole, 0);
                left
            }
            None if expected >= 7 => vec![0; whole],
            None => left(whole, &[]),
        };
        tally.expect(&case.name, &request, expected, &expected_left);
        // The place of the mistake, from the request on that asks for it.
        if let Some(place) = case.field('W') {
            let request = Request::Place { question: bytes(&case.words('Q')) };
            tally.expect(&case.name, &request, place[0], &[]);
        }
    }
    for case in records(folder, "try.txt") {
        let (question, filling) = (bytes(&case.words('Q')), bytes(&case.words('F')));
        let expected = match case.needed('V') {
            [0, yes] => NO + yes,
            verdict => verdict[0],
        };
        tally.expect(&case.name, &Request::Try { question, filling }, expected, &[]);
    }
    for case in records(folder, "example.txt") {
        let asked = case.needed('L');
        let room = 2 * asked[1] as usize;
        let request = Request::Example {
            question: bytes(&case.words('Q')),
            line: asked[0],
            old_sheets: asked.get(2).copied().unwrap_or(0),
            room,
        };
        let shown = case.words('E');
        let (expected, expected_left) = match shown[0] {
            0 => (SHOWN + shown.len() as u32 - 1, left(room, &bytes(&shown[1..]))),
            refusal => (refusal as u32, left(room, &[])),
        };
        tally.expect(&case.name, &request, expected, &expected_left);
    }
}

/// The questions of worked answers, put to both desks.
fn asked_again(tally: &mut Tally, folder: &Path) {
    let whole = 2 * tally.desk.limits.answer;
    for case in records(folder, "solve.txt") {
        let question = bytes(&case.words('Q'));
        tally.both(&case.name, Request::Solve { question, answer: whole });
    }
    for case in records(folder, "try.txt") {
        let (question, filling) = (bytes(&case.words('Q')), bytes(&case.words('F')));
        tally.both(&case.name, Request::Try { question, filling });
    }
    for case in records(folder, "example.txt") {
        let asked = case.needed('L');
        let old_sheets = asked.get(2).copied().unwrap_or(0);
        let (question, line, room) = (bytes(&case.words('Q')), asked[0], 2 * asked[1] as usize);
        tally.both(&case.name, Request::Example { question, line, old_sheets, room });
    }
}

/// The questions of calls that came with a request, put to both desks. A folder
/// has them from that request on; what came before it may have them too.
fn later(tally: &mut Tally, folder: &Path) {
    if proved::knows(11) {
        with_trails(tally, folder);
    }
    if proved::knows(10) {
        for case in records(folder, "overlap.txt") {
            let (first, second) = (bytes(&case.words('G')), bytes(&case.words('H')));
            let (first_word, room) = (case.needed('O')[0], 2 * case.needed('O')[1] as usize);
            tally.both(&case.name, Request::Overlap { first, second, first_word, room });
        }
        for case in records(folder, "overlap-sheet.txt") {
            let [first_word, report, ..] = case.needed('O') else { panic!("O has three") };
            let rules = rules(&case);
            let sheet = bytes(&write_sheet(*first_word as u16, &rules));
            // The desk refuses more rules than it takes, whatever the room.
            let count = rules.len().min(RULES_MOST);
            let room = count * count.saturating_sub(1) * (*report as usize + 4);
            tally.both(&case.name, Request::OverlapSheet { sheet, report: *report, room });
        }
    }
    if proved::knows(9) {
        for case in records(folder, "day.txt") {
            let (sheet, room) = (bytes(&case.words('S')), 2 * case.needed('N')[0] as usize);
            tally.both(&case.name, Request::Day { sheet, room });
        }
    }
    if proved::knows(2) {
        for case in records(folder, "writer.txt") {
            random::written(tally, &case.name, &case.words('Q'));
        }
    }
}

/// Trails and their replay.
fn with_trails(tally: &mut Tally, folder: &Path) {
    let whole = 2 * tally.desk.limits.answer;
    for case in records(folder, "trail.txt") {
        let (question, trail) = (bytes(&case.words('Q')), 2 * case.needed('N')[0] as usize);
        tally.both(&case.name, Request::SolveTrail { question, answer: whole, trail });
    }
    for case in records(folder, "replay.txt") {
        let (question, trail) = (bytes(&case.words('Q')), bytes(&case.words('T')));
        tally.both(&case.name, Request::Replay { question, trail, answer: whole });
    }
    for case in records(folder, "example-trail.txt") {
        let (question, trail) = (bytes(&case.words('Q')), bytes(&case.words('T')));
        let asked = case.needed('L');
        let (line, room, old_sheets) = (asked[0], 2 * asked[1] as usize, asked[2]);
        tally.both(&case.name, Request::ExampleTrail { question, trail, line, old_sheets, room });
    }
}
