//! Worked answers put to a desk.

use std::path::Path;

use crate::desk::{Desk, ORDER};
use crate::example::Ask;
use crate::overlap::{Action, LiveRule, Meeting, Sheet};
use crate::records::{cases, Case};
use crate::trail::Trail;
use crate::words::{Refusal, Refused};
use crate::SolveOut;

/// What a case expects and what the desk gives, both as lists of numbers.
type Compare = fn(&Desk, &Case) -> (Vec<u32>, Vec<u32>);

/// The files of worked answers.
const FILES: [(&str, Compare); 10] = [
    ("solve.txt", |desk, case| compare_solved(desk, case, desk.solve(&case.words('Q')))),
    ("try.txt", compare_try),
    ("example.txt", compare_example),
    ("trail.txt", compare_trail),
    ("replay.txt", compare_replay),
    ("example-trail.txt", compare_example),
    ("day.txt", compare_day),
    ("overlap.txt", compare_overlap),
    ("overlap-sheet.txt", compare_overlap_sheet),
    ("writer.txt", compare_writer),
];

/// Agreements, and a text for each disagreement.
#[derive(Default)]
pub struct Outcome {
    pub passed: u64,
    pub failed: Vec<String>,
}

/// Runs the worked answers of a folder and of the folders in it: those of the
/// base, and for request N, in `wish-NN`, those of the desk that knows it and
/// all requests before it.
pub fn run(folder: &Path) -> Vec<(String, Outcome)> {
    let mut outcomes = Vec::new();
    let folders = [(String::from("base"), folder.to_path_buf(), Desk::BASE)].into_iter();
    let requests = ORDER.iter().map(|request| {
        let name = format!("wish-{request:02}");
        let within = folder.join(&name);
        (name, within, Desk::up_to(*request))
    });
    for (name, folder, desk) in folders.chain(requests) {
        let outcome = run_folder(&folder, &desk);
        if outcome.passed > 0 || !outcome.failed.is_empty() {
            outcomes.push((name, outcome));
        }
    }
    outcomes
}

/// Runs the files of worked answers that a folder has.
pub fn run_folder(folder: &Path, desk: &Desk) -> Outcome {
    let mut outcome = Outcome::default();
    for (file, compare) in FILES {
        let path = folder.join(file);
        if !path.exists() {
            continue;
        }
        for case in cases(&path) {
            let (expected, got) = compare(desk, &case);
            if expected == got {
                outcome.passed += 1;
            } else {
                outcome.failed.push(format!(
                    "{}: {}\n  expected {}\n  got      {}",
                    path.display(),
                    case.name,
                    shown(&expected),
                    shown(&got)
                ));
            }
        }
    }
    outcome
}

/// Numbers up to the last that is not 0.
fn shown(numbers: &[u32]) -> String {
    let end = numbers.iter().rposition(|number| *number != 0).map_or(1, |last| last + 1);
    let list: Vec<String> = numbers[..end].iter().map(u32::to_string).collect();
    list.join(" ")
}

fn wide(words: &[u16]) -> impl Iterator<Item = u32> + '_ {
    words.iter().map(|word| *word as u32)
}

fn compare_trail(desk: &Desk, case: &Case) -> (Vec<u32>, Vec<u32>) {
    let room = case.needed('N')[0] as usize;
    let out = desk.solve_with_trail(&case.words('Q'), room);
    let trail = out.trail.clone();
    let (mut expected, mut got) = compare_solved(desk, case, out);
    match case.field('T') {
        Some(words) => expected.extend(words),
        None if case.needed('R')[0] >= 7 => expected.resize(expected.len() + room, 0),
        None => {}
    }
    got.extend(wide(&trail));
    (expected, got)
}

fn compare_day(desk: &Desk, case: &Case) -> (Vec<u32>, Vec<u32>) {
    let mut got = vec![0];
    match desk.day(&case.words('S'), case.needed('N')[0] as usize) {
        Ok(words) => got.extend(wide(&words)),
        Err(refusal) => got[0] = refusal.number() as u32,
    }
    (case.needed('D').to_vec(), got)
}

/// What the rules of a record have in common.
fn sheet(case: &Case) -> Sheet {
    let [first_word, room, flag] = case.needed('O') else { panic!("{}: O has three", case.name) };
    Sheet { first_word: *first_word as u16, room: *room as usize, old_sheets: *flag == 1 }
}

fn meeting_numbers(meeting: Result<Meeting, u16>) -> Vec<u32> {
    match meeting {
        Err(refusal) => vec![refusal as u32],
        Ok(Meeting::CannotMeet) => vec![0, 0],
        Ok(Meeting::NotSettled) => vec![0, 2],
        Ok(Meeting::CanMeet(report)) => [0, 1].into_iter().chain(wide(&report)).collect(),
    }
}

fn compare_overlap(desk: &Desk, case: &Case) -> (Vec<u32>, Vec<u32>) {
    let meeting = desk.overlap(&sheet(case), &case.words('G'), &case.words('H'));
    (case.needed('M').to_vec(), meeting_numbers(meeting))
}

/// The rules of a record.
pub fn rules(case: &Case) -> Vec<LiveRule> {
    let rule = |line: &[u32]| LiveRule {
        action: Action::ALL[line[0] as usize],
        pattern: line[1..].iter().map(|word| *word as u16).collect(),
    };
    case.fields('G').into_iter().map(rule).collect()
}

fn compare_overlap_sheet(desk: &Desk, case: &Case) -> (Vec<u32>, Vec<u32>) {
    let rules = rules(case);
    let mut expected = case.needed('Z').to_vec();
    expected.extend(case.fields('M').concat());
    let mut got = vec![0];
    match desk.overlaps(&sheet(case), &rules) {
        Err(refusal) => got[0] = refusal as u32,
        Ok(rows) => {
            for row in rows {
                got.extend(row.rules.map(|place| place as u32));
                got.extend(meeting_numbers(row.meeting));
            }
        }
    }
    (expected, got)
}

/// The writer's number; where a text is due it is read back to the same words,
/// and both rooms are needed whole.
fn compare_writer(desk: &Desk, case: &Case) -> (Vec<u32>, Vec<u32>) {
    let question = case.words('Q');
    let expected = case.needed('X').to_vec();
    let written = |room: usize| desk.write_text(&question, room).map_err(Refused::number);
    let got = match written(usize::MAX) {
        Err(refusal) => {
            assert_eq!(written(0), Err(refusal), "{}: the room changes the number", case.name);
            refusal
        }
        Ok(text) => {
            let read = |room: usize| desk.read_text(&text, room).map_err(Refusal::number);
            assert_eq!(read(question.len()), Ok(question.clone()), "{}: read back", case.name);
            assert_eq!(read(question.len() - 1), Err(19), "{}: words of room", case.name);
            assert_eq!(written(text.len()), Ok(text.clone()), "{}: bytes of room", case.name);
            let short = text.len().checked_sub(1).map_or(Err(19), written);
            assert_eq!(short, Err(19), "{}: bytes of room", case.name);
            0
        }
    };
    (expected, vec![got as u32])
}

fn compare_replay(desk: &Desk, case: &Case) -> (Vec<u32>, Vec<u32>) {
    let out = desk.replay(&case.words('Q'), &Trail::of(&case.words('T')));
    compare_solved(desk, case, out)
}

fn compare_solved(desk: &Desk, case: &Case, out: SolveOut) -> (Vec<u32>, Vec<u32>) {
    let mut expected = case.needed('R').to_vec();
    let mut got = vec![out.refusal as u32, out.lines as u32, out.open as u32, out.steps];
    if let Some(answer) = case.field('A') {
        expected.extend(answer);
        expected.resize(4 + desk.limits.answer, 0);
    } else if expected[0] >= 7 {
        expected.resize(4 + desk.limits.answer, 0);
    }
    got.extend(wide(&out.answer));
    with_place(case, expected, got, out.place)
}

fn compare_try(desk: &Desk, case: &Case) -> (Vec<u32>, Vec<u32>) {
    let (got, place) = match desk.try_filling(&case.words('Q'), &case.words('F')) {
        Ok(yes) => (vec![0, yes as u32], 0),
        Err(refused) => (vec![refused.number() as u32, 0], refused.place),
    };
    with_place(case, case.needed('V').to_vec(), got, place)
}

/// Compares the place of a mistake too, where the record has it.
fn with_place(
    case: &Case,
    mut expected: Vec<u32>,
    mut got: Vec<u32>,
    place: usize,
) -> (Vec<u32>, Vec<u32>) {
    if let Some(recorded) = case.field('W') {
        expected.insert(0, recorded[0]);
        got.insert(0, place as u32);
    }
    (expected, got)
}

fn compare_example(desk: &Desk, case: &Case) -> (Vec<u32>, Vec<u32>) {
    let asked = case.needed('L');
    let (mut got, mut place) = (vec![0], 0);
    let ask = Ask {
        line: asked[0] as usize,
        room: asked[1] as usize,
        old_sheets: asked.get(2) == Some(&1),
    };
    let question = case.words('Q');
    let shown = match case.field('T') {
        None => desk.example(&question, ask),
        Some(_) => desk.example_with_trail(&question, &Trail::of(&case.words('T')), ask),
    };
    match shown {
        Ok(filling) => got.extend(wide(&filling)),
        Err(refused) => {
            got[0] = refused.number() as u32;
            place = refused.place;
        }
    }
    with_place(case, case.needed('E').to_vec(), got, place)
}
