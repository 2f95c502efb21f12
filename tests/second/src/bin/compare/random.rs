//! Random cases.

use second::gen::random::Random;
use second::gen::{self, case, days, overlaps, texts, trails};
use second::host::{self, LENT, SHOWN};
use second::overlap::RULES_MOST;
use second::proved;
use second::request::{bytes, Request};

use crate::tally::Tally;

/// One random case, in whole words and, now and then, in bytes that are none.
pub fn random_case(tally: &mut Tally, seed: u64, index: u64) {
    let whole = 2 * tally.desk.limits.answer;
    let case = case(&tally.desk, seed, index);
    let mut random = Random::of_case(seed ^ 0xB17E5, index);
    let name = format!("case {index} ({})", case.kind);
    let question = bytes(&case.question);
    let solve = |question: &[u8], answer| Request::Solve { question: question.to_vec(), answer };
    let tried = |question: &[u8], filling: &[u8]| Request::Try {
        question: question.to_vec(),
        filling: filling.to_vec(),
    };
    let old_sheets = random.pick(&[0, 0, 1, 2, u32::MAX]);
    let example = |question: &[u8], line, room| Request::Example {
        question: question.to_vec(),
        line,
        old_sheets,
        room,
    };
    let spare = random.pick(&[0, 0, 0, 1, 2, 777]);
    tally.both(&name, solve(&question, whole + spare));
    if proved::knows(1) {
        tally.both(&name, Request::Place { question: question.clone() });
    }
    if random.chance(1, 8) {
        tally.both(&name, solve(&question, random.below(whole)));
        tally.both(&name, solve(&question, whole - 1));
    }
    if random.chance(1, 8) && !question.is_empty() {
        tally.both(&name, solve(&question[..question.len() - 1], whole));
        tally.both(&name, tried(&question[1..], &[]));
        tally.both(&name, example(&question[1..], 0, 64));
    }
    for filling in &case.fillings {
        let filling = bytes(filling);
        tally.both(&name, tried(&question, &filling));
        if random.chance(1, 8) && !filling.is_empty() {
            tally.both(&name, tried(&question, &filling[..filling.len() - 1]));
        }
    }
    for ask in &case.asks {
        let room = 2 * ask.room + random.below(2);
        tally.both(&name, example(&question, ask.line as u32, room));
    }
    with_trails(tally, &name, &case, &mut random);
    if proved::knows(11) {
        with_steps(tally, &name, &case.question, &mut random);
    }
    if random.chance(1, 8) {
        tally.both(&name, example(&question, random.pick(&[512, 65_536, u32::MAX]), 100));
    }
}

/// A trail that passes its room, or does not, and replays of trails, whole and
/// not.
fn with_trails(tally: &mut Tally, name: &str, case: &gen::Case, random: &mut Random) {
    if case.trails.is_empty() {
        return;
    }
    let whole = 2 * tally.desk.limits.answer;
    let question = bytes(&case.question);
    let steps = 2 * tally.desk.solve(&case.question).trail.len();
    for room in [0, random.below(steps + 1), steps.saturating_sub(1), steps, steps + 7] {
        let (question, answer) = (question.clone(), whole + random.below(2));
        tally.both(name, Request::SolveTrail { question, answer, trail: room });
    }
    let short = Request::SolveTrail { question: question.clone(), answer: whole - 1, trail: 9 };
    tally.both(name, short);
    for trail in &case.trails {
        let mut trail = bytes(trail);
        if random.chance(1, 6) {
            trail.push(0);
        }
        let answer = random.pick(&[whole, whole, whole, whole + 1, whole - 1]);
        let replay = Request::Replay { question: question.clone(), trail: trail.clone(), answer };
        tally.both(name, replay);
        for ask in case.asks.iter().take(2) {
            let (line, old_sheets) = (ask.line as u32, ask.old_sheets as u32);
            let (question, trail, room) = (question.clone(), trail.clone(), 2 * ask.room);
            tally.both(name, Request::ExampleTrail { question, trail, line, old_sheets, room });
        }
    }
}

/// Named steps along a walk, in rooms that are long enough and not, now and then
/// with numbers that are no words and half a word behind the question.
fn with_steps(tally: &mut Tally, name: &str, question: &[u16], random: &mut Random) {
    let whole = 2 * tally.desk.limits.answer;
    for (question, step) in trails::walk(random, &tally.desk, question) {
        let mut question = bytes(&question);
        let mut step = step.map(u32::from);
        let number = random.pick(&[0, 1, 15, 65_535, 65_536, u32::MAX]);
        let room = random.pick(&[whole, whole, whole, whole, whole + 1, whole + 9, whole - 1]);
        if random.chance(1, 10) {
            step[random.below(3)] += 65_536;
        }
        if random.chance(1, 20) {
            question.push(0);
        }
        tally.both(name, Request::Step { question, number, step, room });
    }
}

/// A day's sheets, in rooms that fit and that do not.
pub fn random_day(tally: &mut Tally, seed: u64, index: u64) {
    let mut random = Random::of_case(seed ^ 0xDA7, index);
    let name = format!("day {index}");
    let sheet = days::sheet(&mut random, &tally.desk, seed);
    let fits = 2 * tally.desk.day(&sheet, usize::MAX).map_or(20, |words| words.len());
    let sheet = bytes(&sheet);
    for room in [fits, fits + 5, fits.saturating_sub(1), fits / 2, 0] {
        tally.both(&name, Request::Day { sheet: sheet.clone(), room });
    }
    if let Some((_, odd)) = sheet.split_last() {
        tally.both(&name, Request::Day { sheet: odd.to_vec(), room: fits });
    }
}

/// Two rules, with rooms that the report fits and does not fit.
pub fn random_overlap(tally: &mut Tally, seed: u64, index: u64) {
    let mut random = Random::of_case(seed ^ 0x0E71A, index);
    let (first_word, first, second) = overlaps::pair(&mut random, &tally.desk);
    let (first_word, first, second) = (first_word as u32, bytes(&first), bytes(&second));
    let overlap = |room| {
        let (first, second) = (first.clone(), second.clone());
        Request::Overlap { first, second, first_word, room }
    };
    let name = format!("rules {index}");
    let mut lent = vec![LENT; 8192];
    let number = host::call(&tally.desk, &overlap(lent.len()), &mut lent);
    let fits = 2 * number.saturating_sub(host::CAN_MEET) as usize;
    for room in [8192, fits, fits + 1, fits.saturating_sub(1)] {
        tally.both(&name, overlap(room));
    }
    if random.chance(1, 8) && !second.is_empty() {
        let (first, second, room) = (first.clone(), second[1..].to_vec(), 64);
        tally.both(&name, Request::Overlap { first, second, first_word, room });
    }
    if random.chance(1, 8) {
        let (first, second, room) = (first.clone(), second.clone(), 64);
        let first_word = random.pick(&[65_535, 65_536, 65_536 + first_word, u32::MAX]);
        tally.both(&name, Request::Overlap { first, second, first_word, room });
    }
}

/// A sheet of live rules, in rooms that have all rows and that do not, and
/// damaged.
pub fn random_sheet(tally: &mut Tally, seed: u64, index: u64) {
    let mut random = Random::of_case(seed ^ 0x5EE7, index);
    let name = format!("sheet of rules {index}");
    let mut sheet = overlaps::sheet(&mut random, &tally.desk);
    let report = random.pick(&[0, 2, 9, 40, 600]);
    let pairs = |count: usize| count * count.saturating_sub(1) / 2;
    for _ in 0..3 {
        let count = sheet.get(1).map_or(0, |count| (*count as usize).min(RULES_MOST));
        let whole = 2 * pairs(count) * (report as usize + 4);
        for room in [whole, whole + 5, whole.saturating_sub(1)] {
            tally.both(&name, Request::OverlapSheet { sheet: bytes(&sheet), report, room });
        }
        let odd = bytes(&sheet).split_last().map_or(Vec::new(), |(_, odd)| odd.to_vec());
        tally.both(&name, Request::OverlapSheet { sheet: odd, report, room: whole });
        overlaps::damage_sheet(&mut random, &mut sheet);
    }
    let huge = Request::OverlapSheet { sheet: bytes(&sheet), report: u32::MAX, room: 100 };
    tally.both(&name, huge);
}

/// A text: spelt in some way, damaged, and written by the desk, whose spelling
/// is its own and is held to what it reads back as.
pub fn random_text(tally: &mut Tally, seed: u64, index: u64) {
    let mut random = Random::of_case(seed ^ 0x7E47, index);
    let name = format!("text {index}");
    let question = case(&tally.desk, seed, index).question;
    written(tally, &name, &question);
    let Some(question) = texts::in_order(&tally.desk, &question) else { return };
    written(tally, &name, &question);
    let mut text = texts::spelt(&mut random, &tally.desk, &question);
    for _ in 0..3 {
        for room in [8192, 2 * question.len(), 2 * question.len() - 1, random.below(100)] {
            tally.both(&name, Request::ReadText { text: text.clone(), room });
        }
        texts::damage(&mut random, &mut text);
    }
    if random.chance(1, 20) {
        let text = texts::large(&mut random, &tally.desk);
        for room in [8192, 8191, 1 << 14] {
            tally.both(&name, Request::ReadText { text: text.clone(), room });
        }
    }
}

/// Has a question written, in rooms that the text fits and does not fit.
pub fn written(tally: &mut Tally, name: &str, question: &[u16]) {
    let write = |room| Request::WriteText { question: bytes(question), room };
    let (number, lent) = tally.proved.call(&write(1 << 16));
    if number < SHOWN {
        return tally.both(name, write(1 << 16));
    }
    let length = (number - SHOWN) as usize;
    let back = tally.desk.read_text(&lent[..length], question.len());
    tally.note(back.as_deref() == Ok(question), || format!("{name}: read back otherwise"));
    let mut whole = lent.clone();
    whole.truncate(length);
    tally.expect(name, &write(length), number, &whole);
    let read = Request::ReadText { text: whole, room: 2 * question.len() };
    tally.expect(name, &read, SHOWN + question.len() as u32, &bytes(question));
    if let Some(short) = length.checked_sub(1) {
        tally.expect(name, &write(short), 19, &vec![LENT; short]);
    }
}
