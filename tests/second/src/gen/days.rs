//! A day's sheets.

use super::random::Random;
use super::{case, damage};
use crate::day::written;
use crate::desk::Desk;

/// A sheet of random questions, now and then damaged.
pub fn sheet(random: &mut Random, desk: &Desk, seed: u64) -> Vec<u16> {
    let count = random.pick(&[0, 1, 1, 2, 3, 5, 8, 64, 65]);
    let mut questions = Vec::new();
    let mut ends = Vec::new();
    for _ in 0..count {
        questions.extend(match random.chance(1, 12) || count > 8 {
            true => vec![random.below(3) as u16, 0, 0, 0, 0, 6],
            false => case(desk, seed, random.draw()).question,
        });
        ends.push(questions.len());
    }
    let mut sheet = written(&ends, questions);
    if random.chance(1, 5) {
        damage::anywhere(random, &mut sheet, 0);
    }
    if random.chance(1, 8) {
        // An offset too high, or one too low.
        let at = random.below(sheet.len().min(2 * count + 3));
        sheet[at] = sheet[at].wrapping_add(random.pick(&[1, 65535]));
    }
    sheet
}
