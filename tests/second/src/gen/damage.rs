//! Damage: words changed, taken away or added, in questions and fillings.

use super::random::Random;
use crate::desk::Desk;

/// Words worth putting anywhere.
#[rustfmt::skip]
const SUSPECTS: [u16; 44] = [
    0, 1, 2, 6, 7, 16, 17, 32, 33, 128, 129, 999, 1000, 1001, 1031, 1032, 1127, 1128, 1999, 2000,
    2031, 2032, 2127, 2128, 2999, 3000, 3001, 3031, 3032, 3127, 3128, 4000, 4031, 4032, 4127, 4128, 5000, 6000, 7000, 7001, 7002, 7003, 7004,
    65535,
];

fn suspect(random: &mut Random) -> u16 {
    match random.below(12) {
        0 => random.draw() as u16,
        _ => random.pick(&SUSPECTS),
    }
}

/// Damages a question in one to three places. In half of the cases the
/// offsets are put right again, so that the damage is met further on.
pub fn question(random: &mut Random, desk: &Desk, words: &mut Vec<u16>) {
    let body = 6 + *words.get(4).unwrap_or(&0) as usize;
    for _ in 0..random.range(1, 3) {
        match random.below(10) {
            0 => header(random, desk, words),
            1 => offset(random, words),
            2 => lower_count(random, words),
            3 if random.chance(1, 3) => words.truncate(random.below(words.len() + 1)),
            3 => words.push(suspect(random)),
            _ => anywhere(random, words, body),
        }
    }
    if random.chance(1, 2) {
        mend_offsets(words);
    }
    if random.chance(1, 150) {
        let most = desk.limits.question;
        words.resize(random.range(most - 4, most + 6), 0);
    }
}

/// Changes, takes away, adds or swaps a word from `from` on.
pub fn anywhere(random: &mut Random, words: &mut Vec<u16>, from: usize) {
    if words.len() <= from {
        words.push(suspect(random));
        return;
    }
    let at = random.range(from, words.len() - 1);
    match random.below(6) {
        0 => {
            words.remove(at);
        }
        1 => words.insert(at, suspect(random)),
        2 => {
            let other = random.range(from, words.len() - 1);
            words.swap(at, other);
        }
        3 => words[at] = words[at].wrapping_add(1),
        _ => words[at] = suspect(random),
    }
}

/// A count of the header out of range, or just another.
fn header(random: &mut Random, desk: &Desk, words: &mut [u16]) {
    let kind = desk.limits.kind;
    if words.len() >= 5 {
        let counts = [0, 1, 2, 3, 16, 17, kind - 1, kind, kind + 1, kind + 2, 65535];
        words[random.below(5)] = random.pick(&counts);
        if random.chance(1, 4) {
            // So many unordered symbols, or one too many.
            let unordered = random.pick(&[1, 2, words[0] % 256, words[0] % 256 + 1]);
            words[0] = (words[0] % 256).wrapping_add(256 * (unordered % 256));
        }
    }
}

/// An offset a little off, or two in the wrong order.
fn offset(random: &mut Random, words: &mut [u16]) {
    if words.len() < 7 {
        return;
    }
    let last = (5 + words[4] as usize).min(words.len() - 1);
    let at = random.range(5, last);
    match random.below(3) {
        0 => words[at] = words[at].wrapping_add(1),
        1 => words[at] = words[at].wrapping_sub(1),
        _ => words.swap(at, last),
    }
}

/// One symbol or variable fewer declared.
fn lower_count(random: &mut Random, words: &mut [u16]) {
    if words.len() >= 5 {
        let at = random.below(4);
        words[at] = words[at].saturating_sub(1).max((at == 0) as u16);
    }
}

/// Makes the offsets right for the words that are there: the first and the
/// last, and those between no higher than the last.
fn mend_offsets(words: &mut [u16]) {
    let Some(count) = words.get(4).map(|count| *count as usize) else { return };
    let length = words.len();
    if count > 16 || length < 6 + count {
        return;
    }
    words[5] = 6 + count as u16;
    for at in 6..6 + count {
        words[at] = words[at].max(words[at - 1]).min(length as u16);
    }
    if count > 0 {
        words[5 + count] = length as u16;
    }
}

/// Damages a filling in one or two places.
pub fn filling(random: &mut Random, words: &mut Vec<u16>) {
    for _ in 0..random.range(1, 2) {
        match random.below(8) {
            0 if !words.is_empty() => words[0] = words[0].wrapping_add(random.below(3) as u16),
            1 => {
                let length = random.below(words.len() + 1);
                words.truncate(length);
            }
            2 => words.resize(words.len() + random.range(1, 3), 0),
            3 if random.chance(1, 4) => words.resize(random.range(4090, 4100), 0),
            _ => {
                let count = words.first().map_or(0, |count| *count as usize);
                let from = if random.chance(3, 4) { count.saturating_add(2) } else { 0 };
                anywhere(random, words, from);
            }
        }
    }
    if random.chance(2, 3) {
        mend_last_offset(words);
    }
}

/// Makes the last offset of a filling its length.
fn mend_last_offset(words: &mut [u16]) {
    let at = words.first().map_or(0, |count| *count as usize + 1);
    let length = words.len() as u16;
    if let Some(offset) = words.get_mut(at) {
        *offset = length;
    }
}
