//! Patterns of two rules.

use super::damage;
use super::pieces::{self, Pieces};
use super::planted::{filling, hidden};
use super::random::Random;
use crate::desk::Desk;
use crate::overlap::{write_sheet, Action, LiveRule};
use crate::read::Declared;
use crate::tree::{Hedge, Item};

/// Word 0 of a question, and the patterns of two rules: often such that a
/// report matches both, now and then damaged or with many blanks.
pub fn pair(random: &mut Random, desk: &Desk) -> (u16, Vec<u16>, Vec<u16>) {
    let mut declared = pieces::declared(random, desk);
    declared.symbols = declared.symbols.max(2);
    let pieces = Pieces { declared };
    let term = pieces.term(random, 3);
    let mut first = words(term.clone());
    let mut second = match random.below(6) {
        0 => words(pieces.term(random, 3)),
        1 => many_blanks(random, &mut first),
        _ => partner(random, &declared, term),
    };
    if random.chance(1, 10) {
        let damaged = random.pick(&[true, false]);
        damage::anywhere(random, if damaged { &mut first } else { &mut second }, 0);
    }
    let mut first_word = declared.first_word();
    if random.chance(1, 20) {
        first_word = random.pick(&[0, 1, 2, 129, 256, 257, 513, 65535]);
    }
    (first_word, first, second)
}

/// A sheet of live rules in words: the patterns of pairs, some of them twice.
pub fn sheet(random: &mut Random, desk: &Desk) -> Vec<u16> {
    let (first_word, first, second) = pair(random, desk);
    let mut patterns = vec![first, second];
    for _ in 0..random.below(5) {
        let (_, first, second) = pair(random, desk);
        patterns.extend([first, second]);
    }
    let count = random.below(patterns.len() + 1);
    patterns.truncate(count);
    if random.chance(1, 12) {
        patterns = vec![vec![1000]; random.range(31, 34)];
    }
    let rule = |pattern| LiveRule { action: random.pick(&Action::ALL), pattern };
    let rules: Vec<LiveRule> = patterns.into_iter().map(rule).collect();
    write_sheet(first_word, &rules)
}

/// Makes a word of a sheet another one, or has the sheet end elsewhere.
pub fn damage_sheet(random: &mut Random, sheet: &mut Vec<u16>) {
    let at = random.below(sheet.len() + 1);
    match random.below(4) {
        0 => sheet.truncate(at),
        1 => sheet.push(random.pick(&[0, 1, 1000])),
        _ if at < sheet.len() => sheet[at] = random.pick(&[0, 1, 2, 3, 33, 3000, 65535]),
        _ => {}
    }
}

fn words(term: Item) -> Vec<u16> {
    let mut words = Vec::new();
    Hedge::one(term).write(&mut words);
    words
}

/// A pattern that some report matches which the first one matches too.
fn partner(random: &mut Random, declared: &Declared, term: Item) -> Vec<u16> {
    let values = filling(random, declared, 1, 2);
    let report = values.filled(&Hedge::one(term));
    let mut other = hidden(random, &values, &report);
    if !other.is_lone_term() {
        other = report;
    }
    let mut words = Vec::new();
    other.write(&mut words);
    words
}

/// Two patterns with about as many blanks of one kind as two rules may have.
fn many_blanks(random: &mut Random, first: &mut Vec<u16>) -> Vec<u16> {
    let kind = random.pick(&[1000, 2000]);
    let own = random.range(60, 70);
    let blanks = |count: usize| (0..count as u16).map(move |number| kind + number);
    *first = [vec![3000], blanks(own).collect(), vec![0]].concat();
    [vec![3000], blanks(random.range(127, 129) - own).collect(), vec![0]].concat()
}
