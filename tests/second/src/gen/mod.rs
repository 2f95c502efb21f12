//! Random cases, the same for the same seed: questions of many shapes, whole
//! and damaged, fillings to try on them, and lines to ask an example of.

pub mod clash;
pub mod damage;
pub mod days;
pub mod fillings;
pub mod last;
pub mod limits;
pub mod overlaps;
pub mod pieces;
pub mod planted;
pub mod random;
pub mod texts;
pub mod trails;

use crate::desk::Desk;
use crate::example::{write, Ask};
use crate::literal::Conjunction;
use crate::read::Question;
use pieces::{conjunction, question_words, Pieces};
use random::Random;

/// The seed that is used unless another is given.
pub const SEED: u64 = 0x5EC0_0D5E_ED00_0001;

/// One case to put to a desk, or to two of them.
#[derive(Clone, Debug)]
pub struct Case {
    /// How the question was made.
    pub kind: &'static str,
    pub question: Vec<u16>,
    /// Fillings to try on it.
    pub fillings: Vec<Vec<u16>>,
    /// Examples to ask for.
    pub asks: Vec<Ask>,
    /// Trails to replay.
    pub trails: Vec<Vec<u16>>,
}

/// The kinds of questions, and how many in 1,000 are of each.
const KINDS: [(&str, usize); 10] = [
    ("small", 330),
    ("planted", 250),
    ("long", 60),
    ("damaged", 240),
    ("limits", 60),
    ("clash", 60),
    ("last", 30),
    ("wide", 20),
    ("long example", 20),
    ("bare header", 20),
];

/// Case number `index` of a seed, for a desk.
pub fn case(desk: &Desk, seed: u64, index: u64) -> Case {
    let mut random = Random::of_case(seed, index);
    let mut drawn = random.below(KINDS.iter().map(|kind| kind.1).sum());
    let mut kind = KINDS[0].0;
    for (name, share) in KINDS {
        kind = name;
        if drawn < share {
            break;
        }
        drawn -= share;
    }
    let (question, mut fillings) = question_of(kind, &mut random, desk);
    let asks = asks(&mut random, desk, &question, &mut fillings);
    fillings::more(&mut random, desk, &question, &mut fillings);
    let trails = match desk.replays && random.chance(1, 2) {
        true => trails::trails(&mut random, desk, &question),
        false => Vec::new(),
    };
    Case { kind, question, fillings, asks, trails }
}

/// A question of a kind, and fillings that belong to it.
fn question_of(kind: &str, random: &mut Random, desk: &Desk) -> (Vec<u16>, Vec<Vec<u16>>) {
    match kind {
        "small" => (small(random, desk), Vec::new()),
        "planted" => planted_question(random, desk, 2),
        "long" => long(random, desk),
        "damaged" => damaged(random, desk),
        "limits" => (limits::question(random, desk), Vec::new()),
        "clash" => (clash::question(random, desk), Vec::new()),
        "last" => (last::question(random, desk), Vec::new()),
        "wide" => {
            let (question, filling) = fillings::wide(random);
            (question, vec![filling])
        }
        "long example" => (fillings::long_example(random), Vec::new()),
        _ => (bare_header(random, desk), Vec::new()),
    }
}

/// A few alternatives of a few random literals.
fn small(random: &mut Random, desk: &Desk) -> Vec<u16> {
    let pieces = Pieces { declared: pieces::declared(random, desk) };
    let alternatives = random.pick(&[0, 1, 1, 1, 1, 1, 2, 2, 3, 4]);
    let conjunctions = (0..alternatives).map(|_| {
        let most = random.pick(&[1, 2, 3, 5]);
        random_conjunction(random, &pieces, most)
    });
    let conjunctions = conjunctions.collect();
    fitted(desk, Question { declared: pieces.declared, conjunctions })
}

fn random_conjunction(random: &mut Random, pieces: &Pieces, most: usize) -> Conjunction {
    let count = random.below(most + 1).max(random.below(2));
    let mut literals: Vec<_> = (0..count).map(|_| pieces.literal(random)).collect();
    if count > 0 && random.chance(1, 8) {
        // The same again, for the fold.
        let again = random.pick(&literals);
        literals.insert(random.below(count + 1), again);
    }
    conjunction(&literals)
}

/// A question around a filling, and that filling.
fn planted_question(random: &mut Random, desk: &Desk, most: usize) -> (Vec<u16>, Vec<Vec<u16>>) {
    let pieces = Pieces { declared: pieces::declared(random, desk) };
    let filling = planted::filling(random, &pieces.declared, 1, 2);
    let literals = random.range(1, most.max(2));
    let mut conjunctions = vec![planted::planted(random, &pieces, &filling, literals)];
    for _ in 0..random.below(3) {
        let at = random.below(conjunctions.len() + 1);
        conjunctions.insert(at, random_conjunction(random, &pieces, 2));
    }
    let question = fitted(desk, Question { declared: pieces.declared, conjunctions });
    (question, vec![write(&filling)])
}

/// A question of some hundred words.
fn long(random: &mut Random, desk: &Desk) -> (Vec<u16>, Vec<Vec<u16>>) {
    if random.chance(1, 3) {
        return planted_question(random, desk, 40);
    }
    let pieces = Pieces { declared: pieces::declared(random, desk) };
    let alternatives = random.range(1, 16);
    let most = 90 / alternatives + 1;
    let conjunctions =
        (0..alternatives).map(|_| random_conjunction(random, &pieces, most)).collect();
    (fitted(desk, Question { declared: pieces.declared, conjunctions }), Vec::new())
}

/// A question of another kind with damage.
fn damaged(random: &mut Random, desk: &Desk) -> (Vec<u16>, Vec<Vec<u16>>) {
    let (mut words, fillings) = match random.below(8) {
        0..=3 => (small(random, desk), Vec::new()),
        4..=6 => planted_question(random, desk, 3),
        _ => long(random, desk),
    };
    damage::question(random, desk, &mut words);
    (words, fillings)
}

/// Few words, mostly header.
fn bare_header(random: &mut Random, desk: &Desk) -> Vec<u16> {
    let kind = desk.limits.kind;
    let counts = [0, 1, 2, 31, 32, 33, kind - 1, kind, kind + 1, kind + 2];
    let mut words: Vec<u16> = (0..4).map(|_| random.pick(&counts)).collect();
    words.push(random.below(19) as u16);
    let count = words[4];
    words.resize(6 + count as usize, 6 + count);
    if random.chance(1, 3) {
        words.truncate(random.below(8));
    }
    if random.chance(1, 3) {
        damage::anywhere(random, &mut words, 0);
    }
    words
}

/// The words of a question, alternatives left out at the end where it would
/// otherwise be too long.
fn fitted(desk: &Desk, mut question: Question) -> Vec<u16> {
    loop {
        let words = question_words(&question);
        if words.len() <= desk.limits.question || question.conjunctions.pop().is_none() {
            return words;
        }
    }
}

/// Examples to ask for, and those found on the way as fillings.
fn asks(
    random: &mut Random,
    desk: &Desk,
    question: &[u16],
    fillings: &mut Vec<Vec<u16>>,
) -> Vec<Ask> {
    let old_sheets = random.chance(1, 2);
    let ask = |line, room| Ask { line, room, old_sheets };
    let mut asks = vec![ask(random.below(3), 4096)];
    let Ok(question) = crate::read::question(question, desk) else { return asks };
    let Ok(run) = crate::run::run(desk, &question) else { return asks };
    if run.lines.is_empty() {
        return asks;
    }
    for _ in 0..2 {
        let line = random.below(run.lines.len());
        match crate::example::example(desk, &run, &question.declared, ask(line, 4096)) {
            Ok(example) => {
                let spare = random.pick(&[0, 1, 5000]);
                asks.push(ask(line, example.len() + spare));
                asks.push(ask(line, example.len() - 1));
                fillings.push(example);
            }
            Err(_) => asks.push(ask(line, random.pick(&[0, 100, 4096, 8192]))),
        }
    }
    if random.chance(1, 4) {
        asks.push(ask(run.lines.len(), random.pick(&[0, 4096])));
    }
    asks
}
