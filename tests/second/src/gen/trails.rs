//! Trails to replay: of a run, of steps taken at random, and damaged ones.

use super::pieces::question_words;
use super::random::Random;
use crate::counts::Counts;
use crate::desk::Desk;
use crate::read::{self, Question};
use crate::rules::{Rule, Setting, RULES};
use crate::run::run;
use crate::step::step;
use crate::trail::{all_steps, STEP};

/// The most steps taken at random, and the most of a walk.
const STEPS: usize = 150;
const WALK: usize = 6;

/// A few trails for a question.
pub fn trails(random: &mut Random, desk: &Desk, question: &[u16]) -> Vec<Vec<u16>> {
    let Ok(question) = read::question(question, desk) else {
        return vec![vec![0; random.below(8)]];
    };
    let mut trails = vec![wandering(random, desk, &question)];
    if let Ok(run) = run(desk, &question) {
        trails.push(run.trail);
    }
    for at in 0..trails.len() {
        let mut trail = trails[at].clone();
        damage(random, &mut trail);
        trails.push(trail);
    }
    trails
}

/// A trail of steps that apply, taken at random and not the first that does;
/// cut off where it gets long.
fn wandering(random: &mut Random, desk: &Desk, question: &Question) -> Vec<u16> {
    let setting = Setting { desk: *desk, declared: question.declared };
    let mut waiting: Vec<_> = question.conjunctions.iter().rev().cloned().collect();
    let mut trail = Vec::new();
    while let Some(conjunction) = waiting.pop() {
        let counts = Counts::of(&conjunction);
        let Ok(steps) = all_steps(&setting, &conjunction, &counts) else { return trail };
        if steps.is_empty() {
            continue;
        }
        let choice = random.pick(&steps);
        trail.extend([choice.rule as u16, choice.at as u16, choice.way as u16]);
        let Ok(results) = step(&setting, &conjunction, choice) else { return trail };
        let room: usize = results.iter().chain(&waiting).map(|one| one.words() + 2).sum();
        if trail.len() > 3 * STEPS || room > desk.limits.waiting {
            return trail;
        }
        waiting.extend(results.into_iter().rev());
    }
    trail
}

/// A question and a step to make of it, which applies or does not.
pub type Named = (Vec<u16>, [u16; STEP]);

/// Steps along a walk at random from one alternative of a question, of which
/// one result is followed at each; beside each step one with a word changed, and
/// before them a step of the question as it stands.
pub fn walk(random: &mut Random, desk: &Desk, question: &[u16]) -> Vec<Named> {
    let mut named = vec![(question.to_vec(), any_step(random))];
    let Ok(Question { declared, conjunctions }) = read::question(question, desk) else {
        return named;
    };
    if conjunctions.is_empty() {
        return named;
    }
    let setting = Setting { desk: *desk, declared };
    let mut conjunction = random.pick(&conjunctions);
    for _ in 0..WALK {
        let conjunctions = vec![conjunction.clone()];
        let asked = question_words(&Question { declared, conjunctions });
        let clash = [Rule::Clash as u16, random.below(3) as u16, 0];
        named.extend([(asked.clone(), any_step(random)), (asked.clone(), clash)]);
        let counts = Counts::of(&conjunction);
        let Ok(steps) = all_steps(&setting, &conjunction, &counts) else { break };
        if steps.is_empty() {
            break;
        }
        let choice = random.pick(&steps);
        let words = [choice.rule as u16, choice.at as u16, choice.way as u16];
        let mut other = words;
        let at = random.below(STEP);
        other[at] = changed(random, at, words[at]);
        named.extend([(asked.clone(), words), (asked, other)]);
        match step(&setting, &conjunction, choice) {
            Ok(results) if !results.is_empty() => conjunction = random.pick(&results),
            _ => break,
        }
    }
    named
}

/// Three words that name a rule, a literal and a side, mostly.
fn any_step(random: &mut Random) -> [u16; STEP] {
    [0, 1, 2].map(|at| changed(random, at, 0))
}

/// Another word for the one at this place of a step.
fn changed(random: &mut Random, at: usize, word: u16) -> u16 {
    match (at, random.below(4)) {
        (_, 0) => random.pick(&[2, 100, 65535]),
        (0, _) => random.below(RULES + 1) as u16,
        (1, _) => random.below(6) as u16,
        _ => 1 - word.min(1),
    }
}

/// Changes a word, or makes the trail shorter or longer.
fn damage(random: &mut Random, trail: &mut Vec<u16>) {
    let at = random.below(trail.len() + 1);
    match random.below(5) {
        0 => trail.truncate(at),
        1 => trail.extend(vec![0; random.range(1, 3)]),
        _ if at < trail.len() => trail[at] = changed(random, at % STEP, trail[at]),
        _ => trail.push(0),
    }
}
