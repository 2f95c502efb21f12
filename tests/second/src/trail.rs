//! A trail to replay: for each step the rule's place in the list, the
//! literal's place, and 1 if the sides were swapped, else 0.

use crate::clash::clashes;
use crate::counts::Counts;
use crate::equations::EQUATION_RULES;
use crate::literal::{Claim, Conjunction};
use crate::memberships::MEMBERSHIP_RULES;
use crate::rules::{later_equal, with_needs, Choice, Reach, Rule, Setting, Way, ALL};
use crate::words::Refusal;

/// The words of a step.
pub const STEP: usize = 3;

/// What is left of a trail: its words, and whether half a word stands behind
/// them, as bytes can have it.
#[derive(Clone, Copy, Debug)]
pub struct Trail<'a> {
    pub words: &'a [u16],
    pub half: bool,
}

impl<'a> Trail<'a> {
    pub fn of(words: &'a [u16]) -> Trail<'a> {
        Trail { words, half: false }
    }

    pub fn is_empty(&self) -> bool {
        self.words.is_empty() && !self.half
    }

    /// Takes the next step, where it applies; else 26 or 27, or 21 where it
    /// names the last rule and a walk is too long.
    pub fn next(
        &mut self,
        setting: &Setting,
        conjunction: &Conjunction,
        counts: &Counts,
    ) -> Result<Choice, Refusal> {
        let (step, rest) = self.words.split_at_checked(STEP).ok_or(Refusal::TrailTooShort)?;
        self.words = rest;
        let rule = ALL.get(step[0] as usize).ok_or(Refusal::NoSuchStep)?;
        let way = match step[2] {
            0 => Way::Written,
            1 => Way::Swapped,
            _ => return Err(Refusal::NoSuchStep),
        };
        let choice = Choice { rule: *rule, at: step[1] as usize, way };
        match applies(setting, conjunction, counts, choice)? {
            true => Ok(choice),
            false => Err(Refusal::NoSuchStep),
        }
    }
}

/// Whether a rule applies at a literal, read in a way, first or not.
pub fn applies(
    setting: &Setting,
    conjunction: &Conjunction,
    counts: &Counts,
    choice: Choice,
) -> Result<bool, Refusal> {
    let Choice { rule, at, way } = choice;
    let literals = conjunction.literals();
    let Some(literal) = literals.get(at) else { return Ok(false) };
    let declared = &setting.declared;
    let written = way == Way::Written;
    Ok(match (rule, literal.claim()) {
        (Rule::Fold, _) => written && setting.desk.folds && later_equal(literals, at).is_some(),
        (Rule::Clash, _) => written && setting.desk.clashes && clashes(declared, literals, at)?,
        (_, Claim::Equation(left, right)) => {
            let (left, right) = if written { (left, right) } else { (right, left) };
            let entry = EQUATION_RULES.iter().find(|entry| entry.0 == rule);
            entry.is_some_and(|entry| entry.1(declared, left, right))
                && match with_needs(rule, way, left, right) {
                    Reach::IfElsewhere(_, _, needed) => counts.all_repeated(needed),
                    _ => true,
                }
        }
        (_, Claim::Membership(hedge, expression)) => {
            let entry = MEMBERSHIP_RULES.iter().find(|entry| entry.0 == rule);
            written && entry.is_some_and(|entry| entry.1(declared, hedge, expression))
        }
    })
}

/// All steps that apply, whatever comes first.
pub fn all_steps(
    setting: &Setting,
    conjunction: &Conjunction,
    counts: &Counts,
) -> Result<Vec<Choice>, Refusal> {
    let mut steps = Vec::new();
    for rule in ALL {
        for at in 0..conjunction.literals().len() {
            for way in [Way::Written, Way::Swapped] {
                let choice = Choice { rule, at, way };
                if applies(setting, conjunction, counts, choice)? {
                    steps.push(choice);
                }
            }
        }
    }
    Ok(steps)
}
