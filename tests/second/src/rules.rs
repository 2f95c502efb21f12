//! The rules, when each applies, and the search for the one to use.
//!
//! Most rules are decided by one literal alone; E1, E2 and E5 also ask that
//! variables occur in the other literals. So a literal is looked at once, when
//! it is made, and the search compares what was found.

use std::rc::Rc;

use crate::clash::first_clash;
use crate::counts::Counts;
use crate::desk::Desk;
use crate::equations::EQUATION_RULES;
use crate::literal::{Claim, Conjunction, Literal};
use crate::memberships::MEMBERSHIP_RULES;
use crate::read::Declared;
use crate::tree::{Functor, Hedge, Variables};
use crate::words::Refusal;

/// The rules in their order.
#[derive(Clone, Copy, PartialEq, Eq, PartialOrd, Ord, Debug)]
#[rustfmt::skip]
pub enum Rule {
    R1, R2, Fold,
    F1, F2, F3, F4, F5, F6, F7,
    Del1, Del2, Del3,
    D1, D2, D0,
    E1, E2, E3, E4, E5, E6, E7,
    M1, M2, M3, M4, M5, M6, M7, M10, M11, M12,
    Clash,
}

/// How many rules there are.
pub const RULES: usize = Rule::Clash as usize + 1;

/// All rules, in their order.
#[rustfmt::skip]
pub const ALL: [Rule; RULES] = [
    Rule::R1, Rule::R2, Rule::Fold,
    Rule::F1, Rule::F2, Rule::F3, Rule::F4, Rule::F5, Rule::F6, Rule::F7,
    Rule::Del1, Rule::Del2, Rule::Del3,
    Rule::D1, Rule::D2, Rule::D0,
    Rule::E1, Rule::E2, Rule::E3, Rule::E4, Rule::E5, Rule::E6, Rule::E7,
    Rule::M1, Rule::M2, Rule::M3, Rule::M4, Rule::M5, Rule::M6, Rule::M7, Rule::M10, Rule::M11,
    Rule::M12,
    Rule::Clash,
];

/// What the rules look at beside a conjunction: what the desk knows, and what
/// the question declares.
#[derive(Clone, Copy, Debug)]
pub struct Setting {
    pub desk: Desk,
    pub declared: Declared,
}

/// The way an equation is read.
#[derive(Clone, Copy, PartialEq, Eq, Debug)]
pub enum Way {
    Written = 0,
    Swapped = 1,
}

/// What one literal allows.
#[derive(Clone, Copy, PartialEq, Eq, Debug)]
pub enum Reach {
    Nothing,
    /// The rule applies, whatever the other literals are.
    Always(Rule, Way),
    /// The rule applies where all these variables occur in other literals. In
    /// this one each of them occurs once.
    IfElsewhere(Rule, Way, Variables),
}

/// The rule to use, and where.
#[derive(Clone, Copy, PartialEq, Eq, Debug)]
pub struct Choice {
    pub rule: Rule,
    pub at: usize,
    pub way: Way,
}

/// The rule to use, or none, or 21.
pub type Chosen = Result<Option<Choice>, Refusal>;

/// The first rule that applies to any literal, and for it the earliest
/// literal, and for that the written way before the swapped one; 21 where the
/// last rule is tried and a walk is too long. The counts are those of the
/// conjunction.
pub fn choose(setting: &Setting, conjunction: &Conjunction, counts: &Counts) -> Chosen {
    let literals = conjunction.literals();
    let mut best: Option<Choice> = None;
    for (at, literal) in literals.iter().enumerate() {
        let (rule, way) = match *literal.reach(&setting.declared) {
            Reach::Always(rule, way) => (rule, way),
            Reach::IfElsewhere(rule, way, needed) if counts.all_repeated(needed) => (rule, way),
            _ => continue,
        };
        if best.is_none_or(|found| rule < found.rule) {
            best = Some(Choice { rule, at, way });
        }
    }
    if setting.desk.folds && best.is_none_or(|found| Rule::Fold < found.rule) {
        if let Some(at) = repeated_literal(literals) {
            best = Some(Choice { rule: Rule::Fold, at, way: Way::Written });
        }
    }
    if setting.desk.clashes && best.is_none() {
        let clash = first_clash(&setting.declared, literals)?;
        best = clash.map(|at| Choice { rule: Rule::Clash, at, way: Way::Written });
    }
    Ok(best)
}

/// The earliest literal that has a later one with the same words.
fn repeated_literal(literals: &[Rc<Literal>]) -> Option<usize> {
    let mut hashes: Vec<(u64, usize)> =
        literals.iter().enumerate().map(|(at, literal)| (literal.hash(), at)).collect();
    hashes.sort_unstable();
    let maybe = hashes.windows(2).filter(|two| two[0].0 == two[1].0).map(|two| two[0].1);
    maybe.filter(|at| later_equal(literals, *at).is_some()).min()
}

/// The first literal behind `at` with the same words as the one there.
pub fn later_equal(literals: &[Rc<Literal>], at: usize) -> Option<usize> {
    (at + 1..literals.len()).find(|later| literals[*later].same(&literals[at]))
}

/// What a literal allows. At most one rule of a literal depends on other
/// literals, and where one does, no later rule applies to the literal.
pub fn reach(declared: &Declared, claim: &Claim) -> Reach {
    match claim {
        Claim::Equation(left, right) => {
            for (rule, applies) in EQUATION_RULES {
                if applies(declared, left, right) {
                    return with_needs(*rule, Way::Written, left, right);
                }
                if applies(declared, right, left) {
                    return with_needs(*rule, Way::Swapped, right, left);
                }
            }
        }
        Claim::Membership(hedge, expression) => {
            for (rule, applies) in MEMBERSHIP_RULES {
                if applies(declared, hedge, expression) {
                    return Reach::Always(*rule, Way::Written);
                }
            }
        }
    }
    Reach::Nothing
}

/// E1, E2 and E5 need the variable elsewhere, and a lone variable opposite too.
pub fn with_needs(rule: Rule, way: Way, left: &Hedge, right: &Hedge) -> Reach {
    let opposite_is_variable = match rule {
        Rule::E1 => right.lone_term_variable().is_some(),
        Rule::E2 => right.lone_hedge_variable().is_some(),
        Rule::E5 => matches!(right.lone_bare(), Some(Functor::Variable(_))),
        _ => return Reach::Always(rule, way),
    };
    let mut needed = left.variables();
    if opposite_is_variable {
        needed = needed.union(right.variables());
    }
    Reach::IfElsewhere(rule, way, needed)
}

#[cfg(test)]
mod tests {
    use super::*;
    use crate::gen::pieces::{declared, Pieces};
    use crate::gen::random::Random;

    /// The search keeps one rule for each literal. That is enough: an
    /// equation that E1, E2 or E5 may use is of no use to a later rule, and
    /// read the other way round it needs the same variables.
    #[test]
    fn one_rule_is_enough() {
        let mut seen = 0;
        for index in 0..50_000 {
            let mut random = Random::of_case(11, index);
            let pieces = Pieces { declared: declared(&mut random, &Desk::newest()) };
            let literal = pieces.equation(&mut random);
            let declared = &pieces.declared;
            let Reach::IfElsewhere(first, way, needed) = *literal.reach(declared) else {
                continue;
            };
            let Claim::Equation(left, right) = literal.claim() else { unreachable!() };
            seen += 1;
            for (rule, applies) in EQUATION_RULES {
                if *rule != first {
                    let any = applies(declared, left, right) || applies(declared, right, left);
                    assert!(!any, "{literal:?}");
                } else if way == Way::Written && applies(declared, right, left) {
                    let swapped = with_needs(first, Way::Swapped, right, left);
                    assert_eq!(swapped, Reach::IfElsewhere(first, Way::Swapped, needed));
                }
            }
        }
        assert!(seen > 5_000);
    }

    #[test]
    fn all_rules_in_their_order() {
        assert!(ALL.iter().enumerate().all(|(number, rule)| *rule as usize == number));
    }
}
