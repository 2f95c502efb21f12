//! The overlap desk: whether two rules can meet. It rests on what the solver
//! gives back alone: it asks one question, and reads the answer's words and the
//! example's.

use std::collections::HashMap;

use crate::desk::Desk;
use crate::example::Ask;
use crate::words::{
    classify, Refusal, Word, END, EQUATION, FILLING_MOST, FUNCTION_VARIABLE, HEDGE_VARIABLE,
    MARK_SOLVED, TERM_VARIABLE,
};

/// The most rules of a sheet.
pub const RULES_MOST: usize = 32;

/// What can be said of two rules.
#[derive(Clone, PartialEq, Eq, Debug)]
pub enum Meeting {
    CannotMeet,
    /// With a report that both match.
    CanMeet(Vec<u16>),
    NotSettled,
}

/// What is done with a report that matches a rule.
#[derive(Clone, Copy, PartialEq, Eq, Debug)]
pub enum Action {
    Keep,
    Drop,
    Forward,
}

/// A live rule; its pattern is the words of one term.
#[derive(Clone, Debug)]
pub struct LiveRule {
    pub action: Action,
    pub pattern: Vec<u16>,
}

/// What the rules of a sheet have in common: word 0 of a question, the words
/// of room for a report, and whether free blanks take symbol 0.
#[derive(Clone, Copy, Debug)]
pub struct Sheet {
    pub first_word: u16,
    pub room: usize,
    pub old_sheets: bool,
}

/// A row of the table: two rules by their places, their actions, and what can
/// be said of them, or a number.
#[derive(Clone, PartialEq, Eq, Debug)]
pub struct Row {
    pub rules: [usize; 2],
    pub actions: [Action; 2],
    pub meeting: Result<Meeting, u16>,
}

impl Action {
    /// The actions by their numbers on a sheet.
    pub const ALL: [Action; 3] = [Action::Keep, Action::Drop, Action::Forward];

    pub fn number(self) -> u16 {
        self as u16
    }
}

/// Word 0 of all rules of a sheet and the rules, from its words: 24, then 4
/// where the words are no sheet.
pub fn read_sheet(words: &[u16]) -> Result<(u16, Vec<LiveRule>), u16> {
    let malformed = Refusal::Offset.number();
    let [first_word, count, rest @ ..] = words else { return Err(malformed) };
    if *count as usize > RULES_MOST {
        return Err(Refusal::TooManyRules.number());
    }
    let (mut rules, mut rest) = (Vec::new(), rest);
    for _ in 0..*count {
        let [action, length, behind @ ..] = rest else { return Err(malformed) };
        let length = *length as usize;
        let Some(action) = Action::ALL.get(*action as usize) else { return Err(malformed) };
        if length > behind.len() {
            return Err(malformed);
        }
        rules.push(LiveRule { action: *action, pattern: behind[..length].to_vec() });
        rest = &behind[length..];
    }
    rest.is_empty().then_some((*first_word, rules)).ok_or(malformed)
}

/// A sheet of rules in words.
pub fn write_sheet(first_word: u16, rules: &[LiveRule]) -> Vec<u16> {
    let mut words = vec![first_word, rules.len() as u16];
    for rule in rules {
        words.extend([rule.action.number(), rule.pattern.len() as u16]);
        words.extend_from_slice(&rule.pattern);
    }
    words
}

impl Desk {
    /// Whether two rules can meet: 25, then the solver's own numbers, with 5
    /// where a pattern is not one term, then 16.
    pub fn overlap(&self, sheet: &Sheet, first: &[u16], second: &[u16]) -> Result<Meeting, u16> {
        let kind = self.limits.kind;
        let mut blanks = Blanks { counts: [0; 3] };
        let (asked, other) = (blanks.apart(first, kind), blanks.apart(second, kind));
        if blanks.counts.iter().any(|count| *count > kind) {
            return Err(Refusal::TooManyBlanks.number());
        }
        let question = blanks.question(sheet.first_word, &asked, &other);
        let out = self.solve(&question);
        let one_term = is_one_term(first, kind) && is_one_term(second, kind);
        match out.refusal {
            refusal @ (2 | 3) => return Err(refusal),
            _ if !one_term => return Err(Refusal::Form.number()),
            0 => {}
            refusal => return Err(refusal),
        }
        let offsets = &out.answer[2..2 + out.lines as usize];
        let settled = |offset: &u16| out.answer[*offset as usize] == MARK_SOLVED;
        if offsets.is_empty() {
            return Ok(Meeting::CannotMeet);
        }
        let Some(line) = offsets.iter().position(settled) else { return Ok(Meeting::NotSettled) };
        let ask = Ask { line, room: FILLING_MOST, old_sheets: sheet.old_sheets };
        let filling = self.example(&question, ask).map_err(|refused| refused.number())?;
        let report = blanks.filled(&asked, &filling, sheet.room);
        report.map(Meeting::CanMeet).ok_or(Refusal::ExampleTooLong.number())
    }

    /// The table of all pairs, the first rule before the second; or 24.
    pub fn overlaps(&self, sheet: &Sheet, rules: &[LiveRule]) -> Result<Vec<Row>, u16> {
        if rules.len() > RULES_MOST {
            return Err(Refusal::TooManyRules.number());
        }
        let mut rows = Vec::new();
        for (at, first) in rules.iter().enumerate() {
            for (later, second) in rules.iter().enumerate().skip(at + 1) {
                rows.push(Row {
                    rules: [at, later],
                    actions: [first.action, second.action],
                    meeting: self.overlap(sheet, &first.pattern, &second.pattern),
                });
            }
        }
        Ok(rows)
    }
}

/// Whether words are exactly one term, without an end mark.
fn is_one_term(words: &[u16], kind: u16) -> bool {
    let mut open = 0;
    for (at, word) in words.iter().enumerate() {
        match classify(*word, kind) {
            Word::TermVariable(_) => {}
            Word::HedgeVariable(_) if open > 0 => {}
            Word::Symbol(_) | Word::FunctionVariable(_) => open += 1,
            Word::End if open > 0 => open -= 1,
            _ => return false,
        }
        if open == 0 {
            return at + 1 == words.len();
        }
    }
    false
}

/// The blanks of each kind that are numbered so far: terms', hedges' and
/// functions'.
struct Blanks {
    counts: [u16; 3],
}

impl Blanks {
    /// A pattern with its blanks numbered behind those before it, in order of
    /// first appearance.
    fn apart(&mut self, pattern: &[u16], kind: u16) -> Vec<u16> {
        let mut numbers = HashMap::new();
        let mut renumbered = |word: u16| {
            let (which, first) = match classify(word, kind) {
                Word::TermVariable(_) => (0, TERM_VARIABLE),
                Word::HedgeVariable(_) => (1, HEDGE_VARIABLE),
                Word::FunctionVariable(_) => (2, FUNCTION_VARIABLE),
                _ => return word,
            };
            *numbers.entry(word).or_insert_with(|| {
                self.counts[which] += 1;
                first + self.counts[which] - 1
            })
        };
        pattern.iter().map(|word| renumbered(*word)).collect()
    }

    /// One conjunction: the first pattern equals the second.
    fn question(&self, first_word: u16, first: &[u16], second: &[u16]) -> Vec<u16> {
        let [terms, hedges, functions] = self.counts;
        let end = 7 + 3 + first.len() + second.len();
        let header = [first_word, terms, hedges, functions, 1, 7, end as u16, EQUATION];
        [&header[..], first, &[END], second, &[END]].concat()
    }

    /// A pattern with a filling put in; nothing where it passes the room.
    fn filled(&self, pattern: &[u16], filling: &[u16], room: usize) -> Option<Vec<u16>> {
        let [terms, hedges, _] = self.counts.map(|count| count as usize);
        let value = |number: usize| {
            let ends = &filling[1 + number..3 + number];
            // Without the 0 at its end.
            &filling[ends[0] as usize..ends[1] as usize - 1]
        };
        let mut report = Vec::new();
        for word in pattern {
            match classify(*word, u8::MAX as u16) {
                Word::TermVariable(x) => report.extend_from_slice(value(x as usize)),
                Word::HedgeVariable(p) => report.extend_from_slice(value(terms + p as usize)),
                Word::FunctionVariable(f) => report.push(value(terms + hedges + f as usize)[0]),
                _ => report.push(*word),
            }
            if report.len() > room {
                return None;
            }
        }
        Some(report)
    }
}
