//! The run: steps until no conjunction waits, and the numbers 7 to 10, 21 and
//! 29; and the replay of a trail, with 26 to 28.

use crate::counts::Counts;
use crate::desk::Desk;
use crate::literal::Conjunction;
use crate::read::{Declared, Question};
use crate::rules::{choose, Choice, Setting, RULES};
use crate::solved::is_solved;
use crate::step::step;
use crate::trail::{Trail, STEP};
use crate::words::{Refusal, FIRST_LINE, LINES_MOST, STEPS_MOST};

/// A line of the answer.
#[derive(Clone, Debug)]
pub struct Line {
    pub conjunction: Conjunction,
    pub solved: bool,
    /// The alternative it comes from, the first one 0.
    pub alternative: u16,
}

/// A run that came to its end.
#[derive(Clone, Debug)]
pub struct Run {
    pub lines: Vec<Line>,
    pub steps: u32,
    /// How often each rule was used, in the order of the rules.
    pub uses: [u32; RULES],
    /// The trail: three words for each step.
    pub trail: Vec<u16>,
}

/// Runs a question to its end, or to one of the numbers 7 to 10 and 21.
pub fn run(desk: &Desk, question: &Question) -> Result<Run, Refusal> {
    run_with_room(desk, question, usize::MAX)
}

/// The same, and 29 where the trail passes so many words.
pub fn run_with_room(desk: &Desk, question: &Question, room: usize) -> Result<Run, Refusal> {
    let mut runner = Runner::new(desk, question);
    while let Some((first, choice)) = runner.next()? {
        if runner.done.steps == STEPS_MOST {
            return Err(Refusal::Steps);
        }
        runner.make(first, choice)?;
        if runner.done.trail.len() > room {
            return Err(Refusal::TrailRoom);
        }
    }
    Ok(runner.done)
}

/// Makes the steps of a trail, wherever they apply, up to the end.
pub fn replay(desk: &Desk, question: &Question, trail: &Trail) -> Result<Run, Refusal> {
    let mut runner = Runner::new(desk, question);
    let mut left = *trail;
    while let Some((first, _)) = runner.next()? {
        let choice = left.next(&runner.setting, &first.conjunction, &first.counts)?;
        runner.make(first, choice)?;
    }
    match left.is_empty() {
        true => Ok(runner.done),
        false => Err(Refusal::TrailTooLong),
    }
}

/// Makes one step of a conjunction, where it applies: its results, or 7, 8, 21
/// or 26.
pub fn one_step(
    desk: &Desk,
    declared: Declared,
    conjunction: &Conjunction,
    named: [u16; STEP],
) -> Result<Vec<Conjunction>, Refusal> {
    let setting = Setting { desk: *desk, declared };
    let counts = Counts::of(conjunction);
    let choice = Trail::of(&named).next(&setting, conjunction, &counts)?;
    let results = step(&setting, conjunction, choice)?;
    let room: usize = results.iter().map(|result| result.words() + desk.beside()).sum();
    match room > desk.limits.waiting {
        true => Err(Refusal::WaitingTooLong),
        false => Ok(results),
    }
}

/// The first waiting conjunction, taken: its counts are those of its variables.
struct First {
    conjunction: Conjunction,
    counts: Counts,
    alternative: u16,
}

/// A run on its way.
struct Runner {
    setting: Setting,
    /// The waiting conjunctions with the numbers of their alternatives, the
    /// first one last, and the room they take: their lengths, and what each
    /// costs beside.
    waiting: Vec<(Conjunction, u16)>,
    room: usize,
    /// The counts of the first waiting conjunction, where a step left them.
    table: Option<Counts>,
    done: Run,
    /// Where the next line would start in the answer.
    end: usize,
}

impl Runner {
    fn new(desk: &Desk, question: &Question) -> Runner {
        let mut runner = Runner {
            setting: Setting { desk: *desk, declared: question.declared },
            waiting: Vec::new(),
            room: 0,
            table: None,
            done: Run { lines: Vec::new(), steps: 0, uses: [0; RULES], trail: Vec::new() },
            end: FIRST_LINE,
        };
        for (alternative, conjunction) in question.conjunctions.iter().enumerate().rev() {
            runner.put_first(vec![conjunction.clone()], alternative as u16);
        }
        runner
    }

    /// Makes lines as long as no rule applies to the first conjunction; gives
    /// the one that a rule applies to, and that rule.
    fn next(&mut self) -> Result<Option<(First, Choice)>, Refusal> {
        while let Some((conjunction, alternative)) = self.waiting.pop() {
            self.room -= conjunction.words() + self.setting.desk.beside();
            let counts = self.table.take().unwrap_or_else(|| Counts::of(&conjunction));
            debug_assert_eq!(counts, Counts::of(&conjunction));
            let first = First { conjunction, counts, alternative };
            match choose(&self.setting, &first.conjunction, &first.counts)? {
                Some(choice) => return Ok(Some((first, choice))),
                None => self.add_line(first)?,
            }
        }
        Ok(None)
    }

    /// Makes a step.
    fn make(&mut self, first: First, choice: Choice) -> Result<(), Refusal> {
        let results = step(&self.setting, &first.conjunction, choice)?;
        if let Some(result) = results.first() {
            let mut counts = first.counts;
            counts.follow(&first.conjunction, result);
            self.table = Some(counts);
        }
        self.put_first(results, first.alternative);
        if self.room > self.setting.desk.limits.waiting {
            return Err(Refusal::WaitingTooLong);
        }
        self.done.steps += 1;
        self.done.uses[choice.rule as usize] += 1;
        let step: [u16; STEP] = [choice.rule as u16, choice.at as u16, choice.way as u16];
        self.done.trail.extend(step);
        Ok(())
    }

    fn put_first(&mut self, results: Vec<Conjunction>, alternative: u16) {
        for result in results.into_iter().rev() {
            self.room += result.words() + self.setting.desk.beside();
            self.waiting.push((result, alternative));
        }
    }

    fn add_line(&mut self, first: First) -> Result<(), Refusal> {
        let desk = &self.setting.desk;
        let end = self.end + desk.beside() + first.conjunction.words();
        if self.done.lines.len() == LINES_MOST || end > desk.limits.answer {
            return Err(Refusal::Lines);
        }
        self.end = end;
        let solved = is_solved(&first.conjunction, &first.counts);
        let First { conjunction, alternative, .. } = first;
        self.done.lines.push(Line { conjunction, solved, alternative });
        Ok(())
    }
}
