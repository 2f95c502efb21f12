//! A second desk for hedge questions: plain, unproved, written from the
//! request alone, to compare the proved desk with.
//!
//! A desk's three calls take words and give words. They lend nothing, so number 1
//! (a lent slice is too short) is left to whoever lends slices.

pub mod answer;
pub mod any_order;
pub mod clash;
pub mod counts;
pub mod day;
pub mod desk;
pub mod equations;
pub mod example;
pub mod expression;
pub mod filling;
pub mod forms;
pub mod gen;
pub mod host;
pub mod literal;
pub mod member;
pub mod memberships;
pub mod orders;
pub mod overlap;
pub mod proved;
pub mod read;
pub mod records;
pub mod request;
pub mod rules;
pub mod run;
pub mod same;
pub mod solved;
pub mod stack;
pub mod step;
pub mod substitution;
pub mod text;
pub mod trail;
pub mod tree;
pub mod words;
pub mod worked;

pub use desk::Desk;
pub use example::Ask;
use read::Question;
use rules::RULES;
use run::Run;
pub use trail::Trail;
use trail::STEP;
use words::Refusal;
pub use words::Refused;

/// What an answered question comes to.
#[derive(Clone, Copy, PartialEq, Eq, Debug)]
pub enum Verdict {
    /// Refused: no verdict.
    Refused,
    /// No line.
    None,
    /// Lines, and all of them solved.
    AllSolved,
    /// Lines, and some of them open.
    SomeOpen,
}

/// What solving gives back.
#[derive(Clone, Debug)]
pub struct SolveOut {
    /// The number that comes back, 0 for none.
    pub refusal: u16,
    pub verdict: Verdict,
    pub lines: u16,
    pub open: u16,
    pub steps: u32,
    /// For 5 and 6 the word of the question at which the reader stopped, else 0.
    pub place: usize,
    /// The answer's words, all zeros after 7 and more; no word at all after
    /// 2 to 6, where a lent answer stays unchanged.
    pub answer: Vec<u16>,
    /// The trail's words; after 7 on, zeros for all words lent for it.
    pub trail: Vec<u16>,
    /// How often each rule was used, in the order of `rules::ALL`.
    pub uses: [u32; RULES],
}

impl Desk {
    /// Solves a question.
    pub fn solve(&self, question: &[u16]) -> SolveOut {
        self.answered(question, 0, |question| run::run(self, question))
    }

    /// Solves a question and writes its trail to a room of so many words.
    pub fn solve_with_trail(&self, question: &[u16], room: usize) -> SolveOut {
        self.answered(question, room, |question| run::run_with_room(self, question, room))
    }

    /// Builds the lines by a trail.
    pub fn replay(&self, question: &[u16], trail: &Trail) -> SolveOut {
        self.answered(question, 0, |question| run::replay(self, question, trail))
    }

    /// Makes one named step of a question of one conjunction: the results in
    /// words, each behind its length and a number that is given; or 2 to 6, 3
    /// too where there is not one conjunction, and then 7, 8, 21 or 26.
    pub fn one_step(
        &self,
        question: &[u16],
        number: u16,
        named: [u16; STEP],
    ) -> Result<Vec<u16>, Refused> {
        let question = read::question(question, self)?;
        let [conjunction] = &question.conjunctions[..] else { return Err(Refusal::Count.into()) };
        let mut words = Vec::new();
        for result in run::one_step(self, question.declared, conjunction, named)? {
            words.extend([result.words() as u16, number]);
            result.write(&mut words);
        }
        Ok(words)
    }

    /// Reads a question, has it run and writes the answer; so many words are
    /// lent for a trail.
    fn answered(
        &self,
        question: &[u16],
        room: usize,
        run: impl Fn(&Question) -> Result<Run, Refusal>,
    ) -> SolveOut {
        let question = match read::question(question, self) {
            Ok(question) => question,
            Err(refused) => return refused_with(refused, Vec::new(), Vec::new()),
        };
        let run = match run(&question) {
            Ok(run) => run,
            Err(refusal) => {
                return refused_with(refusal.into(), vec![0; self.limits.answer], vec![0; room])
            }
        };
        let lines = run.lines.len() as u16;
        let open = answer::open_lines(&run.lines);
        let verdict = match (lines, open) {
            (0, _) => Verdict::None,
            (_, 0) => Verdict::AllSolved,
            _ => Verdict::SomeOpen,
        };
        let answer = answer::answer(self, &run);
        let Run { steps, uses, trail, .. } = run;
        SolveOut { refusal: 0, verdict, lines, open, steps, place: 0, answer, trail, uses }
    }

    /// Tries a filling on a question: yes or no, or 2 to 6, 11, 12, 13.
    pub fn try_filling(&self, question: &[u16], filling: &[u16]) -> Result<bool, Refused> {
        let question = read::question(question, self)?;
        let filling = filling::read_filling(filling, &question.declared)?;
        Ok(filling.answers(&question)?)
    }

    /// The example of a line: the filling's words, or 2 to 10, 21, 14, 15, 16.
    pub fn example(&self, question: &[u16], ask: Ask) -> Result<Vec<u16>, Refused> {
        let question = read::question(question, self)?;
        let run = run::run(self, &question)?;
        Ok(example::example(self, &run, &question.declared, ask)?)
    }

    /// The same of the lines that a trail gives: 2 to 9, 21, 26 to 28, 14 to 16.
    pub fn example_with_trail(
        &self,
        question: &[u16],
        trail: &Trail,
        ask: Ask,
    ) -> Result<Vec<u16>, Refused> {
        let question = read::question(question, self)?;
        let run = run::replay(self, &question, trail)?;
        Ok(example::example(self, &run, &question.declared, ask)?)
    }

    /// The word of a question at which the reader stops with 5 or 6, else 0.
    pub fn place(&self, question: &[u16]) -> usize {
        read::question(question, self).map_or_else(|refused| refused.place, |_| 0)
    }
}

fn refused_with(refused: Refused, answer: Vec<u16>, trail: Vec<u16>) -> SolveOut {
    SolveOut {
        refusal: refused.number(),
        verdict: Verdict::Refused,
        lines: 0,
        open: 0,
        steps: 0,
        place: refused.place,
        answer,
        trail,
        uses: [0; RULES],
    }
}
