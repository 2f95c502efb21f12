//! Puts random cases of a fixed seed to a desk and checks that it agrees with
//! itself.
//!
//!     selfcheck [CASES] [REQUEST]    of the desk that knows the requests up to that one: all, if it is not said

use std::process::ExitCode;

use second::example::{example as line_example, write};
use second::filling::read_filling;
use second::gen::pieces::question_words;
use second::gen::random::Random;
use second::gen::{case, planted, Case, SEED};
use second::literal::Conjunction;
use second::read::{self, Question};
use second::rules::{ALL, RULES};
use second::run::{replay, run, Run};
use second::words::{FIRST_LINE, MARK_OPEN, MARK_SOLVED};
use second::{Ask, Desk, Refused, SolveOut, Trail, Verdict};

const CASES: u64 = 20_000;
/// Examples looked at in one case.
const LINES_LOOKED_AT: usize = 60;

/// How often each outcome came up.
#[derive(Default)]
struct Counts {
    solve: [u32; 32],
    tried: [u32; 32],
    example: [u32; 32],
    verdicts: [u32; 3],
    yes: u32,
    lines: u64,
    uses: Vec<u64>,
    examples_met: u32,
    examples_13: u32,
    examples_16: u32,
}

type Checked = Result<(), String>;

fn ensure(holds: bool, what: &str) -> Checked {
    holds.then_some(()).ok_or_else(|| what.to_string())
}

fn main() -> ExitCode {
    let number = |at: usize| std::env::args().nth(at).map(|text| text.parse().expect("a number"));
    let cases = number(1).unwrap_or(CASES);
    let desk = number(2).map_or(Desk::newest(), |request| Desk::up_to(request as u8));
    let mut counts = Counts { uses: vec![0; RULES], ..Counts::default() };
    let (mut passed, mut failed) = (0, 0);
    for index in 0..cases {
        let case = case(&desk, SEED, index);
        match check(&desk, &case, index, &mut counts) {
            Ok(()) => passed += 1,
            Err(what) => {
                failed += 1;
                println!("case {index} ({}): {what}", case.kind);
                println!("  question {:?}", case.question);
            }
        }
    }
    print_counts(&counts);
    println!("{passed} passed, {failed} failed");
    if failed > 0 {
        ExitCode::FAILURE
    } else {
        ExitCode::SUCCESS
    }
}

/// All checks of one case.
fn check(desk: &Desk, case: &Case, index: u64, counts: &mut Counts) -> Checked {
    let out = desk.solve(&case.question);
    counts.solve[out.refusal as usize] += 1;
    counts.lines += out.lines as u64;
    for (sum, uses) in counts.uses.iter_mut().zip(out.uses) {
        *sum += uses as u64;
    }
    check_numbers(desk, &out)?;
    check_place(desk, case, &out)?;
    for ask in &case.asks {
        check_ask(desk, case, &out, *ask, counts)?;
    }
    let mut fillings = case.fillings.clone();
    let question = read::question(&case.question, desk);
    if let Ok(question) = &question {
        let mut random = Random::of_case(!SEED, index);
        for _ in 0..3 {
            fillings.push(write(&planted::filling(&mut random, &question.declared, 1, 2)));
        }
    }
    for filling in &fillings {
        match desk.try_filling(&case.question, filling) {
            Ok(yes) => {
                counts.tried[0] += 1;
                counts.yes += yes as u32;
            }
            Err(refused) => counts.tried[refused.number() as usize] += 1,
        }
    }
    if out.refusal != 0 {
        return Ok(());
    }
    if case.kind == "last" {
        ensure(out.open == 0, "a line is open where hedge variables stand last")?;
    }
    let question = question.map_err(|_| "solved, but not read")?;
    let run = run(desk, &question).map_err(|_| "solved, but not run")?;
    check_lines(desk, &question, &out, counts)?;
    check_examples(desk, case, &question, &run, counts)?;
    fillings.iter().try_for_each(|filling| check_filling(&question, &run, filling))?;
    if desk.replays {
        check_trail(desk, case, &question, &out, &fillings)?;
    }
    Ok(())
}

/// The trail of a solve is accepted and gives the same lines; and what any
/// trail gives fulfils the same as what solving gives.
fn check_trail(
    desk: &Desk,
    case: &Case,
    question: &Question,
    out: &SolveOut,
    fillings: &[Vec<u16>],
) -> Checked {
    let room = out.trail.len();
    let exact = desk.solve_with_trail(&case.question, room);
    ensure(exact.refusal == 0 && exact.trail == out.trail, "a trail that fits is refused")?;
    if room > 0 {
        let short = desk.solve_with_trail(&case.question, room - 1);
        ensure(
            short.refusal == 29 && short.trail == vec![0; room - 1],
            "a trail that does not fit",
        )?;
    }
    let again = desk.replay(&case.question, &Trail::of(&out.trail));
    let same = again.refusal == 0 && again.answer == out.answer && again.steps == out.steps;
    ensure(same, "the replay differs")?;
    for trail in &case.trails {
        if let Ok(run) = replay(desk, question, &Trail::of(trail)) {
            fillings.iter().try_for_each(|filling| check_filling(question, &run, filling))?;
        }
    }
    Ok(())
}

/// Refusal, verdict, counts and the answer's size belong together.
fn check_numbers(desk: &Desk, out: &SolveOut) -> Checked {
    let zeros = vec![0; desk.limits.answer];
    let verdict = match (out.refusal, out.lines, out.open) {
        (0, 0, 0) => Verdict::None,
        (0, _, 0) => Verdict::AllSolved,
        (0, ..) => Verdict::SomeOpen,
        _ => Verdict::Refused,
    };
    ensure(verdict == out.verdict, "verdict and lines disagree")?;
    ensure(out.open <= out.lines && out.lines <= 512, "wrong number of lines")?;
    let used: u32 = out.uses.iter().sum();
    ensure(used == out.steps && out.steps <= 10_000, "wrong number of steps")?;
    match out.refusal {
        0 => ensure(out.answer.len() == zeros.len(), "the answer is short"),
        2..=6 => ensure(out.answer.is_empty() && out.steps == 0, "refused, yet changed"),
        7..=10 | 21 => ensure(out.answer == zeros && out.steps == 0, "refused without zeros"),
        _ => Err("a number that solving does not give".to_string()),
    }
}

/// The place of a mistake is 0 except for 5 and 6, and then among the
/// conjunctions' words or at their end.
fn check_place(desk: &Desk, case: &Case, out: &SolveOut) -> Checked {
    ensure(desk.place(&case.question) == out.place, "two places")?;
    if out.refusal != 5 && out.refusal != 6 {
        return ensure(out.place == 0, "a place of no mistake");
    }
    let body = 6 + case.question[4] as usize;
    let within = (body..=case.question.len()).contains(&out.place);
    ensure(within, "a place outside the conjunctions")
}

/// The answer can be read back, and each of its lines, asked again, is left
/// as it is, in no step and with the same mark.
fn check_lines(desk: &Desk, question: &Question, out: &SolveOut, counts: &mut Counts) -> Checked {
    counts.verdicts[match out.verdict {
        Verdict::None => 0,
        Verdict::AllSolved => 1,
        _ => 2,
    }] += 1;
    let lines = out.lines as usize;
    let offsets = &out.answer[2..3 + lines];
    ensure(offsets[0] as usize == FIRST_LINE, "the first line is elsewhere")?;
    ensure(out.answer[3 + lines..FIRST_LINE].iter().all(|word| *word == 0), "no zeros")?;
    let end = offsets[lines] as usize;
    ensure(out.answer[end..].iter().all(|word| *word == 0), "no zeros at the end")?;
    for ends in offsets.windows(2) {
        let words = &out.answer[ends[0] as usize..ends[1] as usize];
        let line = read::conjunction(&words[desk.beside()..], desk.limits.kind)
            .map_err(|_| "a line cannot be read")?;
        check_line(desk, question, words, line)?;
    }
    Ok(())
}

fn check_line(desk: &Desk, question: &Question, words: &[u16], line: Conjunction) -> Checked {
    let alone = Question { declared: question.declared, conjunctions: vec![line] };
    let again = desk.solve(&question_words(&alone));
    if again.refusal == 2 {
        return Ok(());
    }
    let mark = if again.open == 0 { MARK_SOLVED } else { MARK_OPEN };
    ensure(again.refusal == 0 && again.lines == 1, "a line is no line")?;
    ensure(again.steps == 0, "a rule applies to a line")?;
    ensure(mark == words[0], "a line has another mark")?;
    let literals = &again.answer[FIRST_LINE + desk.beside()..];
    ensure(literals.starts_with(&words[desk.beside()..]), "a line changes")
}

/// The example of each solved line is an answer to the question.
fn check_examples(
    desk: &Desk,
    case: &Case,
    question: &Question,
    run: &Run,
    counts: &mut Counts,
) -> Checked {
    for number in 0..run.lines.len().min(LINES_LOOKED_AT) {
        let ask = Ask { line: number, room: 4096, old_sheets: number % 2 == 1 };
        match line_example(desk, run, &question.declared, ask) {
            Ok(filling) => match desk.try_filling(&case.question, &filling) {
                Ok(yes) => {
                    ensure(yes, "an example is no answer")?;
                    counts.examples_met += 1;
                }
                Err(refused) if refused.number() == 13 => counts.examples_13 += 1,
                Err(_) => return Err("an example is no filling".to_string()),
            },
            Err(refusal) => match refusal.number() {
                15 => ensure(!run.lines[number].solved, "a solved line called open")?,
                16 => counts.examples_16 += 1,
                _ => return Err("no example of a line".to_string()),
            },
        }
    }
    Ok(())
}

/// A filling meets an alternative exactly if it meets one of its lines.
fn check_filling(question: &Question, run: &Run, filling: &[u16]) -> Checked {
    let Ok(filling) = read_filling(filling, &question.declared) else { return Ok(()) };
    for (number, alternative) in question.conjunctions.iter().enumerate() {
        let own = run.lines.iter().filter(|line| line.alternative as usize == number);
        let of = |conjunctions| Question { declared: question.declared, conjunctions };
        let alone = of(vec![alternative.clone()]);
        let lines = of(own.map(|line| line.conjunction.clone()).collect());
        if let (Ok(met), Ok(line_met)) = (filling.answers(&alone), filling.answers(&lines)) {
            ensure(met == line_met, "an alternative and its lines differ on a filling")?;
        }
    }
    Ok(())
}

/// An example asked for is what the room and the line allow.
fn check_ask(desk: &Desk, case: &Case, out: &SolveOut, ask: Ask, counts: &mut Counts) -> Checked {
    let Ask { line, room, .. } = ask;
    let asked = desk.example(&case.question, ask).map_err(Refused::number);
    counts.example[asked.as_ref().err().map_or(0, |refusal| *refusal as usize)] += 1;
    match asked {
        Ok(filling) => {
            let shown = line < out.lines as usize && out.refusal == 0;
            ensure(shown && filling.len() <= room.min(4096), "an example that cannot be")
        }
        Err(14) => ensure(out.refusal == 0 && line >= out.lines as usize, "the line is there"),
        Err(15) => ensure(out.open > 0 && line < out.lines as usize, "no line is open"),
        Err(16) => ensure(out.refusal == 0 && line < out.lines as usize, "no line to show"),
        Err(refusal) => ensure(refusal == out.refusal, "refused unlike solving"),
    }
}

fn print_counts(counts: &Counts) {
    println!("refusal     solve       try   example");
    for number in 0..32 {
        let all = [counts.solve[number], counts.tried[number], counts.example[number]];
        if all == [0; 3] {
            continue;
        }
        println!(
            "{number:7} {:9} {:9} {:9}",
            counts.solve[number], counts.tried[number], counts.example[number]
        );
    }
    println!();
    println!("verdict none        {:9}", counts.verdicts[0]);
    println!("verdict all solved  {:9}", counts.verdicts[1]);
    println!("verdict some open   {:9}", counts.verdicts[2]);
    println!("fillings met        {:9}", counts.yes);
    println!("lines               {:9}", counts.lines);
    println!("examples met        {:9}", counts.examples_met);
    println!("examples giving 13  {:9}", counts.examples_13);
    println!("examples giving 16  {:9}", counts.examples_16);
    println!();
    println!("rule        uses");
    for (rule, uses) in ALL.iter().zip(&counts.uses) {
        println!("{:5} {uses:10}", format!("{rule:?}"));
    }
    println!();
}
