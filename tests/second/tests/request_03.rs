//! Request 3: the same test twice.

use second::filling::read_filling;
use second::gen::{case, SEED};
use second::read::{self, Question};
use second::rules::Rule;
use second::run::run;
use second::stack::deep;
use second::Desk;

fn desk() -> Desk {
    Desk::up_to(3)
}

/// Lines, open lines and steps of one conjunction over a, b, f, g.
fn outcome(terms: u16, hedges: u16, literals: &[u16]) -> (u16, u16, u32) {
    let end = 7 + literals.len() as u16;
    let out = desk().solve(&[&[4, terms, hedges, 0, 1, 7, end], literals].concat());
    assert_eq!(out.refusal, 0);
    (out.lines, out.open, out.steps)
}

#[test]
fn p10_is_solved_after_one_step() {
    assert_eq!(outcome(1, 0, &[6000, 1000, 0, 3000, 7000, 6000, 1000, 0, 3000, 7000]), (1, 0, 1));
}

#[test]
fn p9_takes_11_steps() {
    let literals = [
        6000, 2000, 0, 7001, 3002, 7003, 3000, 7000, 7003, 3001, 7000, //
        5000, 2000, 0, 3002, 3000, 0, 3000, 0, 0, 3001, 0, 0,
    ];
    assert_eq!(outcome(0, 1, &literals), (1, 0, 11));
}

#[test]
fn it_stands_after_r2_and_before_f1() {
    // H = H twice: R1 twice. a = b twice: the fold, then F3.
    assert_eq!(outcome(0, 0, &[5000, 3000, 0, 0, 3000, 0, 0].repeat(2)), (1, 0, 2));
    assert_eq!(outcome(0, 0, &[5000, 3000, 0, 0, 3001, 0, 0].repeat(2)), (0, 0, 2));
}

#[test]
fn sides_swapped_are_other_words() {
    // x = a, a = x: no fold, but E1 and R1.
    let literals = [5000, 1000, 0, 3000, 0, 0, 5000, 3000, 0, 0, 1000, 0];
    assert_eq!(outcome(1, 0, &literals), (1, 0, 2));
}

/// Demand 3 stands: a filling meets the question exactly if it meets a line.
#[test]
fn demand_3_stands() {
    deep(|| {
        let mut compared = 0;
        for index in 0..3_000 {
            let case = case(&desk(), SEED, index);
            let Ok(question) = read::question(&case.question, &desk()) else { continue };
            let Ok(run) = run(&desk(), &question) else { continue };
            if run.uses[Rule::Fold as usize] == 0 {
                continue;
            }
            let conjunctions = run.lines.into_iter().map(|line| line.conjunction).collect();
            let lines = Question { declared: question.declared, conjunctions };
            for filling in &case.fillings {
                let Ok(filling) = read_filling(filling, &question.declared) else { continue };
                if let (Ok(met), Ok(line)) = (filling.answers(&question), filling.answers(&lines)) {
                    assert_eq!(met, line, "case {index}");
                    compared += 1;
                }
            }
        }
        assert!(compared > 200, "{compared}");
    });
}
