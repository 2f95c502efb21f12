//! The cases P1 to P12 of the request, with their lines and steps, and the
//! limits it names.

use second::{Ask, Desk, Refused, Verdict};

/// A question of four symbols a, b, f, g and so many variables of each kind.
fn question(terms: u16, hedges: u16, functions: u16, conjunctions: &[&[u16]]) -> Vec<u16> {
    let count = conjunctions.len() as u16;
    let mut words = vec![4, terms, hedges, functions, count, 6 + count];
    let mut end = 6 + count;
    for conjunction in conjunctions {
        end += conjunction.len() as u16;
        words.push(end);
    }
    words.extend(conjunctions.concat());
    words
}

/// Checks the whole answer: lines with their marks, and steps.
fn check(question: &[u16], lines: &[&[u16]], steps: u32) {
    let out = Desk::BASE.solve(question);
    let open = lines.iter().filter(|line| line[0] == 2).count() as u16;
    let mut answer = vec![0; 8192];
    answer[0] = lines.len() as u16;
    answer[1] = open;
    let mut end = 515;
    answer[2] = end as u16;
    for (number, line) in lines.iter().enumerate() {
        answer[end..end + line.len()].copy_from_slice(line);
        end += line.len();
        answer[3 + number] = end as u16;
    }
    assert_eq!((out.refusal, out.lines, out.open), (0, lines.len() as u16, open));
    assert_eq!(out.steps, steps);
    assert_eq!(out.answer, answer);
    let verdict = match (lines.len(), open) {
        (0, _) => Verdict::None,
        (_, 0) => Verdict::AllSolved,
        _ => Verdict::SomeOpen,
    };
    assert_eq!(out.verdict, verdict);
}

#[test]
fn p1_no_conjunction() {
    check(&question(0, 0, 0, &[]), &[], 0);
}

#[test]
fn p2_one_empty_conjunction() {
    check(&question(0, 0, 0, &[&[]]), &[&[1]], 0);
}

#[test]
fn p3_clash() {
    check(&question(0, 0, 0, &[&[5000, 3000, 0, 0, 3001, 0, 0]]), &[], 1);
}

#[test]
fn p4_two_hedge_variables() {
    let asked = [4, 0, 2, 0, 1, 7, 16, 5000, 2000, 2001, 0, 3000, 0, 3001, 0, 0];
    let lines: [&[u16]; 3] = [
        &[1, 5000, 2000, 0, 0, 5000, 2001, 0, 3000, 0, 3001, 0, 0],
        &[1, 5000, 2000, 0, 3000, 0, 0, 5000, 2001, 0, 3001, 0, 0],
        &[1, 5000, 2000, 0, 3000, 0, 3001, 0, 0, 5000, 2001, 0, 0],
    ];
    check(&asked, &lines, 1);
    assert_eq!(Desk::BASE.solve(&asked).answer[..6], [3, 0, 515, 528, 541, 554]);
}

#[test]
fn p5_the_same_twice() {
    let asked = question(0, 1, 0, &[&[5000, 2000, 2000, 0, 3000, 0, 3000, 0, 0]]);
    check(&asked, &[&[1, 5000, 2000, 0, 3000, 0, 0]], 4);
}

#[test]
fn p6_endlessly_many() {
    let literal = [5000, 2000, 3000, 0, 0, 3000, 0, 2000, 0];
    let line = [&[2], &literal[..]].concat();
    check(&question(0, 1, 0, &[&literal]), &[&line], 0);
}

#[test]
fn p7_occurs() {
    check(&question(1, 0, 0, &[&[5000, 1000, 0, 3002, 1000, 0, 0]]), &[], 1);
}

#[test]
fn p8_function_variable() {
    let asked = question(0, 1, 1, &[&[5000, 4000, 3000, 0, 0, 0, 3003, 2000, 0, 0]]);
    check(&asked, &[&[1, 5000, 4000, 0, 0, 3003, 0, 0, 5000, 3000, 0, 0, 2000, 0]], 2);
}

#[test]
fn p9_member_that_is_known() {
    let asked = question(
        0,
        1,
        0,
        &[&[
            6000, 2000, 0, 7001, 3002, 7003, 3000, 7000, 7003, 3001, 7000, //
            5000, 2000, 0, 3002, 3000, 0, 3000, 0, 0, 3001, 0, 0,
        ]],
    );
    check(&asked, &[&[1, 5000, 2000, 0, 3002, 3000, 0, 3000, 0, 0, 3001, 0, 0]], 12);
}

#[test]
fn p10_written_twice() {
    let literals = [6000, 1000, 0, 3000, 7000, 6000, 1000, 0, 3000, 7000];
    let line = [&[2], &literals[..]].concat();
    check(&question(1, 0, 0, &[&literals]), &[&line], 0);
}

#[test]
fn p11_one_term_for_two() {
    let asked = question(0, 2, 0, &[&[6000, 2000, 2001, 0, 3002, 7000]]);
    let lines: [&[u16]; 2] = [
        &[1, 6000, 2000, 0, 3002, 7000, 5000, 2001, 0, 0],
        &[1, 5000, 2000, 0, 0, 6000, 2001, 0, 3002, 7000],
    ];
    check(&asked, &lines, 1);
}

#[test]
fn p12_open_without_an_answer() {
    let asked = question(1, 0, 0, &[&[6000, 1000, 1000, 0, 7001, 3000, 7000, 3001, 7000]]);
    check(&asked, &[&[2, 6000, 1000, 0, 3000, 7000, 6000, 1000, 0, 3001, 7000]], 1);
}

/// One equation of a hedge variable and so many words of terms and variables.
fn long_question(words: usize) -> Vec<u16> {
    let mut literal = vec![5000, 2000, 0];
    literal.resize(words - 7 - 1, 1000);
    literal.push(0);
    question(1, 1, 0, &[&literal])
}

#[test]
fn length_of_a_question() {
    assert_eq!(long_question(1024).len(), 1024);
    assert_eq!(Desk::BASE.solve(&long_question(1024)).refusal, 0);
    assert_eq!(Desk::BASE.solve(&long_question(1025)).refusal, 2);
    assert_eq!(Desk::BASE.solve(&[1, 0, 0, 0, 0]).refusal, 2);
    assert_eq!(Desk::BASE.solve(&[]).refusal, 2);
    assert_eq!(Desk::BASE.solve(&[1, 0, 0, 0, 0, 6]).refusal, 0);
}

#[test]
fn last_symbol() {
    let with = |symbols: u16, symbol: u16| {
        let mut asked = question(0, 1, 0, &[&[5000, 2000, 0, symbol, 0, 0]]);
        asked[0] = symbols;
        Desk::BASE.solve(&asked).refusal
    };
    assert_eq!(with(32, 3031), 0);
    assert_eq!(with(31, 3031), 6);
    assert_eq!(with(32, 3032), 5);
}

#[test]
fn refusals_go_in_order_over_the_whole_question() {
    // Undeclared in the first conjunction, malformed in the second.
    let asked = question(0, 0, 0, &[&[5000, 2000, 0, 0], &[5000]]);
    assert_eq!(Desk::BASE.solve(&asked).refusal, 5);
    let mut asked = question(0, 0, 0, &[&[5000, 2000, 0, 0]]);
    assert_eq!(Desk::BASE.solve(&asked).refusal, 6);
    asked[6] += 1;
    assert_eq!(Desk::BASE.solve(&asked).refusal, 4);
    asked[0] = 33;
    assert_eq!(Desk::BASE.solve(&asked).refusal, 3);
}

fn ask(line: usize, room: usize) -> Ask {
    Ask { line, room, old_sheets: false }
}

#[test]
fn fillings_of_p4() {
    let asked = [4, 0, 2, 0, 1, 7, 16, 5000, 2000, 2001, 0, 3000, 0, 3001, 0, 0];
    let yes = [2, 4, 7, 10, 3000, 0, 0, 3001, 0, 0];
    assert_eq!(Desk::BASE.try_filling(&asked, &yes).map_err(Refused::number), Ok(true));
    assert_eq!(Desk::BASE.example(&asked, ask(1, 10)).map_err(Refused::number), Ok(yes.to_vec()));
    assert_eq!(Desk::BASE.example(&asked, ask(1, 9)).map_err(Refused::number), Err(16));
    assert_eq!(Desk::BASE.example(&asked, ask(3, 10)).map_err(Refused::number), Err(14));
    let no = [2, 4, 7, 10, 3001, 0, 0, 3000, 0, 0];
    assert_eq!(Desk::BASE.try_filling(&asked, &no).map_err(Refused::number), Ok(false));
    assert_eq!(Desk::BASE.try_filling(&asked, &yes[..9]).map_err(Refused::number), Err(11));
    let undeclared = [2, 4, 7, 10, 3004, 0, 0, 3001, 0, 0];
    assert_eq!(Desk::BASE.try_filling(&asked, &undeclared).map_err(Refused::number), Err(12));
    let variable = [2, 4, 6, 9, 2000, 0, 3001, 0, 0];
    assert_eq!(Desk::BASE.try_filling(&asked, &variable).map_err(Refused::number), Err(12));
}

#[test]
fn example_of_an_open_line() {
    let asked = question(0, 1, 0, &[&[5000, 2000, 3000, 0, 0, 3000, 0, 2000, 0]]);
    assert_eq!(Desk::BASE.example(&asked, ask(0, 4096)).map_err(Refused::number), Err(15));
}
