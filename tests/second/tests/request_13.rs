//! Request 13: a count beside each variable. Answers and steps stay; the table
//! that follows the steps equals the count taken afresh.

use second::counts::Counts;
use second::gen::{case, SEED};
use second::literal::Conjunction;
use second::read;
use second::rules::{choose, Setting};
use second::stack::deep;
use second::step::step;
use second::Desk;

/// The words of a conjunction that are the given variable.
fn occurrences(conjunction: &Conjunction, word: u16) -> usize {
    let mut words = Vec::new();
    conjunction.write(&mut words);
    words.iter().filter(|other| **other == word).count()
}

/// Goes from each conjunction to all results, with one table for each.
fn check(setting: &Setting, conjunction: Conjunction, counts: Counts, left: &mut u32) {
    assert_eq!(counts, Counts::of(&conjunction));
    let Some(choice) = choose(setting, &conjunction, &counts).expect("no walk") else { return };
    let Ok(results) = step(setting, &conjunction, choice) else { return };
    for result in results {
        if *left == 0 {
            return;
        }
        *left -= 1;
        let mut table = counts.clone();
        table.follow(&conjunction, &result);
        check(setting, result, table, left);
    }
}

#[test]
fn the_table_equals_the_count_afresh() {
    deep(|| {
        let (desk, mut steps) = (Desk::up_to(13), 0);
        for index in 0..2_000 {
            let words = case(&desk, SEED, index).question;
            let Ok(question) = read::question(&words, &desk) else { continue };
            let setting = Setting { desk, declared: question.declared };
            for conjunction in question.conjunctions {
                let mut left = 50;
                check(&setting, conjunction.clone(), Counts::of(&conjunction), &mut left);
                steps += 50 - left;
            }
        }
        assert!(steps > 10_000, "{steps}");
    });
}

/// The count itself is that of the words.
#[test]
fn the_count_is_that_of_the_words() {
    use second::tree::Variables;
    let desk = Desk::up_to(13);
    for index in 0..500 {
        let words = case(&desk, SEED, index).question;
        let Ok(question) = read::question(&words, &desk) else { continue };
        for conjunction in &question.conjunctions {
            let counts = Counts::of(conjunction);
            for number in 0..question.declared.terms.min(4) {
                let variable = Variables::term(number as u8);
                let times = occurrences(conjunction, 1000 + number);
                assert_eq!(counts.all_once(variable), times == 1);
                assert_eq!(counts.all_repeated(variable), times >= 2);
            }
            for number in 0..question.declared.functions.min(4) {
                let times = occurrences(conjunction, 4000 + number);
                assert_eq!(counts.all_once(Variables::function(number as u8)), times == 1);
            }
        }
    }
}
