//! Makes the same calls to the proved desk and to this one, and compares what
//! comes back and every byte lent: the worked answers, then random cases of a
//! seed.
//!
//!     compare CASES SEED COMMAND..    COMMAND starts the bridge to the proved desk
//!
//! CASES is how many, or FROM..TO of them, so that several can share them out;
//! the worked answers come with the first case. A seed is a number, and `-` is
//! the seed of every day.

mod random;
mod tally;
mod worked;

use std::collections::BTreeMap;
use std::process::ExitCode;

use second::gen::SEED;
use second::proved::{self, Proved};
use second::stack::deep;

use tally::Tally;

fn compare() -> ExitCode {
    let args: Vec<String> = std::env::args().skip(1).collect();
    let number = |text: &str| -> u64 { text.parse().expect("a number of cases") };
    let (from, to) = match args[0].split_once("..") {
        Some((from, to)) => (number(from), number(to)),
        None => (0, number(&args[0])),
    };
    let seed: u64 = match args[1].as_str() {
        "-" => SEED,
        number => number.parse().expect("a seed"),
    };
    let mut tally = Tally {
        desk: proved::desk(),
        proved: Proved::start(&args[2..]),
        passed: 0,
        failed: 0,
        gave: BTreeMap::new(),
    };
    if from == 0 {
        for folder in proved::worked_folders() {
            worked::asked(&mut tally, &folder);
        }
        println!("worked answers: {} compared", tally.passed + tally.failed);
    }
    for index in from..to {
        random::random_case(&mut tally, seed, index);
        if proved::knows(9) && index % 50 == 0 {
            random::random_day(&mut tally, seed, index);
        }
        if proved::knows(10) {
            random::random_overlap(&mut tally, seed, index);
            if index % 20 == 0 {
                random::random_sheet(&mut tally, seed, index);
            }
        }
        if proved::knows(2) {
            random::random_text(&mut tally, seed, index);
        }
    }
    println!("random cases: {}, seed {seed}", to - from);
    for (call, counts) in &tally.gave {
        let shown: Vec<String> = counts.iter().map(|(n, times)| format!("{n}: {times}")).collect();
        println!("{call} gave {}", shown.join(", "));
    }
    let failed = tally.failed + !tally.proved.end() as u64;
    println!("{} passed, {failed} failed", tally.passed);
    if failed > 0 {
        ExitCode::FAILURE
    } else {
        ExitCode::SUCCESS
    }
}

fn main() -> ExitCode {
    deep(compare)
}
