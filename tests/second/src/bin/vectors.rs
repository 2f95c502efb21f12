//! Runs worked answers against the desks they are of and prints each
//! disagreement. The folder may be given as an argument.

use std::path::{Path, PathBuf};
use std::process::ExitCode;

fn main() -> ExitCode {
    let own = Path::new(env!("CARGO_MANIFEST_DIR")).join("../vectors");
    let folder = std::env::args_os().nth(1).map_or(own, PathBuf::from);
    let (mut passed, mut failed) = (0, 0);
    for (name, outcome) in second::worked::run(&folder) {
        for text in &outcome.failed {
            println!("{text}");
        }
        println!("{name}: {} of {}", outcome.passed, outcome.passed + outcome.failed.len() as u64);
        passed += outcome.passed;
        failed += outcome.failed.len();
    }
    println!("{passed} passed, {failed} failed");
    if failed > 0 {
        ExitCode::FAILURE
    } else {
        ExitCode::SUCCESS
    }
}
