//! Every worked answer of `../vectors`, each put to the desk that it is of.

use second::stack::deep;
use std::path::Path;

#[test]
fn all_worked_answers() {
    deep(|| {
        let folder = Path::new(env!("CARGO_MANIFEST_DIR")).join("../vectors");
        for (name, outcome) in second::worked::run(&folder) {
            assert!(outcome.failed.is_empty(), "{name}: {}", outcome.failed.join("\n"));
            assert!(outcome.passed >= 100, "{name}: only {} cases", outcome.passed);
        }
    });
}
