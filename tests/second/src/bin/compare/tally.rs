//! What was compared, and what came of it.

use std::collections::BTreeMap;

use second::host::{self, LENT};
use second::proved::Proved;
use second::request::Request;
use second::Desk;

/// How many comparisons there were, how many disagreed, and how often each
/// number came back from each call.
pub struct Tally {
    /// The second desk, with as many requests as the proved one.
    pub desk: Desk,
    pub proved: Proved,
    pub passed: u64,
    pub failed: u64,
    pub gave: BTreeMap<&'static str, BTreeMap<u32, u64>>,
}

impl Tally {
    /// Compares a call to the proved desk with what should come of it.
    pub fn expect(&mut self, name: &str, request: &Request, expected: u32, expected_left: &[u8]) {
        let (number, left) = self.proved.call(request);
        let shown = number.min(YES_AND_MORE);
        *self.gave.entry(request.name()).or_default().entry(shown).or_default() += 1;
        self.note(number == expected && left == expected_left, || {
            let at = left.iter().zip(expected_left).position(|(a, b)| a != b);
            format!("{name}: {number}, expected {expected}, first byte apart {at:?}\n  {request:?}")
        });
    }

    /// Counts an agreement, or shows a disagreement.
    pub fn note(&mut self, agree: bool, what: impl Fn() -> String) {
        if agree {
            self.passed += 1;
        } else {
            self.failed += 1;
            println!("{}", what());
        }
    }

    /// Compares a call to both desks.
    pub fn both(&mut self, name: &str, request: Request) {
        let mut lent = vec![LENT; request.lent()];
        let expected = host::call(&self.desk, &request, &mut lent);
        self.expect(name, &request, expected, &lent);
    }
}

/// Answers are counted together from here on.
const YES_AND_MORE: u32 = 101;
