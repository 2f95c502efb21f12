//! The words of an answer.

use crate::desk::Desk;
use crate::run::{Line, Run};
use crate::words::{FIRST_LINE, MARK_OPEN, MARK_SOLVED};

/// The number of open lines.
pub fn open_lines(lines: &[Line]) -> u16 {
    lines.iter().filter(|line| !line.solved).count() as u16
}

/// Writes a desk's answer: counts, offsets, zeros, then the lines, then zeros.
pub fn answer(desk: &Desk, run: &Run) -> Vec<u16> {
    let mut words = Vec::with_capacity(desk.limits.answer);
    words.resize(FIRST_LINE, 0);
    words[0] = run.lines.len() as u16;
    words[1] = open_lines(&run.lines);
    words[2] = FIRST_LINE as u16;
    for (number, line) in run.lines.iter().enumerate() {
        words.push(if line.solved { MARK_SOLVED } else { MARK_OPEN });
        if desk.numbers {
            words.push(line.alternative);
        }
        line.conjunction.write(&mut words);
        words[3 + number] = words.len() as u16;
    }
    words.resize(desk.limits.answer, 0);
    words
}
