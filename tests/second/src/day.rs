//! A day's sheets in one call: up to 64 questions as one slice, and their
//! answers in the same manner.

use crate::desk::Desk;
use crate::words::Refusal;

/// The most questions of a day.
pub const QUESTIONS_MOST: usize = 64;

impl Desk {
    /// The answers of a day's questions, in a room of so many words; 22 for the
    /// header, 23 where they do not fit.
    pub fn day(&self, sheet: &[u16], room: usize) -> Result<Vec<u16>, Refusal> {
        let questions = questions(sheet).ok_or(Refusal::SheetHeader)?;
        let mut answers = Vec::new();
        let mut ends = Vec::new();
        for question in &questions {
            answers.extend(self.one_of_a_day(question));
            ends.push(answers.len());
        }
        let words = written(&ends, answers);
        (words.len() <= room).then_some(words).ok_or(Refusal::DayRoom)
    }

    /// The number that comes back, and after 0 the answer up to the end of its
    /// last line.
    fn one_of_a_day(&self, question: &[u16]) -> Vec<u16> {
        let out = self.solve(question);
        let mut words = vec![out.refusal];
        if out.refusal == 0 {
            let end = out.answer[2 + out.lines as usize] as usize;
            words.extend_from_slice(&out.answer[..end]);
        }
        words
    }
}

/// The words of `count` questions' header: the number, and one offset more of
/// two words each.
fn header(count: usize) -> usize {
    1 + 2 * (count + 1)
}

/// The questions of a sheet: the first offset is just behind the header, none
/// falls, the last is the length.
fn questions(sheet: &[u16]) -> Option<Vec<&[u16]>> {
    let count = *sheet.first()? as usize;
    if count > QUESTIONS_MOST {
        return None;
    }
    let offsets: Vec<usize> = sheet
        .get(1..header(count))?
        .chunks(2)
        .map(|two| two[0] as usize + ((two[1] as usize) << 16))
        .collect();
    let right = offsets[0] == header(count)
        && offsets.windows(2).all(|two| two[0] <= two[1])
        && offsets[count] == sheet.len();
    right.then(|| offsets.windows(2).map(|two| &sheet[two[0]..two[1]]).collect())
}

/// The number, the offsets and the words that they cut; `ends` are counted
/// from the first of these.
pub fn written(ends: &[usize], mut parts: Vec<u16>) -> Vec<u16> {
    let start = header(ends.len());
    let mut words = vec![ends.len() as u16];
    for offset in std::iter::once(start).chain(ends.iter().map(|end| start + end)) {
        words.extend([offset as u16, (offset >> 16) as u16]);
    }
    words.append(&mut parts);
    words
}
