//! The records of worked answers.

use std::path::Path;

/// One record: its name and, for each letter, the numbers behind it.
pub struct Case {
    pub name: String,
    fields: Vec<(char, Vec<u32>)>,
}

impl Case {
    pub fn field(&self, letter: char) -> Option<&[u32]> {
        self.fields.iter().find(|field| field.0 == letter).map(|field| &field.1[..])
    }

    /// The numbers of each line with the letter.
    pub fn fields(&self, letter: char) -> Vec<&[u32]> {
        self.fields.iter().filter(|field| field.0 == letter).map(|field| &field.1[..]).collect()
    }

    pub fn needed(&self, letter: char) -> &[u32] {
        self.field(letter).unwrap_or_else(|| panic!("case {} has no line {letter}", self.name))
    }

    pub fn words(&self, letter: char) -> Vec<u16> {
        self.needed(letter).iter().map(|number| *number as u16).collect()
    }
}

/// Reads the records of a file.
pub fn cases(path: &Path) -> Vec<Case> {
    let text = std::fs::read_to_string(path)
        .unwrap_or_else(|error| panic!("cannot read {}: {error}", path.display()));
    let mut cases: Vec<Case> = Vec::new();
    for line in text.lines() {
        if let Some(name) = line.strip_prefix('#') {
            cases.push(Case { name: name.trim().to_string(), fields: Vec::new() });
        } else if let Some(letter) = line.chars().next() {
            let numbers = line[1..].split_whitespace().flat_map(numbers);
            let case = cases.last_mut().expect("a record starts with its name");
            case.fields.push((letter, numbers.collect()));
        }
    }
    cases
}

/// A number, or `n*times` for so many of it.
fn numbers(text: &str) -> impl Iterator<Item = u32> {
    let number = |part: &str| part.parse::<u32>().unwrap_or_else(|_| panic!("{text} is no number"));
    let (word, times) = text.split_once('*').unwrap_or((text, "1"));
    std::iter::repeat_n(number(word), number(times) as usize)
}
