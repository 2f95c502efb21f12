//! A call as a host makes it, and as `../bridge.c` reads it from a pipe.

use crate::trail::STEP;
use std::io::{Read, Write};

/// A call: what it is given, and how many bytes it is lent to write to.
#[derive(Clone, Debug)]
pub enum Request {
    Solve { question: Vec<u8>, answer: usize },
    Try { question: Vec<u8>, filling: Vec<u8> },
    Example { question: Vec<u8>, line: u32, old_sheets: u32, room: usize },
    Place { question: Vec<u8> },
    Day { sheet: Vec<u8>, room: usize },
    ReadText { text: Vec<u8>, room: usize },
    WriteText { question: Vec<u8>, room: usize },
    Overlap { first: Vec<u8>, second: Vec<u8>, first_word: u32, room: usize },
    OverlapSheet { sheet: Vec<u8>, report: u32, room: usize },
    SolveTrail { question: Vec<u8>, answer: usize, trail: usize },
    Replay { question: Vec<u8>, trail: Vec<u8>, answer: usize },
    ExampleTrail { question: Vec<u8>, trail: Vec<u8>, line: u32, old_sheets: u32, room: usize },
    Step { question: Vec<u8>, number: u32, step: [u32; STEP], room: usize },
}

/// A part of a request in the pipe.
enum Part<'a> {
    Block(&'a [u8]),
    Number(u32),
}

impl Request {
    /// The call's name for a report.
    pub fn name(&self) -> &'static str {
        match self {
            Request::Solve { .. } => "solve",
            Request::Try { .. } => "try",
            Request::Example { .. } => "example",
            Request::Place { .. } => "place",
            Request::Day { .. } => "day",
            Request::ReadText { .. } => "read a text",
            Request::WriteText { .. } => "write a text",
            Request::Overlap { .. } => "overlap",
            Request::OverlapSheet { .. } => "overlap of a sheet",
            Request::SolveTrail { .. } => "solve with a trail",
            Request::Replay { .. } => "replay",
            Request::ExampleTrail { .. } => "example with a trail",
            Request::Step { .. } => "one step",
        }
    }

    /// Bytes that the call is lent to write to; where it is lent two blocks,
    /// both together, in the order of the call.
    pub fn lent(&self) -> usize {
        match self {
            Request::Solve { answer, .. } => *answer,
            Request::Try { .. } | Request::Place { .. } => 0,
            Request::Example { room, .. }
            | Request::ExampleTrail { room, .. }
            | Request::Step { room, .. }
            | Request::Day { room, .. }
            | Request::ReadText { room, .. }
            | Request::WriteText { room, .. }
            | Request::Overlap { room, .. }
            | Request::OverlapSheet { room, .. } => *room,
            Request::SolveTrail { answer, trail, .. } => answer + trail,
            Request::Replay { answer, .. } => *answer,
        }
    }

    /// The letter of the request and its parts, in the order of the pipe.
    fn parts(&self) -> (u8, Vec<Part<'_>>) {
        use Part::{Block, Number};
        match self {
            Request::Solve { question, answer } => {
                (b's', vec![Block(question), Number(*answer as u32)])
            }
            Request::Try { question, filling } => (b't', vec![Block(question), Block(filling)]),
            Request::Example { question, line, old_sheets, room } => {
                let numbers = [*line, *old_sheets, *room as u32].map(Number);
                (b'e', [Block(question)].into_iter().chain(numbers).collect())
            }
            Request::Place { question } => (b'p', vec![Block(question)]),
            Request::Overlap { first, second, first_word, room } => {
                let numbers = [*first_word, *room as u32].map(Number);
                (b'o', [Block(first), Block(second)].into_iter().chain(numbers).collect())
            }
            Request::OverlapSheet { sheet, report, room } => {
                (b'O', vec![Block(sheet), Number(*report), Number(*room as u32)])
            }
            Request::ReadText { text, room } => (b'r', vec![Block(text), Number(*room as u32)]),
            Request::WriteText { question, room } => {
                (b'w', vec![Block(question), Number(*room as u32)])
            }
            Request::Day { sheet, room } => (b'd', vec![Block(sheet), Number(*room as u32)]),
            Request::SolveTrail { question, answer, trail } => {
                (b'S', vec![Block(question), Number(*answer as u32), Number(*trail as u32)])
            }
            Request::Replay { question, trail, answer } => {
                (b'R', vec![Block(question), Block(trail), Number(*answer as u32)])
            }
            Request::ExampleTrail { question, trail, line, old_sheets, room } => {
                let numbers = [*line, *old_sheets, *room as u32].map(Number);
                (b'E', [Block(question), Block(trail)].into_iter().chain(numbers).collect())
            }
            Request::Step { question, number, step: [rule, literal, side], room } => {
                let numbers = [*number, *rule, *literal, *side, *room as u32].map(Number);
                (b'N', [Block(question)].into_iter().chain(numbers).collect())
            }
        }
    }

    pub fn write(&self, out: &mut impl Write) -> std::io::Result<()> {
        let (letter, parts) = self.parts();
        out.write_all(&[letter])?;
        for part in parts {
            match part {
                Part::Number(number) => out.write_all(&number.to_le_bytes())?,
                Part::Block(bytes) => {
                    out.write_all(&(bytes.len() as u32).to_le_bytes())?;
                    out.write_all(bytes)?;
                }
            }
        }
        Ok(())
    }

    /// Reads what stands behind the letter.
    pub fn read(letter: u8, from: &mut impl Read) -> Request {
        match letter {
            b's' => Request::Solve { question: block(from), answer: number(from) as usize },
            b't' => Request::Try { question: block(from), filling: block(from) },
            b'e' => Request::Example {
                question: block(from),
                line: number(from),
                old_sheets: number(from),
                room: number(from) as usize,
            },
            b'p' => Request::Place { question: block(from) },
            b'o' => Request::Overlap {
                first: block(from),
                second: block(from),
                first_word: number(from),
                room: number(from) as usize,
            },
            b'O' => Request::OverlapSheet {
                sheet: block(from),
                report: number(from),
                room: number(from) as usize,
            },
            b'r' => Request::ReadText { text: block(from), room: number(from) as usize },
            b'w' => Request::WriteText { question: block(from), room: number(from) as usize },
            b'd' => Request::Day { sheet: block(from), room: number(from) as usize },
            b'S' => Request::SolveTrail {
                question: block(from),
                answer: number(from) as usize,
                trail: number(from) as usize,
            },
            b'R' => Request::Replay {
                question: block(from),
                trail: block(from),
                answer: number(from) as usize,
            },
            b'E' => Request::ExampleTrail {
                question: block(from),
                trail: block(from),
                line: number(from),
                old_sheets: number(from),
                room: number(from) as usize,
            },
            b'N' => Request::Step {
                question: block(from),
                number: number(from),
                step: [number(from), number(from), number(from)],
                room: number(from) as usize,
            },
            _ => panic!("{letter} is no request"),
        }
    }
}

fn number(from: &mut impl Read) -> u32 {
    let mut bytes = [0; 4];
    from.read_exact(&mut bytes).expect("a number");
    u32::from_le_bytes(bytes)
}

fn block(from: &mut impl Read) -> Vec<u8> {
    let mut bytes = vec![0; number(from) as usize];
    from.read_exact(&mut bytes).expect("its bytes");
    bytes
}

/// The bytes of words, the low byte first.
pub fn bytes(words: &[u16]) -> Vec<u8> {
    words.iter().flat_map(|word| word.to_le_bytes()).collect()
}

/// The words of bytes as the desk takes them: an odd count is no question and
/// no filling.
pub fn words(bytes: &[u8]) -> Vec<u16> {
    if bytes.len() % 2 == 1 {
        return Vec::new();
    }
    bytes.chunks(2).map(|pair| u16::from_le_bytes([pair[0], pair[1]])).collect()
}
