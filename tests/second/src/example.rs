//! The example of a solved line, written as a filling.

use crate::counts::Counts;
use crate::desk::Desk;
use crate::filling::Filling;
use crate::literal::{Claim, Conjunction};
use crate::read::Declared;
use crate::run::Run;
use crate::solved::solved_side;
use crate::tree::{Functor, Hedge, Item};
use crate::words::{Refusal, END, FILLING_MOST};

/// Which example is asked for.
#[derive(Clone, Copy, Debug)]
pub struct Ask {
    /// The line, the first one 0.
    pub line: usize,
    /// Words of room.
    pub room: usize,
    /// Whether free blanks take symbol 0, as on old training sheets.
    pub old_sheets: bool,
}

/// The words of a line's example, or 14, 15 or 16.
pub fn example(desk: &Desk, run: &Run, declared: &Declared, ask: Ask) -> Result<Vec<u16>, Refusal> {
    let line = run.lines.get(ask.line).ok_or(Refusal::NoSuchLine)?;
    if !line.solved {
        return Err(Refusal::OpenLine);
    }
    let simplest = match desk.placeholder && !ask.old_sheets {
        true => Functor::Symbol((declared.symbols - 1) as u8),
        false => Functor::Symbol(0),
    };
    let most = ask.room.min(FILLING_MOST);
    let filling =
        values(&line.conjunction, free_values(&line.conjunction, declared, simplest), most)?;
    if words(&filling) > most {
        return Err(Refusal::ExampleTooLong);
    }
    Ok(write(&filling))
}

/// The value of each variable, by those of the free ones; 16 as soon as one
/// alone passes `most` words.
fn values(line: &Conjunction, free: Filling, most: usize) -> Result<Filling, Refusal> {
    let mut filling = free.clone();
    let counts = Counts::of(line);
    for literal in line.literals() {
        let Claim::Equation(left, right) = literal.claim() else { continue };
        let (variable, value) =
            solved_side(left, right, &counts).expect("a solved line's equations are solved");
        if free.filled_words(value) > most {
            return Err(Refusal::ExampleTooLong);
        }
        let value = free.filled(value);
        match variable.lone() {
            Some(Item::TermVariable(x)) => filling.terms[*x as usize] = value,
            Some(Item::HedgeVariable(p)) => filling.hedges[*p as usize] = value,
            Some(Item::Over(Functor::Variable(x), _)) => {
                filling.functions[*x as usize] =
                    value.lone_bare().expect("a functor without children");
            }
            _ => unreachable!("the solved side is one variable"),
        }
    }
    Ok(filling)
}

/// The values of the variables that no equation solves: the sample of their
/// membership, or else the simplest value of their kind.
fn free_values(line: &Conjunction, declared: &Declared, simplest: Functor) -> Filling {
    let mut filling = Filling {
        terms: vec![Hedge::bare(simplest); declared.terms as usize],
        hedges: vec![Hedge::EMPTY; declared.hedges as usize],
        functions: vec![simplest; declared.functions as usize],
    };
    for literal in line.literals() {
        let Claim::Membership(hedge, expression) = literal.claim() else { continue };
        match hedge.lone() {
            Some(Item::TermVariable(x)) => filling.terms[*x as usize] = expression.sample(),
            Some(Item::HedgeVariable(p)) => filling.hedges[*p as usize] = expression.sample(),
            _ => unreachable!("a solved membership is of one variable"),
        }
    }
    filling
}

/// The length in words of a filling.
fn words(filling: &Filling) -> usize {
    let hedges = filling.terms.iter().chain(&filling.hedges);
    let count = filling.terms.len() + filling.hedges.len() + filling.functions.len();
    let values: usize = hedges.map(|hedge| hedge.words() + 1).sum();
    2 + count + values + 3 * filling.functions.len()
}

/// Writes a filling: the count, the offsets, the values.
pub fn write(filling: &Filling) -> Vec<u16> {
    let functions: Vec<Hedge> = filling.functions.iter().map(|f| Hedge::bare(*f)).collect();
    let count = filling.terms.len() + filling.hedges.len() + functions.len();
    let mut out = vec![0; count + 2];
    out[0] = count as u16;
    out[1] = (count + 2) as u16;
    let values = filling.terms.iter().chain(&filling.hedges).chain(&functions);
    for (number, value) in values.enumerate() {
        value.write(&mut out);
        out.push(END);
        out[number + 2] = out.len() as u16;
    }
    out
}
