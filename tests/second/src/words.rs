//! The words of questions, answers and fillings, and the limits on them.

/// The end of a hedge.
pub const END: u16 = 0;
/// First word of each numbered kind; each kind has as many words as a desk's
/// limits say, and `KIND_MOST` at most.
pub const TERM_VARIABLE: u16 = 1000;
pub const HEDGE_VARIABLE: u16 = 2000;
pub const SYMBOL: u16 = 3000;
pub const FUNCTION_VARIABLE: u16 = 4000;
pub const KIND_MOST: u16 = 128;
/// The heads of literals.
pub const EQUATION: u16 = 5000;
pub const MEMBERSHIP: u16 = 6000;
/// The operators of expressions.
pub const EPS: u16 = 7000;
pub const CONCATENATION: u16 = 7001;
pub const CHOICE: u16 = 7002;
pub const STAR: u16 = 7003;

/// Marks of an answer's lines.
pub const MARK_SOLVED: u16 = 1;
pub const MARK_OPEN: u16 = 2;

/// The least length of a question.
pub const QUESTION_LEAST: usize = 6;
/// The most conjunctions of a question.
pub const CONJUNCTIONS_MOST: u16 = 16;
/// The place of an answer's first line, and its most lines.
pub const FIRST_LINE: usize = 515;
pub const LINES_MOST: usize = 512;
/// The most steps of a run.
pub const STEPS_MOST: u32 = 10_000;
/// The greatest length of a filling.
pub const FILLING_MOST: usize = 4096;
/// The greatest length of a literal with a filling put in.
pub const FILLED_MOST: usize = 8192;

/// What a word is, by its range alone.
#[derive(Clone, Copy, PartialEq, Eq, Debug)]
pub enum Word {
    End,
    TermVariable(u8),
    HedgeVariable(u8),
    Symbol(u8),
    FunctionVariable(u8),
    Equation,
    Membership,
    Eps,
    Concatenation,
    Choice,
    Star,
    Malformed,
}

/// Tells what a word is where each kind has `kind` numbers.
pub fn classify(word: u16, kind: u16) -> Word {
    let numbered = |first: u16| {
        let number = word.checked_sub(first)?;
        (number < kind).then_some(number as u8)
    };
    if let Some(number) = numbered(TERM_VARIABLE) {
        return Word::TermVariable(number);
    }
    if let Some(number) = numbered(HEDGE_VARIABLE) {
        return Word::HedgeVariable(number);
    }
    if let Some(number) = numbered(SYMBOL) {
        return Word::Symbol(number);
    }
    if let Some(number) = numbered(FUNCTION_VARIABLE) {
        return Word::FunctionVariable(number);
    }
    match word {
        END => Word::End,
        EQUATION => Word::Equation,
        MEMBERSHIP => Word::Membership,
        EPS => Word::Eps,
        CONCATENATION => Word::Concatenation,
        CHOICE => Word::Choice,
        STAR => Word::Star,
        _ => Word::Malformed,
    }
}

/// A number that comes back.
#[derive(Clone, Copy, PartialEq, Eq, Debug)]
pub enum Refusal {
    Length = 2,
    Count = 3,
    Offset = 4,
    Form = 5,
    Undeclared = 6,
    ResultTooLong = 7,
    WaitingTooLong = 8,
    Lines = 9,
    Steps = 10,
    FillingLayout = 11,
    FillingValue = 12,
    FilledTooLong = 13,
    NoSuchLine = 14,
    OpenLine = 15,
    ExampleTooLong = 16,
    Text = 17,
    TextNames = 18,
    TextRoom = 19,
    Numbering = 20,
    WalkTooLong = 21,
    SheetHeader = 22,
    DayRoom = 23,
    TooManyRules = 24,
    TooManyBlanks = 25,
    NoSuchStep = 26,
    TrailTooShort = 27,
    TrailTooLong = 28,
    TrailRoom = 29,
}

impl Refusal {
    /// The number itself.
    pub fn number(self) -> u16 {
        self as u16
    }
}

/// A call refused: the number, and the word of the question at which the
/// reader stopped, for 5 and 6; else 0.
#[derive(Clone, Copy, PartialEq, Eq, Debug)]
pub struct Refused {
    pub refusal: Refusal,
    pub place: usize,
}

impl Refused {
    pub fn number(self) -> u16 {
        self.refusal.number()
    }
}

/// Refused at no place.
impl From<Refusal> for Refused {
    fn from(refusal: Refusal) -> Refused {
        Refused { refusal, place: 0 }
    }
}
