//! Reading a text: 17 not of the grammar, 18 more names or lines than the
//! header can count, 19 too many words.

use std::collections::HashMap;

use super::tokens::{tokens, Token};
use crate::desk::Desk;
use crate::words::{
    Refusal, CHOICE, CONCATENATION, CONJUNCTIONS_MOST, END, EPS, EQUATION, FUNCTION_VARIABLE,
    HEDGE_VARIABLE, MEMBERSHIP, STAR, SYMBOL, TERM_VARIABLE,
};

impl Desk {
    /// The words of a text's question, in a room of so many words.
    pub fn read_text(&self, text: &[u8], room: usize) -> Result<Vec<u16>, Refusal> {
        let mut names = Names::default();
        let mut lines = Vec::new();
        for line in text.split(|byte| *byte == b'\n') {
            let tokens = tokens(line).ok_or(Refusal::Text)?;
            if !tokens.is_empty() {
                let mut reader = Reader { tokens: &tokens, names: &mut names };
                lines.push(reader.line().ok_or(Refusal::Text)?);
            }
        }
        let most = self.limits.kind as usize;
        let counts = names.kinds.each_ref().map(HashMap::len);
        let lines_most = CONJUNCTIONS_MOST as usize;
        if counts.iter().any(|count| *count > most) || lines.len() > lines_most {
            return Err(Refusal::TextNames);
        }
        let words = 6 + lines.len() + lines.iter().map(Vec::len).sum::<usize>();
        if words > self.limits.question.min(room) {
            return Err(Refusal::TextRoom);
        }
        Ok(question(counts, &lines))
    }
}

/// The header, the offsets and the lines of a question.
fn question(counts: [usize; 4], lines: &[Vec<u16>]) -> Vec<u16> {
    let [symbols, terms, hedges, functions] = counts;
    let mut end = 6 + lines.len();
    let header = [symbols.max(1), terms, hedges, functions, lines.len(), end];
    let mut words: Vec<u16> = header.map(|number| number as u16).to_vec();
    for line in lines {
        end += line.len();
        words.push(end as u16);
    }
    words.extend(lines.concat());
    words
}

/// The numbers of the names of each kind: symbols, then term, hedge and
/// function variables.
#[derive(Default)]
struct Names<'a> {
    kinds: [HashMap<&'a [u8], usize>; 4],
}

impl<'a> Names<'a> {
    /// The word of a name: a new one gets the next number of its kind.
    fn word(&mut self, kind: usize, name: &'a [u8]) -> u16 {
        let first = [SYMBOL, TERM_VARIABLE, HEDGE_VARIABLE, FUNCTION_VARIABLE][kind];
        let next = self.kinds[kind].len();
        let number = *self.kinds[kind].entry(name).or_insert(next);
        // Past the last number of a kind the words are not used.
        first.wrapping_add(number as u16)
    }
}

/// The tokens of a line that are still to read. Each call gives the words of a
/// production, or nothing where the tokens are not of it.
struct Reader<'a, 't, 'n> {
    tokens: &'t [Token<'a>],
    names: &'n mut Names<'a>,
}

impl<'a> Reader<'a, '_, '_> {
    fn peek(&self) -> Option<Token<'a>> {
        self.tokens.first().copied()
    }

    /// Takes the next token if it is this one.
    fn takes(&mut self, token: Token) -> bool {
        let is = self.peek() == Some(token);
        self.tokens = &self.tokens[is as usize..];
        is
    }

    /// Takes the next token, whatever it is.
    fn next(&mut self) -> Option<Token<'a>> {
        let (first, rest) = self.tokens.split_first()?;
        self.tokens = rest;
        Some(*first)
    }

    fn line(&mut self) -> Option<Vec<u16>> {
        if self.tokens == [Token::Open, Token::Close] {
            return Some(Vec::new());
        }
        let mut words = Vec::new();
        loop {
            self.literal(&mut words)?;
            match self.next() {
                None => return Some(words),
                Some(Token::Comma) => {}
                Some(_) => return None,
            }
        }
    }

    fn literal(&mut self, words: &mut Vec<u16>) -> Option<()> {
        let start = words.len();
        words.push(EQUATION);
        self.side(words)?;
        match self.next()? {
            Token::Equals => self.side(words),
            Token::Name(b"in") => {
                words[start] = MEMBERSHIP;
                words.extend(self.choice()?);
                Some(())
            }
            _ => None,
        }
    }

    /// A side and its 0.
    fn side(&mut self, words: &mut Vec<u16>) -> Option<()> {
        if self.takes(Token::Open) {
            self.elements(words)?;
        } else {
            self.element(words)?;
        }
        words.push(END);
        Some(())
    }

    /// Elements, perhaps none, and the bracket that closes.
    fn elements(&mut self, words: &mut Vec<u16>) -> Option<()> {
        if self.takes(Token::Close) {
            return Some(());
        }
        loop {
            self.element(words)?;
            match self.next()? {
                Token::Close => return Some(()),
                Token::Comma => {}
                _ => return None,
            }
        }
    }

    fn element(&mut self, words: &mut Vec<u16>) -> Option<()> {
        let functor = match self.next()? {
            Token::TermVariable(name) => {
                words.push(self.names.word(1, name));
                return Some(());
            }
            Token::HedgeVariable(name) => {
                words.push(self.names.word(2, name));
                return Some(());
            }
            Token::Name(name) => self.names.word(0, name),
            Token::FunctionVariable(name) => self.names.word(3, name),
            _ => return None,
        };
        words.push(functor);
        if self.takes(Token::Open) {
            self.elements(words)?;
        }
        words.push(END);
        Some(())
    }

    fn choice(&mut self) -> Option<Vec<u16>> {
        let mut words = self.starred()?;
        let mut last = 0;
        while self.takes(Token::Plus) {
            words.insert(last, CHOICE);
            last = words.len();
            words.extend(self.starred()?);
        }
        Some(words)
    }

    fn starred(&mut self) -> Option<Vec<u16>> {
        let mut words = self.atom()?;
        let mut stars = 0;
        while self.takes(Token::Star) {
            stars += 1;
        }
        words.splice(0..0, std::iter::repeat_n(STAR, stars));
        Some(words)
    }

    fn atom(&mut self) -> Option<Vec<u16>> {
        match self.next()? {
            Token::Open => self.list(),
            Token::Name(name) => {
                let mut words = vec![self.names.word(0, name)];
                match self.takes(Token::Open) {
                    true => words.extend(self.list()?),
                    false => words.push(EPS),
                }
                Some(words)
            }
            _ => None,
        }
    }

    /// A list, perhaps of none, and the bracket that closes.
    fn list(&mut self) -> Option<Vec<u16>> {
        if self.takes(Token::Close) {
            return Some(vec![EPS]);
        }
        let mut words = Vec::new();
        loop {
            let last = words.len();
            words.extend(self.choice()?);
            match self.next()? {
                Token::Close => return Some(words),
                Token::Comma => words.insert(last, CONCATENATION),
                _ => return None,
            }
        }
    }
}
