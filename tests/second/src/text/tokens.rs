//! The tokens of a line.

/// A token; names are the bytes they have in the text.
#[derive(Clone, Copy, PartialEq, Eq, Debug)]
pub enum Token<'a> {
    Name(&'a [u8]),
    TermVariable(&'a [u8]),
    HedgeVariable(&'a [u8]),
    FunctionVariable(&'a [u8]),
    Equals,
    Comma,
    Open,
    Close,
    Plus,
    Star,
}

/// The tokens of a line, or nothing where a byte is of none.
pub fn tokens(line: &[u8]) -> Option<Vec<Token<'_>>> {
    let mut tokens = Vec::new();
    let mut rest = line;
    while let Some((first, behind)) = rest.split_first() {
        let named = || Some(name(behind)).filter(|name| !name.is_empty());
        let token = match first {
            b' ' | b'\t' | b'\r' => {
                rest = behind;
                continue;
            }
            b'=' => Token::Equals,
            b',' => Token::Comma,
            b'(' => Token::Open,
            b')' => Token::Close,
            b'+' => Token::Plus,
            b'?' => Token::TermVariable(named()?),
            b'%' => Token::FunctionVariable(named()?),
            b'*' => named().map_or(Token::Star, Token::HedgeVariable),
            byte if byte.is_ascii_alphanumeric() => Token::Name(name(rest)),
            _ => return None,
        };
        let length = match token {
            Token::Name(name) => name.len(),
            Token::TermVariable(name)
            | Token::HedgeVariable(name)
            | Token::FunctionVariable(name) => 1 + name.len(),
            _ => 1,
        };
        rest = &rest[length..];
        tokens.push(token);
    }
    Some(tokens)
}

/// The bytes of a name at the start.
fn name(bytes: &[u8]) -> &[u8] {
    let end = bytes.iter().position(|byte| !byte.is_ascii_alphanumeric());
    &bytes[..end.unwrap_or(bytes.len())]
}
