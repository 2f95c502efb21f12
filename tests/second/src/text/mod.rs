//! A text form of questions. The grammar, apart from reader and writer:
//!
//! ```text
//! text     = [ line ] { newline [ line ] } ;
//! line     = "(" ")" | literal { "," literal } ;
//! literal  = side "=" side | side "in" choice ;
//!
//! side     = element | "(" [ elements ] ")" ;
//! elements = element { "," element } ;
//! element  = "?" name | "*" name | functor [ "(" [ elements ] ")" ] ;
//! functor  = name | "%" name ;
//!
//! choice   = starred { "+" starred } ;
//! starred  = atom { "*" } ;
//! atom     = name [ "(" [ list ] ")" ] | "(" [ list ] ")" ;
//! list     = choice { "," choice } ;
//!
//! name     = byte { byte } ;          each byte one of 0-9 A-Z a-z
//! ```
//!
//! Space, tab and carriage return may stand anywhere but inside a name and
//! behind the mark of a variable; a line of these alone is none. A `*` just
//! before a byte of a name is the mark of a hedge variable, and any other is a
//! star. `in` is an ordinary name, except where a literal goes on.
//!
//! Brackets with nothing between them are nothing: an empty side, no children,
//! eps, a line that asks nothing. In an expression a name alone is the symbol
//! over eps, and brackets around a list are its concatenation. What stands in a
//! row groups to the right: `(R, S, T)` is R·(S·T), `R + S + T` is R + (S + T).

pub mod reader;
pub mod tokens;
pub mod writer;
