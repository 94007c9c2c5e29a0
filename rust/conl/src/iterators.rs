//! The two readers.

use crate::error::SyntaxError;
use crate::port::{ParserState, TokenizerState};
use crate::reading::Reading;
use crate::token::Token;

/// The tokens of a document, in whatever order they come: for a formatter or a linter. [parse] is
/// stricter.
///
/// An error does not end them: what stands behind it is read, and there may be many. Behind the end
/// there is nothing, however often it is asked for. Both are as in the original. Of the two errors
/// that the original does not have, a 65th open section passes over the rest of its line, and a
/// document that is too long is not read: the error is all that is said of it.
pub fn tokenize(input: &[u8]) -> Tokenizer<'_> {
    Tokenizer(Reading::new(input))
}

/// The iterator that [tokenize] returns.
pub struct Tokenizer<'tok>(Reading<'tok, TokenizerState>);

impl<'tok> Iterator for Tokenizer<'tok> {
    type Item = Result<Token<'tok>, SyntaxError>;

    #[inline(always)]
    fn next(&mut self) -> Option<Self::Item> {
        let row = self.0.next()?;
        Some(self.0.token(row))
    }
}

/// The tokens of a document, up to its first error, structure included. Behind an error there is
/// nothing, and behind the end neither, as in the original.
///
/// [Token::Newline], [Token::Comment] and [Token::MultilineHint] apart, each [Token::MapKey] and
/// each [Token::ListItem] is followed by its value: a [Token::Value], a [Token::MultilineValue], a
/// [Token::NoValue], or a section from [Token::Indent] to its [Token::Outdent]. A section has keys
/// alone or items alone.
pub fn parse(input: &[u8]) -> Parser<'_> {
    Parser {
        reading: Reading::new(input),
        opened: None,
    }
}

/// The iterator that [parse] returns.
pub struct Parser<'tok> {
    reading: Reading<'tok, ParserState>,
    opened: Option<usize>,
}

impl Parser<'_> {
    /// Which entry just closed: the line of the key or item whose section the last [Token::Outdent]
    /// closed, and nothing before the first one. The original has nothing like it.
    pub fn opened(&self) -> Option<usize> {
        self.opened
    }
}

impl<'tok> Iterator for Parser<'tok> {
    type Item = Result<Token<'tok>, SyntaxError>;

    #[inline(always)]
    fn next(&mut self) -> Option<Self::Item> {
        let row = self.reading.next()?;
        // Only an Outdent carries a line, and never 0: docs/CLAIMS.md, 'Carried'.
        if row.opened > 0 {
            self.opened = Some(row.opened);
        }
        Some(self.reading.token(row))
    }
}
