//! The rows of a reading as tokens.

use crate::error::SyntaxError;
use crate::port::{Row, Rows, State, REFUSED};
use crate::token::Token;
use std::str;

/// How many rows are fetched at a time.
const ROOM: usize = 256;

/// A document, and the rows of its reading from the fresh state on. These are boxed: the state in them
/// is up to 2,224 bytes, and iterators are moved about.
pub struct Reading<'tok, S> {
    document: &'tok [u8],
    rows: Box<Rows<'tok, S, ROOM>>,
}

impl<'tok, S: State> Reading<'tok, S> {
    pub fn new(document: &'tok [u8]) -> Self {
        Reading {
            document,
            rows: Box::new(Rows::new(document)),
        }
    }

    #[inline(always)]
    pub fn next(&mut self) -> Option<Row> {
        self.rows.next()
    }

    /// The token of a row of this reading, or the error.
    #[inline(always)]
    pub fn token(&self, row: Row) -> Result<Token<'tok>, SyntaxError> {
        let document = self.document;
        let text = |start: usize, end: usize| {
            let text = &document[start..end];
            debug_assert!(str::from_utf8(text).is_ok(), "{row:?} is UTF-8");
            // SAFETY: `text` is the text or the indentation of a token of a fresh reading of
            // `document`, by the tokenizer or the parser, and so it is UTF-8: docs/CLAIMS.md,
            // claim 2, 'Fit'.
            unsafe { str::from_utf8_unchecked(text) }
        };
        let refused = || SyntaxError::refused(row.number.saturating_sub(REFUSED), row.line, "");
        Token::of_row(&row, text).ok_or_else(refused)
    }
}
