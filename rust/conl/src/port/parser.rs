//! The parser.

use super::rows::{Rows, State};
use super::words::Words;

extern "C" {
    fn conl_fresh_parser(state: *mut usize, state_len: usize) -> bool;
    fn conl_parse(
        doc: *const u8,
        doc_len: usize,
        state: *mut usize,
        state_len: usize,
        rows: *mut usize,
        rows_len: usize,
    ) -> usize;
}

/// The parser's answers, fetched `ROOM` at a time.
pub type Parser<'doc, const ROOM: usize> = Rows<'doc, ParserState, ROOM>;

/// Where the parser stands.
pub struct ParserState(Words<278>);

/// The parser's answers for `document`. It ends after a refusal.
pub fn parse(document: &[u8]) -> Parser<'_, 256> {
    Parser::new(document)
}

impl State for ParserState {
    fn fresh() -> Self {
        // SAFETY: a function of the library touches nothing but what it is lent.
        ParserState(unsafe { Words::fresh(conl_fresh_parser) })
    }

    fn advance(&mut self, document: &[u8], rows: &mut [usize]) -> usize {
        // SAFETY: as above, and it only reads what it is lent as a `&[u8]`.
        unsafe { self.0.advance(conl_parse, document, rows) }
    }

    fn words(&mut self) -> &mut [usize] {
        self.0.as_mut_slice()
    }
}
