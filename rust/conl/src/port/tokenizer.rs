//! The tokenizer.

use super::rows::{Rows, State};
use super::words::Words;

extern "C" {
    fn conl_fresh_tokenizer(state: *mut usize, state_len: usize) -> bool;
    fn conl_tokenize(
        doc: *const u8,
        doc_len: usize,
        state: *mut usize,
        state_len: usize,
        rows: *mut usize,
        rows_len: usize,
    ) -> usize;
}

/// The tokenizer's answers, fetched `ROOM` at a time.
pub type Tokenizer<'doc, const ROOM: usize> = Rows<'doc, TokenizerState, ROOM>;

/// Where the tokenizer stands.
pub struct TokenizerState(Words<137>);

/// The tokenizer's answers for `document`. It goes on after a refusal.
pub fn tokenize(document: &[u8]) -> Tokenizer<'_, 256> {
    Tokenizer::new(document)
}

impl State for TokenizerState {
    fn fresh() -> Self {
        // SAFETY: a function of the library touches nothing but what it is lent.
        TokenizerState(unsafe { Words::fresh(conl_fresh_tokenizer) })
    }

    fn advance(&mut self, document: &[u8], rows: &mut [usize]) -> usize {
        // SAFETY: as above, and it only reads what it is lent as a `&[u8]`.
        unsafe { self.0.advance(conl_tokenize, document, rows) }
    }

    fn words(&mut self) -> &mut [usize] {
        self.0.as_mut_slice()
    }
}
