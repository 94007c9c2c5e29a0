//! The tokenizer's answers, against the original's `tokenize`.

use crate::answers::rows;
use crate::readings::Reading;
use crate::tally::Tally;
use conl::port::{Row, TokenizerState};

const READING: Reading = Reading {
    name: "tokens",
    kinds: 1..=9,
    refusals: 1..=3,
    original: tokens,
};

pub fn start(over_limit: bool) -> Tally {
    READING.start(over_limit)
}

pub fn compare(tally: &mut Tally, document: &[u8]) {
    READING.compare::<TokenizerState>(tally, document);
}

/// What the original says.
pub fn tokens(document: &[u8]) -> Vec<Row> {
    rows(document, original::tokenize(document))
}
