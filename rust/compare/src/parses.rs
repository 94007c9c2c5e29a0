//! The parser's answers, against the original's `parse`. The original does not say which entry an Outdent closes:
//! that is counted over its answers.

use crate::answers::rows;
use crate::readings::{Reading, INDENT, LIST_ITEM, MAP_KEY, OUTDENT};
use crate::tally::Tally;
use conl::port::{ParserState, Row};

const READING: Reading = Reading {
    name: "parsing",
    kinds: 1..=10,
    refusals: 1..=7,
    original: parses,
};

pub fn start(over_limit: bool) -> Tally {
    READING.start(over_limit)
}

pub fn compare(tally: &mut Tally, document: &[u8]) {
    READING.compare::<ParserState>(tally, document);
}

/// What the original says, each Outdent with the line of the entry that it closes. It ends after a refusal.
pub fn parses(document: &[u8]) -> Vec<Row> {
    let mut rows = rows(document, original::parse(document));
    let mut entry = 0;
    let mut open = Vec::new();
    for row in &mut rows {
        match row.number {
            LIST_ITEM | MAP_KEY => entry = row.line,
            INDENT => open.push(entry),
            OUTDENT => row.opened = open.pop().expect("an open section"),
            _ => {}
        }
    }
    rows
}
