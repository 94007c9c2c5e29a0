//! The answers of a whole reading, against the original's.

use crate::answers::{name, refusal};
use crate::documents::LIMIT;
use crate::tally::Tally;
use conl::port::{Row, Rows, State, REFUSED};
use std::iter;
use std::ops::RangeInclusive;

/// How many sections the port lets be open.
pub const SECTIONS: usize = 64;

pub const COMMENT: usize = 2;
pub const INDENT: usize = 3;
pub const OUTDENT: usize = 4;
pub const LIST_ITEM: usize = 5;
pub const MAP_KEY: usize = 6;
pub const MULTILINE_VALUE: usize = 9;
const UNEXPECTED_INDENT: usize = REFUSED + 7;

/// What a tally calls a document of which nothing is refused.
const ACCEPTED: &str = "accepted";

/// What is read, and what must occur.
pub struct Reading {
    pub name: &'static str,
    /// The kinds of its tokens.
    pub kinds: RangeInclusive<usize>,
    /// The numbers of its refusals within the document's limit.
    pub refusals: RangeInclusive<usize>,
    /// What the original says.
    pub original: fn(&[u8]) -> Vec<Row>,
}

type Way = (&'static str, fn(&[u8], &Vec<Row>) -> Vec<Row>);

impl Reading {
    /// Starts the comparison; documents over the limit are among those to come or not.
    pub fn start(&self, over_limit: bool) -> Tally {
        let refusals = self.refusals.clone().chain(over_limit.then_some(12));
        let refusals = refusals.map(|number| REFUSED + number);
        let numbers = self.kinds.clone().chain(refusals);
        let outcomes: Vec<_> = iter::once(ACCEPTED).chain(numbers.map(name)).collect();
        Tally::start(self.name, &outcomes)
    }

    /// Holds the port's reading with states `S` against the original's.
    pub fn compare<S: State>(&self, tally: &mut Tally, document: &[u8]) {
        // The port's answers must not depend on how many of them a call has room for.
        let ways: [Way; 3] = [
            ("port, a row at a time", by_port::<S, 1>),
            ("port, two rows at a time", by_port::<S, 2>),
            ("port, 256 rows at a time", by_port::<S, 256>),
        ];
        let by_original = |document: &[u8]| within_limits(document, self.original);
        let rows = tally.compare_each(document, by_original, ways);
        if rows.iter().all(|row| row.number < REFUSED) {
            tally.saw(ACCEPTED);
        }
        for row in rows {
            tally.saw(name(row.number));
        }
    }
}

/// What `original` says, up to where the port's limits stop it.
pub fn within_limits(document: &[u8], original: fn(&[u8]) -> Vec<Row>) -> Vec<Row> {
    if document.len() > LIMIT {
        return vec![refusal(12, 0)];
    }
    let mut rows = original(document);
    if let Some(at) = one_section_too_many(&rows) {
        rows[at] = refusal(3, rows[at].line);
        rows.truncate(at + 1);
    }
    rows
}

/// The first Indent, be it refused, with which more sections are open than the port lets be.
fn one_section_too_many(rows: &[Row]) -> Option<usize> {
    let mut open = 0;
    rows.iter().position(|row| {
        match row.number {
            INDENT | UNEXPECTED_INDENT => open += 1,
            OUTDENT => open -= 1,
            _ => {}
        }
        open > SECTIONS
    })
}

/// What the port says, up to a first refusal 3: the original has nothing like the rest.
fn by_port<S: State, const ROOM: usize>(document: &[u8], _: &Vec<Row>) -> Vec<Row> {
    let mut rows = Vec::new();
    for row in Rows::<S, ROOM>::new(document).take(bound(document)) {
        rows.push(row);
        if row.number == REFUSED + 3 {
            break;
        }
    }
    rows
}

/// How many answers are taken: a reading has at most two for each byte, and one more shows a port
/// that never ends.
pub fn bound(document: &[u8]) -> usize {
    2 * document.len() + 1
}
