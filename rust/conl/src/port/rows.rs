//! The answers of a reading, which the library writes as rows of words, as many in one call as
//! there is room for.

use std::iter::FusedIterator;
use std::ops::Range;

/// What a row adds to a refusal's number.
pub const REFUSED: usize = 256;

/// What a call that takes no step adds to the number of the refusal that it returns.
pub const NO_STEP: usize = 1 << 63;

/// How many words a row has.
pub const WORDS: usize = 7;

/// An answer, with zeros for what it does not carry.
#[derive(Clone, Copy, Debug, Default, Eq, PartialEq)]
pub struct Row {
    /// 1 Newline, 2 Comment, 3 Indent, 4 Outdent, 5 ListItem, 6 MapKey, 7 Value, 8 MultilineHint,
    /// 9 MultilineValue, 10 NoValue; or [REFUSED] and a refusal's number.
    pub number: usize,
    pub line: usize,
    /// Where the text starts in the document.
    pub start: usize,
    /// Where the text ends.
    pub end: usize,
    /// Where a multiline value's indentation starts.
    pub from: usize,
    /// Where it ends.
    pub to: usize,
    /// The line of the key or item whose section an Outdent of the parser's closes.
    pub opened: usize,
}

impl Row {
    /// The words that it is written in, but for the last one: those of a token.
    #[inline]
    pub fn words(&self) -> [usize; 6] {
        [
            self.number,
            self.line,
            self.start,
            self.end,
            self.from,
            self.to,
        ]
    }
}

impl From<[usize; WORDS]> for Row {
    #[inline(always)]
    fn from([number, line, start, end, from, to, opened]: [usize; WORDS]) -> Self {
        Row {
            number,
            line,
            start,
            end,
            from,
            to,
            opened,
        }
    }
}

/// The words in which the library keeps where a reading stands.
pub trait State {
    /// The state before the first step.
    fn fresh() -> Self;

    /// Takes the steps before End, or as many of them as `rows` has room for. Returns how many rows
    /// were written, or 2^63 and a refusal's number.
    fn advance(&mut self, document: &[u8], rows: &mut [usize]) -> usize;

    /// The words that the library is lent. It answers of any words: what is no state is refused.
    fn words(&mut self) -> &mut [usize];
}

/// The rows of a reading, fetched `ROOM` at a time, and fewer at a time of a small document.
///
/// A document that the library refuses to read has one row: the refusal, on line 0.
pub struct Rows<'doc, S, const ROOM: usize> {
    document: &'doc [u8],
    state: S,
    fetched: Vec<[usize; WORDS]>,
    unread: Range<usize>,
    ended: bool,
}

impl<'doc, S: State, const ROOM: usize> Rows<'doc, S, ROOM> {
    pub fn new(document: &'doc [u8]) -> Self {
        const { assert!(ROOM > 0) };
        // Some four bytes go to a row in the documents that were measured: a guess, which decides
        // nothing but how often the library is called.
        let room = ROOM.min(document.len() / 4 + 8);
        Rows {
            document,
            state: S::fresh(),
            fetched: vec![[0; WORDS]; room],
            unread: 0..0,
            ended: false,
        }
    }

    #[cold]
    #[inline(never)]
    fn fetch(&mut self) {
        let rows = self.fetched.as_flattened_mut();
        let written = self.state.advance(self.document, rows);
        self.ended = written != rows.len() / WORDS;
        self.unread = match written.checked_sub(NO_STEP) {
            None => 0..written,
            Some(number) => {
                self.fetched[0] = [REFUSED + number, 0, 0, 0, 0, 0, 0];
                0..1
            }
        };
    }
}

impl<S: State, const ROOM: usize> Iterator for Rows<'_, S, ROOM> {
    type Item = Row;

    #[inline(always)]
    fn next(&mut self) -> Option<Row> {
        if self.unread.is_empty() && !self.ended {
            self.fetch();
        }
        let next = self.unread.next()?;
        Some(Row::from(self.fetched[next]))
    }
}

impl<S: State, const ROOM: usize> FusedIterator for Rows<'_, S, ROOM> {}
