//! The look-up of a top-level key.

use crate::error::SyntaxError;
use crate::port::{self, Found};

/// A top-level entry of a document.
#[derive(Clone, Copy, Debug, Eq, PartialEq)]
pub struct Entry<'doc> {
    /// The line of its key.
    pub lno: usize,
    /// The bytes from its key, quotes included, up to the next top-level key, or to the document's end.
    pub text: &'doc [u8],
}

/// The first entry of `document` at top level whose key has the name `name`. A key's name is its text,
/// [unescaped](crate::Token::unescape): `"width"` has the name `width`, `"\{61}"` the name `a`. A key that
/// can't be unescaped has no name, and is passed over.
///
/// An error of [parse](crate::parse) is the answer where it comes before the entry's end, and
/// anywhere where there is no such key. The original has nothing like it.
pub fn look_up<'doc>(
    document: &'doc [u8],
    name: &[u8],
) -> Result<Option<Entry<'doc>>, SyntaxError> {
    match port::look_up(document, name) {
        Found::Nothing => Ok(None),
        Found::At { line, range } => Ok(Some(Entry {
            lno: line,
            text: &document[range],
        })),
        Found::Refused { number, line } => Err(SyntaxError::refused(number, line, "")),
    }
}
