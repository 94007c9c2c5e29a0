//! Refusals as errors.

use std::fmt::{self, Display, Formatter};

/// Why a document, or a token's text, is refused.
#[derive(Debug)]
pub struct SyntaxError {
    /// The line on which it is refused: 0 where it is too long to be read at all.
    pub lno: usize,
    /// What is wrong.
    pub msg: String,
}

impl SyntaxError {
    /// The refusal of a number, with the part of the document that the message of number 8 shows.
    pub(crate) fn refused(number: usize, lno: usize, shown: &str) -> Self {
        let msg = match number {
            8 => format!("invalid escape code: {shown}"),
            _ => message(number).to_owned(),
        };
        SyntaxError { lno, msg }
    }
}

impl Display for SyntaxError {
    fn fmt(&self, f: &mut Formatter<'_>) -> fmt::Result {
        write!(f, "{}: {}", self.lno, self.msg)
    }
}

/// The message of a refusal that shows nothing of the document. The original has no 3 and no 12 to
/// 15, and of these a caller meets 3 and 12 alone.
fn message(number: usize) -> &'static str {
    match number {
        1 => "invalid UTF-8",
        2 => "characters after quotes",
        3 => "more than 64 sections are open",
        4 => "missing multiline value",
        5 => "unexpected map key",
        6 => "unexpected list item",
        7 => "unexpected indent",
        9 => "invalid escape code: end of string",
        10 => "extra characters after quotes",
        11 => "unclosed quotes",
        12 => "more than 16777216 bytes",
        13 => "the token's text is no part of the document, or invalid UTF-8",
        14 => "the buffer is shorter than the text that is written to it",
        15 => "the state is not one of a reading of the document",
        _ => "refused by a number that has no message",
    }
}
