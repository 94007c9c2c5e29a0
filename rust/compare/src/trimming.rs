//! Trimming, against the standard library, which trims nothing but valid UTF-8.

use crate::tally::Tally;
use crate::texts::{self, place};
use crate::utf8::is_valid;
use conl::port::{self, Trim};
use std::ops::Range;
use std::str;

const OUTCOMES: [&str; 6] = [
    "empty text",
    "all dropped",
    "nothing dropped",
    "dropped at the start",
    "dropped at the end",
    "dropped at both ends",
];

pub fn compare(which: Trim) -> Tally {
    let rust = |text: &[u8]| trimmed(text, which);
    let port = |text: &[u8]| is_valid(text).then(|| port::trim(text, which));
    let name = match which {
        Trim::Blanks => "trimming of blanks",
        Trim::BlanksAndBreaks => "trimming of blanks and breaks",
    };

    let mut tally = Tally::start(name, &OUTCOMES);
    let mut each = |text: &[u8]| {
        if !is_valid(text) {
            return;
        }
        if let Some(part) = tally.compare(text, rust, port) {
            tally.saw(outcome(text, part));
        }
    };
    texts::arbitrary(&mut each);
    texts::every(&[" ", "\t", "\r", "\n", "x", "é"], 7, &mut each);
    tally
}

/// What the standard library says; nothing of a text that is not UTF-8.
pub fn trimmed(text: &[u8], which: Trim) -> Option<Range<usize>> {
    let dropped: &[char] = match which {
        Trim::Blanks => &[' ', '\t'],
        Trim::BlanksAndBreaks => &[' ', '\t', '\r', '\n'],
    };
    let kept = str::from_utf8(text).ok()?.trim_matches(dropped);
    Some(place(text, kept))
}

fn outcome(text: &[u8], part: Range<usize>) -> &'static str {
    match (part.start > 0, part.end < text.len()) {
        _ if text.is_empty() => "empty text",
        _ if part.is_empty() => "all dropped",
        (false, false) => "nothing dropped",
        (true, false) => "dropped at the start",
        (false, true) => "dropped at the end",
        (true, true) => "dropped at both ends",
    }
}
