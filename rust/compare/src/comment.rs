//! The text of a comment, against the original: trimmed of blanks, refused where it is not UTF-8.

use crate::tally::Tally;
use crate::texts::{self, place};
use conl::port::{self, Trim};
use original::Token;
use std::ops::Range;

type Answer = Result<Range<usize>, String>;

pub fn compare() -> Tally {
    let mut tally = Tally::start("text of a comment", &["taken", "refused"]);
    texts::range_ends(&mut |text| {
        // A line break ends the comment.
        if text.contains(&b'\r') || text.contains(&b'\n') {
            return;
        }
        let answer = tally.compare(text, by_original, by_port);
        tally.saw(if answer.is_ok() { "taken" } else { "refused" });
    });
    tally
}

fn by_original(text: &[u8]) -> Answer {
    let document = [b";", text].concat();
    match original::tokenize(&document).next() {
        Some(Ok(Token::Comment(1, comment))) => Ok(place(&document[1..], comment)),
        Some(Err(error)) => Err(error.msg),
        other => panic!("a comment is read as {other:?}"),
    }
}

fn by_port(text: &[u8]) -> Answer {
    if port::is_utf8(text) {
        Ok(port::trim(text, Trim::Blanks))
    } else {
        Err("invalid UTF-8".into())
    }
}
