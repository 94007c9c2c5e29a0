//! UTF-8 validity, against the standard library.

use crate::tally::Tally;
use crate::texts;
use conl::port;
use std::str;

pub fn compare() -> Tally {
    let mut tally = Tally::start("UTF-8 validity", &["valid", "invalid"]);
    texts::arbitrary(&mut |text| {
        let valid = tally.compare(text, is_valid, port::is_utf8);
        tally.saw(if valid { "valid" } else { "invalid" });
    });
    tally
}

/// What the standard library says.
pub fn is_valid(text: &[u8]) -> bool {
    str::from_utf8(text).is_ok()
}
