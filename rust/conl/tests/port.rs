//! The calls of the static library: rows that no reading gives.
#![forbid(unsafe_code)]

use conl::port::{unescape, Row, Unescaped, REFUSED};
use std::panic;

const DOCUMENT: &[u8] = b"a = \"\\{41}\" ; \xFF";

fn row(number: usize, start: usize, end: usize) -> Row {
    Row {
        number,
        line: 7,
        start,
        end,
        from: start,
        to: end,
        opened: 0,
    }
}

#[test]
fn unescaping_panics_where_the_number_is_no_tokens() {
    for number in [0, 11, 255, REFUSED, REFUSED + 1, REFUSED + 12, usize::MAX] {
        let unescaped = panic::catch_unwind(|| unescape(DOCUMENT, &row(number, 0, 1), &mut [0; 9]));
        assert!(unescaped.is_err(), "{number}: {unescaped:?}");
    }
}

#[test]
fn unescaping_refuses_parts_that_are_none_of_the_documents() {
    let refused = Unescaped::Refused {
        number: 13,
        line: 7,
        shown: 0..0,
    };
    let len = DOCUMENT.len();
    let no_parts = [
        (1, 0),
        (0, len),
        (len - 1, len),
        (len, len + 1),
        (0, usize::MAX),
    ];
    for (start, end) in no_parts {
        for number in [2, 6, 7, 8, 9] {
            let unescaped = unescape(DOCUMENT, &row(number, start, end), &mut [0; 9]);
            assert_eq!(unescaped, refused, "{number}: {start} to {end}");
        }
    }
}
