//! Which entry just closed.
#![forbid(unsafe_code)]

use conl::{parse, port, Token};

/// A list of maps, a section behind a NoValue, and two that close at the end.
const LAYOUT: &[u8] = b"=\n a\n  b=1\n c=2\n=\n d\n\n  e\n f\n  = 3\n";

/// The line of each Outdent, and of the entry that it closes.
const CLOSED: [(usize, usize); 5] = [(4, 2), (5, 1), (9, 6), (11, 9), (11, 5)];

#[test]
fn an_outdent_tells_the_line_of_its_entry() {
    let mut parser = parse(LAYOUT);
    let mut closed = Vec::new();
    assert_eq!(parser.opened(), None);
    while let Some(token) = parser.next() {
        if let Token::Outdent(line) = token.unwrap() {
            closed.push((line, parser.opened().unwrap()));
        }
        assert_eq!(parser.opened(), closed.last().map(|&(_, opened)| opened));
    }
    assert_eq!(closed, CLOSED);
}

#[test]
fn no_other_row_carries_a_line() {
    let rows = port::parse(LAYOUT).filter(|row| row.opened > 0);
    let closed: Vec<_> = rows.map(|row| (row.number, row.line, row.opened)).collect();
    assert_eq!(closed, CLOSED.map(|(line, opened)| (4, line, opened)));
    assert!(port::tokenize(LAYOUT).all(|row| row.opened == 0));
}
