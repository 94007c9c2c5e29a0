//! The original's answers in the port's form: rows and texts with document 01's numbers.

use crate::plus::unescape;
use crate::texts::place;
use conl::port::{Row, REFUSED};
use original::{SyntaxError, Token};
use std::borrow::Cow;
use std::iter;
use std::ops::Range;

/// How the message of an invalid escape code begins. The code follows.
const INVALID_ESCAPE: &str = "invalid escape code: ";

/// What the original answers of `document`. Past its end it says nothing more.
pub fn rows<'doc>(
    document: &[u8],
    mut answers: impl Iterator<Item = Result<Token<'doc>, SyntaxError>>,
) -> Vec<Row> {
    let row = |answer| match answer {
        Ok(token) => row(document, &token),
        Err(SyntaxError { lno, msg }) => refusal(number_of(&msg), lno),
    };
    let rows = answers.by_ref().map(row).collect();
    let ended = (0..3).all(|_| answers.next().is_none());
    assert!(ended, "the original goes on past its end");
    rows
}

/// The row of a token whose texts lie in `document`.
pub fn row(document: &[u8], token: &Token) -> Row {
    let (number, text, indent) = match *token {
        Token::Newline(_) => (1, None, None),
        Token::Comment(_, text) => (2, Some(text), None),
        Token::Indent(_) => (3, None, None),
        Token::Outdent(_) => (4, None, None),
        Token::ListItem(_) => (5, None, None),
        Token::MapKey(_, text) => (6, Some(text), None),
        Token::Value(_, text) => (7, Some(text), None),
        Token::MultilineHint(_, text) => (8, Some(text), None),
        Token::MultilineValue(_, indent, text) => (9, Some(text), Some(indent)),
        Token::NoValue(_) => (10, None, None),
    };
    let place = |part: Option<&str>| part.map_or(0..0, |part| place(document, part));
    let (text, indent) = (place(text), place(indent));
    Row {
        number,
        line: token.line_number(),
        start: text.start,
        end: text.end,
        from: indent.start,
        to: indent.end,
        opened: 0,
    }
}

pub fn refusal(number: usize, line: usize) -> Row {
    Row {
        number: REFUSED + number,
        line,
        ..Row::default()
    }
}

/// The text of a token.
#[derive(Clone, Debug, Eq, PartialEq)]
pub enum Text {
    /// This part of the document.
    Plain(Range<usize>),
    /// One that has to be written.
    Written(Vec<u8>),
    /// A refusal. Number 8 shows a part of the document, any other 0..0.
    Refused {
        number: usize,
        line: usize,
        shown: Range<usize>,
    },
}

/// What is due of a token whose texts lie in `document`.
pub fn text(document: &[u8], token: &Token) -> Text {
    match unescape(token) {
        Ok(Cow::Owned(text)) => Text::Written(text.into_bytes()),
        Ok(Cow::Borrowed(part)) => Text::Plain(match token {
            Token::Newline(_)
            | Token::Indent(_)
            | Token::Outdent(_)
            | Token::ListItem(_)
            | Token::NoValue(_) => 0..0,
            _ => place(document, part),
        }),
        Err(SyntaxError { lno: line, msg }) => {
            let number = number_of(&msg);
            let shown = match *token {
                Token::MapKey(_, text) | Token::Value(_, text) if number == 8 => {
                    place(document, shown(text, &msg))
                }
                _ => 0..0,
            };
            Text::Refused {
                number,
                line,
                shown,
            }
        }
    }
}

/// The part of `text` that the message of an invalid escape code shows. Dropping characters from
/// `text`'s end changes nothing in what is due until one of this part is dropped.
fn shown<'a>(text: &'a str, message: &str) -> &'a str {
    let starts = text.char_indices().rev().map(|(end, _)| &text[..end]);
    let shortest = iter::once(text)
        .chain(starts)
        .take_while(|start| {
            let answer = unescape(&Token::Value(1, start));
            answer.is_err_and(|error| error.msg == message)
        })
        .last()
        .expect("the whole text");
    let code = &message[INVALID_ESCAPE.len()..];
    let passed = shortest.strip_suffix(code).expect("the code at the end");
    &shortest[passed.len()..]
}

/// The number of a refusal whose message is this.
pub fn number_of(message: &str) -> usize {
    match message {
        "invalid UTF-8" => 1,
        "characters after quotes" => 2,
        "missing multiline value" => 4,
        "unexpected map key" => 5,
        "unexpected list item" => 6,
        "unexpected indent" => 7,
        "invalid escape code: end of string" => 9,
        "extra characters after quotes" => 10,
        "unclosed quotes" => 11,
        _ if message.starts_with(INVALID_ESCAPE) => 8,
        _ => panic!("the original refuses with {message:?}, which has no number"),
    }
}

/// How a tally names a row's number.
pub fn name(number: usize) -> &'static str {
    match number {
        1 => "Newline",
        2 => "Comment",
        3 => "Indent",
        4 => "Outdent",
        5 => "ListItem",
        6 => "MapKey",
        7 => "Value",
        8 => "MultilineHint",
        9 => "MultilineValue",
        10 => "NoValue",
        257 => "refusal 1",
        258 => "refusal 2",
        259 => "refusal 3",
        260 => "refusal 4",
        261 => "refusal 5",
        262 => "refusal 6",
        263 => "refusal 7",
        264 => "refusal 8",
        265 => "refusal 9",
        266 => "refusal 10",
        267 => "refusal 11",
        268 => "refusal 12",
        270 => "refusal 14",
        _ => panic!("no answer has the number {number}"),
    }
}
