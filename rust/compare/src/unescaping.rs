//! Unescaping, against the original's `Token::unescape`; texts that are set aside, against their twins'.

use crate::answers::{name, row, text, Text};
use crate::documents::LIMIT;
use crate::plus::is_set_aside;
use crate::tally::Tally;
use crate::texts::every;
use conl::port::{self, Row, Unescaped, REFUSED};
use original::Token;
use std::iter;
use std::str;

/// What quoted texts are put together from.
pub const QUOTED: [&str; 13] = [
    "\"", "\\", "{", "}", "0", "4", "D", "f", "+", "n", "é", "漢", "😀",
];

/// What codes in braces are put together from, and how many bytes they have at most.
const CODES: [&str; 9] = ["0", "1", "8", "D", "f", "+", "-", "g", "é"];
const CODE_BYTES: usize = 6;

/// Every number up to this one is tried in braces. Scalar values end at 10FFFF.
const NUMBERS: u64 = 0x11_00FF;

/// Numbers that are tried in braces with up to so many digits: at the ends of the scalar values and
/// of what so many bytes encode, and such as would be scalar values if they wrapped.
const NUMBERS_AT_ENDS: [u64; 16] = [
    0x00,
    0x7F,
    0x80,
    0x7FF,
    0x800,
    0xD7FF,
    0xD800,
    0xDFFF,
    0xE000,
    0xFFFF,
    0x1_0000,
    0x10_FFFF,
    0x11_0000,
    0xFFFF_FFFF,
    0x1_0000_0000,
    0x1_0000_0041,
];
const DIGITS: usize = 10;

/// What multiline texts are put together from.
const LINES: [&str; 5] = [" ", "\t", "\r", "\n", "x"];

/// What their indentations are put together from, and how many bytes these have at most.
const INDENTS: [&str; 2] = [" ", "\t"];
const INDENT_BYTES: usize = 3;

/// How many bytes more than a token's text the largest buffer has.
const SPARE: usize = 8;

/// How a tally names the texts that are set aside.
const SET_ASIDE: &str = "texts set aside, a plus in braces";

/// What is said of a token with one buffer; or that buffer, where bytes of it were changed that are
/// none of a written text's.
pub type Answer = Result<Text, Vec<u8>>;

/// The token of a row and whether its text is set aside, a buffer's length, and what is said of the
/// token with such a buffer.
#[derive(Debug, PartialEq)]
struct Said {
    row: Row,
    set_aside: bool,
    room: usize,
    answer: Answer,
}

pub fn start(over_limit: bool) -> Tally {
    let over_limit = over_limit.then_some(12);
    let refusals = (8..=11).chain(over_limit).chain([14]);
    let mut outcomes = vec![SET_ASIDE, "plain", "written"];
    outcomes.extend(refusals.map(|number| name(REFUSED + number)));
    Tally::start("unescaping", &outcomes)
}

/// Texts of up to so many bytes that are no whole documents: quoted ones and multiline ones.
pub fn compare_texts(tally: &mut Tally, quoted: usize, most: usize) {
    compare_tokens(tally, b"", |_| vec![Token::NoValue(1)]);
    quoted_texts(quoted, &mut |text| compare_tokens(tally, text, value));
    multiline_texts(most, &mut |document, indent| {
        compare_tokens(tally, document, |document| multiline(document, indent));
    });
}

/// Every token of a document.
pub fn compare(tally: &mut Tally, document: &[u8]) {
    compare_tokens(tally, document, tokens);
}

/// Puts to both sides the tokens that `tokens` finds in a text. The port unescapes each as a row of the
/// document and as a text of its own.
fn compare_tokens(tally: &mut Tally, text: &[u8], tokens: impl Fn(&[u8]) -> Vec<Token>) {
    let rust = |document: &[u8]| answers(document, &tokens(document));
    let port = |way: fn(&[u8], &Row, usize) -> Answer| {
        move |document: &[u8], said: &Vec<Said>| {
            let port = |said: &Said| Said {
                answer: way(document, &said.row, said.room),
                ..*said
            };
            said.iter().map(port).collect()
        }
    };
    let ports = [
        ("port, by the row", port(by_row)),
        ("port, by the text", port(by_text)),
    ];
    for said in tally.compare_each(text, rust, ports) {
        // Once for each token, with one of its buffers.
        if said.set_aside && said.room == to_spare(&said.row) {
            tally.saw(SET_ASIDE);
        }
        tally.saw(match said.answer.expect("the original has no buffer") {
            Text::Plain(_) => "plain",
            Text::Written(_) => "written",
            Text::Refused { number, .. } => name(REFUSED + number),
        });
    }
}

/// What is due of each token with a buffer that has room to spare; then, of a text that is written,
/// with one that it just fits and one that is a byte too short; of any other, with an empty one.
fn answers(document: &[u8], tokens: &[Token]) -> Vec<Said> {
    let mut answers = Vec::new();
    for token in tokens {
        let row = row(document, token);
        let text = text(document, token);
        let others = match &text {
            Text::Written(bytes) => [Some(bytes.len()), bytes.len().checked_sub(1)],
            _ => [Some(0), None],
        };
        let rooms = iter::once(to_spare(&row)).chain(others.into_iter().flatten());
        answers.extend(rooms.map(|room| Said {
            row,
            set_aside: is_set_aside(token),
            room,
            answer: within_room(document, &row, &text, room),
        }));
    }
    answers
}

/// How many bytes a buffer has that has room to spare for a token's text.
pub fn to_spare(row: &Row) -> usize {
    row.end - row.start + SPARE
}

/// What is due, as far as the port's limit and a buffer of `room` bytes let it.
fn within_room(document: &[u8], row: &Row, text: &Text, room: usize) -> Answer {
    let refused = |number, line| Text::Refused {
        number,
        line,
        shown: 0..0,
    };
    Ok(match text {
        _ if document.len() > LIMIT => refused(12, 0),
        Text::Written(bytes) if bytes.len() > room => refused(14, row.line),
        text => text.clone(),
    })
}

/// What the port says of a row with a buffer of `room` bytes.
pub fn by_row(document: &[u8], row: &Row, room: usize) -> Answer {
    with_buffer(room, 0, |buffer| port::unescape(document, row, buffer))
}

/// What the port says of its text, and indentation, given apart. Over the limit the document is given as
/// the text, so that it is refused too.
fn by_text(document: &[u8], row: &Row, room: usize) -> Answer {
    let part = if document.len() > LIMIT {
        0..document.len()
    } else {
        row.start..row.end
    };
    let start = part.start;
    let (text, indentation) = (&document[part], &document[row.from..row.to]);
    with_buffer(room, start, |buffer| {
        port::unescape_text(row.number, row.line, text, indentation, buffer)
    })
}

/// What is said with a buffer of `room` bytes, of a text that starts at `start`.
fn with_buffer(room: usize, start: usize, unescape: impl FnOnce(&mut [u8]) -> Unescaped) -> Answer {
    // Bytes that no UTF-8 has.
    let filled = |place: usize| 0xF8 | (place % 8) as u8;
    let mut buffer: Vec<u8> = (0..room).map(filled).collect();
    let unescaped = unescape(&mut buffer);
    let written = match unescaped {
        Unescaped::Written(len) => len,
        _ => 0,
    };
    if (written..room).any(|place| buffer[place] != filled(place)) {
        return Err(buffer);
    }
    Ok(match unescaped {
        Unescaped::Plain(part) => Text::Plain(start + part.start..start + part.end),
        Unescaped::Written(len) => Text::Written(buffer[..len].to_vec()),
        Unescaped::Refused {
            number,
            line,
            shown,
        } => Text::Refused {
            number,
            line,
            // Only 8 shows a part.
            shown: if number == 8 {
                start + shown.start..start + shown.end
            } else {
                shown
            },
        },
    })
}

/// The tokens that the original finds in a document.
fn tokens(document: &[u8]) -> Vec<Token<'_>> {
    original::tokenize(document).flatten().collect()
}

/// A text as a value.
fn value(text: &[u8]) -> Vec<Token<'_>> {
    let text = str::from_utf8(text).ok();
    text.map(|text| Token::Value(1, text)).into_iter().collect()
}

/// A multiline value whose indentation is the first `indent` bytes, its text the rest.
fn multiline(document: &[u8], indent: usize) -> Vec<Token<'_>> {
    let document = str::from_utf8(document).ok();
    let parts = document.and_then(|document| document.split_at_checked(indent));
    parts
        .map(|(indent, text)| Token::MultilineValue(1, indent, text))
        .into_iter()
        .collect()
}

/// Hands to `each` every text of up to `most` bytes behind a quote, and texts of one code in braces.
fn quoted_texts(most: usize, each: &mut impl FnMut(&[u8])) {
    eprintln!("  every quoted text of up to {most} bytes behind the quote");
    every(&QUOTED, most, &mut |text| each(&[b"\"", text].concat()));

    eprintln!("  codes in braces");
    let mut code = |code: &[u8]| each(&[b"\"\\{", code, b"}\""].concat());
    every(&CODES, CODE_BYTES, &mut code);
    for number in 0..=NUMBERS {
        code(format!("{number:X}").as_bytes());
    }
    for number in NUMBERS_AT_ENDS {
        for digits in 1..=DIGITS {
            code(format!("{number:0digits$x}").as_bytes());
            code(format!("+{number:0digits$X}").as_bytes());
        }
    }
}

/// Hands to `each` every text of up to `most` bytes behind each indentation, and how many bytes this
/// has.
fn multiline_texts(most: usize, each: &mut impl FnMut(&[u8], usize)) {
    eprintln!("  every multiline text of up to {most} bytes");
    every(&INDENTS, INDENT_BYTES, &mut |indent| {
        every(&LINES, most, &mut |text| {
            each(&[indent, text].concat(), indent.len())
        });
    });
}
