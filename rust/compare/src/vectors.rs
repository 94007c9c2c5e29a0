//! The sample of Rust's answers that crates/vectors/stdin stores, for the program `vectors` to replay
//! where there is no Rust: answers of the standard library, then of the original. The port has no
//! say in it.

use crate::answers::{self, Text};
use crate::documents::any;
use crate::look_ups;
use crate::parses::parses;
use crate::random::Random;
use crate::structured;
use crate::texts::{hex, Mixed};
use crate::tokens::tokens;
use crate::trimming::trimmed;
use crate::unescaping::QUOTED;
use crate::utf8::is_valid;
use conl::port::{Found, Row, Trim};
use original::Token;
use std::collections::BTreeSet;

/// How many texts are kept for each question, and how many bytes a random one may have.
const VALIDITY_TEXTS: usize = 600;
const TRIMMING_TEXTS: usize = 300;
const RANDOM_BYTES: usize = 64;

/// How many documents are kept, and how many bytes one may have.
const DOCUMENTS: usize = 2_000;
const DOCUMENT_BYTES: usize = 256;

/// In one of how many documents a key is looked up.
const LOOK_UPS: usize = 3;

/// How many values and multiline values are kept, and how many pieces a random one may have.
const VALUES: usize = 500;
const MULTILINE_VALUES: usize = 400;
const PIECES: usize = 16;

/// Unicode's Table 3-7: the ranges of the bytes of well-formed characters.
const TABLE_3_7: [&[(u8, u8)]; 9] = [
    &[(0x00, 0x7F)],
    &[(0xC2, 0xDF), (0x80, 0xBF)],
    &[(0xE0, 0xE0), (0xA0, 0xBF), (0x80, 0xBF)],
    &[(0xE1, 0xEC), (0x80, 0xBF), (0x80, 0xBF)],
    &[(0xED, 0xED), (0x80, 0x9F), (0x80, 0xBF)],
    &[(0xEE, 0xEF), (0x80, 0xBF), (0x80, 0xBF)],
    &[(0xF0, 0xF0), (0x90, 0xBF), (0x80, 0xBF), (0x80, 0xBF)],
    &[(0xF1, 0xF3), (0x80, 0xBF), (0x80, 0xBF), (0x80, 0xBF)],
    &[(0xF4, 0xF4), (0x80, 0x8F), (0x80, 0xBF), (0x80, 0xBF)],
];

/// Overlong forms of `/`, a character written as two surrogates, and forms of five and six bytes.
const FAR_FROM_THE_TABLE: [&[u8]; 6] = [
    b"\xC0\xAF",
    b"\xE0\x80\xAF",
    b"\xF0\x80\x80\xAF",
    b"\xED\xA0\xBD\xED\xB8\x80",
    b"\xF8\x88\x80\x80\x80",
    b"\xFC\x84\x80\x80\x80\x80",
];

/// What a text to trim starts and ends with.
const ENDS: [&str; 6] = ["", " ", "\t \t", "\n", " \r\n", "\r\n\t"];

/// What stands between; the last three are white space to ASCII or Unicode, and are not dropped.
const MIDDLES: [&str; 8] = [
    "",
    "x",
    "é",
    "x y",
    "a\t\r\nb",
    "\u{B}\u{C}",
    "\u{A0}",
    "\u{3000}\u{85}",
];

/// Documents that turn on one rule each.
pub const EXAMPLES: [&[u8]; 23] = [
    b"",
    b"a\n  = \"x\"\n",
    b"a = \"\"\"\"b",
    b"a = \"\"\"\n;x",
    b" a",
    b"k\n a = \"\"\"\n  x",
    b"=\"\"\"\n a",
    b"a = \"\"\"hint ; x\r\n  x\r\n   y\n \n  z\n\nb",
    b"a = \"\"\"\n\tb\r\r\n \tc\r\td",
    b"a = \"\"\"\nb",
    b"a = \"\"\" \n = \"\"\"\n  x\n y",
    b"a\n\tb\n c",
    b"a\n  b\n    c\n d\n",
    b"a\n b\n  c\n; x\n  d\n;y",
    b"= \"a;b\\\";c\\\\\";d\"e;f",
    b"\"a=b\\\"=\" = c = d",
    b"a;b\r=c\r\n;d;e",
    b"=;\n==\n= =;=",
    b" \t ; \xC2\xA0 \t\n\t= \xE3\x80\x80 ",
    b"a\n\xFF",
    b"a\n=",
    b"=\na",
    b"a=b\n c",
];

/// Values that turn on one rule of unescaping each.
const VALUE_EXAMPLES: [&str; 25] = [
    "",
    "a",
    "a\"\\{41}\"",
    "\"\"",
    "\"a b\"",
    "\"",
    "\"a",
    "\"a\"b",
    "\"\"\"",
    "\"a\\",
    "\"a\\\"",
    "\"\\\"\\\\\\n\\r\\t\"",
    "\"\\x\"",
    "\"\\é\"",
    "\"\\\\x\\x\"",
    "\"\\{0010FFFF}\"",
    "\"\\{00110000}\"",
    "\"\\{000000041}\"",
    "\"\\{100000041}\"",
    "\"\\{D800}\"",
    "\"\\{}\"",
    "\"\\{+41}\"",
    "\"\\{-41}\"",
    "\"\\{41}\\{41\"",
    "\"\\{41",
];

/// Multiline values that turn on one rule of unescaping each, behind their indentations.
const MULTILINE_EXAMPLES: [(&str, &str); 9] = [
    ("  ", "x\r\n   y\n \n  z"),
    ("", "x\ny"),
    (" ", "x"),
    (" ", " x\n x"),
    ("\t", "x\n y\n\tz"),
    (" ", "x\n"),
    (" ", "x\r\n"),
    (" ", "x\r"),
    (" ", "x\r\r\n\n\r y"),
];

/// The indentations of random multiline values, and what these are put together from beside them.
const INDENTS: [&str; 6] = ["", " ", "\t", "  ", " \t", "\t\t "];
const LINES: [&str; 8] = ["\n", "\r\n", "\r", " ", "\t", "x", "é", "漢字"];

pub fn sample() -> String {
    let mut mixed = Mixed::new();
    let mut lines = String::new();
    for text in validity_texts(&mut mixed) {
        lines += &line("u", &text, &[usize::from(is_valid(&text))]);
    }
    let texts = trimming_texts(&mut mixed);
    for (tag, which) in [("b", Trim::Blanks), ("s", Trim::BlanksAndBreaks)] {
        for text in &texts {
            let part = trimmed(text, which).expect("valid UTF-8");
            lines += &line(tag, text, &[part.start, part.end]);
        }
    }
    for token in every_kind() {
        let number = answers::row(b"", &token).number;
        lines += &line("n", token.name().as_bytes(), &[number]);
    }
    let documents = documents();
    for document in &documents {
        lines += &line("t", document, &numbers(&tokens(document)));
    }
    for document in &documents {
        lines += &line("p", document, &numbers(&parses(document)));
    }
    for (place, document) in documents.iter().step_by(LOOK_UPS).enumerate() {
        let answers = look_ups::by_original(document, usize::MAX);
        let (wanted, found) = &answers[place % answers.len()];
        lines += &line("e", document, &looked_up(wanted, found));
    }
    let random = &mut Random::new();
    for text in values(random) {
        let token = Token::Value(1, &text);
        lines += &line("v", text.as_bytes(), &unescaped(&text, &token));
    }
    for (indent, text) in multiline_values(random) {
        let (blanks, rest) = text.split_at(indent);
        let token = Token::MultilineValue(1, blanks, rest);
        let numbers = [vec![indent], unescaped(&text, &token)].concat();
        lines += &line("m", text.as_bytes(), &numbers);
    }
    lines
}

fn numbers(rows: &[Row]) -> Vec<usize> {
    rows.iter().flat_map(Row::words).collect()
}

/// Whether the text of a token in `document` is plain (0), written (1) or refused (2); a refusal's
/// number and line; where the plain part or the part shown starts and ends, or 0 and the length of
/// the written text; then this text's bytes.
fn unescaped(document: &str, token: &Token) -> Vec<usize> {
    match answers::text(document.as_bytes(), token) {
        Text::Plain(part) => vec![0, 0, 0, part.start, part.end],
        Text::Written(bytes) => {
            let numbers = vec![1, 0, 0, 0, bytes.len()];
            let bytes = bytes.into_iter().map(usize::from);
            numbers.into_iter().chain(bytes).collect()
        }
        Text::Refused {
            number,
            line,
            shown,
        } => vec![2, number, line, shown.start, shown.end],
    }
}

/// The name's length and its bytes; then whether there is nothing (0), an entry (1) or a refusal (2),
/// a refusal's number, the key's or the refusal's line, and where the entry starts and ends.
fn looked_up(wanted: &[u8], found: &Found) -> Vec<usize> {
    let answer = match *found {
        Found::Nothing => [0, 0, 0, 0, 0],
        Found::At { line, ref range } => [1, 0, line, range.start, range.end],
        Found::Refused { number, line } => [2, number, line, 0, 0],
    };
    let wanted_bytes = wanted.iter().map(|&byte| usize::from(byte));
    let numbers = [wanted.len()].into_iter().chain(wanted_bytes);
    numbers.chain(answer).collect()
}

/// A tag, the text's bytes and the answer's numbers, as the program `vectors` reads them.
fn line(tag: &str, text: &[u8], numbers: &[usize]) -> String {
    let numbers: String = numbers.iter().map(|number| format!(" {number}")).collect();
    format!("{tag} {}{numbers}\n", hex(text))
}

fn every_kind() -> [Token<'static>; 10] {
    [
        Token::Newline(1),
        Token::Comment(1, ""),
        Token::Indent(1),
        Token::Outdent(1),
        Token::ListItem(1),
        Token::MapKey(1, ""),
        Token::Value(1, ""),
        Token::MultilineHint(1, ""),
        Token::MultilineValue(1, "", ""),
        Token::NoValue(1),
    ]
}

fn documents() -> BTreeSet<Vec<u8>> {
    let random = &mut Random::new();
    let mut documents: BTreeSet<_> = EXAMPLES.map(<[u8]>::to_vec).into();
    while documents.len() < DOCUMENTS {
        let document = any(random);
        if document.len() <= DOCUMENT_BYTES {
            documents.insert(document);
        }
    }
    documents
}

/// Texts in quotes as people write them, and jumbled ones behind a quote.
fn values(random: &mut Random) -> BTreeSet<String> {
    let mut values: BTreeSet<_> = VALUE_EXAMPLES.map(String::from).into();
    while values.len() < VALUES {
        values.insert(if random.one_in(4) {
            format!("\"{}", jumbled(random, &QUOTED))
        } else {
            structured::quoted(random)
        });
    }
    values
}

/// Jumbled texts behind an indentation that stands among their pieces, each with how many bytes this
/// has.
fn multiline_values(random: &mut Random) -> BTreeSet<(usize, String)> {
    let with_indent = |(indent, text): (&str, &str)| (indent.len(), [indent, text].concat());
    let mut values: BTreeSet<_> = MULTILINE_EXAMPLES.map(with_indent).into();
    while values.len() < MULTILINE_VALUES {
        let indent = random.pick(&INDENTS);
        let pieces = [&LINES[..], &[indent; 4]].concat();
        values.insert(with_indent((indent, &jumbled(random, &pieces))));
    }
    values
}

/// Some of `pieces`, as they come.
fn jumbled(random: &mut Random, pieces: &[&str]) -> String {
    let count = random.below(PIECES + 1);
    (0..count).map(|_| random.pick(pieces)).collect()
}

fn validity_texts(mixed: &mut Mixed) -> BTreeSet<Vec<u8>> {
    let mut texts = around_the_table();
    texts.extend(FAR_FROM_THE_TABLE.map(<[u8]>::to_vec));
    let between: Vec<_> = texts
        .iter()
        .map(|text| ["é".as_bytes(), text, b"x"].concat())
        .collect();
    texts.extend(between);
    while texts.len() < VALIDITY_TEXTS {
        texts.insert(mixed.text(RANDOM_BYTES));
    }
    texts
}

/// The first and the last character of each row, whole, cut short, and with one byte at another end
/// of its range or just past it.
fn around_the_table() -> BTreeSet<Vec<u8>> {
    let mut texts = BTreeSet::new();
    for row in TABLE_3_7 {
        let first: Vec<u8> = row.iter().map(|&(low, _)| low).collect();
        let last: Vec<u8> = row.iter().map(|&(_, high)| high).collect();
        for character in [first, last] {
            for (i, &(low, high)) in row.iter().enumerate() {
                texts.insert(character[..i].to_vec());
                for byte in [low.wrapping_sub(1), low, high, high + 1] {
                    let mut text = character.clone();
                    text[i] = byte;
                    texts.insert(text);
                }
            }
        }
    }
    texts
}

fn trimming_texts(mixed: &mut Mixed) -> BTreeSet<Vec<u8>> {
    let mut texts = BTreeSet::new();
    for start in ENDS {
        for middle in MIDDLES {
            texts.extend(ENDS.map(|end| [start, middle, end].concat().into_bytes()));
        }
    }
    while texts.len() < TRIMMING_TEXTS {
        let text = mixed.text(RANDOM_BYTES);
        if is_valid(&text) {
            texts.insert(text);
        }
    }
    texts
}
