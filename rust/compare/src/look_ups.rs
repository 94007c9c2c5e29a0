//! The look-up, which the original has not, against a plain one over the original's `parse` and
//! `unescape`.

use crate::answers::name;
use crate::parses::parses;
use crate::plus;
use crate::readings::{within_limits, INDENT, MAP_KEY, OUTDENT};
use crate::tally::Tally;
use conl::port::{self, Found, Row, REFUSED};
use original::Token;
use std::collections::BTreeSet;
use std::str;

/// A name that no document has.
const ABSENT: &[u8] = b"absent";

/// The key that is found begins with a quote, which is none of its name.
const FOUND_IN_QUOTES: &str = "of these, a key in quotes";

/// A name that begins with a quote is not found: most of them are the bytes of a key in quotes.
const NOT_FOUND_WITH_QUOTES: &str = "nothing, by a name with a quote";

/// What is wanted, and what is found.
type Answer = (Vec<u8>, Found);

/// A key of a document.
struct Key {
    row: Row,
    /// With as many Outdents as Indents before it.
    is_top_level: bool,
    /// Its text, unescaped; a key that is refused has none.
    name: Option<Vec<u8>>,
}

pub fn start(over_limit: bool) -> Tally {
    let refusals = (1..=7).chain(over_limit.then_some(12));
    let mut outcomes = vec!["nothing", "found, up to a key", "found, up to the end"];
    outcomes.extend([FOUND_IN_QUOTES, NOT_FOUND_WITH_QUOTES]);
    outcomes.extend(refusals.map(|number| name(REFUSED + number)));
    Tally::start("look-up", &outcomes)
}

pub fn compare(tally: &mut Tally, document: &[u8]) {
    let port = |document: &[u8], answers: &Vec<Answer>| {
        let found = |wanted: &Vec<u8>| (wanted.clone(), port::look_up(document, wanted));
        answers.iter().map(|(wanted, _)| found(wanted)).collect()
    };
    let rust = |document: &[u8]| by_original(document, usize::MAX);
    for (wanted, found) in tally.compare_each(document, rust, [("port", port)]) {
        match &found {
            Found::At { range, .. } if document[range.start] == b'"' => tally.saw(FOUND_IN_QUOTES),
            Found::Nothing if wanted.starts_with(b"\"") => tally.saw(NOT_FOUND_WITH_QUOTES),
            _ => {}
        }
        tally.saw(match found {
            Found::Nothing => "nothing",
            Found::At { range, .. } if range.end < document.len() => "found, up to a key",
            Found::At { .. } => "found, up to the end",
            Found::Refused { number, .. } => name(REFUSED + number),
        });
    }
}

/// What is found by the original's answers, for each of up to `most` names that are wanted.
pub fn by_original(document: &[u8], most: usize) -> Vec<Answer> {
    let rows = within_limits(document, parses);
    let keys = keys(document, &rows);
    wanted(document, &keys)
        .into_iter()
        .take(most)
        .map(|wanted| (wanted.to_vec(), found(document, &rows, &keys, wanted)))
        .collect()
}

fn keys(document: &[u8], rows: &[Row]) -> Vec<Key> {
    let (mut indents, mut outdents) = (0, 0);
    let mut keys = Vec::new();
    for row in rows {
        match row.number {
            INDENT => indents += 1,
            OUTDENT => outdents += 1,
            MAP_KEY => keys.push(Key {
                row: *row,
                is_top_level: indents == outdents,
                name: name_of(document, row),
            }),
            _ => {}
        }
    }
    keys
}

/// What is due of a key's text, where it is not refused.
fn name_of(document: &[u8], key: &Row) -> Option<Vec<u8>> {
    let text = str::from_utf8(&document[key.start..key.end]).expect("a token is UTF-8");
    let name = plus::unescape(&Token::MapKey(key.line, text)).ok()?;
    Some(name.into_owned().into_bytes())
}

/// An absent name, a nested one that is no top-level one too, every top-level one, and the bytes
/// as which each top-level key stands in the document.
fn wanted<'doc>(document: &'doc [u8], keys: &'doc [Key]) -> Vec<&'doc [u8]> {
    let (top_level, nested): (Vec<_>, Vec<_>) = keys.iter().partition(|key| key.is_top_level);
    let names: BTreeSet<_> = top_level.iter().filter_map(|key| key.name.as_deref()).collect();
    let bytes = top_level.iter().map(|key| &document[key.row.start..key.row.end]);
    let as_they_stand: BTreeSet<_> = bytes.filter(|bytes| !names.contains(bytes)).collect();
    let nested = nested.into_iter().filter_map(|key| key.name.as_deref());
    let mut wanted = vec![ABSENT];
    wanted.extend(nested.filter(|name| !names.contains(name)).take(1));
    wanted.extend(names);
    wanted.extend(as_they_stand);
    wanted
}

/// The first top-level key with the name `wanted`, up to the next one or the document's end, unless
/// a refusal comes first.
fn found(document: &[u8], rows: &[Row], keys: &[Key], wanted: &[u8]) -> Found {
    let mut top_level = keys.iter().filter(|key| key.is_top_level);
    let key = top_level.find(|key| key.name.as_deref() == Some(wanted));
    let key = key.map(|key| key.row);
    let next = top_level.next().map(|key| key.row);
    // A refusal is the last answer, and so it comes after every key.
    let refusal = rows.last().filter(|row| row.number > REFUSED);
    match (key, next, refusal) {
        (Some(key), Some(next), _) => Found::At {
            line: key.line,
            range: key.start..next.start,
        },
        (_, _, Some(refusal)) => Found::Refused {
            number: refusal.number - REFUSED,
            line: refusal.line,
        },
        (Some(key), None, None) => Found::At {
            line: key.line,
            range: key.start..document.len(),
        },
        (None, _, None) => Found::Nothing,
    }
}
