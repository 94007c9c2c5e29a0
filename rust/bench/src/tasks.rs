//! The tasks: the sum, over all answers, of the line and of a text's length; and a look-up.

use ::conl::port::{Parser, Row, Tokenizer};
use ::conl::Entry;
use ::original::Token;

/// What both sides do with a document. They return the same number, to which each answer adds.
pub struct Task {
    pub name: &'static str,
    pub original: fn(&[u8]) -> usize,
    pub port: fn(&[u8]) -> usize,
}

pub const ALL: [Task; 4] = [
    Task {
        name: "tokenizing",
        original: original::tokenizing,
        port: conl::tokenizing,
    },
    Task {
        name: "parsing",
        original: original::parsing,
        port: conl::parsing,
    },
    Task {
        name: "parsing and unescaping",
        original: original::unescaping,
        port: conl::unescaping,
    },
    Task {
        name: "look-up of an absent name",
        original: |document| entry_len(plain_look_up(document)),
        port: |document| entry_len(::conl::look_up(document, ABSENT).map_err(|error| error.lno)),
    },
];

/// A name that no document has, so that every top-level key is compared with it.
const ABSENT: &[u8] = b"absent";

/// What a look-up finds, in a number: an entry's length, or the line of an error.
fn entry_len(found: Result<Option<Entry>, usize>) -> usize {
    match found {
        Ok(entry) => entry.map_or(0, |entry| entry.text.len()),
        Err(line) => line,
    }
}

/// The look-up over the original, which has none: up to the next top-level key, or to the end.
fn plain_look_up(document: &[u8]) -> Result<Option<Entry<'_>>, usize> {
    let place = |text: &str| text.as_ptr() as usize - document.as_ptr() as usize;
    let mut depth = 0;
    let mut hit = None;
    for answer in ::original::parse(document) {
        match answer.map_err(|error| error.lno)? {
            Token::Indent(_) => depth += 1,
            Token::Outdent(_) => depth -= 1,
            Token::MapKey(lno, text) if depth == 0 => {
                if let Some((lno, start)) = hit {
                    let text = &document[start..place(text)];
                    return Ok(Some(Entry { lno, text }));
                }
                let name = Token::MapKey(lno, text).unescape();
                if name.is_ok_and(|name| name.as_bytes() == ABSENT) {
                    hit = Some((lno, place(text)));
                }
            }
            _ => {}
        }
    }
    Ok(hit.map(|(lno, start)| Entry {
        lno,
        text: &document[start..],
    }))
}

/// The same where the library is called for each answer.
pub const ONE_ROW: [Task; 2] = [
    Task {
        name: "tokenizing, one row a call",
        original: original::tokenizing,
        port: |document| sum_of_rows(Tokenizer::<1>::new(document)),
    },
    Task {
        name: "parsing, one row a call",
        original: original::parsing,
        port: |document| sum_of_rows(Parser::<1>::new(document)),
    },
];

fn sum_of_rows(rows: impl Iterator<Item = Row>) -> usize {
    rows.map(|row| row.line + (row.end - row.start)).sum()
}

/// The tasks by one library. The two have one interface, and so the same lines serve for both.
macro_rules! tasks_by {
    ($library:ident) => {
        mod $library {
            use ::$library::{parse, tokenize, SyntaxError, Token};

            pub fn tokenizing(document: &[u8]) -> usize {
                sum(tokenize(document), text_len)
            }

            pub fn parsing(document: &[u8]) -> usize {
                sum(parse(document), text_len)
            }

            pub fn unescaping(document: &[u8]) -> usize {
                sum(parse(document), unescaped_len)
            }

            fn sum<'doc>(
                answers: impl Iterator<Item = Result<Token<'doc>, SyntaxError>>,
                len: impl Fn(&Token) -> usize,
            ) -> usize {
                answers
                    .map(|answer| match answer {
                        Ok(token) => token.line_number() + len(&token),
                        Err(error) => error.lno,
                    })
                    .sum()
            }

            fn text_len(token: &Token) -> usize {
                match token {
                    Token::Comment(_, text)
                    | Token::MapKey(_, text)
                    | Token::Value(_, text)
                    | Token::MultilineHint(_, text)
                    | Token::MultilineValue(_, _, text) => text.len(),
                    _ => 0,
                }
            }

            fn unescaped_len(token: &Token) -> usize {
                match token.unescape() {
                    Ok(text) => text.len(),
                    Err(error) => error.lno,
                }
            }
        }
    };
}

tasks_by!(original);
tasks_by!(conl);
