//! The ways in which a server reads a document, with the original and with the crate `conl`.

use crate::look_ups;
use crate::plus;
use crate::texts::place;
use conl::port::{self, Found};
use std::iter;
use std::panic;

/// How many keys of a document are looked up: each look-up reads it from its start.
const LOOK_UPS: usize = 16;

/// How many characters of an answer are shown.
const SHOWN: usize = 300;

/// What a side says of a document, each answer in words.
type Told<'doc> = Box<dyn Iterator<Item = String> + 'doc>;

/// Two readings that are to be the same, and what they are called.
pub struct Way {
    name: &'static str,
    original: fn(&[u8]) -> Told<'_>,
    port: fn(&[u8]) -> Told<'_>,
}

pub const WAYS: [Way; 3] = [
    Way {
        name: "tokenize",
        original: by_original::tokenized,
        port: by_port::tokenized,
    },
    Way {
        name: "parse",
        original: by_original::parsed,
        port: by_port::parsed,
    },
    Way {
        name: "look-up",
        original: looked_up_by_original,
        port: looked_up_by_port,
    },
];

/// The same program, compiled with either library: each token with its name, its line, the places of
/// its texts and what it unescapes to; each error.
macro_rules! told_by {
    ($told:ident, $library:ident, $unescape:expr) => {
        mod $told {
            use super::{places, Told};
            use $library::{parse, tokenize, SyntaxError, Token};

            pub fn tokenized(document: &[u8]) -> Told<'_> {
                Box::new(tokenize(document).map(|said| told(document, said)))
            }

            pub fn parsed(document: &[u8]) -> Told<'_> {
                Box::new(parse(document).map(|said| told(document, said)))
            }

            fn told(document: &[u8], said: Result<Token, SyntaxError>) -> String {
                let token = match said {
                    Ok(token) => token,
                    Err(error) => return format!("{error:?}, {error}"),
                };
                let texts = match token {
                    Token::Newline(_)
                    | Token::Indent(_)
                    | Token::Outdent(_)
                    | Token::ListItem(_)
                    | Token::NoValue(_) => vec![],
                    Token::Comment(_, text)
                    | Token::MapKey(_, text)
                    | Token::Value(_, text)
                    | Token::MultilineHint(_, text) => vec![text],
                    Token::MultilineValue(_, indentation, text) => vec![indentation, text],
                };
                let (name, line) = (token.name(), token.line_number());
                let places = places(document, &texts);
                let text = $unescape(&token);
                format!("{token:?}, a {name} on line {line}, at {places}, says {text:?}")
            }
        }
    };
}

told_by!(by_original, original, super::plus::unescape);
told_by!(by_port, conl, Token::unescape);

fn places(document: &[u8], texts: &[&str]) -> String {
    let places = texts.iter().map(|text| place(document, text));
    format!("{:?}", places.collect::<Vec<_>>())
}

fn looked_up_by_original(document: &[u8]) -> Told<'_> {
    let answers = look_ups::by_original(document, LOOK_UPS).into_iter();
    Box::new(answers.map(|(wanted, found)| look_up_told(&wanted, &found)))
}

fn looked_up_by_port(document: &[u8]) -> Told<'_> {
    let answers = look_ups::by_original(document, LOOK_UPS).into_iter();
    Box::new(answers.map(|(wanted, _)| look_up_told(&wanted, &port::look_up(document, &wanted))))
}

fn look_up_told(wanted: &[u8], found: &Found) -> String {
    format!("key \"{}\", {found:?}", wanted.escape_ascii())
}

impl Way {
    /// The first answer that is not the same, or that one side does not give.
    pub fn difference(&self, document: &[u8]) -> Option<String> {
        let name = self.name;
        let found = panic::catch_unwind(|| {
            let mut original = (self.original)(document);
            let mut port = (self.port)(document);
            let mut both = iter::repeat_with(|| (original.next(), port.next()))
                .take_while(|both| *both != (None, None))
                .enumerate();
            both.find(|(_, (original, port))| original != port)
        });
        let Ok(found) = found else {
            return Some(format!("{name}: a panic, told on standard error"));
        };
        let (at, (original, port)) = found?;
        let number = at + 1;
        let (original, port) = (shown(original), shown(port));
        Some(format!(
            "{name}, answer {number}: original: {original}; conl: {port}"
        ))
    }
}

fn shown(said: Option<String>) -> String {
    match said {
        Some(said) => said.chars().take(SHOWN).collect(),
        None => "nothing more".into(),
    }
}
