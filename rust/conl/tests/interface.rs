//! Holds the crate against the original: the same program, compiled with either, tells the same.
#![forbid(unsafe_code)]

mod documents;

use std::fmt::Debug;

/// How many bytes a document may have, and how many sections may be open.
const BYTES: usize = 16_777_216;
const SECTIONS: usize = 64;

/// A program that uses every item of `$library` and tells what it sees.
macro_rules! program {
    ($library:ident) => {
        pub mod $library {
            use crate::{in_full, place};
            use std::borrow::Cow;
            use std::fmt::{Debug, Display};
            use std::panic::{RefUnwindSafe, UnwindSafe};
            use $library::{parse, tokenize, Parser, SyntaxError, Token, Tokenizer};

            pub fn tokenized(document: &[u8]) -> String {
                let tokenizer: Tokenizer<'_> = tokenize(document);
                answers(document, tokenizer)
            }

            pub fn parsed(document: &[u8]) -> String {
                let parser: Parser<'_> = parse(document);
                answers(document, parser)
            }

            /// Every answer, and what comes after the end.
            fn answers<'tok>(
                document: &'tok [u8],
                mut reader: impl Iterator<Item = Result<Token<'tok>, SyntaxError>>,
            ) -> String {
                let mut told = in_full(&reader.size_hint());
                while let Some(answer) = reader.next() {
                    told += &in_full(&answer);
                    told += &match &answer {
                        Ok(token) => of_token(document, token),
                        Err(error) => of_error(error),
                    };
                }
                told + &in_full(&[reader.next(), reader.next(), reader.next()])
            }

            fn of_token(document: &[u8], token: &Token<'_>) -> String {
                let (lno, texts) = match token.clone() {
                    Token::Newline(lno)
                    | Token::Indent(lno)
                    | Token::Outdent(lno)
                    | Token::ListItem(lno)
                    | Token::NoValue(lno) => (lno, vec![]),
                    Token::Comment(lno, text)
                    | Token::MapKey(lno, text)
                    | Token::Value(lno, text)
                    | Token::MultilineHint(lno, text) => (lno, vec![text]),
                    Token::MultilineValue(lno, indentation, text) => (lno, vec![indentation, text]),
                };
                assert_eq!(lno, token.line_number());
                assert!(*token == token.clone());
                let places: Vec<_> = texts.iter().map(|text| place(document, text)).collect();
                in_full(&(places, token.name(), unescaped(document, token)))
            }

            fn unescaped(document: &[u8], token: &Token<'_>) -> String {
                match token.unescape() {
                    Ok(Cow::Borrowed("")) => in_full(&"borrowed, and empty"),
                    Ok(Cow::Borrowed(text)) => in_full(&("borrowed", text, place(document, text))),
                    Ok(Cow::Owned(text)) => in_full(&("owned", text)),
                    Err(error) => of_error(&error),
                }
            }

            fn of_error(error: &SyntaxError) -> String {
                let SyntaxError { lno, msg } = error;
                in_full(&(lno, msg, error.to_string(), error))
            }

            /// Tokens of every kind, made by hand.
            pub fn made(lno: usize, indentation: &str, text: &str) -> String {
                let tokens = [
                    Token::Newline(lno),
                    Token::Comment(lno, text),
                    Token::Indent(lno),
                    Token::Outdent(lno),
                    Token::ListItem(lno),
                    Token::MapKey(lno, text),
                    Token::Value(lno, text),
                    Token::MultilineHint(lno, text),
                    Token::MultilineValue(lno, indentation, text),
                    Token::NoValue(lno),
                ];
                let told = tokens.map(|token| of_token(text.as_bytes(), &token));
                told.concat()
            }

            /// A text outlives the token that it is borrowed from.
            fn text_of_value<'tok>(text: &'tok str) -> Cow<'tok, str> {
                let token = Token::Value(1, text);
                token.unescape().unwrap()
            }

            /// A reader of what lives long is a reader of what lives for less.
            fn shortened<'tok>(
                tokenizer: Tokenizer<'static>,
                parser: Parser<'static>,
                token: Token<'static>,
            ) -> (Tokenizer<'tok>, Parser<'tok>, Token<'tok>) {
                (tokenizer, parser, token)
            }

            pub fn use_lifetimes_and_traits() {
                assert_eq!(text_of_value("\"a\\tb\""), "a\tb");
                let (tokenizer, parser, token) =
                    shortened(tokenize(b"a"), parse(b"a"), Token::NoValue(1));
                let counted = (tokenizer.count(), parser.count(), token.line_number());
                assert_eq!(counted, (1, 2, 1));

                fn every<T: Send + Sync + Unpin + UnwindSafe + RefUnwindSafe>() {}
                fn compared<T: Clone + Debug + Eq>() {}
                fn shown<T: Debug + Display>() {}
                every::<Token<'_>>();
                every::<SyntaxError>();
                every::<Tokenizer<'_>>();
                every::<Parser<'_>>();
                compared::<Token<'_>>();
                shown::<SyntaxError>();
            }
        }
    };
}

mod programs {
    program!(conl);
    program!(original);
}

fn in_full(seen: &impl Debug) -> String {
    format!("{seen:?}\n")
}

/// Where `text` stands in `document`, if it does.
fn place(document: &[u8], text: &str) -> Option<usize> {
    let place = (text.as_ptr() as usize).checked_sub(document.as_ptr() as usize)?;
    (place + text.len() <= document.len()).then_some(place)
}

/// Both libraries say the same of `document`.
fn reads_alike(document: &[u8]) {
    let shown = document[..document.len().min(200)].escape_ascii();
    assert_eq!(
        programs::conl::tokenized(document),
        programs::original::tokenized(document),
        "tokenize of \"{shown}\""
    );
    assert_eq!(
        programs::conl::parsed(document),
        programs::original::parsed(document),
        "parse of \"{shown}\""
    );
}

#[test]
fn documents_of_every_sort() {
    for document in documents::ALL {
        reads_alike(document);
    }
}

#[test]
fn documents_of_up_to_three_bytes() {
    const BYTES: [u8; 16] = *b" \t\r\n;=\"\\ax\xC3\xA9\xFF{}\x80";
    let mut documents = vec![vec![]];
    for _ in 0..3 {
        let longer = |document: &Vec<u8>| BYTES.map(|byte| [&document[..], &[byte]].concat());
        documents = documents.iter().flat_map(longer).collect();
        documents.iter().for_each(|document| reads_alike(document));
    }
}

#[test]
fn documents_joined() {
    for above in documents::ALL {
        for below in documents::ALL {
            reads_alike(&[above, b"\n", below].concat());
        }
    }
}

/// More answers than are fetched at a time.
#[test]
fn long_documents() {
    for count in [63, 64, 65, 127, 128, 129, 1000] {
        for entry in [
            "a = 1\n",
            "a\n  = \"\\n\" ; c\n",
            "a = \"\"\"\n  x\n\n  y\n",
            "\n",
        ] {
            let document = entry.repeat(count);
            reads_alike(document.as_bytes());
            reads_alike((document.clone() + " = ").as_bytes());
            reads_alike((document + "a\n = 1\n a\n\n").as_bytes());
        }
    }
}

/// Sections in sections: each line of the document opens one.
fn nested(depth: usize) -> String {
    (0..=depth)
        .map(|indent| " ".repeat(indent) + "a\n")
        .collect()
}

#[test]
fn as_many_sections_as_may_be_open() {
    reads_alike(nested(SECTIONS).as_bytes());
    reads_alike((nested(SECTIONS) + "b = 1").as_bytes());
}

#[test]
fn a_section_too_many() {
    let document = nested(SECTIONS + 1) + "b = 1";
    let message = "66: more than 64 sections are open";
    let opens = |answer: &String| answer == "Ok(Indent(66))";

    let original: Vec<_> = original::tokenize(document.as_bytes()).map(told).collect();
    let port: Vec<_> = conl::tokenize(document.as_bytes()).map(told).collect();
    let at = original.iter().position(opens).unwrap();
    assert_eq!(port[..at], original[..at]);
    assert_eq!(port[at], message);
    // The rest of the line is passed over, and the sections close one after another.
    assert_eq!(port[at + 1], "Ok(Newline(66))");
    assert_eq!(
        port[at + 2..][..SECTIONS],
        vec!["Ok(Outdent(67))"; SECTIONS]
    );
    assert_eq!(
        port[at + 2 + SECTIONS..],
        ["Ok(MapKey(67, \"b\"))", "Ok(Value(67, \"1\"))"]
    );

    let original: Vec<_> = original::parse(document.as_bytes()).map(told).collect();
    let port: Vec<_> = conl::parse(document.as_bytes()).map(told).collect();
    let at = original.iter().position(opens).unwrap();
    assert_eq!(port[..at], original[..at]);
    assert_eq!(port[at..], [message]);
}

/// A token in full, or an error as it is shown.
fn told(answer: Result<impl Debug, impl ToString>) -> String {
    match answer {
        Ok(token) => format!("Ok({token:?})"),
        Err(error) => error.to_string(),
    }
}

#[test]
fn as_long_as_a_document_may_be() {
    let mut document = b"a = 1\n b".to_vec();
    document.resize(BYTES, b' ');
    reads_alike(&document);
}

#[test]
fn a_document_too_long() {
    let document = vec![b';'; BYTES + 1];
    let message = ["0: more than 16777216 bytes"];
    assert_eq!(
        conl::tokenize(&document).map(told).collect::<Vec<_>>(),
        message
    );
    assert_eq!(
        conl::parse(&document).map(told).collect::<Vec<_>>(),
        message
    );
}

const TEXTS: [&str; 40] = [
    "",
    " ",
    "a",
    " a ",
    "a b",
    "漢字",
    "\"",
    "\"\"",
    "\"\"\"",
    "\"a\"",
    "\"é\"",
    "\"a",
    "a\"",
    "\"a\"b",
    "\"a\" ",
    "\"\\\"",
    "\"\\\"\"",
    "\"\\\\\"",
    "\"\\",
    "\"\\n\\r\\t\"",
    "\"\\{41}\"",
    "\"\\{1F600}😀\"",
    "\"\\{g41}\"",
    "\"\\{D800}\"",
    "\"\\{\"",
    "\"\\{é\u{301}",
    "\"\\é\"",
    "\"\n\"",
    "\n",
    "\r",
    "\r\n",
    "\n\r",
    "\r\r\n\n",
    "a\nb",
    "a\n  b",
    "  a\n  b\r\n \r  c\r\n",
    "\n  \n\t\n    a\n",
    "漢\n  字\r",
    "a\r\n\r\n  é\r\r  b",
    "éa\néb\n漢\n",
];

const INDENTATIONS: [&str; 11] = [
    "", " ", "  ", "\t", " \t", "        ", "a", "é", "\n", "\r\n", "a\n  b",
];

#[test]
fn tokens_made_by_hand() {
    for text in TEXTS {
        for indentation in INDENTATIONS {
            for lno in [0, 1, usize::MAX] {
                made_alike(lno, indentation, text);
            }
            // One behind the other, in one piece of memory.
            let joined = indentation.to_owned() + text;
            let (indentation, text) = joined.split_at(indentation.len());
            made_alike(1, indentation, text);
        }
    }
    for text in TEXTS {
        for other in TEXTS {
            made_alike(1, other, text);
            made_alike(1, " ", &(text.to_owned() + other));
        }
    }
}

/// A plus in braces, where unescaping comes to it, is refused as the original refuses a letter there.
#[test]
fn a_plus_in_braces() {
    let text = "\"a\\{41}\\{+41}\"";
    let twin = text.replace('+', "g");
    let port = conl::Token::Value(7, text).unescape().unwrap_err();
    let original = original::Token::Value(7, &twin).unescape().unwrap_err();
    assert_eq!(port.to_string(), "7: invalid escape code: \\{+41}");
    assert_eq!(original.to_string(), "7: invalid escape code: \\{g41}");

    for text in [
        "\\{+41}",
        "\"\\\\{+41}\"",
        "\"a\"\\{+41}",
        "\"\\x\\{+41}\"",
        "\"\\{4\\{+1}\"",
        "\"\\{+}\"",
        "\"\\{+g}\"",
        "\"\\{+",
    ] {
        made_alike(1, "", text);
    }
}

#[test]
fn tokens_of_up_to_four_characters() {
    const CHARACTERS: [char; 9] = ['"', '\\', '{', '}', '4', 'n', 'é', '\r', '\n'];
    let mut texts = vec![String::new()];
    for _ in 0..4 {
        let longer = |text: &String| CHARACTERS.map(|character| format!("{text}{character}"));
        texts = texts.iter().flat_map(longer).collect();
        for text in &texts {
            made_alike(1, "n", text);
            made_alike(1, "é", &format!("\"{text}"));
        }
    }
}

fn made_alike(lno: usize, indentation: &str, text: &str) {
    assert_eq!(
        programs::conl::made(lno, indentation, text),
        programs::original::made(lno, indentation, text),
        "tokens of {indentation:?} and {text:?}"
    );
}

#[test]
fn a_token_too_long() {
    use conl::Token;
    let longest = "x".repeat(BYTES);
    let longer = "x".repeat(BYTES + 1);
    let text = |token: Token| token.unescape().map(|text| text.len());
    for token in [
        Token::Value(7, &longest),
        Token::MultilineValue(7, "xx", &longest),
        Token::MultilineValue(7, &longest, &longest),
    ] {
        assert_eq!(text(token).unwrap(), BYTES);
    }
    for token in [
        Token::Value(7, &longer),
        Token::Comment(7, &longer),
        Token::MultilineValue(7, "x", &longer),
        Token::MultilineValue(7, &longer, "x"),
    ] {
        let refused = text(token).unwrap_err().to_string();
        assert_eq!(refused, "0: more than 16777216 bytes");
    }
}

#[test]
fn lifetimes_and_traits() {
    programs::conl::use_lifetimes_and_traits();
    programs::original::use_lifetimes_and_traits();
}
