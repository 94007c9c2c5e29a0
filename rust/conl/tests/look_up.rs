//! Holds the look-up against its rule, which is written here over the original's tokens.
#![forbid(unsafe_code)]

mod documents;

use conl::look_up;
use original::Token;
use std::borrow::Cow;

/// The line and the text of an entry, or an error as it is shown.
type Answer<'doc> = Result<Option<(usize, &'doc [u8])>, String>;

fn by_port<'doc>(document: &'doc [u8], name: &[u8]) -> Answer<'doc> {
    let entry = look_up(document, name).map_err(|error| error.to_string())?;
    Ok(entry.map(|entry| (entry.lno, entry.text)))
}

/// From the first top-level key whose text, unescaped, is `name` to the next top-level key, or to the
/// end.
fn by_rule<'doc>(document: &'doc [u8], name: &[u8]) -> Answer<'doc> {
    let mut depth = 0;
    let mut found = None;
    for token in original::parse(document) {
        match token.map_err(|error| error.to_string())? {
            Token::Indent(_) => depth += 1,
            Token::Outdent(_) => depth -= 1,
            Token::MapKey(lno, text) if depth == 0 => {
                let place = text.as_ptr() as usize - document.as_ptr() as usize;
                let unescaped = Token::MapKey(lno, text).unescape();
                match found {
                    Some((lno, start)) => return Ok(Some((lno, &document[start..place]))),
                    None if unescaped.is_ok_and(|text| text.as_bytes() == name) => {
                        found = Some((lno, place));
                    }
                    None => {}
                }
            }
            _ => {}
        }
    }
    Ok(found.map(|(lno, start)| (lno, &document[start..])))
}

/// Looks up each key of the document, at whatever depth, by its text as it stands and unescaped, and
/// some names that it may lack.
fn looks_up_alike(document: &[u8]) {
    let mut names: Vec<_> = ["", "a", "b", "ab", "\"a\"", "漢"].map(Cow::from).into();
    for token in original::tokenize(document).flatten() {
        if let Token::MapKey(_, text) = token {
            names.push(text.into());
            names.extend(token.unescape());
        }
    }
    for name in names {
        assert_eq!(
            by_port(document, name.as_bytes()),
            by_rule(document, name.as_bytes()),
            "{name:?} in \"{}\"",
            document.escape_ascii()
        );
    }
}

#[test]
fn every_key() {
    for document in documents::ALL {
        looks_up_alike(document);
        for below in documents::ALL {
            looks_up_alike(&[document, b"\n", below].concat());
        }
    }
}

#[test]
fn entries() {
    let document = b"; c\na = 1 ; d\n\nb\n  a = 2\n  c = 3\n\na = 4\n";
    assert_eq!(
        by_port(document, b"a"),
        Ok(Some((2, &b"a = 1 ; d\n\n"[..])))
    );
    assert_eq!(
        by_port(document, b"b"),
        Ok(Some((4, &b"b\n  a = 2\n  c = 3\n\n"[..])))
    );
    assert_eq!(by_port(document, b"c"), Ok(None));
    assert_eq!(by_port(document, b""), Ok(None));
    assert_eq!(by_port(b"a = 1", b"a"), Ok(Some((1, &b"a = 1"[..]))));
    assert_eq!(by_port(b"", b"a"), Ok(None));
    assert_eq!(by_port(b"= a\n= b", b"a"), Ok(None));
    assert_eq!(by_port(b"a = 1", b"\xFF"), Ok(None));
}

/// A key is its text: quotes and escapes are none of its name, and a key that is refused has none.
#[test]
fn names() {
    let document = b"\"width\" = 40";
    assert_eq!(by_port(document, b"width"), Ok(Some((1, &document[..]))));
    assert_eq!(by_port(document, b"\"width\""), Ok(None));
    let document = br#""\{61}"=1"#;
    assert_eq!(by_port(document, b"a"), Ok(Some((1, &document[..]))));
    let document = b"\"\"=1";
    assert_eq!(by_port(document, b""), Ok(Some((1, &document[..]))));
    let document = b"\"\\q\"=1\na=2";
    assert_eq!(by_port(document, b""), Ok(None));
    assert_eq!(by_port(document, b"a"), Ok(Some((2, &b"a=2"[..]))));
    let document = b"a=1\n\"a\"=2";
    assert_eq!(by_port(document, b"a"), Ok(Some((1, &b"a=1\n"[..]))));
}

/// A plus is no digit, so a key with one in braces has no name, where the original has one.
#[test]
fn plus_in_braces() {
    let document = br#""\{+61}"=1"#;
    assert_eq!(by_port(document, b"a"), Ok(None));
    assert_ne!(by_rule(document, b"a"), Ok(None));
}

/// An error is the answer where it is met before the entry's end, and not behind it.
#[test]
fn errors() {
    assert_eq!(
        by_port(b"a=1\n b", b"a"),
        Err("2: unexpected indent".to_owned())
    );
    assert_eq!(by_port(b"a=1\nb\n=", b"a"), Ok(Some((1, &b"a=1\n"[..]))));
    assert_eq!(
        by_port(b"a=1\nb\n=", b"b"),
        Err("3: unexpected list item".to_owned())
    );
    assert_eq!(
        by_port(b"a=1\nb\n=", b"c"),
        Err("3: unexpected list item".to_owned())
    );

    let too_long = vec![b' '; 16_777_217];
    assert_eq!(
        by_port(&too_long, b"a"),
        Err("0: more than 16777216 bytes".to_owned())
    );
}
