//! A plus in braces: the original takes `\{+41}`, and the port refuses it (8). So the text of a key or
//! a value is set aside where unescaping comes to an escape `\{+`. What is due of it is what the
//! original says of its twin, the same text with that plus made a letter that is no digit.

use original::{SyntaxError, Token};
use std::borrow::Cow;

const ESCAPE: &str = "\\{+";
const OF_TWIN: &str = "\\{g";

/// What the original says of a text that breaks off behind such an escape, where it comes to it.
const REFUSED: &str = "invalid escape code: \\{+";

/// What is due of a token: what the original says of it, or of its twin with the plus in its place
/// again.
pub fn unescape<'tok>(token: &Token<'tok>) -> Result<Cow<'tok, str>, SyntaxError> {
    let Some(twin) = twin(token) else {
        return token.unescape();
    };
    let twin = Token::Value(token.line_number(), &twin).unescape();
    let SyntaxError { lno, msg } = twin.expect_err("the letter is no digit");
    // The code that is shown begins with the escape.
    let msg = msg.replacen(OF_TWIN, ESCAPE, 1);
    Err(SyntaxError { lno, msg })
}

pub fn is_set_aside(token: &Token) -> bool {
    twin(token).is_some()
}

fn twin(token: &Token) -> Option<String> {
    let (Token::MapKey(_, text) | Token::Value(_, text)) = token else {
        return None;
    };
    let mut escapes = text.match_indices(ESCAPE);
    let (start, _) = escapes.find(|(start, escape)| is_reached(&text[..start + escape.len()]))?;
    let (before, from) = text.split_at(start);
    Some([before, OF_TWIN, &from[ESCAPE.len()..]].concat())
}

/// Whether the original comes to the escape at the end of a text.
fn is_reached(text: &str) -> bool {
    let said = Token::Value(1, text).unescape();
    said.is_err_and(|error| error.msg == REFUSED)
}
