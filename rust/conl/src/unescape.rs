//! What a token's text says.

use crate::error::SyntaxError;
use crate::port::{self, Unescaped};
use crate::token::Token;
use std::borrow::Cow;

impl<'tok> Token<'tok> {
    /// What the text of a key or a value says, without its quotes and with its escapes resolved; or
    /// the lines of a multiline value, without the indentation and joined by LF. A comment's or a
    /// hint's text says what it is, and a token without a text says nothing.
    ///
    /// The escapes are `\"`, `\\`, `\n`, `\r`, `\t`, and `\{h}` for the scalar value that 1 to 8
    /// hexadecimal digits name.
    ///
    /// It is borrowed where it stands in the token's text just so.
    #[inline(always)]
    pub fn unescape(&self) -> Result<Cow<'tok, str>, SyntaxError> {
        let Some((indentation, text)) = self.texts() else {
            return Ok(Cow::Borrowed(""));
        };
        // Most keys and values are plain and need no buffer; most multiline values are written.
        if !matches!(self, Token::MultilineValue(..)) {
            if let Unescaped::Plain(part) = self.unescape_into(indentation, text, &mut []) {
                return Ok(Cow::Borrowed(&text[part]));
            }
        }
        self.unescape_written(indentation, text)
    }

    #[inline(always)]
    fn unescape_into(&self, indentation: &str, text: &str, out: &mut [u8]) -> Unescaped {
        port::unescape_text(
            self.number(),
            self.line_number(),
            text.as_bytes(),
            indentation.as_bytes(),
            out,
        )
    }

    /// The same with a buffer. What is written is never longer than the text: docs/CLAIMS.md, 8,
    /// 'Shorter'.
    #[inline(never)]
    fn unescape_written(
        &self,
        indentation: &'tok str,
        text: &'tok str,
    ) -> Result<Cow<'tok, str>, SyntaxError> {
        let mut out = vec![0; text.len()];
        match self.unescape_into(indentation, text, &mut out) {
            Unescaped::Plain(part) => Ok(Cow::Borrowed(&text[part])),
            Unescaped::Written(len) => {
                out.truncate(len);
                let written = String::from_utf8(out);
                Ok(Cow::Owned(written.expect(
                    "what is written of UTF-8 is UTF-8: docs/CLAIMS.md, claim 4, 'Valid'",
                )))
            }
            Unescaped::Refused {
                number,
                line,
                shown,
            } => Err(SyntaxError::refused(number, line, &text[shown])),
        }
    }
}
