//! Unescaping.

use super::rows::Row;
use std::ops::Range;

extern "C" {
    fn conl_unescape(
        doc: *const u8,
        doc_len: usize,
        row: *const usize,
        row_len: usize,
        out: *mut u8,
        out_len: usize,
        answer: *mut usize,
        answer_len: usize,
    ) -> bool;
    fn conl_unescape_text(
        kind: usize,
        line: usize,
        text: *const u8,
        text_len: usize,
        indent: *const u8,
        indent_len: usize,
        out: *mut u8,
        out_len: usize,
        answer: *mut usize,
        answer_len: usize,
    ) -> bool;
}

/// The text of a token.
#[derive(Clone, Debug, Eq, PartialEq)]
pub enum Unescaped {
    /// It is this part of what was given: of the document, or of the text.
    Plain(Range<usize>),
    /// It was written: so many bytes at the front of the buffer.
    Written(usize),
    /// It is refused. Number 8 shows a part of what was given, any other 0..0.
    Refused {
        number: usize,
        line: usize,
        shown: Range<usize>,
    },
}

impl From<[usize; 5]> for Unescaped {
    #[inline(always)]
    fn from([kind, number, line, start, end]: [usize; 5]) -> Self {
        match kind {
            0 => Unescaped::Plain(start..end),
            1 => Unescaped::Written(end),
            _ => Unescaped::Refused {
                number,
                line,
                shown: start..end,
            },
        }
    }
}

/// The text of the token in `row`, which is one of `document`'s. A text that is no part of the
/// document is written at the front of `out`, whose other bytes stay as they are. A token whose parts
/// are none of the document's, or no UTF-8, is refused by number 13.
///
/// # Panics
///
/// Where `row.number` is no token's, 1 to 10: where it is 0, over 10, or a refusal's. It panics for
/// no other reason, whatever the document, the row and the buffer.
pub fn unescape(document: &[u8], row: &Row, out: &mut [u8]) -> Unescaped {
    let row = row.words();
    let mut answer = [0; 5];
    // SAFETY: each pointer and length are those of one slice. `document` and `row` are only read,
    // and nothing else refers to `out` or `answer`.
    let answered = unsafe {
        conl_unescape(
            document.as_ptr(),
            document.len(),
            row.as_ptr(),
            row.len(),
            out.as_mut_ptr(),
            out.len(),
            answer.as_mut_ptr(),
            answer.len(),
        )
    };
    assert!(answered, "the row {row:?} is a token's");
    Unescaped::from(answer)
}

/// The same of a text that stands in no document: that of a token of this kind (see [Row::number])
/// and line, with the indentation of a multiline value. Places are counted from the text's start. The
/// text and the indentation are not tested for UTF-8, and nothing is refused by number 13.
///
/// # Panics
///
/// Where `kind` is no token's, 1 to 10.
#[inline(always)]
pub fn unescape_text(
    kind: usize,
    line: usize,
    text: &[u8],
    indentation: &[u8],
    out: &mut [u8],
) -> Unescaped {
    let mut answer = [0; 5];
    // SAFETY: each pointer and length are those of one slice. `text` and `indentation` are only
    // read, and nothing else refers to `out` or `answer`.
    let answered = unsafe {
        conl_unescape_text(
            kind,
            line,
            text.as_ptr(),
            text.len(),
            indentation.as_ptr(),
            indentation.len(),
            out.as_mut_ptr(),
            out.len(),
            answer.as_mut_ptr(),
            answer.len(),
        )
    };
    assert!(answered, "{kind} is a token's kind");
    Unescaped::from(answer)
}
