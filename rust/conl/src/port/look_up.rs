//! The look-up of a top-level key.

use std::ops::Range;

extern "C" {
    fn conl_look_up(
        doc: *const u8,
        doc_len: usize,
        wanted: *const u8,
        wanted_len: usize,
        answer: *mut usize,
        answer_len: usize,
    ) -> bool;
}

/// What a look-up finds.
#[derive(Clone, Debug, Eq, PartialEq)]
pub enum Found {
    /// No such key, and the parser refuses nothing.
    Nothing,
    /// The entry of the key on this line: this part of the document.
    At { line: usize, range: Range<usize> },
    /// A refusal comes first.
    Refused { number: usize, line: usize },
}

/// The first top-level entry of `document` whose key's text, unescaped, is `wanted`, up to the next
/// top-level key.
pub fn look_up(document: &[u8], wanted: &[u8]) -> Found {
    let mut answer = [0; 5];
    // SAFETY: each pointer and length are those of one slice. `document` and `wanted` are only read,
    // and nothing else refers to `answer`.
    let answered = unsafe {
        conl_look_up(
            document.as_ptr(),
            document.len(),
            wanted.as_ptr(),
            wanted.len(),
            answer.as_mut_ptr(),
            answer.len(),
        )
    };
    assert!(answered, "an answer of five words is written");
    let [kind, number, line, start, end] = answer;
    match kind {
        0 => Found::Nothing,
        1 => Found::At {
            line,
            range: start..end,
        },
        _ => Found::Refused { number, line },
    }
}
