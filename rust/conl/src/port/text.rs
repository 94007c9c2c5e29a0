//! UTF-8 and trimming.

use std::ops::Range;

extern "C" {
    fn conl_is_utf8(s: *const u8, s_len: usize) -> bool;
    fn conl_trim(
        s: *const u8,
        s_len: usize,
        breaks: bool,
        part: *mut usize,
        part_len: usize,
    ) -> bool;
}

/// Which bytes [trim] drops.
#[derive(Clone, Copy, Debug, Eq, PartialEq)]
pub enum Trim {
    /// Spaces and tabs.
    Blanks,
    /// Spaces, tabs, CR and LF.
    BlanksAndBreaks,
}

/// Whether `text` is well-formed UTF-8.
pub fn is_utf8(text: &[u8]) -> bool {
    // SAFETY: the pointer and the length are those of `text`, which is only read.
    unsafe { conl_is_utf8(text.as_ptr(), text.len()) }
}

/// The part of `text` without the bytes that `which` names at both ends: the empty part at the
/// start where there are no others.
pub fn trim(text: &[u8], which: Trim) -> Range<usize> {
    let breaks = which == Trim::BlanksAndBreaks;
    let mut part = [0; 2];
    // SAFETY: the first pointer and length are those of `text`, which is only read; the others are
    // those of `part`, which nothing else refers to.
    let written = unsafe {
        conl_trim(
            text.as_ptr(),
            text.len(),
            breaks,
            part.as_mut_ptr(),
            part.len(),
        )
    };
    assert!(written, "a part of two elements is written");
    part[0]..part[1]
}
