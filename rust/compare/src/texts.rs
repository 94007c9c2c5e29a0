//! The texts that comparisons go through, and how a text and its parts are told.

use crate::random::Random;
use std::array;
use std::ops::Range;
use std::str;

/// The ends of the ranges in Unicode's Table 3-7 and the bytes beside them; a letter, the blanks
/// and the line breaks.
const RANGE_ENDS: [u8; 29] = [
    0x00, 0x7F, 0x80, 0x8F, 0x90, 0x9F, 0xA0, 0xBF, 0xC0, 0xC1, 0xC2, 0xDF, 0xE0, 0xE1, 0xEC, 0xED,
    0xEE, 0xEF, 0xF0, 0xF1, 0xF3, 0xF4, 0xF5, 0xFF, b'A', b' ', b'\t', b'\r', b'\n',
];

/// How many random texts a comparison goes through, and how many bytes such a text may have.
const RANDOM_TEXTS: usize = 200_000;
const RANDOM_BYTES: usize = 256;

/// Hands to `each` every text of up to three bytes, every text of up to four bytes at the range
/// ends, and random longer ones.
pub fn arbitrary(each: &mut impl FnMut(&[u8])) {
    every(&array::from_fn::<_, 256, _>(|byte| [byte as u8]), 3, each);
    range_ends(each);
    let mut mixed = Mixed::new();
    for _ in 0..RANDOM_TEXTS {
        each(&mixed.text(RANDOM_BYTES));
    }
}

/// Hands to `each` every text of up to four bytes at the range ends.
pub fn range_ends(each: &mut impl FnMut(&[u8])) {
    every(&RANGE_ENDS.map(|byte| [byte]), 4, each);
}

/// Hands to `each` every text of at most `most` bytes that is put together from `units`.
pub fn every(units: &[impl AsRef<[u8]>], most: usize, each: &mut impl FnMut(&[u8])) {
    extend(&mut Vec::new(), units, most, each);
}

fn extend(
    text: &mut Vec<u8>,
    units: &[impl AsRef<[u8]>],
    most: usize,
    each: &mut impl FnMut(&[u8]),
) {
    each(text);
    let len = text.len();
    if len == most {
        return;
    }
    for unit in units {
        text.extend_from_slice(unit.as_ref());
        if text.len() <= most {
            extend(text, units, most, each);
        }
        text.truncate(len);
    }
}

/// Random texts: runs of characters at the range ends, with stray bytes between them now and then.
pub struct Mixed {
    random: Random,
    /// The characters of one byte, of two, of three and of four.
    characters: [Vec<Vec<u8>>; 4],
}

impl Mixed {
    pub fn new() -> Self {
        let mut characters = [const { Vec::new() }; 4];
        range_ends(&mut |text| {
            if str::from_utf8(text).is_ok_and(|text| text.chars().count() == 1) {
                characters[text.len() - 1].push(text.to_vec());
            }
        });
        Mixed {
            random: Random::new(),
            characters,
        }
    }

    /// A text of at most `most` bytes, whose last character may be cut short.
    pub fn text(&mut self, most: usize) -> Vec<u8> {
        let len = self.random.below(most + 1);
        let mut text = Vec::new();
        while text.len() < len {
            text.extend(self.piece());
        }
        text.truncate(len);
        text
    }

    /// One time in sixteen up to four bytes as they come, else a character up to eight times.
    fn piece(&mut self) -> Vec<u8> {
        if self.random.below(16) == 0 {
            let len = 1 + self.random.below(4);
            (0..len).map(|_| self.random.pick(&RANGE_ENDS)).collect()
        } else {
            let of_one_length = &self.characters[self.random.below(4)];
            let character = &of_one_length[self.random.below(of_one_length.len())];
            character.repeat(1 + self.random.below(8))
        }
    }
}

/// Where `part`, which lies in `whole`, starts and ends there.
pub fn place(whole: &[u8], part: &str) -> Range<usize> {
    let start = part.as_ptr() as usize - whole.as_ptr() as usize;
    start..start + part.len()
}

/// `x`, then the bytes of `text` in hexadecimal.
pub fn hex(text: &[u8]) -> String {
    let digits = text.iter().map(|byte| format!("{byte:02x}"));
    format!("x{}", digits.collect::<String>())
}
