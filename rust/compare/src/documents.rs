//! The documents that comparisons of whole readings go through.

use crate::random::Random;
use crate::spend::{Spend, Spent};
use crate::structured;
use crate::texts::every;

/// How many bytes a document may have.
pub const LIMIT: usize = 16_777_216;

/// Each byte that the rules name, and some that make and break UTF-8.
const ALPHABET: [u8; 16] = *b" \t\r\n;=\"\\ax\xC3\xA9\xFF{}\x80";

/// How many bytes of the alphabet are put together at random.
const JUMBLED_BYTES: usize = 16;

/// How long a comment is in which each byte stands at each place: its end is looked for by sixteen bytes at
/// a time.
const COMMENT: usize = 40;

/// How deep sections are nested: about as deep as the port lets them be.
const DEPTHS: [usize; 4] = [63, 64, 65, 66];

/// By what each nested section is indented more: spaces, tabs, both.
const STEPS: [&[&str]; 4] = [&[" "], &["\t"], &[" ", "\t"], &["  ", "\t", " \t", "\t "]];

/// How many documents there are for each depth and each indentation.
const NESTED: usize = 200;

/// A plus in braces: where unescaping comes to it, and where it does not.
const PLUSES: [&str; 8] = [
    "a\n  \"\\{+41}b\" = \"c\\{41}\\{+42}\" ; d\n",
    "= \"\\{+110000}\"\n= \"\\{+}\"\n= \"\\{+\"\n= \"\\{+41",
    "= \"\\{4+1}\"\n= \"\\{-41}\"\n= \"\\{++1}\"\n= \"\\{+g}\"",
    "a = \"\\\\{+41}\"\nb = \"\\x\\{+41}\"\nc = \"\\{4\\{+1}\"",
    "a = \"\\{+00000041}\"\nb = \"\\{+0000041}\"\nc = \"\\{+é}\"",
    "a = b\\{+41}\nc\\{+41} = \"d\"\\{+41}",
    "; \"\\{+41}\"\n= \"\"\"\\{+41}\n  \"\\{+41}\"\n",
    "\"\\{+41}\"\n\"\\{+41}\" = 2\nA = 3\n",
];

/// What documents at the limit repeat: an entry of each sort, a map that the parser accepts, one long
/// key, one long comment.
const REPEATED: [&str; 4] = [
    "key = \"a \\\" b\" ; ключ\r\n= plain text\n漢字\n  = \"\"\"hint\n\ta\n\n\tb\n",
    "key = \"a \\\" b\" ; ключ\r\n漢字\n  = plain text\n  =\n  = \"\"\"hint\n    a\n\n     b\n",
    "a",
    ";",
];

/// How far a comparison goes.
#[derive(Clone, Copy)]
pub struct Extent {
    /// Up to how many bytes every document over the alphabet is tried.
    pub short: usize,
    /// How many random documents are tried.
    pub random: Spend,
    /// Up to how many bytes behind a quote every quoted text is unescaped.
    pub quoted: usize,
    /// Up to how many bytes every multiline text is unescaped.
    pub multiline: usize,
    /// Up to how many bytes every document is put above another, and this below it.
    pub joined: [usize; 2],
    /// Whether documents as long as the limit, one byte shorter and one longer are tried.
    pub at_limit: bool,
}

impl Extent {
    pub const GATE: Extent = Extent {
        short: 4,
        random: Spend::Documents(100_000),
        quoted: 6,
        multiline: 7,
        joined: [3, 3],
        at_limit: false,
    };

    pub const LONG: Extent = Extent {
        short: 5,
        random: Spend::Documents(2_000_000),
        quoted: 7,
        multiline: 8,
        joined: [5, 3],
        at_limit: true,
    };

    /// Hands each document to `each`, and says on standard error how far it is. What is spent on the
    /// random ones comes back.
    pub fn documents(self, each: &mut impl FnMut(&[u8])) -> Spent {
        let random = &mut Random::new();
        eprintln!("  every document of up to {} bytes", self.short);
        every(&ALPHABET.map(|byte| [byte]), self.short, each);
        eprintln!("  every byte at every place of a comment of {COMMENT} bytes");
        comments(each);
        eprintln!("  sections nested {DEPTHS:?} deep");
        for depth in DEPTHS {
            for steps in STEPS {
                for _ in 0..NESTED {
                    each(&nested(random, depth, steps));
                }
            }
        }
        PLUSES.iter().for_each(|document| each(document.as_bytes()));
        if self.at_limit {
            eprintln!("  about {LIMIT} bytes");
            at_limit(each);
        }
        let mut spent = Spent::start();
        while !spent.is_all(self.random) {
            let document = any(random);
            each(&document);
            spent.on(&document);
        }
        spent
    }
}

/// Comments with one other byte, an entry below it.
fn comments(each: &mut impl FnMut(&[u8])) {
    for place in 0..COMMENT {
        for byte in 0..=u8::MAX {
            let mut document = b";".repeat(COMMENT + 1);
            document[1 + place] = byte;
            document.extend(b"\na = b");
            each(&document);
        }
    }
}

/// A structured document, whole, mutated or damaged, or bytes of the alphabet as they come.
pub fn any(random: &mut Random) -> Vec<u8> {
    match random.below(4) {
        0 => structured::document(random),
        1 => {
            let document = structured::document(random);
            mutated(random, document)
        }
        2 => damaged(random),
        _ => jumbled(random),
    }
}

/// `document` with a few bytes inserted, dropped, changed or swapped.
fn mutated(random: &mut Random, mut document: Vec<u8>) -> Vec<u8> {
    for _ in 0..=random.below(4) {
        let byte = random.pick(&ALPHABET);
        let at = random.below(document.len() + 1);
        match random.below(4) {
            0 => document.insert(at, byte),
            _ if at == document.len() => {}
            1 => drop(document.remove(at)),
            2 => document[at] = byte,
            _ => {
                let other = random.below(document.len());
                document.swap(at, other);
            }
        }
    }
    document
}

/// A document that breaks off anywhere, where another one's end may go on.
fn damaged(random: &mut Random) -> Vec<u8> {
    let mut document = structured::document(random);
    document.truncate(random.below(document.len() + 1));
    if random.one_in(2) {
        let other = structured::document(random);
        document.extend(&other[random.below(other.len() + 1)..]);
    }
    document
}

fn jumbled(random: &mut Random) -> Vec<u8> {
    let len = random.below(JUMBLED_BYTES + 1);
    (0..len).map(|_| random.pick(&ALPHABET)).collect()
}

/// Sections within sections, each indented by one of `steps` more, then entries whose indentation
/// breaks off anywhere and goes on otherwise; now and then mutated.
fn nested(random: &mut Random, depth: usize, steps: &[&str]) -> Vec<u8> {
    let mut document = String::new();
    let mut indent = String::new();
    for _ in 0..depth {
        document += &indent;
        document += random.pick(&["a\n", "=\n", "a =\r\n", "= ; x\r"]);
        indent += random.pick(steps);
    }
    for _ in 0..=random.below(8) {
        document += &indent;
        document += random.pick(&["a\n", "=\n", "a = x\r", "= \"\"\"\r\n", "\"a\" = \"\"\"x"]);
        if random.one_in(2) {
            indent.truncate(random.below(indent.len() + 1));
        }
        indent += random.pick(steps);
    }
    let document = document.into_bytes();
    if random.one_in(4) {
        mutated(random, document)
    } else {
        document
    }
}

/// Sections within sections, so many, each indented by one more `step`, and an entry in the innermost.
pub fn deep(depth: usize, step: &str) -> Vec<u8> {
    let lines = (0..=depth).map(|indents| step.repeat(indents) + "a\n");
    lines.collect::<String>().into_bytes()
}

fn at_limit(each: &mut impl FnMut(&[u8])) {
    for text in REPEATED {
        for len in [LIMIT - 1, LIMIT, LIMIT + 1] {
            each(&text.bytes().cycle().take(len).collect::<Vec<u8>>());
        }
    }
}
