//! Random documents as people write them, and nearly so.

use crate::random::Random;

const BREAKS: [&str; 3] = ["\n", "\r\n", "\r"];

const BLANKS: [&str; 6] = ["", " ", "  ", "\t", " \t", "\t "];

/// What a section's indentation has beyond the one around it.
const DEEPER: [&str; 4] = ["  ", " ", "\t", " \t"];

/// What texts without quotes are made of.
const WORDS: [&str; 16] = [
    "a",
    "x",
    "width",
    "0.5",
    "two words",
    "\\",
    "a\"b",
    "{}",
    "é",
    "ключ",
    "漢字",
    "שלום",
    "हिन्दी",
    "e\u{301}",
    "\u{A0}\u{3000}",
    "😀",
];

/// What texts in quotes are made of.
const QUOTED: [&str; 16] = [
    "a",
    " ",
    ";",
    "=",
    "é",
    "漢",
    "😀",
    "\\\"",
    "\\\\",
    "\\n",
    "\\t",
    "\\x",
    "\\{1F600}",
    "\\{D800}",
    "\\{",
    "}",
];

/// How many entries the first section of a document has at most: now and then many.
const FEW: usize = 4;
const MANY: usize = 200;

pub fn document(random: &mut Random) -> Vec<u8> {
    let most = if random.one_in(64) { MANY } else { FEW };
    let mut writer = Writer::new(random);
    writer.section("", most);
    writer.document.into_bytes()
}

/// A text in quotes, or nearly so.
pub fn quoted(random: &mut Random) -> String {
    let mut writer = Writer::new(random);
    writer.quoted();
    writer.document
}

struct Writer<'a> {
    random: &'a mut Random,
    document: String,
    /// What most lines end with.
    line_break: &'static str,
}

impl<'a> Writer<'a> {
    fn new(random: &'a mut Random) -> Self {
        Writer {
            line_break: random.pick(&BREAKS),
            random,
            document: String::new(),
        }
    }

    fn section(&mut self, indent: &str, most: usize) {
        let list = self.random.one_in(2);
        for _ in 0..=self.random.below(most) {
            self.gap(indent);
            self.put(indent);
            if list != self.random.one_in(32) {
                self.put("=");
            } else {
                self.key();
            }
            self.put_one_of(&BLANKS);
            self.value(indent);
        }
    }

    /// Now and then an empty line, or one with a comment alone.
    fn gap(&mut self, indent: &str) {
        match self.random.below(8) {
            0 => self.line_end(),
            1 => {
                self.put(indent);
                self.comment();
                self.line_end();
            }
            _ => {}
        }
    }

    fn key(&mut self) {
        if self.random.one_in(4) {
            self.quoted();
        } else {
            self.words();
        }
        self.put_one_of(&BLANKS);
        if !self.random.one_in(8) {
            self.put("=");
        }
    }

    /// What belongs to a key or an item, with the end of its line.
    fn value(&mut self, indent: &str) {
        match self.random.below(8) {
            0 => self.rest_of_line(),
            1..=3 => {
                self.words();
                self.rest_of_line();
            }
            4 | 5 => {
                self.quoted();
                self.rest_of_line();
            }
            6 => self.multiline(indent),
            _ => {
                self.rest_of_line();
                let deeper = indent.to_owned() + self.random.pick(&DEEPER);
                self.section(&deeper, FEW);
            }
        }
    }

    /// A hint, with a fourth quote now and then, and the lines of its value.
    fn multiline(&mut self, indent: &str) {
        self.put("\"\"\"");
        match self.random.below(8) {
            0 => self.put("\""),
            1..=3 => self.words(),
            _ => {}
        }
        self.rest_of_line();
        let deeper = indent.to_owned() + self.random.pick(&DEEPER);
        for _ in 0..self.random.below(4) {
            if !self.random.one_in(8) {
                self.put(&deeper);
                self.put_one_of(&BLANKS);
                self.words();
            }
            self.rest_of_line();
        }
    }

    fn words(&mut self) {
        self.put_one_of(&WORDS);
        while self.random.one_in(3) {
            self.put(" ");
            self.put_one_of(&WORDS);
        }
    }

    /// A text in quotes, with more behind the closing quote or without it now and then.
    fn quoted(&mut self) {
        self.put("\"");
        for _ in 0..self.random.below(5) {
            self.put_one_of(&QUOTED);
        }
        match self.random.below(16) {
            0 => {}
            1 => {
                self.put("\"");
                self.words();
            }
            _ => self.put("\""),
        }
    }

    fn comment(&mut self) {
        self.put(";");
        self.put_one_of(&BLANKS);
        self.words();
    }

    fn rest_of_line(&mut self) {
        self.put_one_of(&BLANKS);
        if self.random.one_in(8) {
            self.comment();
        }
        self.line_end();
    }

    fn line_end(&mut self) {
        if self.random.one_in(16) {
            self.put_one_of(&BREAKS);
        } else {
            self.put(self.line_break);
        }
    }

    fn put(&mut self, text: &str) {
        self.document.push_str(text);
    }

    fn put_one_of(&mut self, texts: &[&str]) {
        self.document.push_str(self.random.pick(texts));
    }
}
