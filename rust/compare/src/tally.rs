//! What a comparison has seen.

use crate::texts::hex;
use std::fmt::{self, Debug, Display, Formatter};

/// How many bytes are put to the sides in search of a shorter text.
const MOST_EFFORT: usize = 1 << 28;

/// How many characters of a text or an answer are shown.
const SHOWN: usize = 1_000;

pub struct Tally {
    name: &'static str,
    pub texts: u64,
    pub bytes: u64,
    pub differences: u64,
    /// The outcomes that must occur, and how often each did.
    outcomes: Vec<(&'static str, u64)>,
    smallest: Option<Difference>,
}

/// A text, in one part or more, of which the two sides say different things.
struct Difference {
    parts: Vec<Vec<u8>>,
    /// What is due, and who says so.
    due: (&'static str, String),
    /// What the port says, and how it was asked.
    port: (&'static str, String),
}

impl Tally {
    /// Starts a comparison, and says so on standard error.
    pub fn start(name: &'static str, outcomes: &[&'static str]) -> Self {
        eprintln!("compare: {name}");
        Tally {
            name,
            texts: 0,
            bytes: 0,
            differences: 0,
            outcomes: outcomes.iter().map(|&outcome| (outcome, 0)).collect(),
            smallest: None,
        }
    }

    /// Puts `text` to both sides. The answer is what Rust says.
    pub fn compare<Answer: PartialEq + Debug>(
        &mut self,
        text: &[u8],
        rust: impl Fn(&[u8]) -> Answer,
        port: impl Fn(&[u8]) -> Answer,
    ) -> Answer {
        self.compare_each(text, rust, [("port", |text: &[u8], _: &Answer| port(text))])
    }

    /// Puts `text` to Rust, and to the port in each of the named `ways`, which are told what Rust
    /// says. The answer is what Rust says.
    pub fn compare_each<const WAYS: usize, Answer: PartialEq + Debug>(
        &mut self,
        text: &[u8],
        rust: impl Fn(&[u8]) -> Answer,
        ways: [(&'static str, impl Fn(&[u8], &Answer) -> Answer); WAYS],
    ) -> Answer {
        let rust = |[text]: [&[u8]; 1]| rust(text);
        let ways = ways.map(|(name, port)| {
            let port = move |[text]: [&[u8]; 1], said: &Answer| port(text, said);
            (name, port)
        });
        self.compare_parts([text], |_| true, ("Rust", rust), &ways)
    }

    /// Puts a text in parts to the side that says what is due, and to the port in each of the named
    /// ways. The answer is what is due. A text is made shorter only where its parts still fit.
    pub fn compare_parts<const PARTS: usize, Answer: PartialEq + Debug>(
        &mut self,
        parts: [&[u8]; PARTS],
        fit: impl Fn([&[u8]; PARTS]) -> bool,
        (who, due): (&'static str, impl Fn([&[u8]; PARTS]) -> Answer),
        ways: &[(&'static str, impl Fn([&[u8]; PARTS], &Answer) -> Answer)],
    ) -> Answer {
        let len: usize = parts.iter().map(|part| part.len()).sum();
        self.texts += 1;
        self.bytes += len as u64;
        let answer = due(parts);
        let differing = ways.iter().find(|(_, port)| answer != port(parts, &answer));
        if let Some((way, port)) = differing {
            self.differences += 1;
            if self.smallest.as_ref().is_none_or(|kept| len < kept.len()) {
                let smallest = Difference::shrunk(parts, fit, (who, due), (way, port));
                self.smallest = Some(smallest);
            }
        }
        answer
    }

    /// Counts an outcome.
    pub fn saw(&mut self, outcome: &str) {
        let counted = self.outcomes.iter_mut().find(|(name, _)| *name == outcome);
        counted.expect("an outcome that was named at the start").1 += 1;
    }

    /// Whether the sides never differed and every outcome occurred.
    pub fn passed(&self) -> bool {
        self.differences == 0 && self.outcomes.iter().all(|&(_, count)| count > 0)
    }
}

impl Difference {
    /// The difference about a text, or a shorter one that is left of it.
    fn shrunk<const PARTS: usize, Answer: PartialEq + Debug>(
        parts: [&[u8]; PARTS],
        fit: impl Fn([&[u8]; PARTS]) -> bool,
        (who, due): (&'static str, impl Fn([&[u8]; PARTS]) -> Answer),
        (way, port): (&'static str, impl Fn([&[u8]; PARTS], &Answer) -> Answer),
    ) -> Self {
        let said = |parts: [&[u8]; PARTS]| {
            let due = due(parts);
            let port = port(parts, &due);
            (due, port)
        };
        let mut parts = parts.map(<[u8]>::to_vec);
        for part in 0..PARTS {
            parts[part] = shrink(parts[part].clone(), |shorter| {
                let mut parts = parts.each_ref().map(Vec::as_slice);
                parts[part] = shorter;
                fit(parts) && {
                    let (due, port) = said(parts);
                    due != port
                }
            });
        }
        let (due, port) = said(parts.each_ref().map(Vec::as_slice));
        Difference {
            due: (who, format!("{due:?}")),
            port: (way, format!("{port:?}")),
            parts: parts.into(),
        }
    }

    fn len(&self) -> usize {
        self.parts.iter().map(Vec::len).sum()
    }
}

/// Drops ever shorter runs of bytes from `text` where the sides still differ without them.
fn shrink(mut text: Vec<u8>, differ: impl Fn(&[u8]) -> bool) -> Vec<u8> {
    let mut effort = 0;
    let mut run = text.len();
    while run > 0 {
        let mut start = 0;
        while start + run <= text.len() && effort < MOST_EFFORT {
            effort += text.len();
            let rest = [&text[..start], &text[start + run..]].concat();
            if differ(&rest) {
                text = rest;
            } else {
                start += run;
            }
        }
        run /= 2;
    }
    text
}

impl Display for Tally {
    fn fmt(&self, f: &mut Formatter) -> fmt::Result {
        write!(f, "{}: {} texts, ", self.name, self.texts)?;
        writeln!(f, "{} bytes, {} differences", self.bytes, self.differences)?;
        for (outcome, count) in &self.outcomes {
            match count {
                0 => writeln!(f, "  {outcome}: never, and it must occur")?,
                _ => writeln!(f, "  {outcome}: {count}")?,
            }
        }
        if let Some(smallest) = &self.smallest {
            write!(f, "{smallest}")?;
        }
        Ok(())
    }
}

impl Display for Difference {
    fn fmt(&self, f: &mut Formatter) -> fmt::Result {
        write!(f, "  smallest difference, {} bytes:", self.len())?;
        for part in &self.parts {
            let escaped = part.escape_ascii().to_string();
            write!(f, " {} \"{}\"", shown(&hex(part), 0), shown(&escaped, 0))?;
        }
        writeln!(f)?;

        let (who, due) = &self.due;
        let (way, port) = &self.port;
        let both = due.chars().zip(port.chars());
        let alike = both.take_while(|(due, port)| due == port).count();
        let from = alike.saturating_sub(SHOWN / 2);
        writeln!(f, "    {who}: {}", shown(due, from))?;
        writeln!(f, "    {way}: {}", shown(port, from))
    }
}

/// Some of `told` from a place on.
fn shown(told: &str, from: usize) -> String {
    told.chars().skip(from).take(SHOWN).collect()
}
