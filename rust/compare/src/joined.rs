//! Demand 3: what stands above a top-level line changes nothing in what is read from there on but
//! lines and places. The port's readings of P, of S and of P then S are held against each other.

use crate::answers::{refusal, Text};
use crate::documents::LIMIT;
use crate::random::Random;
use crate::readings::{bound, COMMENT, INDENT, LIST_ITEM, MAP_KEY, MULTILINE_VALUE, OUTDENT};
use crate::tally::Tally;
use crate::texts::every;
use crate::unescaping::{self, by_row, to_spare};
use conl::port::{Parser, Row, Tokenizer, REFUSED};
use std::iter;

/// What short documents are put together from.
const ALPHABET: [u8; 8] = *b" \r\n;=a\"\xFF";

/// How many rows are fetched at a time.
const ROOM: usize = 32;

const BREAKS: [&[u8]; 3] = [b"\n", b"\r\n", b"\r"];

const P_REFUSED: &str = "P refused";
const SAME_SORT: &str = "same sort or none";
const OTHER_SORT: &str = "other sort";
const S_EMPTY: &str = "S empty";
const S_REFUSED: &str = "S begins with a refusal";

/// What stands in P then S.
#[derive(Debug, PartialEq)]
struct Lists {
    tokens: Vec<Row>,
    /// What the tokens unescape to, with one buffer or two each.
    texts: Vec<Unescaped>,
    /// The parser's answers, where S begins with a key or an item: else nothing is said of them.
    parsed: Option<Vec<Row>>,
    case: &'static str,
}

/// What a token unescapes to: these bytes of the document, or anything else.
#[derive(Debug, PartialEq)]
enum Unescaped {
    Part(Vec<u8>),
    Other(unescaping::Answer),
}

/// By how much the lines and the places of S are raised.
#[derive(Clone, Copy)]
struct Raise {
    lines: usize,
    bytes: usize,
}

/// The comparison, in which every second document stands below the one before it.
pub struct Joined {
    tally: Tally,
    random: Random,
    above: Option<Vec<u8>>,
}

impl Joined {
    pub fn start() -> Self {
        let outcomes = [P_REFUSED, SAME_SORT, OTHER_SORT, S_EMPTY, S_REFUSED];
        Joined {
            tally: Tally::start("P then S", &outcomes),
            random: Random::new(),
            above: None,
        }
    }

    pub fn tally(self) -> Tally {
        self.tally
    }

    /// Every P and every S of up to so many bytes over the alphabet.
    pub fn compare_short(&mut self, [most_above, most_below]: [usize; 2]) {
        eprintln!("  every P of up to {most_above} bytes, every S of up to {most_below}");
        let units = ALPHABET.map(|byte| [byte]);
        let mut below = Vec::new();
        every(&units, most_below, &mut |text| {
            below.extend(is_top_level(text).then(|| text.to_vec()));
        });
        every(&units, most_above, &mut |above| {
            if is_closed(above) {
                for below in &below {
                    self.compare_pair(above, below);
                }
            }
        });
    }

    /// A document, made into a P, or into an S for the P before it.
    pub fn compare(&mut self, document: &[u8]) {
        match self.above.take() {
            None => self.above = Some(self.closed(document)),
            Some(above) => self.compare_pair(&above, top_level(document)),
        }
    }

    fn compare_pair(&mut self, above: &[u8], below: &[u8]) {
        if above.len() + below.len() > LIMIT {
            return;
        }
        let fit = |[above, below]: [&[u8]; 2]| is_closed(above) && is_top_level(below);
        let lists = self.tally.compare_parts(
            [above, below],
            fit,
            ("P and S apart", apart),
            &[("P then S", together)],
        );
        self.tally.saw(lists.case);
    }

    /// A document with a line break at its end: one more, or what stands up to the last one.
    fn closed(&mut self, document: &[u8]) -> Vec<u8> {
        let last = document.iter().rposition(|byte| b"\r\n".contains(byte));
        match last {
            _ if is_closed(document) => document.to_vec(),
            Some(last) if self.random.one_in(2) => document[..=last].to_vec(),
            _ => [document, self.random.pick(&BREAKS)].concat(),
        }
    }
}

/// A document without what may not stand at the front of S.
fn top_level(document: &[u8]) -> &[u8] {
    let start = (0..document.len()).find(|&start| is_top_level(&document[start..]));
    &document[start.unwrap_or(document.len())..]
}

fn is_closed(above: &[u8]) -> bool {
    above.last().is_none_or(|byte| b"\r\n".contains(byte))
}

fn is_top_level(below: &[u8]) -> bool {
    below.first().is_none_or(|byte| !b" \t\r\n;".contains(byte))
}

/// What is due by the readings of P alone and of S alone.
fn apart([above, below]: [&[u8]; 2]) -> Lists {
    let none = Raise { lines: 0, bytes: 0 };
    let raise = Raise {
        lines: breaks(above),
        bytes: above.len(),
    };
    let of_above = tokenize(above);
    let of_below = tokenize(below);
    let mut texts = texts(above, &of_above, none);
    texts.extend(self::texts(below, &of_below, raise));

    let mut parsed = parse(above);
    let first = of_below.first().copied();
    let case = case(&parsed, first);
    match (case, first) {
        (SAME_SORT, _) => parsed.extend(parse(below).into_iter().map(|row| raise.row(row))),
        (OTHER_SORT, Some(first)) => {
            let number = if first.number == MAP_KEY { 5 } else { 6 };
            parsed.push(refusal(number, first.line + raise.lines));
        }
        _ => {}
    }
    let is_due = ![S_EMPTY, S_REFUSED].contains(&case);

    let mut tokens = of_above;
    tokens.extend(of_below.into_iter().map(|row| raise.row(row)));
    Lists {
        tokens,
        texts,
        parsed: is_due.then_some(parsed),
        case,
    }
}

/// How S, whose first answer is `first`, stands to P, of which `parsed` is the parser's list.
fn case(parsed: &[Row], first: Option<Row>) -> &'static str {
    let is_refused = parsed.last().is_some_and(|row| row.number > REFUSED);
    match first.map(|first| first.number) {
        None => S_EMPTY,
        Some(REFUSED..) => S_REFUSED,
        Some(_) if is_refused => P_REFUSED,
        Some(sort) if top_sort(parsed).is_some_and(|other| other != sort) => OTHER_SORT,
        Some(_) => SAME_SORT,
    }
}

/// What the port says of P then S, as much of it as something is due of.
fn together([above, below]: [&[u8]; 2], due: &Lists) -> Lists {
    let document = [above, below].concat();
    let tokens = tokenize(&document);
    let none = Raise { lines: 0, bytes: 0 };
    Lists {
        texts: texts(&document, &tokens, none),
        tokens,
        parsed: due.parsed.as_ref().map(|_| parse(&document)),
        case: due.case,
    }
}

fn tokenize(document: &[u8]) -> Vec<Row> {
    let rows = Tokenizer::<ROOM>::new(document);
    rows.take(bound(document)).collect()
}

fn parse(document: &[u8]) -> Vec<Row> {
    let rows = Parser::<ROOM>::new(document);
    rows.take(bound(document)).collect()
}

/// How many line breaks there are, CR LF being one.
fn breaks(document: &[u8]) -> usize {
    let count = |byte| document.iter().filter(|&&other| other == byte).count();
    let both = document.windows(2).filter(|pair| pair == b"\r\n").count();
    count(b'\r') + count(b'\n') - both
}

/// What the first top-level entry is: a key or an item.
fn top_sort(rows: &[Row]) -> Option<usize> {
    let (mut indents, mut outdents) = (0, 0);
    let mut numbers = rows.iter().map(|row| row.number);
    numbers.find(|number| {
        indents += usize::from(*number == INDENT);
        outdents += usize::from(*number == OUTDENT);
        [LIST_ITEM, MAP_KEY].contains(number) && indents == outdents
    })
}

/// What each token unescapes to with a buffer that has room to spare; then, if it was written, with
/// one that is a byte too short.
fn texts(document: &[u8], rows: &[Row], raise: Raise) -> Vec<Unescaped> {
    let mut texts = Vec::new();
    for row in rows.iter().filter(|row| row.number < REFUSED) {
        let answer = by_row(document, row, to_spare(row));
        let too_short = match &answer {
            Ok(Text::Written(bytes)) => bytes.len().checked_sub(1),
            _ => None,
        };
        let others = too_short.map(|room| by_row(document, row, room));
        let answers = iter::once(answer).chain(others);
        texts.extend(answers.map(|answer| match answer {
            Ok(Text::Plain(part)) => Unescaped::Part(document[part].to_vec()),
            answer => Unescaped::Other(answer.map(|text| raise.text(text))),
        }));
    }
    texts
}

impl Raise {
    /// Kinds that carry no text keep their zeros, and so does what carries no line of an entry.
    fn row(self, row: Row) -> Row {
        let text = match row.number {
            COMMENT | MAP_KEY..=MULTILINE_VALUE => self.bytes,
            _ => 0,
        };
        let indent = match row.number {
            MULTILINE_VALUE => self.bytes,
            _ => 0,
        };
        let opened = match row.opened {
            0 => 0,
            line => line + self.lines,
        };
        Row {
            number: row.number,
            line: row.line + self.lines,
            start: row.start + text,
            end: row.end + text,
            from: row.from + indent,
            to: row.to + indent,
            opened,
        }
    }

    /// Only an 8 shows a part.
    fn text(self, text: Text) -> Text {
        match text {
            Text::Refused {
                number,
                line,
                shown,
            } => {
                let bytes = if number == 8 { self.bytes } else { 0 };
                Text::Refused {
                    number,
                    line: line + self.lines,
                    shown: shown.start + bytes..shown.end + bytes,
                }
            }
            text => text,
        }
    }
}
