//! The program `listing`, against the listing of the original's `parse` by document 01's rule.

use crate::answers::{name, refusal};
use crate::documents::{any, deep};
use crate::parses::parses;
use crate::random::Random;
use crate::readings::within_limits;
use crate::tally::Tally;
use crate::vectors::EXAMPLES;
use conl::port::{Row, REFUSED};
use std::io::{self, Write};
use std::path::Path;
use std::process::{Command, ExitStatus, Stdio};
use std::thread;

/// How many bytes a document may have to be listed.
const MOST: usize = 65_536;

const HEADER: &str = "line kind start end\n";

/// What documents of about so many bytes repeat: long texts of a line, and as many rows as can be.
const REPEATED: [&str; 6] = [
    "a",
    ";",
    "a\n",
    "=\r\n",
    "é\r",
    "key = \"a \\\" b\" ; ключ\n",
];

/// How many random documents are listed.
const RANDOM: usize = 300;

/// Line breaks, and bytes that are no UTF-8, in a comment, a key, a value, a hint and a multiline value.
const OTHERS: [&[u8]; 12] = [
    b"\r",
    b"\r\n",
    b"\n\r",
    b"a\rb\r\nc\n",
    b"a\r\n b\r\n  c\r\nd",
    b"=\r= \r\n=",
    b";\xFF\nb",
    b"a\xC3\n",
    b"a = \xED\xA0\x80",
    b"a = \"\"\"\x80\n b",
    b"a = \"\"\"\n b\xF4\x90\x80\x80\nc",
    b"a = \"\"\"\"\n b",
];

/// What the program does.
#[derive(Debug, PartialEq)]
struct Done {
    standard_output: String,
    standard_error: String,
    status: Option<i32>,
}

/// Runs `program` on each document, and holds what it writes against the rule.
pub fn compare(program: &Path) -> io::Result<Tally> {
    run(program, b"")?;
    let numbers = (1..=10).chain((1..=7).chain([12]).map(|number| REFUSED + number));
    let mut outcomes = vec!["accepted"];
    outcomes.extend(numbers.map(name));
    let mut tally = Tally::start("listing", &outcomes);
    let by_program = |document: &[u8]| run(program, document).expect("it ran before");
    documents(&mut |document| {
        tally.compare(document, by_rule, by_program);
        let rows = rows(document);
        if rows.iter().all(|row| row.number < REFUSED) {
            tally.saw("accepted");
        }
        rows.iter().for_each(|row| tally.saw(name(row.number)));
    });
    Ok(tally)
}

fn documents(each: &mut impl FnMut(&[u8])) {
    EXAMPLES
        .iter()
        .chain(&OTHERS)
        .for_each(|document| each(document));
    for text in REPEATED {
        for len in [MOST - 1, MOST, MOST + 1] {
            each(&text.bytes().cycle().take(len).collect::<Vec<u8>>());
        }
    }
    for depth in [63, 64, 65, 66] {
        for step in [" ", "\t"] {
            each(&deep(depth, step));
        }
    }
    let random = &mut Random::new();
    for _ in 0..RANDOM {
        each(&any(random));
    }
}

fn by_rule(document: &[u8]) -> Done {
    let rows = rows(document).into_iter();
    let rows = rows.map(|row| match row.number.checked_sub(REFUSED) {
        Some(number) => format!("{} R{number} 0 0\n", row.line),
        None => format!("{} {} {} {}\n", row.line, row.number, row.start, row.end),
    });
    Done {
        standard_output: HEADER.to_owned() + &rows.collect::<String>(),
        standard_error: String::new(),
        status: Some(0),
    }
}

/// The answers that are to be listed.
fn rows(document: &[u8]) -> Vec<Row> {
    if document.len() > MOST {
        vec![refusal(12, 0)]
    } else {
        within_limits(document, parses)
    }
}

fn run(program: &Path, document: &[u8]) -> io::Result<Done> {
    let mut child = Command::new(program)
        .stdin(Stdio::piped())
        .stdout(Stdio::piped())
        .stderr(Stdio::piped())
        .spawn()?;
    let mut input = child.stdin.take().expect("standard input is piped");
    let output = thread::scope(|scope| {
        // It need not read all of a document that is too long.
        scope.spawn(move || input.write_all(document).ok());
        child.wait_with_output()
    })?;
    let text = |bytes: Vec<u8>| String::from_utf8_lossy(&bytes).into_owned();
    Ok(Done {
        standard_output: text(output.stdout),
        standard_error: text(output.stderr),
        status: ExitStatus::code(&output.status),
    })
}
