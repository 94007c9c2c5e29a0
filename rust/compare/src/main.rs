//! Holds the port against Rust: against `original`, the library that it ports, and against the
//! standard library.
#![forbid(unsafe_code)]

mod answers;
mod comment;
mod documents;
mod ends;
mod files;
mod joined;
mod listings;
mod look_ups;
mod parses;
mod plus;
mod random;
mod readings;
mod spend;
mod structured;
mod tally;
mod texts;
mod tokens;
mod trimming;
mod unescaping;
mod utf8;
mod vectors;
mod ways;

use crate::documents::Extent;
use crate::joined::Joined;
use crate::spend::Spend;
use crate::tally::Tally;
use conl::port::Trim;
use std::env;
use std::ffi::OsString;
use std::io::{self, Write};
use std::path::{Path, PathBuf};
use std::process::ExitCode;

const USAGE: &str = "\
usage: compare                 hold the port against Rust and print what was compared
       compare long [--seconds N | --megabytes N]
                               the same with more texts and documents, then random documents for so
                               long or so many bytes (a megabyte is 1,000,000), else 2,000,000
       compare files PATH..    hold the crate `conl` against the original on files of your own, and
                               on every file of a folder: status 1 where there is a difference,
                               else 2 where a file could not be read, or there was none
       compare listings PROGRAM
                               run the program `listing`, and hold what it writes against Rust
       compare vectors         print the stored sample of Rust's answers";

fn main() -> ExitCode {
    let words: Vec<OsString> = env::args_os().skip(1).collect();
    match &words[..] {
        [] => compare(Extent::GATE),
        [word] if word == "vectors" => print_vectors(),
        [word, rest @ ..] if word == "long" => long(rest).map_or_else(misused, compare),
        [word, paths @ ..] if word == "files" && !paths.is_empty() => {
            files::compare(&paths.iter().map(PathBuf::from).collect::<Vec<_>>())
        }
        [word, program] if word == "listings" => compare_listings(Path::new(program)),
        _ => misused(),
    }
}

fn long(words: &[OsString]) -> Option<Extent> {
    let random = match words {
        [] => Extent::LONG.random,
        [what, count] => {
            let count = count.to_str()?.parse().ok()?;
            match what.to_str()? {
                "--seconds" => Spend::Seconds(count),
                "--megabytes" => Spend::Megabytes(count),
                _ => return None,
            }
        }
        _ => return None,
    };
    Some(Extent {
        random,
        ..Extent::LONG
    })
}

fn misused() -> ExitCode {
    eprintln!("{USAGE}");
    ExitCode::from(2)
}

fn compare(extent: Extent) -> ExitCode {
    let mut tallies = vec![
        utf8::compare(),
        trimming::compare(Trim::Blanks),
        trimming::compare(Trim::BlanksAndBreaks),
        comment::compare(),
    ];
    tallies.extend(compare_documents(extent));
    let (mut texts, mut bytes, mut differences) = (0, 0, 0);
    for tally in &tallies {
        print!("{tally}");
        texts += tally.texts;
        bytes += tally.bytes;
        differences += tally.differences;
    }
    println!("compare: {texts} texts, {bytes} bytes, {differences} differences");
    if tallies.iter().all(Tally::passed) {
        ExitCode::SUCCESS
    } else {
        ExitCode::FAILURE
    }
}

fn print_vectors() -> ExitCode {
    match io::stdout().write_all(vectors::sample().as_bytes()) {
        Ok(()) => ExitCode::SUCCESS,
        Err(error) => {
            eprintln!("compare: standard output: {error}");
            ExitCode::FAILURE
        }
    }
}

fn compare_listings(program: &Path) -> ExitCode {
    match listings::compare(program) {
        Ok(tally) => {
            print!("{tally}");
            if tally.passed() {
                ExitCode::SUCCESS
            } else {
                ExitCode::FAILURE
            }
        }
        Err(error) => {
            eprintln!("compare: {} cannot be run: {error}", program.display());
            ExitCode::from(2)
        }
    }
}

/// The comparisons that go through the same documents, each of which is made once for all.
fn compare_documents(extent: Extent) -> [Tally; 6] {
    let mut unescaping = unescaping::start(extent.at_limit);
    unescaping::compare_texts(&mut unescaping, extent.quoted, extent.multiline);
    let mut joined = Joined::start();
    joined.compare_short(extent.joined);
    let mut tokens = tokens::start(extent.at_limit);
    let mut parses = parses::start(extent.at_limit);
    let mut look_ups = look_ups::start(extent.at_limit);
    let mut ends = ends::start(extent.at_limit);
    let spent = extent.documents(&mut |document| {
        tokens::compare(&mut tokens, document);
        parses::compare(&mut parses, document);
        unescaping::compare(&mut unescaping, document);
        look_ups::compare(&mut look_ups, document);
        ends::compare(&mut ends, document);
        joined.compare(document);
    });
    println!("{spent}");
    [tokens, parses, unescaping, look_ups, ends, joined.tally()]
}
