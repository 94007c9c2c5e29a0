//! Times the port against the original: the same documents, in turn, in one run.
#![forbid(unsafe_code)]

mod documents;
mod tasks;

use crate::documents::Class;
use crate::tasks::Task;
use std::env;
use std::hint::black_box;
use std::process::ExitCode;
use std::time::{Duration, Instant};

const USAGE: &str = "\
usage: bench [usual | worst | growth] [--bytes N] [--rounds N]
prints tables in Markdown: classes of documents of some N bytes, at most 16777216 (default 10000000),
and the medians of N rounds (default 9). usual: entries of several sorts, the default; worst: what
takes the port the longest beside the original; growth: how its time for a byte grows with the
document";

struct Options {
    what: String,
    bytes: usize,
    rounds: usize,
}

fn main() -> ExitCode {
    let Some(options) = options() else {
        eprintln!("{USAGE}");
        return ExitCode::from(2);
    };
    match options.what.as_str() {
        "usual" => print_tables(&tasks::ALL, &documents::USUAL, &options),
        "worst" => {
            print_tables(&tasks::ALL, &documents::WORST, &options);
            print_tables(&tasks::ONE_ROW, &documents::USUAL, &options);
        }
        "growth" => print_growth(&options),
        _ => {
            eprintln!("{USAGE}");
            return ExitCode::from(2);
        }
    }
    ExitCode::SUCCESS
}

fn options() -> Option<Options> {
    let mut options = Options {
        what: "usual".to_owned(),
        bytes: 10_000_000,
        rounds: 9,
    };
    let mut words = env::args_os().skip(1).peekable();
    if let Some(what) = words.next_if(|word| !word.to_string_lossy().starts_with("--")) {
        options.what = what.to_str()?.to_owned();
    }
    while let Some(word) = words.next() {
        let number = words.next()?.to_str()?.parse().ok().filter(|&n| n > 0)?;
        match word.to_str()? {
            "--bytes" => options.bytes = number,
            "--rounds" => options.rounds = number,
            _ => return None,
        }
    }
    (options.bytes <= 16_777_216).then_some(options)
}

fn print_tables(tasks: &[Task], classes: &[Class], options: &Options) {
    for task in tasks {
        print_table(task, classes, options);
        println!();
    }
}

fn print_table(task: &Task, classes: &[Class], options: &Options) {
    println!(
        "| {} | Rust, MB/s | port, MB/s | port's time over Rust's |",
        task.name
    );
    println!("|---|---:|---:|---:|");
    for class in classes {
        let documents = class.documents(options.bytes);
        let bytes: usize = documents.iter().map(Vec::len).sum();
        let (original, port) = medians(task, &documents, options.rounds);
        let speed = |time: Duration| bytes as f64 / time.as_secs_f64() / 1e6;
        println!(
            "| {} | {:.0} | {:.0} | {:.2} |",
            class.name,
            speed(original),
            speed(port),
            port.as_secs_f64() / original.as_secs_f64(),
        );
    }
}

/// The port's time to parse and unescape a byte, in nanoseconds, of documents of a 64th of the bytes, of
/// an eighth and of all.
fn print_growth(options: &Options) {
    println!("| parsing and unescaping, ns a byte | 1/64 | 1/8 | 1 |");
    println!("|---|---:|---:|---:|");
    let [_, _, task, _] = &tasks::ALL;
    let whole = |class: &&Class| class.is_whole();
    for class in documents::USUAL
        .iter()
        .chain(&documents::WORST)
        .filter(whole)
    {
        print!("| {} |", class.name);
        for part in [64, 8, 1] {
            let documents = class.documents(options.bytes / part);
            let bytes: usize = documents.iter().map(Vec::len).sum();
            let (_, port) = medians(task, &documents, options.rounds);
            print!(" {:.2} |", port.as_secs_f64() * 1e9 / bytes as f64);
        }
        println!();
    }
}

/// The time that each side takes, after a round that is not timed.
fn medians(task: &Task, documents: &[Vec<u8>], rounds: usize) -> (Duration, Duration) {
    for document in documents {
        let answers = [(task.original)(document), (task.port)(document)];
        assert_eq!(answers[0], answers[1], "the two sides read alike");
    }
    let mut original = Vec::new();
    let mut port = Vec::new();
    for _ in 0..rounds {
        original.push(time(task.original, documents));
        port.push(time(task.port, documents));
    }
    (median(original), median(port))
}

fn time(read: fn(&[u8]) -> usize, documents: &[Vec<u8>]) -> Duration {
    let start = Instant::now();
    for document in documents {
        black_box(read(black_box(document)));
    }
    start.elapsed()
}

fn median(mut times: Vec<Duration>) -> Duration {
    times.sort();
    times[times.len() / 2]
}
