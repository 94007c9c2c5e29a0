//! A person's own layouts: every file, as a server reads it with the original and with the crate
//! `conl` in its place.

use crate::answers::number_of;
use crate::documents::LIMIT;
use crate::plus;
use crate::readings::SECTIONS;
use crate::ways::WAYS;
use original::Token;
use std::collections::{BTreeMap, BTreeSet};
use std::fmt::{self, Display, Formatter};
use std::fs;
use std::io;
use std::path::{Path, PathBuf};
use std::process::ExitCode;
use std::time::{Duration, Instant};

/// How long it is kept quiet about how far the files are.
const QUIET: Duration = Duration::from_secs(5);

/// Compares the files and those of the folders, and prints a line for each difference, each text that
/// is set aside and each file that is not compared, then what was compared.
pub fn compare(paths: &[PathBuf]) -> ExitCode {
    let mut seen = Seen::start();
    for path in paths {
        eprintln!("compare: {}", path.display());
        seen.path(path);
    }
    print!("{seen}");
    if seen.differences > 0 {
        ExitCode::FAILURE
    } else if seen.unreadable > 0 || seen.documents == 0 {
        ExitCode::from(2)
    } else {
        ExitCode::SUCCESS
    }
}

/// What was seen.
struct Seen {
    documents: u64,
    bytes: u64,
    accepted: u64,
    /// How many documents, or texts of tokens, are refused by each number, and its message.
    refused: BTreeMap<usize, (String, u64)>,
    differences: u64,
    /// How many texts have a plus in braces.
    pluses: u64,
    over_limits: u64,
    unreadable: u64,
    /// The folders gone through, so that no link leads around.
    folders: BTreeSet<PathBuf>,
    told: Instant,
}

impl Seen {
    fn start() -> Self {
        Seen {
            documents: 0,
            bytes: 0,
            accepted: 0,
            refused: BTreeMap::new(),
            differences: 0,
            pluses: 0,
            over_limits: 0,
            unreadable: 0,
            folders: BTreeSet::new(),
            told: Instant::now(),
        }
    }

    /// A file, or every file of a folder, in the order of their names.
    fn path(&mut self, path: &Path) {
        if let Err(error) = self.try_path(path) {
            println!("{}: not compared: {error}", path.display());
            self.unreadable += 1;
        }
    }

    fn try_path(&mut self, path: &Path) -> io::Result<()> {
        let metadata = fs::metadata(path)?;
        if metadata.is_dir() {
            self.folder(path)?;
        } else if !metadata.is_file() {
            return Err(io::Error::other("neither a file nor a folder"));
        } else if metadata.len() > LIMIT as u64 {
            self.set_aside(path, &format!("{} bytes are refused (12)", metadata.len()));
        } else {
            self.document(path, &fs::read(path)?);
        }
        Ok(())
    }

    fn folder(&mut self, path: &Path) -> io::Result<()> {
        if self.folders.insert(fs::canonicalize(path)?) {
            let entries = fs::read_dir(path)?.map(|entry| Ok(entry?.path()));
            let mut paths = entries.collect::<io::Result<Vec<_>>>()?;
            paths.sort();
            paths.iter().for_each(|path| self.path(path));
        }
        Ok(())
    }

    fn document(&mut self, path: &Path, document: &[u8]) {
        if let Some(line) = one_section_too_many(document) {
            self.set_aside(
                path,
                &format!("a 65th section, on line {line}, is refused (3)"),
            );
            return;
        }
        self.documents += 1;
        self.bytes += document.len() as u64;
        self.count(document);
        self.set_texts_aside(path, document);
        for difference in WAYS.iter().filter_map(|way| way.difference(document)) {
            println!("{}: {difference}", path.display());
            self.differences += 1;
        }
        if self.told.elapsed() >= QUIET {
            self.told = Instant::now();
            eprintln!("  {} documents, {} bytes", self.documents, self.bytes);
        }
    }

    fn set_aside(&mut self, path: &Path, why: &str) {
        println!(
            "{}: set aside, over the port's limits: {why}",
            path.display()
        );
        self.over_limits += 1;
    }

    fn set_texts_aside(&mut self, path: &Path, document: &[u8]) {
        let tokens = original::tokenize(document).flatten();
        for token in tokens.filter(plus::is_set_aside) {
            let (path, line) = (path.display(), token.line_number());
            println!("{path}: line {line}: set aside, a plus in braces: the text is refused (8)");
            self.pluses += 1;
        }
    }

    /// Counts what the original says of the document, and what is due of its tokens' texts.
    fn count(&mut self, document: &[u8]) {
        let mut accepted = 1;
        for said in original::parse(document) {
            let error = match said {
                Ok(token) => plus::unescape(&token).err(),
                Err(error) => {
                    accepted = 0;
                    Some(error)
                }
            };
            if let Some(error) = error {
                self.refused(&error.msg);
            }
        }
        self.accepted += accepted;
    }

    fn refused(&mut self, message: &str) {
        let number = number_of(message);
        let message = match number {
            8 => "invalid escape code",
            _ => message,
        };
        let counted = self.refused.entry(number);
        counted.or_insert_with(|| (message.to_owned(), 0)).1 += 1;
    }
}

/// The line on which more sections are open than the port lets be.
fn one_section_too_many(document: &[u8]) -> Option<usize> {
    let mut open = 0;
    let mut tokens = original::tokenize(document).flatten();
    let indent = tokens.find(|token| {
        match token {
            Token::Indent(_) => open += 1,
            Token::Outdent(_) => open -= 1,
            _ => {}
        }
        open > SECTIONS
    });
    indent.map(|indent| indent.line_number())
}

impl Display for Seen {
    fn fmt(&self, f: &mut Formatter) -> fmt::Result {
        let (documents, bytes) = (self.documents, self.bytes);
        writeln!(f, "compare: {documents} documents, {bytes} bytes")?;
        writeln!(f, "  accepted: {}", self.accepted)?;
        for (number, (message, count)) in &self.refused {
            match number {
                1..=7 => writeln!(f, "  refused, {number} ({message}): {count}")?,
                _ => writeln!(f, "  texts refused, {number} ({message}): {count}")?,
            }
        }
        writeln!(f, "  texts set aside, a plus in braces: {}", self.pluses)?;
        writeln!(f, "  set aside, over the limits: {}", self.over_limits)?;
        writeln!(f, "  not compared: {}", self.unreadable)?;
        writeln!(f, "compare: {} differences", self.differences)
    }
}
