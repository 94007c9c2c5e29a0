//! What is spent on random documents.

use std::fmt::{self, Display, Formatter};
use std::time::{Duration, Instant};

/// How long it is kept quiet about how far the documents are.
const QUIET: Duration = Duration::from_secs(5);

/// How much there is to spend.
#[derive(Clone, Copy)]
pub enum Spend {
    Documents(u64),
    /// Of 1,000,000 bytes.
    Megabytes(u64),
    Seconds(u64),
}

/// How much was spent.
pub struct Spent {
    documents: u64,
    bytes: u64,
    since: Instant,
    told: Instant,
}

impl Spent {
    pub fn start() -> Self {
        let now = Instant::now();
        Spent {
            documents: 0,
            bytes: 0,
            since: now,
            told: now,
        }
    }

    /// Counts a document, and says on standard error now and then how far it is.
    pub fn on(&mut self, document: &[u8]) {
        self.documents += 1;
        self.bytes += document.len() as u64;
        if self.told.elapsed() >= QUIET {
            self.told = Instant::now();
            eprintln!("  {self}");
        }
    }

    /// Whether nothing of `spend` is left.
    pub fn is_all(&self, spend: Spend) -> bool {
        match spend {
            Spend::Documents(count) => self.documents >= count,
            Spend::Megabytes(count) => self.bytes / 1_000_000 >= count,
            Spend::Seconds(count) => self.since.elapsed().as_secs() >= count,
        }
    }
}

impl Display for Spent {
    fn fmt(&self, f: &mut Formatter) -> fmt::Result {
        let (documents, bytes) = (self.documents, self.bytes);
        let seconds = self.since.elapsed().as_secs();
        write!(
            f,
            "random documents: {documents}, {bytes} bytes, {seconds} s"
        )
    }
}
