//! CONL documents, read by proved code.
//!
//! The interface is that of the original library `conl`: the same items, answers and messages, but
//! for what is said below. A server that uses it names this crate in its place in Cargo.toml, and
//! changes nothing else. What is read is decided by a static library whose every function is proved to
//! follow the rules (docs/CLAIMS.md); here its answers become tokens and errors.
//!
//! ```
//! use conl::{parse, SyntaxError, Token};
//!
//! /// The keys and the values of a layout.
//! fn texts(layout: &[u8]) -> Result<Vec<String>, SyntaxError> {
//!     let mut texts = Vec::new();
//!     for token in parse(layout) {
//!         let token = token?;
//!         if let Token::MapKey(..) | Token::Value(..) | Token::MultilineValue(..) = token {
//!             texts.push(token.unescape()?.into_owned());
//!         }
//!     }
//!     Ok(texts)
//! }
//!
//! let layout = "width = 40 ; mm\nname = \"a \\{41}\"".as_bytes();
//! assert_eq!(texts(layout).unwrap(), ["width", "40", "name", "a A"]);
//!
//! let refused = texts(b"width = 40\n= 50").unwrap_err();
//! assert_eq!(refused.to_string(), "2: unexpected list item");
//! ```
//!
//! # Beyond the original
//!
//! There are two errors more: a 65th open section is one, and a document, or a token's text, of more
//! than 16,777,216 bytes is the other, on line 0. A plus in braces, as in `\{+41}`, is an invalid escape
//! code, where the original takes it. [look_up] finds one entry of a document, [Parser::opened] says which
//! entry just closed, and [port] has the calls of the static library.
#![warn(clippy::undocumented_unsafe_blocks)]

mod error;
mod iterators;
mod look_up;
pub mod port;
mod reading;
mod token;
mod unescape;

pub use error::SyntaxError;
pub use iterators::{parse, tokenize, Parser, Tokenizer};
pub use look_up::{look_up, Entry};
pub use token::Token;
