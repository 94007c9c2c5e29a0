//! The functions of the proved static library, each under a safe wrapper.
//!
//! A Rattle `&[T]` or `&mut [T]` is passed as a pointer and a length. No function keeps a pointer
//! after it returns. Nothing holds the declarations in these modules to the Rattle source
//! (`crates/abi`): they are written by hand, and `rust/compare` tries them.

mod look_up;
mod parser;
mod rows;
mod text;
mod tokenizer;
mod unescape;
mod words;

pub use look_up::{look_up, Found};
pub use parser::{parse, Parser, ParserState};
pub use rows::{Row, Rows, State, NO_STEP, REFUSED, WORDS};
pub use text::{is_utf8, trim, Trim};
pub use tokenizer::{tokenize, Tokenizer, TokenizerState};
pub use unescape::{unescape, unescape_text, Unescaped};
