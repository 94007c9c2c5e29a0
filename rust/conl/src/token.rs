//! Tokens, and the rows that the proved library writes them in.

use crate::port::Row;

/// A token of a document, with the line that it starts on; the first line is 1.
///
/// Its text is as it stands in the document, without the blanks around it; [Token::unescape] gives
/// what it says.
#[derive(Debug, Eq, PartialEq, Clone)]
pub enum Token<'tok> {
    /// The end of a line: CR LF, CR or LF.
    Newline(usize),
    /// What stands behind a `;`, up to the end of its line.
    Comment(usize, &'tok str),
    /// A section opens. Its first [Token::MapKey] or [Token::ListItem] says whether it is a map or a
    /// list.
    Indent(usize),
    /// The innermost section closes; [Parser::opened](crate::Parser::opened) says which entry that was.
    Outdent(usize),
    /// An item of a list. What comes next, but for newlines, comments and a hint, is its value: a
    /// [Token::Value], a [Token::MultilineValue], a section, or [Token::NoValue].
    ListItem(usize),
    /// A key of a map. Its value comes next, as an item's does.
    MapKey(usize, &'tok str),
    /// A value on the line of its key or item.
    Value(usize, &'tok str),
    /// What stands behind the `"""` that announces a multiline value: a word on its language, or
    /// nothing.
    MultilineHint(usize, &'tok str),
    /// A value on lines of its own: their indentation, and the text from its first character to its
    /// last one, with the indentation of every line but the first.
    MultilineValue(usize, &'tok str, &'tok str),
    /// The key or item of this line has no value. Only [parse](crate::parse) gives it.
    NoValue(usize),
}

impl<'tok> Token<'tok> {
    /// The line that the token starts on.
    pub fn line_number(&self) -> usize {
        match *self {
            Token::Newline(lno)
            | Token::Comment(lno, _)
            | Token::Indent(lno)
            | Token::Outdent(lno)
            | Token::ListItem(lno)
            | Token::MapKey(lno, _)
            | Token::Value(lno, _)
            | Token::MultilineHint(lno, _)
            | Token::MultilineValue(lno, _, _)
            | Token::NoValue(lno) => lno,
        }
    }

    /// What the token is, in words for an error's message.
    pub fn name(&self) -> &'static str {
        match self {
            Token::Newline(_) => "newline",
            Token::Comment(..) => "comment",
            Token::Indent(_) => "indent",
            Token::Outdent(_) => "outdent",
            Token::ListItem(_) => "list item",
            Token::MapKey(..) => "map key",
            Token::Value(..) => "value",
            Token::MultilineHint(..) => "multiline hint",
            Token::MultilineValue(..) => "multiline value",
            Token::NoValue(_) => "no value",
        }
    }

    /// The token of a row, or nothing where the row is a refusal's. `text` gives the part of the
    /// document from a place to another.
    #[inline(always)]
    pub(crate) fn of_row(row: &Row, text: impl Fn(usize, usize) -> &'tok str) -> Option<Self> {
        let lno = row.line;
        let own = || text(row.start, row.end);
        Some(match row.number {
            1 => Token::Newline(lno),
            2 => Token::Comment(lno, own()),
            3 => Token::Indent(lno),
            4 => Token::Outdent(lno),
            5 => Token::ListItem(lno),
            6 => Token::MapKey(lno, own()),
            7 => Token::Value(lno, own()),
            8 => Token::MultilineHint(lno, own()),
            9 => Token::MultilineValue(lno, text(row.from, row.to), own()),
            10 => Token::NoValue(lno),
            _ => return None,
        })
    }

    /// The token's number in a row.
    #[inline(always)]
    pub(crate) fn number(&self) -> usize {
        match self {
            Token::Newline(_) => 1,
            Token::Comment(..) => 2,
            Token::Indent(_) => 3,
            Token::Outdent(_) => 4,
            Token::ListItem(_) => 5,
            Token::MapKey(..) => 6,
            Token::Value(..) => 7,
            Token::MultilineHint(..) => 8,
            Token::MultilineValue(..) => 9,
            Token::NoValue(_) => 10,
        }
    }

    /// The indentation and the text, where the token has one; only a multiline value has both.
    #[inline(always)]
    pub(crate) fn texts(&self) -> Option<(&'tok str, &'tok str)> {
        match *self {
            Token::Comment(_, text)
            | Token::MapKey(_, text)
            | Token::Value(_, text)
            | Token::MultilineHint(_, text) => Some(("", text)),
            Token::MultilineValue(_, indentation, text) => Some((indentation, text)),
            Token::Newline(_)
            | Token::Indent(_)
            | Token::Outdent(_)
            | Token::ListItem(_)
            | Token::NoValue(_) => None,
        }
    }
}
