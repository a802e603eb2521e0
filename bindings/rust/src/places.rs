//! Line and column of a place.
use std::fmt;

/// Line and column, both from 1. LF ends a line, and a column is 1 plus the characters (Unicode scalar values) since the last LF.
#[derive(Debug, Clone, Copy, PartialEq, Eq, PartialOrd, Ord, Hash)]
pub struct Position {
    pub line: usize,
    pub column: usize,
}

impl fmt::Display for Position {
    fn fmt(&self, f: &mut fmt::Formatter) -> fmt::Result {
        f.pad(&format!("line {}, column {}", self.line, self.column))
    }
}

/// Where a place is, a byte of the text from 0; the text's end for any place behind it. It goes through the text up to the place and counts,
/// as `list` does, bytes that continue no UTF-8 sequence: so a place within a character is that of the next one, and in bytes that are no
/// UTF-8 each such byte counts one.
///
/// ```
/// let text = "properties\n  A => \"\u{20ac}\"; B => 1;\n".as_bytes();
/// assert_eq!(gigboda::position(text, 25).to_string(), "line 2, column 13");
/// ```
pub fn position(text: &[u8], place: usize) -> Position {
    let before = &text[..place.min(text.len())];
    let ends = before.iter().filter(|b| **b == b'\n').count();
    let in_line = before.iter().rev().take_while(|b| **b != b'\n');
    let characters = in_line.filter(|b| !(0x80..=0xbf).contains(*b)).count();
    Position { line: ends + 1, column: characters + 1 }
}
