//! Why a text is refused, in the words of docs/REFUSALS.md.
use crate::{position, Position};
use std::fmt;

/// Why a text is refused. Its number is document 01's.
#[derive(Debug, Clone, Copy, PartialEq, Eq, Hash)]
pub enum Refusal {
    /// Over 32,768 bytes; the place is 32,768.
    TooLong = 1,
    /// Not UTF-8; the place is the start of the first ill-formed sequence.
    NotUtf8 = 2,
    /// More tokens than lent words; the place is the start of the first without one.
    NoTokenWord = 3,
    /// The first token that is not trivia is not `properties`; the place is its start, or the text's length.
    NoProperties = 4,
    /// Fewer than two event words left; the place is the start of the next token that is not taken, or the text's length.
    NoEventWord = 5,
    /// A 65th open `(`, `[`, `not` or sign; the place is its start.
    TooDeep = 6,
    /// More nodes than lent records; the place is the start of the token that the first without one names, or the text's length.
    NoRecord = 7,
    /// A string that is not closed; the place is its opening quote.
    UnclosedString = 8,
    /// An association's first value is no constant; the place is the association's start. Or the text is not clean, or has no such
    /// association; the place is the text's length.
    NoValue = 9,
    /// A literal or a partial result is no `i64`; the place is the literal or the operator.
    OutOfRange = 10,
}

impl Refusal {
    /// All refusals, by number.
    pub const ALL: [Refusal; 10] = {
        use Refusal::*;
        [TooLong, NotUtf8, NoTokenWord, NoProperties, NoEventWord, TooDeep, NoRecord, UnclosedString, NoValue, OutOfRange]
    };

    /// The refusal with a number, if there is one.
    pub fn of(number: usize) -> Option<Refusal> {
        Refusal::ALL.into_iter().find(|r| r.number() == number)
    }

    /// The refusal's number.
    pub fn number(self) -> usize {
        self as usize
    }
}

impl fmt::Display for Refusal {
    fn fmt(&self, f: &mut fmt::Formatter) -> fmt::Result {
        f.pad(match self {
            Refusal::TooLong => "the text is too long",
            Refusal::NotUtf8 => "the text is not UTF-8",
            Refusal::NoTokenWord => "more tokens than the tool has room for",
            Refusal::NoProperties => "the text does not begin with `properties`",
            Refusal::NoEventWord => "more events than the tool has room for",
            Refusal::TooDeep => "nested more than 64 deep",
            Refusal::NoRecord => "more nodes than the tool has room for",
            Refusal::UnclosedString => "a string is not closed",
            Refusal::NoValue => "no whole number to compute",
            Refusal::OutOfRange => "a number is out of range",
        })
    }
}

/// A refusal and its place, a byte of the text.
///
/// ```
/// let refused = gigboda::tokenize(b"properties \xff", &mut [0; 8]).unwrap_err();
/// assert_eq!(refused.to_string(), "the text is not UTF-8 (refusal 2 at byte 11)");
/// assert_eq!(refused.position(b"properties \xff").to_string(), "line 1, column 12");
/// ```
#[derive(Debug, Clone, Copy, PartialEq, Eq, Hash)]
pub struct Refused {
    pub refusal: Refusal,
    pub place: usize,
}

impl Refused {
    /// Line and column of the place in the text that was refused.
    pub fn position(&self, text: &[u8]) -> Position {
        position(text, self.place)
    }
}

impl fmt::Display for Refused {
    fn fmt(&self, f: &mut fmt::Formatter) -> fmt::Result {
        f.pad(&format!("{} (refusal {} at byte {})", self.refusal, self.refusal.number(), self.place))
    }
}

impl std::error::Error for Refused {}
