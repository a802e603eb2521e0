//! The messages of Error events, in the words of docs/REFUSALS.md.
use crate::Kind;
use std::fmt;

/// Added to the number of a kind that is missing.
const MISSING: u16 = 256;

/// What an Error event says.
///
/// ```
/// use gigboda::{Kind, Message};
/// assert_eq!(Message::of(261), Some(Message::Missing(Kind::SEMICOLON)));
/// assert_eq!(Message::Missing(Kind::SEMICOLON).to_string(), "expected `;`");
/// assert_eq!(Message::NoExpression.to_string(), "no value where one must stand");
/// ```
#[derive(Debug, Clone, Copy, PartialEq, Eq, Hash)]
pub enum Message {
    NoArrow,
    NoNameInSet,
    /// Never met.
    NoName,
    CStyle,
    NoExpression,
    NoIdentifier,
    NoImplementation,
    VirtualAlone,
    /// A token of that kind is missing.
    Missing(Kind),
}

impl Message {
    /// The messages that name no kind: a message's number is its place here, from 1.
    pub const FIXED: [Message; 8] = {
        use Message::*;
        [NoArrow, NoNameInSet, NoName, CStyle, NoExpression, NoIdentifier, NoImplementation, VirtualAlone]
    };

    /// The message with a number, if there is one.
    pub fn of(number: u16) -> Option<Message> {
        match number.checked_sub(MISSING) {
            Some(kind) => Kind::of(kind.into()).map(Message::Missing),
            None => (1..).zip(Message::FIXED).find(|(n, _)| *n == number).map(|(_, message)| message),
        }
    }

    /// The message's number.
    pub fn number(self) -> u16 {
        match self {
            Message::Missing(kind) => MISSING + kind as u16,
            fixed => (1..).zip(Message::FIXED).find(|(_, message)| *message == fixed).map_or(0, |(n, _)| n),
        }
    }
}

impl fmt::Display for Message {
    fn fmt(&self, f: &mut fmt::Formatter) -> fmt::Result {
        f.pad(match self {
            Message::NoArrow => "no `=>` or `+=>` after a property's name",
            Message::NoNameInSet => "no property name after `::`",
            Message::NoName => "no property name",
            Message::CStyle => "a number written as in C, with `0x`, `0o` or `0b`",
            Message::NoExpression => "no value where one must stand",
            Message::NoIdentifier => "no name after `::` in a classifier",
            Message::NoImplementation => "no implementation name after `.` in a classifier",
            Message::VirtualAlone => "`virtual` without `bus` or `processor` after it",
            Message::Missing(kind) => return f.pad(&format!("expected {}", kind.in_words())),
        })
    }
}
