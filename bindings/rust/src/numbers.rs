//! The parts of a number.
use crate::{calls, Kind};
use std::ops::Range;

/// A number and its parts. Their places count from the literal's start, so that they are places in its text, which
/// [`token_text`](crate::token_text) gives.
///
/// ```
/// let text = b"properties A => 16#1F.8#e-2 ms;";
/// let mut words = [0; 16];
/// let filled = gigboda::tokenize(text, &mut words).unwrap();
/// let number = gigboda::number_parts(text, filled, 6).unwrap();
/// let literal = gigboda::token_text(text, filled, 6);
/// assert_eq!(literal, b"16#1F.8#e-2");
/// assert_eq!(&literal[number.base.clone()], b"16");
/// assert_eq!(&literal[number.inner.clone()], b"1F.8");
/// assert!(number.closed && number.exponent);
/// assert_eq!(&literal[number.inner.end + usize::from(number.closed)..], b"e-2");
/// ```
#[derive(Debug, Clone, PartialEq, Eq, Hash)]
pub struct Number {
    /// `INTEGER_LIT` or `REAL_LIT`; `ERROR` for a literal as in C, such as `0x1F`, of which no parts are told: both are empty, at 0.
    pub kind: Kind,
    /// How many bytes the literal has.
    pub len: usize,
    /// The digits before the `#`; empty, at 0, without one.
    pub base: Range<usize>,
    /// The digits behind the `#`, with `.` and `_`; without one all before the exponent.
    pub inner: Range<usize>,
    /// Whether the closing `#` stands, right behind the inner digits.
    pub closed: bool,
    /// Whether an exponent stands: `e` or `E`, a sign or none, and digits or none. It is all behind the inner digits and the closing `#`.
    pub exponent: bool,
}

/// The parts of the number that a token is; none if it is neither a number nor a literal as in C. Tokens count from 0, spaces and comments
/// too, as in [`Step::token`](crate::Step::token) but not as in a [`Tree`](crate::Tree). The words may be any: a literal is told only if it
/// stands in the text where the words place the token, with the kind and the length that the token's word says. It goes through the words up
/// to that one.
///
/// ```
/// let mut words = [0; 4];
/// let filled = gigboda::tokenize(b"1_000 s", &mut words).unwrap();
/// assert_eq!(gigboda::number_parts(b"1_000 s", filled, 0).unwrap().inner, 0..5);
/// assert_eq!(gigboda::number_parts(b"1_000 s", filled, 2), None);
/// ```
pub fn number_parts(text: &[u8], words: &[u32], number: usize) -> Option<Number> {
    let [kind, len, base, base_end, inner, inner_end, closed, exponent] = calls::number_parts(text, words, number);
    // No number is empty: a length of 0 says that there is none.
    (len != 0).then(|| Number {
        kind: Kind::of(kind as u32).expect("libcapi.a of this crate's version"),
        len,
        base: base..base_end,
        inner: inner..inner_end,
        closed: closed != 0,
        exponent: exponent != 0,
    })
}
