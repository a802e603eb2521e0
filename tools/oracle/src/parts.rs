//! The parts of a number, as 02's request Five names them. The Rust tells none: they are found here in the text of the token that it
//! gives, by the marks that part it.
use spar::syntax_kind::SyntaxKind;
use std::ops::Range;

/// What is told of a number besides its kind and length: the base's digits and the inner digits by their places in the literal, whether
/// the closing `#` is there and whether an exponent is.
#[derive(Default)]
pub struct Parts {
    pub base: Range<usize>,
    pub inner: Range<usize>,
    pub closed: bool,
    exponent: bool,
}

/// Without `#` a letter can only begin the exponent.
fn decimal(text: &str) -> Parts {
    let exponent = text.find(['e', 'E']);
    Parts { inner: 0..exponent.unwrap_or(text.len()), exponent: exponent.is_some(), ..Parts::default() }
}

/// A base, and what stands behind its `#`. An exponent can only follow the closing `#`: before that one, e and E are digits.
fn based(base: &str, behind: &str) -> Parts {
    let closing = behind.split_once('#');
    let (inner, exponent) = closing.unwrap_or((behind, ""));
    let start = base.len() + 1;
    Parts { base: 0..base.len(), inner: start..start + inner.len(), closed: closing.is_some(), exponent: !exponent.is_empty() }
}

/// The parts of an INTEGER_LIT or a REAL_LIT.
pub fn literal(text: &str) -> Parts {
    match text.split_once('#') {
        Some((base, behind)) => based(base, behind),
        None => decimal(text),
    }
}

/// The numbers of the line `parts` for a token: zeros if it is no number. Of ERROR tokens only C-style literals begin with a digit.
pub fn parts(kind: SyntaxKind, text: &str) -> [u32; 8] {
    let Parts { base, inner, closed, exponent } = match kind {
        SyntaxKind::INTEGER_LIT | SyntaxKind::REAL_LIT => literal(text),
        SyntaxKind::ERROR if text.starts_with('0') => Parts::default(),
        _ => return [0; 8],
    };
    let places = [text.len(), base.start, base.end, inner.start, inner.end].map(|n| n as u32);
    let [length, base_begin, base_end, inner_begin, inner_end] = places;
    [kind as u32, length, base_begin, base_end, inner_begin, inner_end, u32::from(closed), u32::from(exponent)]
}
