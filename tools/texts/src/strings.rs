//! Strings that are not closed, for which the Rust is no reference any more.

/// Whether the text of a string's token is not closed. The Rust's `scan_string` knows it and its caller drops it, so it is told by the quotes: there
/// are the opening one, two for each that is doubled, and the closing one.
fn is_unclosed(string: &str) -> bool {
    string.bytes().filter(|b| *b == b'"').count() % 2 == 1
}

/// Where a string that is not closed starts, by the tokens of a text, kind and length each, and the kind of strings; only the last token can be one.
pub fn unclosed<K: PartialEq>(text: &str, tokens: &[(K, usize)], string: K) -> Option<usize> {
    let (kind, len) = tokens.last()?;
    let place = text.len() - len;
    (*kind == string && is_unclosed(&text[place..])).then_some(place)
}
