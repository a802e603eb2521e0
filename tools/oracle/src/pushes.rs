//! The Rust's events, and where among its tokens the parser stood when it pushed each.
use spar::event::Event;
use spar::parser::Parser;
use spar::syntax_kind::SyntaxKind;

/// How many non-trivia tokens the parser has not taken.
fn left(parser: &Parser) -> usize {
    (0..).take_while(|n| parser.nth(*n) != SyntaxKind::EOF).count()
}

/// The events of a section, and for each the raw number of the next untaken non-trivia token when it was pushed, a Token's own; or how many tokens there
/// are at the end. The parser stands at `pos` in its list `non_trivia_indices`, which it hands out. `pos` itself is private; but only `do_bump` moves it,
/// from 0 on, by a Token's raw tokens right behind that Token's push, and no event of a property section is taken back. So before each event it is what
/// the Tokens up to there add up to. Where it stands at the end is looked at, by what is left.
pub fn events(text: &str, tokens: &[(SyntaxKind, usize)]) -> (Vec<Event>, Vec<usize>) {
    let mut parser = Parser::new(tokens, text);
    parser.run_property_section();
    let indices = parser.non_trivia_indices().to_vec();
    let left = left(&parser);
    let events = parser.finish();
    let mut pos = 0;
    let mut numbers = Vec::with_capacity(events.len());
    for event in &events {
        numbers.push(indices.get(pos).copied().unwrap_or(tokens.len()));
        if let Event::Token { n_raw_tokens, .. } = event {
            pos += usize::from(*n_raw_tokens);
        }
    }
    assert_eq!(pos + left, indices.len(), "the parser does not stand where its Tokens say");
    (events, numbers)
}
