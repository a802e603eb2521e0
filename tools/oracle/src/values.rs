//! The whole number that an association's first value is, as 02's request Six has it: from the steps through the Rust's tree and the texts of
//! its tokens. Each node is computed when the step leaves it, so that no recursion is needed.
use crate::parts::{literal, Parts};
use crate::tree::{steps, Step};
use spar::event::Event;
use spar::syntax_kind::SyntaxKind;
use std::ops::Range;

/// Why there is no number: the value is no constant, or a literal or a partial result is out of range, with the place of its token.
#[derive(Clone, Copy)]
enum Fault {
    NoConstant,
    OutOfRange(usize),
}

type Value = Result<i64, Fault>;

/// A token: its kind, where it starts, its text.
struct Token<'a> {
    kind: SyntaxKind,
    start: usize,
    text: &'a str,
}

/// What stands right below a node.
enum Child<'a> {
    Token(Token<'a>),
    Node(Value),
}

/// A base from 2 to 16, by its decimal digits, among which no underscore can stand.
fn base(digits: &str) -> Option<u32> {
    digits.parse().ok().filter(|base| (2..=16).contains(base))
}

/// The digits of a literal and their base, if it is a constant.
fn digits(text: &str) -> Option<(u32, Vec<u32>)> {
    let Parts { base: before, inner, closed, .. } = literal(text);
    let base = if before.is_empty() { 10 } else { base(&text[before]).filter(|_| closed)? };
    let digits: Option<Vec<u32>> = text[inner].chars().filter(|c| *c != '_').map(|c| c.to_digit(base)).collect();
    Some((base, digits.filter(|all| !all.is_empty())?))
}

/// Once it is out of range, each digit more leaves it there.
fn integer(token: &Token) -> Value {
    let (base, digits) = digits(token.text).ok_or(Fault::NoConstant)?;
    let add = |number: i64, digit: &u32| number.checked_mul(base.into())?.checked_add((*digit).into());
    digits.iter().try_fold(0, add).ok_or(Fault::OutOfRange(token.start))
}

/// Signs stand before a literal only, so that they never leave the range.
fn signed(sign: &Token, operand: Value) -> Value {
    match sign.kind {
        SyntaxKind::PLUS => operand,
        SyntaxKind::MINUS => operand.map(|number| number.checked_neg().expect("a literal with signs")),
        _ => Err(Fault::NoConstant),
    }
}

/// A fault of the left operand comes before one of the right, and that before the operator's own; but none before that something is no constant.
fn binary(left: Value, operator: &Token, right: Value) -> Value {
    let compute = match operator.kind {
        SyntaxKind::PLUS => i64::checked_add,
        SyntaxKind::MINUS => i64::checked_sub,
        SyntaxKind::STAR => i64::checked_mul,
        _ => return Err(Fault::NoConstant),
    };
    match (left, right) {
        (Err(Fault::NoConstant), _) | (_, Err(Fault::NoConstant)) => Err(Fault::NoConstant),
        _ => compute(left?, right?).ok_or(Fault::OutOfRange(operator.start)),
    }
}

fn node(kind: SyntaxKind, children: &[Child]) -> Value {
    match (kind, children) {
        (SyntaxKind::INTEGER_VALUE, [Child::Token(token)]) => integer(token),
        (SyntaxKind::PROPERTY_EXPRESSION, [Child::Token(sign), Child::Node(operand)]) => signed(sign, *operand),
        (SyntaxKind::BINARY_EXPR, [Child::Node(left), Child::Token(operator), Child::Node(right)]) => binary(*left, operator, *right),
        _ => Err(Fault::NoConstant),
    }
}

/// The first value of an association: the second node right below it, behind its PROPERTY_REF. Where none is, the text is not clean.
fn first_value(children: &[Child]) -> Value {
    let mut nodes = children.iter().filter_map(|child| if let Child::Node(value) = child { Some(*value) } else { None });
    nodes.nth(1).unwrap_or(Err(Fault::NoConstant))
}

/// For each association, in order, where its first token starts, and its first value.
fn associations(text: &str, steps: &[Step], leaves: &[Range<usize>]) -> Vec<(usize, Value)> {
    let mut found = Vec::new();
    let mut open = Vec::new();
    let mut inside: Vec<Child> = Vec::new();
    let mut taken = 0;
    for step in steps {
        match step {
            Step::Enter(kind) => open.push((*kind, leaves[taken].start, inside.len())),
            Step::Token(kind) => {
                let place = leaves[taken].clone();
                inside.push(Child::Token(Token { kind: *kind, start: place.start, text: &text[place] }));
                taken += 1;
            }
            Step::Leave => {
                let (kind, start, from) = open.pop().expect("a Finish without a Start");
                let children: Vec<Child> = inside.drain(from..).collect();
                if kind == SyntaxKind::PROPERTY_ASSOCIATION {
                    found.push((start, first_value(&children)));
                }
                inside.push(Child::Node(node(kind, &children)));
            }
        }
    }
    found
}

/// Whether there is no Error and every non-trivia token is taken.
fn is_clean(events: &[Event], leaves: &[Range<usize>]) -> bool {
    let taken = events.iter().filter(|event| matches!(event, Event::Token { .. })).count();
    taken + 1 == leaves.len() && !events.iter().any(|event| matches!(event, Event::Error { .. }))
}

/// The value of the association with a number in a text of some events, or number and place of one of the refusals 9 and 10. `leaves` are the non-trivia
/// tokens' places, then the text's end.
pub fn value(text: &str, events: &[Event], leaves: &[Range<usize>], number: usize) -> Result<i64, (u32, usize)> {
    if !is_clean(events, leaves) {
        return Err((9, text.len()));
    }
    match associations(text, &steps(events.to_vec()), leaves).get(number) {
        None => Err((9, text.len())),
        Some((start, Err(Fault::NoConstant))) => Err((9, *start)),
        Some((_, Err(Fault::OutOfRange(place)))) => Err((10, *place)),
        Some((_, Ok(value))) => Ok(*value),
    }
}
