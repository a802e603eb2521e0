//! Random sections whose values are sums and products of whole numbers, most of them around the ends of 64 bits with a sign; and some of another form.
use crate::lexer::one_of;
use crate::random::Rng;
use crate::sections::{applies, modes, one, operand, reference, word, Words};

const HIGHEST: u128 = i64::MAX as u128;

/// Based literals that are no constants: not closed, without a digit, with one that is too great, or a base that is.
const NO_CONSTANTS: &str = "16#F 16# 16#_ 16#_# 16## 10#F# 10#A# 2#2# 9#9# 16#F#e1 17#1# 17#G# 1#0# 0#0# 00#1# 016#1 32#1# 4294967298#1# 18446744073709551626#1#";

/// Digits in a base, some in upper case, now and then with zeros before them and with underscores, of which none comes first.
fn digits(rng: &mut Rng, mut number: u128, base: u128) -> String {
    let mut all = Vec::new();
    while number > 0 || all.is_empty() {
        let digit = char::from_digit((number % base) as u32, base as u32).expect("below the base");
        all.push(if rng.once_in(2) { digit.to_ascii_uppercase() } else { digit });
        number /= base;
    }
    if rng.once_in(8) {
        all.extend(vec!['0'; rng.below(30)]);
    }
    let underscores = if rng.once_in(3) { rng.below(5) } else { 0 };
    for _ in 0..underscores {
        all.insert(rng.below(all.len()), '_');
    }
    all.iter().rev().collect()
}

/// A number that is small, at an end of the range or just beyond, about the root of that, or any of up to 80 bits.
fn number(rng: &mut Rng) -> u128 {
    match rng.below(16) {
        0..=7 => rng.below(12) as u128,
        8 | 9 => HIGHEST + 2 - rng.below(4) as u128,
        10 | 11 => 3_037_000_499 + rng.below(3) as u128,
        12 => 1 << rng.below(66),
        13 => HIGHEST / (1 + rng.below(9) as u128) + rng.below(2) as u128,
        _ => (u128::from(rng.next()) << 16) >> rng.below(80),
    }
}

/// A literal without a base, or with one from 2 to 16 and perhaps zeros before it.
fn literal(rng: &mut Rng) -> String {
    let number = number(rng);
    if rng.once_in(3) {
        let base = 2 + rng.below(15);
        let zeros = if rng.once_in(4) { rng.below(4) } else { 0 };
        let under = if rng.once_in(8) { "_" } else { "" };
        return format!("{}{base}#{under}{}#", "0".repeat(zeros), digits(rng, number, base as u128));
    }
    digits(rng, number, 10)
}

/// An operand with its signs, and before them an operator or nothing. They are one word, since `--` begins a comment.
fn term(out: &mut Words, rng: &mut Rng, operator: &str, odd: bool) {
    let signs = if rng.once_in(3) { rng.below(4) } else { 0 };
    let marks: Vec<&str> = [operator].into_iter().filter(|o| !o.is_empty()).chain((0..signs).map(|_| one_of(rng, "+ -"))).collect();
    if !marks.is_empty() {
        word(out, &marks.join(if rng.once_in(8) { "\n" } else { " " }));
    }
    match rng.below(if odd { 8 } else { 4 }) {
        4 => one(out, rng, NO_CONSTANTS),
        5 => operand(out, rng, 2),
        6 => {
            word(out, &literal(rng));
            one(out, rng, "ms us KByte");
        }
        _ => word(out, &literal(rng)),
    }
}

/// A sum of products; an odd one may have other operands and operators.
fn sum(out: &mut Words, rng: &mut Rng, odd: bool) {
    term(out, rng, "", odd);
    while !rng.once_in(3) {
        let operator = if odd && rng.once_in(8) { "/" } else { one_of(rng, "+ - *") };
        term(out, rng, operator, odd);
    }
}

/// A sum that leads to an end of the range, or one past it, by its last operator or before it.
fn to_the_end(out: &mut Words, rng: &mut Rng) {
    let sign = one_of(rng, "+ -");
    let near = rng.below(4) as u128;
    word(out, sign);
    word(out, &digits(rng, HIGHEST - near, 10));
    for step in [near, rng.below(3) as u128, rng.below(3) as u128] {
        word(out, if rng.once_in(8) { "*" } else { sign });
        word(out, &step.to_string());
    }
}

fn value(out: &mut Words, rng: &mut Rng) {
    match rng.below(12) {
        0 => to_the_end(out, rng),
        1 => {
            let (before, behind) = *rng.pick(&[("(", ")"), ("", ".. 9"), ("1 ..", ""), ("1 .. 2 delta", ""), ("not", ""), ("[ a =>", "; ]")]);
            out.extend(before.split_whitespace().map(String::from));
            sum(out, rng, false);
            out.extend(behind.split_whitespace().map(String::from));
        }
        2..=4 => sum(out, rng, true),
        _ => sum(out, rng, false),
    }
}

fn association(out: &mut Words, rng: &mut Rng) {
    reference(out, rng);
    word(out, if rng.once_in(4) { "+=>" } else { "=>" });
    if rng.once_in(4) {
        word(out, "constant");
    }
    value(out, rng);
    if rng.once_in(6) {
        modes(out, rng);
    }
    while rng.once_in(5) {
        word(out, ",");
        value(out, rng);
    }
    if rng.once_in(8) {
        applies(out, rng);
    }
    word(out, ";");
}

/// The words of a section that is nearly always clean; now and then something stands behind it that is not read.
pub fn section(rng: &mut Rng) -> Words {
    let mut out = Words::new();
    word(&mut out, "properties");
    let count = if rng.once_in(3) { rng.below(8) } else { 1 };
    for _ in 0..count {
        association(&mut out, rng);
    }
    if rng.once_in(16) {
        one(&mut out, rng, "} 1 \"a\" none => é");
    }
    out
}

/// What long chains are made of.
const LINKS: [&str; 7] = ["+1", "-1", "*1", "+1 -1", "*-1", "+2*3 -1", "+16#F# -+-4"];

/// A section of one long chain, of up to as many operators as there can be and a little more. A third are sums of small literals; the others
/// begin so near to an end of the range that they may leave it on the way.
pub fn chain(rng: &mut Rng) -> Vec<u8> {
    let links = *rng.pick(&LINKS);
    let near = rng.below(6_000) as u128;
    let begin = match rng.below(3) {
        0 => near.to_string(),
        1 => (HIGHEST - near).to_string(),
        _ => format!("-{}", HIGHEST - near),
    };
    let mut text = format!("properties a=>{begin}");
    for _ in 0..rng.below(5_470) {
        text += one_of(rng, links);
    }
    text += *rng.pick(&[";", ";", ";", " ms;", "*2;", "/1;", "+16#F;", "+9223372036854775808;"]);
    text.into_bytes()
}
