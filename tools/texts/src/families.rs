//! The families of texts, for the tokens-only call, for the parts of numbers, for the section call and for values.
use crate::every::Every;
use crate::random::Rng;
use crate::{lexer, sections, values};

pub enum Maker {
    /// Each text once, until there is none left.
    Every(Every),
    /// As many texts as are asked for; the number is how often it is asked, beside the others.
    Random(u32, fn(&mut Rng) -> Vec<u8>),
}

pub struct Family {
    pub name: &'static str,
    pub maker: Maker,
}

fn every(name: &'static str, maker: Every) -> Family {
    Family { name, maker: Maker::Every(maker) }
}

fn random(name: &'static str, weight: u32, make: fn(&mut Rng) -> Vec<u8>) -> Family {
    Family { name, maker: Maker::Random(weight, make) }
}

/// Bytes at which UTF-8's rules change.
const UTF8_EDGES: &[u8] = b"a\x7f\x80\x8f\x90\x9f\xa0\xbf\xc1\xc2\xdf\xe0\xe1\xec\xed\xee\xef\xf0\xf1\xf3\xf4\xf5\xff";

fn every_number() -> Vec<Family> {
    vec![
        every("every number", Every::bytes("", b"0xXb1.#eE+-_\"", 5)),
        every("every radix", Every::bytes("", b"0oObBxX12789fFgG_#", 4)),
    ]
}

fn any_tokens() -> Vec<Family> {
    vec![
        random("bytes", 60, lexer::bytes),
        random("keywords", 60, lexer::keyword),
        random("numbers", 60, lexer::number),
        random("token soup", 60, lexer::tokens),
        random("good UTF-8", 30, lexer::good),
        random("bad UTF-8", 30, lexer::bad),
        random("damaged sections", 20, lexer::damaged),
        random("laid out sections", 10, derived),
    ]
}

pub fn tokens() -> Vec<Family> {
    let all: Vec<u8> = (0..=255).collect();
    let mut families = every_number();
    families.extend([
        every("every mark", Every::bytes("", b"-\n>[=]<+*{}.:", 5)),
        every("every comment", Every::bytes("", b" -\n\r\t>\"a", 6)),
        every("every string", Every::bytes("", b"\"a\n\0-", 7)),
        every("every edge of UTF-8", Every::bytes("", UTF8_EDGES, 4)),
        every("every two bytes", Every::bytes("", &all, 2)),
        every("every short word", Every::bytes("", b"iInNoOtTfFsS", 5)),
    ]);
    families.extend(any_tokens());
    families
}

/// Texts for the lexer most of which have numbers, of every form.
pub fn numbers() -> Vec<Family> {
    let mut families = every_number();
    families.extend([
        every("every tail of 0", Every::bytes("0", b"1_.e-#x", 6)),
        every("every tail of 16#", Every::bytes("16#", b"1E._#-g", 6)),
        random("literals", 330, lexer::literals),
    ]);
    families.extend(any_tokens());
    families
}

fn derived(rng: &mut Rng) -> Vec<u8> {
    let words = sections::section(rng);
    sections::layout(&words, rng)
}

fn damaged_words(rng: &mut Rng) -> Vec<u8> {
    let mut words = sections::section(rng);
    sections::damage(&mut words, rng);
    sections::layout(&words, rng)
}

fn soup(rng: &mut Rng) -> Vec<u8> {
    let words = sections::soup(rng);
    sections::layout(&words, rng)
}

fn openers(rng: &mut Rng) -> Vec<u8> {
    let words = sections::openers(rng);
    sections::layout(&words, rng)
}

/// A text for the lexer, behind `properties` or not.
fn lexer_text(rng: &mut Rng) -> Vec<u8> {
    let mut text = match rng.below(3) {
        0 => Vec::new(),
        1 => b"properties ".to_vec(),
        _ => b"properties a => ".to_vec(),
    };
    let more = match rng.below(6) {
        0 => lexer::bytes(rng),
        1 => lexer::keyword(rng),
        2 => lexer::number(rng),
        3 => lexer::tokens(rng),
        4 => lexer::good(rng),
        _ => lexer::bad(rng),
    };
    text.extend_from_slice(&more);
    text
}

pub fn sections() -> Vec<Family> {
    vec![
        every("every start", Every::words("properties", "a none :: : => +=> ; in 1 constant applies ,", 4)),
        every("every expression", Every::words("properties a =>", "1 a :: .. delta + * not ( ) , ; in modes", 4)),
        every("every operand", Every::words("properties a =>", "+ not ( [ a => 1 ) ] ; 0x1 é true", 4)),
        every("every classifier", Every::words("properties a => classifier (", "a :: . ( ) => , in ; virtual data", 4)),
        every(
            "every binding",
            Every::words(
                "properties a => classifier ( a ( b =>",
                "a in out data port virtual bus event feature group access ) , ::",
                4,
            ),
        ),
        every("every mode", Every::words("properties a => 1 in modes", "( a => , ) in ; modes binding", 5)),
        every("every path", Every::words("properties a => reference (", "a [ 1 .. ] . ) , ;", 5)),
        every("every applies", Every::words("properties a => 1 applies", "to a . [ ] , ; in binding ( )", 4)),
        every("every record", Every::words("properties a => [", "a => 1 ; ] [ ( )", 5)),
        every("every compute", Every::words("properties a => compute", "( a ) ; 1", 5)),
        random("derived sections", 60, derived),
        random("damaged words", 60, damaged_words),
        random("word soup", 60, soup),
        random("damaged sections", 20, lexer::damaged),
        random("openers", 15, openers),
        random("lexer texts", 20, lexer_text),
    ]
}

fn sums(rng: &mut Rng) -> Vec<u8> {
    let words = values::section(rng);
    sections::layout(&words, rng)
}

fn damaged_sums(rng: &mut Rng) -> Vec<u8> {
    let mut words = values::section(rng);
    sections::damage(&mut words, rng);
    sections::layout(&words, rng)
}

/// Sections most of which have whole numbers to compute, and all others.
pub fn values() -> Vec<Family> {
    let words = "1 0 - + * 9223372036854775807 9223372036854775808 16#F# ms";
    let mut families = vec![
        every("every sum", Every::words("properties a =>", words, 5).then(";")),
        every("every end", Every::words("properties a => - 9223372036854775807", "- + * 0 1 2 /", 6).then(";")),
        every("every based literal", Every::bytes("properties a=>", b"0126#F_", 6).then(";")),
        random("sums", 300, sums),
        random("damaged sums", 40, damaged_sums),
    ];
    families.extend(sections());
    families
}
