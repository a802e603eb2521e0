//! The texts that are measured: each family at each size, cut at a whole piece. Every text begins with `properties`, so that the
//! section call reads it, and none is refused.
use crate::varied::Varied;

pub struct Text {
    pub family: &'static str,
    /// Whether it is read clean.
    pub clean: bool,
    pub bytes: usize,
    pub text: String,
}

pub const SIZES: [usize; 3] = [1024, 8192, 32768];

/// A gateway's section as people write them: names, numbers with units, lists, records, references, comments. Behind its first line,
/// `properties`, each line is a whole piece.
const REALISTIC: &str = include_str!("../../../samples/gateway.aadl");

/// As many whole pieces as fit between a head and a tail.
fn filled(bytes: usize, head: &str, mut piece: impl FnMut(usize) -> String, tail: &str) -> String {
    let mut text = String::from(head);
    for n in 0.. {
        let next = piece(n);
        if text.len() + next.len() + tail.len() > bytes {
            break;
        }
        text.push_str(&next);
    }
    text + tail
}

fn realistic_between(bytes: usize, head: &str, tail: &str) -> String {
    let lines: Vec<&str> = REALISTIC.split_inclusive('\n').skip(1).collect();
    filled(bytes, head, |n| lines[n % lines.len()].to_string(), tail)
}

fn realistic(bytes: usize) -> String {
    realistic_between(bytes, "properties\n", "")
}

/// The first and the last association have a value.
fn realistic_with_values(bytes: usize) -> String {
    realistic_between(bytes, "properties\n  Valid_From => 2 * 365 + 1;\n", "  Valid_Until => 10 * 365 + 2;\n")
}

/// Like the realistic ones, but without a line that stands there twice: what a processor learns of a text helps it less here.
fn varied(bytes: usize) -> String {
    let mut lines = Varied::new(2024);
    filled(bytes, "properties\n", |_| lines.line(), "")
}

fn identifiers(bytes: usize) -> String {
    let words = ["Press_Line", "yard", "Paint_Line_2", "x", "Modem", "Actual_Binding", "rate", "Gateway"];
    filled(bytes, "properties ", |n| format!("{} ", words[n % words.len()]), "")
}

fn comments(bytes: usize) -> String {
    filled(bytes, "properties\n", |n| format!("-- line {} of what nobody reads but the next engineer\n", n % 100), "")
}

fn numbers_and_strings(bytes: usize) -> String {
    let values = ["12", "\"poll.c\"", "3.25", "16#4000_3000#", "\"a \"\"quoted\"\" word\"", "1.5e-3", "1_000", "2#1010#e4"];
    filled(bytes, "properties\nA => (0", |n| format!(", {}", values[n % values.len()]), ");")
}

/// The last token is a string that takes nearly all bytes. An association's semicolon behind it is missing.
fn string_at_the_end(bytes: usize) -> String {
    filled(bytes, "properties\nNote => \"", |n| format!("line {} of what the next engineer reads; ", n % 100), "\"")
}

fn nested(bytes: usize) -> String {
    let depth = 40;
    // Each list is four events; with two spaces the longest text has fewer than may be.
    filled(bytes, "properties\n", |_| format!("A => {}1{};\n", "(  ".repeat(depth), ")  ".repeat(depth)), "")
}

fn errors(bytes: usize) -> String {
    // Each ends where the next association can begin, so that all of them are read.
    let broken = [
        "Alarm 1;",
        " Baud => ;",
        " Cells => (1,, 2;",
        " Depot :: => x;",
        " Edge => 0x1;",
        " Fan 5 x",
        " Gate => [ h; ];",
        " Hall => 1 applies x;",
    ];
    filled(bytes, "properties\n", |n| broken[n % broken.len()].to_string() + "\n", "")
}

fn c_style(bytes: usize) -> String {
    filled(bytes, "properties\nA => 0x1", |_| ", 0x1".to_string(), ";")
}

fn comment_gap(bytes: usize) -> String {
    filled(bytes, "properties A\n", |_| "--\n".to_string(), "=> 1;")
}

fn long_identifier(bytes: usize) -> String {
    filled(bytes, "properties ", |n| ["abcdefg", "hijklmn", "OPQ_123"][n % 3].to_string(), " => 1;")
}

fn openers(bytes: usize) -> String {
    filled(bytes, "properties\n", |_| format!("A => {}1;\n", "-   ".repeat(64)), "")
}

/// About as deep as a tree gets, by forward parents alone: each product is the first operand of the next, and the second ones are missing, for
/// they would take events. At 32 KB there are 8,187 in one another.
fn products(bytes: usize) -> String {
    filled(bytes, "properties\na => 1", |_| "*   ".to_string(), ";")
}

/// Each sum is the first operand of the next, 5,458 at 32 KB. With four spaces each the longest text has fewer events than may be.
fn sums(bytes: usize) -> String {
    filled(bytes, "properties\na => 1", |_| "+  1  ".to_string(), ";")
}

/// Names of four letters or so keep the longest text below as many events as may be.
fn marks(bytes: usize) -> String {
    let values = [
        "Can=>(Modem,Plant::Yard,[Rate=>100;],-20..300);",
        "Cells::Load+=>Press*4-Base/25+(Yard,Line);",
        "Net=>[Low=>1.5;High=>-25;],Yard::Gate;",
    ];
    filled(bytes, "properties\n", |n| values[n % values.len()].to_string(), "")
}

/// A family: its name, whether it is read clean, and its text of up to so many bytes.
type Family = (&'static str, bool, fn(usize) -> String);

/// Families at every size.
fn at_sizes(families: &[Family]) -> Vec<Text> {
    let of_family = |(family, clean, make): &Family| SIZES.map(|bytes| Text { family, clean: *clean, bytes, text: make(bytes) });
    families.iter().flat_map(of_family).collect()
}

/// The texts of the value call.
pub fn values() -> Vec<Text> {
    at_sizes(&[("realistic with values", true, realistic_with_values), ("sums in a chain", true, sums)])
}

/// All others, the realistic ones first.
pub fn all() -> Vec<Text> {
    at_sizes(&[
        ("realistic", true, realistic),
        ("varied", true, varied),
        ("identifiers", false, identifiers),
        ("comments", true, comments),
        ("numbers and strings", true, numbers_and_strings),
        ("a string at the end", false, string_at_the_end),
        ("marks without spaces", true, marks),
        ("deep nesting", true, nested),
        ("errors everywhere", false, errors),
        ("0x1, 0x1, ..", false, c_style),
        ("comments between two tokens", true, comment_gap),
        ("one long identifier", true, long_identifier),
        ("64 openers over and over", true, openers),
        ("products in a chain", false, products),
        ("sums in a chain", true, sums),
    ])
}
