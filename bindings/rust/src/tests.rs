//! The tree of small texts, written with a bracket and the kind for each node, the text for each token, and a message's number; refusals,
//! tokens of events, parts of numbers, values, places and limits.
use super::*;

/// As many event words as can be used.
const ENOUGH: usize = EVENT_WORDS * MOST_EVENTS;

fn shape(text: &str) -> String {
    let (mut tokens, mut events) = (vec![0; 256], vec![0; 512]);
    let section = property_section(text.as_bytes(), &mut tokens, &mut events).expect("not refused");
    let mut out = String::new();
    for step in section.nodes() {
        match step.node {
            Node::Enter(kind) => out += &format!("({kind} "),
            Node::Token(_) => out += &format!("{} ", &text[step.place..step.end]),
            Node::Leave => out += ") ",
            Node::Error(message) => out += &format!("!{} ", message.number()),
        }
    }
    out.trim_end().to_string()
}

/// The shape of one value.
fn value(text: &str) -> String {
    let all = shape(&format!("properties A => {text};"));
    let begin = "(PROPERTY_SECTION properties (PROPERTY_ASSOCIATION (PROPERTY_REF A ) => ";
    let end = " ; ) )";
    all.strip_prefix(begin).and_then(|t| t.strip_suffix(end)).unwrap_or_else(|| panic!("{all}")).to_string()
}

#[test]
fn a_section_without_associations() {
    assert_eq!(shape("properties none;"), "(PROPERTY_SECTION properties none ; )");
    assert_eq!(shape("  properties -- nothing"), "(PROPERTY_SECTION properties )");
}

#[test]
fn a_value_with_a_unit() {
    assert_eq!(value("1 ms"), "(INTEGER_VALUE 1 ms )");
}

#[test]
fn a_sign_is_below_the_sum() {
    assert_eq!(value("-1 + 2"), "(BINARY_EXPR (PROPERTY_EXPRESSION - (INTEGER_VALUE 1 ) ) + (INTEGER_VALUE 2 ) )");
}

#[test]
fn products_and_sums_lean_left() {
    let three = "(BINARY_EXPR (BINARY_EXPR (PROPERTY_EXPRESSION a ) * (PROPERTY_EXPRESSION b ) ) * (PROPERTY_EXPRESSION c ) )";
    assert_eq!(value("a * b * c"), three);
    let product = "(BINARY_EXPR (INTEGER_VALUE 2 ) * (INTEGER_VALUE 3 ) )";
    let sum = format!("(BINARY_EXPR (BINARY_EXPR (INTEGER_VALUE 1 ) + {product} ) - (INTEGER_VALUE 4 ) )");
    assert_eq!(value("1 + 2 * 3 - 4"), sum);
}

#[test]
fn a_range_is_around_its_ends() {
    assert_eq!(value("1 .. 2"), "(RANGE_VALUE (INTEGER_VALUE 1 ) .. (INTEGER_VALUE 2 ) )");
    let sum = "(BINARY_EXPR (INTEGER_VALUE 1 ) + (INTEGER_VALUE 2 ) )";
    let delta = "(DELTA_VALUE delta (INTEGER_VALUE 4 ) )";
    assert_eq!(value("1 + 2 .. 3 delta 4"), format!("(RANGE_VALUE {sum} .. (INTEGER_VALUE 3 ) {delta} )"));
}

#[test]
fn not_holds_the_range() {
    assert_eq!(value("not 1 .. 2"), "(BOOLEAN_VALUE not (RANGE_VALUE (INTEGER_VALUE 1 ) .. (INTEGER_VALUE 2 ) ) )");
}

#[test]
fn forward_parents_are_as_01_says() {
    let (mut tokens, mut events) = ([0; 32], [0; 64]);
    let section = property_section(b"properties A => 1 .. 2;", &mut tokens, &mut events).expect("not refused");
    assert_eq!(section.events().count(), 19);
    assert_eq!(section.event(7).map(|p| p.event), Some(Event::Start { kind: Kind::INTEGER_VALUE, forward_parent: Some(3) }));
    assert!(section.is_clean());
}

/// The token of each event.
fn event_tokens(text: &str) -> Vec<usize> {
    let (mut tokens, mut events) = (vec![0; 256], vec![0; 512]);
    let section = property_section(text.as_bytes(), &mut tokens, &mut events).expect("not refused");
    section.events().map(|pushed| pushed.token).collect()
}

/// A Token has its own, all others the next one's; at the end it is how many there are, trivia too.
#[test]
fn events_have_their_tokens() {
    assert_eq!(event_tokens("properties"), [0, 0, 1]);
    assert_eq!(event_tokens(" properties none; -- end"), [1, 1, 3, 4, 7]);
    assert_eq!(event_tokens("properties\n  A => 1 ms;\n"), [0, 0, 2, 2, 2, 4, 4, 6, 6, 8, 9, 9, 11, 11]);
    assert_eq!(event_tokens("properties A => ; }"), [0, 0, 2, 2, 2, 4, 4, 6, 6, 8, 8]);
    assert_eq!(event_tokens("properties A 1 applies to "), [0, 0, 2, 2, 2, 4, 4, 4, 4, 6, 6, 6, 8, 10, 10, 10, 10, 10, 10]);
}

/// The Starts that are put around `1` have the tokens behind it and behind the product; completing these nodes leaves each Start its token.
#[test]
fn preceding_and_completing_leave_tokens() {
    let (mut tokens, mut events) = ([0; 32], [0; 64]);
    let section = property_section(b"properties A => 1 * 2 .. 3;", &mut tokens, &mut events).expect("not refused");
    let starts = section.events().filter_map(|p| if let Event::Start { kind, .. } = p.event { Some((kind, p.token)) } else { None });
    let wanted = [
        (Kind::PROPERTY_SECTION, 0),
        (Kind::PROPERTY_ASSOCIATION, 2),
        (Kind::PROPERTY_REF, 2),
        (Kind::INTEGER_VALUE, 6),
        (Kind::BINARY_EXPR, 8),
        (Kind::INTEGER_VALUE, 10),
        (Kind::RANGE_VALUE, 12),
        (Kind::INTEGER_VALUE, 14),
    ];
    assert!(starts.eq(wanted));
    let entered = section.nodes().filter_map(|step| if let Node::Enter(kind) = step.node { Some((kind, step.token)) } else { None });
    let wanted = [
        (Kind::PROPERTY_SECTION, 0),
        (Kind::PROPERTY_ASSOCIATION, 2),
        (Kind::PROPERTY_REF, 2),
        (Kind::RANGE_VALUE, 6),
        (Kind::BINARY_EXPR, 6),
        (Kind::INTEGER_VALUE, 6),
        (Kind::INTEGER_VALUE, 10),
        (Kind::INTEGER_VALUE, 14),
    ];
    assert!(entered.eq(wanted));
}

/// Fewer than two words have room for no event: an odd last word is like none, and stays as it was.
#[test]
fn an_odd_event_word_is_not_used() {
    let text = b"properties A => 1;";
    let call = |lent: usize| {
        let (mut tokens, mut events) = (vec![7; 8], vec![7; lent]);
        let read = property_section(text, &mut tokens, &mut events).map(|section| section.events().count());
        (read.map_err(|r| (r.refusal, r.place)), events)
    };
    let refused = |place| Err((Refusal::NoEventWord, place));
    for (lent, place) in [(0, 0), (1, 0), (2, 0), (3, 0), (4, 11), (5, 11), (24, 18), (25, 18)] {
        assert_eq!(call(lent), (refused(place), vec![0; lent]), "{lent} words");
    }
    for lent in [26, 27, 28] {
        let (read, events) = call(lent);
        assert_eq!((read, events[25], events[26..].to_vec()), (Ok(13), 8, vec![7; lent - 26]));
    }
}

/// Words that no call left: an event without its second word is none.
#[test]
fn any_event_words_are_taken_apart() {
    let section = Section { text: b"", token_words: &[], event_words: &[11_075_584, 9, 33_554_432], taken: 0 };
    let start = Pushed { event: Event::Start { kind: Kind::PROPERTY_SECTION, forward_parent: None }, token: 9 };
    assert!(section.events().eq([start]));
    assert_eq!((section.event(1), section.event(usize::MAX)), (None, None));
    assert_eq!(section.nodes().count(), 1);
    assert_eq!(Pushed::of([u32::MAX, 0]), None);
}

/// Where tokens and nodes start: at the text's end where there is no token.
#[test]
fn tokens_and_nodes_have_places() {
    let text = "properties\n  A => \"ü\",\n\t1 + 2\n applies to ".as_bytes();
    let (mut tokens, mut events, mut records) = ([0; 64], [0; 128], [0; 64]);
    let tree = property_tree(text, &mut tokens, &mut events, &mut records).expect("not refused");
    let section = tree.section;
    assert!(section.tokens().enumerate().all(|(number, token)| section.token_place(number) == token.range.start));
    let behind = section.token_words.len();
    assert_eq!([behind, behind + 1, usize::MAX].map(|number| section.token_place(number)), [text.len(); 3]);
    assert_eq!(section.token_position(behind).to_string(), "line 4, column 13");
    let nodes: Vec<String> = (0..tree.len()).map(|n| format!("{} {}", tree.node(n).kind, tree.position(n))).collect();
    let wanted = [
        "PROPERTY_SECTION line 1, column 1",
        "PROPERTY_ASSOCIATION line 2, column 3",
        "PROPERTY_REF line 2, column 3",
        "STRING_VALUE line 2, column 8",
        "BINARY_EXPR line 3, column 2",
        "INTEGER_VALUE line 3, column 2",
        "INTEGER_VALUE line 3, column 6",
        "APPLIES_TO line 4, column 2",
        "CONTAINMENT_PATH line 4, column 13",
    ];
    assert_eq!(nodes, wanted);
}

#[test]
fn errors_stand_where_they_are() {
    assert_eq!(value(""), "!5");
    assert_eq!(value("0x1F"), "(ERROR !4 0x1F )");
    let association = "(PROPERTY_ASSOCIATION (PROPERTY_REF A ) !1 (INTEGER_VALUE 1 ) !261 )";
    assert_eq!(shape("properties A 1"), format!("(PROPERTY_SECTION properties {association} )"));
}

#[test]
fn what_is_refused() {
    let call = |text: &[u8], t: usize, e: usize| {
        let (mut tokens, mut events) = (vec![1; t], vec![1; e]);
        let refused = property_section(text, &mut tokens, &mut events).map(|_| ()).expect_err("refused");
        assert!(tokens.iter().chain(&events).all(|w| *w == 0));
        refused
    };
    let at = |refusal, place| Refused { refusal, place };
    let deep = format!("properties A => {}1;", "+".repeat(65));
    assert_eq!(call(&[b' '; MOST_BYTES + 1], 2, 2), at(Refusal::TooLong, MOST_BYTES));
    assert_eq!(call(b"properties \xff", 9, 9), at(Refusal::NotUtf8, 11));
    assert_eq!(call(b"properties none;", 3, 9), at(Refusal::NoTokenWord, 15));
    assert_eq!(call(b"", 0, 0), at(Refusal::NoProperties, 0));
    assert_eq!(call(b"properties none;", 4, 9), at(Refusal::NoEventWord, 16));
    assert_eq!(call(b"properties none;", 4, 4), at(Refusal::NoEventWord, 11));
    assert_eq!(call(deep.as_bytes(), 100, 600), at(Refusal::TooDeep, 80));
    assert_eq!(call(b"properties A => \"a\"\";", 7, 99), at(Refusal::UnclosedString, 16));
    assert_eq!(call(b"properties A => \"a\"\";", 6, 99), at(Refusal::NoTokenWord, 16));
    assert_eq!(call(b"A => \"1", 9, 0), at(Refusal::UnclosedString, 5));
}

#[test]
fn too_few_records_are_refused() {
    let call = |text: &[u8], t: usize, e: usize, r: usize| {
        let (mut tokens, mut events, mut records) = (vec![1; t], vec![1; e], vec![1; r]);
        let refused = property_tree(text, &mut tokens, &mut events, &mut records).map(|_| ()).expect_err("refused");
        assert!(tokens.iter().chain(&events).chain(&records).all(|w| *w == 0));
        refused
    };
    let at = |refusal, place| Refused { refusal, place };
    let text = b" properties A => 1 applies to ";
    assert_eq!(call(text, 30, 60, 0), at(Refusal::NoRecord, 1));
    assert_eq!(call(text, 30, 60, 3), at(Refusal::NoRecord, 1));
    assert_eq!(call(text, 30, 60, 4), at(Refusal::NoRecord, 12));
    assert_eq!(call(text, 30, 60, 15), at(Refusal::NoRecord, 17));
    assert_eq!(call(text, 30, 60, 23), at(Refusal::NoRecord, text.len()));
    assert_eq!(call(text, 30, 7, 3), at(Refusal::NoEventWord, 12));
    assert_eq!(call(b"none;", 2, 0, 0), at(Refusal::NoProperties, 0));
    assert_eq!(call(b"none; \"", 9, 0, 0), at(Refusal::UnclosedString, 6));
}

/// The last two messages stand at one place, with an empty node between them.
#[test]
fn messages_stand_in_the_tree() {
    let (mut tokens, mut events, mut records) = ([0; 32], [0; 128], [0; 64]);
    let tree = property_tree(b"properties A 1 + applies", &mut tokens, &mut events, &mut records).expect("not refused");
    let told: Vec<_> = tree.errors().map(|m| (m.message.number(), tree.node(m.node).kind, m.nodes, m.tokens, m.place)).collect();
    let wanted = [
        (1, Kind::PROPERTY_ASSOCIATION, 3, 2, 13),
        (5, Kind::BINARY_EXPR, 5, 4, 17),
        (341, Kind::APPLIES_TO, 6, 5, 24),
        (261, Kind::PROPERTY_ASSOCIATION, 7, 5, 24),
    ];
    assert_eq!(told, wanted);
}

#[test]
fn the_text_of_each_token() {
    let text = b"properties A => 1 ms;";
    let mut words = [9; 16];
    let filled = tokenize(text, &mut words).expect("not refused").to_vec();
    let texts: Vec<&[u8]> = (0..filled.len()).map(|n| token_text(text, &filled, n)).collect();
    assert_eq!(texts.concat(), text);
    assert!(tokens(&filled).zip(&texts).all(|(t, part)| &text[t.range] == *part));
    assert_eq!(token_text(text, &filled, filled.len()), b"");
    assert_eq!(token_text(b"ab", &[1, 2], 1), b"");
    assert_eq!(words[filled.len()..], [9; 16][filled.len()..]);
}

/// What is told of the token with which a text begins.
fn first(text: &str) -> Option<Number> {
    let mut words = [0; 8];
    number_parts(text.as_bytes(), tokenize(text.as_bytes(), &mut words).expect("not refused"), 0)
}

#[test]
fn numbers_have_their_parts() {
    let (integer, real) = (Kind::INTEGER_LIT, Kind::REAL_LIT);
    let examples = [
        ("16#1F#", integer, 0..2, 3..5, true, false),
        ("2#1_0#E3", real, 0..1, 2..5, true, true),
        ("16#F.E#e-2", real, 0..2, 3..6, true, true),
        ("16#F#e", real, 0..2, 3..4, true, true),
        ("16#F.E#", real, 0..2, 3..6, true, false),
        ("16#1E5", integer, 0..2, 3..6, false, false),
        ("16#.", real, 0..2, 3..4, false, false),
        ("16#", integer, 0..2, 3..3, false, false),
        ("16##", integer, 0..2, 3..3, true, false),
        ("16##E+", real, 0..2, 3..3, true, true),
        ("0#1", integer, 0..1, 2..3, false, false),
        ("0", integer, 0..0, 0..1, false, false),
        ("00", integer, 0..0, 0..2, false, false),
        ("1_000", integer, 0..0, 0..5, false, false),
        ("3.14e+5", real, 0..0, 0..4, false, true),
        ("1.", real, 0..0, 0..2, false, false),
        ("1.E-", real, 0..0, 0..2, false, true),
        ("1e", real, 0..0, 0..1, false, true),
        ("0x1F", Kind::ERROR, 0..0, 0..0, false, false),
        ("0B1_e", Kind::ERROR, 0..0, 0..0, false, false),
    ];
    for (text, kind, base, inner, closed, exponent) in examples {
        assert_eq!(first(text), Some(Number { kind, len: text.len(), base, inner, closed, exponent }), "{text}");
    }
}

/// What stands behind a number's token is no part of it.
#[test]
fn numbers_end_with_their_tokens() {
    let told = |text: &str| first(text).map(|n| (n.kind, n.len, n.base, n.inner, n.closed, n.exponent));
    let (integer, real) = (Kind::INTEGER_LIT, Kind::REAL_LIT);
    assert_eq!(told("1_e"), Some((integer, 2, 0..0, 0..2, false, false)));
    assert_eq!(told("1..2"), Some((integer, 1, 0..0, 0..1, false, false)));
    assert_eq!(told("1_0.5"), Some((integer, 3, 0..0, 0..3, false, false)));
    assert_eq!(told("1e5e5"), Some((real, 3, 0..0, 0..1, false, true)));
    assert_eq!(told("16#1E+5"), Some((integer, 5, 0..2, 3..5, false, false)));
    assert_eq!(told("16#1G#"), Some((integer, 4, 0..2, 3..4, false, false)));
    assert_eq!(told("16#1##"), Some((integer, 5, 0..2, 3..4, true, false)));
    assert_eq!(told("0x1F#"), Some((Kind::ERROR, 4, 0..0, 0..0, false, false)));
    assert_eq!(told("0xG"), Some((integer, 1, 0..0, 0..1, false, false)));
}

/// Base and inner digits of each token of a section that is a number, by the numbers of all tokens and by those of the steps.
#[test]
fn numbers_of_a_section() {
    let text = b"properties A1 => 16#1F# ms .. 2.5e3; -- 7\n B => (\"8\", 0x1F, -1_0) applies to g[3];";
    let (mut tokens, mut events) = ([0; 64], [0; 128]);
    let section = property_section(text, &mut tokens, &mut events).expect("not refused");
    let told = |token: usize| {
        let Number { base, inner, .. } = number_parts(text, section.token_words, token)?;
        let literal = std::str::from_utf8(token_text(text, section.token_words, token)).expect("UTF-8");
        Some((token, &literal[base], &literal[inner]))
    };
    let wanted = [(6, "16", "1F"), (12, "", "2.5"), (25, "", ""), (29, "", "1_0"), (38, "", "3")];
    assert!((0..section.token_words.len()).filter_map(told).eq(wanted));
    let taken = section.nodes().filter(|step| matches!(step.node, Node::Token(_)));
    assert!(taken.filter_map(|step| told(step.token)).eq(wanted));
}

#[test]
fn other_tokens_are_no_numbers() {
    let others = ["\"16#1F#\"", "--16#1F#", " 1", "#1", ".1", "e1", "-1", "::", "properties", "\u{b2}", "\u{661}"];
    assert!(others.iter().all(|text| first(text).is_none()));
}

/// A literal is told only where it stands, with its own kind, eight bits of the word, and its own length.
#[test]
fn any_words_tell_a_number_or_none() {
    let word = |kind: Kind, len: u32| kind.number() * 65_536 + len;
    let told = |before: u32, word: u32| number_parts(b" 16#1F#", &[before, word], 1);
    let inner = |before: u32, len: u32| told(before, word(Kind::INTEGER_LIT, len)).map(|n| (n.len, n.inner));
    assert_eq!(inner(1, 6), Some((6, 3..5)));
    assert_eq!(inner(2, 5), Some((5, 2..4)));
    assert_eq!(inner(4, 1), Some((1, 0..1)));
    assert_eq!(told(1, word(Kind::INTEGER_LIT, 6) + 7 * 16_777_216), told(1, word(Kind::INTEGER_LIT, 6)));
    let wrong_places = [(0, 6), (0, 7), (2, 6), (3, 1), (5, 1), (7, 0), (7, 1), (8, 1), (65_535, 6)];
    let wrong_lengths = [0, 1, 2, 5, 7, 65_535].map(|len| (1, len));
    assert!(wrong_places.into_iter().chain(wrong_lengths).all(|(before, len)| inner(before, len).is_none()));
    let wrong_kinds = Kind::ALL.iter().filter(|kind| **kind != Kind::INTEGER_LIT);
    assert!(wrong_kinds.map(|kind| told(1, word(*kind, 6))).all(|number| number.is_none()));
}

#[test]
fn tokens_that_are_not_there_are_no_numbers() {
    let one = Kind::INTEGER_LIT.number() * 65_536 + 1;
    assert!(number_parts(b"1", &[one], 0).is_some());
    assert!([1, 2, usize::MAX].iter().all(|number| number_parts(b"1", &[one], *number).is_none()));
    assert_eq!(number_parts(b"1", &[], 0), None);
    assert_eq!(number_parts(b"1", &[one, one], 1), None);
    assert_eq!(number_parts(b"1", &[u32::MAX, u32::MAX, one], 2), None);
    assert_eq!((number_parts(b"", &[], 0), number_parts(b"", &[one], 0), number_parts(b"", &[one - 1], 0)), (None, None, None));
}

/// The text may be any, too: one that the other calls refuse, with numbers of up to as many bytes as a word can tell.
#[test]
fn any_text_has_numbers() {
    let integer = Kind::INTEGER_LIT.number() * 65_536;
    assert!(number_parts(b"\xff1", &[1, integer + 1], 1).is_some());
    let longest = "1".repeat(65_535);
    assert_eq!(number_parts(longest.as_bytes(), &[integer + 65_535], 0).map(|n| n.inner), Some(0..65_535));
    let longer = longest + "1";
    assert!([0, 65_535].iter().all(|len| number_parts(longer.as_bytes(), &[integer + len], 0).is_none()));
}

/// The value of an association, or the refusal's number and place.
fn valued(text: &str, number: usize) -> Result<i64, (usize, usize)> {
    let (mut tokens, mut events) = (vec![7; MOST_BYTES], vec![7; ENOUGH]);
    association_value(text.as_bytes(), &mut tokens, &mut events, number).map_err(|r| (r.refusal.number(), r.place))
}

/// The same for a section's only association, which is at 11, its value at 16.
fn computed(value: &str) -> Result<i64, (usize, usize)> {
    valued(&format!("properties A => {value};"), 0)
}

#[test]
fn constants_have_their_value() {
    let examples = [
        ("0", 0),
        ("-0", 0),
        ("007", 7),
        ("1_000_", 1_000),
        ("+ - 5", -5),
        ("2 - 3 - 4", -5),
        ("1 + 2 * 3", 7),
        ("2 * 3 - 4 * 5", -14),
        ("- - 1 * - + 2", -2),
        ("1 -- 2\n + 3", 4),
        ("16#F_F# + 2 * 3", 261),
        ("0016#_f#", 15),
        ("3#2_1_0#", 21),
        ("9223372036854775807", i64::MAX),
        ("16#7FFF_FFFF_FFFF_FFFF#", i64::MAX),
        ("-9223372036854775807 - 1", i64::MIN),
        ("4294967296 * -2147483648", i64::MIN),
    ];
    for (value, wanted) in examples {
        assert_eq!(computed(value), Ok(wanted), "{value}");
    }
}

/// A literal counts without its sign; then the left operand, the right one, the operator.
#[test]
fn values_keep_to_the_range() {
    let examples = [
        ("9223372036854775808", 16),
        ("-9223372036854775808", 17),
        ("16#8000_0000_0000_0000#", 16),
        ("-9223372036854775807 - 2", 37),
        ("9223372036854775807 + 1 - 1", 36),
        ("3037000500 * 3037000500", 27),
        ("9223372036854775807 + 9223372036854775808", 38),
        ("9223372036854775808 * 0", 16),
        ("9223372036854775807 * 2 + 9223372036854775808", 36),
        ("1 + 3037000500 * 3037000500 - 9223372036854775808", 31),
    ];
    for (value, place) in examples {
        assert_eq!(computed(value), Err((10, place)), "{value}");
    }
}

#[test]
fn what_is_no_constant_has_no_value() {
    let based = ["16#F", "16#_#", "16##", "10#F#", "17#1#", "1#0#", "0#0#", "9223372036854775807 * 2 * 16#F"];
    let others = ["1 ms", "4 / 2", "1 .. 2", "(1)", "-(1)", "1.0", "1e3", "a", "1 + a::b", "-a", "\"1\"", "true", "not 1", "[a => 1;]"];
    for value in based.iter().chain(&others).chain(&["9223372036854775808 + 1 ms"]) {
        assert_eq!(computed(value), Err((9, 11)), "{value}");
    }
}

#[test]
fn associations_count_from_0() {
    let two = "properties A => 1 ms, 2; B :: C +=> constant 5 in modes (m), 6;";
    assert_eq!([0, 1, 2, usize::MAX].map(|number| valued(two, number)), [Err((9, 11)), Ok(5), Err((9, 63)), Err((9, 63))]);
    for text in ["properties none;", "properties A => 1; }", "properties A => 1; B => ; --", "properties A => 9223372036854775808"] {
        assert_eq!(valued(text, 0), Err((9, text.len())), "{text}");
    }
}

/// The section call's words are left; or zeros, where the other refusals come first.
#[test]
fn values_leave_the_sections_words() {
    let call = |text: &[u8], t: usize, e: usize| {
        let (mut tokens, mut events) = (vec![7; t], vec![7; e]);
        let value = association_value(text, &mut tokens, &mut events, 0).map_err(|r| (r.refusal.number(), r.place));
        assert!(value.is_ok() || tokens.iter().chain(&events).all(|word| *word == 0));
        (value, tokens, events)
    };
    let text = b"properties A => 1 - 3;";
    let (mut tokens, mut events) = (vec![7; 13], vec![7; 39]);
    property_section(text, &mut tokens, &mut events).expect("not refused");
    assert_eq!((events[37], events[38]), (12, 7));
    assert_eq!(call(text, 13, 39), (Ok(-2), tokens, events));
    assert_eq!(call(&[b' '; MOST_BYTES + 1], 2, 2).0, Err((1, MOST_BYTES)));
    assert_eq!(call(b"properties A => 1 ms; \xff", 30, 60).0, Err((2, 22)));
    assert_eq!(call(b"properties A => 1 ms;", 9, 60).0, Err((3, 20)));
    assert_eq!(call(b"A => 1 ms; \"", 30, 0).0, Err((8, 11)));
    assert_eq!(call(b"A => 1 ms;", 30, 0).0, Err((4, 0)));
    assert_eq!(call(b"properties A => 1 ms;", 30, 27).0, Err((5, 21)));
    assert_eq!(call(format!("properties A => {}a;", "+".repeat(65)).as_bytes(), 100, 600).0, Err((6, 80)));
    assert_eq!(call(b"properties A => 1 ms;", 30, 28).0, Err((9, 11)));
    assert_eq!(call(b"properties A => 1 * 9223372036854775808;", 30, 60).0, Err((10, 20)));
}

/// As many operators as there can be, one more, and 64 signs.
#[test]
fn long_sums_have_their_value() {
    assert_eq!(computed(&format!("0{}", "+1".repeat(5_459))), Ok(5_459));
    assert_eq!(computed(&format!("0{}", "+1".repeat(5_460))), Err((5, 10_937)));
    assert_eq!(computed(&format!("9223372036854773079{}", "+1".repeat(5_459))), Err((10, 5_491)));
    assert_eq!(computed(&format!("{}1", "-+".repeat(32))), Ok(1));
}

/// The steps through an association with an empty node and no semicolon, with spaces around all.
#[test]
fn steps_say_where_they_are() {
    let (mut tokens, mut events) = ([0; 32], [0; 64]);
    let section = property_section(b" properties A =>1 applies to ", &mut tokens, &mut events).expect("not refused");
    let at = |node| section.nodes().find(|step| step.node == node).map(|s| (s.depth, s.token, s.place, s.end));
    assert_eq!(at(Node::Enter(Kind::PROPERTY_SECTION)), Some((0, 1, 1, 0)));
    assert_eq!(at(Node::Token(Kind::PROPERTIES_KW)), Some((1, 1, 1, 11)));
    assert_eq!(at(Node::Enter(Kind::PROPERTY_REF)), Some((2, 3, 12, 11)));
    assert_eq!(at(Node::Leave), Some((2, 5, 14, 13)));
    assert_eq!(at(Node::Enter(Kind::CONTAINMENT_PATH)), Some((3, 12, 29, 28)));
    assert_eq!(at(Node::Error(Message::Missing(Kind::SEMICOLON))), Some((2, 12, 29, 28)));
    assert_eq!(section.nodes().last().map(|s| (s.node, s.depth, s.end)), Some((Node::Leave, 0, 28)));
}

#[test]
fn places_have_lines_and_columns() {
    let text = "properties\n  A => \"ü\";\n\n".as_bytes();
    let at = |place| position(text, place).to_string();
    assert_eq!(at(0), "line 1, column 1");
    assert_eq!(at(10), "line 1, column 11");
    assert_eq!(at(11), "line 2, column 1");
    assert_eq!(at(18), "line 2, column 8");
    assert_eq!(at(22), "line 2, column 11");
    assert_eq!(at(24), "line 3, column 1");
    assert_eq!((at(25), at(99)), ("line 4, column 1".to_string(), "line 4, column 1".to_string()));
    assert_eq!(position(b"", 0), Position { line: 1, column: 1 });
}

#[test]
fn what_is_clean() {
    let clean = |text: &[u8]| property_section(text, &mut [0; 32], &mut [0; 64]).expect("not refused").is_clean();
    assert!(clean(b"properties A => 1 applies to ; -- all"));
    assert!(!clean(b"properties A => ;"));
    assert!(!clean(b"properties A => 1; }"));
}

/// What the limits' comments say.
#[test]
fn how_many_words_are_enough() {
    let refused = |text: &str, lent_tokens, lent_events| {
        let (mut tokens, mut events) = (vec![0; lent_tokens], vec![0; lent_events]);
        property_section(text.as_bytes(), &mut tokens, &mut events).map(|section| section.events().count()).map_err(|r| r.refusal)
    };
    let dense = format!("properties{}", ";".repeat(MOST_BYTES - 10));
    assert_eq!(refused(&dense, MOST_BYTES, ENOUGH), Ok(3));
    let long = format!("properties a=>{}", "1,".repeat(16_377));
    assert_eq!(long.len(), MOST_BYTES);
    assert_eq!(refused(&long, MOST_BYTES, ENOUGH), Err(Refusal::NoEventWord));
    assert_eq!(refused(&long, MOST_BYTES, 4 * ENOUGH), Err(Refusal::NoEventWord));
    let full = format!("properties a=>1 s,1 s,1 s{};", ",1".repeat(8_186));
    assert_eq!(refused(&full, MOST_BYTES, ENOUGH), Ok(MOST_EVENTS));
    assert_eq!(refused(&full, MOST_BYTES, ENOUGH - 1), Err(Refusal::NoEventWord));
    let (mut tokens, mut events, mut records) = (vec![0; MOST_BYTES], vec![0; ENOUGH], vec![0; Tree::RECORD * MOST_NODES]);
    assert!(property_tree(full.as_bytes(), &mut tokens, &mut events, &mut records).is_ok());
}

#[test]
fn refusals_are_errors() {
    let error: Box<dyn std::error::Error> = Box::new(tokenize(b"A;", &mut [0]).expect_err("refused"));
    assert_eq!(error.to_string(), "more tokens than the tool has room for (refusal 3 at byte 1)");
}

/// Words go into columns: each `Display` keeps to a width that is asked for.
#[test]
fn words_have_a_width() {
    assert_eq!(format!("{:>18}|", position(b"", 0)), "  line 1, column 1|");
    assert_eq!(format!("{:8}|{:>8}|", Kind::IDENT, Kind::EOF), "IDENT   |     EOF|");
    assert_eq!(format!("{:18}|{:14}|", Message::NoName, Message::Missing(Kind::SEMICOLON)), "no property name  |expected `;`  |");
    let refused = Refused { refusal: Refusal::TooDeep, place: 9 };
    assert_eq!(format!("{refused:50}|"), "nested more than 64 deep (refusal 6 at byte 9)    |");
    assert_eq!(format!("{:>26}", refused.refusal), "  nested more than 64 deep");
}
