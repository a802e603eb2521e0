//! A small mix of records, for a run on every check.
use crate::programs::{answer, groups, Form, Program, Record, TOKENS_ONLY};
use crate::source::{Call, Source, EVENT, EVENTS_OF_A_BYTE, RECORD};
use texts::families::Maker;

/// Event words in plenty for a text.
fn enough_events(text: &[u8]) -> u32 {
    (EVENT * EVENTS_OF_A_BYTE * text.len()) as u32
}

/// The texts that 01 names.
fn named_texts() -> Vec<Vec<u8>> {
    let mut all: Vec<Vec<u8>> = [
        "0x1F",
        "00x1",
        "0b2",
        "1..2",
        "1.",
        "10eV",
        "\"\"\"",
        "1_0.5",
        "",
        "properties",
        "properties none;",
        "properties A => ;",
        "properties A => 1 .. 2;",
        "properties A => 0x1F;",
        "properties\n  A => 1 ms;\n",
        "properties a :: in :",
        "properties A => -1 + 2;",
        "properties A => not 1 .. 2;",
        "properties A => 1 applies to ;",
    ]
    .map(|t| t.as_bytes().to_vec())
    .to_vec();
    for n in [64, 65] {
        all.push(format!("properties A => {}1;", "+".repeat(n)).into_bytes());
    }
    all
}

/// Texts of the greatest length and one byte more; then as many tokens as there can be, with a word for each and one short.
fn greatest() -> Vec<Record> {
    let make = |piece: &str, n: usize, tokens: u32| Record {
        family: 0,
        text: piece.repeat(n).into_bytes(),
        tokens,
        events: TOKENS_ONLY,
        form: Form::Plain,
    };
    vec![make("x", 32_768, 1), make("x", 32_769, 2), make("+", 32_768, 32_768), make("+", 32_768, 32_767)]
}

/// A mix of all families, the texts that 01 names first and the longest ones last.
pub fn sample(count: usize, sections: bool) -> Vec<Record> {
    let mut source = Source::new(1, if sections { Call::Section } else { Call::Tokens });
    let mut records = Vec::new();
    for text in named_texts() {
        let (tokens, events) = (text.len() as u32, if sections { enough_events(&text) } else { TOKENS_ONLY });
        records.push(Record { family: 0, text, tokens, events, form: Form::Plain });
    }
    let end = if sections { Vec::new() } else { greatest() };
    while records.len() + end.len() < count {
        let at = records.len() % source.families.len();
        let text = match &mut source.families[at].maker {
            Maker::Every(e) => e.next(),
            Maker::Random(_, make) => Some(make(&mut source.rng)),
        };
        let Some(text) = text.filter(|t| t.len() < 400) else { continue };
        let enough = text.len();
        let tokens = if sections { enough as u32 } else { source.lent(enough) };
        let events = if sections { source.lent_events(enough) } else { TOKENS_ONLY };
        records.push(Record { family: at, text, tokens, events, form: Form::Plain });
    }
    records.extend(end);
    records.truncate(count);
    records
}

/// Texts whose trees have chains of forward parents, empty nodes or errors; one that is no UTF-8, and two with a string that is not closed.
const TREES: [&[u8]; 11] = [
    b"properties A => 1 + 2 * 3 - 4 + 5;",
    b"properties A => 1 * 2 * 3 .. 4 + 5 delta 6;",
    b"properties A => (1, (), [b => 2; c => ;]) in modes ();",
    b"properties A => classifier (p::q.i (r => in data s, t => )) applies to x[1].y, ;",
    b"properties -- note\n  A += > 1; end",
    b"properties A => not (1 + -2) and true; B => ;",
    b"properties A => 1 + ;",
    b"properties A => [",
    b"properties A => \xC3;",
    b"properties A => \"a;",
    b"properties A => (\"a\"\", \"b\");",
];

/// Records of the extended form: of each text the section call and the tokens-only call; and the tree call with words in plenty, with no record word and with
/// three. Then, by the oracle's answers, with exactly as many words, three more, one fewer and one record fewer; with an event word more, which no event has; and
/// with an event word or a token word too few.
pub fn extended(oracle: &Program) -> Vec<Record> {
    let texts = named_texts().into_iter().chain(TREES.map(<[u8]>::to_vec));
    let (mut records, mut whole) = (Vec::new(), Vec::new());
    for text in texts {
        let bytes = text.len() as u32;
        let plenty = Record { family: 0, tokens: bytes, events: enough_events(&text), text, form: Form::Tree(16 * bytes + 3) };
        records.push(Record { form: Form::Extended, ..plenty.clone() });
        records.push(Record { form: Form::Extended, events: TOKENS_ONLY, ..plenty.clone() });
        records.extend([0, 3].map(|words| Record { form: Form::Tree(words), ..plenty.clone() }));
        records.push(Record { events: TOKENS_ONLY, ..plenty.clone() });
        whole.push(plenty);
    }
    let output = oracle.output(&whole);
    for (record, group) in whole.iter().zip(groups(&output)) {
        records.push(record.clone());
        let [0, _, tokens, _, events, nodes] = answer(group).expect("an answer") else { continue };
        let (tokens, events, exact) = (tokens as u32, EVENT as u32 * events as u32, RECORD as u32 * nodes as u32);
        let mut ask = |tokens, events, words| records.push(Record { tokens, events, form: Form::Tree(words), ..record.clone() });
        for words in [exact, exact + 3, exact - 1, exact - RECORD as u32] {
            ask(tokens, events, words);
        }
        for events in [events + 1, events - 1] {
            ask(tokens, events, exact);
        }
        ask(tokens - 1, events, exact);
    }
    records
}

/// Numbers of each form, whole or broken off; some have another token behind them.
const NUMBERS: [&str; 22] = [
    "16#1F#", "2#1_0#E3", "16#F.E#e-2", "1_000", "3.14e+5", "1.", "1e", "16#", "16##", "0x1F", "00", "0#1", "1_e", "16#1E5", "16#1E+5", "1_#0#", "16#._#",
    "16#f##", "16##e+", "10eV", "0B1_z", "0xg",
];

/// Texts of several tokens, with and without numbers; some are refused 2 or 8, where no token has parts.
const AMONG: [&[u8]; 9] = [
    b"properties A => 16#1F# ms .. -3.14e+5 * (1_000, 0x1F);",
    b"1..2",
    b"1_0.5",
    b"00x1 0b2\n0o17",
    b"--16#1F#\n16#1F#--1",
    b"'1' \"16#1F#\"#2",
    b"",
    b"16#1F# \xC3",
    b"16#1F# \"1",
];

/// Records that ask for the parts of numbers: of each text the first token, with event words and without; then, by the oracle's answers, each other token and
/// one beyond, the greatest number, and the first token with a token word too few.
pub fn numbers(oracle: &Program) -> Vec<Record> {
    let texts = NUMBERS.map(str::as_bytes).into_iter().chain(AMONG);
    let whole: Vec<Record> = texts
        .map(|text| Record { family: 0, text: text.to_vec(), tokens: text.len() as u32, events: TOKENS_ONLY, form: Form::Plain })
        .collect();
    let output = oracle.output(&whole);
    let mut records = Vec::new();
    for (record, group) in whole.iter().zip(groups(&output)) {
        let [_, _, tokens, ..] = answer(group).expect("an answer").map(|n| n as u32);
        let mut ask = |tokens, events, number| records.push(Record { tokens, events, form: Form::Parts(number), ..record.clone() });
        ask(record.tokens, 7, 0);
        for number in (0..=tokens).chain([u32::MAX]) {
            ask(record.tokens, TOKENS_ONLY, number);
        }
        ask(tokens.saturating_sub(1), TOKENS_ONLY, 0);
    }
    records
}

/// Values of each form: constants small, at the ends of the range and beyond, with a base, with signs, in sums and products; and what is no constant.
const VALUES: [&str; 56] = [
    "0", "7", "-0", "+1", "- - 1 * - + 2", "1 - 2", "2 - 3 - 4", "1 + 2 * 3", "2 * 3 - 4 * 5", "-2 * -3", "1_000_", "007", "00", "0_0",
    "9223372036854775807", "9_223_372_036_854_775_807", "9223372036854775808", "-9223372036854775807", "-9223372036854775808",
    "-9223372036854775807 - 1", "-9223372036854775807 - 2", "9223372036854775807 + 0", "9223372036854775807 + 1", "9223372036854775806 + 1 + 1 - 5",
    "3037000499 * 3037000499", "3037000500 * 3037000500", "-3037000500 * 3037000500", "4294967296 * -2147483648", "4294967296 * 2147483648",
    "-9223372036854775807 - 1 * -1", "9223372036854775807 + 9223372036854775808", "9223372036854775808 * 0", "0 * 9223372036854775808",
    "9223372036854775807 * 2 + 99999999999999999999", "1 + 9223372036854775807 - 9223372036854775808", "340282366920938463463374607431768211456",
    "16#F_F# + 2 * 3", "0016#_f#", "2#1111_0000#", "16#7FFF_FFFF_FFFF_FFFF#", "16#8000_0000_0000_0000#", "16#1_0000_0000_0000_0000#", "3#2_1_0#",
    "16#F", "16#_#", "10#F#", "17#1#", "1#0#", "1 ms", "4 / 2", "1 .. 2", "(1)", "9223372036854775808 + 1 ms", "1.0", "a", "- (1)",
];

/// Sections of several associations, of none, and such as are not clean.
const SUMS: [&str; 9] = [
    "properties A => 1 ms, 2; B :: C +=> constant 5 in modes (m), 6;",
    "properties A => 1; B => 2;",
    "properties none;",
    "properties",
    "properties -- 1\n  A =>-- 2\n\t3 -- 4\r\n + -- 5\n 6 applies to x; B => [c => 1;]; C => 9223372036854775807*2; D => \"e\" in modes (f);",
    "properties A => 1; }",
    "properties A => 1; B => ;",
    "properties A => 1",
    "properties A => \"1;",
];

/// Records of the value call: of each value the only association; of each section every one that may be there, the first behind them and the greatest number;
/// and of the texts above the first. Then, of every fifth of them that the section call reads, with exactly as many words, with an event word more, with one
/// fewer of each sort, and with no event word.
pub fn values(oracle: &Program) -> Vec<Record> {
    let ask = |text: &[u8], number| {
        Record { family: 0, text: text.to_vec(), tokens: text.len() as u32, events: enough_events(text), form: Form::Value(number) }
    };
    let mut records: Vec<Record> = VALUES.iter().map(|value| ask(format!("properties A => {value};").as_bytes(), 0)).collect();
    for section in SUMS {
        let arrows = section.matches("=>").count() as u32;
        records.extend((0..=arrows).chain([u32::MAX]).map(|number| ask(section.as_bytes(), number)));
    }
    records.extend(named_texts().iter().map(|text| ask(text, 0)));
    records.extend(TREES.map(|text| ask(text, 0)));
    let some: Vec<Record> = records.iter().step_by(5).cloned().collect();
    let read: Vec<Record> = some.iter().map(|record| Record { form: Form::Extended, ..record.clone() }).collect();
    let output = oracle.output(&read);
    for (record, group) in some.iter().zip(groups(&output)) {
        let [0, _, tokens, _, events, _] = answer(group).expect("an answer").map(|n| n as u32) else { continue };
        let events = EVENT as u32 * events;
        let lent = [(tokens, events), (tokens, events + 1), (tokens, events - 1), (tokens - 1, events), (tokens, TOKENS_ONLY)];
        records.extend(lent.map(|(tokens, events)| Record { tokens, events, ..record.clone() }));
    }
    records
}

/// 01's forms of Direction and Category: five, eleven, and fourteen that stand in a COMPONENT_CATEGORY.
const FORMS: [&str; 30] = [
    "in", "in out", "out", "provides", "requires", "data port", "event data", "event data port", "event port", "event", "data access", "bus access",
    "feature", "feature group", "port", "access", "virtual bus", "virtual processor", "thread", "thread group", "subprogram", "subprogram group", "system",
    "process", "processor", "bus", "memory", "device", "data", "abstract",
];

/// Literals with digits up to the base and equal to it, and reals, which are no constants.
const DIGITS: [&str; 5] = ["2#2#", "10#A#", "11#A#", "1e3", "16#FF#e"];

/// Records of the tree call, with each form behind a binding's `=>`, alone and before a classifier, and with all of them in one section; and of the value
/// call, of each of those literals.
pub fn forms() -> Vec<Record> {
    let ask = |text: String, form| {
        let text = text.into_bytes();
        Record { family: 0, tokens: text.len() as u32, events: enough_events(&text), text, form }
    };
    let bound = |bindings: String| ask(format!("properties A => classifier (c ({bindings}));"), Form::Tree(800));
    let each = FORMS.iter().map(|form| bound(format!("x => {form}, x => {form} T")));
    let all = FORMS.map(|form| format!("x => {form} T")).join(",");
    let values = DIGITS.iter().map(|value| ask(format!("properties A => {value};"), Form::Value(0)));
    each.chain([bound(all)]).chain(values).collect()
}
