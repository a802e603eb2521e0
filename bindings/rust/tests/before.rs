//! What the Rust reads in texts with a string that is not closed, samples/unclosed.before: each is marked `before`, since all calls refuse these
//! texts now, at the string's opening quote. A list that was filed for such a text is of this sort.
mod files;

use gigboda::{association_value, property_section, property_tree, tokenize, Refusal, Refused};

/// An answer that is kept: the text, the lent words, and the token words.
struct Kept {
    text: Vec<u8>,
    tokens: usize,
    /// None for the tokens-only call.
    events: Option<usize>,
    token_words: Vec<u32>,
}

/// The bytes of a text in quotes: `\n`, `\r`, `\t`, `\"`, `\\` and `\x` with two digits stand for one byte.
fn unescaped(quoted: &str) -> Vec<u8> {
    let mut bytes = quoted.strip_prefix('"').and_then(|q| q.strip_suffix('"')).expect("a text in quotes").bytes();
    let mut text = Vec::new();
    while let Some(byte) = bytes.next() {
        let mut next = || bytes.next().expect("a byte behind it");
        text.push(match byte {
            b'\\' => match next() {
                b'n' => b'\n',
                b'r' => b'\r',
                b't' => b'\t',
                b'x' => u8::from_str_radix(std::str::from_utf8(&[next(), next()]).expect("digits"), 16).expect("digits"),
                other => other,
            },
            other => other,
        });
    }
    text
}

fn numbers(line: &str) -> Vec<u32> {
    line.split_whitespace().map(|n| n.parse().expect("a number")).collect()
}

/// The kept answers: parted by empty lines, behind some lines that say what they are.
fn kept() -> Vec<Kept> {
    let all = String::from_utf8(files::bytes("samples/unclosed.before")).expect("UTF-8");
    let of_lines = |lines: &str| {
        let mut lines = lines.lines();
        let mut line = |name: &str| {
            let line = lines.next().expect("a line");
            line.strip_prefix(name).unwrap_or_else(|| panic!("{line:?} is no line {name:?}")).trim_start().to_string()
        };
        assert_eq!(line("before"), "", "an answer that is not marked");
        let text = unescaped(&line("text"));
        let lent = line("lent");
        let (tokens, events) = lent.split_once(' ').expect("two numbers");
        let answer = numbers(&line("answer"));
        let (token_words, event_words) = (numbers(&line("tokens")), numbers(&line("events")));
        assert_eq!(answer[..2], [0, 0], "a refusal");
        assert_eq!([answer[2], answer[4]].map(|n| n as usize), [token_words.len(), event_words.len()]);
        assert_eq!(lines.next(), None);
        Kept { text, tokens: tokens.parse().expect("a number"), events: (events != "-").then(|| events.parse().expect("a number")), token_words }
    };
    all.split("\n\n").skip(1).map(of_lines).collect()
}

/// Where the last token starts, a string by its word.
fn quote(kept: &Kept) -> usize {
    let last = kept.token_words.last().expect("a token");
    assert_eq!(last / 65_536, 32, "the last token is a STRING_LIT");
    assert_eq!(kept.token_words.iter().map(|word| (word % 65_536) as usize).sum::<usize>(), kept.text.len());
    kept.text.len() - (last % 65_536) as usize
}

#[test]
fn what_was_read_before_is_refused_8_at_its_quote() {
    let all = kept();
    for one in &all {
        let place = quote(one);
        assert_eq!(one.text[place], b'"');
        let refused = Some(Refused { refusal: Refusal::UnclosedString, place });
        let (mut tokens, mut events, mut records) = (vec![7; one.tokens], vec![7; one.events.unwrap_or(9)], [7; 9]);
        assert_eq!(tokenize(&one.text, &mut tokens).err(), refused);
        assert!(tokens.iter().all(|word| *word == 0));
        tokens.fill(7);
        assert_eq!(property_section(&one.text, &mut tokens, &mut events).err(), refused);
        assert!(tokens.iter().chain(&events).all(|word| *word == 0));
        tokens.fill(7);
        events.fill(7);
        assert_eq!(property_tree(&one.text, &mut tokens, &mut events, &mut records).err(), refused);
        assert!(tokens.iter().chain(&events).chain(&records).all(|word| *word == 0));
        tokens.fill(7);
        events.fill(7);
        assert_eq!(association_value(&one.text, &mut tokens, &mut events, 0).err(), refused);
        assert!(tokens.iter().chain(&events).all(|word| *word == 0));
    }
    let sections = all.iter().filter(|one| one.events.is_some()).count();
    assert_eq!((all.len(), sections), (246, 8));
    println!("{} answers marked `before`, {sections} of them of the section call, refused 8 now", all.len());
}
