//! The kept answers of the Rust, crates/replay/stdin and stdout, through the safe functions. tools/README.md says what is in a line.
mod files;
mod records;

use gigboda::{association_value, number_parts, property_section, property_tree, tokenize, Refused, Section, Tree, EVENT_WORDS};
use records::{parts, records, Record, PARTS, TREE, VALUE};
use std::fmt::Display;

/// What every lent word holds before a call.
const OLD: u32 = 2_779_096_485;

fn line<N: Display>(name: &str, numbers: &[N]) -> String {
    let numbers: String = numbers.iter().map(|n| format!(" {n}")).collect();
    format!("{name}{numbers}\n")
}

/// What a record's call fills, token words, tokens taken and event words; and how many records, or which value. The value call does not say what it
/// fills: that is told by the section call.
fn called(record: &Record, tokens: &mut [u32], events: &mut [u32], words: &mut [u32]) -> Result<([usize; 3], i64), Refused> {
    let filled = |section: Section| [section.token_words.len(), section.taken, section.event_words.len()];
    match record.call {
        TREE => property_tree(record.text, tokens, events, words).map(|tree| (filled(tree.section), tree.len() as i64)),
        VALUE => {
            let value = association_value(record.text, tokens, events, record.own as usize)?;
            let (mut tokens, mut events) = (tokens.to_vec(), events.to_vec());
            property_section(record.text, &mut tokens, &mut events).map(|section| (filled(section), value))
        }
        _ if record.is_section() => property_section(record.text, tokens, events).map(|section| (filled(section), 0)),
        _ => tokenize(record.text, tokens).map(|tokens| ([tokens.len(), 0, 0], 0)),
    }
}

/// The line for a token of the words that the tokens-only call leaves, also where it refuses the text.
fn parts_line(record: &Record) -> String {
    let mut tokens = vec![OLD; record.tokens as usize];
    let _ = tokenize(record.text, &mut tokens);
    line("parts", &number_parts(record.text, &tokens, record.own as usize).map_or([0; 8], parts))
}

/// The lines of another call.
fn answer_lines(record: &Record) -> String {
    let mut tokens = vec![OLD; record.tokens as usize];
    let mut events = vec![OLD; if record.is_section() { record.events as usize } else { 0 }];
    let mut words = vec![OLD; if record.call == TREE { record.own as usize } else { 0 }];
    let answer = called(record, &mut tokens, &mut events, &mut words);
    let ([t, taken, e], own) = answer.unwrap_or_default();
    let (number, place, left) = answer.map_or_else(|r| (r.refusal.number(), r.place, 0), |_| (0, 0, OLD));
    let rest = |words: &[u32], filled: usize| words[filled..].iter().filter(|w| **w == left).count();
    let five = [number, place, t, taken, e / EVENT_WORDS].map(|n| n as i64);
    let six = [&five[..], &[own]].concat();
    let section = line("tokens", &tokens[..t]) + &line("events", &events[..e]) + &line("rest", &[rest(&tokens, t), rest(&events, e)]);
    match record.call {
        TREE => {
            let r = Tree::RECORD * own as usize;
            line("answer", &six) + &section + &line("more", &words[..r]) + &line("left", &[rest(&words, r)])
        }
        VALUE => line("answer", &six) + &section,
        _ => line("answer", &five) + &section,
    }
}

#[test]
fn every_kept_answer() {
    let (input, answers) = (files::bytes("crates/replay/stdin"), files::bytes("crates/replay/stdout"));
    let mut wanted = std::str::from_utf8(&answers).expect("lines").split_inclusive('\n');
    let all = records(&input);
    for (number, record) in all.iter().enumerate() {
        let ours = if record.call == PARTS { parts_line(record) } else { answer_lines(record) };
        let theirs: String = wanted.by_ref().take(ours.lines().count()).collect();
        assert_eq!(ours, theirs, "record {number}");
    }
    assert_eq!(wanted.next(), None);
    assert!(all.len() >= 4_500, "only {} records", all.len());
    println!("{} records answered as kept", all.len());
}
