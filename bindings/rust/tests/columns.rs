//! Lines and columns of the sample with many sorts of characters, `samples/characters.aadl`. What `list` prints for it is kept beside it, and
//! tools/programs-test holds `list` to that. Here the lines and columns of the events' tokens and those that `tree` prints are held to the same
//! listing, and those of every character, in made texts too, to what Rust counts.
mod files;
mod made;

use gigboda::{position, property_section, Event, Position};
use std::process::Command;

const SAMPLE: &str = "samples/characters.aadl";

/// How many texts are made.
const MADE: usize = 500;

/// Class, line and column of each event in the kept listing.
fn listed() -> Vec<(char, Position)> {
    let kept = String::from_utf8(files::bytes("samples/characters.listing")).expect("UTF-8");
    let of_line = |line: &str| {
        let fields: Vec<&str> = line.split(',').collect();
        let number = |field: usize| fields[field].parse().expect("a number");
        (fields[1].chars().next().expect("a class"), Position { line: number(4), column: number(5) })
    };
    kept.lines().skip(1).map(of_line).collect()
}

#[test]
fn positions_are_those_of_the_listing() {
    let text = files::bytes(SAMPLE);
    let (mut tokens, mut events) = (vec![0; text.len()], vec![0; 16 * text.len()]);
    let section = property_section(&text, &mut tokens, &mut events).expect("not refused");
    assert!(section.is_clean());
    let class = |event| match event {
        Event::Start { .. } => 'S',
        Event::Token { .. } => 'T',
        Event::Finish => 'F',
        Event::Error { .. } => 'E',
    };
    let ours: Vec<(char, Position)> = section.events().map(|p| (class(p.event), section.token_position(p.token))).collect();
    assert_eq!(ours, listed());
    println!("{} events at their lines and columns", ours.len());
}

#[test]
fn tree_prints_the_columns_of_the_listing() {
    let sample = concat!(env!("CARGO_MANIFEST_DIR"), "/../../samples/characters.aadl");
    let output = Command::new(env!("CARGO_BIN_EXE_tree")).arg(sample).output().expect("it runs");
    let printed = String::from_utf8(output.stdout).expect("UTF-8");
    let of_line = |line: &str| line.rsplit(' ').next().expect("a place").to_string();
    // No Start of the sample has a forward parent, so that nodes and tokens stand in the order of their events.
    let shown = listed().into_iter().filter(|(class, _)| "ST".contains(*class));
    let theirs: Vec<String> = shown.map(|(_, at)| format!("{}:{}", at.line, at.column)).collect();
    assert_eq!(printed.lines().map(of_line).collect::<Vec<String>>(), theirs);
}

#[test]
fn every_character_counts_one() {
    let sample = String::from_utf8(files::bytes(SAMPLE)).expect("UTF-8");
    for wanted in ["ü", "€", "😀", "e\u{301}", "\u{feff}", "\r\n", "\t"] {
        assert!(sample.contains(wanted), "no {wanted:?} in the sample");
    }
    let mut count = 0;
    for text in made::texts(MADE).into_iter().chain([sample]) {
        let mut at = Position { line: 1, column: 1 };
        for (place, character) in text.char_indices() {
            assert_eq!(position(text.as_bytes(), place), at, "byte {place} of {text:?}");
            at = if character == '\n' { Position { line: at.line + 1, column: 1 } } else { Position { column: at.column + 1, ..at } };
            count += 1;
        }
        assert_eq!(position(text.as_bytes(), text.len()), at);
    }
    println!("{count} characters at their lines and columns");
}

/// Of bytes that are no UTF-8: up to where they stop being it a column is as ever, behind that each byte that continues none counts one.
#[test]
fn any_bytes_have_columns() {
    let column = |text: &[u8], place| position(text, place).column;
    assert_eq!(column("ü€😀".as_bytes(), 9), 4);
    assert_eq!([0, 1, 2, 3, 4, 5].map(|place| column("ü€".as_bytes(), place)), [1, 2, 2, 3, 3, 3]);
    assert_eq!([1, 2, 3, 4].map(|place| column(b"a\xff\x80\xc3b", place)), [2, 3, 3, 4]);
}
