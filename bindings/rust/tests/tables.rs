//! The tables of kinds, refusals and messages against what they must agree with: the crate `syntax_kind`, the tokens-only call, and the
//! words of docs/REFUSALS.md. tests/c.rs holds the C header's tables against these.
mod files;

use gigboda::{tokenize, Kind, Message, Refusal};

fn page(path: &str) -> String {
    String::from_utf8(files::bytes(path)).expect("UTF-8")
}

/// The name and number of a kind in a line of `syntax_kind`.
fn constant(line: &str) -> Option<(&str, u32)> {
    let (name, rest) = line.strip_prefix("pub const ")?.strip_suffix(';')?.split_once(": ")?;
    Some((name, rest.split_once(" = ")?.1.parse().ok()?))
}

#[test]
fn kinds_have_the_names_and_numbers_of_syntax_kind() {
    let source = page("crates/syntax_kind/src/lib.rt");
    let all: Vec<(&str, u32)> = source.lines().filter_map(constant).collect();
    for (name, number) in &all {
        assert_eq!(Kind::of(*number).map(Kind::name), Some(*name), "kind {number}");
    }
    assert!(all.len() > 80, "the constants of syntax_kind are not found");
    println!("{} kinds of syntax_kind have their names", all.len());
}

#[test]
fn kinds_without_a_row_are_none() {
    assert_eq!(Kind::of(Kind::ALL.len() as u32), None);
    assert!((0..).zip(Kind::ALL).all(|(n, kind)| kind.number() == n && Kind::of(n) == Some(*kind)));
    assert_eq!(Message::of(256 + Kind::ALL.len() as u16), None);
    assert_eq!((Message::of(0), Message::of(9), Message::of(255)), (None, None, None));
}

/// A mark or keyword in words is what the tokens-only call cuts as one token of its kind.
#[test]
fn marks_and_keywords_are_spelled_as_they_are_cut() {
    let mut spelled = 0;
    for kind in Kind::ALL {
        let Some(text) = kind.in_words().strip_prefix('`').and_then(|t| t.strip_suffix('`')) else { continue };
        let mut words = [0; 4];
        let cut = tokenize(text.as_bytes(), &mut words).expect("not refused");
        assert_eq!(cut, [kind.number() * 65_536 + text.len() as u32], "{kind}");
        spelled += 1;
    }
    assert_eq!(spelled, 25 + 81);
}

/// The rows of a page's table by its first line: number and words of each row whose first cell is a number.
fn rows(page: &str, header: &str) -> Vec<(u16, String)> {
    let table = page.lines().skip_while(|line| !line.starts_with(header)).take_while(|line| line.starts_with('|'));
    let row = |line: &str| {
        let mut cells = line.split('|').map(str::trim).skip(1);
        Some((cells.next()?.parse().ok()?, cells.next()?.to_string()))
    };
    table.filter_map(row).collect()
}

/// What stands in a cell before a remark: before a semicolon and a space.
fn first_clause(cell: &str) -> &str {
    cell.split("; ").next().unwrap_or(cell)
}

#[test]
fn refusals_have_the_words_of_the_page() {
    let rows = rows(&page("docs/REFUSALS.md"), "| number | in a few words |");
    let theirs: Vec<(usize, &str)> = rows.iter().map(|(number, cell)| (usize::from(*number), first_clause(cell))).collect();
    let ours: Vec<(usize, String)> = Refusal::ALL.iter().map(|refusal| (refusal.number(), refusal.to_string())).collect();
    assert_eq!(ours.iter().map(|(number, words)| (*number, words.as_str())).collect::<Vec<_>>(), theirs);
}

/// A row of a message that names no kind has its words before the remark; one of a missing token has the token, `(kind` and its number.
#[test]
fn messages_have_the_words_of_the_page() {
    let rows = rows(&page("docs/REFUSALS.md"), "| message | what is missing or wrong |");
    for (number, cell) in &rows {
        let message = Message::of(*number).unwrap_or_else(|| panic!("no message {number}"));
        let words = match message {
            Message::Missing(kind) => {
                let (token, rest) = cell.split_once(" (kind ").unwrap_or_else(|| panic!("no kind in {cell}"));
                assert!(rest.starts_with(&kind.number().to_string()), "message {number}: {cell}");
                format!("expected {token}")
            }
            _ => first_clause(cell).to_string(),
        };
        assert_eq!((message.number(), message.to_string()), (*number, words));
    }
    assert!(Message::FIXED.iter().all(|m| rows.iter().any(|(number, _)| *number == m.number())), "a message without a row");
    assert_eq!(rows.len(), Message::FIXED.len() + 6);
}
