//! A run of both programs on many records: counts, and the first record on which they differ.
use crate::programs::{answer, groups, parts, Form, Pair, Record, TOKENS_ONLY};
use crate::source::{Call, Source};
use std::time::Instant;
use texts::families::Maker;

/// What is counted of the oracle's answers: their numbers; of the parts of a number its kind and which of them it has; of values those at the ends of the
/// range and 0, and of the refusals 9 and 10 where they are.
const ANSWERS: [&str; 9] = ["read", "no. 1", "no. 2", "no. 3", "no. 4", "no. 5", "no. 6", "no. 7", "no. 8"];
const PARTS: [&str; 7] = ["integer", "real", "C-style", "none", "based", "closed", "exponent"];
const VALUES: [&str; 15] = [
    "value", "zero", "lowest", "highest", "no. 1", "no. 2", "no. 3", "no. 4", "no. 5", "no. 6", "no. 8", "9 end", "9 assoc.", "10 lit.", "10 op.",
];

/// The kinds in lines `parts`.
const NONE: i64 = 0;
const ERROR: i64 = 2;
const INTEGER_LIT: i64 = 30;
const REAL_LIT: i64 = 31;

#[derive(Default, Clone)]
struct Count {
    texts: u64,
    told: [u64; VALUES.len()],
    differences: u64,
}

fn told_of_answer(number: i64) -> [bool; ANSWERS.len()] {
    std::array::from_fn(|at| at as i64 == number)
}

fn told_of_parts([kind, _, _, base_end, _, _, closed, exponent]: [i64; 8]) -> [bool; PARTS.len()] {
    [kind == INTEGER_LIT, kind == REAL_LIT, kind == ERROR, kind == NONE, base_end > 0, closed > 0, exponent > 0]
}

/// 9 is at the text's end or at an association, 10 at a literal or at an operator.
fn told_of_value(text: &[u8], [number, place, .., value]: [i64; 6]) -> [bool; VALUES.len()] {
    let byte = text.get(place as usize);
    let is_digit = byte.is_some_and(u8::is_ascii_digit);
    let is = |wanted: i64| number == wanted;
    let gives = |wanted: i64| is(0) && value == wanted;
    let ends = [is(0), gives(0), gives(i64::MIN), gives(i64::MAX)];
    let read = [1, 2, 3, 4, 5, 6, 8].map(is);
    let computed = [is(9) && byte.is_none(), is(9) && byte.is_some(), is(10) && is_digit, is(10) && !is_digit];
    let mut all = ends.into_iter().chain(read).chain(computed);
    std::array::from_fn(|_| all.next().expect("as many as there are columns"))
}

/// Where in its list a record's answer is counted.
fn told(record: &Record, group: &[u8]) -> Vec<usize> {
    let told = match (record.form, answer(group), parts(group)) {
        (Form::Value(_), Some(answer), _) => told_of_value(&record.text, answer).to_vec(),
        (_, Some([number, ..]), _) => told_of_answer(number).to_vec(),
        (_, None, Some(parts)) => told_of_parts(parts).to_vec(),
        (_, None, None) => Vec::new(),
    };
    (0..told.len()).filter(|at| told[*at]).collect()
}

fn show(pair: &Pair, names: &[&str], record: &Record) {
    let (theirs, ours) = pair.run(std::slice::from_ref(record));
    let events = if record.events == TOKENS_ONLY { "tokens only".to_string() } else { format!("{} event words", record.events) };
    println!("family: {}", names[record.family]);
    let own = match record.form {
        Form::Tree(words) => format!(", {words} record words"),
        Form::Parts(number) => format!(", token {number}"),
        Form::Value(number) => format!(", association {number}"),
        Form::Plain | Form::Extended => String::new(),
    };
    println!("text: \"{}\" ({} bytes), {} token words, {}{}", record.text.escape_ascii(), record.text.len(), record.tokens, events, own);
    println!("oracle:\n{}replay:\n{}", String::from_utf8_lossy(&theirs), String::from_utf8_lossy(&ours));
}

/// Where the two outputs of a batch differ, by record. Where one stops early, what it held back is not known, so the rest is asked
/// record by record up to the first difference.
fn differences(pair: &Pair, records: &[Record], theirs: &[&[u8]], ours: &[&[u8]]) -> Vec<usize> {
    let both = theirs.len().min(ours.len());
    let mut found: Vec<usize> = (0..both).filter(|i| theirs[*i] != ours[*i]).collect();
    if both < records.len() && found.is_empty() {
        found.extend((both..records.len()).find(|i| pair.differs(&records[*i])));
    }
    found
}

/// A line of the report: what it is about, its columns, and a note behind them.
fn line(name: &str, cells: impl Iterator<Item = String>, note: &str) {
    let cells: String = cells.map(|cell| format!("{cell:>9}")).collect();
    println!("{name:<22}{cells}{note}");
}

/// How many texts a family has that gives each once.
fn note(source: &Source, family: usize) -> String {
    match source.families.get(family).map(|f| &f.maker) {
        Some(Maker::Every(e)) if e.left() == 0 => " (all)".to_string(),
        Some(Maker::Every(e)) => format!(" (of {})", e.total()),
        _ => String::new(),
    }
}

fn report(source: &Source, counts: &[Count]) {
    let columns: &[&str] = match source.call {
        Call::Parts => &PARTS,
        Call::Value => &VALUES,
        Call::Tokens | Call::Section | Call::Tree => &ANSWERS,
    };
    line("family", ["texts"].iter().chain(columns).chain(&["differ"]).map(|name| name.to_string()), "");
    let mut sum = Count::default();
    for (i, count) in counts.iter().enumerate().filter(|(_, count)| count.texts > 0) {
        let told = &count.told[..columns.len()];
        let numbers = [count.texts].into_iter().chain(told.iter().copied()).chain([count.differences]);
        line(source.names[i], numbers.map(|n| n.to_string()), &note(source, i));
        sum.texts += count.texts;
        sum.differences += count.differences;
    }
    println!("{} texts, {} differences", sum.texts, sum.differences);
}

/// A run: where its texts come from, what was counted, and the first record on which the two programs differ.
struct Run<'a> {
    pair: &'a Pair,
    source: Source,
    counts: Vec<Count>,
    first: Option<Record>,
}

/// The family in which a text is counted: one that the oracle refuses for a string that is not closed, of which the Rust is no reference any
/// more, is in a family of its own.
fn family(source: &Source, record: &Record, group: Option<&&[u8]>) -> usize {
    match group.and_then(|g| answer(g)) {
        Some([8, ..]) => source.unclosed(),
        _ => record.family,
    }
}

impl Run<'_> {
    fn count(&mut self, records: &[Record], answers: &[&[u8]]) {
        for (record, group) in records.iter().zip(answers) {
            let count = &mut self.counts[family(&self.source, record, Some(group))];
            count.texts += 1;
            for at in told(record, group) {
                count.told[at] += 1;
            }
            let Some([number, _, tokens, _, events, records]) = answer(group) else { continue };
            match number {
                0 => self.source.again(record, tokens as usize, events as usize, records as usize),
                6 => self.source.again_at_openers(record),
                8 => self.source.again_with_fewer(record),
                _ => {}
            }
        }
    }

    /// One batch; false if the programs fail it and no record shows why.
    fn batch(&mut self, records: &[Record]) -> bool {
        let (theirs, ours) = self.pair.run(records);
        let answers = groups(&theirs);
        self.count(records, &answers);
        if theirs == ours && answers.len() == records.len() {
            return true;
        }
        let found = differences(self.pair, records, &answers, &groups(&ours));
        for i in &found {
            self.counts[family(&self.source, &records[*i], answers.get(*i))].differences += 1;
            self.first.get_or_insert_with(|| records[*i].clone());
        }
        !found.is_empty()
    }

    fn report(&self) {
        report(&self.source, &self.counts);
        let Some(record) = &self.first else { return };
        println!("\nthe first difference");
        show(self.pair, &self.source.names, record);
        println!("\nmade smaller");
        show(self.pair, &self.source.names, &self.pair.smaller(record));
    }
}

pub fn compare(total: u64, seed: u64, call: Call, pair: &Pair) -> bool {
    let start = Instant::now();
    let source = Source::new(seed, call);
    let counts = vec![Count::default(); source.names.len()];
    let mut run = Run { pair, source, counts, first: None };
    let mut done = 0;
    let mut shown = 0;
    while done < total {
        let records = run.source.batch((total - done).min(1 << 40) as usize);
        if !run.batch(&records) {
            println!("an output differs or stops early, and for no record by itself");
            return false;
        }
        done += records.len() as u64;
        if done >= shown + 500_000 {
            shown = done;
            let wrong: u64 = run.counts.iter().map(|c| c.differences).sum();
            println!("{} of {} texts, {} differences, {} s", done, total, wrong, start.elapsed().as_secs());
        }
    }
    run.report();
    run.first.is_none()
}
