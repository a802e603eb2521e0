//! The table: for each text its times and ratios, medians over the places at which the library stood.
use crate::families::Text;
use crate::place::{Measured, Times, ValueTimes};

/// A line of the table. Of two numbers the first is for tokens, the second for sections.
pub struct Row<'a> {
    pub text: &'a Text,
    /// Nanoseconds per byte.
    ours: [f64; 2],
    rust: [f64; 2],
    tree: f64,
    utf8: f64,
    /// How many times as fast as the Rust we are.
    ratios: [f64; 2],
    /// How many times as long as the section call the tree call takes.
    tree_ratio: f64,
    /// The largest upper quartile over its lower one.
    spread: f64,
}

/// Of an even number of them the mean of the middle two.
fn median(numbers: impl Iterator<Item = f64>) -> f64 {
    let mut sorted: Vec<f64> = numbers.collect();
    sorted.sort_by(f64::total_cmp);
    let half = sorted.len() / 2;
    (sorted[half] + sorted[(sorted.len() - 1) / 2]) / 2.0
}

fn largest(numbers: impl Iterator<Item = f64>) -> f64 {
    numbers.fold(0.0, f64::max)
}

impl Row<'_> {
    /// What the places have for a text.
    fn new<'a>(text: &'a Text, places: &[&Times]) -> Row<'a> {
        let time = |job: usize| median(places.iter().map(|t| t[job].lower));
        let ratio = |below: usize, above: usize| median(places.iter().map(|t| t[above].lower / t[below].lower));
        Row {
            text,
            ours: [time(0), time(2)],
            rust: [time(1), time(3)],
            tree: time(4),
            utf8: time(5),
            ratios: [ratio(0, 1), ratio(2, 3)],
            tree_ratio: ratio(2, 4),
            spread: largest(places.iter().flat_map(|t| &t[..5]).map(|q| q.upper / q.lower)),
        }
    }

    fn name(&self) -> String {
        format!("{} {}", self.text.family, self.text.bytes)
    }
}

/// The rows of all texts, of some places.
pub fn rows<'a>(texts: &'a [Text], places: &[Measured]) -> Vec<Row<'a>> {
    let of_text = |at: usize| places.iter().map(|place| &place.times[at]).collect::<Vec<_>>();
    texts.iter().enumerate().map(|(at, text)| Row::new(text, &of_text(at))).collect()
}

pub fn print(rows: &[Row]) {
    println!(
        "{:<28} {:>6} {:>9} {:>9} {:>9} {:>9} {:>7} {:>8} {:>7} {:>6} {:>6}",
        "family", "bytes", "tokens", "Rust's", "sections", "Rust's", "tokens", "sections", "spread", "UTF-8", "tree"
    );
    for row in rows {
        println!(
            "{:<28} {:>6} {:>9.2} {:>9.2} {:>9.2} {:>9.2} {:>7.2} {:>8.2} {:>7.2} {:>6.2} {:>6.2}",
            row.text.family,
            row.text.text.len(),
            row.ours[0],
            row.rust[0],
            row.ours[1],
            row.rust[1],
            row.ratios[0],
            row.ratios[1],
            row.spread,
            row.utf8,
            row.tree_ratio
        );
    }
}

/// A line of the value call: its time over the section call's, for the first association and for the last.
struct ValueRow<'a> {
    text: &'a Text,
    /// The section call's nanoseconds per byte.
    section: f64,
    ratios: [f64; 2],
    spread: f64,
}

impl ValueRow<'_> {
    fn new<'a>(text: &'a Text, places: &[&ValueTimes]) -> ValueRow<'a> {
        let ratio = |job: usize| median(places.iter().map(|t| t[job].lower / t[0].lower));
        ValueRow {
            text,
            section: median(places.iter().map(|t| t[0].lower)),
            ratios: [ratio(1), ratio(2)],
            spread: largest(places.iter().flat_map(|t| *t).map(|q| q.upper / q.lower)),
        }
    }

    fn print(&self) {
        let Text { family, text, .. } = self.text;
        let [first, last] = self.ratios;
        println!("value {family:<22} {:>6} {:>9.2} {first:>7.3} {last:>7.3} {:>7.2}", text.len(), self.section, self.spread);
    }
}

/// The value call's times over the section call's, and the highest of them.
pub fn print_values(texts: &[Text], places: &[Measured]) {
    println!("value {:<22} {:>6} {:>9} {:>7} {:>7} {:>7}", "family", "bytes", "sections", "first", "last", "spread");
    let of_text = |at: usize| places.iter().map(|place| &place.values[at]).collect::<Vec<_>>();
    let rows: Vec<ValueRow> = texts.iter().enumerate().map(|(at, text)| ValueRow::new(text, &of_text(at))).collect();
    rows.iter().for_each(ValueRow::print);
    let each = rows.iter().flat_map(|row| row.ratios.map(|ratio| (ratio, row.text)));
    let (most, text) = each.max_by(|a, b| a.0.total_cmp(&b.0)).expect("a text");
    println!("value at most {most:.3} times the section's time on {} {}", text.family, text.bytes);
}

/// How far numbers are apart: the largest over the smallest.
fn apart(numbers: impl Iterator<Item = f64> + Clone) -> f64 {
    largest(numbers.clone()) / numbers.fold(f64::INFINITY, f64::min)
}

/// The rows of each family, all its sizes.
fn families<'a, 'b>(rows: &'b [Row<'a>]) -> impl Iterator<Item = &'b [Row<'a>]> {
    rows.chunk_by(|a, b| a.text.family == b.text.family)
}

/// For each family, how flat our time per byte is over the sizes.
pub fn print_flatness(rows: &[Row]) {
    for family in families(rows) {
        let flat = |time: fn(&Row) -> f64| apart(family.iter().map(time));
        let [tokens, sections, tree] = [flat(|row| row.ours[0]), flat(|row| row.ours[1]), flat(|row| row.tree)];
        println!("flat {:<28} tokens {tokens:.2} sections {sections:.2} tree {tree:.2}", family[0].text.family);
    }
}

pub fn print_spread(rows: &[Row]) {
    let row = rows.iter().max_by(|a, b| a.spread.total_cmp(&b.spread)).expect("a text");
    println!(
        "spread {:.2} in the middle, at most {:.2} on {}",
        median(rows.iter().map(|row| row.spread)),
        row.spread,
        row.name()
    );
}

/// The highest ratios of the tree call's time to the section call's, and how far a family's are apart over its sizes.
pub fn print_tree(rows: &[Row]) {
    let row = rows.iter().max_by(|a, b| a.tree_ratio.total_cmp(&b.tree_ratio)).expect("a text");
    let each = families(rows).map(|family| (apart(family.iter().map(|row| row.tree_ratio)), family[0].text.family));
    let (most, family) = each.max_by(|a, b| a.0.total_cmp(&b.0)).expect("a family");
    println!(
        "tree {:.2} times the section's time in the middle, at most {:.2} on {}; from 1 to 32 KB at most {most:.2} times apart on {family}",
        median(rows.iter().map(|row| row.tree_ratio)),
        row.tree_ratio,
        row.name()
    );
}

/// The lowest ratios of the realistic texts, and of all others.
pub fn lowest(rows: &[Row]) -> String {
    let (realistic, others): (Vec<&Row>, Vec<&Row>) = rows.iter().partition(|row| row.text.family == "realistic");
    let of_call = |call: usize| realistic.iter().map(|row| row.ratios[call]).fold(f64::INFINITY, f64::min);
    let each = others.iter().flat_map(|row| [(row.ratios[0], row, "tokens"), (row.ratios[1], row, "sections")]);
    let (ratio, row, call) = each.min_by(|a, b| a.0.total_cmp(&b.0)).expect("a text");
    format!("realistic tokens {:.2} sections {:.2}, worst {ratio:.2} on {} {call}", of_call(0), of_call(1), row.name())
}
