//! Runs the four programs that measure, each with the code at another place, and prints the table. tools/bench/run builds and starts
//! it; tools/README.md says what its lines mean.
use bench::families::{self, Text};
use bench::measure::ROUNDS;
use bench::place::{self, Measured, LINE, MOST};
use bench::table;
use gigboda::{Tree, EVENT_WORDS};
use std::process::{exit, Command, Stdio};

const PROGRAMS: [&str; 4] = ["place-0", "place-16", "place-32", "place-48"];

fn stop(line: &str) -> ! {
    eprintln!("bench: {line}");
    exit(2)
}

/// What a program measures that stands beside this one.
fn measured(name: &str) -> Measured {
    let path = std::env::current_exe().unwrap_or_else(|e| stop(&e.to_string())).with_file_name(name);
    let run = Command::new(&path).stderr(Stdio::inherit()).output();
    let output = run.unwrap_or_else(|e| stop(&format!("no {name} to run: {}: {e}", path.display())));
    let found = place::parse(&String::from_utf8_lossy(&output.stdout)).filter(|_| output.status.success());
    found.unwrap_or_else(|| stop(&format!("{name} did not end well")))
}

/// Measures at each place, and prints the lowest ratios there.
fn measure_all(texts: &[Text]) -> Vec<Measured> {
    let mut all: Vec<Measured> = Vec::new();
    for name in PROGRAMS {
        let new = measured(name);
        let lowest = table::lowest(&table::rows(texts, std::slice::from_ref(&new)));
        println!("{name}: gigboda_tokenize at {} of {LINE}, the Rust's tokenize at {}: {lowest}", new.ours, new.rust);
        if all.iter().any(|other| other.ours == new.ours || other.rust == new.rust) {
            stop("the code did not move");
        }
        all.push(new);
    }
    all
}

fn main() {
    println!(
        "ns of thread time per byte, lower quartile of {ROUNDS} rounds, ours and the Rust's in turn; {MOST} token words lent, {} event words, \
         {} record words, once per text, not cleared between calls",
        EVENT_WORDS * MOST,
        Tree::RECORD * MOST
    );
    let texts = families::all();
    let places = measure_all(&texts);
    let rows = table::rows(&texts, &places);
    table::print(&rows);
    table::print_flatness(&rows);
    table::print_spread(&rows);
    table::print_tree(&rows);
    table::print_values(&families::values(), &places);
    println!("{}", table::lowest(&rows));
}
