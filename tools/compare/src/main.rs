//! Compares the program `replay` with the oracle on texts made here, or writes a sample of records with the oracle's answers.
//!   compare run COUNT SEED tokens|sections|trees|numbers|values ORACLE REPLAY
//!   compare sample TOKENS SECTIONS ORACLE STDIN STDOUT
//! tools/README.md says what a record is.
mod comparison;
mod programs;
mod samples;
mod source;

use comparison::compare;
use programs::{records_bytes, Pair, Program};
use samples::{extended, forms, numbers, sample, values};
use source::Call;

/// A user calls the scripts, which hand on what they are given.
fn usage() -> ! {
    eprintln!("tools/compare/run COUNT SEED tokens|sections|trees|numbers|values [FOLDER]");
    eprintln!("tools/compare/sample TOKENS [SECTIONS [FOLDER]]");
    std::process::exit(2);
}

fn number<T: std::str::FromStr>(text: &str) -> T {
    text.parse().unwrap_or_else(|_| usage())
}

fn program(name: &'static str, path: &str) -> Program {
    Program { name, path: path.to_string() }
}

fn main() {
    let args: Vec<String> = std::env::args().collect();
    let args: Vec<&str> = args.iter().skip(1).map(String::as_str).collect();
    match args[..] {
        ["run", count, seed, texts, oracle, replay] => {
            let pair = Pair { oracle: program("oracle", oracle), replay: program("replay", replay) };
            let call = match texts {
                "tokens" => Call::Tokens,
                "sections" => Call::Section,
                "trees" => Call::Tree,
                "numbers" => Call::Parts,
                "values" => Call::Value,
                _ => usage(),
            };
            let same = compare(number(count), number(seed), call, &pair);
            std::process::exit(if same { 0 } else { 1 });
        }
        ["sample", tokens, sections, oracle, stdin, stdout] => {
            let oracle = program("oracle", oracle);
            let mut records = sample(number(tokens), false);
            records.extend(sample(number(sections), true));
            records.extend(extended(&oracle));
            records.extend(numbers(&oracle));
            records.extend(values(&oracle));
            records.extend(forms());
            let input = records_bytes(&records);
            let output = oracle.output(&records);
            std::fs::write(stdin, &input).expect("write");
            std::fs::write(stdout, &output).expect("write");
            println!("{} records, {} bytes of stdin, {} bytes of stdout", records.len(), input.len(), output.len());
        }
        _ => usage(),
    }
}
