//! Records, and what the two programs write for them.
use std::io::{Read, Write};
use std::process::{Child, Command, Stdio};
use std::sync::Arc;

/// In the place of the number of lent event words: the tokens-only call. Elsewhere: the extended form, and the largest settings.
pub const TOKENS_ONLY: u32 = u32::MAX;

/// How often a text is tried without a part.
const SMALLER_TRIES: usize = 4_000;

/// A record's form: plain; or extended, for the same calls, for the tree call with so many record words, for the parts of the token with a number, or
/// for the value of the association with a number.
#[derive(Clone, Copy)]
pub enum Form {
    Plain,
    Extended,
    Tree(u32),
    Parts(u32),
    Value(u32),
}

#[derive(Clone)]
pub struct Record {
    pub family: usize,
    pub text: Vec<u8>,
    pub tokens: u32,
    pub events: u32,
    pub form: Form,
}

impl Record {
    fn write(&self, out: &mut Vec<u8>) {
        let plain = [self.text.len() as u32, self.tokens, self.events];
        let [length, tokens, events] = plain;
        let extended = |call, own| [TOKENS_ONLY, call, TOKENS_ONLY, length, tokens, events, own];
        let mut put = |numbers: &[u32]| numbers.iter().for_each(|n| out.extend_from_slice(&n.to_le_bytes()));
        match self.form {
            Form::Plain => put(&plain),
            Form::Extended => put(&extended(0, 0)),
            Form::Tree(words) => put(&extended(1, words)),
            Form::Parts(number) => put(&extended(5, number)),
            Form::Value(number) => put(&extended(6, number)),
        }
        out.extend_from_slice(&self.text);
    }
}

pub fn records_bytes(records: &[Record]) -> Vec<u8> {
    let mut out = Vec::new();
    for r in records {
        r.write(&mut out);
    }
    out
}

/// One of the two programs.
#[derive(Clone)]
pub struct Program {
    pub name: &'static str,
    pub path: String,
}

impl Program {
    /// Starts it. Where that cannot be done nothing can be compared, so that a line says why and all ends.
    fn start(&self) -> Child {
        let child = Command::new(&self.path).stdin(Stdio::piped()).stdout(Stdio::piped()).spawn();
        child.unwrap_or_else(|e| {
            eprintln!("compare: no {} to run: {}: {e}", self.name, self.path);
            std::process::exit(2)
        })
    }

    /// What it writes for records.
    pub fn output(&self, records: &[Record]) -> Vec<u8> {
        let (output, well) = output(self.start(), Arc::new(records_bytes(records)));
        assert!(well, "{} did not end well", self.name);
        output
    }
}

fn output(mut child: Child, input: Arc<Vec<u8>>) -> (Vec<u8>, bool) {
    let mut to = child.stdin.take().expect("piped");
    let writer = std::thread::spawn(move || {
        // A program that stops early closes its end; its output tells.
        let _ = to.write_all(&input);
    });
    let mut output = Vec::new();
    child.stdout.take().expect("piped").read_to_end(&mut output).expect("read");
    writer.join().expect("writer");
    let ended = child.wait().expect("wait").success();
    (output, ended)
}

pub struct Pair {
    pub oracle: Program,
    pub replay: Program,
}

impl Pair {
    pub fn run(&self, records: &[Record]) -> (Vec<u8>, Vec<u8>) {
        let input = Arc::new(records_bytes(records));
        let also = input.clone();
        let (oracle, replay) = (self.oracle.start(), self.replay.start());
        let other = std::thread::spawn(move || output(oracle, also));
        let (ours, well) = output(replay, input);
        let (theirs, theirs_well) = other.join().expect("oracle");
        if !well || !theirs_well {
            println!("a program did not end well: oracle {}, replay {}", theirs_well, well);
        }
        (theirs, ours)
    }

    pub fn differs(&self, record: &Record) -> bool {
        let (theirs, ours) = self.run(std::slice::from_ref(record));
        theirs != ours
    }

    /// The record without the parts of a size, as far as the two still differ.
    fn without(&self, record: &Record, size: usize, tries: &mut usize) -> Record {
        let mut best = record.clone();
        let mut at = 0;
        while at + size <= best.text.len() && *tries > 0 {
            *tries -= 1;
            let mut less = best.clone();
            less.text.drain(at..at + size);
            if self.differs(&less) {
                best = less;
            } else {
                at += size.div_ceil(4);
            }
        }
        best
    }

    /// A smaller text on which the two still differ: ever smaller parts are left out, again and again while that helps.
    pub fn smaller(&self, record: &Record) -> Record {
        let mut best = record.clone();
        let mut tries = SMALLER_TRIES;
        loop {
            let before = best.text.len();
            let mut size = before / 2;
            while size > 0 {
                best = self.without(&best, size, &mut tries);
                size /= 2;
            }
            best = self.without(&best, 1, &mut tries);
            if best.text.len() == before || tries == 0 {
                return best;
            }
        }
    }
}

/// The lines of each record: from a line `answer` or `parts` on, or a line that tells of a bad record.
pub fn groups(output: &[u8]) -> Vec<&[u8]> {
    let mut groups = Vec::new();
    let (mut from, mut at) = (0, 0);
    for line in output.split_inclusive(|b| *b == b'\n') {
        let first = [&b"answer"[..], b"parts", b"bad"].iter().any(|name| line.starts_with(name));
        if from < at && first {
            groups.push(&output[from..at]);
            from = at;
        }
        at += line.len();
    }
    if from < at {
        groups.push(&output[from..at]);
    }
    groups
}

/// The numbers of a record's first line, if it has a name.
fn numbers(group: &[u8], name: &str) -> Option<Vec<i64>> {
    let line = group.split(|b| *b == b'\n').next()?;
    let text = std::str::from_utf8(line).ok()?.strip_prefix(name)?.strip_prefix(' ')?;
    text.split(' ').map(|n| n.parse().ok()).collect()
}

/// The numbers of an answer line: five, and for the tree call that of the records, for the value call the value; else 0.
pub fn answer(group: &[u8]) -> Option<[i64; 6]> {
    let mut numbers = numbers(group, "answer")?;
    if numbers.len() == 5 {
        numbers.push(0);
    }
    numbers.try_into().ok()
}

/// The numbers of a line `parts`.
pub fn parts(group: &[u8]) -> Option<[i64; 8]> {
    numbers(group, "parts")?.try_into().ok()
}
