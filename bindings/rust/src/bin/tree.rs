//! Prints the tree of a property section:
//!
//! ```text
//! tree [FILE]
//! ```
//!
//! reads FILE, or standard input without it or with `-` for it. Each node and each token has a line with its kind, a token's text, line and
//! column, behind two spaces for each node around it. A message stands where it belongs, behind `!`; tokens behind the section are counted in
//! the last line. It ends with 0 for a text that is read, 1 for one that is refused, 2 if reading or writing failed.
use gigboda::{property_tree, Mistake, Token, Tree, EVENT_WORDS, MOST_BYTES, MOST_EVENTS, MOST_NODES};
use std::ffi::{OsStr, OsString};
use std::fmt::Display;
use std::fs::File;
use std::io::{self, BufWriter, Read, Write};
use std::iter::Peekable;
use std::process::ExitCode;
use std::vec::IntoIter;

const USAGE: &str = "usage: tree [FILE], the property section in FILE or on standard input as a tree";

/// Prints a tree from its first token to its last: before each token the nodes that begin there, in their order.
struct Printer<'a, W> {
    tree: Tree<'a>,
    leaves: Vec<Token>,
    errors: Peekable<IntoIter<Mistake>>,
    /// How many nodes are around each node that was printed.
    depths: Vec<usize>,
    innermost: usize,
    out: W,
}

impl<W: Write> Printer<'_, W> {
    fn line(&mut self, depth: usize, what: impl Display, place: usize) -> io::Result<()> {
        let at = self.tree.section.position(place);
        writeln!(self.out, "{:indent$}{what} {}:{}", "", at.line, at.column, indent = 2 * depth)
    }

    /// Where a token starts, or the text's end.
    fn place(&self, token: usize) -> usize {
        self.leaves.get(token).map_or(self.tree.section.text.len(), |token| token.range.start)
    }

    /// The nodes that begin at a token, and the messages before it.
    fn before(&mut self, token: usize) -> io::Result<()> {
        let tree = self.tree;
        for node in self.depths.len()..=tree.len() {
            while let Some(mistake) = self.errors.next_if(|m| (m.tokens, m.nodes) <= (token, node)) {
                self.line(self.depths[mistake.node] + 1, format!("! {}", mistake.message), mistake.place)?;
            }
            if node == tree.len() || tree.node(node).first > token {
                break;
            }
            let depth = tree.parent(node).map_or(0, |parent| self.depths[parent] + 1);
            self.depths.push(depth);
            self.innermost = node;
            self.line(depth, tree.node(node).kind, self.place(token))?;
        }
        Ok(())
    }

    /// A token, behind the nodes that end before it.
    fn token(&mut self, token: usize) -> io::Result<()> {
        while self.tree.node(self.innermost).first + self.tree.node(self.innermost).below <= token {
            self.innermost = self.tree.node(self.innermost).parent;
        }
        let Token { kind, range } = self.leaves[token].clone();
        let text = String::from_utf8_lossy(&self.tree.section.text[range.clone()]);
        self.line(self.depths[self.innermost] + 1, format!("{kind} {text:?}"), range.start)
    }

    fn print(mut self) -> io::Result<()> {
        let taken = self.tree.section.taken;
        for token in 0..taken {
            self.before(token)?;
            self.token(token)?;
        }
        self.before(taken)?;
        match self.leaves.len() - taken {
            0 => {}
            1 => self.line(0, "not read: 1 token at", self.place(taken))?,
            left => self.line(0, format!("not read: {left} tokens from"), self.place(taken))?,
        }
        self.out.flush()
    }
}

/// Prints the tree of a text, or why it is refused; whether it was read.
fn print(text: &[u8], mut out: impl Write) -> io::Result<bool> {
    let (mut tokens, mut events) = (vec![0; MOST_BYTES], vec![0; EVENT_WORDS * MOST_EVENTS]);
    let mut records = vec![0; Tree::RECORD * MOST_NODES];
    match property_tree(text, &mut tokens, &mut events, &mut records) {
        Ok(tree) => {
            let (leaves, errors) = (tree.leaves().collect(), tree.errors().collect::<Vec<_>>().into_iter().peekable());
            Printer { tree, leaves, errors, depths: Vec::new(), innermost: 0, out }.print().map(|()| true)
        }
        Err(refused) => writeln!(out, "{}: {refused}", refused.position(text)).and_then(|()| out.flush()).map(|()| false),
    }
}

/// All of a file or of standard input, or one byte more than may be: a longer text is refused without being held.
fn read(file: Option<&OsStr>) -> io::Result<Vec<u8>> {
    let input: Box<dyn Read> = match file {
        Some(name) => Box::new(File::open(name)?),
        None => Box::new(io::stdin()),
    };
    let mut text = Vec::new();
    input.take(MOST_BYTES as u64 + 1).read_to_end(&mut text).map(|_| text)
}

/// Whether the text was read; or what failed.
fn run(file: Option<&OsStr>) -> Result<bool, String> {
    let name = file.map_or("standard input".into(), |name| name.to_string_lossy());
    let text = read(file).map_err(|e| format!("{name}: {e}"))?;
    print(&text, BufWriter::new(io::stdout().lock())).map_err(|e| format!("standard output: {e}"))
}

fn main() -> ExitCode {
    let arguments: Vec<OsString> = std::env::args_os().skip(1).collect();
    let file = arguments.first().filter(|name| *name != "-");
    let is_asked = arguments.len() > 1 || file.is_some_and(|name| name == "--help");
    match if is_asked { Err(USAGE.to_string()) } else { run(file.map(OsString::as_os_str)) } {
        Ok(was_read) => ExitCode::from(u8::from(!was_read)),
        Err(told) => {
            eprintln!("{told}");
            ExitCode::from(2)
        }
    }
}
