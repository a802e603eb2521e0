//! The tree of a section by the records of its nodes. No events are needed to go from a node to its parent, its children or its text.
use crate::{is_trivia, Kind, Message, Node, Position, Section, Token};
use std::ops::Range;

/// A node's record. Nodes count from 0, the root, in the order in which they open; tokens count from 0 without trivia.
#[derive(Debug, Clone, Copy, PartialEq, Eq, Hash)]
pub struct Record {
    pub kind: Kind,
    /// The node around it; the root's is the root.
    pub parent: usize,
    /// Its first token, or the next one that is not taken if it has none.
    pub first: usize,
    /// How many tokens it has, those of the nodes below it too.
    pub below: usize,
}

/// A message, and where it stands in the tree.
#[derive(Debug, Clone, Copy, PartialEq, Eq, Hash)]
pub struct Mistake {
    pub message: Message,
    /// The innermost node around it.
    pub node: usize,
    /// How many nodes open before it.
    pub nodes: usize,
    /// How many tokens are taken before it.
    pub tokens: usize,
    /// Where the next token starts, or the text's end.
    pub place: usize,
}

/// The tree of a section that was read. A node stands before those below it, and these stand right behind it. A number that is no node's
/// is a panic, as an index is that a slice does not have.
///
/// ```
/// use gigboda::Kind;
///
/// let text = b"properties\n  Period => 20 ms;\n";
/// let (mut tokens, mut events, mut records) = ([0; 32], [0; 64], [0; 32]);
/// let tree = gigboda::property_tree(text, &mut tokens, &mut events, &mut records).unwrap();
/// // A click on the `20`: the innermost node there, and those around it.
/// let clicked = tree.innermost(tree.token_at(23)).unwrap();
/// assert_eq!(&text[tree.range(clicked)], b"20 ms");
/// assert_eq!(tree.position(clicked).to_string(), "line 2, column 13");
/// let around: Vec<Kind> = tree.ancestors(clicked).map(|node| tree.node(node).kind).collect();
/// assert_eq!(around, [Kind::PROPERTY_ASSOCIATION, Kind::PROPERTY_SECTION]);
/// ```
#[derive(Debug, Clone, Copy)]
pub struct Tree<'a> {
    pub section: Section<'a>,
    /// The words that are filled, four for each node.
    pub record_words: &'a [u32],
}

impl<'a> Tree<'a> {
    /// Words of a record.
    pub const RECORD: usize = 4;

    /// How many nodes there are.
    pub fn len(&self) -> usize {
        self.record_words.len() / Self::RECORD
    }

    /// Whether there is no node. No tree that was read is so: it has a root.
    pub fn is_empty(&self) -> bool {
        self.len() == 0
    }

    /// The record of a node. A number that is no kind's belongs to another library.
    ///
    /// ```
    /// use gigboda::{Kind, Record};
    /// let (mut tokens, mut events, mut records) = ([0; 32], [0; 64], [0; 32]);
    /// let tree = gigboda::property_tree(b"properties A => 1 ms;", &mut tokens, &mut events, &mut records).unwrap();
    /// assert_eq!(tree.len(), 4);
    /// assert_eq!(tree.node(3), Record { kind: Kind::INTEGER_VALUE, parent: 1, first: 3, below: 2 });
    /// ```
    pub fn node(&self, node: usize) -> Record {
        let words = &self.record_words[Self::RECORD * node..][..Self::RECORD];
        let kind = Kind::of(words[0]).expect("libcapi.a of this crate's version");
        Record { kind, parent: words[1] as usize, first: words[2] as usize, below: words[3] as usize }
    }

    /// The records of all nodes.
    pub fn nodes(&self) -> impl Iterator<Item = Record> + 'a {
        let tree = *self;
        (0..tree.len()).map(move |node| tree.node(node))
    }

    /// The node around a node; the root has none.
    pub fn parent(&self, node: usize) -> Option<usize> {
        Some(self.node(node).parent).filter(|_| node != 0)
    }

    /// The nodes around a node, from its parent up to the root.
    pub fn ancestors(&self, node: usize) -> impl Iterator<Item = usize> + 'a {
        let tree = *self;
        std::iter::successors(tree.parent(node), move |around| tree.parent(*around))
    }

    /// The nodes right below a node, in order. It goes through all that are below it, and no further.
    ///
    /// ```
    /// let (mut tokens, mut events, mut records) = ([0; 64], [0; 128], [0; 64]);
    /// let tree = gigboda::property_tree(b"properties A => 1 + 2; B => 3;", &mut tokens, &mut events, &mut records).unwrap();
    /// assert_eq!(tree.children(0).collect::<Vec<_>>(), [1, 6]);
    /// assert_eq!(tree.children(3).map(|node| &tree.section.text[tree.range(node)]).collect::<Vec<_>>(), [b"1", b"2"]);
    /// ```
    pub fn children(&self, node: usize) -> impl Iterator<Item = usize> + 'a {
        let tree = *self;
        let below = (node + 1..tree.len()).take_while(move |other| tree.node(*other).parent >= node);
        below.filter(move |other| tree.node(*other).parent == node)
    }

    /// All tokens that are not trivia, also those that no node has: a token's number is its place here.
    pub fn leaves(&self) -> impl Iterator<Item = Token> + 'a {
        self.section.tokens().filter(|token| !token.kind.is_trivia())
    }

    /// The tokens of a node, those of the nodes below it too. It goes through the text's tokens up to the last of them.
    pub fn tokens(&self, node: usize) -> impl Iterator<Item = Token> + 'a {
        let Record { first, below, .. } = self.node(node);
        self.leaves().skip(first).take(below)
    }

    /// Where a node stands in the text, from its first token to its last; that of a node without tokens is empty, where the next token
    /// starts or at the text's end.
    pub fn range(&self, node: usize) -> Range<usize> {
        let Record { first, below, .. } = self.node(node);
        let mut rest = self.leaves().skip(first).peekable();
        let start = rest.peek().map_or(self.section.text.len(), |token| token.range.start);
        start..rest.take(below).last().map_or(start, |token| token.range.end)
    }

    /// A node's first token by its number among all tokens, trivia too; that of the next one if it has none, or how many there are. The event at
    /// which the node opens has the same ([`Pushed::token`](crate::Pushed::token)).
    ///
    /// ```
    /// let (mut tokens, mut events, mut records) = ([0; 64], [0; 128], [0; 64]);
    /// let tree = gigboda::property_tree(b"properties A => 1 .. 2;", &mut tokens, &mut events, &mut records).unwrap();
    /// // The section, the association, its name, the range, `1`, `2`.
    /// assert_eq!((0..tree.len()).map(|node| tree.first_token(node)).collect::<Vec<_>>(), [0, 2, 2, 6, 6, 10]);
    /// ```
    pub fn first_token(&self, node: usize) -> usize {
        let words = self.section.token_words;
        let mut leaves = (0..words.len()).filter(|token| !is_trivia(words[*token]));
        leaves.nth(self.node(node).first).unwrap_or(words.len())
    }

    /// Line and column of a node: of its first token, or of the next one if it has none, or of the text's end.
    pub fn position(&self, node: usize) -> Position {
        self.section.token_position(self.first_token(node))
    }

    /// The token at a byte of the text; the next one for a byte between two, and as many as there are behind the last.
    pub fn token_at(&self, place: usize) -> usize {
        self.leaves().take_while(|token| token.range.end <= place).count()
    }

    /// The innermost node that has a token, if one has it. It goes through the nodes up to the token.
    pub fn innermost(&self, token: usize) -> Option<usize> {
        let begun = self.nodes().enumerate().take_while(|(_, record)| record.first <= token);
        begun.filter(|(_, record)| token - record.first < record.below).map(|(node, _)| node).last()
    }

    /// The messages, as they were pushed. Records have none: these come from the events.
    ///
    /// ```
    /// let (mut tokens, mut events, mut records) = ([0; 32], [0; 64], [0; 32]);
    /// let tree = gigboda::property_tree(b"properties A => (1, );", &mut tokens, &mut events, &mut records).unwrap();
    /// let told = tree.errors().map(|mistake| format!("{} in {}", mistake.message, tree.node(mistake.node).kind));
    /// assert_eq!(told.collect::<Vec<_>>(), ["no value where one must stand in LIST_VALUE"]);
    /// ```
    pub fn errors(&self) -> impl Iterator<Item = Mistake> + 'a {
        let tree = *self;
        let (mut node, mut nodes, mut tokens) = (0, 0, 0);
        tree.section.nodes().filter_map(move |step| {
            match step.node {
                Node::Enter(_) => (node, nodes) = (nodes, nodes + 1),
                Node::Leave => node = tree.node(node).parent,
                Node::Token(_) => tokens += 1,
                Node::Error(message) => return Some(Mistake { message, node, nodes, tokens, place: step.place }),
            }
            None
        })
    }
}
