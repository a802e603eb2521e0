//! The tree that events spell. A Start with a forward parent opens inside the node of the Start it points to, chains outermost first; a
//! Start so used opens nothing again. A Token is a leaf; a Finish closes the innermost node.
use crate::{event_pair, is_trivia, Event, Kind, Message, EVENT_WORDS};

/// What a step through the tree meets.
#[derive(Debug, Clone, Copy, PartialEq, Eq)]
pub enum Node {
    /// A node of a kind begins.
    Enter(Kind),
    /// A token of a kind.
    Token(Kind),
    /// The innermost node ends.
    Leave,
    /// A message.
    Error(Message),
}

/// A step through the tree, and where it is. A node's text goes from the place of its `Enter` to the end of its `Leave`; a node without
/// tokens has that end before that place, or at it.
#[derive(Debug, Clone, Copy, PartialEq, Eq)]
pub struct Step {
    pub node: Node,
    /// How many nodes are around the node, the token or the message.
    pub depth: usize,
    /// A Token's number among all tokens, from 0; else the next one's that is not taken, or how many there are. So an `Enter` has its node's
    /// first token.
    pub token: usize,
    /// Where that token starts, or the text's end.
    pub place: usize,
    /// Where the last token ends that was taken, a Token's own end; 0 before the first.
    pub end: usize,
}

/// The token that is taken next: the first from here on that is not trivia.
#[derive(Debug, Clone)]
struct Ahead<'a> {
    words: &'a [u32],
    token: usize,
    place: usize,
    /// Where the token before ends that was taken.
    end: usize,
}

impl<'a> Ahead<'a> {
    fn new(words: &'a [u32]) -> Ahead<'a> {
        let mut ahead = Ahead { words, token: 0, place: 0, end: 0 };
        ahead.pass_trivia();
        ahead
    }

    fn pass(&mut self) {
        self.place += (self.words[self.token] % 65_536) as usize;
        self.token += 1;
    }

    fn pass_trivia(&mut self) {
        while self.words.get(self.token).is_some_and(|word| is_trivia(*word)) {
            self.pass();
        }
    }

    /// Takes the token, if there is one.
    fn take(&mut self) -> Option<()> {
        self.words.get(self.token)?;
        self.pass();
        self.end = self.place;
        self.pass_trivia();
        Some(())
    }
}

/// Steps through the tree of a section.
#[derive(Debug, Clone)]
pub struct Nodes<'a> {
    words: &'a [u32],
    /// The next event.
    at: usize,
    /// Starts that an earlier one points to.
    used: Vec<bool>,
    /// Kinds of nodes that are still to be entered, the outermost last.
    opening: Vec<Kind>,
    /// How many nodes are open.
    depth: usize,
    ahead: Ahead<'a>,
}

impl<'a> Nodes<'a> {
    pub(crate) fn new(token_words: &'a [u32], event_words: &'a [u32]) -> Nodes<'a> {
        let used = vec![false; event_words.len() / EVENT_WORDS];
        Nodes { words: event_words, at: 0, used, opening: Vec::new(), depth: 0, ahead: Ahead::new(token_words) }
    }

    /// The event with a number, without its token.
    fn event(&self, number: usize) -> Option<Event> {
        let [word, _] = event_pair(self.words, number)?;
        Event::of(word)
    }

    /// Follows the chain of Starts that begins at an event, unless the event was used.
    fn open(&mut self, start: usize) {
        if self.used[start] {
            return;
        }
        let mut at = start;
        while let Some(Event::Start { kind, forward_parent }) = self.event(at) {
            self.used[at] = true;
            self.opening.push(kind);
            match forward_parent {
                Some(distance) => at += usize::from(distance),
                None => break,
            }
        }
    }

    /// Goes on to what the next step meets.
    fn advance(&mut self) -> Option<Node> {
        loop {
            if let Some(kind) = self.opening.pop() {
                self.depth += 1;
                return Some(Node::Enter(kind));
            }
            let event = self.event(self.at)?;
            self.at += 1;
            match event {
                Event::Start { .. } => self.open(self.at - 1),
                Event::Token { kind } => return self.ahead.take().map(|()| Node::Token(kind)),
                Event::Finish => {
                    self.depth = self.depth.checked_sub(1)?;
                    return Some(Node::Leave);
                }
                Event::Error { message } => return Some(Node::Error(message)),
            }
        }
    }
}

impl Iterator for Nodes<'_> {
    type Item = Step;

    fn next(&mut self) -> Option<Step> {
        let (token, place) = (self.ahead.token, self.ahead.place);
        let node = self.advance()?;
        let depth = self.depth - usize::from(matches!(node, Node::Enter(_)));
        Some(Step { node, depth, token, place, end: self.ahead.end })
    }
}
