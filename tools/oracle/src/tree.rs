//! The tree that the Rust's events spell, by 01's tree rule: the steps through it, its nodes, and where its tokens stand.
use spar::event::Event;
use spar::syntax_kind::SyntaxKind;
use std::ops::Range;

/// A step through the tree: into a node of a kind, over the next non-trivia token, or out of the innermost node.
pub enum Step {
    Enter(SyntaxKind),
    Token(SyntaxKind),
    Leave,
}

/// A node: its kind, its parent's number, the first token it takes and how many stand below it. Nodes and non-trivia tokens count from
/// 0, and the root is its own parent.
pub struct Node {
    kind: SyntaxKind,
    parent: usize,
    pub first: usize,
    below: usize,
}

impl Node {
    pub fn words(&self) -> [u32; 4] {
        [self.kind as u32, self.parent as u32, self.first as u32, self.below as u32]
    }
}

/// The kinds of a Start and of its forward parents, the innermost first. Each is taken away, so that it opens nothing again.
fn chain(events: &mut [Event], start: usize) -> Vec<SyntaxKind> {
    let mut kinds = Vec::new();
    let mut at = start;
    while let Event::Start { kind, forward_parent } = std::mem::replace(&mut events[at], Event::Tombstone) {
        kinds.push(kind);
        let Some(on) = forward_parent else { break };
        at += on as usize;
    }
    kinds
}

/// The steps in order: a Start opens its forward parents first, the outermost of them before all.
pub fn steps(mut events: Vec<Event>) -> Vec<Step> {
    let mut steps = Vec::new();
    for at in 0..events.len() {
        match events[at] {
            Event::Start { .. } => steps.extend(chain(&mut events, at).into_iter().rev().map(Step::Enter)),
            Event::Token { kind, .. } => steps.push(Step::Token(kind)),
            Event::Finish => steps.push(Step::Leave),
            Event::Error { .. } | Event::Tombstone => {}
        }
    }
    steps
}

/// The nodes in the order in which they open.
pub fn nodes(steps: &[Step]) -> Vec<Node> {
    let mut nodes: Vec<Node> = Vec::new();
    let mut open: Vec<usize> = Vec::new();
    let mut taken = 0;
    for step in steps {
        match step {
            Step::Enter(kind) => {
                let parent = open.last().copied().unwrap_or(0);
                open.push(nodes.len());
                nodes.push(Node { kind: *kind, parent, first: taken, below: 0 });
            }
            Step::Token(_) => taken += 1,
            Step::Leave => {
                let node = &mut nodes[open.pop().expect("a Finish without a Start")];
                node.below = taken - node.first;
            }
        }
    }
    nodes
}

/// Where the non-trivia tokens stand, then the text's end.
pub fn leaves(tokens: &[(SyntaxKind, usize)]) -> Vec<Range<usize>> {
    let mut leaves = Vec::new();
    let mut at = 0;
    for (kind, len) in tokens {
        if !kind.is_trivia() {
            leaves.push(at..at + len);
        }
        at += len;
    }
    leaves.push(at..at);
    leaves
}
