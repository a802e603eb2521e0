//! The tree's records against the steps through the events, on the kept sections and on made ones: the call's words, what `Tree` finds from
//! them, the tokens of the events at which nodes open, and refusal 7 for every number of records that is too small.
mod files;
mod made;
mod records;

use gigboda::{property_section, property_tree, Event, Node, Pushed, Record, Refusal, Refused, Section, Token, Tree, EVENT_WORDS};

/// How many texts are made.
const MADE: usize = 4_000;

/// What every lent word holds before a call.
const OLD: u32 = 2_779_096_485;

/// Up to so many nodes every smaller number of records is tried; of more nodes, about so many are looked at one by one.
const SMALL: usize = 40;

/// The records of the nodes that the steps enter, the open ones in a list.
fn walked(section: &Section) -> Vec<Record> {
    let mut nodes: Vec<Record> = Vec::new();
    let mut open = Vec::new();
    let mut taken = 0;
    for step in section.nodes() {
        match step.node {
            Node::Enter(kind) => {
                nodes.push(Record { kind, parent: open.last().copied().unwrap_or(0), first: taken, below: 0 });
                open.push(nodes.len() - 1);
            }
            Node::Token(_) => taken += 1,
            Node::Leave => {
                let node = &mut nodes[open.pop().expect("one is open")];
                node.below = taken - node.first;
            }
            Node::Error(_) => {}
        }
    }
    assert_eq!((open.len(), taken), (0, section.taken));
    nodes
}

/// The token of the event at which each node opens: a Start to which no earlier one points opens all nodes of its chain.
fn opened_at(section: &Section) -> Vec<usize> {
    let events: Vec<Pushed> = section.events().collect();
    let mut used = vec![false; events.len()];
    let mut tokens = Vec::new();
    for start in 0..events.len() {
        let mut on = (!used[start]).then_some(start);
        while let Some(at) = on {
            let Event::Start { forward_parent, .. } = events[at].event else { break };
            used[at] = true;
            tokens.push(events[start].token);
            on = forward_parent.map(|distance| at + usize::from(distance));
        }
    }
    tokens
}

/// The words that are lent to one call.
struct Lent {
    tokens: Vec<u32>,
    events: Vec<u32>,
    records: Vec<u32>,
}

impl Lent {
    fn new(tokens: usize, events: usize, records: usize) -> Lent {
        Lent { tokens: vec![OLD; tokens], events: vec![OLD; events], records: vec![OLD; records] }
    }

    fn read<'a>(&'a mut self, text: &'a [u8]) -> Result<Tree<'a>, Refused> {
        property_tree(text, &mut self.tokens, &mut self.events, &mut self.records)
    }
}

/// What the call leaves where three more words of each sort are lent than it needs, the records among them.
fn fills_what_it_needs(text: &[u8], section: &Section, wanted: &[Record]) {
    let (tokens, events) = (section.token_words.len(), section.event_words.len());
    let words: Vec<u32> = wanted.iter().flat_map(|r| [r.kind as u32, r.parent as u32, r.first as u32, r.below as u32]).collect();
    let mut lent = Lent::new(tokens + 3, events + 3, words.len() + 3);
    let taken = lent.read(text).expect("not refused").section.taken;
    assert_eq!(taken, section.taken);
    let filled = [(lent.tokens, section.token_words), (lent.events, section.event_words), (lent.records, &words)];
    assert!(filled.iter().all(|(left, wanted)| *left == [wanted, [OLD; 3].as_slice()].concat()), "{text:?}");
}

/// For every smaller number of records, and with three words more, a refusal where the first node without one has its token.
fn refuses_fewer(text: &[u8], section: &Section, leaves: &[Token], wanted: &[Record]) {
    for (records, node) in wanted.iter().enumerate() {
        let place = leaves.get(node.first).map_or(text.len(), |token| token.range.start);
        for more in [0, 3] {
            let mut lent = Lent::new(section.token_words.len(), section.event_words.len(), Tree::RECORD * records + more);
            let refused = lent.read(text).map(|tree| tree.len());
            assert_eq!(refused, Err(Refused { refusal: Refusal::NoRecord, place }), "{records} records for {text:?}");
            assert!([lent.tokens, lent.events, lent.records].concat().iter().all(|word| *word == 0), "{records} records for {text:?}");
        }
    }
}

/// What the tree finds from the records.
fn finds(tree: &Tree, leaves: &[Token], wanted: &[Record]) {
    let mut children = vec![Vec::new(); wanted.len()];
    for (node, record) in wanted.iter().enumerate().skip(1) {
        let parent = &wanted[record.parent];
        assert!(record.parent < node, "a parent behind its child");
        assert!(parent.first <= record.first && record.first + record.below <= parent.first + parent.below, "tokens outside the parent's");
        children[record.parent].push(node);
    }
    let opened = opened_at(&tree.section);
    assert_eq!(opened.len(), wanted.len());
    for node in (0..wanted.len()).step_by(1 + wanted.len() / SMALL) {
        let Record { parent, first, below, .. } = wanted[node];
        let own = &leaves[first..first + below];
        let start = leaves.get(first).map_or(tree.section.text.len(), |token| token.range.start);
        assert_eq!(tree.parent(node), (node > 0).then_some(parent));
        assert!(tree.ancestors(node).eq((node > 0).then_some(parent).into_iter().chain(tree.ancestors(parent))));
        assert!(tree.children(node).eq(children[node].iter().copied()), "children of {node}");
        assert!(tree.tokens(node).eq(own.iter().cloned()), "tokens of {node}");
        assert_eq!(tree.range(node), start..own.last().map_or(start, |token| token.range.end));
        assert_eq!(tree.token_at(start), first);
        assert_eq!((tree.first_token(node), tree.section.token_place(opened[node])), (opened[node], start), "first token of {node}");
        let has_first = |n: &usize| (wanted[*n].first..wanted[*n].first + wanted[*n].below).contains(&first);
        let around: Vec<usize> = (0..wanted.len()).filter(has_first).collect();
        let innermost = tree.innermost(first);
        assert_eq!(innermost, around.last().copied());
        assert!(innermost.is_none_or(|n| tree.ancestors(n).eq(around.iter().rev().skip(1).copied())), "around token {first}");
    }
}

/// Looks at the tree of a text; how many nodes it has, or nothing if it is refused, which both calls do alike.
fn looked_at(text: &[u8], tokens: usize, events: usize) -> Option<usize> {
    let (mut token_words, mut event_words) = (vec![OLD; tokens], vec![OLD; events]);
    let mut lent = Lent::new(tokens, events, Tree::RECORD * gigboda::MOST_NODES);
    let (section, tree) = match (property_section(text, &mut token_words, &mut event_words), lent.read(text)) {
        (Ok(section), Ok(tree)) => (section, tree),
        (section, tree) => {
            assert_eq!(section.map(|_| ()), tree.map(|_| ()), "{text:?}");
            assert!([lent.tokens, lent.events, lent.records].concat().iter().all(|word| *word == 0), "{text:?}");
            return None;
        }
    };
    let wanted = walked(&section);
    let leaves: Vec<Token> = tree.leaves().collect();
    assert!(tree.nodes().eq(wanted.iter().copied()), "{text:?}");
    finds(&tree, &leaves, &wanted);
    fills_what_it_needs(text, &section, &wanted);
    if wanted.len() <= SMALL {
        refuses_fewer(text, &section, &leaves, &wanted);
    }
    Some(wanted.len())
}

#[test]
fn trees_of_kept_sections() {
    let input = files::bytes("crates/replay/stdin");
    let all = records::records(&input);
    let sections = all.iter().filter(|record| record.is_section());
    let nodes: Vec<usize> = sections.filter_map(|r| looked_at(r.text, r.tokens as usize, r.events as usize)).collect();
    assert!(nodes.len() > 1_000, "only {} sections", nodes.len());
    println!("{} kept sections with {} nodes as the events spell them", nodes.len(), nodes.iter().sum::<usize>());
}

#[test]
fn trees_of_made_sections() {
    let nodes: Vec<usize> = made::texts(MADE).iter().filter_map(|t| looked_at(t.as_bytes(), t.len(), 16 * t.len())).collect();
    assert!(nodes.len() > MADE / 2, "only {} sections", nodes.len());
    println!("{} made sections with {} nodes as the events spell them", nodes.len(), nodes.iter().sum::<usize>());
}

/// Chains of as many nodes as there can be, with and without second operands, and 64 openers.
#[test]
fn trees_of_long_and_deep_sections() {
    let sums = format!("properties a=>1{};", "+  1  ".repeat(5_458));
    let products = format!("properties a=>1{};", "*".repeat(8_187));
    let deep = format!("properties a=>{}1{};", "[a=>(".repeat(32), ");]".repeat(32));
    let looked = [sums, products, deep].map(|text| looked_at(text.as_bytes(), gigboda::MOST_BYTES, EVENT_WORDS * gigboda::MOST_EVENTS));
    assert_eq!(looked, [Some(5_458 + 5_459 + 3), Some(8_187 + 4), Some(3 * 32 + 4)]);
}
