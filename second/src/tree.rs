//! Trees as rows of words: a lent row taken apart with its order judged (refusal 5), and a row made.

use crate::answer::MOST_NODES;
use crate::sheet::{Sheet, NONTERMINAL};

/// A node's kind at or above this is a production's number plus this.
pub const PRODUCTION: u32 = 256;

/// A node with what is known of its piece: the node and all below it.
#[derive(Clone, Copy, Debug)]
pub struct Node {
    pub kind: u32,
    /// Nodes in the piece, itself included.
    pub size: u32,
    /// Tokens in the piece.
    pub tokens: u32,
    /// The place in the old tree of the same node, for nodes taken from there.
    pub old: Option<u32>,
}

impl Node {
    pub fn token(kind: u32, old: Option<u32>) -> Node {
        Node { kind, size: 1, tokens: 1, old }
    }

    pub fn is_token(&self) -> bool {
        self.kind < PRODUCTION
    }

    /// The production of a node that is no token.
    pub fn production(&self) -> u8 {
        (self.kind - PRODUCTION) as u8
    }

    pub fn symbol(&self, sheet: &Sheet) -> u8 {
        if self.is_token() {
            self.kind as u8
        } else {
            NONTERMINAL + sheet.productions[self.production() as usize].left
        }
    }
}

/// The places of a node's children, right to left, in a row of nodes in written order.
pub fn children(nodes: &[Node], parent: usize) -> impl Iterator<Item = usize> + '_ {
    let begin = piece_begin(nodes, parent);
    let mut end = parent;
    std::iter::from_fn(move || {
        if end == begin {
            return None;
        }
        let child = end - 1;
        end = piece_begin(nodes, child);
        Some(child)
    })
}

/// The place of the first node of a piece, by the place of its last one.
pub fn piece_begin(nodes: &[Node], last: usize) -> usize {
    last + 1 - nodes[last].size as usize
}

/// A lent tree in order.
pub struct OldTree {
    /// In written order; each node's `old` is its own place.
    pub nodes: Vec<Node>,
    pub numbers: Vec<u32>,
    pub next_number: u32,
    /// The places of the tokens among the nodes, left to right.
    pub token_nodes: Vec<usize>,
    /// How many tokens stand before each node.
    tokens_before: Vec<u32>,
}

impl OldTree {
    /// The old tokens of the piece at a node, as a range of their places in the old text.
    pub fn token_range(&self, node: usize) -> std::ops::Range<usize> {
        let begin = self.tokens_before[piece_begin(&self.nodes, node)] as usize;
        begin..begin + self.nodes[node].tokens as usize
    }

    /// The terminal of the first token of a piece that has tokens.
    pub fn first_token(&self, node: usize) -> u8 {
        let token = self.token_nodes[self.token_range(node).start];
        self.nodes[token].kind as u8
    }
}

/// Takes a lent row apart; `None` where the tree is not in order.
pub fn tree_in_order(sheet: &Sheet, row: &[u32]) -> Option<OldTree> {
    let count = *row.first()? as usize;
    let next_number = *row.get(1)?;
    if count == 0 || count > MOST_NODES {
        return None;
    }
    let records = row.get(2..2 + 3 * count)?;
    let nodes = derivation_nodes(sheet, records)?;
    let numbers: Vec<u32> = records.iter().skip(1).step_by(3).copied().collect();
    if !numbers_are_right(&numbers, next_number) {
        return None;
    }
    let (token_nodes, tokens_before) = places_of_tokens(&nodes);
    Some(OldTree { nodes, numbers, next_number, token_nodes, tokens_before })
}

/// The nodes of the records, if these are one derivation tree of the start symbol with right sizes.
fn derivation_nodes(sheet: &Sheet, records: &[u32]) -> Option<Vec<Node>> {
    let mut nodes = Vec::with_capacity(records.len() / 3);
    // The places of the nodes that have no parent yet.
    let mut roots: Vec<usize> = Vec::new();
    for record in records.chunks_exact(3) {
        let place = nodes.len();
        let node = derived_node(sheet, record[0], place, &nodes, &mut roots)?;
        if node.size != record[2] {
            return None;
        }
        roots.push(place);
        nodes.push(node);
    }
    let start = NONTERMINAL + sheet.start();
    (roots.len() == 1 && nodes[roots[0]].symbol(sheet) == start).then_some(nodes)
}

/// The node of a kind over the last roots, which are taken off as its children.
fn derived_node(
    sheet: &Sheet,
    kind: u32,
    place: usize,
    nodes: &[Node],
    roots: &mut Vec<usize>,
) -> Option<Node> {
    if sheet.is_token(kind) {
        return Some(Node::token(kind, Some(place as u32)));
    }
    if kind <= PRODUCTION || kind - PRODUCTION >= sheet.productions.len() as u32 {
        return None;
    }
    let right_side = sheet.productions[(kind - PRODUCTION) as usize].right_side();
    let below = roots.len().checked_sub(right_side.len())?;
    let mut node = Node { kind, size: 1, tokens: 0, old: Some(place as u32) };
    for (&child, &symbol) in roots[below..].iter().zip(right_side) {
        if nodes[child].symbol(sheet) != symbol {
            return None;
        }
        node.size += nodes[child].size;
        node.tokens += nodes[child].tokens;
    }
    roots.truncate(below);
    Some(node)
}

/// Whether the numbers are distinct, at least 1 and below the next number.
fn numbers_are_right(numbers: &[u32], next_number: u32) -> bool {
    let mut sorted = numbers.to_vec();
    sorted.sort_unstable();
    sorted[0] >= 1
        && sorted[sorted.len() - 1] < next_number
        && sorted.windows(2).all(|pair| pair[0] < pair[1])
}

fn places_of_tokens(nodes: &[Node]) -> (Vec<usize>, Vec<u32>) {
    let mut token_nodes = Vec::with_capacity(nodes.len());
    let mut tokens_before = Vec::with_capacity(nodes.len());
    for (place, node) in nodes.iter().enumerate() {
        tokens_before.push(token_nodes.len() as u32);
        if node.is_token() {
            token_nodes.push(place);
        }
    }
    (token_nodes, tokens_before)
}

/// The row of words of a tree.
pub fn row_of(nodes: &[Node], numbers: &[u32], next_number: u32) -> Vec<u32> {
    let mut row = Vec::with_capacity(2 + 3 * nodes.len());
    row.extend([nodes.len() as u32, next_number]);
    for (node, &number) in nodes.iter().zip(numbers) {
        row.extend([node.kind, number, node.size]);
    }
    row
}
