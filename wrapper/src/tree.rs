//! A tree as its row of words: count, next number, then kind, number and size of each node, children before their parent.

/// A tree as an accepted call wrote it: always in order. A row of words from elsewhere goes to [`crate::rows::update`], which judges it.
#[derive(Clone, PartialEq, Eq, Debug)]
pub struct Tree {
    words: Vec<u32>,
}

/// What a node is.
#[derive(Clone, Copy, PartialEq, Eq, Debug)]
pub enum Kind {
    /// A token, with its terminal.
    Token(u32),
    /// An inner node, with its production.
    Production(u32),
}

/// One node of a tree.
#[derive(Clone, Copy, PartialEq, Eq, Debug)]
pub struct Node {
    /// What it is.
    pub kind: Kind,
    /// Its number.
    pub number: u32,
    /// The nodes in its piece, itself included.
    pub size: u32,
}

impl Tree {
    /// The tree at the start of a row that an accepted call wrote.
    pub(crate) fn from_row(row: &[u32]) -> Tree {
        Tree { words: row[..2 + 3 * row[0] as usize].to_vec() }
    }

    /// The row of words, 2 + 3n of them.
    pub fn words(&self) -> &[u32] {
        &self.words
    }

    /// How many nodes it has.
    pub fn count(&self) -> usize {
        self.words[0] as usize
    }

    /// The sheet's next number: every number of the tree is below it.
    pub fn next_number(&self) -> u32 {
        self.words[1]
    }

    /// Node i in written order. It panics where i is not below the count.
    pub fn node(&self, i: usize) -> Node {
        let [kind, number, size] = self.words[2 + 3 * i..5 + 3 * i] else { unreachable!() };
        let kind = if kind < 256 { Kind::Token(kind) } else { Kind::Production(kind - 256) };
        Node { kind, number, size }
    }

    /// The nodes in written order; the root is the last.
    pub fn nodes(&self) -> impl Iterator<Item = Node> + '_ {
        (0..self.count()).map(|i| self.node(i))
    }

    /// The children of node i, left to right, by their places in written order.
    pub fn children(&self, i: usize) -> Vec<usize> {
        let first = i + 1 - self.node(i).size as usize;
        let mut children = Vec::new();
        let mut end = i;
        while end > first {
            children.push(end - 1);
            end -= self.node(end - 1).size as usize;
        }
        children.reverse();
        children
    }

    /// The terminals of its text.
    pub fn text(&self) -> Vec<u32> {
        let token =
            |node: Node| if let Kind::Token(terminal) = node.kind { Some(terminal) } else { None };
        self.nodes().filter_map(token).collect()
    }

    /// The place in written order of the node with this number.
    pub fn find(&self, number: u32) -> Option<usize> {
        (0..self.count()).find(|&i| self.node(i).number == number)
    }
}
